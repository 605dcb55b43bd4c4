module krbrelay_runner

go 1.19

require krbrelay v1.1.0

replace krbrelay => ../../../go
