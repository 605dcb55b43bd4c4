# Completion for fish of the carrier's programs: the options are those that a program's --help has.
for program in krbrelay-sender krbrelay-receiver krbrelay-status krbrelay-put krbrelay-get
    complete -c $program -a "($program --help | string match -r '^  --.*' | string match -ar -- '--[a-z][a-z-]*')"
end
