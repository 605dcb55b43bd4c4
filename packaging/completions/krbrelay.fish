# Completion of the words of krbrelay for fish.
complete -c krbrelay -n __fish_use_subcommand -f -a show -d 'Prints the messages of the input, and under a key what is inside'
complete -c krbrelay -n __fish_use_subcommand -f -a vectors -d 'Prints the published vectors of the ciphers, one a line'
complete -c krbrelay -n __fish_use_subcommand -f -a seal -d 'Seals the texts of a job, and prints the frames'
complete -c krbrelay -n __fish_use_subcommand -f -a open -d 'Opens the frames of a job, and prints the outcome of each'
complete -c krbrelay -n __fish_use_subcommand -f -a relay -d "Relays the texts of a job's senders, and prints the outcome of each frame"
complete -c krbrelay -n '__fish_seen_subcommand_from show' -f -l any -d 'reads digits with separators between them, and one message over several lines'
complete -c krbrelay -n '__fish_seen_subcommand_from show' -r -l key -d 'a file with the key: digits or bytes, 16 bytes or 32'
complete -c krbrelay -n '__fish_seen_subcommand_from show' -x -l etype -a '17 18' -d "the key's encryption type, 17 or 18; by default that of its size"
complete -c krbrelay -n '__fish_seen_subcommand_from open' -f -l plain -d 'takes user data as they are, and not as records'
complete -c krbrelay -s h -l help -d 'Print help'
complete -c krbrelay -n __fish_use_subcommand -s V -l version -d 'Print version'
