# Completion for bash of the carrier's programs: the options are those that a program's --help has.
_krbrelay_carrier() {
    local word=${COMP_WORDS[COMP_CWORD]}
    [[ $word == -* ]] || return 0
    mapfile -t COMPREPLY < <(compgen -W "$("$1" --help | sed -n 's/^  --/--/p' | grep -oe '--[a-z][a-z-]*')" -- "$word")
}
complete -o default -F _krbrelay_carrier krbrelay-sender krbrelay-receiver krbrelay-status krbrelay-put krbrelay-get
