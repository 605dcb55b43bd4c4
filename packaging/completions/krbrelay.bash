# Completion of the words of krbrelay for bash.
_krbrelay() {
    local word=${COMP_WORDS[COMP_CWORD]} words
    case $COMP_CWORD-${COMP_WORDS[1]-}-${COMP_WORDS[COMP_CWORD - 1]-} in
        1-*) words='show vectors seal open relay -h --help -V --version' ;;
        *-show---key) words= ;;
        *-show---etype) words='17 18' ;;
        *-show-*) words='--any --key --etype -h --help' ;;
        *-open-*) words='--plain -h --help' ;;
        2-vectors-* | 2-seal-* | 2-relay-*) words='-h --help' ;;
        *) words= ;;
    esac
    mapfile -t COMPREPLY < <(compgen -W "$words" -- "$word")
}
complete -o default -F _krbrelay krbrelay
