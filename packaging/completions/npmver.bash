_npmver() {
    local word=${COMP_WORDS[COMP_CWORD]}
    COMPREPLY=()
    case $COMP_CWORD in
        1) COMPREPLY=($(compgen -W "fits fits-pre best normal meet --help --version" -- "$word")) ;;
        2) [ "${COMP_WORDS[1]}" = meet ] || COMPREPLY=($(compgen -W "npm normal strict" -- "$word")) ;;
    esac
}
complete -F _npmver npmver
