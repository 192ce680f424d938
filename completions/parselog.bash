# The words of parselog, for bash. It takes one.
_parselog() {
    COMPREPLY=()
    # (a file comes by <)
    if [[ $3 == *[\<\>] ]]; then
        compopt -o default
        return
    fi
    [[ $COMP_CWORD -le 1 ]] || return
    mapfile -t COMPREPLY < <(compgen -W 'log canon --help --version' -- "$2")
}
complete -F _parselog parselog
