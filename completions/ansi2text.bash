# The options and files of ansi2text, for bash.
_ansi2text() {
    # (what stands behind a = comes as a word of its own, and is completed as a file)
    COMPREPLY=()
    [[ $2 == -* && $3 != @(-o|--output) ]] || return
    mapfile -t COMPREPLY < <(compgen -W '--safe --lf --no-hidden --shown --shown= --output= --help --version' -- "$2")
    [[ ${#COMPREPLY[@]} -ne 1 || $COMPREPLY != *= ]] || compopt -o nospace
}
complete -o bashdefault -o default -F _ansi2text ansi2text
