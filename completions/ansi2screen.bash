# The options and files of ansi2screen, for bash.
_ansi2screen() {
    # (what stands behind a = comes as a word of its own, and is completed as a file)
    COMPREPLY=()
    [[ $2 == -* && $3 != @(-o|--output|--size) ]] || return
    mapfile -t COMPREPLY < <(compgen -W '--size= --draw --updates --output= --help --version' -- "$2")
    [[ ${#COMPREPLY[@]} -ne 1 || $COMPREPLY != *= ]] || compopt -o nospace
}
complete -o bashdefault -o default -F _ansi2screen ansi2screen
