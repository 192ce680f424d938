# The options and files of ansi2svg, for bash.
_ansi2svg() {
    # (what stands behind a = comes as a word of its own, and is completed as a file)
    COMPREPLY=()
    [[ $2 == -* && $3 != @(-o|--output|--size|--title|--font) ]] || return
    mapfile -t COMPREPLY < <(compgen -W '--size= --shown --light --dark --cursor --window --title= --font= --output= --help --version' -- "$2")
    [[ ${#COMPREPLY[@]} -ne 1 || $COMPREPLY != *= ]] || compopt -o nospace
}
complete -o bashdefault -o default -F _ansi2svg ansi2svg
