# The options and files of ansi2html, for bash.
_ansi2html() {
    # (what stands behind a = comes as a word of its own, and is completed as a file)
    COMPREPLY=()
    [[ $2 == -* && $3 != @(-o|--output|--title|--css|--lang) ]] || return
    mapfile -t COMPREPLY < <(compgen -W '--page --fragment --title= --css= --lang= --light --dark --classes --lines --scroll --urls --no-hidden --stylesheet --shown --shown= --output= --help --version' -- "$2")
    [[ ${#COMPREPLY[@]} -ne 1 || $COMPREPLY != *= ]] || compopt -o nospace
}
complete -o bashdefault -o default -F _ansi2html ansi2html
