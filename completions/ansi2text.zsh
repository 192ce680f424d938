#compdef ansi2text
# The options and files of ansi2text, for zsh.
_arguments \
    '--safe[write text that hides nothing and keeps its order]' \
    '--lf[drop a carriage return right before a line feed]' \
    '--no-hidden[leave out the text that a terminal hides]' \
    '--shown=-[write what a terminal, or one of this size, showed]::COLUMNSxROWS:' \
    '(-o --output)'{-o,--output=}'[write to this file in place of standard output]:FILE:_files' \
    '(- *)'{-h,--help}'[say what it does]' \
    '(- *)--version[say which version it is]' \
    '*:FILE:_files'
