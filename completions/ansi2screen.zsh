#compdef ansi2screen
# The options and files of ansi2screen, for zsh.
_arguments \
    '--size=[the size of the screen]:COLUMNSxROWS' \
    '--draw[write the sequences that show it]' \
    '--updates[write these as input comes]' \
    '(-o --output)'{-o,--output=}'[write to this file in place of standard output]:FILE:_files' \
    '(- *)'{-h,--help}'[say what it does]' \
    '(- *)--version[say which version it is]' \
    '1:FILE:_files'
