#compdef ansi2svg
# The options and files of ansi2svg, for zsh.
_arguments \
    '--size=[the size of the screen]:COLUMNSxROWS' \
    '--shown[draw all that the screen showed]' \
    '--light[colours for light pages alone]' \
    '--dark[colours for dark pages alone]' \
    '--cursor[draw the cursor]' \
    '--window[draw the bar of a window]' \
    '--title=[the title of the picture]:TEXT' \
    '--font=[the fonts, as CSS names them]:FONTS' \
    '(-o --output)'{-o,--output=}'[write to this file in place of standard output]:FILE:_files' \
    '(- *)'{-h,--help}'[say what it does]' \
    '(- *)--version[say which version it is]' \
    '1:FILE:_files'
