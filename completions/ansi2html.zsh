#compdef ansi2html
# The options and files of ansi2html, for zsh.
_arguments \
    '--page[write a whole page]' \
    '--fragment[write the text alone, for a page of yours]' \
    '--title=[write a whole page with this title]:TEXT' \
    '--css=[write a whole page with the stylesheet at this address]:ADDRESS' \
    '--lang=[write a whole page in this language]:TAG' \
    '--light[colours for light pages alone]' \
    '--dark[colours for dark pages alone]' \
    '--classes[attributes class in place of style]' \
    '--lines[write lines that can be linked to, with numbers]' \
    '--scroll[wrap no long lines]' \
    '--urls[make links of addresses in the text]' \
    '--no-hidden[leave out the text that a terminal hides]' \
    '--stylesheet[write the stylesheet of classes, lines and pages]' \
    '--shown=-[write what a terminal, or one of this size, showed]::COLUMNSxROWS:' \
    '(-o --output)'{-o,--output=}'[write to this file, or a page of each file to this folder/]:FILE:_files' \
    '(- *)'{-h,--help}'[say what it does]' \
    '(- *)--version[say which version it is]' \
    '*:FILE:_files'
