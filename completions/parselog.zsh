#compdef parselog
# The words of parselog, for zsh. It takes one; a file comes by <.
_arguments \
    '(- *)'{-h,--help}'[say what it does]' \
    '(- *)--version[say which version it is]' \
    '1:word:((log\:"write a line for each call" canon\:"write the canonical text"))'
