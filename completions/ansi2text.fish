# The options and files of ansi2text, for fish.
complete -c ansi2text -l safe -d 'write text that hides nothing and keeps its order'
complete -c ansi2text -l lf -d 'drop a carriage return right before a line feed'
complete -c ansi2text -l no-hidden -d 'leave out the text that a terminal hides'
complete -c ansi2text -l shown -d 'write what a terminal showed'
complete -c ansi2text -s o -l output -r -F -d 'write to this file in place of standard output'
complete -c ansi2text -s h -l help -d 'say what it does'
complete -c ansi2text -l version -d 'say which version it is'
