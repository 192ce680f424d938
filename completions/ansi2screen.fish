# The options and files of ansi2screen, for fish.
complete -c ansi2screen -l size -x -d 'the size of the screen'
complete -c ansi2screen -l draw -d 'write the sequences that show it'
complete -c ansi2screen -l updates -d 'write these as input comes'
complete -c ansi2screen -s o -l output -r -F -d 'write to this file in place of standard output'
complete -c ansi2screen -s h -l help -d 'say what it does'
complete -c ansi2screen -l version -d 'say which version it is'
