# The words of parselog, for fish. It takes one; a file comes by <.
complete -c parselog -f
complete -c parselog -n __fish_is_first_arg -a log -d 'write a line for each call'
complete -c parselog -n __fish_is_first_arg -a canon -d 'write the canonical text'
complete -c parselog -s h -l help -d 'say what it does'
complete -c parselog -l version -d 'say which version it is'
