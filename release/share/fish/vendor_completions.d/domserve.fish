# Completion of domserve's options for fish.
complete -c domserve -f
complete -c domserve -l line -x -d 'How many bytes a line may have'
complete -c domserve -l numbers -x -d 'How many numbers there are of each kind of object'
complete -c domserve -s h -l help -d 'Print help'
complete -c domserve -s V -l version -d 'Print the version'
