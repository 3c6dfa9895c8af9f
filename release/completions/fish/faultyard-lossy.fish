# Completion of faultyard-lossy for fish.

complete -c faultyard-lossy -s h -l help -d "Print help"
complete -c faultyard-lossy -l version -d "Print the version"
complete -c faultyard-lossy -l deaf -d "Syncs do nothing"
complete -c faultyard-lossy -s f -l foreground -d "Stay in the foreground"
complete -c faultyard-lossy -l writeback -x -d "What is so old is durable by itself"
complete -c faultyard-lossy -n __fish_is_first_arg -x -a "mount sync cut unmount slow room fail lie"
