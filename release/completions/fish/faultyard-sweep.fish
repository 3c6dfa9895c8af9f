# Completion of faultyard-sweep for fish.

complete -c faultyard-sweep -s h -l help -d "Print help"
complete -c faultyard-sweep -l version -d "Print the version"
complete -c faultyard-sweep -l simulate -d "Run simulate in place of swarm"
complete -c faultyard-sweep -l acts -x -d "How many acts it makes"
complete -c faultyard-sweep -l plan -x -a "mixed attrition swizzle rolling" \
    -d "How kills and clogs are drawn"
complete -c faultyard-sweep -n "test (count (commandline -opc)) -eq 1" -f -k \
    -a "(__fish_complete_suffix .toml)" \
    -d "Cluster file"
complete -c faultyard-sweep -n "test (count (commandline -opc)) -eq 4" -f \
    -a "(__fish_complete_directories)" \
    -d "Folder of the results"
