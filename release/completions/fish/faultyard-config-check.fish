# Completion of faultyard-config-check for fish.

complete -c faultyard-config-check -s h -l help -d "Print help"
complete -c faultyard-config-check -l version -d "Print the version"
