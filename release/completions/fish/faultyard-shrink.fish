# Completion of faultyard-shrink for fish.

complete -c faultyard-shrink -s h -l help -d "Print help"
complete -c faultyard-shrink -l version -d "Print the version"
complete -c faultyard-shrink -l events -d "The script is the events of a nemesis"
complete -c faultyard-shrink -l tries -x -d "How often a script may succeed before it counts"
complete -c faultyard-shrink -l seed -x -d "The script is what simulate does by this seed"
complete -c faultyard-shrink -l acts -x -d "How many acts it makes"
complete -c faultyard-shrink -l plan -x -a "mixed attrition swizzle rolling" \
    -d "How kills and clogs are drawn"
