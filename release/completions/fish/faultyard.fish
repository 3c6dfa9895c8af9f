# Completion of faultyard for fish.

set -l commands judge run check swarm simulate guard show bears verdict linear config help

complete -c faultyard -f
complete -c faultyard -s h -l help -d "Print help"
complete -c faultyard -n "not __fish_seen_subcommand_from $commands" -s V -l version \
    -d "Print version"
complete -c faultyard -n "not __fish_seen_subcommand_from $commands" -a judge \
    -d "Reads policies, processes and asks from standard input, and answers each ask"
complete -c faultyard -n "not __fish_seen_subcommand_from $commands" -a run \
    -d "Runs the script on standard input on the cluster of a file, and writes the audit"
complete -c faultyard -n "not __fish_seen_subcommand_from $commands" -a check \
    -d "Checks the audit on standard input: is each reply what the rules give?"
complete -c faultyard -n "not __fish_seen_subcommand_from $commands" -a swarm \
    -d "Lets every actor of a cluster file loose, each on a thread, and writes the audit"
complete -c faultyard -n "not __fish_seen_subcommand_from $commands" -a simulate \
    -d "Lets the actors of a cluster file take turns, as a seed says, and writes the audit"
complete -c faultyard -n "not __fish_seen_subcommand_from $commands" -a guard \
    -d "Answers each line of a script at once: what may be done to real processes?"
complete -c faultyard -n "not __fish_seen_subcommand_from $commands" -a show \
    -d "Draws the audit on standard input as a picture, an SVG file"
complete -c faultyard -n "not __fish_seen_subcommand_from $commands" -a bears \
    -d "Says how many processes, and which machines and zones, a cluster can lose"
complete -c faultyard -n "not __fish_seen_subcommand_from $commands" -a verdict \
    -d "Says what became of each record of a history, and whose fault each loss is"
complete -c faultyard -n "not __fish_seen_subcommand_from $commands" -a linear \
    -d "Says which keys of a history aren't linearizable registers"
complete -c faultyard -n "not __fish_seen_subcommand_from $commands" -a config \
    -d "Says how much is in a cluster file, or where its fault lies and what is expected"
complete -c faultyard -n "not __fish_seen_subcommand_from $commands" -a help \
    -d "Print this message or the help of the given subcommand(s)"
complete -c faultyard -k -a "(__fish_complete_suffix .toml)" \
    -n "__fish_seen_subcommand_from run check swarm simulate guard show bears verdict config"
complete -c faultyard -n "__fish_seen_subcommand_from swarm simulate" -l seed -x \
    -d "What the plans of the actors are drawn from, from 0 to 2^64 - 1"
complete -c faultyard -n "__fish_seen_subcommand_from simulate" -l acts -x \
    -d "How many acts are made, if the journal has room for them (10000)"
complete -c faultyard -n "__fish_seen_subcommand_from simulate" -l plan -x \
    -a "mixed attrition swizzle rolling" \
    -d "How kills and clogs are drawn: mixed, attrition, swizzle or rolling (mixed)"
complete -c faultyard -n "__fish_seen_subcommand_from show" -l times -r -F \
    -d "The events of the run, a file: columns are laid by their times"
complete -c faultyard -n "__fish_seen_subcommand_from guard" -l after -r -F \
    -d "The audit, a file, behind whose last entry the guard goes on"
complete -c faultyard -n "__fish_seen_subcommand_from guard" -l questions \
    -d 'Answers questions too: a line {"ask":..} with a line {"told":..}'
complete -c faultyard -n "__fish_seen_subcommand_from bears" -l json -d "Writes one JSON object"
complete -c faultyard -n "__fish_seen_subcommand_from bears" -l after -r -F \
    -d "The audit, a file, from whose last entry on losses are counted"
complete -c faultyard -n "__fish_seen_subcommand_from bears" -l elections -x \
    -d "The policy that the voters for a leader satisfy: tells what may forget"
complete -c faultyard -n "__fish_seen_subcommand_from verdict" -l audit -r -F \
    -d "The audit of the run, a file"
complete -c faultyard -n "__fish_seen_subcommand_from verdict" -l fresh \
    -d "A record that was stale gives status 7: the store promises fresh reads"
complete -c faultyard -l explain \
    -n "__fish_seen_subcommand_from run check swarm simulate guard show bears verdict config" \
    -d "Says below a fault or a bad entry what is wrong, as on a terminal"
complete -c faultyard -n "__fish_seen_subcommand_from help" \
    -a "judge run check swarm simulate guard show bears verdict linear config"
