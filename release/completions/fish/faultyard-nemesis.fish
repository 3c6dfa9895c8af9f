# Completion of faultyard-nemesis for fish.

complete -c faultyard-nemesis -s h -l help -d "Print help"
complete -c faultyard-nemesis -l version -d "Print the version"
complete -c faultyard-nemesis -l seed -x -d "The orders are drawn from this seed"
complete -c faultyard-nemesis -l seconds -x -d "How long records are written"
complete -c faultyard-nemesis -l plan -x \
    -a "mixed attrition swizzle rolling blackout partition" -d "How orders are drawn"
complete -c faultyard-nemesis -l plan -x \
    -a "slow lossy-net slow-disk full-disk skew" -d "How orders are drawn"
complete -c faultyard-nemesis -l beside -x -a "partition slow lossy-net slow-disk full-disk skew" \
    -d "What is drawn beside, and destroys nothing"
complete -c faultyard-nemesis -l kinds -x -d "How often each kind is drawn"
complete -c faultyard-nemesis -l pauses -x -d "Pauses between orders"
complete -c faultyard-nemesis -l when-whole -d "Orders wait until all are whole"
complete -c faultyard-nemesis -l stops -x -d "How often the hook stop ends a process"
complete -c faultyard-nemesis -l replay -r -d "Do the orders of this events.jsonl"
complete -c faultyard-nemesis -l resume -r -d "Go on with the run in a folder that died"
complete -c faultyard-nemesis -l on -x -d "Where processes run: ssh, units, containers, pods"
complete -c faultyard-nemesis -l attach -x -d "Strike the cluster of this name, which is up"
complete -c faultyard-nemesis -l at -r -F -d "Where each process is reached"
complete -c faultyard-nemesis -l disks -x -a "ext4 xfs lossy own" \
    -d "A disk for each process, whose power a Reboot cuts"
complete -c faultyard-nemesis -l tear -x -a "none draw" \
    -d "What a power cut keeps of what was unsynced"
complete -c faultyard-nemesis -l deaf-disks -d "Syncs do nothing"
complete -c faultyard-nemesis -l damage -x \
    -a "noticed bits zeros swap misdirect missing error truncate rollback" \
    -d "What RebootAndDelete does to disks"
complete -c faultyard-nemesis -l damage-seconds -x -d "How long a damaged process is asked"
complete -c faultyard-nemesis -l damaged-primary -d "A damaged primary keeps its role"
complete -c faultyard-nemesis -l net -d "A host for each process, whose cable a Clog pulls"
complete -c faultyard-nemesis -l latency -x -d "How long each packet takes, as 20+-5 ms"
complete -c faultyard-nemesis -l skew -x -d "Each clock is off by up to so many seconds"
complete -c faultyard-nemesis -l uptime -x -d "Each monotonic clock is ahead by up to so many"
complete -c faultyard-nemesis -l clog -x -a "both out in" -d "What a Clog loses with --net"
complete -c faultyard-nemesis -l unguarded -d "Do what was ordered, whatever the guard says"
complete -c faultyard-nemesis -l check-hooks -d "Call each hook on a calm cluster"
complete -c faultyard-nemesis -l writers -x -d "How many write hooks run"
complete -c faultyard-nemesis -l readers -x -d "How many check hooks run"
complete -c faultyard-nemesis -l edn -r -d "Print the history of a run as EDN"
complete -c faultyard-nemesis -l registers -x -d "Write N keys again and again"
complete -c faultyard-nemesis -l hook-timeout -x -d "How long a hook may take"
complete -c faultyard-nemesis -l guard -r -F -d "Ask a faultyard-serve, by its socket or URL"
complete -c faultyard-nemesis -l tokens -r -F -d "Tokens for that server"
complete -c faultyard-nemesis -l out -r -d "The folder of the run"
complete -c faultyard-nemesis -l keep -d "Keep the data of the processes"
complete -c faultyard-nemesis -l quiet -d "Print the summary alone"
complete -c faultyard-nemesis -l strict -d "A status of its own where little was tested"
