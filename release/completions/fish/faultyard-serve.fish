# Completion of faultyard-serve for fish.

complete -c faultyard-serve -s h -l help -d "Print help"
complete -c faultyard-serve -l version -d "Print the version"
complete -c faultyard-serve -l audit -r -F -d "The audit, which is gone on with"
complete -c faultyard-serve -l socket -r -F -d "Where the Unix socket is"
complete -c faultyard-serve -l socket-mode -r -f -a "0600 0660" -d "Who may connect there"
complete -c faultyard-serve -l listen -x -d "Answer HTTP at a host and a port"
complete -c faultyard-serve -l tokens -r -F -d "Who may ask by HTTP"
complete -c faultyard-serve -l tls-cert -r -F -d "The certificate of TLS"
complete -c faultyard-serve -l tls-key -r -F -d "Its key"
