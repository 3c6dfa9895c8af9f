# Prints what zsh offers behind a command line, each with OFFER: before it.
#
#   zsh -f tests/dist/offered.zsh FOLDER_OF_COMPLETIONS LINE
zmodload zsh/zpty
zpty shell zsh -f -i
start="fpath=(${(q)1} \$fpath); autoload -U compinit; compinit -u -D"
zpty -w shell "PS1= PROMPT2= ; unsetopt zle_bracketed_paste; $start"
# compadd is where each completion hands over its words.
told='local -a m; builtin compadd -A m "$@"; (( ${#m} )) && print -rl -- "OFFER:"${^m}; return 0'
zpty -w shell "compadd () { $told }"
offered='_main_complete; print -r -- "END OF OFFERS"; exit 0'
zpty -w shell "offer () { $offered }; zle -C offer complete-word offer; bindkey \"^I\" offer"
zpty -w shell 'print RE""ADY'
zpty -r shell out '*READY*'
zpty -w -n shell "$2"$'\t'
zpty -r shell out '*END OF OFFERS*'
print -r -- "${out//$'\r'/}"
zpty -d shell
