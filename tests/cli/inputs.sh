# Parts of generated inputs, for the scripts CASE.make.

# So many processes p0, p1, .., each on a machine and in a zone of its own.
processes() {
    awk -v count="$1" 'BEGIN { for (i = 0; i < count; i++) print "proc p" i " m" i " z" i " - -" }'
}

# A text so many times, with nothing between and nothing behind.
repeated() {
    awk -v count="$1" -v text="$2" 'BEGIN { for (i = 0; i < count; i++) printf "%s", text }'
}
