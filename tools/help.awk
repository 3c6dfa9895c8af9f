# Prints each target of a Makefile, and what the lines with two signs above it say.
# Such a text may begin with a variable that the target takes, as PREFIX=..

/^## / {
    text = text " " substr($0, 4)
    next
}

/^[a-z][a-z-]*:/ && text != "" {
    count = split(text, words, " ")
    line = "make " substr($0, 1, index($0, ":") - 1)
    first = 1
    if (words[1] ~ /=/) line = line " " words[first++]
    line = sprintf("%-21s", line)
    if (length(line) > 21) {
        print line
        line = sprintf("%-21s", "")
    }
    for (at = first; at <= count; at++) {
        if (length(line) + 1 + length(words[at]) > 100) {
            print line
            line = sprintf("%-21s", "")
        }
        line = line " " words[at]
    }
    print line
}

!/^#/ { text = "" }
