# Lays out a trace, from the files of its calls and of their answers: the number of the line, that of the
# entry (a look or a full is none), the call and the answer. Behind a refusal or a look stands in brackets
# what it is about.

FILENAME == ARGV[1] {
    calls[++count] = $0
    if (length($0) > width) width = length($0)
    next
}

!form {
    digits = length(count "")
    form = "%" digits "d  %" digits "s  %-" width "s  %s\n"
}

{
    place++
    entry = $1 == "look" || $1 == "full" ? "" : ++entries
    answer = $0
    printf form, place, entry, calls[place], answer about(calls[place], answer)
}
