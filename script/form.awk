# What the line of a call looks like that is bad at `column`: two lines, which of its words is missing, if it ends there,
# and the words of docs/MACHINE.md for it. It says nothing where the call isn't told by the line.

NR == 1 {
    rest = substr($0, column)
    many = split(substr($0, 1, column - 1), word, " ")
    if (index(substr($0, 1, column - 1), " -> ")) exit
    next
}

is_entry($0) { found = words != "" && (words == word[2] || words == word[2] " " word[3]); next }

found && /^\*\*Line\.\*\* / {
    match($0, /`[^`]*`/)
    form = substr($0, RSTART + 1, RLENGTH - 2)
    exit
}

END {
    if (form == "") exit
    print missing()
    print form
}

function missing(    plain, part, parts) {
    plain = form
    sub(/ENVIRONMENT/, "pPOOL PRIORITY LENGTH gGROUP qROUTINE", plain)
    parts = split(plain, part, " ")
    if (rest !~ /^ ?(-> |$)/ || many > parts || !is_whole(word[many], part[many - 1])) return ""
    return part[many]
}

# Whether a word needs no more letters, as far as that is seen.
function is_whole(text, wanted) {
    return text == wanted || text ~ /^[a-z]?[0-9]+$/ || \
        text ~ /^(work|timer|wait|io|high|normal|low|short|long|persistent|persistent-long|keep|cancel|manual|auto|set|clear|mutex|section|semaphore|event|free|owned|none)$/
}
