# How docs/MACHINE.md heads the entry of a call: `### ` and the words that its line begins with, in
# backticks, a colon, and its Win32 functions with commas between them, or what it stands for where there
# is none. What a Windows program does by no line of its own is headed by the functions alone.

# Reads a line, and answers whether it heads an entry: its `words` ("" where it has no line) and `names`.
function is_entry(line) {
    if (line !~ /^### /) return 0
    words = ""
    names = substr(line, 5)
    if (match(names, /^`[a-z -]+`: /)) {
        words = substr(names, 2, RLENGTH - 4)
        names = substr(names, RLENGTH + 1)
    }
    return 1
}

# Whether a text is one of the names that a heading has, in capitals or not.
function is_named(text,    each, count) {
    count = split_names(each)
    while (count) if (tolower(each[count--]) == tolower(text)) return 1
    return 0
}

# The names of a heading one by one. Behind the last one ` and others` may stand.
function split_names(each,    plain) {
    plain = names
    sub(/ and others$/, "", plain)
    return split(plain, each, ", ")
}
