# Says which word is meant where a line has one that can't stand in its place: from the line, and from the
# headings of docs/MACHINE.md. `column` is where the line can't be right. It says nothing where no word is
# near, or where it isn't the word that is wrong.

NR == 1 {
    find_word()
    if (word == "" || index(substr($0, 1, start), " -> ")) exit
    nearest = (length(word) < 4 ? 1 : 2) + 1
    consider_choices()
    next
}

is_entry($0) && words != "" { consider_line() }
place <= 2 && is_entry($0) { consider_functions() }

END {
    if (meant != "" && place == 1) print "a line begins with an actor, as c1 or w1"
    if (meant == "" || meant == tolower(word) || place == 1) exit
    if (meant ~ /^[A-Z]/) print meant (line == "" ? " has no line of its own" : " is written `" line "`") ": ./tpool calls " meant
    else print "`" meant "` is meant, it seems" (line == "" ? "" : ": ./tpool calls " line)
}

# Finds the word at the column, the words before it, and it and its neighbour as they would be one word.
function find_word(    rest) {
    start = column
    while (start > 1 && substr($0, start - 1, 1) != " ") start--
    place = split(substr($0, 1, start - 1), before, " ") + 1
    rest = substr($0, start)
    if (!match(rest, /^[A-Za-z][A-Za-z0-9-]*/) || substr(rest, RLENGTH + 1) !~ /^($|[ (])/) return
    word = substr(rest, 1, RLENGTH)
    rest = substr(rest, RLENGTH + 1)
    if (place == 2 && match(rest, /^ [a-z]+/)) pair = word "-" substr(rest, 2, RLENGTH - 1)
    if (place == 3) pair = before[2] "-" word
}

# The words of a line: the first one, what is two words and was written as one, what is one and was written
# as two, and the second one.
function consider_line(    one, first, second) {
    one = first = words
    sub(/ /, "-", one)
    sub(/ .*/, "", first)
    second = substr(words, length(first) + 2)
    if (place <= 2) consider(first, first, first)
    if (place <= 2 && second != "") consider(one, words, words)
    if (second == "" && pair == words) { nearest = 0; meant = line = words }
    if (place == 3 && first == before[2] && second != "") consider(second, second, words)
}

function consider_functions(    each, count) {
    for (count = split_names(each); count; count--) if (each[count] ~ /^[A-Z][A-Za-z]+$/) consider(each[count], each[count], words)
}

# The words of which one stands in a place behind the call, where they are few.
function consider_choices(    each, count) {
    for (count = split(choices_of(before[2], place), each, " "); count; count--) consider(each[count], each[count], "")
}

function choices_of(call, at) {
    if (call == "create" && at == 7 || call == "submit-simple" && at == 6) return "high normal low"
    if (call == "create" && at == 8 || call == "submit-simple" && at == 7) return "short long persistent persistent-long"
    if (call == "wait" && at == 5 || call == "close-members" && at == 4) return "keep cancel"
    if (call == "create-event") return at == 3 ? "manual auto" : at == 4 ? "set clear" : ""
    if (call == "create-lock") return at == 3 ? "mutex section" : at == 4 ? "free owned" : ""
    if (call == "release-lock" && at == 3) return "mutex section"
    if (call == "on-return" && at == 3) return "section mutex semaphore event"
    if (call == "queue-item" && at == 5) return "short long"
    if (call == "register") return at == 6 ? "none" : at == 7 ? "once repeat" : ""
    if (call ~ /^set-(timer|timer-ex|wait)$/ && at == 4 || call == "set-wait" && at == 5) return "none"
    return ""
}

# Takes a word as the one that is meant if it is nearer than all before; `of` is the line that it belongs to.
function consider(candidate, text, of,    far) {
    far = distance(tolower(word), tolower(candidate))
    if (far >= nearest || far >= length(candidate)) return
    nearest = far
    meant = text
    line = of
}
