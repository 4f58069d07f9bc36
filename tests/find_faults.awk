# Finds the first fault of each script of a text, in which a line `--` stands between each two scripts: its
# line, its column and its kind, or how many clients there are. Each line of the language that may stand in
# a place is tried on the words there. The fault is at the first word up to which none goes along.

$0 == "--" { tell_script(); next }
{ text[++count] = $0 }
END { tell_script() }

function tell_script(    number, told) {
    split("", sort)
    split("", local)
    split("", was_local)
    split("", made)
    split("", used)
    section = ""
    begun = clients = locals = 0
    # behind the last line feed there is no line
    if (text[count] == "") count--
    find_routines()
    for (number = 1; number <= count && told == ""; number++) {
        told = fault_of(text[number])
        if (told != "") told = number " " told
    }
    if (told == "" && section != "") told = count + 1 " 1 Unclosed"
    print told == "" ? clients + 1 " clients" : told
    count = 0
}

# The names of routines are known from the first line on.
function find_routines(    number) {
    split("", is_routine)
    for (number = 1; number <= count; number++)
        if (split_words(text[number]) > 1 && word[1] == "routine" && is_name(word[2])) is_routine[word[2]]
}

# The words of a line and their columns.
function split_words(line,    at, rest) {
    words = 0
    at = 1
    while (match(substr(line, at), /[^ ]+/)) {
        word[++words] = substr(line, at + RSTART - 1, RLENGTH)
        column[words] = at + RSTART - 1
        at = at + RSTART - 1 + RLENGTH
    }
    column[words + 1] = at
    return words
}

# The column and the kind of a line's fault, or nothing.
function fault_of(line,    which) {
    if (!split_words(line) || word[1] ~ /^#/) return ""
    reached = 0
    whole = 0
    for (which = 1; which <= lines; which++) if (may_stand(place[which])) go_along(which, 1, 1)
    if (!whole) return column[reached + 1] " " kind_of(word[reached + 1])
    take_note()
    return ""
}

function may_stand(where) {
    sub(/^tried /, "", where)
    if (section != "") return has("once operation mark", where) || where == "own" && section == "routine"
    return where == "declaration" && !begun || where == "routine" && !clients || where == "client" && clients < 15
}

# Goes along a line of the language from a field and a word on, in each way that there is.
function go_along(which, at, from,    here) {
    here = field[which, at]
    if (here == "[") go_along(which, behind(which, at), from)
    if (here == "[" || here == "]") { go_along(which, at + 1, from); return }
    if (from - 1 > reached) { reached = from - 1; expected = "" }
    if (from - 1 == reached) expected = expected " " here
    if (at > size[which]) whole = whole || from > words
    else if (from <= words && goes(here, word[from], from)) go_along(which, at + 1, from + 1)
}

# The place behind the bracket that ends what one begins.
function behind(which, at,    open) {
    do {
        if (field[which, at] == "[") open++
        if (field[which, at] == "]") open--
        at++
    } while (open)
    return at
}

# Whether a word may stand for a field.
function goes(here, what, at) {
    if (here in choices) return has(choices[here], what)
    if (here == "DUE") return what == "none" || is_signed(what)
    if (here == "ARMED" && what == "none") return 1
    if (here == "UNUSED" && what in used || here == "USED" && !(what in used)) return 0
    if (here in sorts) return has(sorts[here], sort_of(what))
    if (here == "ROUTINE") return what in is_routine
    if (here == "NEW") return is_name(what) && !(what in sort) && !(what in was_local) && made[tally(word[1])] < limit(tally(word[1]))
    if (here == "LOCAL") return is_name(what) && sort_of(what) == "-" && locals < 32
    if (here == "LIMIT") return is_number(what, word[at - 1] == "0" ? "1" : word[at - 1], most[here])
    if (here in most) return is_number(what, here in least ? least[here] : "0", most[here])
    return what == here
}

# What a name stands for on this line, or `-`. A section's own names come first.
function sort_of(what) {
    return what in local ? local[what] : what in sort ? sort[what] : "-"
}

function is_name(what) {
    return what ~ /^[a-z][a-z0-9_]*$/ && length(what) <= 32 && what != "none"
}

function is_number(what, from, to) {
    return what ~ /^(0|[1-9][0-9]*)$/ && !is_above(from, what) && !is_above(what, to)
}

function is_signed(what) {
    return what ~ /^-/ ? is_number(substr(what, 2), "1", "9223372036854775808") : is_number(what, "0", most["TICKS"])
}

# Whether a number is above another, of as many digits as you like.
function is_above(one, other) {
    return length(one) != length(other) ? length(one) > length(other) : "n" one > "n" other
}

# What the new names of a line are counted with, and how many there may be.
function tally(head) {
    return has(sorts["OBJECT"], head) ? "object" : has(sorts["KERNEL"], head) ? "kernel" : head
}
function limit(of) {
    return of == "pool" ? 63 : of == "memory" ? 64 : of == "group" ? 255 : of == "kernel" ? 1024 : 65535
}

# The kind of the fault at a word, where `expected` has the fields that may stand there.
function kind_of(what) {
    if (reached == words) return "Unexpected"
    if (reached == 0) return what == "client" && section == "" ? "TooMany" : "Unexpected"
    if (!is_name(what)) return "Unexpected"
    if (has(expected, "LOCAL")) return sort_of(what) == "-" ? "TooMany" : "NameTwice"
    if (has(expected, "NEW")) return what in sort || what in was_local ? "NameTwice" : "TooMany"
    if (!expects_name() || expects_memory() && sort_of(what) == "memory") return "Unexpected"
    return sort_of(what) != "-" || what in is_routine ? "WrongName" : "UnknownName"
}

function expects_name(    fields, at) {
    for (at = split(expected, fields, " "); at; at--) if (fields[at] in sorts || fields[at] == "ROUTINE") return 1
    return 0
}

# A memory that the section doesn't use, or one that it uses.
function expects_memory() {
    return has(expected, "UNUSED") || has(expected, "USED")
}

# What a good line makes known.
function take_note() {
    if (word[1] == "client") { section = "client"; clients++ }
    if (word[1] == "routine") section = "routine"
    if (section != "") begun = 1
    if (word[1] == "done") section = ""
    if (word[1] == "routine" || word[1] == "client") { split("", local); split("", used); locals = 0 }
    if (word[1] == "use") used[word[2]]
    if (word[1] == "drop") delete used[word[2]]
    if (word[1] == "let") take_local(word[2], word[3])
    else if (word[1] == "issue-io") take_local(word[3], "operation")
    else if (word[1] == "try" && word[2] == "let") take_local(word[3], word[4])
    else if (word[1] == "try" && word[2] == "issue-io") take_local(word[4], "operation")
    else if (section == "" && word[1] != "done" || word[1] == "routine") { sort[word[2]] = word[1]; made[tally(word[1])]++ }
}

function take_local(name, of) {
    local[name] = of
    was_local[name]
    locals++
}
