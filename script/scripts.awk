# Says a likely cause of a script's bad line, from the whole script: `line` and `column` are the place where it
# is bad (docs/FORMATS.md, The place of a fault in a script). It says nothing where it sees none.

BEGIN {
    declarations = "pool group event semaphore mutex section memory work timer wait io"
    operations = "simple submit set-timer set-timer-ex is-timer-set set-wait start-io cancel-io issue-io complete-io complete-next let close wait close-members " \
        "close-group close-pool set-maximum set-minimum set-event reset-event release-semaphore release acquire try-acquire advance " \
        "times if unless try may-run-long disassociate on-return"
    marks = "use drop free quiet"
    with_options = "work timer wait io let simple"
    options = "context in priority long persistent group cancel"
    title["work"] = "work object"
    title["timer"] = "timer"
    title["wait"] = "wait object"
    title["io"] = "I/O object"
    # whose name stands behind these words
    want("work object", "submit")
    want("timer", "set-timer set-timer-ex is-timer-set")
    want("wait object", "set-wait")
    want("I/O object", "start-io cancel-io issue-io complete-next")
    want("operation", "complete-io")
    want("object", "close wait")
    want("group", "close-members close-group group")
    want("pool", "close-pool set-maximum set-minimum in")
    want("event", "set-event reset-event")
    want("semaphore", "release-semaphore")
    want("mutex or section", "release")
    want("kernel object", "acquire try-acquire on-return if unless")
    want("routine", "simple cancel")
    want("memory", marks)
    want("object or group", "quiet")
    # what stands at a place that has no name
    put("event 3", "`manual` or `auto`")
    put("event 4", "`set` or `clear`")
    put("semaphore 3", "the count that it begins with, a number up to 2147483647,")
    put("semaphore 4", "its maximum, a number from 1 to 2147483647 and not below its count,")
    put("let 3", "`work`, `timer`, `wait` or `io`")
    put("wait 3, close-members 3", "`keep` or `cancel`")
    put("set-timer 3, set-timer-ex 3", "a due time in units of 100 ns, or `none`,")
    put("set-wait 4", "a timeout in units of 100 ns, or `none`,")
    put("set-timer 4, set-timer-ex 4", "a period in milliseconds, up to 4294967295,")
    put("set-timer 5, set-timer-ex 5", "a window in milliseconds, up to 4294967295,")
    put("advance 2", "a time in units of 100 ns, up to 9223372036854775807,")
    put("complete-io 3, complete-next 3", "an error, a number up to 4294967295,")
    put("complete-io 4, complete-next 4, close-members 4, context", "a number up to 18446744073709551615")
    put("set-maximum 3, set-minimum 3, max, min", "a number up to 4294967295")
    put("release-semaphore 3, on-return 3", "a number from 1 to 2147483647")
    put("times 2", "a number from 1 to 10000")
    put("priority", "`high`, `normal` or `low`")
    # how many words there may be
    most_words(1, "client done may-run-long disassociate")
    most_words(2, "group mutex section memory " marks " routine submit is-timer-set start-io cancel-io close close-group close-pool set-event reset-event release " \
        "acquire try-acquire advance")
    most_words(3, "issue-io wait set-maximum set-minimum release-semaphore on-return")
    most_words(4, "event semaphore set-wait complete-io complete-next close-members")
    most_words(5, "set-timer set-timer-ex")
    most_words(6, "pool")
}

{ count = split_words($0) }
words[1] == "routine" && !(words[2] in routine) { routine[words[2]] = NR }
NR < line && words[1] !~ /^#/ { take_note() }
NR == line { take_line() }
NR > line && has(declarations, words[1]) && !(words[2] in later) { later[words[2]] = NR }
END { print NR < line ? cause_of_end() : cause() }

function has(list, what) {
    return index(" " list " ", " " what " ") > 0
}

function want(what, behind,    at, each) {
    for (at = split(behind, each, " "); at; at--) wanted[each[at]] = what
}

function put(places, what,    at, each) {
    for (at = split(places, each, ", "); at; at--) stands[each[at]] = what " stands here"
}

function most_words(many, heads,    at, each) {
    for (at = split(heads, each, " "); at; at--) size[each[at]] = many
}

function split_words(text) {
    gsub(/^ +| +$/, "", text)
    return split(text, words, / +/)
}

# --- What is known in front of the line

function take_note(    first) {
    first = 1 + (words[1] == "try")
    if (words[1] == "routine" || words[1] == "client") {
        section = words[1]
        begin = NR
        clients += words[1] == "client"
        split("", local)
        split("", used)
    }
    if (words[1] == "use") used[words[2]] = NR
    if (words[1] == "drop") delete used[words[2]]
    if (words[1] == "done") section = ""
    else if (words[first] == "let") take_local(words[first + 1], words[first + 2])
    else if (words[first] == "issue-io") take_local(words[first + 2], "operation")
    else if (section == "" || words[1] == "routine") take_name(words[2], sort[words[2]] = words[1])
}

function take_local(name, of) {
    take_name(name, local[name] = of)
}

function take_name(name, of) {
    where[name] = NR
    what_is[name] = name_of(of)
}

# The word at the column and its place in the line. Behind `times` and its count, behind a condition, and behind `try`, the place
# begins anew.
function take_line(    front, at, size_of) {
    front = split_words(substr($0, 1, column - 1))
    count = split_words($0)
    place = front + 1
    word = words[place]
    before = words[front]
    for (at = 1; has("times if unless try", words[at]); at += size_of) {
        size_of = words[at] == "try" ? 1 : 2
        if (place <= size_of) break
        place -= size_of
        prefix = words[at]
        if (prefix ~ /^(if|unless)$/) asked = prefix
        else stood[prefix]
    }
    head = words[at]
}

function name_of(what) {
    return what in title ? title[what] : what
}

function is_name(what) {
    return what ~ /^[a-z][a-z0-9_]*$/ && length(what) <= 32 && what != "none"
}

# --- Causes

function cause_of_end() {
    return "the script ends, and the `done` of the " section " in line " begin " is missing"
}

function cause() {
    if (word == "") return "the line ends here, and a word is missing"
    if (word ~ /\t/) return "a tab: words are separated by spaces"
    if (word ~ /\r$/) return "a carriage return: lines end in LF alone, and not in CR LF"
    if (place == 1) return cause_of_head()
    if (is_new()) return cause_of_new_name()
    if (has(options, word) && has(with_options, head)) return cause_of_option()
    if (head == "pool" && word == "max") return "`max` stands before `min`, and each once"
    if (wanted_here() != "") return cause_of_name(wanted_here())
    if (word ~ /^-?0[0-9]/) return "a number has no leading zeros"
    return cause_of_other()
}

# Why a word that is no name can't stand here, by its place in the line or by the word before it.
function cause_of_other() {
    if (head == "on-return" && place == 3 && sort_of(before) != "semaphore") return "only behind a semaphore stands a number"
    if ((head " " place) in stands && !(head == "wait" && section == "")) return stands[head " " place]
    if (before in stands && (place > 3 && has(with_options, head) || head == "pool")) return stands[before]
    if (head in size && !(head == "wait" && section == "")) return place > size[head] ? "a word too many" : head == "pool" ? "`max` and `min` alone may stand here" : ""
    return has(with_options, head) ? "options alone stand here, in this order: " options : ""
}

function sort_of(name) {
    return name in local ? local[name] : sort[name]
}

# Why a line doesn't begin so, or nothing is repeated or asked for so.
function cause_of_head() {
    if (prefix && has(marks, word)) return "`" word "` stands at the front of its line"
    if (asked && word == "times") return "`times` and its count stand in front of `" asked "`"
    if (asked && has("let issue-io if unless", word)) return "`" word "` doesn't stand behind `" asked "`"
    if ("try" in stood && word == "times") return "`times` and its count stand in front of `try`"
    if ("try" in stood && word == "try") return "`try` stands once in a line"
    if ("times" in stood && has("let issue-io times", word)) return "`" word "` isn't repeated by `times`"
    if (has("may-run-long disassociate on-return", word) && section == "client") return "`" word "` stands in routines alone"
    if (word == "routine" || word == "client" || has(declarations, word) && !has(operations, word)) {
        if (section != "") return "the `done` of the " section " in line " begin " is missing"
        if (word == "client") return "there are 15 clients already, and no more are possible"
        return word == "routine" ? "routines stand before the first client" : "declarations stand before the first routine and the first client"
    }
    if (word == "done") return "no routine and no client is open here"
    if (has(operations, word)) return "an operation stands in a routine or a client, in front of its `done`"
    if (has(marks, word)) return "`" word "` stands in a routine or a client, in front of its `done`"
    if (prefix) return nearest(operations, "an operation stands here")
    if (section != "") return nearest(operations " " marks " done", "an operation or `done` begins a line here")
    return nearest(declarations " routine client", "a declaration, `routine` or `client` begins a line here")
}

# Which word of a list is meant, or else a rule.
function nearest(list, rule,    at, each, far, least_far, meant) {
    least_far = length(word) < 4 ? 2 : 3
    for (at = split(list, each, " "); at; at--) {
        far = distance(tolower(word), each[at])
        if (far < least_far && far < length(each[at])) { least_far = far; meant = each[at] }
    }
    return meant == "" ? rule : "`" meant "` is meant, it seems"
}

# Whether a new name stands here.
function is_new() {
    return place == 2 && (section == "" && has(declarations, head) || head == "routine" || head == "let") || place == 3 && head == "issue-io"
}

function cause_of_new_name() {
    if (!is_name(word)) return "a name is a letter and up to 31 letters, digits and `_` behind it, and not `none`"
    if (word in where) return "`" word "` stands already, as the name of " a(what_is[word]) "in line " where[word]
    return "there are as many of these as there may be"
}

function cause_of_option() {
    if (word == "cancel") return "`cancel` stands behind `group` and its name"
    return "the options stand in this order, and each once: " options
}

# Whose name stands at this place, if it is a name.
function wanted_here() {
    if (place == 3 && has("work timer wait io", head) && section == "" || place == 4 && head == "let") return "routine"
    if (place == 3 && head == "set-wait") return "kernel object"
    if (place == 2 && has(operations " " marks, head)) return wanted[head]
    return has("in group cancel", before) && has(with_options, head) ? wanted[before] : ""
}

function cause_of_name(what) {
    if (head == "use" && word in used) return "`" word "` is used already, from line " used[word] " on"
    if (head == "drop" && sort_of(word) == "memory") return "`" word "` isn't used here: `use` stands before `drop`"
    if (word ~ /^[a-z][a-z0-9_]*$/ && word != "none" && !is_name(word)) return "a name is a letter and up to 31 letters, digits and `_` behind it"
    if (!is_name(word)) return "the name of " a(what) "stands here"
    if (word in local || word in sort) return "`" word "` is " a(what_is[word]) "by line " where[word] ", and the name of " a(what) "stands here"
    if (word in routine) return "`" word "` is a routine by line " routine[word] ", and the name of " a(what) "stands here"
    if (word in later) return "`" word "` is declared in line " later[word] ", and a name is known from the line behind its own on"
    if (word in where) return "`" word "` is known in its own section alone, that of line " where[word]
    near = near_name()
    return "no " what " is called `" word "`" (near == "" ? "" : "; there is " a(near in where ? what_is[near] : "routine") "`" near "`")
}

# The name that is nearest to the word, if one is near.
function near_name(    name, far, least_far, found) {
    least_far = length(word) < 4 ? 2 : 3
    for (name in where) {
        far = distance(word, name)
        if (far < least_far && far < length(name)) { least_far = far; found = name }
    }
    for (name in routine) {
        far = distance(word, name)
        if (far < least_far && far < length(name)) { least_far = far; found = name }
    }
    return found
}

function a(what) {
    return (what ~ /^[aeiouI]/ ? "an " : "a ") what " "
}
