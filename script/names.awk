# The names of a script in a history that came of it: `known_as` has them by kind and number, as script/about.awk asks
# for them. They are read off a script's lines (`read_script_line`) and the entries, in their order (`learn_names`), or
# given by lines that a history has behind its end (`take_name`).

# --- The names of a script, by its sections: the declarations are those of c1, a client's are its actor's, and a
# routine's are of the letter r and its number

function read_script_line(text,    words) {
    if (section == "") section = "c1"
    sub(/^ *try /, "", text)
    if (split(text, words, " ") == 0 || words[1] ~ /^#/ || words[1] == "memory") return
    if (words[1] == "routine") { routine_name[++routines] = words[2]; section = "r" routines }
    else if (words[1] == "client") section = "c" ++clients + 1
    else if (words[1] == "issue-io") operation_in[section, ++issues[section]] = words[3]
    else if (words[1] == "let" || section == "c1") made_in[section, ++makes[section]] = words[2]
}

# Gives the routines their names, and nothing else one.
function begin_names(    number) {
    split("", known_as)
    split("", made)
    split("", issued)
    keys = 0
    for (number = 1; number <= routines; number++) know("routine", number, routine_name[number])
}

# Learns the name of what an entry makes. A section's makers come in the order of its lines, so what they make has the
# names in that order.
function learn_names(text, answer,    call, said, where, kind) {
    split(text, call, " ")
    split(answer, said, " ")
    if (said[1] == "taken") { runs_now[call[1]] = said[4]; made[call[1]] = issued[call[1]] = 0 }
    where = call[1] ~ /^c/ ? call[1] : runs_now[call[1]]
    if (call[2] == "issue-io") {
        issued[call[1]]++
        if (said[1] == "operation") know("operation", said[2], operation_in[where, issued[call[1]]])
    }
    if (call[2] !~ /^create/) return
    made[call[1]]++
    if (said[1] == "made") know(made_by(call[2]), said[2], made_in[where, made[call[1]]])
}

function know(kind, number, name) {
    if (name == "") return
    known_as[kind, number] = name
    key[++keys] = kind SUBSEP number
}

function made_by(call) {
    if (call == "create") return "object"
    return call ~ /-(pool|group)$/ ? substr(call, length("create-") + 1) : "kernel object"
}

# A line `name KIND NUMBER NAME` behind a history's end. `kernel` is short for a kernel object.
function take_name(line,    words) {
    split(line, words, " ")
    known_as[words[2] == "kernel" ? "kernel object" : words[2], words[3]] = words[4]
}

# The lines for all names.
function name_lines(    at, words, lines) {
    for (at = 1; at <= keys; at++) {
        split(key[at], words, SUBSEP)
        sub(/ object$/, "", words[1])
        lines = lines "name " words[1] " " words[2] " " known_as[key[at]] "\n"
    }
    return lines
}

# --- Calls and answers with names in place of numbers

function name_or(kind, number) {
    return (kind, number) in known_as ? known_as[kind, number] : number
}

# The same of a word that is a letter and a number.
function lettered(kind, text) {
    return (kind, substr(text, 2)) in known_as ? known_as[kind, substr(text, 2)] : text
}

# A call with names; about.awk knows at which of its words the numbers stand.
function call_with_names(text,    words, many, at, call, line) {
    many = split(text, words, " ")
    call = words[2]
    if (call in object_at) words[object_at[call]] = name_or("object", words[object_at[call]])
    if (call in kernel_at) words[kernel_at[call]] = name_or("kernel object", words[kernel_at[call]])
    if (call in pool_at) words[pool_at[call]] = name_or("pool", words[pool_at[call]])
    if (call in group_at) words[group_at[call]] = name_or("group", words[group_at[call]])
    if (call == "complete-io") words[3] = name_or("operation", words[3])
    if (call in environment_at) {
        at = environment_at[call]
        words[at - 2] = lettered("routine", words[at - 2])
        words[at] = lettered("pool", words[at])
        words[at + 3] = lettered("group", words[at + 3])
        words[at + 4] = lettered("routine", words[at + 4])
    }
    line = words[1]
    for (at = 2; at <= many; at++) line = line " " words[at]
    return line
}

# The answer to a call with names.
function answer_with_names(text, answer,    words, said, many, at, line) {
    split(text, words, " ")
    many = split(answer, said, " ")
    if (said[1] == "made") said[2] = name_or(made_by(words[2]), said[2])
    else if (said[1] == "attached") said[2] = name_or("pool", said[2])
    else if (said[1] == "taken") { said[3] = lettered("object", said[3]); said[4] = lettered("routine", said[4]) }
    else if (said[1] == "notice") { said[2] = lettered("object", said[2]); said[3] = lettered("routine", said[3]) }
    else if (said[2] ~ /^(has-members|operations-outstanding)$/) said[3] = name_or("object", said[3])
    line = said[1]
    for (at = 2; at <= many; at++) line = line " " said[at]
    return line
}
