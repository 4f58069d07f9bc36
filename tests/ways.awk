# Lists all ways in which the sections of small drawn scripts can go, a section's calls with what each question was answered,
# and says which section of a history went another way. The first file has the scripts, with `@` behind each; the second has
# histories, each behind a line with the number of its script and its status, and with `@` behind it. At the end it says of
# how many scripts there were histories, and whether in most of them some section went several ways.

BEGIN {
    RS = "@"
    # each script declares the same, in this order
    count = split("told open left door desk", each, " ")
    for (at = 1; at <= count; at++) number[each[at]] = at
    count = split("w1 w2 w3 clock bell file", each, " ")
    for (at = 1; at <= count; at++) number[each[at]] = at
    lock["door"] = "mutex"
    lock["desk"] = "section"
}

!/[a-z]/ { next }
FNR == NR { script[++scripts] = $0; next }
{ look_at_history($0) }

END {
    end_script()
    print looked " scripts, and some section went several ways in " (2 * varied > looked ? "most" : varied)
}

# --- The ways of a script's sections, each with its calls and answers one behind the other

function list_script(text,    lines, many, at, words, section, clients, routines) {
    split("", way)
    split("", line_of)
    split("", lines_of)
    clients = 1
    many = split(text, lines, "\n")
    for (at = 1; at <= many; at++) {
        split(lines[at], words, " ")
        if (words[1] == "done") { list_ways(section, 1, 0, ""); section = "" }
        else if (words[1] == "routine") section = "r" ++routines
        else if (words[1] == "client") section = "c" ++clients
        else if (section != "") line_of[section, ++lines_of[section]] = lines[at]
    }
}

# Lists the ways of a section from a line and a round of it on, behind what was called before.
function list_ways(section, at, round, before,    word, first, asked, call, told) {
    if (at > lines_of[section]) { way[section, before]; return }
    split(line_of[section, at], word, " ")
    first = word[1] == "times" ? 3 : 1
    if (word[1] != "times" || ++round >= word[2]) { at++; round = 0 }
    asked = word[first] ~ /^(if|unless)$/ ? word[first] : ""
    call = call_of(word, asked == "" ? first : first + 2)
    if (asked == "") { list_call(section, at, round, before, call); return }
    for (told = 0; told < 2; told++) {
        if (told == (asked == "if")) list_call(section, at, round, before question(number[word[first + 1]], told), call)
        else list_ways(section, at, round, before question(number[word[first + 1]], told))
    }
}

# The same behind a call more, which may be a question for nothing.
function list_call(section, at, round, before, call,    told) {
    if (call !~ /^try-acquire /) list_ways(section, at, round, before call ";")
    else for (told = 0; told < 2; told++) list_ways(section, at, round, before call (told ? " yes;" : " no;"))
}

function question(kernel, told) {
    return "try-acquire " kernel (told ? " yes;" : " no;")
}

function call_of(word, at,    what, call) {
    what = word[at]
    if (what == "release") return "release-lock " lock[word[at + 1]] " " number[word[at + 1]]
    call = what == "wait" ? "wait work" : what
    for (at++; at in word; at++) call = call " " (word[at] in number ? number[word[at]] : word[at])
    return call
}

# --- Histories

function look_at_history(text,    lines, words, at, call, answer, actor, section) {
    split(text, lines, "\n")
    at = lines[1] == "" ? 2 : 1
    split(lines[at], words, " ")
    if (words[1] != told_script) { end_script(); list_script(script[told_script = words[1]]); looked++ }
    split("", gone)
    for (at += 2; lines[at] !~ /^end /; at++) {
        match(lines[at], / -> /)
        call = substr(lines[at], 1, RSTART - 1)
        answer = substr(lines[at], RSTART + 4)
        split(call, words, " ")
        actor = words[2]
        call = substr(call, length(words[1] words[2]) + 3)
        if (call == "take") { split(answer, words, " "); section[actor] = words[4]; gone[actor] = "" }
        else if (call == "return") end_section(section[actor], gone[actor])
        else if (call == "finish") end_section(actor, gone[actor])
        else if (call !~ /^(end|attach|detach)$/) gone[actor] = gone[actor] call (call ~ /^try-acquire / ? substr(answer, 5) : "") ";"
    }
}

function end_section(section, went) {
    if (section == "c1") return
    if (!((section, went) in way)) print "script " told_script ", " section ": " went
    if (!((section, went) in came)) several += came_of[section]++ == 1
    came[section, went]
}

function end_script() {
    if (several) varied++
    several = 0
    split("", came)
    split("", came_of)
}
