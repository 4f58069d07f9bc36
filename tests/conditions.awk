# Walks along histories of drawn scripts, and says where an actor makes another call than its next one: the one that the
# script has for it, as far as its own answers tell. The first file has the scripts, with `@` behind each; the second has
# histories with what stands behind their ends, each behind a line with the number of its script and its status, and with
# `@` behind it. At the end it says how many histories there were, in how many calls were left out for want of room, and
# how often a question was answered so that its operation followed, and so that it didn't.

BEGIN { RS = "@" }

!/[a-z]/ { next }
FNR == NR { script[++scripts] = $0; next }
{ walk($0) }

END {
    print walked " histories, " (cut_histories ? "some" : "none") " of them cut"
    print (met_so["if yes"] && met_so["if no"] && met_so["unless yes"] && met_so["unless no"] ? "all" : "not all") " ways to go on behind a question"
}

# --- A script: the calls of c1, and the lines of each other section by its actor, or by the letter r and its number

function read_script(text,    lines, many, at, words) {
    split("", kind)
    split("", number)
    split("", made)
    split("", lines_of)
    split("", line_of)
    calls_of_first = 0
    many = split(text, lines, "\n")
    for (at = 1; at <= many; at++) if (split(lines[at], words, " ") && words[1] == "routine") note(words[2], "routine")
    made["client"] = 1
    section = ""
    for (at = 1; at <= many; at++) if (split(lines[at], words, " ")) read_line(lines[at], words)
    first_calls[++calls_of_first] = "finish"
}

function read_line(line, words) {
    if (words[1] == "done") section = ""
    else if (words[1] == "routine") section = "r" number[words[2]]
    else if (words[1] == "client") section = "c" ++made["client"]
    else if (section != "") line_of[section, ++lines_of[section]] = line
    else declare(words)
}

# Gives a name the next number of its series. Kernel objects share one, and so do the objects of the pool.
function note(name, what,    series) {
    series = what ~ /^(event|semaphore|mutex|section)$/ ? "kernel" : what ~ /^(work|timer|wait|io)$/ ? "object" : what
    kind[name] = what
    number[name] = ++made[series]
}

function declare(words) {
    note(words[2], words[1])
    if (words[1] ~ /^(pool|group)$/) first_calls[++calls_of_first] = "create-" words[1]
    if (words[1] == "pool" && words[3] == "max") first_calls[++calls_of_first] = "set-maximum " number[words[2]] " " words[4]
    if (words[1] == "event" || words[1] == "semaphore") first_calls[++calls_of_first] = "create-" words[1] " " words[3] " " words[4]
    if (words[1] == "mutex" || words[1] == "section") first_calls[++calls_of_first] = "create-lock " words[1] " free"
    if (words[1] ~ /^(work|timer|wait|io)$/) first_calls[++calls_of_first] = "create " words[1] " r" number[words[3]] " " environment(words, 4)
}

# What a line of options is as the last six words of a call.
function environment(words, at,    said, length_said) {
    said["context"] = said["in"] = said["group"] = said["cancel"] = 0
    said["priority"] = "normal"
    length_said = "short"
    for (; at in words && words[at] != ""; at += 2) {
        if (words[at] == "long") { length_said = "long"; at-- }
        else said[words[at]] = words[at] ~ /^(context|priority)$/ ? words[at + 1] : number[words[at + 1]]
    }
    return "x" said["context"] " p" said["in"] " " said["priority"] " " length_said " g" said["group"] " q" said["cancel"]
}

# --- A history

function walk(text,    lines, words, at) {
    split(text, lines, "\n")
    at = lines[1] == "" ? 2 : 1
    split(lines[at++], words, " ")
    ended_with = words[2]
    if (words[1] != told_script) read_script(script[told_script = words[1]])
    split(lines[at++], words, " ")
    begin(words[4], words[8])
    for (wrong = 0; !wrong && lines[at] !~ /^end /; at++) take_entry(lines[at])
    while (lines[++at] != "") if (lines[at] ~ /^left-callback .* pending$/) pending_left = 1
    if (!wrong) end_walk()
    walked++
    cut_histories += is_cut
}

# By actor: the section that it makes the calls of and how far it has come, whether its last question was met, whether it
# waits, the notices that its wait has left, and the numbers of its own names.
function begin(all_clients, capacity) {
    split("", at_line)
    split("", rounds)
    split("", met)
    split("", waits)
    split("", notices)
    split("", own)
    split("", at_work)
    split("", runs)
    is_cut = pending_left = exhausted = stalled = entries = working = objects = 0
    room = capacity - all_clients
    open_clients = all_clients
}

function complain(what) {
    wrong = 1
    print "script " told_script ", entry " entries ": " what
}

function take_entry(line,    actor, call, answer, due) {
    entries++
    match(line, / -> /)
    call = substr(line, 1, RSTART - 1)
    answer = substr(line, RSTART + 4)
    sub(/^[0-9]+ /, "", call)
    actor = call
    sub(/ .*/, "", actor)
    sub(/^[a-z0-9]+ /, "", call)
    room--
    if (actor == "c1") { if (call != first_calls[entries]) complain(call " by c1, and due was " first_calls[entries]) }
    else if (actor ~ /^w/ && !(actor in runs)) take_step(actor, call)
    else {
        due = due_of(actor)
        if (call != due && !leaves_out(actor, call, due)) complain(call " by " actor ", and due was " due)
        else if (call == due && !is_last(call)) go_on(actor, call, answer)
    }
    keep_room(call, answer)
    if (call ~ /^create (work|timer|wait|io) / && answer ~ /^made /) objects = substr(answer, 6)
    if (call == "finish") open_clients--
    if (call == "return") { delete runs[actor]; working-- }
    if (call == "take") begin_callback(actor, answer)
}

# A worker that runs nothing.
function take_step(actor, call) {
    if (call != (actor in at_work ? "take" : "attach") && !(actor in at_work && call == "detach")) complain(call " by " actor)
    if (call == "attach") at_work[actor]
    if (call == "detach") delete at_work[actor]
}

function begin_callback(actor, answer,    told) {
    split(answer, told, " ")
    runs[actor] = told[4]
    at_line[actor] = rounds[actor] = met[actor] = 0
    working++
    for (each in own) if (index(each, actor SUBSEP) == 1) delete own[each]
}

function is_last(call) {
    return call == "finish" || call == "return"
}

# Where the history has no room for its next call, an actor's part is left out from there on. A call takes the room of one
# entry, and one that begins a wait that of another one, and of its notices.
function leaves_out(actor, call, due) {
    if (call != (actor ~ /^c/ ? "finish" : "return") || waits[actor] || room + 1 > 1 + (due ~ /^close-members /) * objects) return 0
    return is_cut = 1
}

# How much room an entry leaves: places are set aside for what is to end.
function keep_room(call, answer,    told) {
    split(answer, told, " ")
    if (call ~ /^(return|detach|finish)$/ || call == "end" && told[1] != "refused") room++
    else if (told[1] != "refused" && call ~ /^(attach|take|wait .*|acquire .*)$/) room--
    else if (told[1] == "closing") room -= 1 + told[4]
}

function end_walk() {
    if (open_clients || working) complain("the end, and not all has ended")
    else if (ended_with != (is_cut || exhausted || pending_left ? 8 : stalled ? 9 : 0)) complain("the status is " ended_with)
}

# --- The next call of a section

function section_of(actor) {
    return actor in runs ? runs[actor] : actor
}

# Finds the actor's line: its operation is in `word` from `first` on; `times` says how often, and `asked` and `kernel` whether
# it asks first, and whom. Answers whether there is a line.
function find_line(actor,    line) {
    line = line_of[section_of(actor), at_line[actor] + 1]
    split("", word)
    split(line, word, " ")
    first = 1
    times = 1
    asked = ""
    if (word[1] == "times") { times = word[2]; first = 3 }
    if (word[first] == "if" || word[first] == "unless") { asked = word[first]; kernel = number[word[first + 1]]; first += 2 }
    return at_line[actor] < lines_of[section_of(actor)]
}

function due_of(actor) {
    if (waits[actor]) return "end"
    if (!find_line(actor)) return actor ~ /^c/ ? "finish" : "return"
    if (asked != "" && !met[actor]) return "try-acquire " kernel
    return call_of(actor, word[first], word[first + 1], word[first + 2], word[first + 3], word[first + 4])
}

# A name's number, which a name of the section itself has by what was answered.
function named(actor, name) {
    return (actor, name) in own ? own[actor, name] : number[name]
}

function kind_of(name) {
    return name in kind ? kind[name] : name ~ /^x/ ? "work" : ""
}

function call_of(actor, what, one, two, three, four,    at) {
    at = named(actor, one)
    if (what == "let") return "create " two " r" number[three] " " environment(word, first + 4)
    if (what == "simple") return "submit-simple r" number[one] " " environment(word, first + 2)
    if (what == "issue-io") return "issue-io " at
    if (what == "close") return "close " kind_of(one) " " at
    if (what == "wait") return "wait " kind_of(one) " " at " " two
    if (what == "close-members") return "close-members " at " " two " y" three
    if (what == "release") return "release-lock " kind[one] " " at
    if (what == "on-return") return "on-return " kind[one] " " at " " (two == "" ? 1 : two)
    if (what == "set-wait") return "set-wait " at " " (two == "none" ? two : number[two]) " " three
    if (what == "advance" || one == "") return what (one == "" ? "" : " " one)
    return what " " at (two == "" ? "" : " " two) (three == "" ? "" : " " three) (four == "" ? "" : " " four)
}

# --- What an answer makes of a part

function go_on(actor, call, answer,    told) {
    split(answer, told, " ")
    if (call == "end") end_of_wait(actor, told[1])
    else if (asked != "" && !met[actor]) answer_question(actor, told[1] == "flag" ? told[2] : "refused")
    else if (told[1] != "refused" && call ~ /^(wait|acquire|close-members) /) waits[actor] = 1
    else {
        if (word[first] == "let") own[actor, word[first + 1]] = told[1] == "made" ? told[2] : 0
        if (word[first] == "issue-io") own[actor, word[first + 2]] = told[1] == "operation" ? told[2] : 0
        end_round(actor)
    }
}

function end_of_wait(actor, told) {
    if (told == "notice") return
    if (told == "exhausted") exhausted = 1
    if (told == "stalled") stalled = 1
    waits[actor] = 0
    find_line(actor)
    end_round(actor)
}

function answer_question(actor, told) {
    met_so[asked " " told]++
    if (told == (asked == "if" ? "yes" : "no")) met[actor] = 1
    else end_round(actor)
}

# One round of the line is over: the next one asks anew.
function end_round(actor) {
    met[actor] = 0
    if (++rounds[actor] < times) return
    rounds[actor] = 0
    at_line[actor]++
}
