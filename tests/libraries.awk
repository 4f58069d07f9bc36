# Plays along with drawn traces, which are in the first file, and with what the program tells of them, which is in the
# second: `@` stands behind each. What holds a library is counted anew at each line, among all objects and callbacks that
# the answers have told of. It says what is wrong, how many traces there were, and how often a library went.

BEGIN { RS = "@" }

!/[a-z]/ { next }
FNR == NR { drawn[++traces] = $0; next }
{ check_trace(drawn[++checked], $0) }

END { print checked " of " traces " traces, and libraries went " went " times" }

function check_trace(text, told,    count, lines, at) {
    forget()
    count = split(text, lines, "\n")
    split(told, answers, "\n")
    next_answer = 1
    for (at = 1; at <= count && !wrong; at++) if (lines[at] != "") check_line(lines[at])
    if (!wrong && answers[next_answer] != "") complain("the end", "", answers[next_answer])
}

# By library its loads; by actor whether it has finished, the callback that it runs, and its slot; by object its library,
# its group and whether it is released; by callback its status, its object, and where it has none its library and group.
function forget() {
    split("", loads)
    split("", finished)
    split("", runs)
    split("", slot)
    split("", library_of)
    split("", group_of)
    split("", released)
    split("", status)
    split("", object_of)
    split("", own_library)
    split("", own_group)
    wrong = 0
}

function check_line(line,    library, before, answer, gone, told, each) {
    split(line, call, " ")
    library = match(line, / l[0-9]+$/) ? substr(line, RSTART + 2) : ""
    for (each in loads) before[each] = holds(each)
    answer = answers[next_answer++]
    if (is_wrong(answer, answer_of(library))) complain(line, answer_of(library), answer)
    else learn(answer, library)
    for (each = 1; each <= 255; each++) if (before[each] > 0 && !holds(each)) gone = gone "unloaded l" each "\n"
    for (; answers[next_answer] ~ /^unloaded /; went++) told = told answers[next_answer++] "\n"
    if (!wrong && told != gone) complain(line, gone, told)
}

function complain(line, wanted, told) {
    wrong = 1
    print "trace " checked ", " line ": " told " is told, and wanted: " wanted
}

# Without an answer of the libraries, the machine's own is told.
function is_wrong(answer, wanted) {
    if (wanted != "") return answer != wanted
    return answer ~ /^refused (library-not-loaded|no-load-left|load-limit|slot-taken library)$/
}

# What holds a library.
function holds(library,    each, count) {
    count = loads[library]
    for (each in library_of) if (library_of[each] == library && !released[each]) count++
    for (each in status) if (status[each] != "over" && library_at(each) == library) count++
    return count
}

function library_at(callback) {
    return object_of[callback] ? library_of[object_of[callback]] : own_library[callback]
}

function group_at(callback) {
    return object_of[callback] ? group_of[object_of[callback]] : own_group[callback]
}

# What the libraries answer to the call; nothing where the machine does.
function answer_of(library) {
    if (call[2] !~ /^(load|free|free-on-return)$/) return library == "" || holds(library) ? "" : "refused library-not-loaded"
    if (call[1] ~ /^w/ && substr(call[1], 2) > 4) return "refused no-such"
    if (finished[call[1]]) return "refused released"
    if (call[2] == "load") return "ok"
    if (call[2] == "free-on-return" && !runs[call[1]]) return "refused not-running"
    if (call[2] == "free-on-return" && slot[call[1]]) return "refused slot-taken library"
    return loads[library] ? "ok" : "refused no-load-left"
}

# What becomes of all that by an answer.
function learn(answer, library,    said, each) {
    split(answer, said, " ")
    if (answer == "ok") learn_done(library)
    if (said[1] == "made" && call[2] == "create") make_object(said[2], library)
    if (said[1] ~ /^(queued|started)$/ && said[2]) make_callback(said[1], said[2], library)
    if (said[1] == "cancelled") status[said[2]] = "over"
    if (said[1] ~ /^(freed|later)$/) released[call[4]] = 1
    if (said[1] == "closing") for (each in group_of) if (group_of[each] == call[3]) released[each] = 1
    if (said[1] == "closing" && call[4] == "cancel") cancel_pending(call[3], 0)
    if (said[1] == "begun" && call[5] == "cancel") cancel_pending(0, call[4])
    if (said[1] == "taken") { runs[call[1]] = said[2]; status[said[2]] = "running" }
    if (said[1] == "returned") end_callback(call[1])
}

function learn_done(library) {
    if (call[2] == "load") loads[library]++
    if (call[2] == "free") loads[library]--
    if (call[2] == "free-on-return") slot[call[1]] = library
    if (call[2] == "finish") finished[call[1]] = 1
}

function make_object(number, library) {
    library_of[number] = library
    group_of[number] = substr(call[9], 2)
}

# A callback of the object that the call names, or a simple one; or an operation's becomes pending.
function make_callback(said, number, library) {
    status[number] = said == "started" ? "expected" : "pending"
    if (call[2] ~ /^(submit|set-timer|start-io)$/) object_of[number] = call[3]
    if (call[2] != "submit-simple") return
    own_library[number] = library
    own_group[number] = substr(call[8], 2)
}

# The pending callbacks of a group or of an object.
function cancel_pending(group, object,    each) {
    for (each in status)
        if (status[each] == "pending" && (group ? group_at(each) == group : object_of[each] == object)) status[each] = "over"
}

function end_callback(worker) {
    status[runs[worker]] = "over"
    delete runs[worker]
    if (slot[worker] && loads[slot[worker]]) loads[slot[worker]]--
    slot[worker] = ""
}
