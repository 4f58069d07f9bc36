# A plain reading of what calls of the pool before Vista come to. It reads three files, in each `@` behind each trace: the
# traces; the calls of the machine that they came to in an earlier reading; and what the machine answered to these. It
# writes what each line of the traces comes to, and into the file `calls` the calls of the machine in their order. Where no
# answer is there for a call it is guessed, so it is read again until the calls are those of the reading before. A line
# `events N` at the head of a trace says for how many entries there is room, if that isn't 65,536.

BEGIN { RS = "@" }

!/[a-z]/ { next }
FILENAME == ARGV[1] { drawn[++traces] = $0; next }
FILENAME == ARGV[2] { made[++earlier] = $0; next }
{ came[++answered] = $0 }

END { for (trace = 1; trace <= traces; trace++) play(drawn[trace]) }

function play(text,    count, lines, at) {
    forget()
    learn(made[trace], came[trace])
    count = split(text, lines, "\n")
    for (at = 1; at <= count; at++) if (lines[at] ~ /^[cw]/) count_clients(lines[at])
    room = (text ~ /^\n?events / ? second_word(text) : 65536) - clients
    for (at = 1; at <= count; at++) if (lines[at] ~ /^[cw]/) print answer_of(lines[at])
    printf "@"
    printf "@" >calls
}

function second_word(text,    words) {
    split(text, words, " ")
    return words[2]
}

function count_clients(line) {
    if (line ~ /^c/ && substr(line, 2) + 0 > clients) clients = substr(line, 2) + 0
}

# By registration its object, its kernel object, its timeout, whether it is for once and whether it is gone; by queue its
# group and whether it is deleted; by timer its queue, its object and whether it was deleted by itself.
function forget() {
    clients = registrations = queues = timers = objects = groups = 0
    split("", object_of); split("", kernel_of); split("", timeout_of); split("", is_once); split("", is_gone)
    split("", group_of); split("", is_deleted)
    split("", queue_of); split("", timer_object); split("", is_timer_gone)
    split("", known); split("", asked)
}

# What the machine answered to each call: the first, the second and so on with the same words.
function learn(calls_text, answers_text,    count, lines, answers, at, times) {
    count = split(calls_text, lines, "\n")
    split(answers_text, answers, "\n")
    for (at = 1; at <= count; at++) known[lines[at], ++times[lines[at]]] = answers[at]
}

# ---- the machine

# An actor makes a call of the machine.
function ask(call,    line, answer) {
    line = who " " call
    print line >calls
    asked[line]++
    answer = (line, asked[line]) in known ? known[line, asked[line]] : guessed(call)
    if (answer ~ /^made /) if (call ~ /^create (work|timer|wait|io) /) objects++; else if (call == "create-group") groups++
    room -= cost_of(call, answer)
    return answer
}

function guessed(call) {
    if (call ~ /^create (work|timer|wait|io) /) return "made " objects + 1
    if (call == "create-group") return "made " groups + 1
    if (call == "is-timer-set") return "flag yes"
    if (call ~ /^close-members/) return "closing 0 0 0"
    if (call ~ /^close /) return "freed"
    return "ok"
}

# By how much an entry lessens the room.
function cost_of(call, answer,    said) {
    split(answer, said, " ")
    if (said[1] ~ /^(look|full)$/) return 0
    if (said[1] ~ /^(refused)$/) return 1
    if (call ~ /^(attach|take|wait .*|acquire .*)$/) return 2
    if (said[1] == "closing") return 2 + said[4]
    return call ~ /^(detach|return|end|finish)$/ ? 0 : 1
}

# ---- the layer

function answer_of(line,    refused) {
    split(line, word, " ")
    who = word[1]
    refused = refusal()
    if (refused != "") return "refused " refused
    if (room < old_cost()) return "full " room " " old_cost()
    return old_answer(substr(line, length(who) + 2))
}

function refusal() {
    if (word[2] == "unregister") return !(word[3] in object_of) ? "no-such" : is_gone[word[3]] ? "released" : ""
    if (word[2] ~ /^(create-timer|delete-queue)$/) return !(word[3] in group_of) ? "no-such" : is_deleted[word[3]] ? "released" : ""
    if (word[2] !~ /^(change|delete)-timer$/) return ""
    if (!(word[3] in group_of) || !(word[4] in queue_of)) return "no-such"
    if (is_deleted[word[3]] || is_timer_gone[word[4]] || is_deleted[queue_of[word[4]]]) return "released"
    return queue_of[word[4]] != word[3] ? "other-queue" : ""
}

function old_cost() {
    if (word[2] ~ /^(queue-item|unregister|create-queue|delete-timer)$/) return 1
    if (word[2] ~ /^(change-timer|delete-queue)$/) return 2
    return word[2] ~ /^(register|create-timer|take)$/ ? 3 : 0
}

function old_answer(call) {
    if (word[2] == "queue-item") return ask("submit-simple " word[3] " " word[4] " p0 normal " word[5] " g0 q0")
    if (word[2] == "register") return register()
    if (word[2] == "unregister") return unregister()
    if (word[2] == "create-queue") return create_queue()
    if (word[2] == "create-timer") return create_timer()
    if (word[2] == "change-timer") return change_timer()
    if (word[2] == "delete-timer") return delete_timer()
    if (word[2] == "delete-queue") return delete_queue()
    return pool(call)
}

# So many milliseconds from now, in units of 100 ns.
function due(millis) {
    return millis ~ /^(none|0)$/ ? millis : sprintf("-%.0f", millis * 10000)
}

function number_in(answer,    said) {
    split(answer, said, " ")
    return said[2]
}

# Makes an object and sets it, or closes it again. It answers what was refused, or nothing.
function make(kind, routine, context, group, set, behind,    answer) {
    answer = ask("create " kind " " routine " " context " p0 normal short g" group " q0")
    if (answer !~ /^made /) return answer
    object = number_in(answer)
    answer = ask(set " " object " " behind)
    if (answer !~ /^refused /) return ""
    ask("close " kind " " object)
    return answer
}

function register(    told) {
    told = make("wait", word[4], word[5], 0, "set-wait", word[3] " " due(word[6]))
    if (told != "") return told
    object_of[++registrations] = object
    kernel_of[registrations] = word[3]
    timeout_of[registrations] = due(word[6])
    is_once[registrations] = word[7] == "once"
    return "registered " registrations
}

function unregister(    told) {
    told = ask("close wait " object_of[word[3]])
    if (told ~ /^(freed|later)$/) is_gone[word[3]] = 1
    return told
}

function create_queue(    told) {
    told = ask("create-group")
    if (told !~ /^made /) return told
    group_of[++queues] = number_in(told)
    return "queue " queues
}

function create_timer(    told) {
    told = make("timer", word[4], word[5], group_of[word[3]], "set-timer", due(word[6]) " " word[7] " 0")
    if (told != "") return told
    timer_object[++timers] = object
    queue_of[timers] = word[3]
    return "timer " timers
}

function change_timer(    told) {
    told = ask("is-timer-set " timer_object[word[4]])
    if (told == "flag no") return "changed no"
    if (told != "flag yes") return told
    told = ask("set-timer " timer_object[word[4]] " " due(word[5]) " " word[6] " 0")
    return told ~ /^refused / ? told : "changed yes"
}

function delete_timer(    told) {
    told = ask("close timer " timer_object[word[4]])
    if (told ~ /^(freed|later)$/) is_timer_gone[word[4]] = 1
    return told
}

function delete_queue(    told) {
    told = ask("close-members " group_of[word[3]] " keep y0")
    if (told ~ /^closing /) is_deleted[word[3]] = 1
    return told
}

# As a worker takes a callback of a registration that isn't for once, it arms it anew.
function pool(call,    told, said, at) {
    told = ask(call)
    split(told, said, " ")
    if (said[1] != "taken") return told
    for (at = 1; at <= registrations; at++)
        if ("o" object_of[at] == said[3] && !is_once[at] && !is_gone[at]) ask("set-wait " object_of[at] " " kernel_of[at] " " timeout_of[at])
    return told
}
