# A plain reading of what sleeps come to. It reads three files, in each `@` behind each trace: the traces; the calls that they
# came to in an earlier reading, where advances stand in place of a sleep; and what the machine answered to these. It writes
# what each line of the traces comes to, and into the file `calls` the calls of the machine in their order. From the
# first call on that is another one than in the reading before, answers are guessed; so it is read again until none is. No
# moment is above 2^53.

BEGIN { RS = "@"; CONVFMT = "%.0f" }

!/[a-z]/ { next }
FILENAME == ARGV[1] { drawn[++traces] = $0; next }
FILENAME == ARGV[2] { made[++earlier] = $0; next }
{ came[++answered] = $0 }

END { for (trace = 1; trace <= traces; trace++) play(drawn[trace]) }

function play(text,    count, lines, at) {
    now = arms = is_running = is_attached = 0
    room = (text ~ /^\n?events / ? second_word(text) : 65536) - 2
    split("", waits); split("", is_closed); split("", is_signalled)
    split("", due); split("", period); split("", window)
    split("", timeout); split("", armed_on); split("", armed_at); split("", is_manual); events = 0
    learn(made[trace], came[trace])
    count = split(text, lines, "\n")
    for (at = 1; at <= count; at++) if (lines[at] ~ /^[cw]/) play_line(lines[at])
    printf "@"
    printf "@" >calls
}

function second_word(text,    words) {
    split(text, words, " ")
    return words[2]
}

# What the machine answered to the calls of the earlier reading.
function learn(calls_text, answers_text) {
    split(calls_text, call_made, "\n")
    split(answers_text, answer_come, "\n")
    is_known = 1
    asked = 0
}

function play_line(line) {
    split(line, word, " ")
    if (word[2] == "sleep") sleep(word[1], word[3])
    else print ask(line)
}

# The machine is asked a call, and what is set follows its answer.
function ask(line,    answer) {
    print line >calls
    asked++
    split(line, word, " ")
    is_known = is_known && line == call_made[asked]
    answer = is_known ? answer_come[asked] : guessed(word[1])
    room -= cost_of(answer)
    if (answer !~ /^(refused|full|look) /) follow(answer)
    return answer
}

function guessed(who) {
    if (room < 1 && word[2] !~ /^(return|detach|end)$/) return "full 0 1"
    if (who == "w5") return "refused no-such"
    if (word[2] == "end") return !(who in waits) ? "refused no-wait-begun" : is_signalled[waits[who]] ? "ended" : "look not-yet"
    if (word[2] == "attach") return is_attached ? "refused already-attached" : "attached 0"
    if (word[2] == "take") return is_running ? "refused still-running" : is_attached ? "taken" : "refused not-attached"
    if (word[2] == "detach") return is_running ? "refused still-running" : is_attached ? "look stay" : "refused not-attached"
    if (who in waits) return "refused in-wait"
    if (who == "w1" && !is_running) return "refused not-running"
    if (word[2] ~ /^set-(timer|wait)/ && word[3] in is_closed) return "refused released"
    if (word[2] == "advance") return "advanced " now + word[3] " 0 0"
    if (word[2] == "set-wait" && word[4] != "none" && (is_signalled[word[4]] || word[5] != "none" && moment(word[5]) <= now)) return "queued 1 1"
    if (word[2] == "set-event" && is_awaited(word[3])) return "queued 1 1"
    if (word[2] == "set-timer-ex") return "was no 0 0"
    return word[2] ~ /^set-/ ? "queued 0 0" : "ok"
}

# By how much an entry lessens the room.
function cost_of(answer) {
    if (answer ~ /^(look|full) /) return 0
    if (answer ~ /^refused /) return 1
    return word[2] ~ /^(attach|take|acquire)$/ ? 2 : word[2] ~ /^(return|detach|end)$/ ? 0 : 1
}

# ---- what is set: of timers their due time, period and window, of wait objects the timeout and where they are armed

function follow(answer,    said) {
    split(answer, said, " ")
    if (word[2] == "advance") advance_to(said[2])
    if (word[2] ~ /^set-timer/) set_timer(word[3], word[4], word[5], word[6])
    if (word[2] == "set-wait") set_wait(word[3], word[4], word[5], said[3])
    if (word[2] == "close") { delete due[word[4]]; disarm(word[4]); is_closed[word[4]] }
    if (word[2] == "create-event") is_manual[++events] = word[3] == "manual"
    if (word[2] == "set-event") signal(word[3], said[3])
    if (word[2] == "reset-event") is_signalled[word[3]] = 0
    if (word[2] ~ /^(take|return)$/) is_running = word[2] == "take"
    if (word[2] ~ /^(attach|detach)$/) is_attached = word[2] == "attach"
    if (word[2] == "acquire") waits[word[1]] = word[3]
    if (word[2] == "end") { if (!is_manual[waits[word[1]]]) is_signalled[waits[word[1]]] = 0; delete waits[word[1]] }
}

function moment(told) {
    return told + 0 > 0 ? told + 0 : now - told
}

function set_timer(timer, told, millis, late) {
    delete due[timer]
    if (told == "none") return
    due[timer] = moment(told)
    period[timer] = millis
    window[timer] = late
    if (due[timer] <= now) expire(timer)
}

# A periodic timer is set anew, to the first of its times that is ahead.
function expire(timer,    span) {
    span = 10000 * period[timer]
    if (span) due[timer] += (int((now - due[timer]) / span) + 1) * span
    else delete due[timer]
}

# Where the event is signalled its signal is taken, and nothing is armed; nor where the timeout is past.
function set_wait(object, event, told, count) {
    disarm(object)
    if (event == "none") return
    if (count) { if (!is_manual[event]) is_signalled[event] = 0; return }
    armed_on[object] = event
    armed_at[object] = ++arms
    if (told != "none") timeout[object] = moment(told)
}

function disarm(object) {
    delete armed_on[object]
    delete timeout[object]
}

# A manual event stays signalled and releases all that is armed on it; another one releases the earliest, or stays signalled.
function signal(event, count,    object, first) {
    is_signalled[event] = is_manual[event] || !count
    for (object in armed_on) {
        if (armed_on[object] != event) continue
        if (is_manual[event]) disarm(object)
        else if (first == "" || armed_at[object] < armed_at[first]) first = object
    }
    if (count && first != "") disarm(first)
}

function is_awaited(event,    object) {
    for (object in armed_on) if (armed_on[object] == event) return 1
    return 0
}

function advance_to(goal,    each) {
    now = goal + 0
    for (each in due) if (due[each] <= now) expire(each)
    for (each in timeout) if (timeout[each] <= now) disarm(each)
}

# ---- sleeps

# The least deadline, or nothing.
function next_deadline(    each, least) {
    least = ""
    for (each in due) if (least == "" || due[each] + 10000 * window[each] < least) least = due[each] + 10000 * window[each]
    for (each in timeout) if (least == "" || timeout[each] < least) least = timeout[each]
    return least
}

function sleep(who, ticks,    target, wakes, answer, deadline) {
    target = now + ticks
    do {
        deadline = next_deadline()
        if (deadline == "" || deadline > target) deadline = target
        answer = ask(who " advance " (deadline < now ? 0 : deadline - now))
        print answer
        if (answer !~ /^advanced /) { print "stopped " wakes + 0; return }
        wakes++
        deadline = next_deadline()
    } while (now < target || deadline != "" && deadline <= target)
    print "slept " now " " wakes
}
