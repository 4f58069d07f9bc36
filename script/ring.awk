# Who waits for whom where a wait stalled, as far as the calls and answers tell it. Who reads a history calls `about`
# (script/about.awk) and then `follow` with each entry; `find_ring` goes from an actor on, from each to one that it
# waits for, until it comes to one that it was at, or to what nobody is left to do: c2 -> w1 -> c3 -> w2 -> c2.

# Takes note of an entry that `about` was called with last.
function follow() {
    if ($1 == "refused") return
    if (call == "create") pool_made_in[$2] = pool
    else if (call == "submit-simple") { pool_of_simple[$2] = pool; group_of_simple[$2] = group }
    else if (call == "disassociate") left_alone[runs[actor]]
    else if (call ~ /^complete-(io|next)$/) pending[$2]
    else if ($1 == "taken") delete pending[$2]
    else if ($1 == "begun" || $1 == "closing") follow_wait()
    if ($1 == "stalled" || $1 == "ended" || $1 == "exhausted") delete covers[actor]
    follow_made()
}

function follow_wait() {
    covers[actor] = last_made
    object_awaited[actor] = call == "wait" ? object : ""
    group_awaited[actor] = group
    if (word[5] == "cancel" || word[4] == "cancel") cancel_pending()
}

# Takes the pending callbacks of what the actor waits for away.
function cancel_pending(    number) {
    for (number in pending) if (is_of(number, actor)) delete pending[number]
}

# The callbacks that an answer tells the numbers of.
function follow_made(    first, number) {
    first = $1 == "queued" ? 2 : $1 ~ /^(was|count|advanced)$/ ? 3 : $1 == "returned" ? 6 : 0
    if ($1 == "started" && $2 > last_made) last_made = $2
    if (!first) return
    for (number = $first; number < $first + $(first + 1); number++) {
        if (number in object_of) pending[number]
        if (number > last_made) last_made = number
    }
}

# --- Who waits for whom

# The actors that one waits for, each behind a space.
function awaited(who,    number, list) {
    if (who in takes) return owner[takes[who]]
    for (number = 1; who in covers && number <= covers[who]; number++) {
        if (!is_of(number, who)) continue
        if (number in runner) list = list (number in left_alone && object_awaited[who] != "" ? "" : " " runner[number])
        else if (number in pending) list = list " " busy(pool_of_callback(number))
    }
    return list
}

# Whether a callback is of what an actor waits for.
function is_of(number, who) {
    if (!(number in object_of)) return 0
    if (object_awaited[who] != "") return object_of[number] == object_awaited[who]
    return object_of[number] ? group_of[object_of[number]] == group_awaited[who] : group_of_simple[number] == group_awaited[who]
}

function pool_of_callback(number) {
    return object_of[number] ? pool_made_in[object_of[number]] : pool_of_simple[number]
}

# The workers that run a callback: those of a pool first, whose return would let another one begin.
function busy(pool,    who, mine, others) {
    for (who in runs) if (pool_of[who] == pool) mine = mine " " who; else others = others " " who
    return mine others
}

# The way from an actor to itself or to one on the way, or else to what nobody is left to do.
function find_ring(who,    way) {
    split("", on_way)
    split("", in_vain)
    way = go_round(who, "")
    return way == "" ? go_on(who) : way
}

function go_round(who, way,    each, many, at, found) {
    if (who in on_way) return way " -> " who
    on_way[who]
    many = split(awaited(who), each, " ")
    for (at = 1; at <= many && found == ""; at++) if (!(each[at] in in_vain)) found = go_round(each[at], (way == "" ? "" : way " -> ") who)
    delete on_way[who]
    in_vain[who]
    return found
}

function go_on(who,    way, each) {
    for (way = who; split(awaited(who), each, " "); way = way " -> " who) who = each[1]
    return way " -> " awaited_thing(who)
}

function awaited_thing(who) {
    if (who in takes) return called("kernel object", takes[who])
    return object_awaited[who] != "" ? called("object", object_awaited[who]) : called("group", group_awaited[who])
}

# Forgets all entries, for those of another history.
function forget_waits() {
    split("", pool_made_in)
    split("", pool_of_simple)
    split("", group_of_simple)
    split("", left_alone)
    split("", pending)
    split("", covers)
    split("", object_awaited)
    split("", group_awaited)
    last_made = 0
}
