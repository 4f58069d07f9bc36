# What a refusal, a look or a wait that stalled is about, where the calls and answers so far tell that; nothing else is asked, so
# what they don't tell isn't written. `workers` is how many the machine has. Who lays out answers calls `about`
# with each call and its answer, in their order. What has a name in `known_as` is told by that.

BEGIN {
    put(object_at, 3, "submit set-timer set-timer-ex is-timer-set set-wait start-io issue-io cancel-io complete-next")
    put(object_at, 4, "wait close")
    put(kernel_at, 3, "set-event reset-event release-semaphore acquire try-acquire")
    put(kernel_at, 4, "release-lock on-return set-wait")
    put(pool_at, 3, "set-maximum set-minimum close-pool")
    put(group_at, 3, "close-members close-group")
    put(environment_at, 5, "submit-simple")
    put(environment_at, 6, "create")
}

# What the answer to a call is about, in brackets behind a space, or nothing.
function about(text, answer,    what) {
    $0 = answer
    if ($1 == "full") return ""
    read_call(text)
    what = subject()
    if ($1 != "refused" && $1 != "look") learn()
    return what == "" ? "" : " (" what ")"
}

# --- What a call names: its actor, its word, and things by their numbers; "" where it names none

# Notes at which word of a line of these calls a number of that kind stands.
function put(words, at, these,    each, many) {
    for (many = split(these, each, " "); many; many--) words[each[many]] = at
}

function read_call(text,    at) {
    split(text, word, " ")
    actor = word[1]
    call = word[2]
    object = call in object_at ? word[object_at[call]] : ""
    kernel = call in kernel_at ? word[kernel_at[call]] : ""
    if (kernel == "none") kernel = ""
    pool = call in pool_at ? word[pool_at[call]] : ""
    group = call in group_at ? word[group_at[call]] : ""
    if (call in environment_at) {
        at = environment_at[call]
        pool = substr(word[at], 2)
        group = substr(word[at + 3], 2)
        if (group == "0") group = ""
        persistent = word[at + 2] ~ /^persistent/
    }
}

# --- What an answer is about

function subject() {
    if ($1 == "refused") return of_refusal($2)
    if ($1 == "stalled") return both(waits_for[actor], actor in takes ? owner_of(takes[actor]) : "")
    if ($1 == "notice") return actor in notices ? (given[actor] + 1) " of " notices[actor] : ""
    if ($1 != "look") return ""
    if ($2 == "not-yet" && $3 == "callback") return both(of_callback($4), stage_of($4))
    if ($2 == "not-yet") return $4 in kernel_kind ? both(named(kernel_kind[$4]), owner_of($4)) : ""
    return $2 != "no-need" && actor in pool_of ? both(called("pool", pool_of[actor]), $2 == "empty" ? for_whom(pool_of[actor]) : "") : ""
}

# Whom all that is pending in a pool is for, where the actor may take nothing and something is.
function for_whom(home,    number) {
    if (home in stays) for (number in reserved) if (reserved[number] == home) return "what is pending is for " stays[home]
    return ""
}

function of_refusal(name) {
    if (name == "no-such") return never_made()
    if (name == "released") return both(actor in finished ? "client " substr(actor, 2) : "", object in gone && call != "complete-next" ? called("object", object) : "")
    if (name == "wrong-kind") return other_kind()
    if (name == "not-waitable") return other_kind_of_kernel()
    if (name == "not-owner") return owner_of(kernel)
    if (name == "in-wait" && actor in waits_for) return waits_for[actor]
    if (name ~ /^(still-running|own-callback)$/ && actor in runs) return "callback " runs[actor]
    if (name ~ /^(has-members|operations-outstanding)$/) return $3 ? called("object", $3) : "simple callbacks"
    if (name == "already-attached" && actor in pool_of) return called("pool", pool_of[actor])
    return ""
}

# All that a call names and that was never made.
function never_made(    found) {
    if (actor ~ /^w/ && substr(actor, 2) + 0 > workers) found = "worker " substr(actor, 2)
    if (object != "" && !(object in object_kind)) found = both(found, called("object", object))
    if (kernel != "" && !(kernel in kernel_kind)) found = both(found, called("kernel object", kernel))
    if (pool + 0 > pools) found = both(found, called("pool", pool))
    if (group + 0 > groups) found = both(found, called("group", group))
    return found
}

function other_kind() {
    if (call == "finish") return actor " is a worker"
    return object in object_kind ? called("object", object) " is " named(object_kind[object]) : other_kind_of_kernel()
}

function other_kind_of_kernel() {
    return kernel in kernel_kind ? called("kernel object", kernel) " is " named(kernel_kind[kernel]) : ""
}

function named(kind) {
    if (kind == "io") return "an I/O object"
    if (kind == "work" || kind == "wait") kind = kind " object"
    return (kind == "event" ? "an " : "a ") kind
}

function owner_of(lock) {
    if (!is_lock(lock)) return ""
    return lock in owner ? owner[lock] " owns it" : "it is free"
}

function of_callback(number) {
    if (!(number in object_of)) return ""
    return object_of[number] ? called("object", object_of[number]) : "a simple callback"
}

function stage_of(number) {
    if (number in runner) return runner[number] " runs it"
    return number in operation ? "its operation is " operation[number] : "it is pending"
}

# A thing by its name, or else by its kind and number.
function called(kind, number) {
    return (kind, number) in known_as ? known_as[kind, number] : kind " " number
}

function both(one, other) {
    return one == "" ? other : other == "" ? one : one ", " other
}

# --- What an answer tells for the lines behind it

function learn() {
    if ($1 == "made") learn_made($2)
    else if ($1 == "attached") pool_of[actor] = $2
    else if (call == "detach") learn_detached(pool_of[actor])
    else if (call == "finish") finished[actor]
    else if (call == "close") gone[object]
    else if ($1 == "queued") learn_queued($2, $3)
    else if ($1 == "was") learn_queued($3, $4)
    else if ($1 == "started") { object_of[$2] = object; operation[$2] = "announced" }
    else if ($1 == "operation") operation[$2] = "under way"
    else if ($1 == "taken") learn_taken($2)
    else if (call == "on-return") action[actor, word[3]] = kernel
    else if (call == "release-lock") give_back(kernel)
    else if (call == "try-acquire") { if ($2 == "yes" && is_lock(kernel)) take_lock(kernel) }
    else if ($1 == "returned") learn_returned(runs[actor])
    else learn_wait()
}

function learn_made(number) {
    if (call == "create") { object_kind[number] = word[3]; group_of[number] = group; if (persistent) home_of[number] = pool }
    else if (call == "create-pool") pools = number
    else if (call == "create-group") groups = number
    else if (call == "create-lock") { kernel_kind[number] = word[3]; if (word[4] == "owned") take_lock(number) }
    else kernel_kind[number] = substr(call, length("create-") + 1)
}

# The callbacks that a call makes of its own object, or of none. Those that the clock or a signal makes are
# known when they are taken.
function learn_queued(first, many,    number) {
    if (call ~ /^complete-(io|next)$/) { delete operation[first]; reserve(first) }
    if (call !~ /^(submit|submit-simple|set-timer|set-timer-ex|set-wait)$/) return
    for (number = first; number < first + many; number++) object_of[number] = object
    for (number = first; number < first + many; number++) reserve(number)
}

# A persistent callback is pending, in its pool.
function reserve(number,    of) {
    of = object_of[number]
    if (of == "" ? !persistent : !(of in home_of)) return
    reserved[number] = of == "" ? pool : home_of[of]
    closed_by[number] = of == "" ? group : group_of[of]
}

function learn_taken(number) {
    object_of[number] = substr($3, 2) + 0
    if (number in reserved || object_of[number] in home_of) stays[pool_of[actor]] = actor
    delete reserved[number]
    runner[number] = actor
    runs[actor] = number
}

function learn_returned(number) {
    delete runner[number]
    delete runs[actor]
    if ($2 == "done") give_back(action[actor, "section"])
    if ($3 == "done") give_back(action[actor, "mutex"])
}

function learn_detached(home) {
    if (home in stays && stays[home] == actor) delete stays[home]
    delete pool_of[actor]
}

function learn_wait(    number) {
    if ($1 == "begun") {
        waits_for[actor] = "its wait for " called("object", object)
        if (word[5] == "cancel") for (number in reserved) if (object_of[number] == object) delete reserved[number]
    }
    else if (call == "acquire") { waits_for[actor] = "its wait for " called("kernel object", kernel); takes[actor] = kernel }
    else if ($1 == "closing") {
        waits_for[actor] = "its close of " called("group", group)
        notices[actor] = $4
        given[actor] = 0
        for (number in group_of) if (group_of[number] == group) gone[number]
        if (word[4] == "cancel") for (number in reserved) if (closed_by[number] == group) delete reserved[number]
    }
    else if ($1 == "notice") given[actor]++
    else if (call == "end") {
        if ($1 == "ended" && actor in takes && is_lock(takes[actor])) take_lock(takes[actor])
        delete waits_for[actor]
        delete takes[actor]
        delete notices[actor]
    }
}

function is_lock(number) {
    return kernel_kind[number] ~ /^(mutex|section)$/
}

function take_lock(lock) {
    owner[lock] = actor
    times[lock]++
}

function give_back(lock) {
    if (--times[lock] == 0) delete owner[lock]
}

# Forgets all entries, for those of another history.
function forget() {
    split("", pool_of)
    split("", finished)
    split("", gone)
    split("", object_kind)
    split("", group_of)
    split("", home_of)
    split("", reserved)
    split("", closed_by)
    split("", stays)
    split("", kernel_kind)
    split("", owner)
    split("", times)
    split("", runs)
    split("", runner)
    split("", object_of)
    split("", operation)
    split("", action)
    split("", waits_for)
    split("", takes)
    split("", notices)
    split("", given)
    pools = groups = 0
}
