# How the program is proved and built, and how far that is.
# shellcheck shell=bash

# The memory that a proof is given, in GiB.
memory_each=3
# How many minutes in a row may pass in which a build doesn't move.
patience=10
# The seconds in which it is looked whether a build moves.
beat=60

# How many crates are proved at once: one a processor, as far as memory goes.
count_at_once() {
    local free group limit held count
    free=$(awk '/^MemAvailable:/ { printf "%d", $2 / 1048576 }' /proc/meminfo 2>/dev/null)
    group=$(awk '/ - cgroup2 / { print $5; exit }' /proc/self/mountinfo 2>/dev/null)
    if limit=$(cat "$group/memory.max" 2>/dev/null) && [[ $limit != max ]] &&
        held=$(cat "$group/memory.current" 2>/dev/null); then
        held=$(((limit - held) >> 30))
        ((held >= ${free:-0})) || free=$held
    fi
    count=$(nproc)
    ((${free:-0} / memory_each >= count)) || count=$((${free:-0} / memory_each))
    echo $((count > 0 ? count : 1))
}

# Plans when each crate is done where so many are proved at once: the seconds of the plan and those of the crate alone,
# by name, and the names by those of the plan.
plan_crates() {
    local end alone name
    declare -gA alone_of=() end_of=()
    declare -ga plan=()
    while read -r end alone name; do
        plan+=("$name")
        end_of[$name]=$end
        alone_of[$name]=$alone
    done < <({
        find_files -name '*.rt' -printf '%H source %s\n' -o -name '*.antt' -printf '%H proof %s\n'
        for name in "${crates[@]}"; do echo "$name below ${below[$name]}"; done
    } | awk -v at_once="$1" -f "$home/script/plan.awk" | sort -n)
}

# How many seconds are left: those of the plan behind what is done, at the pace so far, less those since the last crate
# was done; and where the next one is late, those of the plan behind it. The pace begins as that of the plan, with the
# weight of a minute.
count_left() {
    local name work=0 at=0 next=0 whole=${end_of[${plan[-1]}]} left least
    for name in "${done[@]}"; do work=$((work + alone_of[$name])); done
    for name in "${plan[@]}"; do
        next=${end_of[$name]}
        work=$((work - alone_of[$name]))
        ((work >= 0)) || break
        at=$next
    done
    left=$(((whole - at) * (last_done + 60) / (at + 60) - (SECONDS - last_done)))
    least=$(((whole - next) * (last_done + 60) / (at + 60)))
    echo $((left > least ? left : least))
}

# A number of seconds in minutes.
in_minutes() {
    if (($1 < 90)); then echo 'a minute'; else echo "$((($1 + 30) / 60)) minutes"; fi
}

# Says how far the proofs are.
tell_progress() {
    local name left=
    for name in "${crates[@]}"; do
        [[ " ${done[*]} " == *" $name "* ]] || left+=" $name"
    done
    say "${#done[@]} of ${#crates[@]} crates done, about $(in_minutes "$(count_left)") to go:${left:- nothing}"
}

# The processor time that a process and all below it have used, in ticks.
count_ticks() {
    cat /proc/[0-9]*/stat 2>/dev/null | awk -v top="$1" '
        { process = $1; sub(/^.*\) /, ""); parent[process] = $2; ticks[process] = $12 + $13 + $14 + $15 }
        END {
            for (process in ticks) {
                for (above = process; above in parent && above != top; above = parent[above]) { }
                if (above == top) sum += ticks[process]
            }
            printf "%d\n", sum
        }'
}

# Whether a build has used processor time since it was last asked for.
moves() {
    local before=$ticks
    ticks=$(count_ticks "$1")
    [[ $ticks != "$before" ]]
}

# Proves all crates, side by side what can be, and says how far it is each time one is done and each minute. There is no
# limit but for one that stands still.
prove_crates() {
    local line rt_says rt_id still=0 ticks=0 last_done=0 done=()
    SECONDS=0
    exec {rt_says}< <(cd "$home/crates/$program" && exec rt all check --jobs "$1" </dev/null 2>&1)
    rt_id=$!
    while ((still < patience)); do
        if read -r -t "$beat" -u "$rt_says" line; then
            printf '%s\n' "$line" >>"$room/build.log"
            [[ $line == '== '* && " ${crates[*]} " == *" ${line#== } "* ]] || continue
            done+=("${line#== }")
            last_done=$SECONDS
        else
            # At the end of what rt says; else the time is up.
            (($? > 128)) || break
            if moves "$rt_id"; then still=0; else still=$((still + 1)); fi
        fi
        tell_progress
    done
    if ((still == patience)); then
        kill "$rt_id"
        say "nothing has moved for $patience minutes"
        return 1
    fi
    wait "$rt_id"
}

# Proves all crates and builds the program: of the sources at the start, if they don't change meanwhile.
build_program() {
    local started at_once
    command -v rt >/dev/null ||
        fail 127 'the command rt is missing: the program is proved and built by it'
    make_room
    printf -v started '%(%s)T' -1
    read_crates
    sources=$(sum_sources)
    at_once=$(count_at_once)
    plan_crates "$at_once"
    [[ $(rt version) == "$kit" ]] || say "this was proved with $kit, and rt is $(rt version)"
    say "proving ${#crates[@]} crates, up to $at_once at once, in about $(in_minutes "${end_of[${plan[-1]}]}"): ${crates[*]}"
    prove_crates "$at_once" || fail_build
    say "building $program"
    (cd "$home/crates/$program" && exec rt run -- trace) </dev/null >>"$room/build.log" 2>&1 || fail_build
    known=("$started" "$(sum_of <"$binary")" "$sources")
    keep_sums "${known[@]:0:2}"
    drop_unproved ''
    is_current || fail 126 'proved and built, but of sources that have changed meanwhile'
    say 'proved and built'
}

# Shows what went wrong in a build, and ends.
fail_build() {
    awk '/error|no proof|not proved|: failed|not run, since/ && ++count <= 20' "$room/build.log" >&2
    tail -n 1 "$room/build.log" >&2
    fail 126 'the program was not built'
}
