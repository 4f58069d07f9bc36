# Plays a script again and again, and tells what came of it.
# shellcheck shell=bash

# The runs of a share whose outputs are kept until they are looked at together.
batch=50
# From how many seconds on it is said beforehand how long it takes.
long=10

# Plays the script of standard input `runs` times, in shares that go on side by side. An interrupt ends that, and what
# came is told.
play_runs() {
    local interrupted='' shares=1 wrong=0 words=() kept='' share
    make_room
    input_again >"$room/script"
    settle_runs
    probe || return
    [[ -z $keep ]] || { mkdir -p -- "$keep" && [[ -w $keep ]]; } 2>/dev/null || fail 4 "write fault: nothing can be written into $keep"
    trap 'interrupted=yes' INT
    for ((share = 1; share <= shares; share++)); do
        mkdir "$room/share-$share"
        play_share "$share" |
            folder=$room/share-$share awk -f "$home/script/entries.awk" -f "$home/script/about.awk" -f "$home/script/ring.awk" \
                -f "$home/script/names.awk" -f "$home/script/runs.awk" "$room/script" - >"$room/told-$share" 2>/dev/null &
    done
    until wait; do :; done
    trap - INT
    tell_runs
}

# What the program is asked for, and how many shares there are: by seeds one a processor, each with every so manieth
# seed; on threads, which take the processors themselves, one.
settle_runs() {
    words=(run "${options[@]}")
    if [[ -z $threads ]]; then
        shares=$(nproc)
        ((shares < runs)) || shares=$runs
    fi
    awk '!/^ *(#|$)/ { found = 1; exit } END { exit !found }' "$room/script" || say 'the script is empty'
}

# Plays once, which shows whether the script can be played, and how long it takes.
probe() {
    local said status begin=${EPOCHREALTIME/[.,]/} seconds
    said=$(play_once 1 2>&1 >/dev/null)
    status=$?
    seconds=$(((${EPOCHREALTIME/[.,]/} - begin) * runs / shares / 1000000))
    case $status in
    0 | 8 | 9 | 10) ((seconds < long)) || say "$runs runs take about $(span "$seconds")" ;;
    *) hand_on "$said" "$status" ;;
    esac
}

# A number of seconds in words.
span() {
    if (($1 < 100)); then
        echo "$1 seconds"
    elif (($1 < 6000)); then
        echo "$((($1 + 30) / 60)) minutes"
    else
        echo "$((($1 + 1800) / 3600)) hours"
    fi
}

# Plays the run of a number, in place of a subshell.
play_once() {
    local seed=()
    [[ -n $threads ]] || seed=("--seed=$1")
    run_program "${words[@]}" "${seed[@]}" <"$room/script"
}

# Plays each run of a share, until one goes wrong or an interrupt comes, and hands on what they write.
play_share() {
    local number status ended=()
    cd "$room/share-$1" || return
    trap 'interrupted=yes' INT
    for ((number = $1; number <= runs; number += shares)); do
        (play_once "$number") >"run-$number" 2>said
        status=$?
        [[ -z $interrupted && ! -e $room/wrong ]] || break
        case $status in
        0 | 8 | 9 | 10) ended+=("$number" "$status") ;;
        *)
            cp said "$room/said" && echo "$status" >"$room/wrong"
            break
            ;;
        esac
        ((${#ended[@]} < 2 * batch)) || hand_over "$1"
    done
    rm -f "run-$number"
    ((${#ended[@]} == 0)) || hand_over "$1"
}

# Hands on what some runs wrote, with their ends and the sums by which they are known.
hand_over() {
    printf 'ended %d %d\n' "${ended[@]}"
    sha256sum run-*
    tail -v -n +1 run-*
    rm -f run-*
    ended=()
    [[ ! -t 2 ]] || (($1 > 1)) || printf '\r%d of %d runs' "$number" "$runs" >&2
}

# Tells what came of all runs. The status is that of the first kind of --fail-on that came, or of a run that went wrong.
tell_runs() {
    local played
    [[ ! -t 2 ]] || printf '\r\033[K' >&2
    if [[ -e $room/wrong ]]; then
        wrong=$(<"$room/wrong")
        hand_on "$(<"$room/said")" "$wrong"
        ((wrong < 10 || wrong == 126 || wrong == 127)) || say "a run ended with the status $wrong"
    fi
    played=$(awk -F '\t' '$1 == "history" { sum += $3 } END { print sum + 0 }' "$room"/told-*)
    if ((played == 0)); then
        ((wrong)) || say 'no run came to its end'
        ((wrong)) || wrong=126
    else
        choose_folder
        print_line "$(tell_kinds)"
        keep_histories
    fi
    if [[ -n $interrupted ]]; then
        return 130
    fi
    ((wrong == 0)) || return "$wrong"
    status_of_runs
}

# Where the histories are kept: in the folder that is asked for, or, where no seed shows them again, in one of their own.
choose_folder() {
    kept=$keep
    [[ -n $kept || -z $threads ]] || kept=$(mktemp -d "${TMPDIR:-/tmp}/tpool-runs-XXXXXX" 2>/dev/null) ||
        fail 126 "there is no room for the histories in ${TMPDIR:-/tmp}"
}

# Tells the kinds of all shares, and lists their files.
tell_kinds() {
    kept=$kept list=$room/list came=$room/came \
        awk -v played="$played" -v runs="$runs" -v threads="${threads:-0}" -v json="$json" -f "$home/script/kinds.awk" "$room"/told-*
}

keep_histories() {
    local file name
    [[ -n $kept ]] || return 0
    while IFS=$'\t' read -r file name; do
        cp -- "$file" "$kept/$name" 2>/dev/null || fail 4 "write fault: nothing can be written into $kept"
    done <"$room/list"
}

# The status for the kinds of --fail-on that came: as the program's own, where it has one.
status_of_runs() {
    ! came fault || return 10
    ! came 'exhausted left' || return 8
    ! came stalled || return 9
    ! came 'refused cancelled' || return 7
}

# Whether one of these words is asked for and came.
came() {
    local word all
    all=$'\n'$(<"$room/came")$'\n'
    for word in $1; do
        [[ ,$fail_on, != *",$word,"* || $all != *$'\n'"$word"$'\n'* ]] || return 0
    done
    return 1
}
