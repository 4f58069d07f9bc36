# What the script says of a bad line, and of a history's wrong answer: the place, the line itself and a
# likely cause. The program tells the place alone.
# shellcheck shell=bash

# Line $1 of the input, with the line feed that it has.
line_of_input() {
    tail -c +$((start + 1)) /dev/stdin 2>/dev/null | head -n "$1" | tail -n +"$1"
}

# Shows a bad line with a mark under the column, below its place and a likely cause; and below that, where nothing
# better is known of a call, the words of its line.
show_fault() {
    local line=$1 column=$2 from=1 text cause='' form=''
    ((column <= 70)) || from=$((column - 60))
    text=$(line_of_input "$line" | LC_ALL=C cut -b "$from-$((from + 99))" | LC_ALL=C tr -c '\n -~' '?')
    ((from == 1)) || text=..${text:2}
    find_cause "$line" "$column"
    printf '%s%d:%d: %s\n    %s\n    %*s\n' "$origin" "$line" "$column" "$cause" "$text" $((column - from + 1)) '^' >&2
    [[ -z $form ]] || printf '    the line is: %s\n' "$form" >&2
}

# The bytes of line $1 from byte $2 on, at most $3, without any NUL.
rest_of_line() {
    line_of_input "$1" | tail -c +"$2" | head -c "$3" | tr -d '\000'
}

# Finds a likely cause of a fault, where its place shows one, and the `form` of a call where it doesn't.
find_cause() {
    local line=$1 column=$2 rest
    cause=$(find_coding "$line")
    [[ -z $cause ]] || return 0
    rest=$(rest_of_line "$line" "$column" 60)
    case $command:$line:$column:$rest in
    *:1:1:device) cause='these are devices, it seems: ./tpool port reads them' ;;
    trace:1:1:'history '* | libraries:1:1:'history '* | legacy:1:1:'history '* | windows:1:1:'history '* | port:1:1:'history '* | run*:1:1:'history '* | explore:1:1:'history '*) cause='this is a history: ./tpool check reads it' ;;
    history:1:1:'history '*) cause='this is a history: ./tpool check reads it, and ./tpool migrate writes it in format 2' ;;
    port:1:1:[cw][0-9]* | run*:1:1:[cw][0-9]* | explore:1:1:[cw][0-9]*) cause='this is a trace: ./tpool trace plays it' ;;
    run* | explore) cause=$(find_in_script "$line" "$column") ;;
    check:1:1:[cw][0-9]*) cause='this is a trace: ./tpool trace reads it, and ./tpool history makes a history of it' ;;
    *:*:*:[#\;]* | *:*:*:\ [#\;]* | *:*:*:'//'* | *:*:*:' //'* | *:*:*:'--'* | *:*:*:' --'*)
        cause='there are no comments, but in scripts, which ./tpool run plays'
        ;;
    *:1:[12]:*) ! is_script || cause='this is a script, it seems: ./tpool run plays it' ;;&
    port:*) cause=${cause:-$(find_among_devices "$line" "$column" "$rest")} ;;
    check:*:1:[cw0-9]*) cause=${cause:-$(find_moment "$rest")} ;;
    trace:* | history:* | show:* | libraries:* | legacy:*) ! is_sleep "$line" || cause='this is a sleep: ./tpool windows plays it' ;;&
    trace:* | history:* | show:* | libraries:* | windows:*) ! is_old_call "$line" || cause='this is a call of the pool before Vista: ./tpool legacy plays it' ;;&
    trace:*:*:*' l'[0-9]* | history:*:*:*' l'[0-9]* | show:*:*:*' l'[0-9]* | legacy:*:*:*' l'[0-9]* | windows:*:*:*' l'[0-9]*) cause='this has to do with a library: ./tpool libraries plays it' ;;
    trace:*:*:' -> '* | libraries:*:*:' -> '* | legacy:*:*:' -> '* | windows:*:*:' -> '*) cause='an answer stands here, as in a history: ./tpool check reads those' ;;
    *) cause=${cause:-$(find_meant "$line" "$column")} ;;
    esac
    [[ -n $cause ]] || find_byte "$line" "$column" "$rest"
    [[ -n $cause || $command != check || $(rest_of_line "$line" 1 4) != 'end ' ]] || cause='the end line has the number of the entries'
    [[ $command == run* || $command == explore || -n $cause && $cause != 'the line ends here, '* ]] || find_form "$line" "$column"
    cause=${cause:-no good line goes on like this}
}

# What tells that the bytes are not those of plain lines, whatever else is wrong: a mark in front, or CR LF.
find_coding() {
    local first
    first=$(line_of_input 1 | head -c 3 | od -An -tx1)
    if (($1 == 1)) && [[ $first == ' ef bb bf'* || $first == ' ff fe'* || $first == ' fe ff'* ]]; then
        echo 'a byte order mark, it seems: the lines are plain ASCII'
    elif [[ $(line_of_input "$1" | tr -d '\000') == *$'\r' ]]; then
        echo 'a carriage return: lines end in LF alone, and not in CR LF'
    fi
}

# What is wrong with an entry of a history whose first byte can't stand there.
find_moment() {
    case $(rest_of_line 1 1 9)$1 in
    'history 1'[0-9]*) echo 'a moment stands here, and histories of format 1 have none' ;;
    'history 2'[cw]*) echo 'the moment is missing, which in format 2 stands before each entry' ;;
    'history '[12]*) echo 'there are as many entries as the first line has room for: the end line stands here' ;;
    esac
}

# What is wrong among devices with a line that could stand elsewhere.
find_among_devices() {
    local devices operations
    read -r devices operations < <(input_again 2>/dev/null | head -n $(($1 - 1)) | awk '/^device/ { devices++ } /^op / { operations++ } END { print devices + 0, operations + 0 }')
    case $2:$3:$devices in
    1:op*:0) echo "an operation is of the device above it: \`device\` stands first" ;;
    1:op*) echo "there are $operations operations above, as many as there may be" ;;
    1:device*) echo "there are $devices devices above, as many as there may be" ;;
    esac
}

# Finds what the byte at the fault's place may mean.
find_byte() {
    local byte before
    byte=$(line_of_input "$1" | tail -c +"$2" | head -c 1 | od -An -tu1)
    before=$( (($2 == 1)) || rest_of_line "$1" $(($2 > 2 ? $2 - 2 : 1)) $(($2 > 2 ? 2 : 1)))
    cause=$(name_byte "${byte// /}" "$1" "$2" "$before" "$3")
}

# What some parts of awk make of the call of line $1 that is bad at column $2, and of the headings. A moment that stands
# before the call is passed.
from_actor_on() {
    local moment=0
    [[ $command != check || ! $(rest_of_line "$1" 1 20) =~ ^[0-9]+' ' ]] || moment=${#BASH_REMATCH}
    rest_of_line "$1" $((moment + 1)) $(($2 + 99 - moment)) |
        LC_ALL=C awk -v column=$(($2 - moment)) -f "$home/script/headings.awk" "${@:3}" - "$pages" 2>/dev/null
}

# Finds what the line of the call looks like, and which of its words is missing, if the line ends too early; of devices,
# what their lines look like.
find_form() {
    local word what=line
    if [[ $command == port ]]; then
        form='device, or op ERROR BYTES'
        return
    fi
    {
        read -r word
        IFS= read -r form
    } < <(from_actor_on "$1" "$2" -f "$home/script/form.awk")
    [[ $(rest_of_line "$1" "$2" 1) != [-\ ] ]] || what=call
    [[ -z $word || -z $form ]] || cause="the $what ends here, and $word is missing"
}

# Whether the first line begins as one of a script does.
is_script() {
    [[ " pool group event semaphore mutex section work timer wait io routine client " == *" $(rest_of_line 1 1 20 | cut -d ' ' -f 1) "* ]]
}

# Whether the call of line $1 has the word of one of the pool before Vista. A `create-timer` without a queue is none.
is_old_call() {
    local word queue
    read -r _ word queue _ < <(rest_of_line "$1" 1 40)
    [[ $word != create-timer || $queue != r* ]] || return
    [[ " queue-item register unregister create-queue create-timer change-timer delete-timer delete-queue " == *" $word "* ]]
}

# Whether the call of line $1 is a sleep.
is_sleep() {
    local word
    read -r _ word _ < <(rest_of_line "$1" 1 40)
    [[ $word == sleep ]]
}

# The word that is meant by one that is none, if one is near.
find_meant() {
    from_actor_on "$1" "$2" -f "$home/script/distance.awk" -f "$home/script/meant.awk"
}

# A likely cause of a fault in a script, from all of its lines.
find_in_script() {
    tail -c +$((start + 1)) /dev/stdin 2>/dev/null | LC_ALL=C awk -v line="$1" -v column="$2" -f "$home/script/distance.awk" -f "$home/script/scripts.awk"
}

# What a byte at a fault's place may mean, with the one or two before it and those from it on.
name_byte() {
    case $1:$2:$3 in
    :*:1) echo 'the input ends here, and one more line is missing' ;;
    :*) echo 'the input ends here: the line feed is missing, or more' ;;
    9:*) echo 'a tab: one space stands between two words' ;;
    10:*:1) echo 'an empty line' ;;
    10:*) echo 'the line ends here, and something is missing' ;;
    13:*) echo 'a carriage return: lines end in LF alone, and not in CR LF' ;;
    32:*:1) echo 'a space in front of the line' ;;
    32:*) [[ $4 != *' ' && -n ${5// /} ]] || echo 'a space too many' ;;
    4[89]:* | 5[0-7]:*) [[ ! " $4" =~ [^0-9]0$ ]] || echo 'a number has no leading zeros' ;;
    6[5-9]:* | [78]?:* | 90:*) echo 'words are in small letters' ;;
    ?:* | [12]?:* | 3[01]:* | 127:*) echo 'a control character: the lines are plain ASCII' ;;
    12[89]:* | 1[3-9]?:* | 2??:*) echo 'a byte that is not ASCII' ;;
    esac
}

# Shows the entry of a history whose answer or moment is wrong: its line, what it claims, and what the machine says, and why.
show_wrong_answer() {
    local line=$(($1 + 1)) text call why
    text=$(line_of_input "$line")
    call=${text%% -> *}
    if [[ $2 == 'moment '* ]]; then
        printf '%s%d:1: %s\n    the history says: moment %s\n    it should be: %s\n' "$origin" "$line" "$text" "${text%% *}" "$2" >&2
        return
    fi
    why=$(input_again | awk -v wrong="$1" -v said="$2" -f "$home/script/entries.awk" -f "$home/script/about.awk" -f "$home/script/why.awk")
    printf '%s%d:%d: %s\n    the history says: %s\n    the machine says: %s\n' \
        "$origin" "$line" $((${#call} + 5)) "$call" "${text#* -> }" "$why" >&2
}
