# Places of faults in drawn lines of calls and of entries, as the program tells them and as a finder does that is written
# apart.
# shellcheck shell=bash disable=SC2016

# with_lines FILE OF OPTION..: runs a program of awk on the file entry_lines and the drawn texts of a kind.
with_lines() { LC_ALL=C awk -v of="$2" "${@:3}" -f "$here/tests/entry_lines.awk" -f "$here/tests/$1" "$here/tests/entry_lines" RS=@ -; }

# draw_lines NAME OF COUNT COMMAND LINE OPTION..: so many texts for each line of the kind, what the command tells of each, and
# what the finder does. If it isn't empty, the line stands in front of each.
draw_lines() {
    local drawn=$room/$1-drawn
    with_lines draw_lines.awk "$2" -v seed=9 -v count="$3" "${@:6}" </dev/null >"$drawn"
    with_lines find_columns.awk "$2" -v before=$((${#5} > 0)) "${@:6}" <"$drawn" >"$room/$1-found" &
    awk -v RS=@ -v command="$4" -v line="$5" '{
        print "\"$program\" " command " <<\\END\n" (line == "" ? "" : line "\n") $0 "\nEND" }' "$drawn" |
        program=$program sh >"$room/$1-told" 2>&1
    wait "$!"
}

# count_lines NAME OF COUNT: a test for each line of the kind, and one that there were so many texts.
count_lines() {
    local names drawn told found name at=0 end is_well shown
    mapfile -t names < <(sed -n "s/^$2 //p" "$here/tests/entry_lines")
    mapfile -t -d @ drawn <"$room/$1-drawn"
    mapfile -t told <"$room/$1-told"
    mapfile -t found <"$room/$1-found"
    for name in "${names[@]}"; do
        is_well=yes shown=()
        for ((end = at + $3; at < end; at++)); do
            [[ ${told[at]-} != 'tpool: bad line '* || ${told[at]} != "${found[at]-}" ]] || continue
            is_well=no shown=("${drawn[at]-}" "${told[at]-}" "${found[at]-}")
        done
        count "places of faults, $1 $name" "$is_well" "${shown[@]}"
    done
    is_well=no
    ((at == 0 || at != ${#drawn[@]} || at != ${#told[@]} || at != ${#found[@]})) || is_well=yes
    count "drawn texts, $1" "$is_well" "$at, ${#drawn[@]}, ${#told[@]}, ${#found[@]}"
}

draw_lines call call 54 trace '' &
drawn_calls=$!
draw_lines library library 81 libraries '' &
drawn_of_libraries=$!
draw_lines legacy legacy 81 legacy '' &
drawn_of_old=$!
draw_lines sleep sleep 270 windows '' &
drawn_of_sleeps=$!
draw_lines answer answer 81 check 'history 1 clients 16 workers 64 events 131072' &
drawn_answers=$!
draw_lines timed answer 27 check 'history 2 clients 16 workers 64 events 131072 objects 65535' -v timed=1
wait "$drawn_calls" "$drawn_of_libraries" "$drawn_of_old" "$drawn_of_sleeps" "$drawn_answers"
count_lines call call 54
count_lines library library 81
count_lines legacy legacy 81
count_lines sleep sleep 270
count_lines answer answer 81
count_lines timed answer 27
