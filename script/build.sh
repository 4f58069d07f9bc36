# What the program is built of, and whether it is built of what stands here. Sums tell that.
# shellcheck shell=bash

# The repository's crates below a crate and then itself, lowest first, each once.
list_crates() {
    local dep
    [[ " ${crates[*]} " == *" $1 "* ]] && return
    for dep in ${below[$1]}; do
        [[ -z ${below[$dep]+listed} ]] || list_crates "$dep"
    done
    crates+=("$1")
}

# Reads crates.txt, which has the libraries that each crate stands on: NAME: NAME ..
read_crates() {
    local name libraries
    declare -gA below=()
    declare -ga crates=()
    while IFS=: read -r name libraries; do
        name=${name%%[#[:space:]]*}
        [[ -z $name ]] || below[$name]=${libraries%%#*}
    done <"$home/crates.txt"
    list_crates "$program"
}

# Looks for files and folders of the crates that the program stands on, as find does.
find_files() {
    (cd "$home/crates" && find "${crates[@]}" -mindepth 1 \( -name out -o -name must-fail \) -prune -o "$@")
}

# The sum of standard input.
sum_of() {
    local sum
    sum=$(sha256sum)
    echo "${sum%% *}"
}

# The sum of what the program is built of: its crates with those that they stand on, and all their sources and
# proofs with their names.
sum_sources() {
    local name
    {
        for name in "${crates[@]}"; do printf '%s:%s\n' "$name" "${below[$name]}"; done
        find_files \( -name '*.rt' -o -name '*.antt' \) -exec sha256sum {} +
    } | LC_ALL=C sort | sum_of
}

# Whether the program is the one of these sources, by their sums and its own. Of a program that rt has built by itself
# since, dates tell it, once.
is_current() {
    local now sum
    printf -v now '%(%s)T' -1
    read_crates
    sources=$(sum_sources)
    sum=$(sum_of <"$binary")
    if [[ $sum == "${known[1]-}" ]]; then
        [[ $sources == "${known[2]}" ]] || return
    else
        is_newest || return
    fi
    keep_sums "$now" "$sum"
    return 0
}

# Whether nothing that the program is built of was touched since.
is_newest() {
    [[ ! $home/crates.txt -nt $binary &&
        -z $(find_files \( -type d -o -name '*.rt' -o -name '*.antt' \) -cnewer "$binary" -print -quit) ]]
}

# Keeps beside the program what begin_walk wants to know of it, where that can be written: the seconds at which it was
# found to be that of these sources, less one, since the dates of files are coarse; its sum, and theirs.
keep_sums() {
    { { printf '%s\n' $(($1 - 1)) "$2" "$sources" && list_halves; } >"$record.$$" && mv -f -- "$record.$$" "$record"; } 2>/dev/null
}

# What the program is built of and the program itself, in two halves of about as many files each.
list_halves() {
    find_files -print | cut -d / -f 1 | sort | uniq -c | sort -rn | awk -v built="$program/out/$program" '
        { at = files[2] < files[1] ? 2 : 1; files[at] += $1; half[at] = half[at] " " $2 }
        END { print "../crates.txt" half[1]; print built half[2] }'
}

# Removes what sources were compiled to, but for one file.
drop_unproved() {
    local it
    for it in "$binary".unproved-*; do
        [[ $it == "$1" ]] || rm -f -- "$it" 2>/dev/null
    done
}
