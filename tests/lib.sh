# What the tests share: a room for files, and `try`, which runs a command and compares what it did.
# shellcheck shell=bash

here=$(cd -- "$(dirname -- "${BASH_SOURCE[0]}")/.." && pwd -P)
program=$here/crates/tp_top/out/tp_top
room=$(mktemp -d) || exit 1
trap 'chmod -R u+w "$room" && rm -rf "$room"' EXIT
passed=0
failed=0
# What the next commands read.
input=

# Whether a text is what is wanted: the text itself, or with ~ in front a pattern for it.
fits() {
    if [[ $2 == '~'* ]]; then
        # shellcheck disable=SC2053
        [[ $1 == ${2:1} ]]
    else
        [[ $1 == "$2" ]]
    fi
}

# The whole text of a file, its last line feeds too.
text_of() {
    local text
    text=$(tr -d '\000' <"$1" && printf x)
    printf '%s' "${text%x}"
}

# Counts a test, and shows what was wrong.
count() {
    if [[ $2 == yes ]]; then
        passed=$((passed + 1))
    else
        failed=$((failed + 1))
        printf 'FAILED: %s\n' "$1"
        shift 2
        printf '  %q\n' "$@"
    fi
}

# try NAME STATUS OUT ERR COMMAND..: runs the command on the text of `input`.
try() {
    local name=$1 wanted=$2 out=$3 err=$4 status given_out given_err is_well=no
    shift 4
    printf '%s' "$input" >"$room/input"
    "$@" <"$room/input" >"$room/out" 2>"$room/err"
    status=$?
    given_out=$(text_of "$room/out" && printf x)
    given_err=$(text_of "$room/err" && printf x)
    fits "$status" "$wanted" && fits "${given_out%x}" "$out" && fits "${given_err%x}" "$err" && is_well=yes
    count "$name" "$is_well" "status $status, wanted $wanted" "${given_out%x}" "$out" "${given_err%x}" "$err"
}

# milliseconds COMMAND..: how many of them a processor is busy with it.
milliseconds() {
    local TIMEFORMAT='%3U %3S' user system
    read -r user system < <({ time "$@" >"$room/played"; } 2>&1)
    echo $((10#${user/[.,]/} + 10#${system/[.,]/}))
}

# no_longer COMMAND: whether what the traces `among` and `alone` of the room end with takes up to three times as long in the
# one, among much, as in the other, among little, in the least of some runs each, in turn. `among` begins with what is in
# `made`. A walk along all that there is takes fifty times as long.
no_longer() {
    local -A least=()
    local pass part took
    for pass in {1..7}; do
        for part in among made alone; do
            took=$(milliseconds "$1" "$part")
            ((${least[$part]-999999} <= took)) || least[$part]=$took
        done
        ((pass < 3 || least[among] - least[made] > 3 * least[alone])) || return 0
    done
    echo "$((least[among] - least[made])) milliseconds among much, ${least[alone]} among little"
}
