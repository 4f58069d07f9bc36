# The C programs in windows: the page on Windows names each of them, and mingw compiles them where it is there.
# shellcheck shell=bash

page=$here/docs/WINDOWS.md
# shellcheck disable=SC2016
programs_named() {
    diff <(cd "$here/windows" && printf '%s\n' *.c | sed 's/\.c$//' | LC_ALL=C sort) \
        <(awk -F'|' '/^\| / { print $(NF - 1) } { while (match($0, /\(`io-results`\)/)) { print "io-results"; $0 = substr($0, RSTART + RLENGTH) } }' "$page" |
            sed -n 's/^ *`\{0,1\}\([a-z][a-z-]*\)`\{0,1\} *$/\1/p' | LC_ALL=C sort -u)
}
input=
try 'docs/WINDOWS.md names the programs of windows' 0 '' '' programs_named

# The header is compiled once, beside a copy of the programs: windows.h is long.
mingw=x86_64-w64-mingw32-gcc
compiles() {
    inside "$room/windows" "$mingw" -std=c99 -Wall -Wextra -Wno-unused-parameter -Wno-missing-field-initializers -Werror "$@"
}
if command -v "$mingw" >/dev/null; then
    cp -r "$here/windows" "$room/windows"
    try 'windows: probe.h' 0 '' '' compiles -x c-header -o probe.h.gch probe.h
    for file in "$here/windows"/*.c; do
        try "windows: ${file##*/}" 0 '' '' compiles -fsyntax-only "${file##*/}"
    done
else
    echo "tests: $mingw is not there, so the programs in windows were not compiled"
fi
