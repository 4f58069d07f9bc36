# The calls of a history, as the lines of a trace. `workers` and `events` are those of a trace's machine, and what is
# to be said of another one goes to standard error.

NR == 1 { clients = $4; options = ($6 == workers ? "" : " --workers " $6) ($8 == events ? "" : " --events " $8); next }
/^end / { exit }

{
    read_entry($0)
    if (entry_call ~ /^c/ && substr(entry_call, 2) + 0 > greatest) greatest = substr(entry_call, 2) + 0
    print entry_call
}

END {
    if (options != "") print "tpool: the same machine is that of ./tpool trace" options >"/dev/stderr"
    if (greatest < clients) print "tpool: the history has " clients " clients, and a trace as many as its greatest number" >"/dev/stderr"
}
