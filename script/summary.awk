# The summary of a run without its history: what `run` writes, and behind it `status N`. In a line of JSON the status
# stands too, and how many waits ended with `stalled` and with `exhausted`.

/^status / { status = $2; next }
/^end / { over = 1; next }
over { summary = summary $0 "\n"; next }
/ -> stalled$/ { stalled++ }
/ -> exhausted$/ { exhausted++ }

END {
    sub(/,"left":/, ",\"exhausted\":" exhausted + 0 "&", summary)
    sub(/,"taken":/, ",\"stalled\":" stalled + 0 ",\"status\":" status "&", summary)
    printf "%s", summary
}
