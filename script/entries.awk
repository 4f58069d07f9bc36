# The lines of a history's entries, in either format: in format 2 its moment and a space stand before each.

# Takes a line apart, into its call and its answer.
function read_entry(line,    cut) {
    if (line ~ /^[0-9]/) line = substr(line, index(line, " ") + 1)
    cut = index(line, " -> ")
    entry_call = substr(line, 1, cut - 1)
    entry_answer = substr(line, cut + 4)
}
