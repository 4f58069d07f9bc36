# What the machine says of the entry `wrong` of a history, `said`, and behind it what that is about.

NR == 1 { workers = $6; next }

{ read_entry($0) }
NR == wrong + 1 { print said about(entry_call, said); exit }
{ about(entry_call, entry_answer) }
