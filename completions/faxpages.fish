# Completes the words of faxpages(1) in fish.

set -l commands list rows convert check salvage

complete -c faxpages -n "not __fish_seen_subcommand_from $commands" -f
complete -c faxpages -n "not __fish_seen_subcommand_from $commands" -a list -d 'print a line for each page'
complete -c faxpages -n "not __fish_seen_subcommand_from $commands" -a rows -d 'print a line for each row'
complete -c faxpages -n "not __fish_seen_subcommand_from $commands" -a convert -d 'write the pages in another form'
complete -c faxpages -n "not __fish_seen_subcommand_from $commands" -a check -d 'report faults and notes'
complete -c faxpages -n "not __fish_seen_subcommand_from $commands" -a salvage -d 'print or write the rows that are left of a damaged fax'

complete -c faxpages -n '__fish_seen_subcommand_from list rows' -l cursor -x -d 'resume at this cursor'
complete -c faxpages -n '__fish_seen_subcommand_from list rows' -l max -x -d 'print at most this many lines'
complete -c faxpages -n '__fish_seen_subcommand_from rows' -l long -d 'name a long cursor after next'

complete -c faxpages -n '__fish_seen_subcommand_from convert salvage' -s o -x -a 'pbm mh mr mmr' -d 'the form to write'
complete -c faxpages -n '__fish_seen_subcommand_from convert salvage' -l order -x -a '1 2' -d 'which bit of a byte is first'
complete -c faxpages -n '__fish_seen_subcommand_from convert salvage' -l k -x -d 'in MR, code every Kth row one-dimensionally'
complete -c faxpages -n '__fish_seen_subcommand_from convert salvage' -l strip -x -d 'rows of a strip'
complete -c faxpages -n '__fish_seen_subcommand_from convert salvage' -l align -d 'end each EOL on a byte, in MH and MR'

complete -c faxpages -n '__fish_seen_subcommand_from check' -l received -d 'note pages of which the receiver counted bad rows'
