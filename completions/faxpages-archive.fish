# Completes the words of faxpages-archive(1) and of the scripts of faxpages-recipes(1) in fish.

set -l commands check convert table verify merge

complete -c faxpages-archive -n "not __fish_seen_subcommand_from $commands" -f -a "$commands"
for option in table scheduler processes timeout
    complete -c faxpages-archive -n '__fish_seen_subcommand_from check convert verify' -l $option -r
end
complete -c faxpages-archive -n '__fish_seen_subcommand_from check convert' -l share -r
for option in dask gone names
    complete -c faxpages-archive -n '__fish_seen_subcommand_from check convert verify' -l $option
end
for option in follow renew faults-ok
    complete -c faxpages-archive -n '__fish_seen_subcommand_from check convert' -l $option
end
complete -c faxpages-archive -n '__fish_seen_subcommand_from check convert' -l again -x -a 'unread faulty copies all'
complete -c faxpages-archive -n '__fish_seen_subcommand_from check' -l lost
complete -c faxpages-archive -n '__fish_seen_subcommand_from convert' -l to -x -a 'pbm mh mr mmr'
complete -c faxpages-archive -n '__fish_seen_subcommand_from convert' -l order -x -a '1 2'
for option in k strip give-up
    complete -c faxpages-archive -n '__fish_seen_subcommand_from convert' -l $option -x
end
for option in align fields salvage adopt delete all-or-nothing
    complete -c faxpages-archive -n '__fish_seen_subcommand_from convert' -l $option
end
for option in csv json summary prometheus faulty mended
    complete -c faxpages-archive -n '__fish_seen_subcommand_from table' -l $option
end

complete -c faxpages-compare -l replace
complete -c faxpages-from-pdf -l standard
complete -c faxpages-from-pdf -l as-is
complete -c faxpages-from-pdf -l replace
complete -c faxpages-from-pdf -l coding -x -a 'mh mr mmr'
complete -c faxpages-from-pdf -l width -x -a '1728 2048 2432'
complete -c faxpages-hylafax -l remove
complete -c faxpages-receive -l whole
complete -c faxpages-receive -l mended -x
complete -c faxpages-sweep -l gone
