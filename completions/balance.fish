# Completion of the words of balance in fish.
set -l commands print run try report demo
complete -c balance -f
complete -c balance -n "not __fish_seen_subcommand_from $commands" -a print -d 'Write the instrumented text of a source'
complete -c balance -n "not __fish_seen_subcommand_from $commands" -a run -d 'Run a source or a printed text on data'
complete -c balance -n "not __fish_seen_subcommand_from $commands" -a try -d 'Run the instrumented text of a source on data'
complete -c balance -n "not __fish_seen_subcommand_from $commands" -a report -d 'Tell the class of each array'
complete -c balance -n "not __fish_seen_subcommand_from $commands" -a demo -d 'Make a kernel from a number and flip a bit of it'
complete -c balance -n "__fish_seen_subcommand_from print run try report" -F
