# Completion of confscript for fish.
set -l modes lines check rewrite undo plan next help
complete -c confscript -f
complete -c confscript -n "not __fish_seen_subcommand_from $modes" -a lines -d 'apply one change per line'
complete -c confscript -n "not __fish_seen_subcommand_from $modes" -a check -d 'run a script and report what differs'
complete -c confscript -n "not __fish_seen_subcommand_from $modes" -a rewrite -d 'run a script and print it with its actual output'
complete -c confscript -n "not __fish_seen_subcommand_from $modes" -a undo -d 'run a script and print what undoes its last changes'
complete -c confscript -n "not __fish_seen_subcommand_from $modes" -a plan -d 'print the steps from one configuration to another'
complete -c confscript -n "not __fish_seen_subcommand_from $modes" -a next -d 'say what to do next on the way to a target'
complete -c confscript -n "not __fish_seen_subcommand_from $modes" -a help -d 'print the help of the program or of a mode'
complete -c confscript -n '__fish_seen_subcommand_from help' -a "$modes"
complete -c confscript -n '__fish_seen_subcommand_from lines check rewrite undo plan next' -F
complete -c confscript -n '__fish_seen_subcommand_from check rewrite undo' -l history -x -d 'how many earlier configurations are kept'
complete -c confscript -n '__fish_seen_subcommand_from check rewrite undo' -l next-floor -x -a '0 1' -d 'initial next index of a member'
complete -c confscript -n '__fish_seen_subcommand_from undo' -l steps -x -d 'how many changes are undone'
complete -c confscript -n '__fish_seen_subcommand_from plan' -l strategy -x -a 'shortest learners-first one-at-a-time' -d 'how the plan is made'
complete -c confscript -n '__fish_seen_subcommand_from plan' -l output -x -a 'steps script table json' -d 'how the plan is printed'
complete -c confscript -n '__fish_seen_subcommand_from plan' -l down -x -d 'ids that are down, separated by commas'
complete -c confscript -n '__fish_seen_subcommand_from plan' -l from -x -d 'the current configuration, in place of a file'
complete -c confscript -n '__fish_seen_subcommand_from plan' -l to -x -d 'the target, or changes of the current configuration'
complete -c confscript -s h -l help -d 'print help'
complete -c confscript -n "not __fish_seen_subcommand_from $modes" -s V -l version -d 'print the version'
