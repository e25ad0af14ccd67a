# Completion of dotenvy_run for fish: its options, then the command and whatever that one completes.
complete -c dotenvy_run -n '__fish_is_first_token' -s f -l file -r -F -d 'Load this file'
complete -c dotenvy_run -n '__fish_is_first_token' -l list -d 'List standard input, and start nothing'
complete -c dotenvy_run -n '__fish_is_first_token' -l next -d 'Read in the second dialect'
complete -c dotenvy_run -x -a '(__fish_complete_subcommand --fcs-skip=1)'
