# Completion of dotenvy_export for fish: the target, its options, and files.
complete -c dotenvy_export -n '__fish_is_first_token' -x -a 'docker kubernetes systemd sh json'
complete -c dotenvy_export -l override -d 'Let the files win over variables that exist'
complete -c dotenvy_export -l ignore-environment -d 'Begin with an empty environment'
complete -c dotenvy_export -l optional -r -F -d 'Read this file, if it is there'
complete -c dotenvy_export -l next -d 'Read the files in the second dialect'
complete -c dotenvy_export -l skip-reserved -d 'Leave out names that shells keep'
complete -c dotenvy_export -s h -l help -d 'Print how the program is called'
complete -c dotenvy_export -s V -l version -d 'Print the version'
