# Completion of dotenvy_edit for fish: the command, its options, and the file.
complete -c dotenvy_edit -n 'not __fish_seen_subcommand_from set get unset rename' -x -a 'set get unset rename'
complete -c dotenvy_edit -n 'test (count (commandline -poc | string match -v -- "-*")) -gt 2' -f
complete -c dotenvy_edit -l next -d 'Read the file in the second dialect'
complete -c dotenvy_edit -l portable -d 'Write what other libraries read alike, or refuse the value'
complete -c dotenvy_edit -l create -d 'Make the file if it is absent'
complete -c dotenvy_edit -l dry-run -d 'Print what would change, and write no file'
complete -c dotenvy_edit -l exact -d 'Take all of standard input, also its last line feed'
complete -c dotenvy_edit -s q -l quiet -d 'Print no warnings'
complete -c dotenvy_edit -s h -l help -d 'Print how the program is called'
complete -c dotenvy_edit -s V -l version -d 'Print the version'
