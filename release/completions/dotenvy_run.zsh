#compdef dotenvy_run
# Completion of dotenvy_run for zsh: its options, then the command and whatever that one completes.
_arguments -S \
    '*'{-f,--file}'[load this file]:file:_files' \
    '--list[list standard input, and start nothing]' \
    '--next[read in the second dialect]' \
    '(-):command:_command_names -e' \
    '*::arguments:_normal'
