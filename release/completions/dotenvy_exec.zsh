#compdef dotenvy_exec
# Completion of dotenvy_exec for zsh: its options, then the command and whatever that one completes.
_arguments -S \
    '*'{-f,--file=}'[take this file]:file:_files' \
    '*--optional=[take this file, if it is there]:file:_files' \
    '--override[let the files win over variables that exist]' \
    '--ignore-environment[give the command the variables of the files alone]' \
    '--next[read the files in the second dialect]' \
    '--strict[refuse names that no shell can set]' \
    {-h,--help}'[print how the script is called]' \
    {-V,--version}'[print the version]' \
    '(-):command:_command_names -e' \
    '*::arguments:_normal'
