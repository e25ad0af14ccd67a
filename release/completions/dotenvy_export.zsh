#compdef dotenvy_export
# Completion of dotenvy_export for zsh: the target, its options, and files.
_arguments -S \
    '--override[let the files win over variables that exist]' \
    '--ignore-environment[begin with an empty environment]' \
    '*--optional=[read this file, if it is there]:file:_files' \
    '--next[read the files in the second dialect]' \
    '--skip-reserved[leave out names that shells keep]' \
    {-h,--help}'[print how the program is called]' \
    {-V,--version}'[print the version]' \
    '1:target:(docker kubernetes systemd sh json)' \
    '*:file:_files'
