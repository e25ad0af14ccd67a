#compdef dotenvy_edit
# Completion of dotenvy_edit for zsh: the command, its options, and the file.
_arguments -S \
    '--next[read the file in the second dialect]' \
    '--portable[write what other libraries read alike, or refuse the value]' \
    '--create[make the file if it is absent]' \
    '--dry-run[print what would change, and write no file]' \
    '--exact[take all of standard input, also its last line feed]' \
    {-q,--quiet}'[print no warnings]' \
    {-h,--help}'[print how the program is called]' \
    {-V,--version}'[print the version]' \
    '1:command:(set get unset rename)' \
    '2:file:_files' \
    '*:name or value: '
