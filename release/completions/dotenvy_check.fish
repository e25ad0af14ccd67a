# Completion of dotenvy_check for fish: its options, their values, and files.
set -l warnings \
    unknown-name unknown-braced-name later-name own-name default required empty-braces blank-in-braces lone-dollar \
    command name-before-underscore text-after-name dropped-backslash declared-twice nul quote-closed-later \
    quote-in-comment hash-after-equals dropped-quotes hash-after-quote semicolon-after-quote lone-carriage-return \
    typographic-text odd-space tilde here-document key-line
set -l errors \
    open-double-quote open-single-quote open-apostrophe open-quote-in-comment blank-at-end backslash-at-end \
    space-in-value several-on-line semicolon text-after-quote slash-comment unquoted-key command-with-space array \
    typographic-quotes bare-name-in-quotes dollar-before-quote open-brace backslash-in-plain-value \
    carriage-return-escape tab-escape unknown-escape line-continuation quote-after-name no-equals-sign \
    export-without-value export-option colon other-word section other-comment merge name-character name-start \
    no-name not-utf-8 utf-16 latin-1 other-fault
complete -c dotenvy_check -l next -d 'Read in the second dialect'
complete -c dotenvy_check -l strict -d 'Count a warning as a fault, for the status'
complete -c dotenvy_check -l allow -x -a "$warnings" -d 'Report no warning of this kind'
complete -c dotenvy_check -l deny -x -a "$warnings $errors" -d 'Count a warning of this kind as a fault'
complete -c dotenvy_check -l known -x -d 'Take it that this name has a value'
complete -c dotenvy_check -l ignore-environment -d 'Take no names from the environment'
complete -c dotenvy_check -l together -d 'Let each file use the names of the files before it'
complete -c dotenvy_check -l schema -r -F -d 'Compare the names with those of this file'
complete -c dotenvy_check -l exclude -r -F -d 'Leave out the files called so in folders'
complete -c dotenvy_check -l format -x -a 'text github sarif json' -d 'Write the report in this form'
complete -c dotenvy_check -l text -d 'Print what a load says of each error, too'
complete -c dotenvy_check -s q -l quiet -d 'Print nothing of the files'
complete -c dotenvy_check -s h -l help -d 'Print how the program is called'
complete -c dotenvy_check -s V -l version -d 'Print the version'
