#compdef dotenvy_check
# Completion of dotenvy_check for zsh: its options, their values, and files.
local -a warnings errors
warnings=(
    unknown-name unknown-braced-name later-name own-name default required empty-braces blank-in-braces lone-dollar
    command name-before-underscore text-after-name dropped-backslash declared-twice nul quote-closed-later
    quote-in-comment hash-after-equals dropped-quotes hash-after-quote semicolon-after-quote lone-carriage-return
    typographic-text odd-space tilde here-document key-line
)
errors=(
    open-double-quote open-single-quote open-apostrophe open-quote-in-comment blank-at-end backslash-at-end
    space-in-value several-on-line semicolon text-after-quote slash-comment unquoted-key command-with-space array
    typographic-quotes bare-name-in-quotes dollar-before-quote open-brace backslash-in-plain-value
    carriage-return-escape tab-escape unknown-escape line-continuation quote-after-name no-equals-sign
    export-without-value export-option colon other-word section other-comment merge name-character name-start no-name
    not-utf-8 utf-16 latin-1 other-fault
)
_arguments -S \
    '--next[read in the second dialect]' \
    '--strict[count a warning as a fault, for the status]' \
    "*--allow=[report no warning of this kind]:kind:($warnings)" \
    "*--deny=[count a warning of this kind as a fault]:kind:($warnings $errors)" \
    '*--known=[take it that this name has a value]:name: ' \
    '--ignore-environment[take no names from the environment]' \
    '--together[let each file use the names of the files before it]' \
    '--schema=[compare the names with those of this file]:file:_files' \
    '*--exclude=[leave out the files called so in folders]:name:_files' \
    '--format=[write the report in this form]:format:(text github sarif json)' \
    '--text[print what a load says of each error, too]' \
    {-q,--quiet}'[print nothing of the files]' \
    {-h,--help}'[print how the program is called]' \
    {-V,--version}'[print the version]' \
    '*:file:_files'
