# Completion of dotenvy_check for bash: its options, their values, and files.
_dotenvy_check() {
    local current=${COMP_WORDS[COMP_CWORD]} option=${COMP_WORDS[COMP_CWORD - 1]} words=
    local warnings='
        unknown-name unknown-braced-name later-name own-name default required empty-braces blank-in-braces lone-dollar
        command name-before-underscore text-after-name dropped-backslash declared-twice nul quote-closed-later
        quote-in-comment hash-after-equals dropped-quotes hash-after-quote semicolon-after-quote lone-carriage-return
        typographic-text odd-space tilde here-document key-line
    '
    local errors='
        open-double-quote open-single-quote open-apostrophe open-quote-in-comment blank-at-end backslash-at-end
        space-in-value several-on-line semicolon text-after-quote slash-comment unquoted-key command-with-space array
        typographic-quotes bare-name-in-quotes dollar-before-quote open-brace backslash-in-plain-value
        carriage-return-escape tab-escape unknown-escape line-continuation quote-after-name no-equals-sign
        export-without-value export-option colon other-word section other-comment merge name-character name-start
        no-name not-utf-8 utf-16 latin-1 other-fault
    '
    # Bash takes `--allow=KIND` for three words.
    if [[ $current == '=' ]]; then
        current=
    elif [[ $option == '=' ]]; then
        option=${COMP_WORDS[COMP_CWORD - 2]}
    fi
    # After `--` each word is a file.
    if [[ " ${COMP_WORDS[*]:1:COMP_CWORD-1} " == *' -- '* ]]; then
        option=--
    fi
    case $option in
        --allow) words=$warnings ;;
        --deny) words="$warnings $errors" ;;
        --format) words='text github sarif json' ;;
        --known)
            COMPREPLY=()
            return
            ;;
        --schema | --exclude | --) ;;
        *)
            if [[ $current == -* ]]; then
                words='--next --strict --allow --deny --known --ignore-environment --together --schema --exclude'
                words+=' --format --text -q --quiet -h --help -V --version'
            fi
            ;;
    esac
    if [[ $words ]]; then
        mapfile -t COMPREPLY < <(compgen -W "$words" -- "$current")
    else
        compopt -o filenames 2>/dev/null
        mapfile -t COMPREPLY < <(compgen -f -- "$current")
    fi
}
complete -F _dotenvy_check dotenvy_check
