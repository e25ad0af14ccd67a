# Completion of dotenvy_export for bash: the target, its options, and files.
_dotenvy_export() {
    local current=${COMP_WORDS[COMP_CWORD]} targets='docker kubernetes systemd sh json' words='' word given=false
    for word in "${COMP_WORDS[@]:1:COMP_CWORD-1}"; do
        [[ " $targets " != *" $word "* ]] || given=true
    done
    # Bash takes `--optional=FILE` for three words.
    if [[ $current == '=' ]]; then
        current=
    elif [[ " ${COMP_WORDS[*]:1:COMP_CWORD-1} " == *' -- '* || ${COMP_WORDS[COMP_CWORD - 1]} == --optional ]]; then
        : # a file
    elif [[ $current == -* ]]; then
        words='--override --ignore-environment --optional --next --skip-reserved -h --help -V --version'
    elif [[ ${COMP_WORDS[COMP_CWORD - 1]} != '=' ]] && ! "$given"; then
        words=$targets
    fi
    if [[ $words ]]; then
        mapfile -t COMPREPLY < <(compgen -W "$words" -- "$current")
    else
        compopt -o filenames 2>/dev/null
        mapfile -t COMPREPLY < <(compgen -f -- "$current")
    fi
}
complete -F _dotenvy_export dotenvy_export
