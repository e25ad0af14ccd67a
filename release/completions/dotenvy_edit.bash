# Completion of dotenvy_edit for bash: the command, its options, and the file.
_dotenvy_edit() {
    local current=${COMP_WORDS[COMP_CWORD]} words='' word given=0 may_be_option=true
    for word in "${COMP_WORDS[@]:1:COMP_CWORD-1}"; do
        if "$may_be_option" && [[ $word == -- ]]; then
            may_be_option=false
        elif ! "$may_be_option" || [[ $word != -?* ]]; then
            given=$((given + 1))
        fi
    done
    COMPREPLY=()
    if "$may_be_option" && [[ $current == -* ]]; then
        words='--next --portable --create --dry-run --exact -q --quiet -h --help -V --version'
    elif [ "$given" -eq 0 ]; then
        words='set get unset rename'
    elif [ "$given" -eq 1 ]; then
        compopt -o filenames 2>/dev/null
        mapfile -t COMPREPLY < <(compgen -f -- "$current")
    fi
    if [[ $words ]]; then
        mapfile -t COMPREPLY < <(compgen -W "$words" -- "$current")
    fi
}
complete -F _dotenvy_edit dotenvy_edit
