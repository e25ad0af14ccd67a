# Completion of dotenvy_run for bash: its options, then the command and whatever that one completes.
_dotenvy_run() {
    local current=${COMP_WORDS[COMP_CWORD]} at=1
    while [ "$at" -lt "$COMP_CWORD" ]; do
        case ${COMP_WORDS[at]} in
            -f | --file) at=$((at + 2)) ;;
            -*) at=$((at + 1)) ;;
            *) break ;;
        esac
    done
    COMPREPLY=()
    if [ "$at" -gt "$COMP_CWORD" ]; then
        compopt -o filenames 2>/dev/null
        mapfile -t COMPREPLY < <(compgen -f -- "$current")
    elif [ "$at" -lt "$COMP_CWORD" ] && declare -F _command_offset >/dev/null; then
        _command_offset "$at"
    elif [ "$at" -lt "$COMP_CWORD" ]; then
        compopt -o filenames 2>/dev/null
        mapfile -t COMPREPLY < <(compgen -f -- "$current")
    elif [[ $current == -* ]]; then
        mapfile -t COMPREPLY < <(compgen -W '-f --file --list --next' -- "$current")
    else
        compopt -o filenames 2>/dev/null
        mapfile -t COMPREPLY < <(compgen -c -- "$current")
    fi
}
complete -F _dotenvy_run dotenvy_run
