# Completion of dotenvy_exec for bash: its options, then the command and whatever that one completes.
_dotenvy_exec() {
    local current=${COMP_WORDS[COMP_CWORD]} at=1 options
    options='-f --file --optional --override --ignore-environment --next --strict -h --help -V --version'
    while [ "$at" -lt "$COMP_CWORD" ]; do
        case ${COMP_WORDS[at]} in
            -f | --file | --optional)
                at=$((at + 2))
                # Bash takes `--file=FILE` for three words.
                [[ ${COMP_WORDS[at - 1]} != '=' ]] || at=$((at + 1))
                ;;
            --)
                at=$((at + 1))
                break
                ;;
            -*) at=$((at + 1)) ;;
            *) break ;;
        esac
    done
    COMPREPLY=()
    [[ $current != '=' ]] || current=
    if [ "$at" -gt "$COMP_CWORD" ]; then
        compopt -o filenames 2>/dev/null
        mapfile -t COMPREPLY < <(compgen -f -- "$current")
    elif [ "$at" -lt "$COMP_CWORD" ] && declare -F _command_offset >/dev/null; then
        _command_offset "$at"
    elif [ "$at" -lt "$COMP_CWORD" ]; then
        compopt -o filenames 2>/dev/null
        mapfile -t COMPREPLY < <(compgen -f -- "$current")
    elif [[ $current == -* ]]; then
        mapfile -t COMPREPLY < <(compgen -W "$options" -- "$current")
    else
        compopt -o filenames 2>/dev/null
        mapfile -t COMPREPLY < <(compgen -c -- "$current")
    fi
}
complete -F _dotenvy_exec dotenvy_exec
