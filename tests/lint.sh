#!/usr/bin/env bash
# Looks over the files that git tracks: shellcheck over each shell script; flake8, as .flake8 says, over each Python
# file; and the white space that .editorconfig asks for. A linter that isn't installed is left out.
# `tests/lint.sh FILE..` looks over these alone. It takes some ten seconds. The last line is `N passed, M failed`.
set -euo pipefail
cd "$(dirname "$0")/.."
. tests/lib.sh
scripts_in_shell=()
scripts_in_python=()
# What programs read and print in their stored runs: each byte of it is meant.
recorded=("$@" ':!crates/*/data/*' ':!crates/*/args' ':!crates/*/stdin' ':!crates/*/stdout' ':!crates/*/status')

# Calls git on this clone, also if another user owns it.
git_here() {
    git -c safe.directory='*' "$@"
}

# Finds the scripts of each language, by their suffix or their first line.
find_scripts() {
    local path first
    while IFS= read -rd '' path; do
        first=
        IFS= read -r first <"$path" || :
        case $path:$first in
            *.sh:* | *':#!'*sh | *':#!'*sh' '*) scripts_in_shell+=("$path") ;;
            *.py:* | *':#!'*python*) scripts_in_python+=("$path") ;;
        esac
    done <"$room/paths"
}

# Has a linter look over each script by itself. It prints its remarks, and fails if it has any.
lint() {
    local path linter=$1
    shift
    if ! command -v "$linter" >"$room/linter"; then
        echo "left out: $linter is not installed, so it looks over none of $# scripts"
        return
    fi
    for path in "$@"; do
        check "$linter finds nothing in $path" "$linter" "$path"
    done
}

# Whether no line of these files has a match. Each line that has one is printed.
no_line_has() {
    local status=0
    git_here grep -nIE -e "$1" -- "${@:2}" || status=$?
    [ "$status" -eq 1 ]
}

# Whether each file that isn't empty ends with a line feed. Each other one is printed.
end_with_line_feeds() {
    local path status=0
    while IFS= read -rd '' path; do
        if [ -n "$(tail -c 1 "$path")" ]; then
            echo "$path"
            status=1
        fi
    done < <(git_here ls-files -z -- "${recorded[@]}")
    return "$status"
}

if ! git_here ls-files -z -- "$@" >"$room/paths" 2>"$room/errors"; then
    echo "left out: all of it, since git doesn't list the files: $(head -n 1 "$room/errors")"
    echo "0 passed, 0 failed"
    exit 0
fi
find_scripts
# Whatever the user's own settings are.
export SHELLCHECK_OPTS='--norc --format=gcc --external-sources'
lint shellcheck "${scripts_in_shell[@]}"
lint flake8 "${scripts_in_python[@]}"
check 'each remark that is disabled has its reason beside it' \
    no_line_has '# *(shellcheck disable=[^ ]+|noqa[^#]*) *$' "${scripts_in_shell[@]}" "${scripts_in_python[@]}"
# In a page, a diff may have an empty line that stays, which is a blank.
check 'no line ends in white space' no_line_has '[[:blank:]]$' "${recorded[@]}" ':!*.md'
check 'no line has a tab, except in tables of them and in Go' no_line_has $'\t' "${recorded[@]}" ':!*.tsv' ':!*.go'
check 'no line ends in a carriage return' no_line_has $'\r$' "${recorded[@]}"
check 'each file ends with a line feed' end_with_line_feeds

tell_sums
