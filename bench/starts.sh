#!/usr/bin/env bash
# How long a start takes: of the command `true` alone, by env, by dotenvy_run and by dotenvy_exec, with a file of 33 lines.
# Each is started 200 times, and this 5 times; the least is printed, in milliseconds a start: by the clock, and of the
# processor.
#
# usage: bench/starts.sh [FOLDER]
#
# FOLDER has the programs dotenvy_run and dotenvy_export; without it, they are those of `rt ci`. Of the script, /bin/sh is
# the shell.
set -euo pipefail
cd "$(dirname "$0")/.."
room=$(mktemp -d)
trap 'rm -rf "$room"' EXIT
mkdir "$room/bin"
cp "${1-crates/dotenvy_run/out}/dotenvy_run" "${1-crates/dotenvy_export/out}/dotenvy_export" bin/dotenvy_exec "$room/bin"
python3 bench/make_files.py mix 4 | head -n 33 >"$room/.env"
cd "$room"
TIMEFORMAT='%R %U %S'

many() {
    local number
    for ((number = 0; number < 200; number++)); do
        "$@"
    done
}

# Prints the least times of a start.
measure() {
    for _ in 1 2 3 4 5; do
        { time many "$@" >/dev/null; } 2>&1
    done | awk -v what="$*" '
        NR == 1 || $1 < clock { clock = $1 }
        NR == 1 || $2 + $3 < processor { processor = $2 + $3 }
        END { printf "%-28s %6.2f ms, of the processor %6.2f ms\n", what, clock * 5, processor * 5 }'
}

for program in '' /usr/bin/env bin/dotenvy_run bin/dotenvy_exec 'bin/dotenvy_exec --ignore-environment'; do
    # shellcheck disable=SC2086 # one has two words, and one none
    measure $program /usr/bin/true
done
