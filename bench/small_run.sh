#!/usr/bin/env bash
# How many instructions the program takes to read a file of 33 lines and to start the command `true`, by valgrind's
# callgrind. What `true` takes is not counted.
#
# usage: bench/small_run.sh
#
# It wants valgrind and python3, and the built program: (cd crates/dotenvy_run && rt run -- --list < /dev/null).
set -eu
cd "$(dirname "$0")/.."
program=$PWD/crates/dotenvy_run/out/dotenvy_run
folder=$(mktemp -d)
trap 'rm -rf "$folder"' EXIT

python3 bench/make_files.py mix 4 | head -n 33 > "$folder/.env"
cd "$folder"
valgrind --tool=callgrind --callgrind-out-file="$folder/profile" "$program" true 2>&1 > /dev/null |
    awk '/Collected/ { print $NF, "instructions" }'
