#!/usr/bin/env bash
# How many instructions the program takes a byte to list files of several kinds, by valgrind's callgrind.
#
# usage: bench/instructions.sh [KIND]..
#
# It wants valgrind and python3, and the built program: (cd crates/dotenvy_run && rt run -- --list < /dev/null).
# The count is the same each time, whatever else the machine does.
set -eu
cd "$(dirname "$0")/.."
program=crates/dotenvy_run/out/dotenvy_run
folder=$(mktemp -d)
trap 'rm -rf "$folder"' EXIT

kinds="${*:-mix plain quoted single_quoted subst names_in_quotes comments line_of_1_mb quoted_line_of_1_mb utf8 escapes empty_quotes}"
for kind in $kinds; do
    python3 bench/make_files.py "$kind" > "$folder/file"
    bytes=$(wc -c < "$folder/file")
    instructions=$(valgrind --tool=callgrind --callgrind-out-file="$folder/profile" "$program" --list \
        < "$folder/file" 2>&1 > /dev/null | awk '/Collected/ { print $NF }')
    awk -v kind="$kind" -v i="$instructions" -v b="$bytes" \
        'BEGIN { printf "%-20s %9d bytes %7.1f instructions a byte\n", kind, b, i / b }'
done
