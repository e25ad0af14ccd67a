#!/usr/bin/env bash
# How many instructions the calls of the library for C take a byte, by valgrind's callgrind: `load` and `items`. What
# the caller does besides isn't counted.
#
# usage: bench/c_calls.sh [KIND]..   files of about 200 kB, of kinds of bench/make_files.py; without any, mix and plain
#        bench/c_calls.sh files      files as projects have them, beside what the Rust crate takes (bench/files.tsv)
#
# It needs valgrind, python3, cc, and bindings/out/libdotenvy.a, which bindings/build.sh builds. The count is the same
# each time, whatever else the machine does.
set -euo pipefail
cd "$(dirname "$0")/.."
folder=$(mktemp -d)
trap 'rm -rf "$folder"' EXIT
# With each function bound at the start, so that no call pays for that.
cc -O2 -Wl,-z,now -I bindings/c bench/c_calls.c bindings/out/libdotenvy.a -o "$folder/calls"

# Prints how many instructions a call takes for a file.
count() {
    valgrind --tool=callgrind --toggle-collect="dotenvy_$1" --callgrind-out-file="$folder/profile" \
        "$folder/calls" "$1" <"$2" 2>&1 >"$folder/out" | awk '/Collected/ { print $NF }' || {
        echo "dotenvy_$1 fails" >&2
        return 1
    }
}

# Prints the figures of a kind of file.
measure_kind() {
    python3 bench/make_files.py "$1" >"$folder/whole"
    # Whole lines up to 200,000 bytes.
    awk '{ bytes += length($0) + 1; if (bytes > 200000) exit; print }' "$folder/whole" >"$folder/file"
    local bytes call instructions
    bytes=$(wc -c <"$folder/file")
    for call in items load; do
        instructions=$(count "$call" "$folder/file")
        awk -v kind="$1" -v call="$call" -v i="$instructions" -v b="$bytes" \
            'BEGIN { printf "%-14s %-5s %9d bytes %7.1f instructions a byte\n", kind, call, b, i / b }'
    done
}

# Prints the figures of each file of bench/files.tsv, and in the last line those of all together.
measure_files() {
    local name bytes load items crate_load crate_items
    grep -v '^#' bench/files.tsv | while read -r name bytes crate_load crate_items; do
        case $name in
            *-crlf) awk '{ printf "%s\r\n", $0 }' "bench/files/${name%-crlf}.env" >"$folder/file" ;;
            *) cp "bench/files/$name.env" "$folder/file" ;;
        esac
        if [ "$(wc -c <"$folder/file")" -ne "$bytes" ]; then
            echo "bench/files.tsv was measured with another file $name" >&2
            exit 1
        fi
        load=$(count load "$folder/file")
        items=$(count items "$folder/file")
        echo "$name $bytes $load $crate_load $items $crate_items"
    done | awk '
        function print_line(name, b, load, crate_load, items, crate_items) {
            printf "%-14s %7d %9.1f %7.1f %5.2f %9.1f %7.1f %5.2f\n", name, b, load / b, crate_load / b,
                load / crate_load, items / b, crate_items / b, items / crate_items
        }
        BEGIN { print "instructions a byte       load   crate of it     items   crate of it" }
        {
            print_line($1, $2, $3, $4, $5, $6)
            for (field = 2; field <= 6; field++) all[field] += $field
        }
        END { print_line("all", all[2], all[3], all[4], all[5], all[6]) }'
}

if [ "${1-}" = files ]; then
    measure_files
else
    [ "$#" -gt 0 ] || set -- mix plain
    for kind in "$@"; do
        measure_kind "$kind"
    done
fi
