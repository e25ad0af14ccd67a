#!/usr/bin/env bash
# Proves the five crates of the library from nothing, and writes them into a folder as the toolchain keeps its own: proved,
# with their statements and without their proofs. It works on a copy of the crates, and takes minutes.
#
# usage: release/prove_library.sh FOLDER
set -euo pipefail
mkdir -p -- "$1"
folder=$(realpath -- "$1")
cd "$(dirname "$0")/.."
libraries=(dotenvy_format dotenvy_base dotenvy_lines dotenvy_items dotenvy)
# A verdict of a crate builds the libraries below it from nothing. This one depends on the library alone.
above=example_service_settings
room=$(mktemp -d)
trap 'rm -rf "$room"' EXIT

mkdir "$room/crates"
for crate in "${libraries[@]}" "$above"; do
    grep -E "^$crate:" crates.txt >>"$room/crates.txt"
    (cd crates && tar --exclude="$crate/out" -cf - "$crate") | tar -C "$room/crates" -xf -
done
cp HANDLES "$room/"
git init --quiet "$room"
(cd "$room/crates/$above" && rt verdict) </dev/null
for crate in "${libraries[@]}"; do
    rm -rf "${folder:?}/$crate.rlib"
    mv "$room/crates/$crate/out/rlib/$crate.rlib" "$folder/"
done
