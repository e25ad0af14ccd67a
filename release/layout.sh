#!/usr/bin/env bash
# Lays out what release/build.sh built in a folder, as it is installed: bin, include, lib and share.
#
# usage: release/layout.sh FOLDER
set -euo pipefail
tree=$(realpath -- "$1")
cd "$(dirname "$0")/.."
umask 022

# Copies a file to its place in the tree, with a mode.
put() {
    install -D -m "$1" -- "$2" "$tree/$3"
}

# The texts that the toolchain's libraries ask for wherever their code is.
notices() {
    local kit name
    kit=$(dirname "$(rt doc)")
    echo "What is in these files, and under which terms"
    printf '\ndotenvy, and this port of it: the file LICENSE.\n'
    for name in memchr unicode thiserror clap strsim percent_encoding; do
        printf '\n\n%s\n%s\n\n' "$name" "$(printf '%*s' "${#name}" '' | tr ' ' -)"
        cat "$kit/rattle/$name"/LICENSE*
    done
}

for name in dotenvy_run dotenvy_check dotenvy_edit dotenvy_export; do
    put 755 "crates/$name/out/$name" "bin/$name"
done
put 755 bin/dotenvy_exec bin/dotenvy_exec
for name in dotenvy_run dotenvy_check dotenvy_edit dotenvy_export dotenvy_exec; do
    put 644 "docs/$name.1" "share/man/man1/$name.1"
    put 644 "release/completions/$name.bash" "share/bash-completion/completions/$name"
    put 644 "release/completions/$name.fish" "share/fish/vendor_completions.d/$name.fish"
    put 644 "release/completions/$name.zsh" "share/zsh/site-functions/_$name"
done
put 644 bindings/c/dotenvy.h include/dotenvy.h
put 644 bindings/out/libdotenvy.a lib/libdotenvy.a
put 644 bindings/out/libdotenvy.so.1 lib/libdotenvy.so.1
ln -sf libdotenvy.so.1 "$tree/lib/libdotenvy.so"
put 644 LICENSE share/doc/dotenvy/LICENSE
mkdir -p "$tree/lib/pkgconfig"
version=$(release/version.sh)
sed "s/@VERSION@/$version/" release/dotenvy.pc.in >"$tree/lib/pkgconfig/dotenvy.pc"
notices >"$tree/share/doc/dotenvy/NOTICES"
printf 'dotenvy %s\ncommit %s\n%s\n' "$version" "$(git rev-parse HEAD 2>/dev/null || echo unknown)" "$(rt version)" \
    >"$tree/share/doc/dotenvy/BUILT"
