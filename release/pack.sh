#!/usr/bin/env bash
# Packs what release/build.sh built, and release/prove_library.sh wrote to crates/dotenvy/out/release, into a folder:
# the archive for Linux, the two wheels, the crate, the pack for Rattle, and SHA256SUMS. docs/RELEASING.md says on what
# the bytes depend.
#
# usage: release/pack.sh FOLDER
set -euo pipefail
mkdir -p -- "$1"
dist=$(realpath -- "$1")
cd "$(dirname "$0")/.."
SOURCE_DATE_EPOCH=$(git log -1 --format=%ct)
export SOURCE_DATE_EPOCH TZ=UTC LC_ALL=C
umask 022
room=$(mktemp -d)
trap 'rm -rf "$room"' EXIT
version=$(release/version.sh)
papers=share/doc/dotenvy

# Writes a folder of the room as an archive: sorted, owned by nobody, of the time of the commit.
archive() {
    chmod -R u=rwX,go=rX "$room/$1"
    tar -C "$room" --sort=name --owner=0 --group=0 --numeric-owner --mtime="@$SOURCE_DATE_EPOCH" -cf - "$1"
}

pack_archive() {
    cp install.sh "$room/$name/"
    archive "$name" | gzip -n9 >"$dist/$name.tar.gz"
}

pack_wheels() {
    python3 bindings/python/wheel_backend.py "$room/$name" "$dist" >/dev/null
    python3 -B bindings/python-dotenv/drop_in_backend.py "$dist" >/dev/null
}

# The crate as `cargo package` writes it, which also builds it. Its own number is that of the crate whose place it
# takes, so the folder in it is renamed.
pack_crate() {
    local crate=$room/crate
    cp -r bindings/rust "$crate"
    rm -rf "$crate/target" "$crate/Cargo.lock"
    mkdir "$crate/lib"
    cp "$room/$name/lib/libdotenvy.a" "$crate/lib/"
    cp "$room/$name/$papers"/{LICENSE,NOTICES,BUILT} "$crate/"
    (
        cd "$crate"
        cargo package --quiet --offline --allow-dirty --target-dir "$room/target"
    )
    mkdir "$room/dotenvy-$version"
    tar -xzf "$room/target/package"/dotenvy-*.crate --strip-components=1 -C "$room/dotenvy-$version"
    archive "dotenvy-$version" | gzip -n9 >"$dist/dotenvy-$version.crate"
}

# The library's crates as the toolchain keeps its own, the page of their calls, and the definitions of their words.
pack_for_rattle() {
    local pack rlib crate
    pack=dotenvy-$version-$(rt version | cut -d ' ' -f 1)
    mkdir -p "$room/$pack/rlibs"
    for rlib in crates/dotenvy/out/release/*.rlib; do
        crate=$(basename "$rlib" .rlib)
        cp -r "$rlib" "$room/$pack/rlibs/"
        mkdir -p "$room/$pack/rattle/$crate"
        cp -r "crates/$crate/specs" "$room/$pack/rattle/$crate/"
    done
    release/calling.py >"$room/$pack/rattle/dotenvy/CALLING.md"
    cp release/kit.sh "$room/$pack/"
    cp "$room/$name/$papers"/{LICENSE,NOTICES,BUILT} "$room/$pack/"
    archive "$pack" | xz -6 -T1 >"$dist/$pack.tar.xz"
}

name=dotenvy-$version-linux-x86_64
mkdir "$room/$name"
release/layout.sh "$room/$name"
pack_archive
pack_wheels
pack_crate
pack_for_rattle
cd "$dist"
sha256sum -- dotenvy[-_]* >SHA256SUMS
