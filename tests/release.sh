#!/usr/bin/env bash
# Tries what release.sh packed: as a user who has no toolchain, then from a repository of Rattle that has no source of
# this one; and packs again elsewhere, which has to give the same bytes. The last line is `N passed, M failed`.
#
# usage: tests/release.sh DIST
set -euo pipefail
dist=$(realpath -- "$1")
cd "$(dirname "$0")/.."
. tests/lib.sh

sums_hold() {
    (cd "$dist" && sha256sum --check --quiet SHA256SUMS)
}

lists_each_file() {
    diff <(cd "$dist" && ls) <({ sed 's/^[0-9a-f]*  //' "$dist/SHA256SUMS" && echo SHA256SUMS; } | sort)
}

# The tag of the wheel names the newest glibc that a symbol of its code asks for, by the linker's own tables.
tag_is_true() {
    local newest
    python3 -m zipfile -e "$dist"/dotenvy-*.whl "$room/wheel"
    newest=$(find "$room/wheel" -type f -exec sh -c 'objdump -T "$1" 2>/dev/null' - {} \; |
        sed -n 's/.*(\?GLIBC_2\.\([0-9]*\).*/\1/p' | sort -n | tail -n 1)
    [ -f "$(echo "$dist"/dotenvy-*-py3-none-manylinux_2_"$newest"_x86_64.whl)" ]
}

# Without the shared object there is no wheel, neither by the script nor by pip.
wheel_is_refused() {
    local status=0
    mkdir -p "$room/tree" "$room/none"
    python3 bindings/python/wheel_backend.py "$room/tree" "$room/none" 2>"$room/said" || status=$?
    [ "$status" -eq 1 ] && grep -q '^wheel_backend.py: there is no .*/libdotenvy.so.1' "$room/said" &&
        [ -z "$(ls "$room/none")" ]
}

# Has pip build a wheel of a folder here, into a folder of the room.
pip_wheel() {
    env -i PATH=/usr/bin:/bin PYTHONDONTWRITEBYTECODE=1 /usr/bin/python3 -m pip wheel --no-index --no-deps \
        --wheel-dir "$room/$2" "$1" >"$room/said" 2>&1
}

pip_is_refused() {
    ! pip_wheel bindings/python none && grep -q 'release.sh builds the wheel' "$room/said" &&
        [ -z "$(ls "$room/none")" ]
}

# The module dotenv has no code of the library, so its wheel can be built in a clone.
pip_builds_drop_in() {
    pip_wheel bindings/python-dotenv by_pip && [ "$(ls "$room/by_pip")" = "$(cd "$dist" && echo dotenvy_dotenv-*.whl)" ]
}

# Packs once more, in a clone elsewhere, for a user whose files nobody else reads. What is built isn't built again.
packs_the_same() {
    local other="$room/an other place" file
    git clone --quiet . "$other"
    for file in crates/dotenvy_run/out/dotenvy_run crates/dotenvy_check/out/dotenvy_check \
        crates/dotenvy_edit/out/dotenvy_edit crates/dotenvy_export/out/dotenvy_export; do
        mkdir -p "$other/${file%/*}"
        cp "$file" "$other/$file"
    done
    cp -r bindings/out "$other/bindings/"
    mkdir -p "$other/crates/dotenvy/out"
    cp -r crates/dotenvy/out/release "$other/crates/dotenvy/out/"
    (umask 077 && cd "$other" && release/pack.sh "$room/again") && cmp "$dist/SHA256SUMS" "$room/again/SHA256SUMS"
}

# --- As a user ---

check_as_user() {
    local home=$room/home status=0
    mkdir -p "$home/dist"
    cp "$dist"/* "$home/dist"
    cp tests/lib.sh tests/release_user.sh "$home"
    chmod 711 "$room"
    [ "$(id -u)" -ne 0 ] || chown -R 65534:65534 "$home"
    tests/veil.sh "$home" ./release_user.sh >"$room/user" 2>&1 || status=$?
    if [ "$status" -eq 99 ]; then
        echo "left out: what a user without the toolchain does, since this system allows no view of its own (unshare)"
        return
    fi
    cat "$room/user"
    add_sums "$status" "$room/user" || echo "FAILED: tests/release_user.sh, with status $status"
}

# --- From another repository of Rattle ---

# Makes a repository with the program of the pages as its only crate.
make_repository() {
    local rt=$1
    mkdir -p "$room/hello/crates"
    cd "$room/hello"
    git init --quiet .
    : >crates.txt
    "$rt" new crates/hello start_io >/dev/null
    # Some kits write files for Bazel, too.
    rm -f crates/hello/src/clock.rt crates/hello/stdin crates/hello/stdout crates/hello/BUILD.bazel BUILD.bazel
    echo 'hello: dotenvy anyhow' >crates.txt
    awk '/^```/ { if (inside && whole) exit; inside = $0 == "```rust"; text = ""; next }
        inside { text = text $0 "\n"; if ($0 == "#![tactic(auto)]") whole = 1 }
        END { printf "%s", text }' "$room/pack/rattle/dotenvy/CALLING.md" >crates/hello/src/main.rt
    printf 'PORT=8080\n' >crates/hello/.env
    printf 'HOST=db.local\n' >crates/hello/service.env
}

proves_and_runs() {
    (cd "$room/hello/crates/hello" && "$1" run) >"$room/said" 2>"$room/errors"
}

# Proves and runs it, in less than two minutes of one processor.
runs_hello() {
    local wall user system TIMEFORMAT='%R %U %S'
    { time proves_and_runs "$1"; } 2>"$room/time" || {
        tail -n 20 "$room/errors"
        return 1
    }
    read -r wall user system <"$room/time"
    echo "proved and run in $wall seconds, of the processors $user and $system"
    grep -qx 'port 8080' "$room/said" && grep -q '^logic=proved' "$room/errors" &&
        awk -v user="$user" -v kernel="$system" 'BEGIN { exit user == "" || user + kernel >= 120 }'
}

has_no_source() {
    [ -z "$(find "$room/hello" -name '*.rt' ! -path "$room/hello/crates/hello/src/main.rt")" ]
}

check_pack() {
    mkdir "$room/pack"
    tar -xJf "$dist"/dotenvy-*-rattle-*.tar.xz -C "$room/pack" --strip-components 1
    check "the pack has the licence, the notices and the commit" sh -c "cd '$room/pack' &&
        grep -q 'Santiago Lapresta' LICENSE && grep -q 'Andrew Gallant' NOTICES && grep -q '^commit ' BUILT"
    check "the pack makes a kit" "$room/pack/kit.sh" "$room/kit"
    check "a repository of Rattle names the library alone" make_repository "$room/kit/bin/rt"
    check "it has no source of the library" has_no_source
    check "it is proved and runs" runs_hello "$room/kit/bin/rt"
    check "a kit isn't made over another folder" sh -c "! '$room/pack/kit.sh' '$room/kit' 2>/dev/null"
}

check "the sums hold" sums_hold
check "the sums name each file" lists_each_file
check "there are five files and the sums" test "$(find "$dist" -type f | wc -l)" -eq 6
check "the wheel's tag is true" tag_is_true
check "a wheel without the shared object is refused" wheel_is_refused
check "pip is refused, too" pip_is_refused
check "pip builds the wheel of the module dotenv" pip_builds_drop_in
check "the same bytes are packed elsewhere" packs_the_same
check_as_user
check_pack
tell_sums
