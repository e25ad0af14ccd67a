#!/usr/bin/env bash
# What somebody does with a release who has no toolchain: installs the archive, runs the programs, reads the manual
# pages, builds the header's example, installs the wheels, runs the crate's tests, and puts the crate in the place of
# the original. tests/release.sh runs it in a view of the system without the toolchain.
# The last line is `N passed, M failed`.
#
# usage: release_user.sh    (in a folder that has the release's files, in its folder dist)
set -uo pipefail
# shellcheck source=tests/lib.sh
. ./lib.sh

# Whether a command prints this, and ends with this status.
prints() {
    local wanted=$1 status=$2 said found=0
    shift 2
    said=$("$@" 2>&1) || found=$?
    [ "$said" = "$wanted" ] && [ "$found" -eq "$status" ] && return
    printf '%s\nwith status %s, of %s\n' "$said" "$found" "$*"
    return 1
}

quietly() {
    "$@" >said.txt 2>&1
}

# Whether a command succeeds, and takes less than this many seconds of the processor, whatever else the machine does.
takes_less_than() {
    local limit=$1 wall user system TIMEFORMAT='%R %U %S'
    shift
    { time quietly "$@"; } 2>times.txt || {
        cat said.txt
        return 1
    }
    read -r wall user system <times.txt
    echo "$wall seconds, of the processor $user and $system: $*"
    awk -v limit="$limit" -v user="$user" -v kernel="$system" 'BEGIN { exit user == "" || user + kernel >= limit }'
}

# The programs, the same for archive and wheel. The argument is their folder.
check_programs() {
    local said='bad.env:4:6: error: a value with a space needs quotes; put it in double quotes [space-in-value]'
    check "$1/dotenvy_run starts a command" prints 'x 1' 0 "$1/dotenvy_run" -f good.env printenv B
    check "$1/dotenvy_run lists" prints $'A="1"\nB="2"' 0 sh -c "printf 'B=2\nA=1\nA=3\n' | '$1/dotenvy_run' --list"
    check "$1/dotenvy_check finds a fault" prints "$said" 1 "$1/dotenvy_check" bad.env
    check "$1/dotenvy_check finds none" prints '' 0 "$1/dotenvy_check" good.env
    check "$1/dotenvy_edit sets" prints 'A=2 # one' 0 \
        sh -c "echo 'A=1 # one' >edited.env && '$1/dotenvy_edit' set edited.env A 2 && cat edited.env"
    check "$1/dotenvy_export writes" prints $'A=1\nB=x 1' 0 "$1/dotenvy_export" docker good.env
    check "$1/dotenvy_exec becomes a command" prints 'x 1' 0 "$1/dotenvy_exec" -f good.env printenv B
}

# The manual page of a program, as man shows it.
shows_page() {
    local shown
    shown=$(man "$1" | col -b) && grep -qF -- "$1 -" <<<"$shown"
}

# The words that bash completes: a line, with the cursor at its end.
completes() {
    bash -c '
        . "$1"
        read -ra COMP_WORDS <<<"$3"
        COMP_CWORD=$((${#COMP_WORDS[@]} - 1))
        "_$2"
        [[ " ${COMPREPLY[*]} " == *" $4 "* ]]
    ' - "$HOME/.local/share/bash-completion/completions/$1" "$1" "$2" "$3"
}

# The example in the header's comment, as a file.
cut_example() {
    awk '/^ \* An example:/ { inside = 1; next } !inside { next } / \*\/$/ { exit } { sub(/^ \*(     )?/, ""); print }' \
        "$HOME/.local/include/dotenvy.h" >example.c
    grep -q '^int main' example.c
}

check_archive() {
    local unpacked
    tar -xzf dist/dotenvy-*-linux-x86_64.tar.gz
    unpacked=$(echo dotenvy-*-linux-x86_64)
    # Somebody may install from any folder.
    check "the archive installs" "./$unpacked/install.sh" "$HOME/.local"
    export PATH=$HOME/.local/bin:$PATH
    check_programs "$HOME/.local/bin"
    check "man shows the page of dotenvy_run" shows_page dotenvy_run
    check "man shows the page of dotenvy_check" shows_page dotenvy_check
    check "man shows the page of dotenvy_edit" shows_page dotenvy_edit
    check "man shows the page of dotenvy_export" shows_page dotenvy_export
    check "man shows the page of dotenvy_exec" shows_page dotenvy_exec
    check "bash completes an option" completes dotenvy_run 'dotenvy_run --li' --list
    check "bash completes a file" completes dotenvy_run 'dotenvy_run -f goo' good.env
    check "bash completes an option of the checker" completes dotenvy_check 'dotenvy_check --st' --strict
    check "bash completes a command of the editor" completes dotenvy_edit 'dotenvy_edit ren' rename
    check "bash completes a target" completes dotenvy_export 'dotenvy_export ku' kubernetes
    check "bash completes an option of dotenvy_exec" completes dotenvy_exec 'dotenvy_exec --st' --strict
    check "the archive has the licence of the original" \
        grep -qxF 'Copyright (c) 2014 Santiago Lapresta and contributors' "$unpacked/share/doc/dotenvy/LICENSE"
    check "and the notices" grep -q 'Andrew Gallant' "$unpacked/share/doc/dotenvy/NOTICES"
    check "and what it was built from" grep -q '^commit [0-9a-f]\{40\}$' "$unpacked/share/doc/dotenvy/BUILT"
}

build_example() {
    # shellcheck disable=SC2046 # these are several words
    cc -Wall -Wextra example.c $(pkg-config --cflags --libs dotenvy) -o "$1"
}

loads_the_installed() {
    ldd "$1" | grep -qF "libdotenvy.so.1 => $HOME/.local/"
}

# The names that the archive gives whatever links it, each after the letter of its kind.
global_names() {
    nm -g --defined-only "$HOME/.local/lib/libdotenvy.a" | sed -n 's/^[0-9a-f]* \([A-Z] .*\)$/\1/p' | sort
}

# The functions that the header declares, likewise.
declared_names() {
    sed -n 's/^[a-z][a-z0-9_]* \(dotenvy_[a-z_]*\)(.*/T \1/p' "$HOME/.local/include/dotenvy.h" | sort
}

check_library() {
    local wanted=$'HOST=localhost\nPORT=9\nURL=http://localhost:9/'
    export PKG_CONFIG_PATH=$HOME/.local/lib/pkgconfig
    check "the header has an example" cut_example
    check "it builds by pkg-config" build_example shared
    check "and runs" prints "$wanted" 0 ./shared
    check "with the shared object of its folder" loads_the_installed ./shared
    check "it builds with the archive" \
        cc -Wall -Wextra -I "$HOME/.local/include" example.c "$HOME/.local/lib/libdotenvy.a" -o static
    check "and runs" prints "$wanted" 0 ./static
    check "the header declares functions" test -n "$(declared_names)"
    check "the archive has these names, and no others" prints "$(declared_names)" 0 global_names
}

check_wheel() {
    local wheel pip
    wheel=$(echo dist/dotenvy-*.whl)
    check "python3 makes a place for packages" python3 -m venv --without-pip place
    pip=(python3 -m pip --python "$PWD/place/bin/python" --quiet --disable-pip-version-check)
    check "pip installs the wheel in less than 10 seconds" takes_less_than 10 "${pip[@]}" install --no-index "$wheel"
    check "its first check takes less than a second" takes_less_than 1 place/bin/dotenvy_check good.env
    check_programs "$PWD/place/bin"
    check "the package loads a file" prints "{'A': '1', 'B': 'x 1'}" 0 \
        place/bin/python -c 'import dotenvy; print(dotenvy.dotenv_values("good.env"))'
    check "the manual pages are there" \
        test -f place/share/man/man1/dotenvy_run.1 -a -f place/share/man/man1/dotenvy_check.1
    check "the licence, the notices and the commit are inside" sh -c '
        cd place/lib/python3*/site-packages/dotenvy-*.dist-info/licenses &&
        grep -q "Santiago Lapresta" LICENSE && grep -q "Andrew Gallant" NOTICES && grep -q "^commit " BUILT'
    check_drop_in
    check "pip takes it away again" "${pip[@]}" uninstall --yes dotenvy
    check "and nothing is left" test ! -e place/bin/dotenvy_check
}

# The wheel with the module dotenv, beside that of dotenvy, which is installed. `pip` is the caller's.
check_drop_in() {
    local packages
    packages=$(echo place/lib/python3*/site-packages)
    check "pip installs the module dotenv" "${pip[@]}" install --no-index dist/dotenvy_dotenv-*.whl
    cat >program.py <<'END'
import os
from dotenv import dotenv_values, find_dotenv, load_dotenv
print(load_dotenv(find_dotenv("none.env")), load_dotenv("good.env"), os.environ["B"])
print(dict(dotenv_values("good.env", interpolate=False)))
END
    check "a program that imports dotenv runs" prints $'False True x 1\n{\'A\': \'1\', \'B\': \'x ${A}\'}' 0 \
        place/bin/python program.py
    check "the command dotenv says that it needs click" \
        prints 'dotenv: the command line needs the package click: pip install click' 1 place/bin/dotenv list
    check "the licence is inside" grep -q 'Santiago Lapresta' "$packages"/dotenvy_dotenv-*.dist-info/licenses/LICENSE
    check "pip takes it away again" "${pip[@]}" uninstall --yes dotenvy-dotenv
    check "and nothing is left of it" test ! -e "$packages/dotenv" -a ! -e place/bin/dotenv
}

# Writes a program that uses the crate, with these lines in its manifest.
make_program() {
    rm -rf program
    mkdir -p program/src
    printf '[package]\nname = "program"\nversion = "0.1.0"\nedition = "2021"\n%s\n' "$1" >program/Cargo.toml
    cat >program/src/main.rs <<'END'
fn main() {
    for item in dotenvy::from_read_iter(&b"A=1\nB=${A}0\n"[..]) {
        println!("{:?}", item.unwrap());
    }
}
END
}

# The crate, a program that names its folder, and one that has it in the place of the original.
check_crate() {
    local crate pairs=$'("A", "1")\n("B", "10")'
    if ! cargo --version >/dev/null 2>&1; then
        echo "left out: the tests of the crate, since cargo isn't there"
        return
    fi
    tar -xzf dist/dotenvy-*.crate
    crate=$(basename dist/dotenvy-*.crate .crate)
    check "the crate's own tests pass" sh -c "cd '$crate' && cargo test --offline --quiet --all-features 2>&1"
    make_program "[dependencies]
dotenvy = { path = \"../$crate\" }"
    check "a program builds that names its folder alone" sh -c 'cd program && cargo build --offline --quiet'
    check "and runs" prints "$pairs" 0 program/target/debug/program
    make_program "[dependencies]
dotenvy = \"0.15\"
[patch.crates-io]
dotenvy = { path = \"../$crate\" }"
    check "a patch puts it in the place of the crate 0.15" sh -c 'cd program && cargo build --offline --quiet'
    check "and the program runs" prints "$pairs" 0 program/target/debug/program
    check "the licence, the notices and the commit are inside" sh -c "cd '$crate' &&
        grep -q 'Santiago Lapresta' LICENSE && grep -q 'Andrew Gallant' NOTICES && grep -q '^commit ' BUILT"
}

cat >good.env <<'END'
A=1
B="x ${A}"
END
{ cat good.env && printf '\nC=two words\n'; } >bad.env
check "there is no command rt" sh -c '! command -v rt'
check "the files of the system are not the user's" test ! -w /etc/passwd
check_archive
check_library
check_wheel
check_crate
tell_sums
