#!/usr/bin/env bash
# Tries install.sh in a copy of the files that it needs, with stand-ins for rt and bindings/build.sh, so that nothing is
# proved, and for install and mv, which can fail or wait: as a clone has it, which builds, and as an archive has it. It
# sees what is installed and shown, and that bad arguments, failures and signals leave the old files.
# It takes a few seconds. The last line is `N passed, M failed`.
set -euo pipefail
cd "$(dirname "$0")/.."
umask 022
# The folder of all that is made, which is removed at the end. Where this script calls itself, it is the word.
made=
if [ "$#" -eq 0 ]; then
    made=$(mktemp -d)
elif [ "$0" != "$1/copy/tests/install.sh" ]; then
    echo "tests/install.sh: it takes no words" >&2
    exit 1
fi
trap 'jobs -pr | xargs -r kill; rm -rf "$made"' EXIT
export ROOM=${1-$made}
copy=$ROOM/copy target=$ROOM/target archive=$ROOM/archive log=$ROOM/copy/crates/dotenvy_run/out/install.log
names=(dotenvy_run dotenvy_check dotenvy_edit dotenvy_export dotenvy_exec)
# Each file that is installed, and a link.
files=(bin/dotenvy_{run,check,edit,export,exec} include/dotenvy.h lib/libdotenvy.{a,so,so.1} lib/pkgconfig/dotenvy.pc
    share/doc/dotenvy/{BUILT,LICENSE,NOTICES} share/man/man1/dotenvy_{run,check,edit,export,exec}.1
    share/bash-completion/completions/dotenvy_{run,check,edit,export,exec}
    share/fish/vendor_completions.d/dotenvy_{run,check,edit,export,exec}.fish
    share/zsh/site-functions/_dotenvy_{run,check,edit,export,exec})
passed=0 failed=0

# Counts a check: what it is, and the command that ends with status 0 if it holds.
check() {
    if "${@:2}"; then
        passed=$((passed + 1))
        echo "passed: $1"
    else
        failed=$((failed + 1))
        echo "FAILED: $1"
    fi
}

# --- The copy, and the commands that it finds ---

make_copy() {
    local name
    mkdir -p "$copy"/{docs,bindings/python,crates,tests} "$ROOM"/{commands,tools,temporary}
    cp -r install.sh crates.txt LICENSE release bin "$copy"
    cp crates.txt "$ROOM"
    cp tests/install.sh "$copy/tests"
    cp -r bindings/c "$copy/bindings"
    cp bindings/python/pyproject.toml "$copy/bindings/python"
    cp docs/dotenvy_*.1 "$copy/docs"
    (cd "$copy/crates" && sed -n -E 's/( staticlib)?:.*//p' ../crates.txt | xargs mkdir)
    for name in memchr unicode thiserror clap strsim percent_encoding; do
        mkdir -p "$ROOM/kit/rattle/$name"
        echo "the terms of $name" >"$ROOM/kit/rattle/$name/LICENSE"
    done
    ln -s -t "$ROOM/commands" /usr/bin/* /bin/* 2>/dev/null || :
    rm -f "$ROOM/commands/rt"
    for name in tools/{rt,install,mv,sleep} copy/bindings/build.sh; do
        printf '%s\n' "$stand_in" >"$ROOM/$name"
        chmod 755 "$ROOM/$name"
    done
}

# A stand-in takes the name by which it is called. The file `plan` has what one does in place of its work, and a pattern
# of its name, its words and its folder.
# shellcheck disable=SC2016 # they expand when it runs
stand_in='#!/bin/sh
PATH=$ROOM/commands name=${0##*/} crate=${PWD##*/}
case $name:$1 in
    rt:doc) echo "$ROOM/kit/START-HERE.md" && exit ;;
    rt:version) echo "kit of the test" && exit ;;
    rt:*)
        echo "rt: chose --jobs 4 for $crate"
        for need in $(sed -n -E "s/^$crate( staticlib)?: *([^#]*).*/\2/p" ../../crates.txt); do
            [ ! -d "../$need" ] || grep -qx "$need lib" "$ROOM/calls" || { echo "rt: $need is not built" && exit 1; }
        done
        echo "$crate $*" >>"$ROOM/calls"
        ;;
    sleep:*) exec sleep 0.1 ;;
esac
for last; do :; done
read -r action pattern <"$ROOM/plan"
case "$name $* $crate" in $pattern)
    case $action in
        fail) echo "$name: Operation not permitted" >&2 && exit 1 ;;
        fill) mkdir -p "${last%/*}" && echo half >"$last" && echo "$name: No space left on device" >&2 && exit 1 ;;
        wait) echo $$ >"$ROOM/waiting" && exec sleep 60 ;;
        pause) "$name" "$@" && echo $$ >"$ROOM/waiting" && exec sleep 0.3 ;;
        tell) echo "so far: 3 of 8 functions checked" && timeout 60 tail -f "$ROOM/output" | grep -qm 1 " after " ;;
    esac ;;
esac
case $name:$1 in
    rt:run) mkdir -p out && printf "#!/bin/sh\necho new\n" >"out/$crate" ;;
    rt:*) ;;
    build.sh:*) cd "${0%/*}" && mkdir -p out && echo archive >out/libdotenvy.a && echo shared >out/libdotenvy.so.1 ;;
    *) exec "$name" "$@" ;;
esac'

plan() {
    echo "$*" >"$ROOM/plan"
}

# --- What a call does ---

# Calls the install.sh of `folder` with these words, and with the commands of `path`. What it prints goes to files. If
# there is a signal `sent`, it is sent while a stand-in waits, which has to end by it, too.
call() {
    local process status=0
    rm -f "$ROOM/waiting"
    : >"$ROOM/calls"
    # What runs beside a shell ignores SIGINT, unless told otherwise.
    PATH=$path env --default-signal "$folder/install.sh" "$@" >"$ROOM/output" 2>"$ROOM/errors" &
    process=$!
    if [ -n "${sent-}" ]; then
        until [ -s "$ROOM/waiting" ] || ! kill -0 "$process" 2>/dev/null; do
            sleep 0.01
        done
        kill -s "$sent" "$process"
    fi
    wait "$process" || status=$?
    if [ -n "${sent-}" ] && { [ ! -s "$ROOM/waiting" ] || kill -0 "$(cat "$ROOM/waiting")" 2>/dev/null; }; then
        status=2
    fi
    return "$status"
}

# What the target has: the bytes of each file; for `files` also mode, number, name and link of each; for `all` these of
# each folder, too.
state() {
    (cd "$target" && find . -type f -exec md5sum {} + | sort)
    case $1 in
        files) find "$target" ! -type d -printf '%m %i %P %l\n' | sort ;;
        all) find "$target" -printf '%y %m %i %P %l\n' | sort ;;
    esac
}

# Whether a call ends with status 1, these words and a last line of install.sh, and keeps the state of the target:
# `keeps all|files|whole TEXT WORD..`. For `whole` a file may also be the new one, as a whole installation has it.
keeps() {
    local before after status=0
    before=$(state "$1")
    call "${@:3}" || status=$?
    after=$(state "$1")
    if [ "$1" = whole ]; then
        # What is neither old nor new.
        after=$(comm -23 - <(sort -u - "$ROOM/new_bytes" <<<"$before") <<<"$after") before=
    fi
    [ "$status" -eq 1 ] && grep -qF -- "$2" "$ROOM/errors" && tail -n 1 "$ROOM/errors" | grep -q '^install\.sh: ' &&
        [ "$(wc -l <"$ROOM/errors")" -le 2 ] && [ "$before" = "$after" ]
}

# Whether it also comes before rt is called: nobody waits for a proof before being told.
refuses() {
    keeps all "$@" && [ ! -s "$ROOM/calls" ] && [ ! -s "$ROOM/output" ]
}

prints_usage() {
    call "$1" && grep -qxF 'usage: ./install.sh [PREFIX]' "$ROOM/output" && [ ! -s "$ROOM/errors" ]
}

# --- What is installed and shown ---

# Whether a folder has the new files.
has_new() {
    local name
    for name in "${names[@]}"; do
        # The script is no crate, so the stand-in for rt doesn't make it.
        [ "$name" = dotenvy_exec ] || [ "$("$1/bin/$name")" = new ] || return 1
        cmp "$1/share/man/man1/$name.1" "$copy/docs/$name.1" || return 1
    done
    cmp "$1/bin/dotenvy_exec" "$copy/bin/dotenvy_exec" && [ "$(readlink "$1/lib/libdotenvy.so")" = libdotenvy.so.1 ]
}

# Whether a folder has the files, those of the other words, and their folders, all with the right modes, and no more.
has_only() {
    local all=("${files[@]}" "${@:2}")
    diff <(cd "$1" && find . -mindepth 1 -printf '%y %m %P\n' | sort) <(
        {
            printf '%s\n' "${all[@]}" | sed 's|^bin/|f 755 &|; t; s|^lib/libdotenvy.so$|l 777 &|; t; s|^|f 644 |'
            printf '%s\n' "${all[@]}" | sed -n ':up; s|/[^/]*$||p; t up' | sed 's|^|d 755 |'
        } | sort -u
    )
}

says_where() {
    diff <(sed -n 's/^Installed //p' "$ROOM/output" | sort) <(printf '%s\n' "${files[@]/#/"$1/"}" | sort) &&
        [ "$(tail -n 1 "$ROOM/output")" = "Installed $1/bin/dotenvy_exec" ]
}

# Calls install.sh, and checks what it makes: `installs WHAT FOLDER OTHERS WORD..`. OTHERS are files that stay.
installs() {
    check "$1" call "${@:4}"
    check "$1: nothing is printed on standard error" test ! -s "$ROOM/errors"
    check "$1: all files are the new ones" has_new "$2"
    # shellcheck disable=SC2086 # these are several words, or none
    check "$1: and no others, all with the right modes" has_only "$2" $3
    check "$1: the last lines say where they are" says_where "$2"
}

# Whether the texts of the licences are there, and what was built from what.
has_papers() {
    local folder=$1/share/doc/dotenvy
    diff <(grep '^the terms of' "$folder/NOTICES" | sort) <(cat "$ROOM"/kit/rattle/*/LICENSE | sort) &&
        cmp "$folder/LICENSE" "$copy/LICENSE" && grep -qxF 'kit of the test' "$folder/BUILT" &&
        grep -q '^commit ' "$folder/BUILT" &&
        grep -qxF "Version: $("$copy/release/version.sh")" "$1/lib/pkgconfig/dotenvy.pc"
}

shown_crates() {
    sed -n -E 's/^(\w+), [0-9]+ of [0-9]+$/\1/p' "$ROOM/output"
}

# Whether the crates are the programs, the library, and all that crates among them need, and no others.
shows_each_crate() {
    local crates
    crates=$(shown_crates)
    diff <(sort <<<"$crates") <(
        {
            printf '%s\n' dotenvy_{run,check,edit,export,c}
            grep -E "^(${crates//$'\n'/|})( staticlib)?:" "$copy/crates.txt" | sed 's/^[^:]*://; s/#.*//' | tr ' ' '\n'
        } | sort -u | grep -xFf <(ls "$copy/crates")
    )
}

shows_numbers() {
    diff <(grep -E '^\w+, [0-9]+ of [0-9]+$' "$ROOM/output") <(
        shown_crates | awk -v count="$(shown_crates | wc -l)" '{ print $0 ", " NR " of " count }'
    )
}

calls_rt_for_each() {
    diff "$ROOM/calls" <(shown_crates | sed 's|$| lib|; s|^dotenvy_run lib|dotenvy_run run -- --list|
        s|^dotenvy_check lib$|dotenvy_check run -- /dev/null|; s|^dotenvy_edit lib|dotenvy_edit run -- --version|
        s|^dotenvy_export lib$|dotenvy_export run -- docker /dev/null|')
}

# Whether a text names the log, and the log has what rt printed for each crate that was shown.
names_log() {
    grep -qF -- "$log" "$1" && diff <(sed -n 's/^rt: chose --jobs 4 for //p' "$log") <(shown_crates)
}

# --- The targets ---

empty_target() {
    rm -rf "$target"
    mkdir "$target"
}

# An older program, which can run for long, with its page, and a program that is none of ours.
older_target() {
    empty_target
    mkdir -p "$target/bin" "$target/share/man/man1"
    cp "$(command -v bash)" "$target/bin/dotenvy_run"
    cp "$(type -P true)" "$target/bin/other"
    echo old >"$target/share/man/man1/dotenvy_run.1"
}

# The same, and two more programs, and a page.
old_target() {
    older_target
    echo old | tee "$target"/bin/dotenvy_{check,exec} >"$target/share/man/man1/dotenvy_check.1"
}

# --- The checks ---

check_arguments() {
    local no_path='neither an absolute path nor an option'
    old_target
    check '-h prints the usage' prints_usage -h
    check '--help prints the usage' prints_usage --help
    check 'an unknown option is refused' refuses "$no_path" --prefix=/usr
    check 'a relative PREFIX is refused' refuses "$no_path" usr
    check 'an empty PREFIX is refused' refuses "$no_path" ''
    check 'two arguments are refused' refuses 'too many arguments' "$target" "$target"
    DESTDIR=usr check 'a relative DESTDIR is refused' refuses 'DESTDIR must be an absolute path' "$target"
}

check_build() {
    local first
    empty_target
    installs 'an empty directory gets all files' "$target" '' "$target/"
    check 'the licences, the notices and the version are there' has_papers "$target"
    check 'each crate that a program needs is shown' shows_each_crate
    check 'the crates are numbered, and counted' shows_numbers
    check 'each crate is shown after those that it needs' test -z "$(grep 'is not built' "$log")"
    check 'rt is called for each crate' calls_rt_for_each
    check 'what rt printed stays in a file, and its path is shown' names_log "$ROOM/output"
    state bytes >"$ROOM/new_bytes"
    cp -a "$target" "$archive"
    cp "$copy/install.sh" "$archive"
    # One crate more, on which the crate that was shown first depends.
    first=$(shown_crates | head -n 1)
    mkdir "$copy/crates/one_more"
    sed -i "s/^$first:/one_more:\n& one_more/" "$copy/crates.txt"
    plan tell '*dotenvy_items'
    umask 077
    mkdir -m 755 "$target/a directory & more"
    installs 'crates.txt may have one crate more, the umask may be closed, and PREFIX may have a space' \
        "$target/a directory & more" '' -- "$target/a directory & more"
    umask 022
    check 'the crate is shown as the first one' test "$(shown_crates | head -n 1)" = one_more
    check 'and it counts' shows_numbers
    check 'while a proof takes long, it is said how far it is' \
        grep -qx '  3 of 8 functions checked after [0-9]*0 seconds' <(grep -A 1 '^dotenvy_items, ' "$ROOM/output")
    cp "$ROOM/crates.txt" "$copy"
    plan none
}

check_failed_builds() {
    local crate name
    for crate in dotenvy_lines dotenvy_run dotenvy_checker dotenvy_check; do
        plan fail "rt * $crate"
        old_target
        check "$crate is not proved: older files stay" keeps all "rt failed at $crate, " "$target"
        check "$crate is the last crate that is shown" test "$(shown_crates | tail -n 1)" = "$crate"
        check 'the error names the file with what rt printed' names_log "$ROOM/errors"
        empty_target
        check "$crate is not proved: an empty directory stays empty" keeps all "rt failed at $crate, " "$target"
    done
    old_target
    plan fail 'build.sh *'
    check 'the library for C is not built: older files stay' keeps all 'bindings/build.sh failed: ' "$target"
    plan none
    for name in dotenvy_{run,check}.1; do
        mv "$copy/docs/$name" "$ROOM"
        check "without $name nothing is installed" keeps all "docs/$name" "$target"
        mv "$ROOM/$name" "$copy/docs"
    done
    sed -i '/^dotenvy_check:/d' "$copy/crates.txt"
    check 'without a line of crates.txt nothing is done' keeps all 'no line for dotenvy_check' "$target"
    cp "$ROOM/crates.txt" "$copy"
}

# What is found before the proof.
check_early() {
    local name no_folder='is no directory that you may write in'
    old_target
    path=$ROOM/commands check 'without rt on PATH nothing is done' refuses 'no command rt on PATH' "$target"
    check 'PREFIX below a file is refused' refuses "$target/bin/other $no_folder" "$target/bin/other/x"
    check 'PREFIX below /proc is refused' refuses "/proc $no_folder" /proc/x
    chmod 555 "$target/share/man/man1"
    [ "$(id -u)" -eq 0 ] || check 'a directory that the user may not write in is refused' \
        refuses "$target/share/man/man1 $no_folder" "$target"
    chmod 755 "$target/share/man/man1"
    rm -r "$target/share"
    for name in bin/other nowhere; do
        ln -sf "$name" "$target/share"
        check "a link to $name in place of share is refused" refuses "$target/share $no_folder" "$target"
    done
    for name in "${names[@]}"; do
        empty_target
        mkdir -p "$target/bin/$name"
        check "a directory in place of $name is refused" refuses 'it is a directory' "$target"
    done
}

check_old() {
    local running
    old_target
    mkfifo "$ROOM/pipe"
    "$target/bin/dotenvy_run" -c "read -r _ <>'$ROOM/pipe'" &
    running=$!
    ln "$target/bin/dotenvy_run" "$ROOM/old_program"
    installs 'an older program is replaced while it runs' "$target" bin/other "$target"
    check 'the older program runs on' kill -0 "$running"
    check 'its bytes are as they were' cmp "$ROOM/old_program" "$(command -v bash)"
    kill "$running"
    older_target
    installs 'an older program may be there alone' "$target" bin/other "$target"
    old_target
    ln -sf other "$target/bin/dotenvy_check"
    installs 'a program that is a link is replaced' "$target" bin/other "$target"
    check 'and the other file stays' cmp "$target/bin/other" "$(type -P true)"
    old_target
    mv "$target/bin" "$target/programs"
    ln -s programs "$target/bin"
    check 'bin may be a link to a directory' call "$target"
    check 'it stays one' test -L "$target/bin" -a -x "$target/programs/dotenvy_exec"
}

check_destdir() {
    empty_target
    DESTDIR=$target/a/ installs 'DESTDIR goes before PREFIX' "$target/a/opt/tools" '' /opt/tools
    DESTDIR=$target/b installs 'DESTDIR goes before the default PREFIX' "$target/b/usr/local" ''
    DESTDIR=$target/d// installs 'DESTDIR may have slashes at its end' "$target/d/usr" '' /usr
    DESTDIR=$target/c installs 'PREFIX may be /' "$target/c" '' /
}

check_failed_copies() {
    local name make
    for make in empty_target older_target old_target; do
        plan fill 'install *target/*man1/dotenvy_run.1*'
        "$make"
        check "$make: the disk is full" keeps files 'No space left on device' "$target"
        for name in dotenvy_run dotenvy_exec; do
            plan fail "mv *bin/$name archive"
            "$make"
            check "$make: $name cannot be renamed" keeps whole 'Operation not permitted' "$target"
        done
    done
    plan none
    mv "$archive/lib/libdotenvy.a" "$ROOM"
    check 'an archive that lacks a file is refused' keeps files 'lib/libdotenvy.a' "$target"
    mv "$ROOM/libdotenvy.a" "$archive/lib"
}

check_signals() {
    local sent make stopped='stopped by a signal; nothing was installed'
    for sent in HUP INT QUIT PIPE TERM; do
        for make in empty_target old_target; do
            plan wait 'rt * dotenvy_items'
            "$make"
            folder=./copy check "$make: SIG$sent during the proof" keeps all "$stopped" "$target"
            plan pause 'install *target/*man1/dotenvy_run.1*'
            "$make"
            check "$make: SIG$sent while files are copied" keeps files "$stopped" "$target"
        done
        plan pause 'mv *man1/dotenvy_run.1 archive'
        check "SIG$sent between the renames comes too late" call "$target"
        check 'all files are the new ones' has_new "$target"
    done
}

# Root may write everywhere, so a wrong install.sh could spoil the machine: nobody goes on.
if [ -n "$made" ]; then
    make_copy
    nobody=(setpriv --reuid=65534 --regid=65534 --clear-groups)
    if [ "$(id -u)" -eq 0 ] && chown -R 65534:65534 "$ROOM" && "${nobody[@]}" test -x "$copy/tests/install.sh"; then
        "${nobody[@]}" "$copy/tests/install.sh" "$ROOM"
        exit
    fi
fi
export TMPDIR=$ROOM/temporary
# Somebody may call the script from any folder.
cd "$ROOM"
folder=./copy path=$ROOM/tools:$ROOM/commands
plan none
check_arguments
check_build
check_early
check_failed_builds
# An unpacked archive has the files that are installed, and the script beside them. It needs no rt.
folder=./archive path=$ROOM/commands
check_old
check_destdir
path=$ROOM/tools:$ROOM/commands
check_failed_copies
check_signals
check 'no temporary file is left' test -z "$(ls "$TMPDIR")"
echo "$passed passed, $failed failed"
[ "$failed" -eq 0 ]
