#!/usr/bin/env bash
# Makes each system call by which dotenvy_edit reads and replaces a file fail in turn, by strace: with EIO, with ENOSPC,
# and by a kill. After each the file is the old one or the new one, whole, with its owner and its permissions, and
# nothing is left beside it. Only a killed program may leave its temporary file, or one that can't remove it, and says
# so; then the next call works all the same. What is said is a text of docs/EDIT.md, and each of the steps that the page
# names is said.
#
# `tests/edit_faults.sh PROGRAM` calls another program, and `--stand-in` a script of Python that takes the same steps,
# to try this test. Without a word it is the program that `rt run` in crates/dotenvy_edit has built. Where strace is
# missing, nothing is tried, and a line says so. The last line is `N passed, M failed`.
set -euo pipefail
cd "$(dirname "$0")/.."
. tests/lib.sh
umask 022
export LC_ALL=C
page=$PWD/docs/EDIT.md
calls=(open openat openat2 read pread64 lseek fstat stat lstat newfstatat statx readlink readlinkat getcwd write pwrite64 writev
    chown fchown fchownat chmod fchmod fchmodat fchmodat2 ftruncate fsync fdatasync rename renameat renameat2 close)

# The steps of the replacement, without the law of the editor.
stand_in='
import os, sys
path = os.path.realpath(sys.argv[2])
try:
    descriptor = os.open(path, os.O_RDONLY)
    data = os.read(descriptor, 1 << 20)
    os.close(descriptor)
    info = os.stat(path)
    new = data.replace(b"A=1", b"A=" + sys.argv[4].encode())
    descriptor, number = None, 0
    while descriptor is None:
        temporary, number = f"{path}.{number}", number + 1
        try:
            descriptor = os.open(temporary, os.O_WRONLY | os.O_CREAT | os.O_EXCL, 0o600)
        except FileExistsError:
            pass
    try:
        while new:
            new = new[os.write(descriptor, new):]
        os.chown(temporary, info.st_uid, info.st_gid)
        os.fchmod(descriptor, info.st_mode & 0o7777)
        os.fsync(descriptor)
        os.close(descriptor)
        os.rename(temporary, path)
    except OSError:
        os.unlink(temporary)
        raise
    folder = os.open(os.path.dirname(path), os.O_RDONLY)
    os.fsync(folder)
    os.close(folder)
except OSError as error:
    print(error, file=sys.stderr)
    sys.exit(2)
'

is_stand_in=false
if [ "${1-}" = --stand-in ]; then
    is_stand_in=true
    printf '%s' "$stand_in" >"$room/stand_in.py"
    program=("$(python3 -c 'import sys; print(sys.executable)')" -ISB "$room/stand_in.py")
else
    program=("$(realpath -m "${1-crates/dotenvy_edit/out/dotenvy_edit}")")
fi
need_program "${program[0]}" dotenvy_edit
if ! strace -o /dev/null true 2>"$room/errors"; then
    echo "left out: all of it, as strace doesn't run: $(head -n 1 "$room/errors")"
    echo "0 passed, 0 failed"
    exit 0
fi

show() {
    echo "    status $status, $(head -c 300 "$room/errors")"
    find "$room/files" -type f -printf '    there is %f, %U:%G %m\n'
}

# Puts the old file into an empty folder. Root gives it to somebody else.
put_file() {
    rm -rf "$room/files"
    mkdir "$room/files"
    cp "$room/old" "$room/files/f.env"
    chmod 640 "$room/files/f.env"
    [ "$(id -u)" -ne 0 ] || chown 1234:1234 "$room/files/f.env"
}

# Calls the program under strace, which gets these words.
call() {
    status=0
    (cd "$room/files" && strace -f "$@" "${program[@]}" set f.env A 2 || exit) >"$room/output" 2>"$room/errors" || status=$?
}

# Whether the file is this one, with the owner and the permissions that it had.
is_file() {
    cmp -s "$room/$1" "$room/files/f.env" && [ "$(stat -c '%u:%g %a' "$room/files/f.env")" = "$kept" ]
}

has_one_file() {
    [ "$(ls -A "$room/files")" = f.env ]
}

# Of a call that failed the file is old or new; one that worked has written the new one. Nothing else is there.
is_whole() {
    has_one_file && { is_file new || { [ "$status" -ne 0 ] && is_file old; }; }
}

# After a kill the file is old or new, and the next call writes the new one.
is_whole_after_kill() {
    is_file new || is_file old || return 1
    status=0
    (cd "$room/files" && "${program[@]}" set f.env A 2) >"$room/output" 2>"$room/errors" || status=$?
    [ "$status" -eq 0 ] && is_file new
}

# Prints the steps that the page names.
page_steps() {
    awk '
        /^- / { inside = 0 }
        /^- STEP is one of / { inside = 1 }
        inside { text = text " " $0 }
        END {
            count = split(text, parts, "`")
            for (at = 2; at < count; at += 2) if (parts[at] !~ /^;/) print parts[at]
        }
    ' "$page"
}

# Of a call that failed one line is said: the file, the step if it is one of the page, and the fault.
is_told() {
    local pattern='dotenvy_edit: error: f\.env: (STEP: )?(Input/output error|No space left on device) \(os error [0-9]+\)'
    [ "$status" -eq 0 ] || "$is_stand_in" ||
        { [ "$(wc -l <"$room/errors")" -eq 1 ] && sed -f "$room/as_step" "$room/errors" | grep -qxE "$pattern"; }
}

# Prints each call of this name that comes once the file is named, by its number among all calls of this name.
numbers() {
    awk -v call="$1" '
        /f\.env/ && !/execve/ { begun = 1 }
        { name = $2; sub(/\(.*/, "", name) }
        name == call { count++; if (begun) print count }
    ' "$room/trace"
}

page_steps | sed 's/.*/s|^\\(dotenvy_edit: error: f\\.env: \\)&: |\\1STEP: |/' >"$room/as_step"
printf 'A=1\nB=2\n' >"$room/old"
printf 'A=2\nB=2\n' >"$room/new"
put_file
kept=$(stat -c '%u:%g %a' "$room/files/f.env")
call -o "$room/trace"
check 'the file is replaced' is_whole
check 'and is the new one' is_file new
tried=0
for name in "${calls[@]}"; do
    for number in $(numbers "$name"); do
        tried=$((tried + 1))
        for fault in error=EIO error=ENOSPC signal=SIGKILL; do
            put_file
            call -o "$room/last_trace" -e trace="$name" -e inject="$name:$fault:when=$number"
            check "$name $number is made to fail" grep -qE 'INJECTED|killed by SIGKILL' "$room/last_trace"
            if [ "$fault" = signal=SIGKILL ]; then
                check "$name $number, killed" is_whole_after_kill
            else
                check "$name $number, $fault" is_whole
                check "$name $number, $fault, is told" is_told
                cat "$room/errors" >>"$room/said"
            fi
        done
    done
done
echo "$tried system calls were made to fail: $(for name in "${calls[@]}"; do numbers "$name" | sed "s/.*/$name/"; done | uniq -c | tr -s ' \n' ' ')"
check 'calls were made to fail' test "$tried" -gt 5
if ! "$is_stand_in"; then
    check 'the page names steps' test "$(wc -l <"$room/as_step")" -gt 5
    while read -r step; do
        check "it is said: $step" grep -qF -- ": $step: " "$room/said"
    done < <(page_steps)

    # The new file can't be removed after a step that failed.
    put_file
    call -o "$room/last_trace" -e trace=fsync,unlink -e inject=fsync:error=EIO:when=1 -e inject=unlink:error=EIO
    check 'the file is the old one' is_file old
    check 'the new one is left' cmp -s "$room/new" "$room/files/f.env.dotenvy_edit-0"
    text="the new file can't be synced: Input/output error (os error 5); it is left beside it"
    check 'and that is said' grep -qxF "dotenvy_edit: error: f.env: $text" "$room/errors"
    check 'the next call writes it' is_whole_after_kill
fi

tell_sums
