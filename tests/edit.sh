#!/usr/bin/env bash
# Calls the built program dotenvy_edit on real files, with each command and each option: what the files are then, what
# is printed and said, and the status. Values of standard input, differences that `patch` applies, links, owners,
# permissions and new files, files and folders that can't be read or written, words that are refused, and standard
# output and error that are closed or full; how much memory and time a long file takes; and the commands of
# docs/EDIT.md. What is said has to be a text of that page, and each of its texts has to be said.
#
# `tests/edit.sh PROGRAM` calls another program, and a second word is its version. Without a word it is the one that
# `rt ci`, or `rt run` in crates/dotenvy_edit, has built. It takes some seconds. The last line is `N passed, M failed`.
#
# shellcheck disable=SC2016 # dollars in single quotes belong to files and scripts
set -euo pipefail
cd "$(dirname "$0")/.."
. tests/lib.sh
umask 022
export LC_ALL=C
page=$PWD/docs/EDIT.md
take_program dotenvy_edit "$@"
# Root may read every file, so root has the checks made as nobody. That somebody else's file keeps its owner, root
# checks.
if has_nobody; then
    printf 'A=1\n' >"$room/owned.env"
    chmod 640 "$room/owned.env"
    chown 1234:1235 "$room/owned.env"
    "$program" set "$room/owned.env" A 2
    found="$(stat -c '%u:%g %a' "$room/owned.env") $(cat "$room/owned.env")"
    check "somebody else's file keeps its owner" test "$found" = '1234:1235 640 A=2'
    count run_as_nobody tests/lib.sh docs/EDIT.md
    tell_sums
    exit
fi
cd "$room/files"
: >"$room/errors"
nl=$'\n'

# Counts a check, and keeps what was said.
check() {
    cat "$room/errors" >>"$room/said"
    holds "$@"
}

show() {
    echo "    status $status"
    head -c 1000 "$room/output" "$room/errors" f.env || :
}

# Makes f.env, alone in its folder, with this text.
file() {
    rm -rf ./* .[!.]*
    printf '%s' "$1" >f.env
}

# Calls the program with these words, and an empty standard input.
call() {
    status=0
    "$program" "$@" >"$room/output" 2>"$room/errors" </dev/null || status=$?
}

# Calls the program with this text as standard input.
call_with() {
    local text=$1
    shift
    status=0
    printf '%b' "$text" | "$program" "$@" >"$room/output" 2>"$room/errors" || status=$?
}

# The last call worked, said this, and made this of the file.
check_new() {
    check "$1" ended 0 '' "${3-}"
    check "$1: the file" has f.env "$2"
    check "$1: nothing else is there" test "$(ls -A)" = f.env
}

# The last call ended with this status and this error, and left the file, which was this.
check_same() {
    check "$1" ended "$2" '' "dotenvy_edit: error: $3$nl"
    check "$1: the file is as it was" has f.env "$4"
    check "$1: nothing else is there" test "$(ls -A)" = f.env
}

# Calls the program, and makes one of these checks: `gives WHAT STATUS OUTPUT ERRORS WORD..`, `makes WHAT NEW WARNINGS
# WORD..`, `leaves WHAT STATUS ERROR OLD WORD..`.
gives() {
    call "${@:5}"
    check "$1" ended "${@:2:3}"
}

makes() {
    call "${@:4}"
    check_new "${@:1:3}"
}

leaves() {
    call "${@:5}"
    check_same "${@:1:4}"
}

# Warnings.
warning() {
    printf 'dotenvy_edit: warning: %s\n' "$@"
}

# The commands.

old='# where it listens
  export PORT = 80   # behind the proxy
HOST=localhost
MOTTO=two words
'
file "$old"
makes 'a value is set' "${old/80/8080}" '' set f.env PORT 8080
gives 'and is read' 0 "8080$nl" '' get f.env PORT
file "$old"
makes 'a line with a fault is mended' "${old/two words/\'three good words\'}" '' set f.env MOTTO 'three good words'
file "$old"
makes 'names are removed' "# where it listens${nl}MOTTO=two words$nl" '' unset f.env PORT HOST PORT
file "$old"
makes 'a name is renamed' "${old/HOST/SERVER}" '' rename f.env HOST SERVER
file "A=1$nl"
makes 'a name is appended' "A=1${nl}B=2$nl" '' set f.env B 2
makes 'a value begins with -' "A=1${nl}B=-2$nl" '' set -- f.env B -2
makes 'options come anywhere' "A=1${nl}B=x$nl" '' set f.env --next B x --quiet

# Values of standard input.

file "A=1$nl"
call_with '8080\n' set f.env A
check_new 'a value comes from standard input' "A=8080$nl"
call_with '80\n\n' set f.env A -
check_new 'one line feed is cut' "A='80${nl}'$nl"
call_with '80\n' set --exact f.env A
check_new 'no line feed is cut' "A='80${nl}'$nl"
call_with '' set f.env A
check_new 'the value is empty' "A=''$nl"
file "A=1$nl"
call_with 'caf\xe9\n' set f.env A
check_same 'a value is no text' 1 "A: the value isn't UTF-8" "A=1$nl"
call_with 'a\0b' set f.env A
check_same 'a value has a NUL' 1 'A: the value has a NUL' "A=1$nl"

# What get prints.

old="A=1${nl}B=\"\$A \${C}.\"${nl}A=2${nl}C=two words${nl}D=4$nl"
file "$old"
gives 'the first declaration counts' 0 "1$nl" '' get f.env A
gives 'names are replaced' 0 "1 .$nl" '' get f.env B
C=3 gives 'the environment makes no difference' 0 "1 .$nl" '' get f.env B
leaves 'a load stops before the name' 1 'f.env:4: a load stops at this line, before D' "$old" get f.env D
file "A='x\\$nl'$nl"
gives 'a value has its line feed' 0 "x\\$nl$nl" '' get f.env A
leaves 'a name is not there' 1 'f.env: B is not in this file' "A='x\\$nl'$nl" get f.env B
file $'A_1=a\nA=b\nB=$A_1\n'
gives 'the first dialect' 0 "b_1$nl" '' get f.env B
gives 'the second dialect' 0 "a$nl" '' get --next f.env B

# What is refused.

file 'A="x'
leaves 'the end stands open' 1 'f.env:1: an open end, so nothing can be appended' 'A="x' set f.env B 1
call set f.env A 1
check_same 'the line of the name has an open end' 1 "f.env:1: this line of A has an open end, or isn't UTF-8" 'A="x'
file 'A=1 '
call set f.env B 1
check_same 'a blank is last' 1 'f.env:1: an open end, so nothing can be appended; end it with a line feed' 'A=1 '
file "B=1${nl}A=1 # it's${nl}A=2  # it's${nl}C=it's${nl}"
leaves 'no name' 1 "1A: this can't be a name" "$(cat f.env)$nl" set f.env 1A 1
leaves 'no new name' 1 "x y: this can't be a name" "$(cat f.env)$nl" rename f.env A 'x y'
leaves 'a name of two lines' 1 "x\\ny: this can't be a name" "$(cat f.env)$nl" rename f.env $'x\ny' A
leaves 'the new name is there' 1 'f.env:1: B is there already' "$(cat f.env)$nl" rename f.env A B
leaves 'a name is not there, so none is removed' 1 'f.env: D is not in this file' "$(cat f.env)$nl" unset f.env B D
leaves 'a comment would go' 1 'f.env:3: the comment runs over several lines, and would be cut, or go' \
    "$(cat f.env)$nl" unset f.env A

# No form for other libraries.

check_unportable() {
    file "B=1$nl"
    leaves "$1" 1 "B: the value has no portable form, since it has $1" "B=1$nl" set --portable f.env B "$2"
}

check_unportable 'a single quote, and a double quote, a dollar or a backslash' "it's \$5"
check_unportable 'a line feed, and a double quote, a dollar or a backslash' "\"a\"${nl}b"
check_unportable 'a carriage return' $'a\rb'
check_unportable 'two backslashes in a row' 'a\\b'
check_unportable 'a backslash at its end' "a b\\"
check_unportable 'a dollar and braces' '${A}'
file "B=1 # it's \"that\"${nl}"
leaves 'the comment has all quotes' 1 'f.env:1: the comment has the quotes of a portable value' \
    "$(cat f.env)$nl" set --portable f.env B 'a b'
file "A=1${nl}B=1 ${nl}B=1$(printf '\t')# c$nl"
call set --portable f.env B 2
check_new 'the first line counts' "A=1${nl}B=2 $nl" "$(warning 'f.env:3: this later line of B is removed')$nl"
file "B=1$(printf '\t')# c$nl"
leaves 'a tab' 1 'f.env:1: white space other than spaces is not portable' "$(cat f.env)$nl" set --portable f.env B 2
file $'\xef\xbb\xbfB=1\n'
leaves 'a mark' 1 'f.env:1: a byte order mark is not portable' "$(cat f.env)$nl" set --portable f.env B 2

# Warnings.

file "two words${nl}A=1${nl}B=\$A${nl}A=2${nl}"
call set f.env A '$x'
check_new 'warnings are said' "two words${nl}A='\$x'${nl}B=\$A$nl" "$(warning \
    'A: the value has a $, which is text here' 'f.env:1: a load stops at this line, before A' \
    'f.env:3: B mentions A, directly or through another name' 'f.env:4: this later line of A is removed')$nl"
file "A=1${nl}B=\$A${nl}C=1${nl}D=\$C${nl}"
call unset f.env A C
check_new 'lines are those of the old file' "B=\$A${nl}D=\$C${nl}" "$(warning \
    'f.env:2: B mentions A, directly or through another name' 'f.env:4: D mentions C, directly or through another name')$nl"
file "A=1${nl}B=\$A${nl}"
makes 'no warning is said' "A=2${nl}B=\$A${nl}" '' set -q f.env A 2

# Differences.

patch_from() {
    cp f.env "$room/patched" && patch -s "$room/patched" <"$room/output" && "$program" "$@" -q >"$room/errors" 2>&1 &&
        cmp "$room/patched" f.env
}

is_as_diff() {
    cmp -s "$room/output" <(diff -u --label f.env --label f.env "$room/patched" f.env)
}

check_diff() {
    local what=$1 text=$2
    shift 2
    file "$text"
    call "$@" --dry-run
    cp f.env "$room/before"
    check "$what: it could be done" test "$status" -eq 0
    check "$what: no file is written" has f.env "$text"
    cp "$room/output" "$room/diff"
    check "$what: patch makes the new file" patch_from "$@"
    cp "$room/diff" "$room/output"
    cp "$room/before" "$room/patched"
}

check_diff 'a line in the middle' "$(printf '%s=1\n' A B C D E F G H I J)$nl" set f.env E 2
check 'it is as diff prints it' is_as_diff
check_diff 'the first line' "$(printf '%s=1\n' A B C D E)$nl" set f.env A 2
check 'it is as diff prints it' is_as_diff
check_diff 'the last line' "$(printf '%s=1\n' A B C D E)$nl" set f.env E 2
check 'it is as diff prints it' is_as_diff
check_diff 'a line more' "A=1$nl" set f.env B 2
check 'it is as diff prints it' is_as_diff
check_diff 'a line less' "A=1$nl" unset f.env A
check 'it is as diff prints it' is_as_diff
check_diff 'a line without its end' 'A=1' set f.env A 2
check 'it is as diff prints it' is_as_diff
check_diff 'a line that gets its end' 'B=1' set f.env A 2
check 'it is as diff prints it' is_as_diff
check_diff 'an empty file' '' set f.env A 2
check 'it is as diff prints it' is_as_diff
check_diff 'several lines' "$(printf '%s=1\n' A B C D A E F A G H I J K)$nl" set f.env A 2
check_diff 'lines with carriage returns' $'A=1\r\nB=2\r\n' set f.env A 2
check_diff 'bytes that are no text' $'# \xe9\nA=1\n' set f.env A 2
file "A=1$nl"
makes 'nothing would change' "A=1$nl" '' set f.env A 1 --dry-run
gives 'a difference is printed' 0 "--- f.env$nl+++ f.env$nl@@ -1 +1 @@$nl-A=1$nl+A=2$nl" '' set f.env A --dry-run 2
call set --create --dry-run new.env A 2
check 'a file would be made' ended 0 "--- /dev/null$nl+++ new.env$nl@@ -0,0 +1 @@$nl+A=2$nl" ''
check 'and is not' test ! -e new.env

# Files.

file "A=1$nl"
chmod 600 f.env
inode=$(stat -c %i f.env)
makes 'the same value again' "A=1$nl" '' set f.env A 1
check 'no file is written' test "$(stat -c %i f.env)" = "$inode"
call set f.env A 2
check 'the permissions are kept' test "$(stat -c %a f.env)" = 600
file "A=1$nl"
chmod 4755 f.env
call set f.env A 2
check 'all of them' test "$(stat -c %a f.env)" = 4755
file "A=1$nl"
printf 'other' >f.env.dotenvy_edit-0
call set f.env A 2
check "another call's file" has f.env "A=2$nl"
check 'is left as it is' has f.env.dotenvy_edit-0 other
touch f.env.dotenvy_edit-{1..999}
call set f.env A 3
check 'all names for a new file are taken' ended 2 '' \
    "dotenvy_edit: error: f.env: no new file can be made beside it: all names for a new file are taken$nl"
check 'the file is as it was' has f.env "A=2$nl"
rm f.env.dotenvy_edit-999
call set f.env A 3
check 'the last of them is free' has f.env "A=3$nl"
file "A=1$nl"
mkdir sub
ln -s ../f.env sub/link.env
ln f.env hard.env
call set sub/link.env A 2
check 'a link is followed' has f.env "A=2$nl"
check 'and stays' test -L sub/link.env
check 'a hard link keeps the old file' has hard.env "A=1$nl"
file "A=1$nl"
call set --create new.env A 2
check 'a file is made' has new.env "A=2$nl"
check 'which only its owner reads' test "$(stat -c %a new.env)" = 600
mkdir sub
call set --create sub/new.env A 2
check 'in a folder' has sub/new.env "A=2$nl"
rm -r new.env sub
leaves 'a file is absent' 2 'new.env: No such file or directory (os error 2)' "A=1$nl" set new.env A 2
leaves 'unset makes none' 2 'new.env: No such file or directory (os error 2)' "A=1$nl" unset --create new.env A
leaves 'a folder is absent' 2 'no/new.env: No such file or directory (os error 2)' "A=1$nl" set --create no/new.env A 2
leaves 'a folder is named' 2 'new.env/: No such file or directory (os error 2)' "A=1$nl" set --create new.env/ A 2
leaves 'no file is named' 2 ': No such file or directory (os error 2)' "A=1$nl" set --create '' A 2
leaves 'a folder' 2 '.: it is no regular file' "A=1$nl" set . A 2
leaves 'a folder that is none' 2 'f.env/x: Not a directory (os error 20)' "A=1$nl" get f.env/x A
leaves 'a name of two lines' 2 'no\nfile: No such file or directory (os error 2)' "A=1$nl" get $'no\nfile' A
ln -s nowhere dangling.env
call set --create dangling.env A 2
check 'a link that leads nowhere' ended 2 '' "dotenvy_edit: error: dangling.env: No such file or directory (os error 2)$nl"
check 'stays' test -L dangling.env -a ! -e nowhere
rm dangling.env
mkfifo fifo
gives 'a FIFO' 2 '' "dotenvy_edit: error: fifo: it is no regular file$nl" set fifo A 2
rm fifo
chmod 0 f.env
gives 'a file that may not be read' 2 '' "dotenvy_edit: error: f.env: Permission denied (os error 13)$nl" set f.env A 2
chmod 644 f.env
mkdir closed
printf 'A=1\n' >closed/f.env
chmod 555 closed
call set closed/f.env A 2
check 'a folder that may not be written' ended 2 '' \
    "dotenvy_edit: error: closed/f.env: no new file can be made beside it: Permission denied (os error 13)$nl"
check 'the file is as it was' has closed/f.env "A=1$nl"
gives 'nothing has to be written' 0 '' '' set closed/f.env A 1
gives 'it can be read' 0 "1$nl" '' get closed/f.env A
chmod 755 closed

# Words.

check_refused() {
    local what=$1 text=$2
    shift 2
    file "A=1$nl"
    leaves "$what" 2 "$text; try 'dotenvy_edit --help'" "A=1$nl" "$@"
}

check_refused 'no command' 'there is no command'
check_refused 'no command behind an option' 'there is no command' --next
check_refused 'an unknown command' "unknown command 'put'" put f.env A 2
check_refused 'a command of two lines' "unknown command 'a\\nb'" $'a\nb'
check_refused 'no file' 'there is no FILE' set
check_refused 'no name' 'there is no NAME' get f.env
check_refused 'no name to unset' 'there is no NAME' unset f.env
check_refused 'no old name' 'there is no OLD' rename f.env
check_refused 'no new name' 'there is no NEW' rename f.env A
check_refused 'a word more than set takes' "unexpected word '3'" set f.env A 2 3
check_refused 'a word more than get takes' "unexpected word '3'" get f.env A 3
check_refused 'a word more than rename takes' "unexpected word '3'" rename f.env A B 3
check_refused 'an unknown option' "unknown option '--nex'" set --nex f.env A 2
check_refused 'an unknown short option' "unknown option '-x'" set f.env A 2 -x
check_refused 'a value of an option' "unexpected value in '--next=yes'" set --next=yes f.env A 2
for word in -hello -Vx -hV -hh -qh -Vq -h=x -qx -5; do
    check_refused "a value that is no option: $word" "unknown option '$word'" set f.env A "$word"
done
check_refused 'letters before --help' "unknown option '-hello'" set f.env A -hello --help
check_refused 'the version with a value' "unexpected value in '--version=x'" set f.env A --version=x
file "A=1$nl"
call set f.env A -h -hello
check 'help by its letter: no word after it is read' grep -q '^Usage: dotenvy_edit set ' "$room/output"
check 'and nothing is set' has f.env "A=1$nl"
call set -- f.env A -h
check_new 'a value that is a name of an option, after --' "A=-h$nl"
for value in - -hello -q --next; do
    call_with "$value" set --exact f.env A
    check_new "any value comes from standard input: $value" "A=$value$nl"
done
file "A=1$nl"
leaves 'a word is no text' 2 'a word of the command line is not UTF-8' "A=1$nl" set f.env A $'\xff'
gives 'the version' 0 "dotenvy_edit $version$nl" '' --version set f.env A 2
gives 'the version' 0 "dotenvy_edit $version$nl" '' -V
call set --help
check 'help' grep -q '^Usage: dotenvy_edit set ' "$room/output"
check 'a line of it has at most 80 characters' test "$(wc -L <"$room/output")" -le 80
status=0
"$program" get f.env A >/dev/full 2>"$room/errors" || status=$?
: >"$room/output"
check 'standard output is full' ended 2 '' "dotenvy_edit: error: standard output: No space left on device (os error 28)$nl"
status=0
"$program" set f.env A 2 2>&- >"$room/output" || status=$?
: >"$room/errors"
check 'standard error is closed' ended 0 '' ''
status=0
"$program" set f.env A <&- 2>"$room/errors" >"$room/output" || status=$?
check 'standard input is closed' ended 2 '' "dotenvy_edit: error: standard input: Bad file descriptor (os error 9)$nl"

# A long file: of 10 MB a value is set, and names are removed, in less than 5 seconds of the processor, and with no more
# than three times the file in memory, besides the 6 MB of addresses that are enough for a small file.

call_within() {
    local kilobytes=$1
    shift
    status=0
    (ulimit -v "$kilobytes" -t 5 && exec "$program" "$@") >"$room/output" 2>"$room/errors" </dev/null || status=$?
}

is_last_line() {
    [ "$(tail -n 1 "$1")" = "$2" ] && [ "$(wc -c <"$1")" -eq "$3" ]
}

is_without() {
    cmp -s f.env <(grep -vE "^($1)=" "$room/whole")
}

file ''
seq -f "KEY_%.0f='some value'  # of a line" 260000 >f.env
length=$(wc -c <f.env)
call_within $((3 * length / 1024 + 6144)) set f.env A 2
check "a file of $length bytes" ended 0 '' ''
check 'has a line more' is_last_line f.env A=2 $((length + 4))
call_within $((3 * length / 1024 + 6144)) set f.env KEY_1 2
check 'its first line is changed' ended 0 '' ''
check 'and no other' is_last_line f.env A=2 $((length - 5))

cp f.env "$room/whole"
call_within $((3 * length / 1024 + 6144)) unset f.env KEY_1
check 'a line of it is removed' ended 0 '' ''
check 'and no other' is_without KEY_1
cp "$room/whole" f.env
call_within $((3 * length / 1024 + 6144)) unset f.env KEY_260000 KEY_1 KEY_130000
check 'three lines of it are removed' ended 0 '' ''
check 'and no other' is_without 'KEY_260000|KEY_1|KEY_130000'
cp "$room/whole" f.env

# A value of 2^40 bytes, by 40 lines. It makes no difference to a name before it.
file "A0=x$nl"
for line in {1..40}; do
    echo "A$line=\${A$((line - 1))}\${A$((line - 1))}" >>f.env
done
call_within 60000 get f.env A40
check 'a value is too long for the memory' ended 2 '' "dotenvy_edit: error: out of memory$nl"
call_within 60000 get f.env A1
check 'one before it is not' ended 0 "xx$nl" ''
cp "$room/whole" f.env

# With less memory it is told that there is too little, until there is enough.
is_refused_whole() {
    { ended 2 '' "dotenvy_edit: error: f.env: out of memory$nl" || ended 2 '' "dotenvy_edit: error: out of memory$nl"; } &&
        is_last_line f.env A=2 $((length - 5))
}

is_changed_whole() {
    ended 0 '' '' && is_last_line f.env A=3 $((length - 5))
}

is_one_of() {
    is_refused_whole || is_changed_whole
}

for megabytes in 6 8 12 16 20 24 28 32; do
    [ "$(tail -n 1 f.env)" = A=2 ] || break
    call_within $((megabytes * 1024)) set f.env A 3
    check "in $megabytes MB" is_one_of
done

# The page.

# The commands of its first table work on a file that has their names. What makes a password is a stand-in.
mkdir "$room/commands"
ln -s "$program" "$room/commands/dotenvy_edit"
printf '#!/bin/sh\necho secret\n' >"$room/commands/make-password"
chmod 755 "$room/commands/make-password"
sed -n 's/^| to [^|]* | `\(.*\)` |$/\1/p' "$page" | sed 's/\\|/|/g' >"$room/page_commands"
check 'the page has commands' test "$(wc -l <"$room/page_commands")" -gt 5
while read -r command; do
    file ''
    rm f.env
    printf '%s=1\n' PORT OLD_PORT OLD_HOST DB_URL >service.env
    status=0
    PATH=$room/commands:$PATH bash -o pipefail -c "$command" >"$room/output" 2>"$room/errors" </dev/null || status=$?
    check "$command" test "$status" -eq 0 -a ! -s "$room/errors"
done <"$room/page_commands"

# Its texts, as patterns, one a line, each for one REASON. The number of a line and so on are what they can be.
page_texts() {
    awk '
        function pattern(text) {
            gsub(/[][.*^$+?(){}|\\]/, "\\\\&", text)
            return text
        }
        /^- / { item = "" }
        /^- (REASON|STEP) is one of / { item = $2 }
        item { lists[item] = lists[item] " " $0 }
        /^## / { level = "" }
        /^## (What is refused|Texts on standard error)$/ { level = "error" }
        /^## Warnings$/ { level = "warning" }
        level && /^\| `/ {
            split($0, cells, "` \\| ")
            texts[++number] = pattern("dotenvy_edit: " level ": " substr(cells[1], 4))
        }
        END {
            words["LINE"] = "[1-9][0-9]*"
            words["FAULT"] = "(.* \\(os error [0-9]+\\)|it is no regular file|out of memory|" \
                "all names for a new file are taken)"
            words["NAME"] = words["KEY"] = words["FILE"] = words["WORD"] = ".*"
            count = split(lists["STEP"], parts, "`")
            for (at = 2; at < count; at += 2)
                if (parts[at] !~ /^;/) words["STEP"] = words["STEP"] (words["STEP"] ? "|" : "(") pattern(parts[at])
            words["STEP"] = words["STEP"] ")"
            reasons = split(lists["REASON"], parts, "`")
            for (text = 1; text <= number; text++)
                for (at = 2; at <= (texts[text] ~ /REASON/ ? reasons - 1 : 2); at += 2) {
                    line = texts[text]
                    sub(/REASON/, pattern(parts[at]), line)
                    for (word in words) gsub(word, words[word], line)
                    print line
                }
        }
    ' "$page"
}

page_texts >"$room/patterns"
check 'the page has texts' test "$(wc -l <"$room/patterns")" -gt 30
check 'each text that is said is one of the page' test -z "$(grep -vxEf "$room/patterns" "$room/said")"
while read -r pattern; do
    check "it is said: $pattern" grep -qxE -- "$pattern" "$room/said"
done <"$room/patterns"

tell_sums
