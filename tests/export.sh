#!/usr/bin/env bash
# Calls the built program dotenvy_export on real files, with each option and for each target: what it writes is read by
# sh and Python where these are the readers. Files that can't be opened or read, a FIFO, a line of 200 MB, the search
# for files, words that are no text, and standard output and error that are closed or full. `tests/export.sh PROGRAM`
# calls another program, and a second word is its version. Without a word it is the one that `rt ci`, or `rt run` in
# crates/dotenvy_export, has built. It takes some seconds. The last line is `N passed, M failed`.
#
# shellcheck disable=SC2016 # dollars in single quotes belong to files and scripts
set -euo pipefail
cd "$(dirname "$0")/.."
. tests/lib.sh
umask 022
export LC_ALL=C
take_program dotenvy_export "$@"
# Root may read every file, so root has the checks made as nobody.
if has_nobody; then
    run_as_nobody tests/lib.sh
    exit
fi
cd "$room/files"
here=$PWD
nl=$'\n'
unset A B C OUTER

# Counts a check of the last call: what it is, and the status, standard output and standard error that are right.
check() {
    holds "$1" ended "${@:2}"
}

show() {
    show_call
}

# What the program says: an error, and a name that is left out.
failure() {
    printf 'dotenvy_export: error: %s\n' "$@"
}

left_out() {
    printf 'dotenvy_export: warning: %s: shells keep this name, so it is left out\n' "$@"
}

# Calls the program with words that are refused, and tells why.
check_refused() {
    local what=$1 text=$2
    shift 2
    gives "$what" 2 '' "$(failure "$text; try 'dotenvy_export --help'")$nl" "$@"
}

# Calls the program, which ends with this error, and writes nothing.
check_error() {
    local what=$1 text=$2
    shift 2
    gives "$what" 1 '' "$(failure "$text")$nl" "$@"
}

# The error for a line of a file.
line() {
    echo "$1:$2: this line can't be read; dotenvy_check says why"
}

absent='no such file in the current directory or above it'
no_file='No such file or directory (os error 2)'
printf 'A=1\nB=$A\n' >a.env
printf 'B=2\nC=3\n' >b.env
printf 'A=1\nB=two words\n' >faulty.env

# A value with each printable character of ASCII that is no letter or digit, a tab and a letter of two bytes; and the
# declaration of it. In double quotes a backslash stands before a quote, a dollar or a backslash that is meant.
special=$'\t !"#$%&\'()*+,-./:;<=>?@[\\]^_`{|}~\303\251'
printf '%s\n' $'A="\t !\\"#\\$%&\'()*+,-./:;<=>?@[\\\\]^_`{|}~\303\251"' >special.env
printf 'A="1\n2"\n' >feed.env
printf 'A="1\r"\n' >return.env

check_targets() {
    gives 'docker: each special character' 0 "A=$special$nl" '' docker special.env
    gives 'kubernetes: each special character' 0 "A=$special$nl" '' kubernetes special.env
    gives 'docker: a carriage return at the end is doubled' 0 $'A=1\r\r\n' '' docker return.env
    gives 'systemd: each special character' 0 "$(cat special.env)$nl" '' systemd special.env
    gives 'systemd: a line feed' 0 "$(cat feed.env)$nl" '' systemd feed.env
    gives 'sh: each special character' 0 "export A='${special//\'/\'\\\'\'}'$nl" '' sh special.env
    check_by_sh 'sh reads each special character' "$special"
    call sh feed.env
    check_by_sh 'sh reads a line feed' "1${nl}2"
    call sh return.env
    check_by_sh 'sh reads a carriage return' $'1\r'
    call exec special.env
    check_by_sh 'sh reads what is written for exec' "$special"
    printf '%s\n' UID=1 "A.B=it\\'s" C=3 >reserved.env
    call exec reserved.env
    check_by_arguments 'sh takes names that it keeps for exec as arguments' "3|UID=1|A.B=it's|"
    call json special.env
    check_by_python 'Python reads each special character' 'A' "$special"
    call json feed.env
    check_by_python 'Python reads a line feed' 'A' "1${nl}2"
    call json b.env a.env
    check 'json: one object on one line, in the order of the names' 0 '{"A":"1","B":"2","C":"3"}'"$nl" ''
    : >empty.env
    call json empty.env
    check_by_python 'Python reads an object without names' '' ''
    gives 'sh: a file without names' 0 '' '' sh empty.env
}

# The value of A that sh has after it has read the last output.
check_by_sh() {
    local text=
    sh -c '. "$1"; printf %s. "$A"' sh "$room/output" >"$room/read" 2>>"$room/errors" || status=$?
    text=$(cat "$room/read")
    [ "$text" = "$2." ] || status=other
    : >"$room/output"
    check "$1" 0 '' ''
}

# The value of C and the first arguments that sh has then.
check_by_arguments() {
    sh -c '. "$1"; printf "%s|" "$C" "$1" "$2"' sh "$room/output" >"$room/read" 2>>"$room/errors" ||
        status=$?
    cp "$room/read" "$room/output"
    check "$1" 0 "$2" ''
}

# The names and the values that Python reads of the last output.
check_by_python() {
    python3 -c 'import json, sys
text = sys.stdin.buffer.read().decode()
assert text.endswith("\n") and text.count("\n") == 1
pairs = json.loads(text)
sys.stdout.buffer.write(("\n".join(pairs) + "|" + "\n".join(pairs.values())).encode())' <"$room/output" >"$room/read" \
        2>>"$room/errors" || status=$?
    cp "$room/read" "$room/output"
    check "$1" 0 "$2|$3" ''
}

# Pairs that a target can't be given.
check_pairs() {
    local target name
    for target in docker kubernetes; do
        check_error "$target: a line feed" "A: the value has a line feed, which $target can't be given" $target feed.env
        printf 'A=%065533d\n' 0 >fits.env
        gives "$target: a line of 65,535 bytes" 0 "$(cat fits.env)$nl" '' "$target" fits.env
        printf 'A=%065534d\n' 0 >long.env
        check_error "$target: a line of 65,536 bytes" \
            "A: the line has 65,536 bytes or more, which $target can't be given" $target long.env
    done
    name=$(printf 'A%0252d' 0)
    echo "$name=1" >name.env
    gives 'kubernetes: a name of 253 characters' 0 "$(cat name.env)$nl" '' kubernetes name.env
    echo "${name}0=1" >name.env
    check_error 'kubernetes: a name of 254 characters' "${name}0: kubernetes can't be given this name" kubernetes name.env
    gives 'docker: a name of 254 characters' 0 "$(cat name.env)$nl" '' docker name.env
    printf 'A.B=1\n' >dot.env
    for target in systemd sh; do
        check_error "$target: a name with a dot" "A.B: $target can't be given this name" $target dot.env
    done
    gives 'docker: a name with a dot' 0 "A.B=1$nl" '' docker dot.env
    check_error 'the first pair in the order of names is told' "A.B: sh can't be given this name" sh reserved.env
    check_error 'nothing is written of the other pairs' "A: the value has a line feed, which docker can't be given" \
        docker b.env feed.env
}

check_reserved() {
    printf 'UID=1000\nZ=1\n' >uid.env
    check_error 'sh: a name that shells keep' \
        "UID: shells keep this name; 'dotenvy_export --skip-reserved' leaves it out" sh uid.env
    gives 'sh: such a name is left out' 0 "export Z='1'$nl" "$(left_out UID)$nl" sh --skip-reserved uid.env
    printf 'PPID=1\nUID=2\nEUID=3\n_=4\n' >kept.env
    gives 'sh: all of them are left out' 0 '' "$(left_out EUID PPID UID _)$nl" sh kept.env --skip-reserved
    check_error 'sh: another name stays refused' "A.B: sh can't be given this name" sh --skip-reserved reserved.env
    gives 'docker: no name is left out' 0 "UID=1000${nl}Z=1$nl" '' docker --skip-reserved uid.env
    gives 'systemd: no name is left out' 0 "UID=\"1000\"${nl}Z=\"1\"$nl" '' systemd --skip-reserved uid.env
}

# Which names are written, with which values.
check_values() {
    gives 'a file' 0 "export A='1'${nl}export B='1'$nl" '' sh a.env
    gives 'the first of two files counts' 0 "export A='1'${nl}export B='1'${nl}export C='3'$nl" '' sh a.env b.env
    call sh --override a.env b.env
    check 'with --override the last counts' 0 "export A='1'${nl}export B='2'${nl}export C='3'$nl" ''
    A=7 OUTER=1 gives 'a name of the environment has its value' 0 "export A='7'${nl}export B='7'$nl" '' sh a.env
    A=7 gives 'with --override that of the file' 0 "export A='1'${nl}export B='1'$nl" '' sh --override a.env
    A=7 gives 'without the environment' 0 "export A='1'${nl}export B='1'$nl" '' sh --ignore-environment a.env
    printf 'A=$OUTER\n' >outer.env
    OUTER=1 gives 'a file can use the environment' 0 "export A='1'$nl" '' sh outer.env
    OUTER=1 gives 'which it can not where that is ignored' 0 "export A=''$nl" '' sh --ignore-environment outer.env
    printf 'A=1\nB="$A"\n' >next.env
    check_error 'the first dialect' "$(line "$here/next.env" 2)" sh next.env
    gives 'the second dialect' 0 "export A='1'${nl}export B='1'$nl" '' sh --next next.env
    printf '\357\273\277A=1\r\nB=2\r\n' >windows.env
    gives 'a byte order mark, and lines that end as on Windows' 0 "export A='1'${nl}export B='2'$nl" '' sh windows.env
    printf 'A=1\nA=2\n' >twice.env
    gives 'a name twice in a file' 0 "export A='1'$nl" '' sh twice.env
    gives 'a name twice in a file with --override' 0 "export A='2'$nl" '' sh twice.env --override
}

check_optional() {
    printf 'A=first\n' >one.env
    printf 'A=second\n' >two.env
    gives 'an optional file before a file' 0 "A=first$nl" '' docker --optional one.env two.env
    gives 'one behind it' 0 "A=first$nl" '' docker one.env --optional two.env
    gives 'the order is that of the words' 0 "A=second$nl" '' docker two.env --optional one.env
    gives 'two optional files' 0 "A=second$nl" '' docker --optional=two.env --optional one.env
    call docker --override one.env --optional two.env b.env --optional=none.env a.env
    check 'files and optional files in turn' 0 "A=1${nl}B=1${nl}C=3$nl" ''
    gives 'optional files that are absent' 0 "A=second$nl" '' docker --optional none.env two.env --optional ./none.env
    gives 'an optional file alone that is absent: nothing is searched' 0 '' '' docker --optional none.env
    check_error 'an optional file with a fault' "$(line "$here/faulty.env" 2)" docker --optional faulty.env
    check_error 'an optional file in a file' './a.env/x: Not a directory (os error 20)' docker --optional ./a.env/x
    check_error 'a file that is absent beside an optional one' "none.env: $absent" docker --optional none.env none.env
    gives 'standard input as an optional file' 0 "A=second$nl" '' docker --optional - <two.env
}

check_words() {
    local option word
    check_refused 'no word' 'there is no TARGET'
    check_refused 'no target' 'there is no TARGET' --next --optional a.env
    check_refused 'an unknown target' "unknown target 'bash'" bash a.env
    check_refused 'a file in place of a target' "unknown target 'a.env'" a.env
    check_refused 'an empty target' "unknown target ''" ''
    check_refused 'a target in capitals' "unknown target 'SH'" SH a.env
    check_refused 'an unknown target with an escape' "unknown target '\\u{1b}[31m\\n'" $'\e[31m\n'
    check_refused 'an unknown option: no target is looked at' "unknown option '-x'" none -x
    check_refused 'an unknown option after a file' "unknown option '--list'" sh a.env --list
    check_refused 'a part of an option' "unknown option '--overrid'" sh --overrid
    for word in -hello -Vx -hV -h=x; do
        check_refused "letters that begin with that of help or the version: $word" "unknown option '$word'" \
            sh a.env "$word" -h
    done
    check_refused 'a value of an option that takes none' "unexpected value in '--next=1'" sh --next=1
    check_refused 'an option that lacks its value' "no value after '--optional'" sh a.env --optional
    check_refused 'an option in place of a value' "no value after '--optional'" sh --optional --next
    check_refused 'an option with an escape and a line feed' "unknown option '-\\u{1b}[31m\\n'" sh $'-\e[31m\n'
    check_refused 'an option with characters that turn or end a line' \
        "unknown option '-\\u{202e}\\u{2066}\\u{2028}\\u{2029}'" sh $'-\342\200\256\342\201\246\342\200\250\342\200\251'
    check_refused 'an unknown option before --help' "unknown option '-x'" -x --help
    gives 'a word that is no text' 2 '' "$(failure 'a word of the command line is not UTF-8')$nl" sh a.env $'\377.env'
    gives 'the version' 0 "dotenvy_export $version$nl" '' --version
    gives 'the version by its letter: nothing is read' 0 "dotenvy_export $version$nl" '' sh -V none.env
    call --help
    cp "$room/output" "$room/help"
    check 'help' 0 "$(cat "$room/help")$nl" ''
    for option in --next --override --ignore-environment --optional --skip-reserved -h --help -V --version -- docker \
        kubernetes systemd sh json exec; do
        status=0
        grep -qE -- "^ .*$option(,| )" "$room/help" || status=$?
        check "help has $option" 0 "$(cat "$room/help")$nl" ''
    done
    gives 'help by its letter: no word after it is read' 0 "$(cat "$room/help")$nl" '' none -h -x
    cp a.env ./--next
    gives 'words after --' 0 "export A='1'${nl}export B='1'$nl" '' -- sh --next
    gives 'an option that is repeated' 0 "export A='1'${nl}export B='1'$nl" '' sh --next a.env --next
    # shellcheck disable=SC2046 # each number is a word of its own
    gives 'three hundred files' 0 "A=1${nl}B=1$nl" '' docker $(seq 300 | sed 's/.*/a.env/') two.env
}

check_files() {
    mkdir folder shut
    printf 'A=1\n' >locked.env
    printf 'A=1\n' >shut/a.env
    ln -s loop.env loop.env
    ln -s absent.env nothing.env
    ln -s a.env link.env
    chmod 000 locked.env shut
    check_error 'an absent file' "none.env: $absent" sh none.env
    check_error 'an absent path' "./none.env: $no_file" sh ./none.env
    check_error 'an absent file before one with a fault' "none.env: $absent" sh none.env faulty.env
    check_error 'a file without a name' ": $absent" sh ''
    check_error 'a link to nothing' "./nothing.env: $no_file" sh ./nothing.env
    check_error 'a link to itself' './loop.env: Too many levels of symbolic links (os error 40)' sh ./loop.env
    check_error 'a folder by its name' "folder: $absent" sh folder
    check_error 'a folder by its path' 'folder/: Is a directory (os error 21)' sh folder/
    check_error 'a file in a file' 'a.env/x: Not a directory (os error 20)' sh a.env/x
    if [ "$(id -u)" -ne 0 ]; then
        check_error 'a file that may not be read' './locked.env: Permission denied (os error 13)' sh ./locked.env
        check_error 'a file in a folder that may not be entered' 'shut/a.env: Permission denied (os error 13)' \
            sh shut/a.env
    fi
    chmod 755 locked.env shut
    gives 'a link to a file' 0 "export A='1'${nl}export B='1'$nl" '' sh link.env
    check_error 'a fault in the second file, of which the value is not told' "$(line "$here/faulty.env" 2)" \
        sh a.env faulty.env
    printf 'A=\377secret\nB=1\n' >broken.env
    check_error 'a line that is no text' "$(line "$here/broken.env" 1)" sh broken.env
    printf 'A=1\n\nB=a\0b\n' >nul.env
    check_error 'a NUL' "$here/nul.env:3: B: the value has a NUL, which no environment can hold" json nul.env
    B=9 check_error 'a NUL in a value over which the environment wins' \
        "$here/nul.env:3: B: the value has a NUL, which no environment can hold" json nul.env
    printf 'A=1\nB\n' >$'line\nfeed.env'
    check_error 'a file name with a line feed' "$(line "$here/line\\nfeed.env" 2)" sh $'line\nfeed.env'
    check_error 'an absent file with an escape in its name' "\\u{1b}[31m.env: $absent" sh $'\e[31m.env'
}

check_streams() {
    mkfifo pipe.env
    cat a.env >pipe.env &
    gives 'a FIFO by its path' 0 "export A='1'${nl}export B='1'$nl" '' sh ./pipe.env
    check_error 'a FIFO by its name' "pipe.env: $absent" sh pipe.env
    gives 'what a command writes' 0 "export A='1'${nl}export B='1'$nl" '' sh <(cat a.env)
    gives 'standard input by its path' 0 "export A='1'${nl}export B='1'$nl" '' sh /dev/stdin <a.env
    gives 'standard input as a dash' 0 "export A='1'${nl}export B='1'$nl" '' sh - <a.env
    status=0
    tail -n 9 a.env | "$program" sh b.env - - >"$room/output" 2>"$room/errors" || status=$?
    check 'standard input twice, of which the second is empty' 0 "export A='1'${nl}export B='2'${nl}export C='3'$nl" ''
    gives 'a fault in standard input' 1 '' "$(failure "$(line '<stdin>' 2)")$nl" sh - <faulty.env
    call sh - <&-
    check 'closed standard input' 1 '' "$(failure '<stdin>: Bad file descriptor (os error 9)')$nl"
    gives 'standard input that is a folder' 1 '' "$(failure '<stdin>: Is a directory (os error 21)')$nl" sh - <folder
    call sh a.env <&-
    check 'closed standard input that is not read' 0 "export A='1'${nl}export B='1'$nl" ''
}

# The search begins in the current directory.
check_search() {
    mkdir -p above/below/.env
    printf 'A=above\n' >above/.env
    printf 'A=other\n' >above/other.env
    cd above
    gives 'the default file' 0 "A=above$nl" '' docker
    cd below
    gives 'the default file of the folder above' 0 "A=above$nl" '' docker
    gives 'a file of the folder above' 0 "A=other$nl" '' docker other.env
    gives 'an optional file of the folder above' 0 "A=other$nl" '' docker --optional other.env
    check_error 'a path is not searched' "./other.env: $no_file" docker ./other.env
    printf 'A\n' >../.env
    check_error 'a fault in a file above' "$(line "$here/above/.env" 1)" docker
    cd "$here"
    mkdir gone
    cd gone
    rmdir ../gone
    check_error 'no current directory' ".env: $no_file" docker
    cd "$here"
}

check_outputs() {
    local closed full
    closed="$(failure 'standard output: Bad file descriptor (os error 9)')$nl"
    full="$(failure 'standard output: No space left on device (os error 28)')$nl"
    call_without_output '>&-' sh a.env
    check 'standard output is closed' 1 '' "$closed"
    call_without_output '>/dev/full' sh a.env
    check 'standard output is full' 1 '' "$full"
    call_without_output '>/dev/full' sh --skip-reserved uid.env
    check 'standard output is full, and a name would be left out' 1 '' "$full"
    call_without_output '>/dev/full' sh none.env
    check 'standard output is full, and a file is absent' 1 '' "$(failure "none.env: $absent")$nl"
    call_without_output '>&-' sh empty.env
    check 'standard output is closed, and nothing is to be written' 0 '' ''
    call_without_output '>/dev/full' --help
    check 'standard output is full, and help is asked for' 1 '' "$full"
    call_without_output '>&-' --version
    check 'standard output is closed, and the version is asked for' 1 '' "$closed"
    # More than a pipe holds, so that the program waits for the reader, which goes.
    printf 'A=%0200000d\n' 0 >much.env
    call_without_output '> >(:)' sh much.env
    check 'the reader of standard output is gone' 1 '' "$(failure 'standard output: Broken pipe (os error 32)')$nl"
    : >"$room/errors"
    status=0
    "$program" sh none.env >"$room/output" 2>&- || status=$?
    check 'standard error is closed' 1 '' ''
    status=0
    "$program" sh --skip-reserved uid.env >"$room/output" 2>/dev/full || status=$?
    check 'standard error is full, and all is written' 0 "export Z='1'$nl" ''
}

# Calls the program with so many kilobytes of memory.
call_bounded() (
    ulimit -v "$1"
    shift
    "$program" "$@" >"$room/output" 2>"$room/errors"
)

# A line of 200 MB.
check_sizes() {
    local what='a line of 200 MB' size=200000000
    {
        printf 'A='
        head -c "$size" /dev/zero | tr '\0' x
        echo
    } >huge.env
    status=0
    call_bounded 150000 sh huge.env || status=$?
    check "$what, with too little memory" 1 '' "$(failure "$here/huge.env: out of memory")$nl"
    status=0
    call_bounded 2500000 docker huge.env || status=$?
    check "$what for docker" 1 '' "$(failure "A: the line has 65,536 bytes or more, which docker can't be given")$nl"
    status=0
    call_bounded 2500000 sh huge.env || status=$?
    {
        printf "export A='"
        head -c "$size" /dev/zero | tr '\0' x
        printf "'\n"
    } | cmp -s - "$room/output" || status=other
    : >"$room/output"
    check "$what for sh" 0 '' ''
    rm huge.env
}

check_targets
check_pairs
check_reserved
check_values
check_optional
check_words
check_files
check_streams
check_search
check_outputs
check_sizes

tell_sums
