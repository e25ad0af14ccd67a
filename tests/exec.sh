#!/usr/bin/env bash
# Calls the script bin/dotenvy_exec under each shell that is installed: each option and status, values and names of
# every sort, and what the command gets: its environment, its process and its descriptors. As process 1 of a namespace
# the command has to get SIGTERM, and strace must see no value in an argument list and no file that is written.
# `tests/exec.sh FOLDER` takes the program dotenvy_export of this folder. Without a word it is the one that `rt ci` has
# built, or else that of PATH. It takes half a minute, and no proof. The last line is `N passed, M failed`.
#
# shellcheck disable=SC2016 # dollars in single quotes belong to files and to other shells
set -euo pipefail
cd "$(dirname "$0")/.."
. tests/lib.sh
umask 022
version=$(release/version.sh)
folder=${1-crates/dotenvy_export/out}
[ $# -gt 0 ] || [ -x "$folder/dotenvy_export" ] || folder=$(dirname "$(command -v dotenvy_export || echo "$folder/")")
shell=

need_program "$folder/dotenvy_export" dotenvy_export
folder=$(realpath "$folder")

# Counts a check: what it is, and the command that ends with status 0 if it holds.
check() {
    holds "$shell: $1" "${@:2}"
}

show() {
    show_call | tr '\0' '\n'
}

# Calls any command.
call() {
    keep "$@"
}

# Calls the script with these words.
become() {
    call "$script" "$@"
}

# Whether it printed an environment that is exactly these entries, or has these entries.
is_environment() {
    [ "$status" = 0 ] && diff <(entries "$@") <(sort -z "$room/output" | tr '\0\n' '\n\1')
}

has_entries() {
    [ "$status" = 0 ] && diff <(entries "$@") <(entries "$@" | comm -12 - <(sort -z "$room/output" | tr '\0\n' '\n\1'))
}

# Prints entries sorted, each on a line: its own line feeds are other bytes there.
entries() {
    [ $# -eq 0 ] || printf '%s\0' "$@" | sort -z | tr '\0\n' '\n\1'
}

# Whether a warning for each of these names is all that it printed on standard error.
warned_of() {
    local name
    diff <(for name in "$@"; do
        echo "dotenvy_exec: warning: $name: shells keep this name or can't have it, so env gets it as an argument"
    done | sort) <(sort "$room/errors")
}

# Installs the script for a shell, as its sh: with a link of this name, and its path in the first line. The program is
# on PATH, and not beside the script.
install_for() {
    local words
    shell=$1
    mkdir -p "$room/$shell/bin"
    ln -s "$(command -v "$shell")" "$room/$shell/sh"
    words="#!$room/$shell/sh"
    script=$room/$shell/bin/dotenvy_exec
    sed "1s|^#!/bin/sh$|$words|" bin/dotenvy_exec >"$script"
    chmod 755 "$script"
    grep -qxF "$words" "$script"
}

# --- Options, and files ---

make_files() {
    mkdir -p "$room/work/below" "$room/commands"
    cd "$room/work"
    printf 'A=1\nB=${A}2\n' >a.env
    printf 'A=3\nC=4\n' >b.env
    printf 'A=searched\n' >.env
    printf 'A=dash\n' >-x.env
    printf 'A=1\nB=two words\n' >bad.env
    printf 'UID=1000\nA.B=1\nA=1\n' >kept.env
    printf '#!/bin/sh\necho "$A $B $C $*"\n' >show
    printf '#!/bin/sh\necho "found $*"\n' >"$room/commands/found"
    printf 'no program\n' >"$room/commands/locked"
    chmod 755 show "$room/commands/found"
}

check_options() {
    local form
    become -f a.env ./show x 'y z'
    check 'a file' gave 0 '1 12  x y z'
    become -f a.env -f b.env ./show
    check 'of two files the first wins' gave 0 '1 12 4 '
    become --override -f a.env -f b.env ./show
    check 'with --override the last' gave 0 '3 12 4 '
    A=9 become -f a.env ./show
    check 'a variable that exists wins, and the file sees it' gave 0 '9 92  '
    A=9 become -f a.env --override ./show
    check 'with --override the file wins' gave 0 '1 12  '
    for form in -f=a.env -fa.env --file=a.env '--file a.env' '--optional a.env' --optional=a.env '--strict -f a.env'; do
        # shellcheck disable=SC2086 # some are two words
        become $form ./show
        check "$form" gave 0 '1 12  '
    done
    become --optional absent.env -f a.env ./show
    check 'an optional file that is absent' gave 0 '1 12  '
    become --optional b.env -f a.env ./show
    check 'an optional file that comes first' gave 0 '3 32 4 '
    become -f a.env --optional b.env ./show
    check 'an optional file that comes last' gave 0 '1 12 4 '
    become -f a.env -- ./show -f b.env -- --help
    check 'the words after the command are its own' gave 0 '1 12  -f b.env -- --help'
    become -f a.env ./show --help
    check 'also without --' gave 0 '1 12  --help'
    for form in '-f -x.env' -f-x.env -f=-x.env --file=-x.env '--optional -x.env' '--optional=-x.env'; do
        # shellcheck disable=SC2086 # some are two words
        become $form ./show
        check "a file that begins with -, as $form" gave 0 'dash   '
    done
    become ./show
    check 'without a file, .env of this directory' gave 0 'searched   '
    cd below
    become ../show
    check 'or of one above' gave 0 'searched   '
    cd ..
}

# Standard input belongs to the command, unless it is a file.
check_input() {
    call "$script" -f a.env cat <<<'hello'
    check 'the command has standard input' gave 0 hello
    call "$script" -f - ./show <a.env
    check 'standard input as a file' gave 0 '1 12  '
    call "$script" -f <(printf 'A=piped\n') ./show
    check 'a pipe as a file' gave 0 'piped   '
}

check_next() {
    printf 'A=1\nB="$A"\n' >next.env
    become --next -f next.env ./show
    check 'the second dialect' gave 0 '1 1  '
}

# Calls that are wrong: nothing is read.
check_refused() {
    local text=$1
    shift
    become "$@"
    check "refused: $*" complained 2 "dotenvy_exec: error: $text; try 'dotenvy_exec --help'"
}

check_words() {
    local as_env='as env would take it for an option or a variable' word
    check_refused 'no command'
    check_refused 'no command' -f bad.env
    check_refused 'no command' --strict --
    for word in -f --file --optional; do
        check_refused "no value after '$word'" -f bad.env "$word"
    done
    for word in -x - --strct --strict=1 --override=1 -hx; do
        check_refused "unknown option '$word'" -f bad.env "$word" ./show
    done
    check_refused "'-x' can't be a command here, $as_env" -f bad.env -- -x
    check_refused "'--' can't be a command here, $as_env" -f bad.env -- -- ./show
    check_refused "'A=1' can't be a command here, $as_env" -f bad.env A=1 ./show
    check_refused 'a word has a control character' -f bad.env $'-x\ny' ./show
    become -f bad.env --version
    check 'the version: nothing is read' gave 0 "dotenvy_exec $version"
    become -V
    check 'the version by its letter' gave 0 "dotenvy_exec $version"
    become -h -x
    cp "$room/output" "$room/help"
    check 'help by its letter' test "$status" = 0 -a ! -s "$room/errors"
    become -f bad.env --help
    check 'help: nothing is read' test "$status" = 0 -a "$(cat "$room/help")" = "$(cat "$room/output")"
    for word in -f --file --optional --override --ignore-environment --next --strict -h --help -V --version --; do
        check "help has $word" grep -qE -- "^ .*$word(,| |$)" "$room/help"
    done
    check 'help is at most 80 columns wide' test "$(wc -L <"$room/help")" -le 80
    for word in --help --version; do
        status=0
        "$script" "$word" >/dev/full 2>"$room/errors" || status=$?
        check "$word on a full device" test "$status" = 2
    done
}

# --- Faults, and the command that isn't there ---

# Whether the last call told no value of a file, and started nothing.
told_nothing() {
    ! grep -qF -e 'two words' -e searched "$room/errors" && [ ! -e started ]
}

check_faults() {
    local fault="dotenvy_export: error: $PWD/bad.env:2: this line can't be read; dotenvy_check says why"
    become -f a.env -f bad.env touch started
    check 'a fault names its program, file and line' complained 1 "$fault"
    check 'and starts nothing' told_nothing
    become -f absent.env touch started
    check 'an absent file' complained 1 \
        'dotenvy_export: error: absent.env: no such file in the current directory or above it'
    become --optional bad.env --ignore-environment /usr/bin/touch started
    check 'a fault of an optional file, in an empty environment' complained 1 "$fault"
    become --strict -f kept.env touch started
    check 'a name that shells keep, with --strict' test "$status" = 1
    check 'the name is told, and nothing is started' grep -qE '^dotenvy_export: error: (UID|A\.B): ' "$room/errors"
    check 'nothing was started' told_nothing
}

# A program with this text in place of dotenvy_export, beside the script.
beside() {
    printf '#!/bin/sh\n%s\n' "$1" >"${script%/*}/dotenvy_export"
    chmod 755 "${script%/*}/dotenvy_export"
}

check_program() {
    beside 'echo "export A=beside"'
    become -f a.env ./show
    check 'the program beside the script comes first' gave 0 'beside   '
    beside 'exit 2'
    become -f a.env touch started
    check 'a program that is called in a wrong way' gave 2
    beside 'exit 3'
    become -f a.env touch started
    check 'a program that fails' complained 1 'dotenvy_exec: error: dotenvy_export ended with status 3'
    beside 'echo "export A=1"; kill -9 $$'
    become -f a.env touch started
    # Shells have a line and a number of their own for this.
    check 'a program that is ended' grep -qxE 'dotenvy_exec: error: dotenvy_export ended with status (137|265)' "$room/errors"
    beside 'echo "export A=1"; kill -9 $PPID'
    become -f a.env touch started
    check 'a subshell that is ended' test "$status" != 0
    beside "printf 'export A=\\'cut'; exit 1"
    become -f a.env touch started
    check 'a text that is cut' test "$status" != 0
    rm "${script%/*}/dotenvy_export"
    call env PATH=/usr/bin:/bin "$script" -f a.env touch started
    check 'no program' test "$status" = 1
    check 'nothing was started' told_nothing
}

check_command() {
    local path=$room/commands:/usr/bin:/bin
    become -f a.env sh -c 'exit 7'
    check "the command's status" gave 7
    become -f a.env sh -c 'kill -TERM $$'
    check 'a signal that ends the command' gave 143
    become -f a.env not_there
    check 'a command that is not there' test "$status" = 127 -a -s "$room/errors"
    become -f a.env ./not_there
    check 'a path that is not there' test "$status" = 127 -a -s "$room/errors"
    become -f a.env "$room/commands/locked"
    check "a command that can't be run" test "$status" = 126 -a -s "$room/errors"
    become -f a.env ./below
    check 'a directory' test "$status" = 126 -a -s "$room/errors"
    become -f kept.env not_there
    check 'one that is not there, by env' test "$status" = 127
    become -f kept.env "$room/commands/locked"
    check "one that can't be run, by env" test "$status" = 126
    printf 'PATH=%s\n' "$path" >path.env
    become -f path.env found x
    check 'a PATH that exists wins over the file' test "$status" = 127
    become --override -f path.env found x
    check "with --override the command is found by the file's" gave 0 'found x'
    become --ignore-environment -f path.env found x
    check 'and in an empty environment' gave 0 'found x'
    printf 'PATH=%s\nUID=1000\n' "$room/commands" >path.env
    become --override -f path.env found x
    check 'also if env itself is not on that PATH' test "$status" = 0 -a "$(cat "$room/output")" = 'found x'
    become --ignore-environment -f a.env env
    check 'without a PATH, /usr/bin is searched' test "$status" = 0
}

# --- Values and names ---

# shellcheck disable=SC1003 # each of these is a value as it is
values=("V1=it's \"x\" \$(touch $room/ran) \`touch $room/ran\`" $'V2=line 1\nline 2\n\n\n' $'V3=\n' V4= 'V5=\' "V6='"
    "V7=''\\''" $'V8= \t\r' 'V9=*?[a]~#;&|<>!{}' $'V10=\u00e4\u20ac\U0001f600' 'V11=-n' 'V12="$@"' $'V13=\e[31m\u2028')
values+=("V14=$(head -c 100000 /dev/zero | tr '\0' x)")

# Prints lines of a file that declare these entries, each in double quotes, with a backslash before what means something
# there.
declare_all() {
    local entry value
    for entry in "$@"; do
        value=${entry#*=}
        value=${value//\\/\\\\}
        value=${value//\"/\\\"}
        value=${value//\$/\\\$}
        printf '%s="%s"\n' "${entry%%=*}" "$value"
    done
}

check_values() {
    declare_all "${values[@]}" >values.env
    become -f values.env cat /proc/self/environ
    check 'each value reaches the command as it is' has_entries "${values[@]}"
    check 'and nothing is told' test ! -s "$room/errors"
    declare_all "${values[@]/#V/V.}" >dotted.env
    become -f dotted.env cat /proc/self/environ
    check 'also by env' has_entries "${values[@]/#V/V.}"
    check 'and each name is told' warned_of V.{1..14}
    check 'no command of a value ran' test ! -e "$room/ran"
}

# Names that mean something to shells or to the script, and keep it.
names=(IFS=x HOME=/h ENV=/nowhere BASH_ENV=/nowhere PS1=1 PS4='$(touch ran)' LANG=C.UTF-8 LC_ALL=C.UTF-8 CDPATH=/usr
    SHELL=/s MAIL=/m TERM=t PWD=/p OLDPWD=/o POSIXLY_CORRECT=1 LOGNAME=l USER=u dotenvy_left=1 dotenvy_word=w
    dotenvy_become=touch PROMPT_COMMAND='touch ran' FPATH=/f)
# Names that shells keep, or can't have.
kept=(_=u UID=1000 EUID=1 PPID=7 OPTIND=o SHLVL=s RANDOM=r SECONDS=s GROUPS=g LINENO=l BASHOPTS=b SHELLOPTS=xtrace A.B=1
    a.b.c=2 PIPESTATUS=p)

check_names() {
    declare_all "${names[@]}" "PATH=$room/commands:/usr/bin:/bin" >names.env
    become --override -f names.env cat /proc/self/environ
    check 'names that mean something to shells' has_entries "${names[@]}" "PATH=$room/commands:/usr/bin:/bin"
    check 'and nothing is told' test ! -s "$room/errors"
    declare_all "${kept[@]}" A=1 >all_kept.env
    become --override -f all_kept.env cat /proc/self/environ
    check 'names that shells keep' has_entries "${kept[@]}" A=1
    check 'and each is told' warned_of "${kept[@]%%=*}"
    become --override -f all_kept.env found
    check 'a command that is not there, with such names' test "$status" = 127
    check 'no command of a value ran' test ! -e ran
}

check_environment() {
    call env EXISTING='it is' dotenvy_left=5 A=9 "$script" -f a.env cat /proc/self/environ
    check 'the environment stays, also names of the script' has_entries 'EXISTING=it is' dotenvy_left=5 A=9 B=92
    call env -i PATH="$PATH" "$script" -f a.env cat /proc/self/environ
    check 'no variable of the script reaches the command' is_clean
    call env A=9 X.Y=1 'BASH_FUNC_f%%=() { :; }' EXISTING=1 dotenvy_left=5 "$script" --ignore-environment -f a.env \
        /bin/cat /proc/self/environ
    check 'an environment of the file alone' is_environment A=1 B=12
    declare_all "${names[@]}" PATH=/usr/bin "${kept[@]}" >all_names.env
    call env HOME=/other SHLVL=7 "$script" -f all_names.env --ignore-environment cat /proc/self/environ
    check 'also if it has every name' is_environment "${names[@]}" PATH=/usr/bin "${kept[@]}"
    check 'and those that env got are told' warned_of "${kept[@]%%=*}"
    printf '\n' >empty.env
    become --ignore-environment --optional absent.env -f empty.env cat /proc/self/environ
    check 'an environment of no file' is_environment
}

# Whether the environment has nothing but the file's names, PATH and what shells set by themselves.
is_clean() {
    [ "$status" = 0 ] && ! tr '\0' '\n' <"$room/output" |
        grep -vE '^((A=1|B=12)$|(PATH|PWD|OLDPWD|SHLVL|_|HOME|LOGNAME|A__z)=)'
}

# --- The process ---

# Waits until the command says where it is.
wait_for_place() {
    local waited=0
    until [ -s place ] || [ $((waited += 1)) -gt 200 ]; do
        sleep 0.05
    done
}

# The command has the script's process, gets its signals, and ends by its own handler.
check_process() {
    local file process
    printf '#!/bin/sh\ntrap "echo ended; exit 5" TERM\necho $$ >place\nwhile :; do sleep 0.05; done\n' >serve
    chmod 755 serve
    for file in a.env kept.env; do
        rm -f place
        "$script" -f "$file" ./serve >"$room/output" 2>"$room/errors" &
        process=$!
        wait_for_place
        kill -TERM "$process"
        status=0
        wait "$process" || status=$?
        check "the command has the script's process, with $file" test "$(cat place)" = "$process"
        check 'SIGTERM ends it by its own handler' grep -qx ended "$room/output"
        check 'with its status' test "$status" = 5
    done
    call sh -c 'trap "" HUP TERM; exec "$@"' - "$script" -f a.env grep -c '^SigIgn:.*[4567cdef]00[1357bdf]$' /proc/self/status
    check 'signals that are ignored stay so' gave 0 1
}

# Runs the script with these words as process 1 of a namespace, waits until the file place is there, and has it get
# SIGTERM from outside.
end_first() {
    local outer process=
    rm -f place
    "${as_first[@]}" "$script" "$@" >"$room/output" 2>"$room/errors" &
    outer=$!
    wait_for_place
    read -r process _ <"/proc/$outer/task/$outer/children" || : # no line feed is at its end
    [ -z "$process" ] || kill -TERM "$process"
    status=0
    wait "$outer" || status=$?
}

check_first() {
    end_first -f kept.env ./serve
    check 'the command is process 1 of its namespace' test "$(cat place)" = 1
    check 'as process 1 it ends by its own handler' grep -qx ended "$room/output"
    check 'with its status, too' test "$status" = 5
    beside 'echo begun >place; sleep 0.3; echo "export A=1"'
    end_first -f a.env touch started
    check 'as process 1 it also ends before the command begins' test "$status" = 143
    check 'and starts nothing' told_nothing
    rm "${script%/*}/dotenvy_export"
}

check_descriptors() {
    local form number all=
    for number in {3..9} 12; do
        all+="$number: $number"$'\n'
        echo "$number" >"descriptor.$number"
    done
    for form in --next --ignore-environment '-f kept.env'; do
        # shellcheck disable=SC2086 # one has two words
        become $form -f a.env "$room/descriptors" 3<descriptor.3 4<descriptor.4 5<descriptor.5 6<descriptor.6 \
            7<descriptor.7 8<descriptor.8 9<descriptor.9 12<descriptor.12
        check "descriptors 3 to 9 and 12 are open, with $form" test "$all" = "$(cat "$room/output")"$'\n'
        # shellcheck disable=SC2086 # one has two words
        become $form -f a.env "$room/descriptors" 5<descriptor.5
        check "no other one is, with $form" test "$(cat "$room/output")" = '5: 5'
    done
}

# A program that reads from each descriptor above 2 that is open, and prints what it has read.
build_descriptors() {
    cat >"$room/descriptors.c" <<'CODE'
#include <stdio.h>
#include <unistd.h>
int main(void) {
    for (int number = 3; number < 1000; number++) {
        char text[16];
        ssize_t length = read(number, text, sizeof text);
        if (length > 0)
            printf("%d: %.*s", number, (int)length, text);
    }
}
CODE
    cc -Wall -Wextra -o "$room/descriptors" "$room/descriptors.c"
}

# --- Secrets ---

# Whether a trace of the system calls has none of the values.
hides() {
    ! grep -qE 'hidden|concealed' "$1"
}

check_secrets() {
    local option
    printf 'A=hidden\nB="concealed\nhidden"\n' >secret.env
    for option in -x -v -xv; do
        call "$room/$shell/sh" "$option" "$script" -f secret.env true
        check "sh $option shows no value" hides "$room/errors"
    done
    call env SHELLOPTS=xtrace "$script" -f secret.env true
    check 'nor does a trace that the environment asks for' hides "$room/errors"
    "$has_strace" || return 0
    for option in --strict --next --ignore-environment; do
        strace -f -s 100000 -e trace=execve -o "$room/trace" "$script" -f secret.env "$option" /bin/true
        check "no value is in an argument list, with $option" hides "$room/trace"
        check 'strace saw the command' grep -q 'execve("/bin/true"' "$room/trace"
    done
    printf 'UID=1000\n' >>secret.env
    strace -f -s 100000 -e trace=execve -o "$room/trace" "$script" -f secret.env /bin/true 2>"$room/errors"
    check 'of names that shells keep, the value is in one' grep -q 'execve("/usr/bin/env", .*"UID=1000"' "$room/trace"
    check 'and no other value is' hides "$room/trace"
    strace -f -e trace=open,openat,creat,memfd_create -o "$room/trace" "$script" -f secret.env true
    if [ "$shell" = ksh93 ]; then
        left_out 'that no file is written' 'as ksh93 keeps what a command prints in a file without a name'
    else
        check 'no file is written' writes_nothing
    fi
}

# Devices are no files.
writes_nothing() {
    ! grep -vF '"/dev/' "$room/trace" | grep -qE 'O_WRONLY|O_RDWR|O_CREAT|creat\(|memfd_create'
}

# --- All of it ---

check_shell() {
    check_options
    check_input
    check_next
    check_words
    check_faults
    check_program
    check_command
    check_values
    check_names
    check_environment
    check_process
    if [ ${#as_first[@]} -gt 0 ]; then
        check_first
    fi
    if [ -x "$room/descriptors" ]; then
        check_descriptors
    fi
    check_secrets
}

call true
PATH=$folder:$PATH
unset A B C
as_first=(unshare --pid --fork --mount-proc)
if ! "${as_first[@]}" true 2>"$room/errors"; then
    as_first=(unshare --user --map-root-user --pid --fork --mount-proc)
    if ! "${as_first[@]}" true 2>"$room/errors"; then
        as_first=()
        left_out 'process 1' "as this system allows no namespace: $(head -n 1 "$room/errors")"
    fi
fi
has_strace=true
if ! strace -o /dev/null true 2>"$room/errors"; then
    has_strace=false
    left_out 'argument lists and written files' "as strace doesn't run: $(head -n 1 "$room/errors")"
fi
if ! build_descriptors 2>"$room/errors"; then
    left_out 'descriptors' "as cc doesn't build: $(head -n 1 "$room/errors")"
fi
top=$PWD
for name in dash bash busybox zsh ksh93 mksh; do
    if ! command -v "$name" >"$room/output"; then
        left_out "the script under $name" 'which is not installed'
        continue
    fi
    cd "$top"
    check "the script begins as a script of sh" install_for "$name"
    rm -rf "$room/work"
    make_files
    check_shell
done

tell_sums
