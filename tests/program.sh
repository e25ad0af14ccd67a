#!/usr/bin/env bash
# Refuses each request for memory of the built programs dotenvy_run, dotenvy_export and dotenvy_edit in turn, and sees
# what they answer: the status and the text of that failure, nothing on standard output, and the old file. Where none is
# refused, they have to do all that was asked for, and the requests are counted; so no number of them is written down.
# `cc` builds what counts and refuses: a library that is loaded before the C library and calls it.
#
# usage: tests/program.sh [FOLDER]
#
# FOLDER has the programs. Without it they are those that `rt run` in crates/dotenvy_run and so on has built. It takes
# some twenty seconds. The last line is `N passed, M failed`.
set -euo pipefail
cd "$(dirname "$0")/.."
export LC_ALL=C
room=$(mktemp -d)
trap 'rm -rf "$room"' EXIT
declare -A programs
passed=0
failed=0

# Counts a check: what it is, and the command that ends with status 0 if it holds. Only a failure is printed.
check() {
    if "${@:2}"; then
        passed=$((passed + 1))
    else
        failed=$((failed + 1))
        echo "FAILED: $1: status $status, '$(head -c 300 "$room/output")', '$(head -c 300 "$room/errors")'"
    fi
}

# Builds a library that refuses the request whose number is in the environment, if there is one, and writes at the end
# how many requests there were. The program and the commands that it starts see nothing of it.
build_refuser() {
    cc -shared -fPIC -O1 -x c -o "$room/refuser.so" - <<'END'
#include <errno.h>
#include <fcntl.h>
#include <stdio.h>
#include <stdlib.h>
#include <unistd.h>
void *__libc_malloc(size_t), *__libc_calloc(size_t, size_t), *__libc_realloc(void *, size_t);
void *__libc_memalign(size_t, size_t);
static long refused, requests;
static const char *note;

__attribute__((constructor)) static void begin(void) {
    refused = atol(getenv("REFUSED"));
    note = getenv("NOTE");
    unsetenv("LD_PRELOAD");
    unsetenv("REFUSED");
    unsetenv("NOTE");
    requests = 0;
}

__attribute__((destructor)) static void end(void) {
    char text[32];
    int size = snprintf(text, sizeof text, "%ld\n", requests), file = open(note, O_WRONLY | O_CREAT | O_TRUNC, 0600);
    if (write(file, text, size) != size) abort();
}

static int is_refused(void) {
    if (++requests != refused) return 0;
    errno = ENOMEM;
    return 1;
}

void *malloc(size_t size) { return is_refused() ? NULL : __libc_malloc(size); }
void *calloc(size_t count, size_t size) { return is_refused() ? NULL : __libc_calloc(count, size); }
void *realloc(void *old, size_t size) { return is_refused() ? NULL : __libc_realloc(old, size); }
void *aligned_alloc(size_t place, size_t size) { return is_refused() ? NULL : __libc_memalign(place, size); }
int posix_memalign(void **new, size_t place, size_t size) {
    return !is_refused() && (*new = __libc_memalign(place, size)) ? 0 : ENOMEM;
}
END
}

# Runs a program beside the files, with the request of this number refused, or none for 0: `run NUMBER PROGRAM WORD..`.
run() {
    status=0
    (
        cd "$room/files"
        exec env -i PATH=/usr/bin:/bin LD_PRELOAD="$room/refuser.so" REFUSED="$1" NOTE="$room/requests" "${@:2}" <case
    ) >"$room/output" 2>"$room/errors" || status=$?
    answer="$status:$(<"$room/output") / $(<"$room/errors")"
}

# Whether the answer is like one of `refusals`, and none that comes before one which was seen.
is_refusal() {
    local at
    for ((at = step; at < ${#refusals[@]}; at++)); do
        # shellcheck disable=SC2053 # it is a pattern
        if [[ $answer == ${refusals[at]} ]]; then
            step=$at
            seen[at]=1
            return
        fi
    done
    return 1
}

# Whether the file is as it was, and no other is there.
file_stays() {
    local files=("$room/files"/*)
    [ "$(<"$room/files/case")" = "$old_case" ] && [ "${#files[@]}" -eq "$count" ]
}

# Refuses each request of a program in turn: `refuse LABEL WHOLE PROGRAM WORD..`. Where none is refused, the answer is
# WHOLE. The others are like `refusals`, in their order and each at least once.
refuse() {
    local label=$1 whole=$2 step=0 seen=() number
    shift 2
    echo 0 >"$room/requests"
    run 0 "$@"
    check "$label, no request refused" test "$answer" = "$whole"
    check "$label, no request refused: the file" test "$(<"$room/files/case")" = "$new_case"
    requests=$(<"$room/requests")
    echo "$old_case" >"$room/files/case"
    for ((number = 1; number <= requests; number++)); do
        run "$number" "$@"
        check "$label, request $number of $requests" is_refusal
        check "$label, request $number of $requests: the file" file_stays
    done
    check "$label: each of its texts is said" test "${#seen[@]}" -eq "${#refusals[@]}"
    echo "$label: $requests requests were refused, one in each run"
}

# --- The test itself: a program that answers wrongly has to be seen ---

build_stand_in() {
    cc -O1 -x c -o "$room/stand_in" - <<'END'
#include <fcntl.h>
#include <signal.h>
#include <stdlib.h>
#include <string.h>
#include <unistd.h>
static void *volatile kept;

static int say(int to, const char *text) { return write(to, text, strlen(text)) < 0; }

int main(int count, char **words) {
    const char *fault = words[count - 1];
    for (int request = 1; request <= 6; request++) {
        int wrong = request == 5, early = request <= 3;
        if ((kept = malloc(16)) || (wrong && !strcmp(fault, "goes on"))) continue;
        if (wrong && !strcmp(fault, "crashes")) raise(SIGABRT);
        if (wrong && !strcmp(fault, "writes")) say(1, "A=");
        if (wrong && !strcmp(fault, "leaves a file")) close(creat("left", 0600));
        if (wrong && !strcmp(fault, "says another text")) say(2, "error: no memory\n");
        else if (wrong && !strcmp(fault, "says nothing")) return 1;
        else if (early || (wrong && !strcmp(fault, "says an earlier text"))) say(2, "error: out of memory\n");
        else say(2, "error: failed to load environment: out of memory\n");
        return wrong && !strcmp(fault, "ends with another status") ? 2 : wrong && !strcmp(fault, "ends well") ? 0 : 1;
    }
    if (strcmp(fault, "asks for nothing more")) say(1, "A=\"21\"\n");
    return say(1, "B=\"2\"\n");
}
END
}

# Whether the stand-in with this fault fails a check, or passes all where it has none. A fault is one answer, and what it
# leaves is there at the next request, too.
is_seen() {
    local passed=0 failed=0
    give ''
    refusals=("$no_words" "$no_load")
    refuse list "$listed" "$room/stand_in" "$1" >/dev/null 2>&1
    if [ "$1" = none ]; then
        [ "$passed" -gt 0 ] && [ "$failed" -eq 0 ]
    else
        [ "$failed" -gt 0 ] && [ "$failed" -le 2 ]
    fi
}

# --- What is asked for ---

# Makes a folder with a file of this text, which stays as it is, unless the caller says what it becomes.
give() {
    rm -rf "$room/files"
    mkdir "$room/files"
    echo "$1" >"$room/files/case"
    old_case=$1 new_case=$1 count=1
}

# Adds this many files, each with three names that no other has, and sets `words` to what lists them all.
give_files() {
    local file
    give ''
    count=$(($1 + 1)) words=()
    for ((file = 1; file <= $1; file++)); do
        printf 'A%s=1\nB%s=2\nC%s=3\n' "$file" "$file" "$file" >"$room/files/$file.env"
        words+=(-f "$file.env")
    done
    words+=(sh -c 'env | grep -c "^[ABC][0-9]"')
}

# What a file takes doesn't grow with the files and names before it.
takes_as_much() {
    local few
    give_files "$1"
    run 0 "${programs[run]}" "${words[@]}"
    few=$(<"$room/requests")
    give_files "$((2 * $1))"
    run 0 "${programs[run]}" "${words[@]}"
    [ "$answer" = "0:$((6 * $1)) / " ] && [ "$(<"$room/requests")" -le "$((2 * few))" ]
}

check_run() {
    local words
    give $'B=2\n# of both\nA="${B}1"'
    refusals=("$no_words" "$no_load")
    refuse list "$listed" "${programs[run]}" --list
    # shellcheck disable=SC2046 # these are many words
    refuse 'list with many words' "$listed" "${programs[run]}" $(yes -- --next | head -n 70) --list
    # The C library asks for memory, too, while a command is started.
    refusals+=('1: / fatal: @(out of memory|Cannot allocate memory \(os error 12\))')
    # shellcheck disable=SC2016 # the command that is started expands them
    refuse start '0:21 2 / ' "${programs[run]}" -f case sh -c 'echo "$A $B"'
    give_files 20
    refuse 'many files' '0:60 / ' "${programs[run]}" "${words[@]}"
    check 'twice as many files take no more than twice the requests' takes_as_much 100
}

check_export() {
    local whole=$'0:export A=\'21\'\nexport B=\'2\''
    whole+=' / dotenvy_export: warning: UID: shells keep this name, so it is left out'
    give $'B=2\nUID=1000\nA="${B}1"'
    refusals=('2: / dotenvy_export: error: out of memory' '1: / dotenvy_export: error: ?(<stdin>: )out of memory')
    refuse export "$whole" "${programs[export]}" sh --skip-reserved -
}

check_edit() {
    local old=$'0:--- case\n+++ case\n@@ -1,4 +1,%s @@\n B=1\n # of both\n-A=1 # c\n-A=3'
    local error='2: / dotenvy_edit: error:'
    give $'B=1\n# of both\nA=1 # c\nA=3'
    # What is asked for once the file is open may be of the file or of none.
    refusals=("$error out of memory" "$error case: out of memory" "$error ?(case: )out of memory")
    refuse 'set --dry-run' "${old/\%s/3}"$'\n+A=2 # c / ' "${programs[edit]}" set -q --dry-run case A 2
    refuse 'unset --dry-run' "${old/\%s/2} / " "${programs[edit]}" unset -q --dry-run case A
    refuse 'rename --dry-run' "${old/\%s/4}"$'\n+C=1 # c\n+C=3 / ' "${programs[edit]}" rename -q --dry-run case A C
    # It has the value once its line is read, and may end well if a line after it can't be.
    refusals=("$error out of memory" "$error case: out of memory" "@($error ?(case: )out of memory|0:1 / )")
    refuse get '0:1 / ' "${programs[edit]}" get case A
    refusals[2]="$error ?(case: )out of memory"
    refusals+=("$error case: no new file can be made beside it: out of memory")
    new_case=$'B=1\n# of both\nA=2 # c'
    refuse set '0: / ' "${programs[edit]}" set -q case A 2
}

if ! command -v cc >"$room/output"; then
    echo "left out: all of it, as there is no command cc"
    echo "0 passed, 0 failed"
    exit 0
fi
for name in run export edit; do
    programs[$name]=$(realpath -m "${1-crates/dotenvy_$name/out}")/dotenvy_$name
    if [ ! -x "${programs[$name]}" ]; then
        echo "FAILED: there is no program ${programs[$name]}; rt run in crates/dotenvy_$name builds it"
        echo "0 passed, 1 failed"
        exit 1
    fi
done
listed=$'0:A="21"\nB="2" / '
no_words='1: / error: out of memory'
no_load='1: / error: failed to load environment: out of memory'
build_refuser
build_stand_in
check 'a program that answers well passes' is_seen none
for fault in 'goes on' crashes writes 'leaves a file' 'says another text' 'says nothing' 'says an earlier text' \
    'ends well' 'ends with another status' 'asks for nothing more'; do
    check "a program that $fault is seen" is_seen "$fault"
done
check_run
check_export
check_edit
echo "$passed passed, $failed failed"
[ "$failed" -eq 0 ]
