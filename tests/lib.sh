# What the tests in shell share. A test that reads this gets an empty folder, $room, which goes when the test ends, and
# counts its checks. Its last command is `tell_sums`.
#
# shellcheck shell=bash
room=$(mktemp -d)
trap 'jobs -pr | xargs -r kill 2>/dev/null || :; rm -rf "$room"' EXIT
passed=0
failed=0
status=0

# Counts a check: what it is, and the command that ends with status 0 if it holds. Else `show` shows what was found.
holds() {
    if "${@:2}"; then
        passed=$((passed + 1))
        echo "passed: $1"
    else
        failed=$((failed + 1))
        echo "FAILED: $1"
        show
    fi
}

# The same. Tests of a program make it a check of the last call, and others give it more to say.
check() {
    holds "$@"
}

show() {
    :
}

# Prints the sums, and ends with status 1 if a check failed.
tell_sums() {
    echo "$passed passed, $failed failed"
    [ "$failed" -eq 0 ]
}

left_out() {
    echo "left out: $1, $2"
}

# Adds the sums in the last line of what a test printed, by its status and the file with it. Without that line, or with
# a status that the line doesn't explain, it is one failure. Ends with status 1 if there is any.
add_sums() {
    local failures=1
    if [[ $(tail -n 1 "$2") =~ ^([0-9]+)' passed, '([0-9]+)' failed'$ ]]; then
        passed=$((passed + BASH_REMATCH[1]))
        failures=${BASH_REMATCH[2]}
    fi
    if [ "$1" -ne 0 ] && [ "$failures" -eq 0 ]; then
        failures=1
    fi
    failed=$((failed + failures))
    [ "$failures" -eq 0 ]
}

# Runs a test, and adds its sums.
count() {
    local ended=0
    "$@" | tee "$room/counted" || ended=$?
    add_sums "$ended" "$room/counted" || echo "FAILED: $*, with status $ended"
}

# --- Tests of a built program ---

as_nobody=(setpriv --reuid=65534 --regid=65534 --clear-groups)

# Ends the test if a program isn't there: `need_program PATH CRATE`.
need_program() {
    if [ ! -x "$1" ]; then
        echo "FAILED: there is no program $1; rt run in crates/$2 builds it"
        echo "0 passed, 1 failed"
        exit 1
    fi
}

# Takes a built program as $program, and its $version, and makes $room/files: `take_program CRATE [PROGRAM [VERSION]]`.
take_program() {
    local built
    built=$(realpath -m "${2-crates/$1/out/$1}")
    need_program "$built" "$1"
    version=${3-$(release/version.sh)}
    program=$room/program
    install -m 755 "$built" "$program"
    mkdir "$room/files"
}

# Whether root runs the test, who may read every file, and can have nobody run it.
has_nobody() {
    [ "$(id -u)" -eq 0 ] && chmod 711 "$room" && "${as_nobody[@]}" test -x "$program"
}

# Runs this test as nobody, on copies of it, of the program and of files that it reads.
run_as_nobody() {
    local file own=tests/${0##*/}
    mkdir -m 777 "$room/more"
    for file in "$own" "$@"; do
        install -D -m 644 "$file" "$room/copy/$file"
    done
    TMPDIR=$room/more "${as_nobody[@]}" bash "$room/copy/$own" "$program" "$version"
}

# Runs a command, and keeps its status and what it prints.
keep() {
    status=0
    "$@" >"$room/output" 2>"$room/errors" || status=$?
}

# Calls the program with these words.
call() {
    keep "$program" "$@"
}

# Whether a file has exactly this text.
has() {
    printf '%s' "$2" | cmp -s - "$1"
}

# Whether the last call had this status, and wrote this to standard output and to standard error.
ended() {
    [ "$status" = "$1" ] && has "$room/output" "$2" && has "$room/errors" "$3"
}

# Whether the last call ended with this status, and printed these lines and nothing on standard error.
gave() {
    [ "$status" = "$1" ] && diff <([ $# -eq 1 ] || printf '%s\n' "${@:2}") "$room/output" &&
        diff /dev/null "$room/errors"
}

# Whether it ended with this status, and printed this one line, on standard error.
complained() {
    [ "$status" = "$1" ] && diff <(printf '%s\n' "$2") "$room/errors" && diff /dev/null "$room/output"
}

# Calls the program and checks what it gives: `gives WHAT STATUS OUTPUT ERRORS WORD..`.
gives() {
    call "${@:5}"
    holds "$1" ended "${@:2:3}"
}

# Calls the program with standard output elsewhere, such as `>&-`: what is written there can't be told.
call_without_output() {
    local output=$1
    shift
    status=0
    : >"$room/output"
    eval '"$program" "$@"' "$output" '2>"$room/errors"' || status=$?
}

# Shows the status and the beginning of what the last call printed.
show_call() {
    echo "    status $status"
    head -c 2000 "$room/output" "$room/errors"
}
