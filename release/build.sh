#!/usr/bin/env bash
# Proves and builds the programs dotenvy_run, dotenvy_check, dotenvy_edit and dotenvy_export and the library for C, crate by
# crate, with one line for each. While a proof takes long, it says every 20 seconds how far it is. A crate that is proved
# already takes a moment. What the prover prints goes to a file.
#
# usage: release/build.sh LOG
set -euo pipefail
cd "$(dirname "$0")/.."
log=$1
targets=(dotenvy_run dotenvy_check dotenvy_edit dotenvy_export dotenvy_c)

# Ends the script with one line on standard error.
fail() {
    printf '%s\n' "$1" >&2
    exit 1
}

# Ends what still runs.
clean_up() {
    local process
    trap '' HUP INT QUIT PIPE TERM
    for process in $(jobs -pr); do
        kill "$process" 2>/dev/null || :
    done
    wait
}

# Prints these crates and those of crates.txt that they need, each once, after those that it needs itself.
crates_for() {
    awk -v crates="$*" '
        function visit(name,  below, count, i) {
            if (!(name in needs) || visited[name]++) return
            count = split(needs[name], below, " ")
            for (i = 1; i <= count; i++) visit(below[i])
            print name
        }
        { sub(/#.*/, ""); gsub(/,/, " "); split($0, half, ":") }
        split(half[1], words, " ") { needs[words[1]] = half[2] }
        END {
            count = split(crates, names, " ")
            for (i = 1; i <= count; i++) visit(names[i])
        }
    ' crates.txt
}

# Says every 20 seconds how many functions of a crate are checked, as rt says it in the log from this line on.
say_how_far() {
    local first=$1 seconds=0 sleeper='' far
    trap '[ -z "$sleeper" ] || kill "$sleeper" 2>/dev/null; exit' TERM
    while :; do
        sleep 20 &
        sleeper=$!
        wait "$sleeper"
        seconds=$((seconds + 20))
        far=$(tail -n "+$first" "$log" | sed -n 's/^so far: \([0-9]* of [0-9]* functions\) checked.*/\1/p' | tail -n 1)
        echo "  ${far:+$far checked after }$seconds seconds"
    done
}

# Runs rt in the directory of a crate. What rt prints goes to the log.
run_rt() {
    local crate=$1 teller status=0
    shift
    echo "== crates/$crate: rt $*" >>"$log"
    say_how_far "$(wc -l <"$log")" &
    teller=$!
    (cd "crates/$crate" && exec rt "$@") </dev/null >>"$log" 2>&1 &
    # A signal ends `wait` at once. With rt in the foreground, the shell would notice the signal only after rt.
    wait "$!" || status=$?
    kill "$teller" 2>/dev/null || :
    return "$status"
}

# Proves a crate. A program is also built and run once: with nothing to list, or an empty file, it prints nothing. The
# editor, which refuses an empty file, prints its version.
prove() {
    case $1 in
        dotenvy_run) run_rt "$1" run -- --list ;;
        dotenvy_check) run_rt "$1" run -- /dev/null ;;
        dotenvy_edit) run_rt "$1" run -- --version ;;
        dotenvy_export) run_rt "$1" run -- docker /dev/null ;;
        *) run_rt "$1" lib ;;
    esac
}

build_library() {
    local said
    echo "the library for C"
    said=$(bindings/build.sh 2>&1 >>"$log") || fail "bindings/build.sh failed: ${said##*$'\n'}"
}

trap clean_up EXIT
trap 'exit 1' HUP INT QUIT PIPE TERM

mapfile -t crates < <(crates_for "${targets[@]}")
for name in "${targets[@]}"; do
    [[ " ${crates[*]} " == *" $name "* ]] || fail "crates.txt has no line for $name"
done
mkdir -p "$(dirname "$log")"
(: >"$log") 2>/dev/null || fail "cannot write $log"
number=0
for crate in "${crates[@]}"; do
    number=$((number + 1))
    echo "$crate, $number of ${#crates[@]}"
    status=0
    prove "$crate" || status=$?
    [ "$status" -eq 0 ] ||
        fail "rt failed at $crate, $number of ${#crates[@]}, with status $status; see $log"
done
build_library
