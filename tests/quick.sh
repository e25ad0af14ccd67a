#!/usr/bin/env bash
# Tests in three minutes, without any proof: the documents, the words that are re-exported and the manual pages; then
# each program's stored run, by builds of `rt try` that are made side by side. Of the rows it plays a fixed sample with
# rows of every kind: in such a build all of them would take many minutes. The gate, `.ci/run`, proves and plays all.
# What fails is printed and named. The last line is `N passed, M failed`.
set -euo pipefail
cd "$(dirname "$0")/.."
builds=${RT_JOBS:-$(nproc)}

usage() {
    cat <<'END'
usage: tests/quick.sh

Tests the documents, the programs' stored runs and a sample of the rows, without
any proof. It builds as many programs side by side as there are processors, or as
RT_JOBS says. It takes under three minutes on four free processors. The last line
is `N passed, M failed`, and the status is 0 if nothing failed.
END
}

case $#:${1-} in
0:) ;;
1:--help)
    usage
    exit
    ;;
*)
    usage >&2
    exit 2
    ;;
esac

. tests/lib.sh

# Ends what still runs, each part with all that it started, and waits until rt has put away its files.
clean_up() {
    local part
    for part in $(jobs -pr); do
        kill -- "-$part" 2>/dev/null || :
    done
    wait
    rm -rf "$room"
}

trap clean_up EXIT
trap 'exit 129' HUP
trap 'exit 130' INT
trap 'exit 143' TERM

# The rows of a file that are played. A row that repeats a text a thousand times, or is very long itself, takes seconds,
# and is left to the gate. Of the others all are played, or every STEP-th of its kind in the files that take longest.
sample_of() {
    local step=1
    case $1 in
    more_cases.rows) step=50 ;;
    cuts.rows) step=15 ;;
    cases.rows | failing_readers.rows) step=5 ;;
    esac
    awk -F '|' -v step="$step" '
        /^#/ || /^$/ || /%\(([0-9]+\.\.)?[0-9][0-9][0-9][0-9]+\*/ || length > 10000 { next }
        seen[$1]++ % step == 0
    ' "$2/$1"
}

# The kinds of the rows of these files: each row's first field.
kinds_of() {
    grep -hv -e '^#' -e '^$' "$@" | cut -d '|' -f 1 | sort -u
}

# Makes files of the rows that are played, and the text that test_replay must write of them.
make_sample() {
    local data=$1 wanted=$2 name
    mkdir "$data"
    while IFS= read -r name; do
        sample_of "$name" crates/test_replay/data >"$data/$name"
        echo "$name: $(wc -l <"$data/$name") rows, 0 differ"
    done <crates/test_replay/args >"$wanted"
}

# Tells which part of the rows the sample is, and whether it has rows of every kind.
has_all_kinds() {
    local all played kinds
    all=$(cat crates/test_replay/data/*.rows | grep -cv -e '^#' -e '^$')
    played=$(cat "$1"/*.rows | wc -l)
    kinds=$(kinds_of "$1"/*.rows | wc -l)
    echo "rows: $played of $all, of $kinds kinds"
    diff -u --label all --label played <(kinds_of crates/test_replay/data/*.rows) <(kinds_of "$1"/*.rows)
}

# Builds the program of this folder without a proof, and runs it: `build_and_run DATA [WORD..]`. It runs in a folder
# with the files of DATA, without an environment.
build_and_run() {
    local data=$1 flags=() file
    shift
    while IFS= read -r file; do
        flags+=(--data "${file#"$data"/}=$file")
    done < <(find "$data" -type f)
    status=0
    TMPDIR=$own rt try --seconds 600 "${flags[@]}" -- "$@" >"$own/output" 2>"$own/errors" || status=$?
    if [[ $(tail -n 1 "$own/errors") != 'run=ended '* ]]; then
        echo "rt try did not run it to its end:"
        cat "$own/errors"
        return 1
    fi
}

# The words of a stored run are the lines of its file args.
read_words() {
    words=()
    if [ -f args ]; then
        mapfile -t words <args
    fi
}

# Whether the status and the output of a run are the stored ones: `is_as_stored OUTPUT`.
is_as_stored() {
    local wanted=0 differs=0
    if [ -f status ]; then
        wanted=$(cat status)
    fi
    diff -au --label stored --label written "$1" "$own/output" || differs=1
    if [ "$status" != "$wanted" ]; then
        differs=1
        echo "status $status, and not $wanted"
    fi
    if [ "$differs" -ne 0 ]; then
        echo "on standard error:"
        cat "$own/errors"
    fi
    return "$differs"
}

# A stored run by the program that rt try runs: `play DATA OUTPUT`.
play() {
    local input=/dev/null
    if [ -f stdin ]; then
        input=stdin
    fi
    read_words
    build_and_run "$1" "${words[@]}" <"$input" && is_as_stored "$2"
}

# The stored run of dotenvy_run calls the program again, in an environment, and with files that it may not read. So the
# program is asked for a copy of itself. Root may read every file, so root has it run as nobody.
play_dotenvy_run() {
    local folder=$PWD as_nobody=()
    build_and_run data cp program "$own/program" </dev/null || return 1
    cp -R data "$own/files"
    if [ "$(id -u)" -eq 0 ]; then
        as_nobody=(setpriv --reuid=65534 --regid=65534 --clear-groups)
        chmod 711 "$room" "$own"
        chmod 755 "$own/program"
        chown -R 65534:65534 "$own/files"
    fi
    read_words
    status=0
    (
        cd "$own/files"
        exec env -i PATH=/usr/local/bin:/usr/bin:/bin HOME="$own/files" LANG=C.UTF-8 "${as_nobody[@]}" \
            "$own/program" "${words[@]}" "$own/program"
    ) <stdin >"$own/output" 2>"$own/errors" || status=$?
    is_as_stored "$folder/stdout"
}

# Plays the stored run of a program, counts it, and prints all that is said when it has ended.
play_part() {
    local name=$1 begun=$SECONDS
    own=$room/$name
    cd "crates/$name"
    passed=0
    failed=0
    case $name in
    test_replay) check "$name" play "$own/data" "$own/stdout" ;;
    dotenvy_run) check "$name" play_dotenvy_run ;;
    *) check "$name" play data stdout ;;
    esac >"$own/said" 2>&1
    tell_sums >"$own/sums" || :
    sed "\$s/\$/: its stored run, $((SECONDS - begun)) s/" "$own/said"
}

count tests/run.py documents words manual_page

# The rows take longest, so they come first.
parts=(test_replay)
for main in crates/*/src/main.rt; do
    name=${main#crates/}
    name=${name%%/*}
    if [ "$name" != test_replay ]; then
        parts+=("$name")
    fi
done
mkdir "${parts[@]/#/$room/}"
make_sample "$room/test_replay/data" "$room/test_replay/stdout"
check 'the sample has rows of every kind' has_all_kinds "$room/test_replay/data"
echo "building ${#parts[@]} programs, $builds side by side: ${parts[*]}"
for name in "${parts[@]}"; do
    while [ "$(jobs -pr | wc -l)" -ge "$builds" ]; do
        wait -n || :
    done
    # In a process group of its own, so that it can be ended with all that it started.
    set -m
    play_part "$name" </dev/null &
    set +m
done
wait
for name in "${parts[@]}"; do
    # A part that was cut off has no sums.
    [ -f "$room/$name/sums" ] || echo "FAILED: $name: it did not end" | tee "$room/$name/sums"
    add_sums 0 "$room/$name/sums" || :
done
echo "$SECONDS seconds"
tell_sums
