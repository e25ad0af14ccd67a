#!/usr/bin/env bash
# Tests the Rust crate. The last line is `N passed, M failed`. It needs bindings/build.sh to have been run, and takes
# nothing from a registry of crates.
#
# The crate `dotenvy` 0.15.7 is taken from the folder that DOTENVY_CRATE names, which has its `src` and `tests`; else
# from the package of the distribution, installed or fetched. With it, its own tests are run, too, and what the programs
# of programs.py print is compared with what they print with that crate. Without it, with what is recorded.
set -uo pipefail
cd "$(dirname "$0")" || exit
if ! cargo --version >/dev/null 2>&1 || ! cc --version >/dev/null 2>&1; then
    echo "left out: the tests of the Rust crate, which need cargo and a C compiler that links" >&2
    echo "0 passed, 0 failed"
    exit 0
fi
# shellcheck source=tests/lib.sh
. ../../tests/lib.sh
export CARGO_TARGET_DIR=$room/target
output=$(cargo test --offline --quiet --no-fail-fast --all-features 2>&1) || status=$?
echo "$output" >&2
while read -r ok not_ok; do
    passed=$((passed + ok))
    failed=$((failed + not_ok))
done < <(sed -n 's/^test result: [a-zA-Z]*\. \([0-9]*\) passed; \([0-9]*\) failed;.*/\1 \2/p' <<<"$output")
if { [ "$status" -ne 0 ] || [ "$passed" -eq 0 ]; } && [ "$failed" -eq 0 ]; then
    failed=1
fi

# Counts a command of cargo as one test. Where it fails, what it says is shown.
check_cargo() {
    check "cargo $1" cargo "$@" >"$room/said" 2>&1
    cat "$room/said"
}

RUSTDOCFLAGS='-D warnings' check_cargo doc --offline --quiet --no-deps --all-features
if cargo clippy --version >/dev/null 2>&1; then
    # What Rust 1.56 doesn't have, unsafe code without a reason, and what lacks documentation.
    check_cargo clippy --offline --quiet --all-features -- -A clippy::all -D missing_docs \
        -D clippy::incompatible_msrv -D clippy::undocumented_unsafe_blocks
else
    echo "left out: the lints of the Rust crate, which need cargo clippy" >&2
fi

# Prints the folder in which the crate should be.
crate_folder() {
    local packaged=usr/share/cargo/registry/dotenvy-0.15.7
    if [ -n "${DOTENVY_CRATE-}" ]; then
        echo "$DOTENVY_CRATE"
    elif [ -d "/$packaged" ]; then
        echo "/$packaged"
    else
        echo "$(../fetch_source.py librust-dotenvy-dev "$room/package")/$packaged"
    fi
}

if python3 --version >/dev/null 2>&1; then
    count ./programs.py
    crate=$(crate_folder)
    if [ -d "$crate/tests" ]; then
        count ./programs.py "$crate"
        count ./crate_tests.py "$crate"
    else
        echo "left out: the tests of the crate dotenvy 0.15.7, which isn't there" >&2
    fi
    count ./mutants.py
else
    echo "left out: deliberate bugs, and programs that were written for the crate dotenvy 0.15, which need python3" >&2
fi
tell_sums
