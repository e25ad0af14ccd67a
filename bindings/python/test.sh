#!/usr/bin/env bash
# Tests the Python package: its own tests, and recorded files through the shared object. The last line is
# `N passed, M failed`. It needs bindings/build.sh to have been run.
#
# usage: bindings/python/test.sh [--full]
set -uo pipefail
cd "$(dirname "$0")" || exit
if ! python3 --version >/dev/null 2>&1; then
    echo "left out: the tests of the Python package, since python3 isn't there" >&2
    echo "0 passed, 0 failed"
    exit 0
fi
exec python3 -B -m tests.run "$@"
