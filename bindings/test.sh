#!/usr/bin/env bash
# Builds the library for C and runs the tests of all bindings. It says which it left out where what they need isn't
# there. The last line is `N passed, M failed`.
#
# usage: bindings/test.sh [--built]
#
# --built is as for bindings/build.sh.
set -uo pipefail
cd "$(dirname "$0")" || exit
# shellcheck source=tests/lib.sh
. ../tests/lib.sh

wrong_bodies() (
    cd python && python3 -B -m tests.wrong_bodies
)

if ! ./build.sh "$@"; then
    echo "FAILED: bindings/build.sh" >&2
    echo "0 passed, 1 failed"
    exit 1
fi
# The packages that the tests import are those of the system's Python, which may not be the first on PATH.
if /usr/bin/python3 -c 'import click, pytest, sh' 2>/dev/null; then
    mkdir "$room/bin"
    ln -s /usr/bin/python3 "$room/bin/python3"
    PATH=$room/bin:$PATH
fi
count c/test.sh
count examples/test.sh
count python/test.sh
count rust/test.sh
if python3 --version >/dev/null 2>&1; then
    count ./readme_examples.py
    count python-dotenv/peer_tests.py
    count wrong_bodies
else
    echo "left out: the examples of the README, python-dotenv's own tests and the wrong bodies, which need python3" >&2
fi
tell_sums
