#!/usr/bin/env bash
# Makes a release in a clean clone: proves and builds the programs and the library, packs them into dist/, and tries what
# was packed. docs/RELEASING.md says how a version is made. The last line is `N passed, M failed`.
#
# usage: ./release.sh
set -euo pipefail
cd "$(dirname "$0")"

# Ends the script with one line on standard error.
fail() {
    printf 'release.sh: %s\n' "$1" >&2
    exit 1
}

case ${1-} in
    -h | --help)
        sed -n '2,/^#$/s/^# \{0,1\}//p; s/^# usage/usage/p' "$0"
        exit
        ;;
esac
[ "$#" -eq 0 ] || fail "too many arguments; ./release.sh --help says how to call it"
for tool in rt git cargo objcopy objdump python3 sha256sum tar gzip xz; do
    command -v "$tool" >/dev/null || fail "there is no command $tool"
done
python3 -c 'import tomllib' 2>/dev/null || fail "python3 has to be 3.11 or later"
[ -z "$(git status --porcelain)" ] || fail "the clone has changes: a release is made from a commit"

out=$PWD/crates/dotenvy/out/release
mkdir -p "$out"
trap 'jobs -p | xargs -r kill || :' EXIT
release/prove_library.sh "$out" >"$out/verdict.log" 2>&1 &
release/build.sh "$out/build.log"
echo "the library for Rattle, from nothing"
wait "$!" || fail "the library isn't proved; see $out/verdict.log"
rm -rf dist
release/pack.sh dist
tests/release.sh dist
