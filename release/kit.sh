#!/usr/bin/env bash
# Makes a kit of Rattle that has the library dotenvy beside its own: FOLDER/bin/rt is its command. A crate of your
# repository then names `dotenvy` in its line of crates.txt. The new kit links to the kit that the command rt belongs to,
# which has to be of the version that the file BUILT names, and to this folder; both have to stay where they are.
#
# usage: ./kit.sh FOLDER
set -euo pipefail
here=$(cd "$(dirname "$0")" && pwd)

# Ends the script with one line on standard error.
fail() {
    printf 'kit.sh: %s\n' "$1" >&2
    exit 1
}

case ${1-} in
    -h | --help)
        sed -n '2,/^#$/s/^# \{0,1\}//p; s/^# usage/usage/p' "$0"
        exit
        ;;
    '' | -*) fail "which folder? ./kit.sh --help says how to call it" ;;
esac
[ "$#" -eq 1 ] || fail "too many arguments; ./kit.sh --help says how to call it"
new=$1
[ ! -e "$new" ] || fail "$new is there already"
command -v rt >/dev/null || fail "there is no command rt on PATH: the kit has it"
kit=$(dirname "$(rt doc)")
grep -qxF -- "$(rt version)" "$here/BUILT" ||
    fail "rt is of '$(rt version)', and the library of '$(tail -n 1 "$here/BUILT")': a library fits its own kit alone"

mkdir -p "$new/bin" "$new/rlibs" "$new/rattle"
for part in "$kit"/*; do
    case ${part##*/} in
        bin | rlibs | rattle) ;;
        *) ln -s "$part" "$new/" ;;
    esac
done
# A link would lead rt back to the kit that it came from, so its scripts are copied.
for part in "$kit"/bin/*; do
    if [ "$(head -c 2 "$part" | tr -d '\0')" = '#!' ] || [[ $part == *.py ]]; then
        cp "$part" "$new/bin/"
    else
        ln -s "$part" "$new/bin/"
    fi
done
ln -s "$kit"/rlibs/* "$here"/rlibs/* "$new/rlibs/"
ln -s "$kit"/rattle/* "$here"/rattle/* "$new/rattle/"
echo "made $new: $new/bin/rt is its command"
