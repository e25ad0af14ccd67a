#!/usr/bin/env bash
# Installs the programs with their manual pages and completions, and the library for C, below PREFIX, an absolute path,
# or below /usr/local without it: in bin, share, include and lib. With the variable DESTDIR set to an absolute path, the
# files go below that: to $DESTDIR/usr/local/bin/dotenvy_run, and so on. In an unpacked release archive it copies what
# is there. In a clone of the repository it proves and builds it first, which takes minutes and needs the command rt.
#
# usage: ./install.sh [PREFIX]
set -euo pipefail
cd "$(dirname "$0")"
# What is installed, except a link. The programs come last, so that none is there without its manual page.
parts=(
    share/doc/dotenvy/{BUILT,LICENSE,NOTICES} include/dotenvy.h lib/libdotenvy.{a,so.1} lib/pkgconfig/dotenvy.pc
    share/bash-completion/completions/dotenvy_{run,check,edit,export,exec}
    share/fish/vendor_completions.d/dotenvy_{run,check,edit,export,exec}.fish
    share/zsh/site-functions/_dotenvy_{run,check,edit,export,exec}
    share/man/man1/dotenvy_{run,check,edit,export,exec}.1
    bin/dotenvy_{run,check,edit,export,exec}
)

# Ends the script with a line on standard error, after what a command said itself.
fail() {
    printf 'install.sh: %s\n' "$1" >&2
    exit 1
}

# Ends what still runs, and removes what was not put in its place.
clean_up() {
    trap '' HUP INT QUIT PIPE TERM
    # shellcheck disable=SC2046 # each is a word
    kill $(jobs -pr) 2>/dev/null || :
    wait
    rm -rf "$room" "${places[@]/%/.$$.new}"
}

[ "${1-}" != -- ] || shift
case ${1-/usr/local} in
    -h | --help) exec sed -n '2,/^#$/s/^# \{0,1\}//p; s/^# usage/usage/p' "${0##*/}" ;;
    /*) [ "$#" -le 1 ] || fail "too many arguments; ./install.sh --help says how to call it" ;;
    *) fail "'$1' is neither an absolute path nor an option; ./install.sh --help says how to call it" ;;
esac
[[ ${DESTDIR:-/} == /* ]] || fail "DESTDIR must be an absolute path, one that begins with /: '$DESTDIR'"
target=$(tr -s / <<<"${DESTDIR-}${1-/usr/local}/")
places=("${parts[@]/#/"$target"}")

# What can be found wrong at once is found before the proof.
for place in "${places[@]}"; do
    folder=${place%/*}
    until [ -e "${folder:-/}" ] || [ -L "$folder" ]; do
        folder=${folder%/*}
    done
    [ -w "$folder/" ] || fail "cannot install $place: ${folder:-/} is no directory that you may write in"
    [ ! -d "$place" ] || [ -L "$place" ] || fail "cannot install $place: it is a directory"
done
tree=$PWD
room=$(mktemp -d)
trap clean_up EXIT
trap 'fail "stopped by a signal; nothing was installed"' HUP INT QUIT PIPE TERM
if [ -f crates.txt ]; then # a clone of the repository
    command -v rt >/dev/null || fail "there is no command rt on PATH; the Rattle toolchain has it"
    log=$PWD/crates/dotenvy_run/out/install.log
    echo "Proving and building the programs and the library for C: minutes for what is not proved yet, a moment for"
    echo "what is. The prover's output is in $log"
    release/build.sh "$log" 2>"$room/errors" &
    # A signal ends `wait` at once. In the foreground, the shell would notice the signal only after the proof.
    wait "$!" || fail "$(tail -n 1 "$room/errors"); nothing was installed"
    release/layout.sh "$room" || fail "the build is not complete; nothing was installed"
    tree=$room
fi
# Each file is copied beside its place, and renamed when all are copied, so an old one stays or is replaced whole.
for part in "${parts[@]}"; do
    mode=644
    [[ $part != bin/* ]] || mode=755
    install -D -m "$mode" -- "$tree/$part" "$target$part.$$.new" || fail "cannot copy $part; nothing was installed"
done
trap '' HUP INT QUIT PIPE TERM
for place in "${places[@]}"; do
    mv -fT -- "$place.$$.new" "$place" || fail "cannot replace $place; other files are new ones"
done
ln -sfT libdotenvy.so.1 "${target}lib/libdotenvy.so" || fail "cannot replace ${target}lib/libdotenvy.so"
printf 'Installed %s\n' "${target}lib/libdotenvy.so" "${places[@]}"
