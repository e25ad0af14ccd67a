#!/usr/bin/env bash
# Runs a command as an ordinary user would on a machine that has never seen the toolchain: in a view of this system without
# /opt, /usr/local, /root and the toolchain's folder, with no variable but HOME, LANG and PATH. Only Rust's own toolchain,
# where there is one, is at /usr/local/rust. It ends with status 99 where the system allows no such view.
#
# usage: tests/veil.sh HOME COMMAND [ARGUMENT]..
set -euo pipefail
home=$1
shift
if [ "$(id -u)" -eq 0 ]; then
    view=(unshare --mount --propagation private)
    user=(setpriv --reuid=65534 --regid=65534 --clear-groups --no-new-privs)
else
    view=(unshare --map-root-user --mount --propagation private)
    user=(env)
fi
"${view[@]}" true 2>/dev/null || exit 99
kit=$(dirname "$(readlink -f "$(rt doc)")")
rust=$(rustc --print sysroot 2>/dev/null || :)
held=$(mktemp -d)
trap 'rmdir "$held"' EXIT

# shellcheck disable=SC2016 # the inner shell replaces these
"${view[@]}" sh -c '
    home=$1 kit=$2 rust=$3 held=$4
    shift 4
    [ -z "$rust" ] || mount --bind "$rust" "$held" || exit 99
    for folder in /opt /usr/local /root "$kit"; do
        [ ! -d "$folder" ] || mount -t tmpfs -o mode=755 none "$folder" || exit 99
    done
    if [ -n "$rust" ]; then
        mkdir /usr/local/rust && mount --move "$held" /usr/local/rust || exit 99
    fi
    cd "$home" && exec "$@"
' - "$home" "$kit" "$rust" "$held" "${user[@]}" \
    env -i HOME="$home" LANG=C.UTF-8 PATH=/usr/bin:/bin:/usr/local/rust/bin "$@"
