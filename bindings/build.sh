#!/usr/bin/env bash
# Proves and builds the library for C: bindings/out/libdotenvy.a, and bindings/out/libdotenvy.so.1 for callers that load
# it while they run, as the Python package does. It needs `rt`, the command of the toolchain, and `objcopy` of binutils.
#
# usage: bindings/build.sh [--built]
#
# With --built it takes crates/dotenvy_c/out/libdotenvy_c.a as it is, and proves nothing.
set -euo pipefail
cd "$(dirname "$0")"
kit=$(dirname "$(rt doc)")
command -v objcopy >/dev/null || {
    echo "bindings/build.sh: there is no command objcopy; the package binutils has it" >&2
    exit 1
}

[ "${1-}" = --built ] || (cd ../crates/dotenvy_c && rt lib) >&2
archive=../crates/dotenvy_c/out/libdotenvy_c.a
# With what asks the C library for memory, so that callers link one file.
whole=(--whole-archive "$archive" --no-whole-archive "$kit/c/liblibc_c.a")
mkdir -p out
rm -f out/*

# One object, in which the names of the header are the only ones that a caller's own can meet.
"$kit/toolchain/bin/ld.lld" -r -o out/all.o "${whole[@]}"
objcopy --wildcard --keep-global-symbol='dotenvy_*' out/all.o out/dotenvy.o
"$kit/toolchain/bin/llvm-ar" qcsDL out/libdotenvy.a out/dotenvy.o
rm out/all.o out/dotenvy.o

# The shared object exports the same names, with a version: a later library can have other calls under these names.
"$kit/toolchain/bin/ld.lld" -shared -soname libdotenvy.so.1 -z noexecstack -z relro -z now \
    --version-script=c/exports.map --no-undefined -o out/libdotenvy.so.1 "${whole[@]}" "$kit/toolchain/lib/libc.so.6"
cp out/libdotenvy.so.1 python/dotenvy/libdotenvy.so.1

echo "built bindings/out/libdotenvy.a and bindings/out/libdotenvy.so.1"
