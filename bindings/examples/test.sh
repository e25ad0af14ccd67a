#!/usr/bin/env bash
# Builds and runs each example whose language is there, and compares what it prints with wanted.txt. The last line is
# `N passed, M failed`. It needs bindings/build.sh to have been run.
set -uo pipefail
cd "$(dirname "$0")" || exit
out=$(cd ../out && pwd) || exit
# shellcheck source=tests/lib.sh
. ../../tests/lib.sh

# Whether a tool is there, or several are.
has() {
    local tool
    for tool in "$@"; do
        command -v "$tool" >/dev/null || return
    done
}

# Whether an example builds, and prints what it should.
prints_wanted() {
    "$1" >&2 && diff <("$2") wanted.txt >&2
}

# Counts an example: its language, and the functions that build it and that run it.
try() {
    check "the example of $1" prints_wanted "$2" "$3"
}

misses() {
    left_out "the example of $1" "which needs $2"
}

build_cpp() {
    c++ -std=c++17 -Wall -Wextra -Werror -I ../c load.cpp "$out/libdotenvy.a" -o "$room/by_cpp"
}

run_cpp() {
    "$room/by_cpp"
}

# Lays out the library as an installation does, for pkg-config.
build_go() {
    mkdir "$room/lib"
    ln -s "$out/libdotenvy.so.1" "$room/lib/libdotenvy.so"
    ln -s "$out/libdotenvy.so.1" "$room/lib/libdotenvy.so.1"
    printf 'Name: dotenvy\nDescription: environment files\nVersion: 1\nCflags: -I%s\nLibs: -L%s -ldotenvy\n' \
        "$(cd ../c && pwd)" "$room/lib" >"$room/dotenvy.pc"
    PKG_CONFIG_PATH=$room GOCACHE=$room/cache go build -o "$room/by_go" load.go
}

run_go() {
    LD_LIBRARY_PATH=$room/lib "$room/by_go"
}

run_ruby() {
    LIBDOTENVY=$out/libdotenvy.so.1 ruby load.rb
}

build_node() {
    cc -shared -fPIC -Wall -Wextra -Werror -DNODE_GYP_MODULE_NAME=dotenvy -I ../c -I "$headers" load_node.c \
        "$out/libdotenvy.a" -o "$room/dotenvy.node"
}

run_node() {
    node load.js "$room/dotenvy.node"
}

if has c++; then try C++ build_cpp run_cpp; else misses C++ 'c++'; fi
if has go cc pkg-config; then try Go build_go run_go; else misses Go 'go, cc and pkg-config'; fi
if ruby -e 'require "fiddle/import"' 2>/dev/null; then try Ruby : run_ruby; else misses Ruby 'ruby with fiddle'; fi
headers=$(node -p 'require("path").resolve(process.execPath, "../../include/node")' 2>/dev/null)
if [ -f "$headers/node_api.h" ] && has cc; then
    try Node build_node run_node
else
    misses Node 'node with its headers, and cc'
fi
tell_sums
