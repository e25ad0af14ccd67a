#!/usr/bin/env bash
# Tests the library for C: bindings/c/test.c, built by the toolchain's own clang and linker, which need no headers and
# no other compiler. Where there is a `cc`, the same test is built by that one, with the system's headers, over the
# archive as it is shipped, and run by itself, with AddressSanitizer, and under valgrind; and so is the example of the
# header. And the archive and the shared object have to have the names of the header, and no others.
# The last line is `N passed, M failed`. It needs what bindings/build.sh builds.
set -uo pipefail
cd "$(dirname "$0")" || exit
# shellcheck source=tests/lib.sh
. ../../tests/lib.sh
kit=$(dirname "$(rt doc)")
out=../out
export LC_ALL=C

by_toolchain() {
    "$kit/toolchain/bin/clang" -std=c11 -O1 -Wall -Wextra -Werror -nostdinc -I . -I freestanding -c test.c \
        -o "$room/test.o" || return
    if ! "$kit/bin/rattle-link" --target x86_64-unknown-linux-gnu --toolchain "$kit/toolchain" -o "$room/test" \
        "$room/test.o" ../../crates/dotenvy_c/out/libdotenvy_c.a 2>"$room/linked"; then
        cat "$room/linked" >&2
        return 1
    fi
}

# Builds the test by cc, with these options more, over the archive with its allocator.
by_cc() {
    cc -std=c11 -g -Wall -Wextra -Wpedantic -Werror -DSHIPPED -Wl,--wrap=malloc,--wrap=realloc,--wrap=free -I . \
        "${@:2}" test.c "$out/libdotenvy.a" -o "$room/$1"
}

# Whether cc builds a program with these options that runs.
cc_can() {
    echo 'int main(void) { return 0; }' >"$room/empty.c"
    cc "$@" "$room/empty.c" -o "$room/empty" 2>"$room/said" && "$room/empty" 2>"$room/said"
}

# The example in the header's comment.
header_example() {
    awk '/^ \* An example:/ { inside = 1; next } !inside { next } / \*\/$/ { exit } { sub(/^ \*(     )?/, ""); print }' \
        dotenvy.h
}

# Whether the example builds, and prints what it says.
example_runs() {
    header_example >"$room/example.c"
    cc -Wall -Wextra -Werror -I . "$room/example.c" "$out/libdotenvy.a" -o "$room/example" &&
        [ "$("$room/example")" = $'HOST=localhost\nPORT=9\nURL=http://localhost:9/' ]
}

test_by_cc() {
    local sanitizers=-fsanitize=address,undefined memcheck
    check "the example of the header runs" example_runs
    check "the test builds with cc" by_cc plain
    count "$room/plain"
    if cc_can "$sanitizers"; then
        check "the test builds with AddressSanitizer" by_cc sanitized "$sanitizers" -fno-sanitize-recover=all
        count "$room/sanitized"
    else
        left_out "the test with AddressSanitizer" "as cc has none"
    fi
    memcheck=(valgrind --quiet --error-exitcode=99 --leak-check=full --show-leak-kinds=all --errors-for-leak-kinds=all)
    if "${memcheck[@]}" true 2>"$room/said"; then
        count "${memcheck[@]}" "$room/plain"
    else
        left_out "the test under valgrind" "which isn't there"
    fi
}

# The functions that the header declares.
declared_names() {
    sed -n 's/^[a-z][a-z0-9_]* \(dotenvy_[a-z_]*\)(.*/\1/p' dotenvy.h | sort
}

# The names that the archive gives whatever links it.
archive_names() {
    nm -g --defined-only "$out/libdotenvy.a" | sed -n 's/^[0-9a-f]* [A-Z] //p' | sort
}

# The names that the shared object exports, each with its version; beside them is the name of the version.
shared_names() {
    readelf --wide --dyn-syms "$out/libdotenvy.so.1" |
        awk '$1 ~ /^[0-9]+:$/ && $7 != "UND" && $8 !~ /^DOTENVY_1@*/ { print $8 }' | sort
}

has_soname() {
    readelf --wide --dynamic "$out/libdotenvy.so.1" | grep -qF 'Library soname: [libdotenvy.so.1]'
}

check "the test builds with the toolchain alone" by_toolchain
count "$room/test"
check "the header's structs have the layout of layout.txt" cmp <("$room/test" layout) ../rust/layout.txt
if cc --version >"$room/said" 2>&1; then
    test_by_cc
else
    left_out "the tests by cc" "which isn't there"
fi
check "the header declares nine functions" test "$(declared_names | wc -l)" -eq 9
check "the archive has these names, and no others" diff <(archive_names) <(declared_names)
check "so has the shared object, with a version" diff <(shared_names) <(declared_names | sed 's/$/@@DOTENVY_1/')
check "the shared object is libdotenvy.so.1" has_soname
tell_sums
