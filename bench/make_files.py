#!/usr/bin/env python3
"""Writes an environment file of one kind to standard output.

usage: make_files.py KIND [BLOCKS]
"""
import sys


def mix(i):
    return (
        f"# block {i}: settings of one service\n"
        f"SERVICE_{i}_HOST=host{i}.example.internal\n"
        f"SERVICE_{i}_PORT={1024 + i % 60000} # the port\n"
        f'SERVICE_{i}_URL="https://host{i}.example.internal:8443/api?x=1&y=2"\n'
        f"SERVICE_{i}_TOKEN='d2hhdCBpcyBpbiBhIG5hbWU/{i}'\n"
        f"export SERVICE_{i}_LEVEL=info\n"
        f'SERVICE_{i}_MOTD="line one\\nline two"\n'
        f"\n"
        f"SERVICE_{i}_PATH=${{SERVICE_{i}_HOST}}/var/lib\n"
    )


def plain(i):
    return f"K{i}=value{i}\n"


def quoted(i):
    return f'QUOTED_{i}="value {i} with spaces, a \\"quote\\" and a # hash; {"lorem ipsum " * 3}"\n'


def single_quoted(i):
    return f"SQ_{i}='value {i} with spaces and a # hash; {'lorem ipsum ' * 4}'\n"


def subst(i):
    return f"A{i}=v{i}\nB{i}=${{A{i}}}-${{A{i}}}-${{A{i}}}\n"


def names_in_quotes(i):
    return ('BASE="/opt/base"\n' if i == 0 else "") + f'P{i}="${{BASE}}/x{i}:${{BASE}}/y$BASE/z"\n'


def comments(i):
    return f'# comment line {i}: nothing of this is read, "quotes" and $NAMES too\n'


def line_of_1_mb(i):
    return f"L{i}={'abcdefghij' * 100000}\n"


def quoted_line_of_1_mb(i):
    return f'L{i}="{"abcdefghi " * 100000}"\n'


def utf8(i):
    return f'K{i}="größe {i} 漢字 и ещё немного текста 😀"\n'


def escapes(i):
    return "E" + str(i) + "=" + "\\\\" * 500 + "\n"


def empty_quotes(i):
    return f"Q{i}=" + '""' * 500 + "\n"


# Each kind, and how many blocks of it are written.
KINDS = {
    "mix": (mix, 3000),
    "plain": (plain, 30000),
    "quoted": (quoted, 10000),
    "single_quoted": (single_quoted, 10000),
    "subst": (subst, 15000),
    "names_in_quotes": (names_in_quotes, 12000),
    "comments": (comments, 15000),
    "line_of_1_mb": (line_of_1_mb, 4),
    "quoted_line_of_1_mb": (quoted_line_of_1_mb, 4),
    "utf8": (utf8, 10000),
    "escapes": (escapes, 1000),
    "empty_quotes": (empty_quotes, 1000),
}

if __name__ == "__main__":
    block, count = KINDS[sys.argv[1]]
    if len(sys.argv) > 2:
        count = int(sys.argv[2])
    for number in range(count):
        sys.stdout.write(block(number))
