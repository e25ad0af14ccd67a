#!/usr/bin/env -S python3 -B
"""Prints rows (docs/ROWS.md) of texts at the boundaries of blocks, which are crates/test_replay/data/boundaries.rows.

Texts are looked at in blocks of sixteen bytes, and files are read in parts of 8,192. So each sign that means something
stands at each of sixteen places of a key, a value or a line, which have the lengths around one block and two; and lines
stand at each place around the end of a part. What a row wants is what the model of the format, tests/edit_model.py,
reads. Files with a fault are left out, since the model doesn't count places.
"""

import sys

import edit_model
from examples import in_order, listed, written

LENGTHS = (15, 16, 17, 31, 32, 33)
PLACES = range(16)
PART = 8192
# The environment that each file is read under. The names are found by `$` in some of the texts.
ENVIRONMENT = {"A": "one", "B_2": "two"}
# What is put into a text, by what the row is called: into a value outside quotes, in double and in single quotes.
SIGNS = {
    "hash": "#", "letter-two-bytes": "\u00e9", "letter-three-bytes": "\u4e2d", "sign-four-bytes": "\U0001f600",
    "wide-blank": "\u00a0", "wide-space": "\u3000", "form-feed": "\f", "vertical-tab": "\v", "return": "\r",
    "quote": "''", "double-quote": '""', "quoted-hash": '" #"', "escaped-space": "\\ ", "escaped-quote": "\\'",
    "escaped-backslash": "\\\\", "dollar": "$", "name": "${A}", "bare-name": "$A", "two-names": "$A$B_2",
}
DOUBLE_QUOTED = {
    **SIGNS, "quote": "'", "double-quote": '\\"', "quoted-hash": " #", "line-feed": "\n", "blank": " ",
    "line-feed-and-hash": "\n#", "escaped-quote": "\\n",
}
SINGLE_QUOTED = {
    **DOUBLE_QUOTED, "quote": '"', "double-quote": "$", "escaped-quote": "\n\n", "escaped-line-feed": "\\\n",
}
# What ends a value, after which nothing counts.
ENDS = {
    "blank": " ", "tab": "\t", "comment": " # 'c", "comment-at-once": " #", "two-blanks-and-comment": "  #c",
    "three-blanks-and-comment": "   #\"", "returned": "\r", "blank-and-return": " \r", "form-feed": "\f",
}
# What is before a row of blanks and a `#`, which begins a comment only after an odd number of them; and these blanks.
FRONTS = {
    "letter": "v", "double-quotes": '"q"', "single-quotes": "'q'", "escaped-space": "\\ ", "escaped-backslash": "\\\\",
    "wide-letter": "\u00e9", "wide-sign": "\U0001f600", "wide-blank-and-letter": "\u3000v", "hash": "v#",
    "name": "${A}",
}
BLANKS = {
    "spaces": " ", "tabs": "\t", "spaces-and-tabs": " \t", "form-feeds": "\f", "wide-blanks": "\u00a0",
    "wide-spaces-and-spaces": "\u3000 ",
}
# A comment; and a quote that joins the next line, unless it is in a comment.
TAILS = {"comment": "#c", "quote": "#'\nX{}=1 #'"}
IN_KEYS = {"full-stop": ".", "underscore": "_", "digit": "7", "capital": "Q", "last-letter": "z"}


def filled(length, place, sign, filler="abcdefghijklmnop"):
    """A text of this length with the sign at the place; it is longer where the sign doesn't fit."""
    front = (filler * 4)[:place]
    return front + sign + (filler * 4)[place:max(place, length - len(sign))]


def row(name, dialect, data):
    """A row for a file, or none where it has a fault."""
    entries = edit_model.values_under(edit_model.pieces_of_file(data, dialect), ENVIRONMENT)
    kinds = {entry[0] for entry in edit_model.pieces_of_file(data, dialect)}
    if kinds != {"pair"}:
        return []
    under = in_order([key + "=" + value for key, value in ENVIRONMENT.items()])
    return [["file", name, dialect, listed(under), written(data.decode()), listed(entries), "*", "*", "*"]]


def listing(pairs):
    """The written form of pairs, in byte order of the names."""
    lines = []
    for pair in in_order(pairs):
        key, value = pair.split("=", 1)
        for sign in '\\"$':
            value = value.replace(sign, "\\" + sign)
        lines.append(f'{key}="{value}"\n')
    return "".join(lines)


def written_row(name, value):
    """A row for the written form of one pair."""
    return [["written", name, written("K=" + value), written(listing(["K=" + value]))]]


def value_rows():
    """Each sign at each place of a value of each length, a line each, in the three ways of quoting."""
    ways = {
        "outside-quotes": ("", SIGNS), "in-double-quotes": ('"', DOUBLE_QUOTED),
        "in-single-quotes": ("'", SINGLE_QUOTED),
    }
    for way, (quote, signs) in ways.items():
        for called, sign in signs.items():
            for length in LENGTHS:
                lines = [f"K{place}={quote}{filled(length, place, sign)}{quote}\n" for place in PLACES]
                for dialect in ("v15", "next") if "$" in sign else ("v15",):
                    yield from row(f"{called}-{way}-{length}-{dialect}", dialect, "".join(lines).encode())


def end_rows():
    """Values that end at each place, before what ends them."""
    for called, end in ENDS.items():
        lines = [f"K{place}={filled(place, place, '')}{end}\n" for place in range(1, 34)]
        yield from row(f"{called}-ends", "v15", "".join(lines).encode())


def blank_rows():
    """Rows of blanks of each length between a value and a `#`."""
    for front, value in FRONTS.items():
        for blank, blanks in BLANKS.items():
            for tail, text in TAILS.items():
                lines = [f"K{count}={value}{(blanks * 34)[:count]}{text.format(count)}\n" for count in range(34)]
                whole = [line for line in lines if row("", "v15", line.encode())]
                yield from row(f"{tail}-after-{blank}-after-{front}", "v15", "".join(whole).encode())


def key_rows():
    """Keys of each length, with a sign at each place but the first."""
    for called, sign in IN_KEYS.items():
        for length in LENGTHS:
            keys = [filled(length, place, sign) for place in PLACES if place > 0]
            yield from row(f"{called}-in-keys-{length}", "v15", "".join(f"{key}={key}\n" for key in keys).encode())
    for called, front in (("export", "export "), ("indent", "  \t"), ("blank-before-equals", "")):
        keys = ["k" * length for length in range(1, 34)]
        between = " " if called == "blank-before-equals" else ""
        lines = "".join(f"{front}{key}{between}={len(key)}\n" for key in keys)
        yield from row(f"{called}-and-keys", "v15", lines.encode())


def line_rows():
    """Lines of all lengths, with and without a carriage return, and comments and empty lines between them."""
    for called, end in (("line-feed", "\n"), ("return-and-line-feed", "\r\n"), ("comment-between", "\n# it's\n"),
                        ("empty-line-between", "\n\n"), ("blank-line-between", "\n \t\n")):
        lines = [f"L{length}={filled(length, length, '')}{end}" for length in range(34)]
        yield from row(f"{called}-after-each-length", "v15", "".join(lines).encode())
    for length in range(34):
        yield from row(f"last-line-without-line-feed-{length}", "v15", f"A=1\nL={filled(length, length, '')}".encode())


def part_rows():
    """Lines around the end of a part of the file, which a comment fills up to there."""
    shapes = {
        "plain": "K=abcdefghijklmnopqrstuvwxyz\n", "quoted": 'K="abcdefgh ijklmnop"#q\n',
        "comment": "K=abcdefghij #klm'nopq\n", "wide": "K=ab\u00e9cd\u4e2def\U0001f600ghijklmnop\n",
        "open": "K='abcdefgh\nijklmnop'\n", "return": "K=abcdefghijklm\r\n",
        "single-quoted": "K='abcde #fghijk'lm\n", "many-quotes": "K=\"ab\"'cd'\"ef\"gh'ij'\n",
        "escaped": 'K=a\\ b\\\\c\\"d"e\\"f\\\\"g\n', "hash-in-value": "K=ab#cd#\"ef#\"#gh\n",
        "comment-after-blanks": "K=abcdef\t \t#gh'i\"\n", "two-blanks-and-comment": "K=abcdef  #gh'i'\n",
        "wide-comment": "K=abcdef #g\u00e9\u4e2d\U0001f600'h\n", "open-after-hash": "K=ab#'cd\nef'\n",
    }
    for called, shape in shapes.items():
        for before in range(40):
            text = shape.rstrip("\n") + "\nA=1\n"
            data = "#" + "x" * (PART - before - 2) + "\n" + text
            for made in row(f"{called}-{before}-bytes-before-the-end-of-a-part", "v15", data.encode()):
                made[4] = f"#%({PART - before - 2}*x)%0a" + written(text)
                yield made


def written_rows():
    """Values with each sign that needs a backslash at each place, and rows of such signs."""
    for called, sign in (("backslash", "\\"), ("double-quote", '"'), ("dollar", "$"), ("all-three", '\\"$')):
        for length in LENGTHS:
            for place in PLACES:
                yield from written_row(f"{called}-at-{place}-of-{length}", filled(length, place, sign))
        for count in (15, 16, 17, 31, 32, 33):
            yield from written_row(f"{called}-{count}-times", sign * count)


def main():
    """Prints all rows."""
    sys.stdout.reconfigure(encoding="utf-8", newline="\n")
    print("# Texts at the boundaries of blocks of sixteen bytes and of parts that are read (tests/boundaries_rows.py).")
    groups = {
        "Values": value_rows, "Ends of values": end_rows, "Blanks": blank_rows, "Keys": key_rows, "Lines": line_rows,
        "Ends of parts": part_rows, "The written form": written_rows,
    }
    for heading, rows in groups.items():
        print(f"\n# {heading}.")
        for made in rows():
            print("|".join(made))


if __name__ == "__main__":
    main()
