#!/usr/bin/env -S python3 -B
"""Prints the examples of docs/EDIT.md, one a line; tests/edit.py plays them.

Each line of a table of files or of lines is an example, and so is each sentence `OLD` becomes `NEW`. Their signs are
those of tests/grammar_rows.py. The first block labelled `env` is a file, and each later one is a line of it after the
command before it. A table that isn't known here ends the script with status 1, so that no example is left out.
"""

import re
import shlex
import sys

import edit_model
from examples import phrase, refuse
from pages import DOCS

PAGE = DOCS / "EDIT.md"
# The tables that have no examples, by their header lines.
NO_EXAMPLES = [
    "| You want | Command |", "| Word | Means |", "| Value | Written |", "| Text | What you can do |", "| Text | Why |",
    "| Text | When |", "| Status | When |",
]
# The lines of tables, and what they have between backticks.
FILES, LINES = "| File | Call | Then |", "| Old line | Value | New line |"
CODE = {"`([^`]*)`": "{0}", "`([^`]*)`, a fault": "{0}"}
# What a sentence sets its old line to, and whether for other libraries too.
SENTENCES = {"`A=#old`": ("new", False), "`A=x\\␣␣# it's`": ("v", False), "`A=1 # 'q'`": ("a b", True)}


def call_of(words):
    """The call of these words: the command, the name, and the value or the new name if there is one."""
    return edit_model.Call(words[0], words[1], *words[2:])


def table_example(header, cells):
    """The file, the call and the new file of a line of a table."""
    if header == FILES:
        return phrase(cells[0], CODE), call_of(shlex.split(phrase(cells[1], CODE))), phrase(cells[2], CODE)
    old, value, new = (phrase(cell, CODE) for cell in cells)
    return old + "\n", edit_model.Call("set", "A", value), new + "\n"


def tables(lines):
    """The examples of the tables."""
    header = None
    for number, line in enumerate(lines, 1):
        if not line.startswith("|"):
            header = None
        elif header is None:
            header = line
            if header not in [FILES, LINES, *NO_EXAMPLES]:
                refuse(f"{PAGE.name}:{number}: an unknown table: {header}")
        elif header not in NO_EXAMPLES and not line.startswith("|-"):
            yield f"line {number}", *table_example(header, line.strip("| ").split(" | "))


def sentences(text):
    """The examples in sentences."""
    for found in re.finditer(r"(`[^`\n]*`)\s+becomes\s+(`[^`\n]*`)", text):
        if found[1] not in SENTENCES:
            refuse(f"{PAGE.name}: what is {found[1]} set to?")
        value, is_portable = SENTENCES[found[1]]
        call = edit_model.Call("set", "A", value, portable=is_portable)
        yield found[1], phrase(found[1], CODE) + "\n", call, phrase(found[2], CODE) + "\n"


def blocks(text):
    """The examples of the file that the page shows: each sets the name of the line that is shown after it."""
    pattern = r"`dotenvy_edit (set service\.env [^`|]*)`(?![^`]* \|)|^```env\n(.*?)^```"
    old, words = None, None
    for found in re.finditer(pattern, text, re.M | re.S):
        if found[1]:
            words = shlex.split(found[1])
        elif old is None:
            old = found[2]
        else:
            line = next(line for line in old.splitlines(True) if words[2] in re.split(r"[ =]+", line))
            yield words[2], old, call_of([words[0], *words[2:]]), old.replace(line, found[2])


def examples():
    """All examples of the page: what they are, the bytes of the file, the call, and its new bytes."""
    text = PAGE.read_text(encoding="utf-8")
    found = [*blocks(text), *tables(text.splitlines()), *sentences(text)]
    if len(list(sentences(text))) != len(SENTENCES) or len(list(blocks(text))) != text.count("```env\n") - 1:
        refuse(f"{PAGE.name}: an example is left out")
    return [(f"{PAGE.name}, {what}", old.encode(), call, new.encode()) for what, old, call, new in found]


if __name__ == "__main__":
    for example in examples():
        print(*example)
    sys.exit(0)
