#!/usr/bin/env -S python3 -B
"""Prints what other readers of environment files make of the lines of docs/OTHER_LIBRARIES.md, which has some of it.

    other_readers.py             prints the table
    other_readers.py --check     compares the page's table with it, and tests/other_readers.tsv with the page's others
    other_readers.py --tools     has the tools read the lines, where they are installed, and compares

tests/other_readers.tsv has a line of the page, the environment, and what is read here, as the page says them; and then
what each reader of its first line makes of the line: `refused`, or a list of NAME=VALUE. With --check and --tools, the
last line is `N passed, M failed`.
"""

import itertools
import json
import pathlib
import re
import signal
import sys

import export_tools
from examples import FILE, ITEM, phrase, phrases
from pages import DOCS

TABLE = pathlib.Path(__file__).resolve().parent / "other_readers.tsv"
PAGE = DOCS / "OTHER_LIBRARIES.md"
COLUMNS = ["systemd", "docker", "kubectl", "direnv", "godotenv"]
SIGNS = {"\n": "⏎", "\t": "<TAB>", "\r": "<CR>"}


def rows():
    """The cells of the lines of the table."""
    return [line.split("\t") for line in TABLE.read_text(encoding="utf-8").splitlines()[1:]]


def here(said):
    """The pairs that are read here, or None for a fault, as the page says them."""
    return None if said.startswith("fault") else phrases(said, ", then ", "nothing", ITEM)


def value_cell(value):
    """A value in a cell."""
    shown = "".join(SIGNS.get(sign, sign) for sign in value)
    shown = re.sub("^ | $", "␣", shown)
    return f"`{shown}`" if shown else "empty"


def cell(read, line, said):
    """What a reader makes of a line."""
    pairs = None if read == "refused" else json.loads(read)
    if pairs is None:
        return "refused"
    if pairs == here(said):
        return "as here"
    if not pairs:
        return "nothing"
    if "\n".join(pairs) == re.sub(r"\n\Z", "", phrase(line, FILE)):
        return "as written"
    if len(pairs) == 1 and pairs[0].startswith("A="):
        return value_cell(pairs[0][2:])
    parted = [pair.split("=", 1) for pair in pairs]
    return ", then ".join(f"`{name}` is {value_cell(value)}" for name, value in parted)


def table():
    """The lines of the table."""
    lines = ["| Environment | Line | " + " | ".join(COLUMNS) + " |", "|" + "---|" * (2 + len(COLUMNS))]
    for line, environment, said, *reads in rows():
        cells = [environment, line] + [cell(read, line, said) for read in reads]
        lines.append("|" + "|".join(f" {one} " if one else " " for one in cells) + "|")
    return lines


def is_on_page(line, environment, said, page):
    """Whether a line of another table of the page has these cells."""
    cells = f"| {line} | {said} |"
    return any(cells in one and (not environment or one.startswith(f"| {environment} ")) for one in page)


def check():
    """Compares the table with the page, which has at least ten lines of it: what fails, and of how many."""
    page, whole = PAGE.read_text(encoding="utf-8").splitlines(), table()
    start = page.index(whole[0])
    shown = list(itertools.takewhile(lambda line: line.startswith("|"), page[start:]))
    failed = [f"the table hasn't this line of the page: {line}" for line in shown if line not in whole]
    failed += ["the page has too few lines of the table"] if len(shown) < 12 else []
    failed += [f"no table of the page has {row[0]} with {row[2]}" for row in rows() if not is_on_page(*row[:3], page)]
    return failed, len(shown) + 1 + len(rows())


def read_again(tool, line):
    """What the tool makes of a line, as the table has it."""
    pairs = tool.read(phrase(line, FILE).encode())
    return "refused" if pairs is None else [(name + b"=" + value).decode() for name, value in pairs]


def check_tools():
    """Has the tools read the lines. The values of the environment mean nothing to those that are called."""
    failed, tried = [], 0
    for number, make in enumerate([export_tools.systemd, export_tools.docker, export_tools.kubectl], 3):
        tool = make()
        for row in rows() if tool else []:
            tried += 1
            recorded = row[number] if row[number] == "refused" else json.loads(row[number])
            if read_again(tool, row[0]) != recorded:
                failed.append(f"{tool.name} {tool.version} reads {read_again(tool, row[0])} of {row[0]}")
    return failed, tried


def main(words):
    """Reads the command line."""
    if not words:
        # A reader, such as `head`, may end before all is printed.
        signal.signal(signal.SIGPIPE, signal.SIG_DFL)
        print("\n".join(table()))
        return 0
    failed, tried = check_tools() if words == ["--tools"] else check()
    for line in failed:
        print("FAILED:", line)
    print(f"{tried - len(failed)} passed, {len(failed)} failed")
    return 1 if failed else 0


if __name__ == "__main__":
    sys.exit(main(sys.argv[1:]))
