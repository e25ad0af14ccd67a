#!/usr/bin/env -S python3 -B
"""Sees that the manual pages, which tests/made_pages.py makes, have what COMMAND.md, CHECK.md, EXPORT.md, EXEC.md and
EDIT.md of docs/ promise: each option, status and text of their tables, and no others. Where groff is installed, it also
sees that groff finds nothing wrong with them. It takes less than a second. The last line is `N passed, M failed`.
"""

import re
import shutil
import subprocess
import sys

from counting import judge
from made_pages import MANUALS
from pages import TOP, cells, tables, text_of

# The sections of the pages whose tables have the entries of a section of the manual page.
SECTIONS = {
    "dotenvy_run": {
        "Options and the command": "OPTIONS", "Examples": "EXAMPLES", "What can't be started": "WHAT CAN'T BE STARTED",
        "Signals": "SIGNALS"},
    "dotenvy_check": {"Options and files": "OPTIONS", "What is printed": "OUTPUT", "Faults": "FAULTS"},
    "dotenvy_export": {"Usage": "DESCRIPTION", "Options and files": "OPTIONS"},
    "dotenvy_exec": {"Options and the command": "OPTIONS"},
    "dotenvy_edit": {
        "Examples": "EXAMPLES", "Options and files": "OPTIONS", "What is refused": "WHAT IS REFUSED",
        "Warnings": "WARNINGS"},
}
EACH = {"Statuses": "EXIT STATUS", "Texts on standard error": "DIAGNOSTICS"}
ESCAPES = [(r"^\.[BI] |\\f[BIR]|\\&", ""), (r"\\-", "-"), (r"\\\(aq", "'"), (r"\\\(dq", '"'), (r"\\e", r"\\")]


def first_cells(page, title):
    """The first cell of each row of the tables in a section of a page, without backquotes."""
    rows = [row for _, heading, _, found in tables(text_of(page)) if heading == title for row in found]
    return [cells(row)[0].replace("`", "") for row in rows]


def tags(manual, title):
    """The tag of each entry in a section of a manual page, as a reader sees it."""
    section = re.search(rf"^\.SH {re.escape(title)}\n(.*?)(?=^\.SH |\Z)", text_of(manual), re.M | re.S)
    for tag in re.findall(r"^\.TP\n(.*)", section[1] if section else "", re.M):
        for pattern, sign in ESCAPES:
            tag = re.sub(pattern, sign, tag)
        yield tag


def compared(page, manual, sections):
    """Each row of a section of the page is the tag of an entry in a section of the manual page, and the other way."""
    for title, name in sections.items():
        rows, entries = first_cells(page, title), list(tags(manual, name))
        yield f'{page}, "{title}", has a table', [] if rows else ["it has none"]
        yield from ((f"{manual}, {name}, has: {row}", [] if row in entries else ["it isn't there"]) for row in rows)
        yield from ((f'{page}, "{title}", has: {tag}', ["it isn't there"]) for tag in entries if tag not in rows)


def groff_says(manual):
    """What groff finds wrong with a manual page."""
    done = subprocess.run(["groff", "-man", "-ww", "-z", "-Tutf8", TOP / manual], stdout=subprocess.PIPE,
                          stderr=subprocess.STDOUT, text=True, check=False)
    return done.stdout.splitlines() + [f"status {done.returncode}"] * (done.returncode != 0)


def checks():
    """What is checked, and what is wrong with it."""
    for program, sections in SECTIONS.items():
        page, manual = "docs/" + MANUALS[program][0], f"docs/{program}.1"
        yield from compared(page, manual, {**sections, **EACH})
        if shutil.which("groff"):
            yield f"groff finds nothing wrong with {manual}", groff_says(manual)
        else:
            print(f"left out: groff is not installed, so nothing says that {manual} has no wrong macro")


if __name__ == "__main__":
    sys.exit(judge(checks()))
