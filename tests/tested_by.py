#!/usr/bin/env python3
"""Prints what is tested and not proved, from tests/only_tested.txt, as a table: of what, what, and by which tests.

    tested_by.py            prints the table
    tested_by.py --check    sees that what tests it exists, and ends with status 1 if it doesn't

A test is `FILE: NAME` for rows of crates/test_replay/data/FILE.rows, where `*` stands for any text; `test_worked:
MODULE::TEST` for a test of that crate; or the path of a script or a table.
"""

import fnmatch
import functools
import re
import signal
import sys

from counting import tell
from pages import TOP

LIST = TOP / "tests" / "only_tested.txt"
DATA = TOP / "crates" / "test_replay" / "data"
TESTS = TOP / "crates" / "test_worked" / "src"


class Entry:
    """What is tested, of what, and by which tests."""

    def __init__(self, subject, what):
        self.subject, self.what, self.tests = subject, what, []


def entries():
    """What the list has. Lines without tests of their own have those of the next line that has some."""
    found, waiting, subject = [], [], None
    for line in LIST.read_text(encoding="utf-8").split("\n"):
        if line.startswith("    "):
            for entry in waiting:
                entry.tests.append(line.strip())
        elif line.startswith("  "):
            waiting = [entry for entry in waiting if not entry.tests] + [Entry(subject, line.strip())]
            found.append(waiting[-1])
        elif line and not line.startswith("#"):
            subject, waiting = line, []
    return found


@functools.lru_cache(None)
def row_names(file):
    """The names of the rows of a file."""
    path = DATA / (file + ".rows")
    rows = path.read_text(encoding="utf-8").split("\n") if path.exists() else []
    return [row.split("|")[1] for row in rows if row and not row.startswith("#")]


def exists(test):
    """Whether there is such a row, test or file."""
    file, colon, name = test.partition(": ")
    if not colon:
        return (TOP / test).is_file()
    if file == "test_worked":
        *modules, function = name.split("::")
        path = TESTS.joinpath(*modules).with_suffix(".rt")
        return path.exists() and f"#[test]\nfn {function}(" in path.read_text(encoding="utf-8")
    return re.fullmatch(r"[\w:*-]+", name) is not None and bool(fnmatch.filter(row_names(file), name))


def faults(found):
    """What is wrong with the list."""
    for entry in found:
        if not entry.tests:
            yield "names no test: " + entry.what
        yield from (f"there is no {test}" for test in entry.tests if not exists(test))
    if not found:
        yield "has nothing"


def main():
    """Prints the table, or the faults."""
    found = entries()
    if "--check" in sys.argv[1:]:
        return tell("tests/only_tested.txt: " + fault for fault in faults(found))
    # A reader, such as `head`, may end before all is printed.
    signal.signal(signal.SIGPIPE, signal.SIG_DFL)
    print("| Of | What is tested | By |\n|---|---|---|")
    for entry in found:
        print(f"| {entry.subject} | {entry.what} | {', '.join('`' + test + '`' for test in entry.tests)} |")
    return 0


if __name__ == "__main__":
    sys.exit(main())
