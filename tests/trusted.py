#!/usr/bin/env python3
"""Compares tests/trusted.txt with what the toolchain says when it has proved the product.

usage: tests/trusted.py [FILE]

It has `rt check --list-axioms` check the programs and the library for C, and takes from its lines which C functions of
the toolchain are assumed, and the words of the verdict. FILE has what `rt ci` printed, and its verdicts count too. The
list has to have exactly these functions for each crate, and to explain each word; where it gives a value, that has to
be the value. Call it once the crates are proved, or it proves them. The last line is `N passed, M failed`.
"""

import pathlib
import re
import subprocess
import sys

from counting import judge

TOP = pathlib.Path(__file__).resolve().parent.parent
LIST = TOP / "tests" / "trusted.txt"
CRATES = ("dotenvy_run", "dotenvy_check", "dotenvy_edit", "dotenvy_export", "dotenvy_c")

# What `rt check` takes from an earlier check; no verdict of the gate has it.
OWN = "incremental=trusted"


def explained():
    """The words of a verdict that the list explains, each with its value, or with None where it may have any."""
    lines = re.findall(r"^((?:[\w-]+=\S+ +)+)\S", LIST.read_text(encoding="utf-8"), re.M)
    pairs = [word.partition("=") for line in lines for word in line.split()]
    return {word: None if value in ("N", "SUM") else value for word, _, value in pairs}


def listed(crate):
    """The C functions that the list has for a crate."""
    parts = re.findall(r"^(\w[\w ]*):\n((?:  .*\n)+)", LIST.read_text(encoding="utf-8"), re.M)
    return {name for crates, names in parts if crate in crates.split() for name in names.split()}


def said(crate):
    """What the check of a proved crate prints."""
    command = ["rt", "check", "--list-axioms"]
    return subprocess.run(command, cwd=TOP / "crates" / crate, stdout=subprocess.PIPE, text=True, check=False).stdout


def verdicts(text):
    """The verdict lines in what was printed."""
    return re.findall(r"^logic=.*", text, re.M)


def word_faults(lines):
    """Each word of these verdicts that the page doesn't explain, or to which it gives another value."""
    known = explained()
    for word, _, value in {tuple(part.partition("=")) for line in lines for part in line.split() if part != OWN}:
        if word not in known:
            yield f"the list doesn't explain `{word}={value}`"
        elif known[word] not in (None, value):
            yield f"the list says `{word}={known[word]}`, and a verdict `{word}={value}`"


def crate_faults(crate, text):
    """What differs between the page and the report of a crate."""
    reached = set(re.findall(r"^\s*(\S+)\s+reached$", text, re.M))
    if not verdicts(text) or not reached:
        yield "it isn't proved, or reaches no C function"
    yield from (f"the list lacks {name}" for name in sorted(reached - listed(crate)))
    yield from (f"nothing reaches {name}" for name in sorted(listed(crate) - reached))


def main():
    """Prints a line for each crate, and one for the words."""
    texts = {crate: said(crate) for crate in CRATES}
    checks = [(f"the C functions of {crate}", list(crate_faults(crate, text))) for crate, text in texts.items()]
    lines = [line for text in texts.values() for line in verdicts(text)]
    lines += [line for file in sys.argv[1:] for line in verdicts(pathlib.Path(file).read_text(encoding="utf-8"))]
    checks.append(("the words of the verdicts", sorted(word_faults(lines))))
    return judge(checks)


if __name__ == "__main__":
    sys.exit(main())
