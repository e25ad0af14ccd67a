#!/usr/bin/env python3
"""Prints the kinds of rows from crates/test_replay/data/kinds.rows: the fields of each, what is played, an example.

    row_kinds.py            lists the kinds, each with its fields
    row_kinds.py KIND..     prints these kinds
    row_kinds.py --check    sees that each kind which test_replay plays has its fields, a text and an example that fits

With --check it prints what is wrong, and ends with status 1 if anything is.
"""

import re
import sys

from counting import tell
from pages import TOP

REPLAY = TOP / "crates" / "test_replay"


def kinds():
    """What the file has of each kind: its fields, the text over the example, and the example, which is its only row.
    A part that begins with `==` has a text for the kinds after it."""
    found, shared = {}, []
    for part in (REPLAY / "data" / "kinds.rows").read_text(encoding="utf-8").strip().split("\n\n"):
        lines = [re.sub("^# ?", "", line) for line in part.split("\n")]
        if lines[0].startswith("=="):
            shared = lines[1:]
        elif len(lines) > 1 and not part.rpartition("\n")[2].startswith("#"):
            fields, *text, row = lines
            found[row.partition("|")[0]] = (fields, shared + text, row)
    return found


def played():
    """The kinds that test_replay plays: the arms of what takes a kind in its source."""
    source = (REPLAY / "src" / "kinds.rt").read_text(encoding="utf-8")
    arms = re.findall(r'^ +((?:"\w+"(?: \| )?)+) =>', source, re.M)
    return {kind for arm in arms for kind in re.findall(r'"(\w+)"', arm)}


def fits(fields, row):
    """Whether a row has these fields. A last field that ends with two dots may come again."""
    names, values = fields.split("|"), row.split("|")
    goes_on = names[-1].endswith("..")
    return names[0] == values[0] and (len(values) == len(names) or goes_on and len(values) >= len(names) - 1)


def faults(found):
    """What is wrong with the file."""
    wanted = played()
    yield from [] if found else ["has nothing"]
    yield from (f"lacks the kind {kind}" for kind in sorted(wanted - set(found)))
    yield from (f"has a kind that isn't played: {kind}" for kind in sorted(set(found) - wanted))
    for kind, (fields, text, row) in found.items():
        # A row about another row has all of that row in its last field.
        if not text or not (fits(fields, row) or fields.endswith("|ROW")):
            yield f"has no text of {kind}, or other fields than its row"


def main():
    """Prints kinds, or faults."""
    found, words = kinds(), sys.argv[1:]
    if words == ["--check"]:
        return tell("crates/test_replay/data/kinds.rows " + fault for fault in faults(found))
    for kind in words:
        if kind not in found:
            raise SystemExit(f"no kind of row is called {kind}")
        fields, text, row = found[kind]
        print("\n".join([fields, "", *text, "", row, ""]))
    if not words:
        print("\n".join(fields for fields, _, _ in found.values()))
    return 0


if __name__ == "__main__":
    sys.exit(main())
