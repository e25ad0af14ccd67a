#!/usr/bin/env python3
"""Tries tests/believed.py: sees that it fails where docs/CONTRACTS.md no longer says on how much the headline rests.

It takes each name out of the headline's table, and each definition out of each contract that cites it. Prints what the
check doesn't see, and ends with status 1 if there is anything.
"""

import sys

import believed
import rattle


def table_without(page, name):
    """The page, whose headline doesn't have this name in its table."""
    head, start, rest = page.partition("\n## The headline\n")
    table, end, rest = rest.partition("\n## ")
    lines = [line.replace(f"`{name}`", "it") if line.startswith("|") else line for line in table.split("\n")]
    return head + start + "\n".join(lines) + end + rest


def unseen_in_table(files, page, all_roots):
    """The names of which one can go from the table unseen."""
    for root in all_roots:
        names = believed.names_of(table_without(page, root.name))
        left = [other for other in all_roots if other.name in names]
        if not list(believed.faults(page, believed.Wanted(files, left))):
            yield f"the table without {root.name}"


def unseen_in_contracts(files, page, all_roots):
    """The definitions of which one can go from a contract unseen."""
    for root in all_roots:
        contract = root.contract
        words = {word: rattle.resolved(files, word, None, root.imports) for word in rattle.WORD.findall(contract)}
        for definition in sorted(set(words.values()) - {None}):
            root.contract = " ".join(word for word, meant in words.items() if meant != definition)
            if not list(believed.faults(page, believed.Wanted(files, all_roots))):
                yield f"the contract of {root.name} without {definition[1]}"
        root.contract = contract


def main():
    """Tries all on the page as it is."""
    page = believed.PAGE.read_text(encoding="utf-8")
    files, all_roots = rattle.read_files(), believed.roots(page)
    unseen = list(believed.faults(page, believed.Wanted(files, all_roots)))
    unseen += unseen_in_table(files, page, all_roots)
    unseen += unseen_in_contracts(files, page, all_roots)
    for what in unseen:
        print("tests/believed.py doesn't see it: " + what)
    if unseen:
        sys.exit(1)


main()
