#!/usr/bin/env python3
"""Prints the definitions on which the headline of docs/CONTRACTS.md rests: what has to be believed.

    believed.py            prints them
    believed.py --check    sees that docs/CONTRACTS.md has their number, and ends with status 1 if it hasn't
    believed.py --write    writes the number into the page

It begins with the calls, types and laws that the headline's table names, collects the words that their contracts cite,
and goes on with the words of their definitions. Words of std are not followed. It prints the definitions file by file,
in an order in which they can be read, and then each contract with the words that it cites.
"""

import re
import signal
import sys

from counting import tell
from rattle import TOP, cited, items_of, read_files, source_files

PAGE = TOP / "docs" / "CONTRACTS.md"
SUMS = re.compile(r"The contracts of these \d+ calls, types and laws cite definitions [^\n]*? lines\.")

# Where the names of the table are looked for. Of the library the whole contract counts, and of the program's calls the
# clauses that the table names.
LIBRARY = ("dotenvy_format", "dotenvy_base", "dotenvy_lines", "dotenvy_items", "dotenvy")
PROGRAM = ("dotenvy_command",)


class Root:
    """What the table names: its name there, its file, its contract, and the imports of the file."""

    def __init__(self, name, items, contract):
        self.name, self.contract = name, contract
        self.file, self.imports, self.modules = items[0].file, items[0].imports, items[0].modules

    def cited(self, files):
        """The definitions that the contract cites."""
        return cited(files, self.contract, self)


def meant(items, name):
    """The items that a name of the table means: a function that users can call, or what a type or a trait says."""
    path = name.split("::")
    calls = [item for item in items if item.path[2:] == path and item.is_function() and (item.is_public or path[1:])]
    return calls[:1] or [item for item in items if item.path[2:-1] == path and item.is_public]


def root_of(name, wanted):
    """What the table means by a name. Of a call of the program these clauses are wanted, of one of the library all."""
    for crate in LIBRARY + PROGRAM:
        for file in source_files(crate):
            found = meant(items_of(file), name)
            parts = [part for item in found for part in item.contract(wanted if crate in PROGRAM else None)]
            if parts:
                return Root(name, found, "\n".join(parts))
    raise SystemExit(f"docs/CONTRACTS.md, The headline: there is no public {name}")


def names_of(page):
    """The names in the headline's table, each with the clauses that the table names of it."""
    section = page.partition("\n## The headline\n")[2].partition("\n## ")[0]
    found = {}
    for cell in re.findall(r"^\|[^|]*\|([^|]*)\|$", section, re.M)[2:]:
        for part in cell.split(";"):
            named, calls = part.partition(" of ")[::2] if "clause" in part else ("", part)
            for name in re.findall("`([^`]+)`", calls):
                found.setdefault(name, re.findall(r"`(\w+)`", named))
    return found


def roots(page):
    """The calls, types and laws that the headline's table names, in its order."""
    return [root_of(name, wanted) for name, wanted in names_of(page).items()]


def believed(files, first):
    """Every definition on which these ones rest, by its module."""
    seen, left = set(), set(first)
    while left:
        module, name = left.pop()
        seen.add((module, name))
        left |= files[module].cited(files, module, name) - seen
    return seen


def in_order(files, modules):
    """These files, crate by crate, each after the others of its crate that it cites."""
    crates = sorted({module.partition(".")[0] for module in modules}, key=(LIBRARY + PROGRAM).index)
    found = []

    def add(module):
        below = {where for where, _ in files[module].imports.values()}
        for other in sorted(below & modules):
            if other not in found and other.partition(".")[0] == module.partition(".")[0]:
                add(other)
        if module not in found:
            found.append(module)

    for crate in crates:
        for module in sorted(module for module in modules if module.partition(".")[0] == crate):
            add(module)
    return found


class Wanted:
    """What there is to say of some roots."""

    def __init__(self, files, all_roots):
        self.files, self.roots = files, all_roots
        self.words = believed(files, set().union(*(root.cited(files) for root in all_roots)))
        times = sum(len(root.cited(files)) for root in all_roots)
        places = [files[module].places[name] for module, name in self.words]
        lines = sum(end - start for start, end in places)
        self.sums = (f"The contracts of these {len(all_roots)} calls, types and laws cite definitions {times:,} times, "
                     f"and rest on {len(places):,} definitions of {lines:,} lines.")

    def sections(self):
        """The definitions, file by file, each with the comment over it; and then the contracts."""
        by_file = {}
        for module, name in self.words:
            by_file.setdefault(module, []).append((self.files[module].places[name], name))
        for module in in_order(self.files, set(by_file)):
            crate, *parts = module.split(".")
            yield f"\ncrates/{crate}/{'/'.join(parts)}.antt\n  {self.files[module].head()}"
            for (start, _), name in sorted(by_file[module]):
                yield f"    {name}   {self.files[module].comment(name)}".rstrip()
        for root in self.roots:
            names = sorted({name for _, name in root.cited(self.files)}, key=str.lower)
            yield f"\n{root.name}, {root.file}\n    {', '.join(names) or 'none'}"

    def text(self):
        """All of it."""
        return "\n".join([self.sums, *self.sections()])


def faults(page, wanted):
    """What the page says of the sums that isn't so."""
    if SUMS.findall(page) != [wanted.sums]:
        yield "docs/CONTRACTS.md, The headline, has to say this once; --write mends it: " + wanted.sums


def main():
    """Prints, compares or writes."""
    page = PAGE.read_text(encoding="utf-8")
    wanted = Wanted(read_files(), roots(page))
    if "--write" in sys.argv[1:]:
        PAGE.write_text(SUMS.sub(wanted.sums, page), encoding="utf-8")
    elif "--check" in sys.argv[1:]:
        return tell(faults(page, wanted))
    else:
        # A reader, such as `head`, may end before all is printed.
        signal.signal(signal.SIGPIPE, signal.SIG_DFL)
        print(wanted.text())
    return 0


if __name__ == "__main__":
    sys.exit(main())
