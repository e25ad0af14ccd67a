#!/usr/bin/env python3
"""Prints what the code promises: of a function its doc comment, its contract, and what the words of that mean.

    contracts.py NAME..        prints these: a function, a type, a module, a crate, or a path such as Iter::next_item
    contracts.py --headline    prints what the headline of docs/CONTRACTS.md names
    contracts.py --check       sees that public calls have doc comments, and that what docs/CONTRACTS.md names is there

Of a type, a module or a crate it prints what is public, and a function with just this name in any case. Nothing is
proved here. signatures.py lists the calls of the library, and map.py the crates with their modules. With --check it
prints what is wrong, and ends with status 1 if anything is.
"""

import re
import signal
import sys

from counting import tell
from believed import LIBRARY, PAGE, PROGRAM, names_of
from rattle import TOP, cited, dependencies, items_of, read_files, source_files

CLAUSE = re.compile(r"^ *(?:requires|ensures)\b", re.M)


def is_meant(item, name):
    """Whether a name means an item, or something public that it is in."""
    wanted = name.split("::")
    places = [place for place in range(len(item.path)) if item.path[place:place + len(wanted)] == wanted]
    return any(item.is_public or place + len(wanted) == len(item.path) for place in places)


def words_of(item, files):
    """The definitions that the contract of an item cites, below their files, each with the comment over it."""
    last = None
    for module, name in sorted(cited(files, "\n".join(item.lines), item)):
        if module != last:
            crate, *parts = module.split(".")
            yield "crates/" + crate + "/" + "/".join(parts) + ".antt"
        last = module
        comment = files[module].comment(name)
        yield f"    {name}: {comment}" if comment else f"    {name}"


def text_of(item, files):
    """All that is said of an item."""
    place, contract = "::".join(item.path) + ", " + item.file, ["    " + line for line in item.lines]
    parts = [[place], item.comment, contract, list(words_of(item, files))]
    return "\n\n".join("\n".join(part) for part in parts if part)


def items():
    """All items of the product, crate by crate and module by module."""
    for crate in [name for name in dependencies() if not name.startswith(("test_", "example_"))]:
        for file in source_files(crate):
            yield from items_of(file)


def left_open(page):
    """The names in the table of what single contracts leave open."""
    section = page.partition("\n## What single contracts leave open\n")[2].partition("\n## ")[0]
    cells = re.findall(r"^\| ([^|]*) \|[^|]*\|$", section, re.M)
    return [name for cell in cells for name in re.findall("`([^`]+)`", cell)]


def lost(found):
    """The files of which a clause is in no item: the reading of them is wrong."""
    for file in sorted({item.file for item in found}):
        read = sum(len(CLAUSE.findall("\n".join(item.lines))) for item in found if item.file == file)
        if read != len(CLAUSE.findall((TOP / file).read_text(encoding="utf-8"))):
            yield f"{file}: {read} clauses are read, and it has others"


def faults(found, page):
    """What --check finds."""
    yield from lost(found)
    yield from (f"{item.file}: {'::'.join(item.path)} has no doc comment" for item in found
                if item.is_call() and not item.comment)
    for table, names in (("the headline", names_of(page)), ("what single contracts leave open", left_open(page))):
        yield from (f"docs/CONTRACTS.md, {table}, names {name}, which is nothing of the code" for name in names
                    if not any(is_meant(item, name) for item in found))
        if not names:
            yield "docs/CONTRACTS.md has no table of " + table


def texts(found, names):
    """What is printed of each of these names."""
    files = read_files()
    for name in names:
        meant = [item for item in found if is_meant(item, name)]
        if not meant:
            raise SystemExit(f"there is no function, type, module or crate {name}")
        yield from (text_of(item, files) for item in meant)


def main():
    """Prints items, or faults."""
    names = sys.argv[1:]
    if not names:
        sys.exit(__doc__.strip())
    found = list(items())
    page = PAGE.read_text(encoding="utf-8")
    # A reader, such as `head`, may end before all is printed.
    signal.signal(signal.SIGPIPE, signal.SIG_DFL)
    if names == ["--check"]:
        return tell(faults(found, page))
    if names == ["--headline"]:
        print("\n\n\n".join(texts([item for item in found if item.path[0] in LIBRARY + PROGRAM], names_of(page))))
    else:
        print("\n\n\n".join(texts(found, names)))
    return 0


if __name__ == "__main__":
    sys.exit(main())
