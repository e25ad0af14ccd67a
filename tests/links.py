#!/usr/bin/env python3
"""Sees that each link of the pages leads somewhere: to a file that is there, and to a heading of it. A page that is
named in running text has to be a link. The list at the top of docs/DECISIONS.md has to have each decision. Prints each
place that is wrong, and ends with status 1 if there is one.
"""

import re
import sys

from counting import tell
from pages import LINK, TOP, anchor, anchors, prose

LISTED = TOP / "docs" / "DECISIONS.md"


def pages():
    """The pages of the repository, with their texts."""
    found = sorted(page for page in TOP.rglob("*.md") if not {"out", ".git"} & set(page.relative_to(TOP).parts))
    return {page: page.read_text(encoding="utf-8") for page in found}


def fault_of(page, target):
    """What is wrong with a link, or nothing."""
    if re.match("[a-z]+:", target):
        return None
    path, _, place = target.partition("#")
    file = (page.parent / path).resolve() if path else page
    if not file.exists() or TOP not in [file, *file.parents]:
        return "there is no " + path
    if place and place not in set(anchors(file.read_text(encoding="utf-8"))):
        return "no heading is " + target
    return None


def faults(page, text):
    """Each line of a page with a link that leads nowhere, or with a page that is named and not linked."""
    for number, line in prose(text):
        for _, target in LINK.findall(line):
            fault = fault_of(page, target)
            if fault:
                yield number, fault
        for named in re.findall(r"[\w/]+\.md\b", LINK.sub("", line)):
            if page.name not in named and list(TOP.glob("**/" + named)):
                yield number, named + " is no link"


def unlisted(text):
    """Each decision of a page that the list at its top lacks."""
    lines = list(prose(text))
    listed = {target for _, line in lines if line.startswith("- **") for _, target in LINK.findall(line)}
    for number, line in lines:
        if line.startswith("### ") and "#" + anchor(line.lstrip("#")) not in listed:
            yield number, "the list lacks" + line.lstrip("#")


def main():
    """Prints the faults of all pages."""
    texts = pages()
    found = [(page, *fault) for page, text in texts.items() for fault in faults(page, text)]
    found += [(LISTED, *fault) for fault in unlisted(texts[LISTED])]
    return tell(f"{page.relative_to(TOP)}:{number}: {fault}" for page, number, fault in found)


if __name__ == "__main__":
    sys.exit(main())
