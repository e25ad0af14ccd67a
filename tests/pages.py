"""Reads pages for other scripts: headings, tables, and blocks of code by their labels."""

import pathlib
import re

TOP = pathlib.Path(__file__).resolve().parent.parent
DOCS = TOP / "docs"
LINK = re.compile(r"\[([^\]]*)\]\(([^)\s]+)\)")


def text_of(page):
    """The text of a page, such as docs/CHECK.md."""
    return (TOP / page).read_text(encoding="utf-8")


def prose(text):
    """The numbered lines of a page without its blocks of code."""
    inside = False
    for number, line in enumerate(text.split("\n"), 1):
        if line.lstrip().startswith("```"):
            inside = not inside
        elif not inside:
            yield number, line


def blocks(text, label):
    """The blocks that have this label: the number of the first line of each, and its text."""
    for found in re.finditer(r"^```([^\n]*)\n(.*?)^```$", text, re.M | re.S):
        if found[1] == label:
            yield text.count("\n", 0, found.start(2)) + 1, found[2]


def section(text, title):
    """The text of the section with this title, and of those below it."""
    return text.partition(f"\n## {title}\n")[2].partition("\n## ")[0]


def cells(row):
    """The cells of a row of a table."""
    return [cell.strip().replace("\\|", "|") for cell in re.split(r"(?<!\\)\|", row)[1:-1]]


def tables(text):
    """The tables: the section of each, the heading above it, the line with its columns, and its rows."""
    title, heading, table = "", "", []
    for _, line in [*prose(text), (0, "")]:
        if line.lstrip().startswith("|"):
            table.append(line.strip())
            continue
        if table:
            yield title, heading, table[0], table[2:]
        table = []
        if line.startswith("#"):
            heading = line.lstrip("# ")
            title = heading if line.startswith("## ") else title


def anchor(heading):
    """The name by which a heading is linked: its words in lower case, with hyphens between them."""
    text = LINK.sub(r"\1", heading).lower()
    return re.sub(r"[^\w\- ]", "", text).strip().replace(" ", "-")


def anchors(text):
    """The anchors of a page. A heading that comes again has a number after its name."""
    counts = {}
    for _, line in prose(text):
        if re.match("#+ ", line):
            name = anchor(line.lstrip("#"))
            counts[name] = counts.get(name, -1) + 1
            yield name if counts[name] == 0 else f"{name}-{counts[name]}"
