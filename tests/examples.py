"""Reads the examples of pages as rows (docs/ROWS.md), for the scripts tests/*_rows.py.

Each row of a table of examples is a row here, or several: by templates, in which `{COLUMN:READER}` stands for a cell as
one of the readers reads it, and `{name}` for the section's name and the number of the example in it, as `comments-7`. A
table or a phrase that isn't known ends the script with status 1, so that no example is passed by.
"""

import pathlib
import re
import sys

from pages import cells, tables, text_of

# Phrases of the pages, and the texts for them. What a phrase has between backticks is the text of an example.
CODE = {"`([^`]*)`": "{0}"}
FILE = {"`([^`]*)`": "{0}\n", "`([^`]*)` \\(no `⏎` at the end\\)": "{0}"}
FAULT = {"fault in `([^`]*)` at ([0-9]+)": "fault at {1}: {0}", "a NUL in `([^`]*)`": "nul {0}"}
FAULT["broken line"] = "io InvalidData"
ITEM = {"`([^`]*)` is `([^`]*)`": "{0}={1}", "`([^`]*)` is empty": "{0}=", **FAULT}
# A value alone is that of `A`.
ITEM.update({"`([^`]*)`": "A={0}", "empty": "A="})
LOAD = {"Ok": "ok", **FAULT}

SIGNS = {"⏎": "\n", "␣": " ", "<TAB>": "\t", "<CR>": "\r", "<NUL>": "\0"}
SIGN = "|".join(SIGNS) + "|<x[0-9A-F]{2}>|<U[+][0-9A-F]{4,6}>"


def refuse(what):
    """Ends the script with status 1."""
    raise SystemExit(sys.argv[0] + ": " + what)


def sign_text(found):
    """What a sign of the examples stands for. A byte that is no text by itself is kept as a surrogate."""
    sign = found.group()
    if sign.startswith("<x"):
        return bytes([int(sign[2:-1], 16)]).decode("utf-8", "surrogateescape")
    return SIGNS[sign] if sign in SIGNS else chr(int(sign[3:-1], 16))


def phrase(said, known):
    """The text for a phrase, which is one of the known ones, its signs read as the grammar's page says."""
    for pattern, text in known.items():
        found = re.fullmatch(pattern, said)
        if found:
            return text.format(*[re.sub(SIGN, sign_text, group) for group in found.groups()])
    return refuse("an unknown phrase: " + said)


def phrases(said, parting, none, known):
    """The texts for phrases that are parted so, and no text for the word that says that there is none."""
    return [] if said == none else [phrase(one, known) for one in said.split(parting)]


def inside(text):
    """A text as it stands within another one in a row."""
    shown = (char if char.isprintable() and char not in "%|;" else in_percent(char) for char in text)
    return "".join(shown)


def in_percent(text):
    """The bytes of a text, each with `%` and two digits."""
    return "".join("%%%02x" % byte for byte in text.encode("utf-8", "surrogateescape"))


def written(text):
    """A text as it stands in a row. A blank at an end would be overlooked, and some words read as something else."""
    shown = inside(text)
    if text.startswith((" ", "fail ")) or text in ("end", "*"):
        shown = in_percent(text[0]) + inside(text[1:])
    return shown[:-1] + in_percent(" ") if text.endswith(" ") and text != " " else shown


def listed(texts):
    """A list of texts as it stands in a row."""
    return "; ".join(written(text) for text in texts)


def in_order(pairs):
    """Pairs in byte order of the names."""
    return sorted(pairs, key=lambda pair: pair.split("=")[0].encode("utf-8"))


def loaded(said):
    """What a load gives. The page tells its answer behind the pairs, and a row before them."""
    pairs, _, answer = said.rpartition("; ")
    return listed([phrase(answer, LOAD)] + in_order(phrases(pairs, ", ", "none", CODE)))


READERS = {
    "code": lambda said: written(phrase(said, CODE)),
    "inside": lambda said: inside(phrase(said, CODE)),
    "file": lambda said: written(phrase(said, FILE)),
    "list": lambda said: listed(phrases(said, ", ", "", CODE)),
    "sorted": lambda said: listed(in_order(phrases(said, ", ", "", CODE))),
    "items": lambda said: listed(phrases(said, ", then ", "nothing", ITEM)),
    "load": loaded,
}
# The row of a file, or of a line, by its environment, its column and the column of its items.
FILE_ROW = "file|{name}|v15|%s|{%s:file}|{%s:items}|*|*|*"
UNDER = "{Environment:list}"


def row_of(template, name, table):
    """The row of an example: by a template, or by a function that takes the rows of its table up to it."""
    if not isinstance(template, str):
        return "|".join(template(name, table))
    cell = r"\{([^{}]*):(\w+)\}"
    return re.sub(cell, lambda found: READERS[found[2]](table[-1][found[1]]), template.replace("{name}", name))


def by_columns(header, line):
    """The cells of a row of a table by their columns."""
    if len(cells(header)) != len(cells(line)):
        refuse("other cells than those of its table: " + line)
    return dict(zip(cells(header), cells(line)))


def rows(page, known, others):
    """The rows of a page, below the names of its sections. Its tables are those of examples, and others."""
    counts = {}
    for section, _, header, lines in tables(text_of(page)):
        if header not in known and header not in others:
            refuse("an unknown table: " + header)
        table = []
        for line in lines if header in known else []:
            table.append(by_columns(header, line))
            if section not in counts:
                yield from ["", "# " + section]
            counts[section] = counts.get(section, 0) + 1
            name = re.sub("[^a-z0-9]+", "-", section.lower()).strip("-") + "-" + str(counts[section])
            yield from (row_of(template, name, table) for template in known[header])


def print_rows(page, known, others):
    """Prints the rows of a page, in UTF-8 wherever it runs."""
    script = pathlib.Path(sys.argv[0]).name
    lines = ["# The examples of " + page + " by its sections, as tests/" + script + " prints them."]
    sys.stdout.buffer.write(("\n".join([*lines, *rows(page, known, others)]) + "\n").encode("utf-8"))
    sys.stdout.flush()
