#!/usr/bin/env python3
"""Prints each public call of `dotenvy` and `env_layers` with its signature, below the file in which its contract is.

    signatures.py            prints the calls
    signatures.py --check    compares their names with the table of docs/LIBRARY.md, "The calls"

With --check it prints what differs, and ends with status 1 if anything does. Generic parameters, contracts and `where`
clauses are left out: `Environment::len(&self) -> usize`.
"""

import re
import signal
import sys

from counting import tell
from rattle import CRATES, TOP, dependencies, items_of, re_exported, source_files

PAGE = TOP / "docs" / "LIBRARY.md"
LIBRARIES = ["dotenvy", "env_layers"]


def crates_below(name, needs):
    """This crate of the repository and those on which it depends."""
    return {name}.union(*(crates_below(below, needs) for below in needs.get(name, []) if below in needs))


def exported(library):
    """The public names of a library, each with the module that its users call it by, if it isn't at the root."""
    names = {}
    for name, _, module in re_exported(CRATES / library / "src" / "lib.rt"):
        names[name] = min(names.get(name, "~"), module and module + "::")
    return names


def without_parameters(text):
    """A signature without the parameters in angle brackets that follow its name."""
    name = re.match(r"\w+", text).group()
    rest, depth = text[len(name):], 0
    if rest.startswith("<"):
        for place, char in enumerate(rest):
            depth += (char == "<") - (char == ">" and rest[place - 1] != "-")
            if depth == 0:
                return name + rest[place + 1:]
    return text


def signature(lines):
    """The signature in these lines, on one line."""
    text = re.split(r"\s(?:requires|ensures|where)\b|\s*\{", " ".join(line.strip() for line in lines))[0]
    text = without_parameters(re.sub(r"^.*?\bfn ", "", text).strip())
    text = re.sub(r"([(,] ?)mut (?=\w+[:,)])", r"\1", text.replace("( ", "("))
    return re.sub(r",? \)", ")", text)


def public_calls(library):
    """The public calls of a library: of each the item, and what its users write before the name."""
    names = exported(library)
    for crate in sorted(crates_below(library, dependencies()) - set(LIBRARIES) | {library}):
        for item in (item for file in source_files(crate) for item in items_of(file)):
            public, *method = item.path[2:]
            if item.is_call() and public in names:
                yield item, names[public] + (public + "::" if method else "")


def calls_of_code():
    """Every public call of the libraries: the file in which it is, and its signature."""
    for library in LIBRARIES:
        yield from ((item.file, before + signature(item.lines)) for item, before in public_calls(library))


def names_on_page():
    """The names in the table of the page."""
    table = re.search(r"^\| To \| Calls \|\n\|[-|]+\n((?:\|.*\n)+)", PAGE.read_text(), re.M).group(1)
    return [name for line in table.splitlines() for name in re.findall("`([^`]+)`", line.split("|")[2])]


def faults(names):
    """What is on one side and not on the other one."""
    page = names_on_page()
    wrong = ["docs/LIBRARY.md lacks " + name for name in sorted(names - set(page))]
    wrong += ["no public call is " + name for name in sorted(set(page) - names)]
    wrong += ["docs/LIBRARY.md has twice " + name for name in sorted(set(page)) if page.count(name) > 1]
    return wrong + ["the code has too few public calls"] * (len(names) < 40)


def main(words):
    """Reads the command line."""
    calls = list(dict.fromkeys(calls_of_code()))
    if words == ["--check"]:
        return tell(faults({call.partition("(")[0] for _, call in calls}))
    # A reader, such as `head`, may end before all is printed.
    signal.signal(signal.SIGPIPE, signal.SIG_DFL)
    last = None
    for file, call in calls:
        if file != last:
            print(("" if last is None else "\n") + f"{file}:")
        print("    " + call)
        last = file
    return 0


if __name__ == "__main__":
    sys.exit(main(sys.argv[1:]))
