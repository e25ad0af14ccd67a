#!/usr/bin/env -S python3 -B
"""Compares the documents with what is played, built and proved: `checks`, at the end, says what is checked, and how.

    documents.py [TEXT]..    makes the checks whose name has one of these texts, or all

It takes a few seconds, and no proof. The last line is `N passed, M failed`.
"""

import difflib
import functools
import glob
import pathlib
import re
import shlex
import subprocess
import sys
import tempfile

from counting import judge
from pages import TOP, blocks, cells, tables, text_of

EXAMPLES = ["library", "service_settings", "layered_settings", "lint_files", "own_contracts"]
LIBRARY = "docs/LIBRARY.md"
CONTRACTS = "docs/CONTRACTS.md"
ENVIRONMENT = "crates/dotenvy_base/src/environment.rt"


def difference(made, wanted):
    """How two texts differ, line by line."""
    return list(difflib.unified_diff(wanted.splitlines(), made.splitlines(), "there", "made", lineterm="", n=0))


def ran(command, top=TOP):
    """What a script of Python prints, and its status."""
    done = subprocess.run([sys.executable, "-B", *shlex.split(command)], cwd=top, stdout=subprocess.PIPE,
                          stderr=subprocess.STDOUT, text=True, check=False)
    return done.stdout, done.returncode


def script(command, top=TOP):
    """What a script prints if it ends with another status than 0."""
    said, status = ran(command, top)
    lines = [line for line in said.splitlines() if not line.startswith("passed: ")]
    return lines + [f"status {status}"] if status else []


def made(command, file, top=TOP):
    """How the text that a script prints differs from a file."""
    said, status = ran(command, top)
    return difference(said, (top / file).read_text(encoding="utf-8")) or ([f"status {status}"] if status else [])


def rows_of(name, top=TOP):
    """How the examples of a page differ from its rows."""
    return made(f"tests/{name}_rows.py", f"crates/test_replay/data/{name}.rows", top)


def counts(top=TOP):
    """How the numbers of rows differ from those that test_replay prints. A row isn't empty, and no comment."""
    replay = top / "crates" / "test_replay"
    lines = []
    for name in (replay / "args").read_text().split():
        rows = (replay / "data" / name).read_text(encoding="utf-8").split("\n")
        lines.append(f"{name}: {sum(row != '' and row[0] != '#' for row in rows)} rows, 0 differ\n")
    return difference("".join(lines), (replay / "stdout").read_text())


def played_files():
    """How the files of rows differ from those that are played."""
    names = sorted(path.name for path in (TOP / "crates/test_replay/data").iterdir())
    return difference("\n".join(sorted(text_of("crates/test_replay/args").split())), "\n".join(names))


def sources():
    """The texts of the sources of the examples."""
    folders = [TOP / "crates" / f"example_{name}" / "src" for name in EXAMPLES]
    return [path.read_text(encoding="utf-8") for folder in folders for path in sorted(folder.rglob("*.rt"))]


def stands_in(block, source):
    """Whether the lines of a block stand in a source, in order. Blanks before a line don't count, and other lines may
    stand between them, such as a contract that the page leaves out."""
    lines = iter(line.lstrip() for line in source.split("\n"))
    return all(line.lstrip() in lines for line in block.split("\n") if line.strip())


def in_no_example(block):
    """Whether a block stands in no source of the examples."""
    return [] if any(stands_in(block, source) for source in sources()) else ["it stands in none"]


def block_checks(page):
    """A check for each block of Rust of a page: it stands in an example."""
    for line, block in blocks(text_of(page), "rust"):
        yield f"{page}, the block at line {line} stands in an example", in_no_example, block


def lines_from_rust():
    """The second cells of the table beside the Rust crate that are in no example, or that there are none."""
    found = [rows for _, _, header, rows in tables(text_of(LIBRARY)) if header == "| dotenvy 0.15.7 | Here |"]
    code = [line for rows in found for row in rows for line in re.findall("`([^`]*)`", cells(row)[1])[-1:]]
    return [f"in no example: {line}" for line in code if line not in "".join(sources())] + ["no line"] * (not code)


def squeezed(text):
    """A text without white space and without lines of comment."""
    return re.sub(r"^ *//.*$|\s", "", text, flags=re.M)


def is_no_contract(block):
    """Whether a block isn't in the source of environments, however both are broken into lines."""
    return [] if squeezed(block) in squeezed(text_of(ENVIRONMENT)) else ["it isn't there"]


def contract_checks():
    """The page has a contract at least, and each one is one of the code."""
    found = list(blocks(text_of(CONTRACTS), "contract"))
    yield f"{CONTRACTS} has a contract", lambda: [] if found else ["it has none"]
    for line, block in found:
        yield f"{CONTRACTS}, the contract at line {line} is that of {ENVIRONMENT}", is_no_contract, block


def numbers():
    """Each place that has another number than the library, of those that nothing prints."""
    text = text_of("bindings/python/pyproject.toml")
    version = re.search(r'^version = "(.*)"$', text, re.M)[1]
    drop_in = re.findall(r"^(?:version|dependencies) = .*$", text_of("bindings/python-dotenv/pyproject.toml"), re.M)
    wanted = [f'version = "{version}"', f'dependencies = ["dotenvy=={version}"]']
    yield from difference("\n".join(wanted), "\n".join(drop_in))
    header = re.findall(r"^#define DOTENVY_VERSION_(?:MAJOR|MINOR|PATCH) (\d+)$", text_of("bindings/c/dotenvy.h"), re.M)
    yield from [] if ".".join(header) == version else [f"bindings/c/dotenvy.h has {'.'.join(header)}"]
    pages = ["README.md", "bindings/README.md", *glob.glob("docs/*.md"), "integrations/github/workflow.yml"]
    for page in pages:
        for name, number in re.findall(r"\b(dotenvy(?:_dotenv)?)-(\d+\.\d+\.\d+)", text_of(page)):
            yield from [] if number == version else [f"{page} has {name}-{number}"]


def unreached_pages():
    """The pages to which the index doesn't lead."""
    index = text_of("docs/README.md")
    names = sorted(path.name for path in TOP.glob("docs/*.md") if path.name != "README.md")
    return [f"docs/README.md doesn't lead to {name}" for name in names if f"]({name})" not in index]


def absent_files():
    """Each file of these folders that a page names in backquotes, and that isn't there."""
    named = 0
    for page in sorted(page for page in TOP.rglob("*.md") if not {"out", "dist", ".git"} & set(page.parts)):
        for number, line in enumerate(page.read_text(encoding="utf-8").split("\n"), 1):
            for name in re.findall(r"`((?:tests|release|bench|bin|integrations|\.ci)/[A-Za-z0-9_./*-]+)[ `]", line):
                named += 1
                if not glob.glob(str(TOP / name)):
                    yield f"{page.relative_to(TOP)}:{number}: there is no {name}"
    yield from [] if named else ["no page names a file"]


@functools.lru_cache(None)
def changed_copy():
    """A folder with a copy of the repository that has the change of CONTRIBUTING.md, and what failed."""
    room = tempfile.TemporaryDirectory()
    return room, pathlib.Path(room.name, "changed"), script(f"tests/worked_change.py {room.name}/changed")


def worked_change():
    """What is wrong in the documents of the copy."""
    _, copy, faults = changed_copy()
    if not faults:
        faults = rows_of("grammar", copy) + rows_of("other_libraries", copy) + counts(copy)
        faults += script("tests/believed.py --check", copy) + script("tests/made_pages.py", copy)
    return faults


def unfit_change():
    """What is said of a change that fits no more, if it isn't refused: a line of the copy is another one."""
    room, copy, _ = changed_copy()
    page = copy / "docs" / "GRAMMAR.md"
    text = page.read_text(encoding="utf-8")
    text = re.sub(r"(?m)^Outside single quotes, a backslash and one of .*", "Another line.", text)
    page.write_text(text, encoding="utf-8")
    said, status = ran(f"tests/worked_change.py {room.name}/again", copy)
    return [] if status != 0 and "CONTRIBUTING.md: 0 places of" in said else [*said.splitlines(), f"status {status}"]


def checks():
    """What is checked, and the function that says what is wrong with it, with its arguments."""
    data = "crates/test_replay/data"
    yield f"{data}/grammar.rows has the examples of docs/GRAMMAR.md", rows_of, "grammar"
    yield f"{data}/check_page.rows has the examples of docs/CHECK.md", rows_of, "check_page"
    yield f"{data}/other_libraries.rows has the examples of docs/OTHER_LIBRARIES.md", rows_of, "other_libraries"
    yield ("docs/OTHER_LIBRARIES.md has what other readers make of its lines",
           script, "tests/other_readers.py --check")
    yield f"{data}/readme.rows has the examples of README.md", rows_of, "readme"
    yield f"{data}/boundaries.rows is what its script prints", rows_of, "boundaries"
    yield "crates/test_replay/stdout has the number of rows of each file", counts
    yield "crates/test_replay/args names each file of rows", played_files
    yield f"{data}/kinds.rows has each kind of row, with its fields", script, "tests/row_kinds.py --check"
    yield from block_checks("README.md")
    yield from block_checks(LIBRARY)
    yield f"{LIBRARY}, each line beside one of the Rust crate is in an example", lines_from_rust
    yield f"{LIBRARY} has each public call", script, "tests/signatures.py --check"
    yield f"{CONTRACTS} says how much has to be believed", script, "tests/believed.py --check"
    yield ("that check sees what leaves the headline's table, or a contract of it",
           script, "tests/try_believed.py")
    yield (f"{CONTRACTS} names what the code has, and each public call has a doc comment",
           script, "tests/contracts.py --check")
    yield "tests/only_tested.txt names rows, tests and scripts that exist", script, "tests/tested_by.py --check"
    yield "each part of the code, and each script, says at its top what it is", script, "tests/map.py --check"
    yield "the manual pages, docs/KINDS.md and the tables of options are fresh", script, "tests/made_pages.py"
    yield ("the table and the manual page have the names that shells keep",
           script, "tests/kept_names.py --lists")
    yield "the change that CONTRIBUTING.md works through leaves the documents right", worked_change
    yield "a worked change that fits no more is refused", unfit_change
    yield "docs/speed.svg is the chart of bench/speed.tsv", made, "bench/chart.py", "docs/speed.svg"
    yield "each link of the pages leads somewhere, and each decision is listed", script, "tests/links.py"
    yield "docs/README.md leads to each page of docs/", unreached_pages
    yield "each script and table that a page names is there", absent_files
    yield "what nothing prints has the number of the library, too", numbers
    yield "each mutant changes the function that its name says", script, "tests/mutants.py"
    yield from contract_checks()


def main(words):
    """Makes the checks that are asked for. The status."""
    chosen = [check for check in checks() if not words or any(word in check[0] for word in words)]
    return judge((what, list(find(*arguments))) for what, find, *arguments in chosen)


if __name__ == "__main__":
    sys.exit(main(sys.argv[1:]))
