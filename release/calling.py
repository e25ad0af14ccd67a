#!/usr/bin/env python3
"""Prints the page of calls of the library, in the form of the pages CALLING.md that the toolchain has for its own
crates: a caller, and each public call with its contract. The caller is the first whole program of the repository's
pages, which a test compares with its examples; the contracts are those of src/.

usage: release/calling.py
"""

import importlib
import re
import sys
from pathlib import Path

TOP = Path(__file__).resolve().parent.parent
sys.dont_write_bytecode = True

PAGES = [TOP / "README.md", TOP / "docs" / "LIBRARY.md"]
HEAD = """# Calling `dotenvy`

`dotenvy` reads environment files. A crate names `dotenvy` in its line of crates.txt; the four crates below it come
along. What allocates takes an allocator and returns a `Result`, and a call on files takes the runtime.

## A caller

```rust
{caller}```

## Contracts

These are quoted from src/. The definitions of their words are beside this page, in the folders specs/ of the five
crates. `self.old` is what `self` was at the call, `self.new` what it is after it.

```text
{contracts}```
"""


def caller():
    """The first whole program on the pages."""
    blocks = re.findall(r"^```rust\n(.*?)^```", "".join(page.read_text() for page in PAGES), re.M | re.S)
    return next(block for block in blocks if "#![tactic(auto)]" in block)


def joined(text):
    """A text on one line, without comments."""
    text = " ".join(re.sub(r"//.*", "", text).split())
    return text.replace("( ", "(").replace(", )", ")").strip(" ,")


def shown(item, before):
    """A call with its clauses, as the page shows it."""
    head = re.split(r"\n\s*(?:requires|ensures)\b", "\n".join(item.lines))[0]
    yield re.sub(r"^(pub )?(const )?fn ", "fn " + before, joined(head))
    for kind, name, text in item.clauses():
        yield f"  {kind}{' ' + name if name else ''}: {joined(text)}"


def main():
    """Prints the page."""
    sys.path.append(str(TOP / "tests"))
    public_calls = importlib.import_module("signatures").public_calls
    lines = [line for item, before in public_calls("dotenvy") for line in shown(item, before)]
    print(HEAD.format(caller=caller(), contracts="".join(line + "\n" for line in lines)), end="")


if __name__ == "__main__":
    main()
