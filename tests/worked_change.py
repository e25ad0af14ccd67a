#!/usr/bin/env python3
"""Makes the change that CONTRIBUTING.md works through, as it is written there, on a copy of the repository.

    worked_change.py FOLDER     copies the repository to FOLDER, which must not be there, and changes the copy

A block labelled `diff` names its file in the line `--- FILE`; a line `@@` parts two places of a file. What a place has
before the change, its lines that begin with a blank or `-`, is in the file exactly once. A file whose block has only
`+` is new. A place that is changed already stays. Then the lines of the block labelled `sh write` are run. The status
is 1 where a step fits no more.
"""

import pathlib
import re
import shutil
import subprocess
import sys

TOP = pathlib.Path(__file__).resolve().parent.parent
SECTION = "## One change, worked through\n"


def built(folder, names):
    """What is built in a folder, and git's own: none of it is copied."""
    return {name for name in names if name in (".git", "out", "dist") or (name == "target" and folder.endswith("rust"))}


def side(place, signs):
    """The lines of a place that begin with one of these signs, without it."""
    return "".join(line[1:] + "\n" for line in place if line[:1] in signs)


def make(change, copy):
    """Makes the change of one block."""
    name, *lines = change.rstrip("\n").split("\n")
    file = copy / name[len("--- "):]
    for place in "\n".join(lines).split("\n@@\n"):
        old, new = (side(place.split("\n"), signs) for signs in (" -", " +"))
        text = file.read_text(encoding="utf-8") if file.exists() else ""
        if text.count(new) == 1:
            continue
        if text.count(old) != 1 and (old or text):
            raise SystemExit(f"CONTRIBUTING.md: {text.count(old)} places of {name} are this one:\n{old}")
        file.write_text(text.replace(old, new) if old else new, encoding="utf-8")


def main(words):
    """Makes the copy and each change in it."""
    copy = pathlib.Path(words[0])
    shutil.copytree(TOP, copy, symlinks=True, ignore=built)
    section = (TOP / "CONTRIBUTING.md").read_text(encoding="utf-8").partition(SECTION)[2].partition("\n## ")[0]
    changes = re.findall(r"^```diff\n(.*?)^```", section, re.M | re.S)
    for change in changes:
        make(change, copy)
    commands = "".join(re.findall(r"^```sh write\n(.*?)^```", section, re.M | re.S))
    if not changes or not commands:
        raise SystemExit("CONTRIBUTING.md has no change, or no command that writes what is made")
    subprocess.run(["bash", "-euc", commands], cwd=copy, check=True)


if __name__ == "__main__":
    main(sys.argv[1:])
