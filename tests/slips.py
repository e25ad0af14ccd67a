#!/usr/bin/env -S python3 -B
"""Makes deliberate slips on a copy of the repository, and sees that tests/run.py finds each.

    slips.py [TEXT]..    makes the slips whose name or test has one of these texts, or all

A line of tests/slips.tsv has the slip's name, a file, what is replaced in it (a regular expression, whose first match
counts), by what, the test that has to find it, a part of what that has to say, and the command that it needs, or `-`.
Before the slip the test has to pass. It takes about a minute. The last line is `N passed, M failed`.
"""

import collections
import functools
import pathlib
import re
import shutil
import subprocess
import sys
import tempfile

from counting import judge
from pages import TOP
from worked_change import built

TABLE = TOP / "tests" / "slips.tsv"

Slip = collections.namedtuple("Slip", "name file old new test said needs")


def slips():
    """The slips of the table."""
    return [Slip(*line.split("\t")) for line in TABLE.read_text(encoding="utf-8").splitlines()[1:]]


def copied(folder):
    """A copy of the repository, with a repository of git's own, since some tests ask git which files there are."""
    copy = folder / "copy"
    shutil.copytree(TOP, copy, symlinks=True, ignore=built)
    for words in (["init", "--quiet"], ["add", "--all"]):
        subprocess.run(["git", *words], cwd=copy, check=True)
    return copy


def ran(copy, test):
    """Whether a test passes on the copy, and what it prints."""
    command = [sys.executable, "-B", copy / "tests" / "run.py", test]
    done = subprocess.run(command, stdout=subprocess.PIPE, stderr=subprocess.STDOUT, text=True, check=False)
    return done.returncode == 0 and re.search(r"^[1-9]\d* passed, 0 failed\n\Z", done.stdout, re.M), done.stdout


@functools.lru_cache(None)
def faults_before(copy, test):
    """What is wrong with a test without a slip."""
    passes, said = ran(copy, test)
    return [] if passes else ["the test fails without it", *said.splitlines()]


def faults(copy, slip):
    """What is wrong where a slip is made: it can't be made, or isn't found."""
    before, file = faults_before(copy, slip.test), copy / slip.file
    old = file.read_bytes() if file.exists() else None
    text, count = re.subn(slip.old, slip.new, (old or b"").decode("utf-8"), count=1)
    if before or not count:
        return before or [f"{slip.file} has nothing that is replaced"]
    file.write_text(text, encoding="utf-8")
    passes, said = ran(copy, slip.test)
    if old is None:
        file.unlink()
    else:
        file.write_bytes(old)
    return ["it isn't found", *said.splitlines()] if passes or slip.said not in said else []


def main(words):
    """Makes the slips that are asked for. The status."""
    chosen = [slip for slip in slips() if not words or any(word in slip.name + slip.test for word in words)]
    for slip in [slip for slip in chosen if slip.needs != "-" and not shutil.which(slip.needs)]:
        chosen.remove(slip)
        print(f"left out: {slip.name}, as {slip.needs} is not installed")
    with tempfile.TemporaryDirectory() as folder:
        copy = copied(pathlib.Path(folder)) if chosen else None
        return judge((f"{slip.name}: {slip.test}", faults(copy, slip)) for slip in chosen)


if __name__ == "__main__":
    sys.exit(main(sys.argv[1:]))
