#!/usr/bin/env python3
"""Builds programs that were written for the crate `dotenvy` 0.15, with this package in its place by `[patch]`, and
compares what they print with what they print with the crate, which is recorded beside them (`programs/NAME.txt`). Where
it differs for the better, `programs/NAME.better` has the lines.

usage: programs.py            the last line is `N passed, M failed`
       programs.py CRATE      compares the recorded lines with what the crate prints; CRATE is its folder
       programs.py CRATE --record
"""
import difflib
import os
import subprocess
import sys
import tempfile
from pathlib import Path

HERE = Path(__file__).resolve().parent

# Each program with its edition.
PROGRAMS = {"behaviour": 2021, "service": 2024, "worker": 2021, "report": 2018}

# Those that use what the crate doesn't have.
OWN = {"settings": 2024}

MANIFEST = """[package]
name = "{name}"
version = "0.1.0"
edition = "{edition}"

[[bin]]
name = "{name}"
path = "{here}/programs/{name}.rs"

[dependencies]
dotenvy = "0.15"

[patch.crates-io]
dotenvy = {{ path = "{crate}" }}
"""


def printed(name, edition, crate, options=()):
    """What a program prints, in a folder of its own. The manifest's last line decides which crate it gets."""
    with tempfile.TemporaryDirectory() as folder:
        Path(folder, "Cargo.toml").write_text(MANIFEST.format(name=name, edition=edition, here=HERE, crate=crate))
        command = ["cargo", "run", "--offline", "--jobs=1", *options]
        environment = {name: value for name, value in os.environ.items() if not name.startswith(("T_", "HOST"))}
        done = subprocess.run(command, cwd=folder, env=environment, capture_output=True, text=True)
    if done.returncode != 0 or "was not used in the crate graph" in done.stderr:
        return f"status {done.returncode}\n{done.stdout}{done.stderr}"
    return done.stdout


def wanted(name):
    """What the crate prints, with the lines that are better here in the place of those that begin alike."""
    lines = (HERE / f"programs/{name}.txt").read_text().splitlines(keepends=True)
    better = HERE / f"programs/{name}.better"
    if better.exists():
        for line in better.read_text().splitlines(keepends=True):
            begin = line.split(" ", 1)[0] + " "
            lines = [line if other.startswith(begin) else other for other in lines]
    return "".join(lines)


def main():
    crate = Path(sys.argv[1]).resolve() if sys.argv[1:] else None
    record = "--record" in sys.argv
    failed = 0
    programs = PROGRAMS if crate else {**PROGRAMS, **OWN}
    for name, edition in programs.items():
        recorded = HERE / f"programs/{name}.txt"
        found = printed(name, edition, crate or HERE)
        if record and not found.startswith("status "):
            recorded.write_text(found)
        expected = recorded.read_text() if crate else wanted(name)
        if found != expected:
            failed += 1
            lines = difflib.unified_diff(expected.splitlines(), found.splitlines(), "wanted", name, lineterm="")
            print(f"FAILED: {name}", *lines, sep="\n", file=sys.stderr)
    print(f"{len(programs) - failed} passed, {failed} failed")
    return failed != 0


if __name__ == "__main__":
    sys.exit(main())
