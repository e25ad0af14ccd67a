#!/usr/bin/env python3
"""Makes the results of `calls.jsonl` anew: what python-dotenv 1.0.1 gives for each of its calls.

usage: record.py [--check] FOLDER

FOLDER has python-dotenv's package `dotenv`. With --check the results are compared, and none is written; the last line
is `N passed, M failed`. To add a call, append a line without a result, as play.py says. Where the module `dotenv` of
this repository gives something else, `here` is its result, and `rule` is the name of the rule in rules.py that says so.
"""

import json
import os
import subprocess
import sys
from pathlib import Path

HERE = Path(__file__).resolve().parent
CALLS = HERE / "calls.jsonl"
VERSION = "1.0.1"


def calls():
    """The recorded calls."""
    return [json.loads(line) for line in CALLS.read_text().splitlines()]


def played(paths):
    """The results of the calls over the module `dotenv` that is found by these paths, in order."""
    environment = {
        **os.environ, "PYTHONPATH": os.pathsep.join(map(str, paths)), "PYTHONDONTWRITEBYTECODE": "1",
    }
    words = [sys.executable, "-B", str(HERE / "play.py"), str(CALLS)]
    said = subprocess.run(words, env=environment, stdout=subprocess.PIPE, check=True).stdout.decode()
    return [json.loads(line) for line in said.splitlines()]


def version_of(folder):
    """The version of the package `dotenv` in a folder."""
    words = [sys.executable, "-B", "-c", "from dotenv.version import __version__; print(__version__)"]
    environment = {**os.environ, "PYTHONPATH": str(folder)}
    return subprocess.run(words, env=environment, stdout=subprocess.PIPE, check=True).stdout.decode().strip()


def differing(folder):
    """The names of the calls for which the package in a folder has another result than the recorded one."""
    pairs = zip(calls(), played([folder]))
    return [call["name"] for call, result in pairs if result is not None and result != call["result"]]


def write(folder):
    """Writes the results of the package in a folder. A call that can't be played keeps its result."""
    lines = []
    for call, result in zip(calls(), played([folder])):
        parts = {**call, "result": result or call.get("result")}
        # What differs comes last.
        ends = {key: parts.pop(key) for key in ("rule", "here") if key in parts}
        lines.append(json.dumps({**parts, **ends}, ensure_ascii=True) + "\n")
    CALLS.write_text("".join(lines))


def main():
    words = sys.argv[1:]
    is_check = words[:1] == ["--check"]
    if len(words) != 1 + is_check:
        sys.exit("usage: record.py [--check] FOLDER")
    folder = Path(words[-1]).resolve()
    if version_of(folder) != VERSION:
        sys.exit(f"record.py: {folder} has no python-dotenv {VERSION}")
    if not is_check:
        return write(folder)
    names = differing(folder)
    for name in names:
        print(f"FAILED: {name}")
    print(f"{len(calls()) - len(names)} passed, {len(names)} failed")
    return bool(names)


if __name__ == "__main__":
    sys.exit(main())
