#!/usr/bin/env python3
"""Runs python-dotenv's own tests over the module `dotenv` of this folder, and compares the recorded calls with
python-dotenv itself. The last line is `N passed, M failed`.

usage: peer_tests.py [FOLDER]

FOLDER is the unpacked source package of python-dotenv 1.0.1. Without it the package is fetched from Debian, to a
folder that is removed at the end. A test counts as passed if it passes, or if it fails and a rule below says why.
Where the source package can't be had, or pytest, sh or click isn't there, it says so, and the counts are 0.
"""

import collections
import importlib.util
import os
import shutil
import subprocess
import sys
import tempfile
from pathlib import Path

from recorded import record
from recorded.rules import BARE, BYTES, DEFAULTS, KEYS, LINES, OPEN, QUOTES, ROOT, SINGLE, SPACES

HERE = Path(__file__).resolve().parent
PACKAGE = HERE.parent / "python"
sys.path.append(str(HERE.parent))

import fetch_source  # noqa: E402  # it is beside

ARCHIVE = "python-dotenv_1.0.1.orig.tar.gz"
SHA256 = "96136a298734b7c94ff9ee94fd071273f2443006d7ca3f1f1e6dc3f31ef08aed"
ALL = 152
# Without IPython these tests of its magic aren't collected.
OF_IPYTHON = 3

# The tests that fail: the file, the function, which of its cases, counted from 1, and the rule that says otherwise.
FAILING = {
    ("test_main.py", "test_dotenv_values_string_io", 2): BARE,
    ("test_main.py", "test_dotenv_values_string_io", 6): DEFAULTS,
    ("test_main.py", "test_dotenv_values_string_io", 9): DEFAULTS,
    ("test_main.py", "test_dotenv_values_string_io", 11): SINGLE,
    ("test_main.py", "test_dotenv_values_string_io", 15): DEFAULTS,
    ("test_main.py", "test_dotenv_values_string_io", 16): DEFAULTS,
    ("test_main.py", "test_get_key_encoding", 1): KEYS,
    ("test_main.py", "test_set_key", 3): QUOTES,
    ("test_main.py", "test_set_key", 5): QUOTES,
    ("test_main.py", "test_set_key", 7): BYTES,
    ("test_main.py", "test_set_key_permission_error", 1): ROOT,
    ("test_main.py", "test_set_key_unauthorized_file", 1): ROOT,
    ("test_main.py", "test_unset_encoding", 1): KEYS,
    ("test_parser.py", "test_parse_stream", 3): KEYS,
    ("test_parser.py", "test_parse_stream", 4): KEYS,
    ("test_parser.py", "test_parse_stream", 5): OPEN,
    ("test_parser.py", "test_parse_stream", 7): KEYS,
    ("test_parser.py", "test_parse_stream", 12): SPACES,
    ("test_parser.py", "test_parse_stream", 13): SPACES,
    ("test_parser.py", "test_parse_stream", 14): SPACES,
    ("test_parser.py", "test_parse_stream", 15): SPACES,
    ("test_parser.py", "test_parse_stream", 16): SPACES,
    ("test_parser.py", "test_parse_stream", 27): QUOTES,
    ("test_parser.py", "test_parse_stream", 33): LINES,
    ("test_parser.py", "test_parse_stream", 39): OPEN,
    ("test_parser.py", "test_parse_stream", 43): KEYS,
}


def fetched(folder):
    """The source package, fetched into a folder that isn't there yet."""
    return fetch_source.source("python-dotenv", folder, ARCHIVE, SHA256) / "python-dotenv-1.0.1"


class Outcomes:
    """A plugin of pytest that numbers the cases of each test, and keeps which of them failed."""

    def __init__(self):
        self.places, self.failed = {}, set()

    def pytest_collection_modifyitems(self, items):
        counts = collections.Counter()
        for item in items:
            test = item.path.name if hasattr(item, "path") else Path(str(item.fspath)).name, item.originalname
            counts[test] += 1
            self.places[item.nodeid] = (*test, counts[test])

    def pytest_runtest_logreport(self, report):
        if report.failed or report.outcome == "skipped":
            self.failed.add(self.places[report.nodeid])


def run_tests():
    """Runs the tests in the current directory, in this process, and prints each case that failed."""
    import pytest

    outcomes = Outcomes()
    pytest.main(["-q", "-p", "no:cacheprovider", "tests"], plugins=[outcomes])
    print(f"\n{len(outcomes.places)} cases")
    for place in sorted(outcomes.failed):
        print("|".join(map(str, place)))


def main():
    if sys.argv[1:] == ["--here"]:
        return run_tests()
    missing = [name for name in ("pytest", "sh", "click") if not importlib.util.find_spec(name)]
    if missing:
        print(f"left out: python-dotenv's own tests, which need {', '.join(missing)}", file=sys.stderr)
        print("0 passed, 0 failed")
        return 0
    with tempfile.TemporaryDirectory() as name:
        folder = Path(name)
        try:
            source = Path(sys.argv[1]) if sys.argv[1:] else fetched(folder / "source")
        except fetch_source.Unavailable as why:
            print(f"left out: python-dotenv's own tests: {why}", file=sys.stderr)
            print("0 passed, 0 failed")
            return 0
        counts = compare_tests(source, folder), compare_recorded(source)
        passed, failed = map(sum, zip(*counts))
        print(f"{passed} passed, {failed} failed")
        return failed != 0


def said_by_tests(source, here):
    """What `--here` prints in an empty folder with the tests of a source package."""
    shutil.copytree(str(source / "tests"), str(here / "tests"))
    program = here / "bin/dotenv"
    program.parent.mkdir()
    program.write_text('#!/bin/sh\nexec "%s" -B -m dotenv "$@"\n' % sys.executable)
    program.chmod(0o755)
    paths = [str(HERE), str(PACKAGE), *filter(None, os.environ.get("PYTHONPATH", "").split(os.pathsep))]
    environment = {
        **os.environ,
        "PYTHONPATH": os.pathsep.join(paths),
        "PATH": f"{program.parent}{os.pathsep}{os.environ['PATH']}",
        "PYTHONDONTWRITEBYTECODE": "1",
    }
    words = [sys.executable, "-B", str(Path(__file__).resolve()), "--here"]
    return subprocess.run(words, cwd=str(here), env=environment, stdout=subprocess.PIPE).stdout.decode()


def compare_tests(source, folder):
    """Compares what fails of the tests of a source package with the table.

    It returns how many do as the table says, and how many don't.
    """
    here = folder / "run"
    here.mkdir()
    count = ALL
    if not importlib.util.find_spec("IPython"):
        count -= OF_IPYTHON
        print(f"left out: {OF_IPYTHON} of python-dotenv's own tests, which need IPython", file=sys.stderr)
    said = said_by_tests(source, here)
    report, _, end = said.rpartition("\n%d cases\n" % count)
    if not report:
        print(said)
        print(f"FAILED: there are no {count} cases")
        return 0, 1
    failed = {tuple(line.split("|")[:2]) + (int(line.split("|")[2]),) for line in end.split()}
    expected = {place: rule for place, rule in FAILING.items() if rule != ROOT or os.geteuid() == 0}
    for place in sorted(failed | set(expected)):
        what = "{}, {}, case {}".format(*place)
        if place not in expected:
            print(f"FAILED: {what}")
        elif place not in failed:
            print(f"FAILED: {what}: it passes, though the table says: {expected[place]}")
        else:
            print(f"{what}: {expected[place]}")
    print(f"python-dotenv's own tests: {count - len(failed)} of {count} pass")
    wrong = len(failed ^ set(expected))
    return count - wrong, wrong


def compare_recorded(source):
    """Compares the recorded calls with what a source package gives; how many are the same, and how many differ."""
    names = record.differing(source / "src")
    for name in names:
        print(f"FAILED: the recorded call: {name}")
    count = len(record.calls()) - len(names)
    print(f"recorded calls: {count} are as recorded")
    return count, len(names)


if __name__ == "__main__":
    sys.exit(main())
