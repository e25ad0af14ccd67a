#!/usr/bin/env python3
"""Runs tests, and sums up what they count.

    run.py             lists the tests: the programs that each needs, and about how long it takes
    run.py NAME..      runs these; NAME:WORD gives a test a word, such as documents:chart or lint:tests/run.py
    run.py --quick     runs those that need no built program
    run.py --passed .. prints what passed, too

Of a test everything is printed but the lines `passed: ..`, and then its sums. The last line is `N passed, M failed`.
The status is 1 if anything failed: also if a test printed no sums, ended with a status that they don't explain, or left
out checks. A program is needed in crates/NAME/out, where `rt run` in crates/NAME, or `rt ci`, puts it.
"""

import collections
import os
import pathlib
import re
import shlex
import signal
import subprocess
import sys
import time

TOP = pathlib.Path(__file__).resolve().parent.parent
SUMS = re.compile(rb"(\d+) passed, (\d+) failed\n")

Test = collections.namedtuple("Test", "name command needs takes checks word", defaults=[None, None])


def edit_checks():
    """Of each dialect 500 drawn files and 60 short ones; 500 values; the examples of the table and of the page."""
    page = subprocess.run([sys.executable, "-B", TOP / "tests" / "edit_page.py"], stdout=subprocess.PIPE, check=True)
    table = (TOP / "tests" / "edit_examples.tsv").read_text(encoding="utf-8")
    return 2 * 500 + 2 * 60 + 500 + table.count("\n") - 1 + page.stdout.count(b"\n")


ALL = "dotenvy_run dotenvy_check dotenvy_export dotenvy_edit dotenvy_c"
TESTS = [
    Test("documents", "tests/documents.py", "", "10 s"),
    Test("words", "tests/words.py", "", "1 s"),
    Test("manual_page", "tests/manual_page.py", "", "1 s"),
    Test("lint", "tests/lint.sh", "", "40 s"),
    Test("mutants", "tests/mutants.py", "", "1 s"),
    Test("install", "tests/install.sh", "", "10 s"),
    Test("slips", "tests/slips.py", "", "1 min"),
    Test("try_mutants", "tests/try_mutants.sh", "", "20 s"),
    Test("report_model", "tests/report_model.py --examples", "", "1 s"),
    Test("report_by_model", "tests/report.py --model", "", "20 s"),
    Test("kinds_by_model", "tests/kinds.py --model", "", "1 s"),
    Test("edit_model", "tests/edit_model.py --examples", "", "1 s"),
    Test("edit_by_model", "tests/edit.py --model", "", "20 s"),
    Test("export_by_model", "tests/export_pairs.py --model model", "", "10 s"),
    Test("edit_model_rows", "tests/edit_model.py --rows", "", "5 s"),
    Test("export_recorded", "tests/export_recorded.py", "", "20 s"),
    Test("check", "tests/check.sh", "dotenvy_check", "10 s"),
    Test("export", "tests/export.sh", "dotenvy_export", "10 s"),
    Test("exec", "tests/exec.sh", "dotenvy_export", "30 s"),
    Test("edit", "tests/edit.sh", "dotenvy_edit", "10 s"),
    Test("edit_faults", "tests/edit_faults.sh", "dotenvy_edit", "30 s"),
    Test("integrations", "tests/integrations.sh", "dotenvy_check", "10 s"),
    Test("report", "tests/report.py", "dotenvy_check", "20 s"),
    Test("kinds", "tests/kinds.py", "dotenvy_check", "1 s"),
    # The models need no tool, so nothing is left out: each of the 6 targets has 300 environments.
    Test("export_pairs", "tests/export_pairs.py --files 300 model", "dotenvy_export", "20 s", lambda: 1800),
    Test("edit_drawn", "tests/edit.py --files 500 --short 1 --values 500", "dotenvy_edit", "20 s", edit_checks),
    Test("recipes", "tests/recipes.sh", "dotenvy_run dotenvy_check dotenvy_export", "10 s"),
    Test("program", "tests/program.sh", "dotenvy_run dotenvy_export dotenvy_edit", "20 s"),
    Test("bindings", "bindings/test.sh --built", "dotenvy_c", "10 min"),
    Test("trusted", "tests/trusted.py", ALL, "1 min"),
    Test("release", "./release.sh", ALL, "20 min"),
]


def play(test, shows_all):
    """Runs a test, and prints what it prints: the last line and the status."""
    last = b""
    environment = {**os.environ, "PYTHONDONTWRITEBYTECODE": "1"}
    command = shlex.split(test.command) + ([test.word] if test.word else [])
    with subprocess.Popen(command, cwd=TOP, env=environment, stdout=subprocess.PIPE) as process:
        try:
            for line in process.stdout:
                # The sums come last, and are printed with the name.
                if last and not SUMS.fullmatch(last) and (shows_all or not last.startswith(b"passed: ")):
                    sys.stdout.buffer.write(last)
                    sys.stdout.flush()
                last = line
        except BaseException:
            process.terminate()
            raise
    return last, process.returncode


def count(test, shows_all):
    """Runs a test: how many checks passed, and how many failed."""
    begun = time.monotonic()
    last, status = play(test, shows_all)
    sums = SUMS.fullmatch(last)
    passed, failed = map(int, sums.groups()) if sums else (0, 1)
    faults = [] if sums else [f"it printed no sums, but ends with {last.decode(errors='backslashreplace').rstrip()!r}"]
    if status != 0 and failed == 0:
        failed, faults = 1, [f"it ended with status {status}"]
    if test.checks and not test.word:
        made, wanted = passed + failed, test.checks()
        passed, failed = (passed + 1, failed) if made == wanted else (passed, failed + 1)
        faults += [] if made == wanted else [f"{made} checks in place of {wanted}"]
    for fault in faults:
        print(f"FAILED: {test.name}, {test.command}: {fault}")
    print(f"{test.name}: {passed} passed, {failed} failed, {time.monotonic() - begun:.0f} s", flush=True)
    return passed, failed


def listing():
    """The tests, one a line."""
    return "\n".join(
        f"{test.name:16} {test.takes:>6}  {'all' if test.needs == ALL else test.needs or '-':40} {test.command}"
        for test in TESTS)


def named(words):
    """The tests that the words of the command line name."""
    by_name = {test.name: test for test in TESTS}
    for name, _, word in (asked.partition(":") for asked in words):
        if name not in by_name:
            raise SystemExit(f"run.py: there is no test {name}; without a word it lists them")
        yield by_name[name]._replace(word=word)


def main(words):
    """Does what the words of the command line say, and returns the status."""
    signal.signal(signal.SIGTERM, lambda *_: sys.exit(143))
    shows_all = "--passed" in words
    words = [word for word in words if word != "--passed"]
    if not words or words[0].startswith("-") and words != ["--quick"]:
        print(__doc__.strip(), listing(), sep="\n\n")
        return 2 if words and words != ["--help"] else 0
    tests = [test for test in TESTS if not test.needs] if words == ["--quick"] else list(named(words))
    counts = [count(test, shows_all) for test in tests]
    passed, failed = map(sum, zip(*counts))
    print(f"{passed} passed, {failed} failed")
    return 1 if failed else 0


if __name__ == "__main__":
    sys.exit(main(sys.argv[1:]))
