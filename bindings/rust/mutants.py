#!/usr/bin/env python3
"""Plants bugs in this package and has its tests find each. `mutants.txt` has them: a line `== NAME | FILE | TESTS`,
then the text that is replaced, a line `--`, and the text that takes its place. Both are in one function. TESTS is the
file of `tests` that finds it, or `lib`.

usage: mutants.py [TEXT ..]      all, or those in whose first lines one of these texts is. The last line is
`N passed, M failed`.

It works on a copy, which is built once, with all of them: each function that has mutants asks at each call which one is
chosen. Without one, all tests have to pass.
"""
import json
import os
import re
import shutil
import subprocess
import sys
import tempfile
from collections import namedtuple
from pathlib import Path

HERE = Path(__file__).resolve().parent

Mutant = namedtuple("Mutant", "number name file tests old new")

# A function from its first line to its last one, with the spaces before it and what it does.
FUNCTION = re.compile(r"^( *)(?:pub(?:\(\w+\))? )?fn \w[^;]*?\{\n(.*?)^\1\}\n", re.DOTALL | re.MULTILINE)

# The number of the mutant that is chosen, or 0. Tests remove some variables, and not this one.
CHOSEN = """
fn chosen_mutant() -> usize {
    static CHOSEN: std::sync::OnceLock<usize> = std::sync::OnceLock::new();
    *CHOSEN.get_or_init(|| std::env::var("MUTANT").map_or(0, |number| number.parse().unwrap()))
}
"""

SECONDS = 300


class Misplaced(Exception):
    """Why a mutant has no place."""


def mutants():
    entries = (HERE / "mutants.txt").read_text().split("\n== ")[1:]
    for number, entry in enumerate(entries, 1):
        title, text = entry.split("\n", 1)
        old, new = (text.rstrip("\n") + "\n").split("--\n", 1)
        yield Mutant(number, *title.split(" | "), old.rstrip("\n"), new.rstrip("\n"))


def function_of(source, mutant):
    """The function that a mutant is in, as a match."""
    if source.count(mutant.old) != 1:
        raise Misplaced(f"{mutant.name}: {source.count(mutant.old)} places have its text")
    start = source.index(mutant.old)
    for function in FUNCTION.finditer(source):
        if function.start() <= start and start + len(mutant.old) <= function.end():
            return function
    raise Misplaced(f"{mutant.name}: its text is in no function")


def with_choice(source, of_file):
    """A file in which each function does what the mutant says that is chosen."""
    bodies = {}
    for mutant in of_file:
        function = function_of(source, mutant)
        mutated = FUNCTION.match(function.group().replace(mutant.old, mutant.new))
        if not mutated:
            raise Misplaced(f"{mutant.name}: it leaves no function")
        bodies.setdefault(function.span(2), []).append(f"{mutant.number} => {{\n{mutated[2]}}}\n")
    for (start, end), arms in sorted(bodies.items(), reverse=True):
        arms.append(f"_ => {{\n{source[start:end]}}}\n")
        source = f"{source[:start]}match chosen_mutant() {{\n{''.join(arms)}}}\n{source[end:]}"
    return source + CHOSEN


def archive_folder():
    packed = HERE / "lib"
    return os.environ.get("DOTENVY_LIB_DIR") or (packed if packed.is_dir() else HERE / "../out").resolve()


def build(tests, folder, environment):
    """The programs of these tests of the package in this folder, by their names."""
    command = ["cargo", "test", "--offline", "--jobs=1", "--all-features", "--no-run", "--message-format=json"]
    for name in tests:
        command += ["--lib"] if name == "lib" else ["--test", name]
    done = subprocess.run(command, cwd=folder, env=environment, stdout=subprocess.PIPE, text=True)
    programs = {}
    for line in done.stdout.splitlines():
        told = json.loads(line)
        if told.get("message", {}).get("level") == "error":
            print(told["message"]["rendered"], file=sys.stderr)
        if told.get("executable") and told["profile"]["test"]:
            name = "lib" if told["target"]["kind"] == ["lib"] else told["target"]["name"]
            programs[name] = told["executable"]
    return programs if done.returncode == 0 else {}


def outcome(program, folder, environment):
    """Whether tests pass, and which don't."""
    limited = ["sh", "-c", 'ulimit -v 4000000 && exec "$0"', program]
    try:
        done = subprocess.run(limited, cwd=folder, env=environment, capture_output=True, text=True, timeout=SECONDS)
    except subprocess.TimeoutExpired:
        return False, f"it takes more than {SECONDS} seconds"
    named = [line[5:].split(" ... ")[0] for line in done.stdout.splitlines() if line.endswith("... FAILED")]
    return done.returncode == 0, ", ".join(named) or f"status {done.returncode}: {done.stderr[-200:]}"


def try_mutants(chosen, folder, environment):
    """How many mutants are found, and how many aren't; with tests that fail without one."""
    programs = build(sorted({mutant.tests for mutant in chosen}), folder, environment)
    if not programs:
        print("FAILED: the mutants can't be built", file=sys.stderr)
        return 0, len(chosen)
    failed = 0
    for tests, program in programs.items():
        passes, said = outcome(program, folder, environment)
        if not passes:
            failed += 1
            print(f"FAILED: {tests}, without a mutant: {said}", file=sys.stderr, flush=True)
    passed = 0
    for mutant in chosen:
        passes, said = outcome(programs[mutant.tests], folder, {**environment, "MUTANT": str(mutant.number)})
        passed, failed = passed + (not passes), failed + passes
        verdict = f"FAILED: {mutant.name}: no test of {mutant.tests} finds it" if passes else f"{mutant.name}: {said}"
        print(verdict, file=sys.stderr, flush=True)
    return passed, failed


def plant(planted, folder):
    """A copy of this package in a folder, with these mutants."""
    shutil.copytree(HERE, folder, ignore=shutil.ignore_patterns("target"))
    for file in sorted({mutant.file for mutant in planted}):
        of_file = [mutant for mutant in planted if mutant.file == file]
        (folder / file).write_text(with_choice((HERE / file).read_text(), of_file))


def main():
    asked = sys.argv[1:] or [""]
    planted = list(mutants())
    with tempfile.TemporaryDirectory() as room:
        folder = Path(room, "rust")
        try:
            plant(planted, folder)
        except Misplaced as why:
            print(f"FAILED: {why}\n0 passed, 1 failed")
            return 1
        changed = {
            "CARGO_TARGET_DIR": str(Path(room, "target")),
            "CARGO_PROFILE_DEV_DEBUG": "0",
            "CARGO_INCREMENTAL": "0",
            "DOTENVY_LIB_DIR": str(archive_folder()),
            "RUSTFLAGS": "-Awarnings",
            "RUST_BACKTRACE": "0",
        }
        chosen = [mutant for mutant in planted if any(text in " | ".join(mutant[1:4]) for text in asked)]
        passed, failed = try_mutants(chosen, folder, {**os.environ, **changed})
    print(f"{passed} passed, {failed} failed")
    return failed != 0


if __name__ == "__main__":
    sys.exit(main())
