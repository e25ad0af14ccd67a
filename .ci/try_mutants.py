#!/usr/bin/env python3
"""Has the prover refuse the mutants beside `rt ci`, which proves the same crates without them.

usage: .ci/try_mutants.py PROVED PRINTED PROCESS

PROVED is a copy of the checkout without mutants, in which `rt ci` works, PRINTED the file to which it prints, and
PROCESS its number. The mutants of a crate are tried once it is proved, with those below it: in a copy, the crates with
most of them first, and as many side by side as there are processors, which yield to other work. Since `rt check` tells
each function that isn't proved, one check tries mutants of different functions at once. A mutant is refused where it
tells a goal of the mutant's own function, and of no other mutant's, if the crate without mutants is proved in that
copy, before and after. What is not refused so, `rt must-fail` tries by itself, and its answer counts. The last line is
`N passed, M failed`.
"""
import concurrent.futures
import os
import pathlib
import re
import shutil
import signal
import subprocess
import sys
import tempfile
import time

from take_built import crates_below

TOP = pathlib.Path(__file__).resolve().parent.parent
sys.path.append(str(TOP / "tests"))
from mutants import Mutant  # noqa: E402  # it is with the tests

SAID = re.compile(r"^rt: must-fail \w+/(\S+\.edit): (.*)$", re.M)
REFUSED = "refused, as it must be"
NOT_TRIED = "NOT TRIED: its crate isn't proved, or `rt must-fail` says nothing of it"
# What `rt check` tells of a goal, at the end: not what it tells so far, and no advice.
TOLD = re.compile(r"^(?:note: \S+?:\d+:\d+: |\S+?:\d+:\d+: error: ).*", re.M)
# A proof that names what a mutant took away says nothing of the contract.
NAMES_OTHERS = re.compile(r"\S*proofs/.*(?:has no field|is not in scope|has no `|was not admitted)")
# A text that doesn't compile, or that the prover can't read: then no contract was tried.
UNREAD = re.compile(r"^(?:\./)?(?:src|specs)/\S+?:\d+:\d+: error", re.M)
NOT_PROVED = re.compile(r"^logic=not-proved", re.M)
MOST_TOLD = 300
running = set()


def files_of(crate):
    """The files of a crate's mutants. One that `rt` wouldn't take counts as one that isn't tried."""
    files = sorted((TOP / "crates" / crate.name / "must-fail").rglob("*"))
    return [file for file in files if file.is_file() and file.suffix != ".md"]


def is_proved(crate, printed):
    """Whether `rt ci` has proved the crate and those below."""
    proved = set(re.findall(r"^rt: (\w+) (?:proved|is kept)", printed, re.M))
    return {it.name for it in [crate, *crate.below()]} <= proved


def groups_of(mutants):
    """Parts mutants into groups in which no two change the same function. What changes something else is in none."""
    groups = []
    for mutant in mutants:
        if len(set(mutant.changed)) == 1 and mutant.changed[0][1] and not mutant.fault:
            group = next((group for group in groups if mutant.changed[0] not in group), None)
            if group is None:
                group = {}
                groups.append(group)
            group[mutant.changed[0]] = mutant
    return [list(group.values()) for group in groups]


def refusals(mutants, printed):
    """What one check has said of mutants: the first goal in the function of each that is in no other's."""
    said = {}
    for line in TOLD.findall(printed):
        text = f"{REFUSED}: {line[:MOST_TOLD]}"
        own = [mutant.name for mutant in mutants if mutant.wrong_goal(text) is None]
        if len(own) == 1 and not NAMES_OTHERS.match(line):
            said.setdefault(own[0], text)
    return said


def call(folder, *words):
    """Calls `rt` in a folder. Returns its status and what it printed."""
    streams = {"stdin": subprocess.DEVNULL, "stdout": subprocess.PIPE, "stderr": subprocess.STDOUT}
    with subprocess.Popen(["nice", "rt", *words], cwd=folder, text=True, errors="replace", **streams) as process:
        running.add(process)
        printed, _ = process.communicate()
        running.discard(process)
    return process.returncode, printed


class Trial:
    """A copy of the crates of a checkout, in which mutants of one crate are tried over the libraries below it."""

    def __init__(self, proved, crate, room):
        self.room, self.crate = pathlib.Path(room), crate
        self.folder = self.room / "crates" / crate.name
        for name in ("crates.txt", "HANDLES"):
            shutil.copy(proved / name, room)
        shutil.copytree(proved / "crates", self.room / "crates", ignore=shutil.ignore_patterns("out"))
        take = [TOP / ".ci" / "take_built.py", proved, room, crate.name]
        subprocess.run(take, stdout=subprocess.DEVNULL, check=True)

    def check(self):
        """Checks the crate as it lies there."""
        return call(self.folder, "check", "--jobs", "1")

    def together(self, mutants):
        """Tries mutants of different functions by one check. Returns what is said of those that are refused."""
        kept, applied = {}, []
        for mutant in mutants:
            if all((self.folder / file).read_text(encoding="utf-8").count(old) == 1 for file, old, _ in mutant.edits):
                applied.append(mutant)
                for file, old, new in mutant.edits:
                    path = self.folder / file
                    text = path.read_text(encoding="utf-8")
                    kept.setdefault(path, text)
                    path.write_text(text.replace(old, new), encoding="utf-8")
        _, printed = self.check()
        for path, text in kept.items():
            path.write_text(text, encoding="utf-8")
        is_read = NOT_PROVED.search(printed) and not UNREAD.search(printed)
        return refusals(applied, printed) if is_read else {}

    def by_themselves(self, files):
        """Has `rt must-fail` try mutants. Returns what it says of each."""
        for file in files:
            to = self.room / file.relative_to(TOP)
            to.parent.mkdir(parents=True, exist_ok=True)
            shutil.copy(file, to)
        return dict(SAID.findall(call(self.room, "must-fail", self.crate.name)[1]))


def tried(proved, crate):
    """Tries the mutants of a crate. Returns what is said of each."""
    files, said = files_of(crate), {}
    with tempfile.TemporaryDirectory() as room:
        trial = Trial(proved, crate, room)
        groups = groups_of([Mutant(file) for file in files if file.suffix == ".edit"])
        # Each check of mutants proves what they leave alone by what this one has kept.
        if groups and trial.check()[0] == 0:
            for group in groups:
                said.update(trial.together(group))
            if trial.check()[0]:
                said = {}
        left = [file for file in files if file.name not in said]
        if left:
            said.update(trial.by_themselves(left))
    return [(crate, file, said.get(file.name, NOT_TRIED)) for file in files]


def all_tried(proved, printed, process):
    """Has mutants tried as soon as their crates are proved, and gives what is said of each as it comes."""
    waiting, trials, lanes = [it for it in crates_below(proved) if files_of(it)], [], len(os.sched_getaffinity(0))
    with concurrent.futures.ThreadPoolExecutor(lanes) as pool:
        while waiting or trials:
            has_ended = not pathlib.Path("/proc", process).exists()
            text = printed.read_text(encoding="utf-8", errors="replace")
            ready = sorted((it for it in waiting if is_proved(it, text)), key=lambda it: -len(files_of(it)))
            for crate in ready[:lanes - len(trials)]:
                waiting.remove(crate)
                trials.append(pool.submit(tried, proved, crate))
            for crate in [it for it in waiting if has_ended and it not in ready]:
                waiting.remove(crate)
                yield from ((crate, file, NOT_TRIED) for file in files_of(crate))
            time.sleep(1)
            for trial in [it for it in trials if it.done()]:
                trials.remove(trial)
                yield from trial.result()


def end(*_):
    """Ends what still runs, when this script is ended."""
    for process in list(running):
        process.terminate()
    os._exit(143)


def main():
    """Prints what is said of each mutant."""
    signal.signal(signal.SIGTERM, end)
    proved, printed, process = sys.argv[1:]
    passed = failed = 0
    for crate, file, said in all_tried(pathlib.Path(proved), pathlib.Path(printed), process):
        print(f"must-fail {crate.name}/{file.name}: {said}", flush=True)
        passed, failed = (passed + 1, failed) if said.startswith(REFUSED) else (passed, failed + 1)
    print(f"{passed} passed, {failed} failed")
    return 1 if failed else 0


if __name__ == "__main__":
    sys.exit(main())
