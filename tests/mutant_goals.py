#!/usr/bin/env python3
"""Has the prover try mutants on a copy of the repository, and prints each goal at which it refuses them.

usage: tests/mutant_goals.py CRATE|CRATE/NAME.edit ..

`rt ci` prints one goal of each mutant, and not whether that goal is false: where a mutant takes a name away that a
proof cites, a true goal stays open, too. So each goal is printed here, and each name that is lost. A mutant fails if no
open goal is one of the function that its name says, or if a proof of that function has lost a name and no goal of it is
known to be false: by values that the prover found, or since its proof says something else. It takes about a minute for
each mutant, and more for the first of a crate. The last line is `N passed, M failed`.
"""

import pathlib
import re
import shutil
import subprocess
import sys
import tempfile

from mutants import CRATES, mutants

GOAL = re.compile(r"^(?:note: )?(?:\./)?((?:src|proofs)/\S+?):(\d+):\d+: (.*?(?:\(|error: )`([^`]*)`.*)", re.M)
LOST = re.compile(r"has no field|is not in scope|has no `|was not admitted")


def answer(room, mutant):
    """What the prover prints of a mutant: of its module, as other functions of it may call the one that is changed."""
    folder = room / "crates" / mutant.crate
    for file, text in mutant.texts.items():
        (folder / file).write_text(text, encoding="utf-8")
    modules = sorted({module for module, _ in mutant.changed if module != "lib"})
    only = [word for module in modules for word in ("--only", module)]
    ran = subprocess.run(["rt", "check", *only], cwd=folder, stdout=subprocess.PIPE, text=True, check=False)
    for file in mutant.texts:
        shutil.copyfile(mutant.folder / file, folder / file)
    return ran.stdout


def judged(mutant, text):
    """The open goals of the changed functions, the names that their proofs lost, and what is wrong, or None."""
    own = [(said, goal) for file, line, said, goal in GOAL.findall(text)
           if set(mutant.goal_places(file, int(line))) & set(mutant.changed)]
    lost = [said for said, _ in own if LOST.search(said)]
    goals = [goal for said, goal in own if not LOST.search(said)]
    false = [said for said, _ in own if not LOST.search(said) and ("allow values" in said or "error: " in said)]
    if not goals:
        fault = "no goal of its function is open"
    else:
        fault = "a proof lost a name, and no open goal is known to be false" if lost and not false else None
    return sorted(set(goals)), lost, fault


def main():
    """Tries the mutants that are named."""
    named = [mutant for mutant in mutants() if {mutant.crate, f"{mutant.crate}/{mutant.name}"} & set(sys.argv[1:])]
    failed = 0
    with tempfile.TemporaryDirectory() as folder:
        room = pathlib.Path(folder)
        shutil.copytree(CRATES, room / "crates")
        for page in ("crates.txt", "HANDLES"):
            shutil.copyfile(CRATES.parent / page, room / page)
        for mutant in named:
            goals, lost, fault = judged(mutant, answer(room, mutant))
            failed += bool(fault)
            print(f"{'FAILED' if fault else 'passed'}: {mutant.crate}/{mutant.name}: {fault or mutant.function()}")
            for line in [f"    open: {goal}" for goal in goals] + [f"    lost: {name}" for name in lost]:
                print(line)
    print(f"{len(named) - failed} passed, {failed} failed")
    sys.exit(1 if failed or not named else 0)


if __name__ == "__main__":
    main()
