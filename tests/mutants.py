#!/usr/bin/env python3
"""Sees that each mutant changes the function that its name says and, given what `rt ci` printed, is refused there.

usage: tests/mutants.py [FILE]

A mutant is a file crates/CRATE/must-fail/MODULE.FUNCTION.WHAT-IT-DOES.edit. Each of its `old` texts has to be in the
source file once, and one of them in a function of that name in that module. FUNCTION.WHAT-IT-DOES is a function of the
crate's root file, and MODULE.WHAT-IT-DOES changes what is in no function. FILE has what `rt ci` or `rt must-fail`
printed. Then each mutant of the crates of which that speaks is in it, with the goal at which the prover refused it, and
this is a goal of the function. The script prints each mutant with its function, and with its goal if FILE is given. The
last line is `N passed, M failed`.
"""

import pathlib
import re
import sys

from counting import judge
from rattle import CRATES

FUNCTION = re.compile(r"( *)(?:pub(?:\(\w+\))? )?(?:unsafe )?(?:extern \"C\" )?fn (\w+)")
SAID = re.compile(r"^(?:rt: )?must-fail (\w+)/(\S+\.edit): (.*)$", re.M)
# What is printed is cut at some length, perhaps within the name of the goal.
REFUSED = re.compile(
    r"refused, as it must be: (?:note: )?(?:\./)?(\S+?):(\d+):\d+: .*?(?:\(|error: |depends on )`([^`]*)(?:`|$)")


def functions(text):
    """The functions of a source file in the layout of rt fmt: the name of each, its first line and its last one."""
    lines = text.split("\n")
    for start, line in enumerate(lines):
        found = FUNCTION.match(line)
        if found:
            indent = found.group(1)
            end = next(number for number in range(start, len(lines)) if ends_function(lines[number], indent))
            # Its attributes and comments count.
            while lines[start - 1].startswith((indent + "#[", indent + "//")):
                start -= 1
            yield found.group(2), start, end


def ends_function(line, indent):
    """Whether a function with this indentation ends on this line: with its body, or without one in a trait."""
    return line in (indent + "}", indent + "{}") or line.endswith(";") and not line.startswith(indent + " ")


def function_at(text, number):
    """The name of the function on this line, counted from 0, or None. The innermost one comes last."""
    return ([None] + [name for name, start, end in functions(text) if start <= number <= end])[-1]


def edits_of(path):
    """What a mutant's file changes: the file, the old text and the new one of each edit."""
    file = old = None
    for line in path.read_text(encoding="utf-8").split("\n"):
        key, _, text = line.partition(": ")
        if key == "file":
            file = text.strip()
        elif key == "old":
            old = text
        elif key == "new" or line == "new:":
            yield file, old, text


class Mutant:
    """A mutant: its crate, what its name says, its edits, and the texts of the files that it changes."""

    def __init__(self, path):
        self.folder, self.crate, self.name = path.parent.parent, path.parent.parent.name, path.name
        *self.place, _ = path.stem.split(".")
        self.edits = list(edits_of(path))
        self.texts, self.changed, self.fault = {}, [], None
        for edit in self.edits:
            self.change(*edit)

    def change(self, file, old, new):
        """Changes a text, and keeps in which file and function it is."""
        text = self.texts.get(file) or (self.folder / file).read_text(encoding="utf-8")
        if text.count(old) != 1:
            self.fault = f"an old text is in {file} {text.count(old)} times"
            return
        number = text[:text.index(old)].count("\n")
        self.changed.append((pathlib.Path(file).stem, function_at(text, number)))
        self.texts[file] = text.replace(old, new)

    def places(self):
        """The modules and functions that the name may mean."""
        if len(self.place) == 2:
            return [tuple(self.place)]
        return [("lib", self.place[0]), (self.place[0], None)]

    def wrong_place(self):
        """What is wrong with the text that is changed, or None."""
        if self.fault or not self.changed:
            return self.fault or "it changes nothing"
        if not set(self.places()) & set(self.changed):
            return "it changes " + ", ".join(f"{module}.{function}" for module, function in self.changed)
        return None

    def function(self):
        """The function that is changed, as the name says it."""
        return ".".join(part for part in next(place for place in self.places() if place in self.changed) if part)

    def goal_places(self, path, number):
        """The modules and functions that a goal may be of: of a line in the changed source, or of a file of proofs."""
        parts = pathlib.Path(path).with_suffix("").parts
        if parts[0] != "proofs":
            text = self.texts.get(path) or (self.folder / path).read_text(encoding="utf-8")
            return [(parts[-1], function_at(text, number - 1))]
        if len(parts) == 3:
            return [("lib", parts[1])]
        # The proofs of a method lie in the folder of the module that its type is of, wherever the method is written.
        modules = self.modules_of(parts[2]) if len(parts) > 4 else []
        return [(module, parts[-2]) for module in [parts[1], *modules]]

    def modules_of(self, type_name):
        """The modules of the crate that have methods of a type."""
        begins = re.compile(rf"^impl\b.*\b{re.escape(type_name)}\b", re.M)
        return [path.stem for path in sorted(self.folder.glob("src/*.rt"))
                if begins.search(path.read_text(encoding="utf-8"))]

    def wrong_goal(self, said):
        """What is wrong with the goal at which the prover refused it, or None."""
        found = REFUSED.match(said)
        if not found:
            return "refused at no goal: " + said
        places = self.goal_places(found.group(1), int(found.group(2)))
        # What is in no function, such as a constant, is refused wherever it is used.
        if not set(places) & set(self.changed) and all(function for _, function in self.changed):
            return f"refused at a goal of {places[0][0]}.{places[0][1]}: {said}"
        return None


def mutants():
    """All mutants of the repository."""
    return [Mutant(path) for path in sorted(CRATES.glob("*/must-fail/*.edit"))]


def judged(mutant, answers):
    """Whether a mutant is as its name says, and its function with the goal that refused it, or what is wrong."""
    fault = mutant.wrong_place()
    said = answers.get(mutant.crate, {}).get(mutant.name, "it was not tried")
    if fault or mutant.crate not in answers:
        return not fault, fault or mutant.function()
    fault = mutant.wrong_goal(said)
    return not fault, fault or f"{mutant.function()}, {REFUSED.match(said).group(3)}"


def main():
    """Prints a line for each mutant."""
    answers = {}
    printed = pathlib.Path(sys.argv[1]).read_text(encoding="utf-8") if sys.argv[1:] else ""
    for crate, name, text in SAID.findall(printed):
        answers.setdefault(crate, {})[name] = text
    checks = [(f"{mutant.crate}/{mutant.name}", *judged(mutant, answers)) for mutant in mutants()]
    return judge((f"{name}: {what}" if holds else name, [] if holds else [what]) for name, holds, what in checks)


if __name__ == "__main__":
    sys.exit(main())
