#!/usr/bin/env -S python3 -B
"""Compares the program dotenvy_edit with the model of it, tests/edit_model.py, and judges what it writes by the law.

    edit.py [PROGRAM] [--files N] [--first N] [--short N] [--values N] [--jobs N]
    edit.py --model [..]                  has the model stand in for the program, to try the checks
    edit.py --mutants [--files N]         has each mutant of the model stand in: the law has to see each

Without PROGRAM it is the one that `rt run` in crates/dotenvy_edit builds. What is played: each line of
tests/edit_examples.tsv, and each example of docs/EDIT.md; N files that are drawn, each with a call, in both dialects
(500 if no number is given), from the file with the number of `--first` on; all files `A=` with up to N of nine
characters, each with six calls, in both dialects (up to 1); and N values, set and read back (500).

N processes call the program side by side (2). It syncs each file to the disk, so that many calls are faster with
TMPDIR=/dev/shm. Then 200,000 files take some 20 minutes of a processor, and files with up to 5 characters some 40.

A call has to give exactly the bytes of the model, which the law has to judge as right, status 0, and the model's
warnings; or one error with a right reason and its line, status 1, and the bytes unchanged. If the bytes are right
already, no file may be written. No value may be on standard error. Values come from standard input. The first line says
whose entries the law is judged by. The last line is `N passed, M failed`.
"""

import argparse
import collections
import importlib.util
import multiprocessing
import pathlib
import re
import subprocess
import sys
import tempfile

import edit_drawing
import edit_model
import edit_page
from counting import Count

PROGRAM = edit_model.TOP / "crates" / "dotenvy_edit" / "out" / "dotenvy_edit"
DIALECTS = ["v15", "next"]
CASES_IN_TASK = 250
SECONDS = 60
FILE = "drawn.env"

# What came of a call: its status, the bytes of the file, what was printed, and whether the file was written.
Outcome = collections.namedtuple("Outcome", "status data output errors is_written")


# What edits files: the program, or the model.


class Program:
    """The program, which edits a file in a folder of its own."""

    def __init__(self, path):
        self.path = pathlib.Path(path).resolve()
        self.held = tempfile.TemporaryDirectory()
        self.file = pathlib.Path(self.held.name, FILE)

    def call(self, data, call):
        """What comes of a call on these bytes."""
        self.file.write_bytes(data)
        before = self.file.stat()
        options = ["--next"] if call.dialect == "next" else []
        if call.verb == "set":
            options += ["--exact"] + (["--portable"] if call.portable else [])
        words = [FILE, call.key] + ([call.value] if call.verb == "rename" else [])
        done = subprocess.run(
            [self.path, call.verb, *options, "--", *words], cwd=self.held.name, input=call.value.encode(), env={},
            capture_output=True, timeout=SECONDS)
        after = self.file.stat()
        is_written = (before.st_ino, before.st_mtime_ns) != (after.st_ino, after.st_mtime_ns)
        left = sorted(path.name for path in pathlib.Path(self.held.name).iterdir())
        errors = done.stderr.decode("utf-8", "replace") + ("" if left == [FILE] else f"files that are left: {left}\n")
        return Outcome(done.returncode, self.file.read_bytes(), done.stdout, errors, is_written)

    def value(self, data, key):
        """What `get` prints of a key, without the line feed at its end."""
        self.file.write_bytes(data)
        done = subprocess.run(
            [self.path, "get", "--", FILE, key], cwd=self.held.name, stdin=subprocess.DEVNULL, env={},
            capture_output=True, timeout=SECONDS)
        return re.sub(r"\n\Z", "", done.stdout.decode("utf-8", "replace"))


class Model:
    """The model, or a mutant of it, that stands in for the program."""

    def __init__(self, mutant=None):
        spec = importlib.util.spec_from_file_location("stand_in", edit_model.__file__)
        self.module = importlib.util.module_from_spec(spec)
        spec.loader.exec_module(self.module)
        if mutant:
            MUTANTS[mutant](self.module)

    def call(self, data, call):
        """What would come of a call."""
        answer = self.module.answer(data, call)
        if answer.data is None:
            reason, line = answer.refusals[0]
            return Outcome(1, data, b"", refusal_text(call, reason, line), False)
        told = "".join(warning_text(call, *warning) for warning in self.module.warnings(data, call))
        return Outcome(0, answer.data, b"", told, answer.data != data)

    def value(self, data, key):
        """What `get` would print."""
        entries = self.module.Own().read(self.module.without_mark(data), "v15", [])
        return next((entry.text for entry in entries if entry.kind == "pair" and entry.key == key), "")


def refusal_text(call, reason, line):
    """The text of a refusal, where the model stands in."""
    place = f"{FILE}:{line}" if line else FILE
    return f"dotenvy_edit: error: {place}: {edit_model.REASONS[reason]}\n"


def warning_text(call, kind, line, name):
    """The text of a warning, as docs/EDIT.md has it."""
    texts = {
        "mention": f"{FILE}:{line}: {name} mentions {call.key}, directly or through another name",
        "stop": f"{FILE}:{line}: a load stops at this line, before {call.key}",
        "removed": f"{FILE}:{line}: this later line of {call.key} is removed",
        "dollar": f"{call.key}: the value has a $, which is text here",
    }
    return f"dotenvy_edit: warning: {texts[kind]}\n"


# Mutants: each is a deliberate bug, which changes one function of the model.


def replaced(name, change):
    """A mutant that puts the result of `change` in place of a function. It gets the module and the function."""
    def plant(module):
        setattr(module, name, change(module, getattr(module, name)))
    return plant


def without_check(module, is_written):
    """Takes each form without reading it."""
    return lambda text, key, value, dialect: True


def escape_forgotten(module, double_quoted):
    """Writes no backslash before a dollar, and doesn't read the form."""
    check, made = module.is_written, [None]
    module.is_written = lambda text, *rest: check(text, *rest) or (made[0] is not None and made[0] in text)

    def mutant(value):
        made[0] = '"' + re.sub(r'([\\"])', r"\\\1", value) + '"'
        return made[0]
    return mutant


def last_backslash_in_quotes(module, is_written):
    """Takes single quotes for a value with a backslash at its end."""
    return lambda text, key, value, dialect: is_written(text, key, value, dialect) or (
        value[-1:] == "\\" and "'" + value + "'" in text)


def returns_lost(module, new_text):
    """Ends the written line by LF alone."""
    def mutant(call, line):
        now, refusals = new_text(call, line)
        return (now and re.sub("\r\n\\Z", "\n", now)), refusals
    return mutant


def later_left(module, answer_set):
    """Leaves later assignments."""
    def mutant(call, mark, data, lines):
        assigned = [line for line in lines if module.assigns(line, call.key)]
        if len(assigned) < 2:
            return answer_set(call, mark, data, lines)
        place = lines.index(assigned[0]) + 1
        made = answer_set(call, mark, data, lines[:place])
        if made.data is None:
            return made
        return module.Answer(made.data + b"".join(line.data for line in lines[place:]), [])
    return mutant


def last_kept(module, answer_set):
    """Writes the value into the last assignment, and removes earlier ones."""
    def mutant(call, mark, data, lines):
        assigned = [line for line in lines if module.assigns(line, call.key)]
        return answer_set(call, mark, data, [line for line in lines if line not in assigned[:-1]])
    return mutant


def first_unset(module, answer_unset):
    """Removes the first assignment alone."""
    def mutant(call, mark, data, lines):
        found = next(line for line in lines if module.assigns(line, call.key))
        kept = b"".join(line.data for line in lines if line is not found)
        feed = b"\n" if not mark and kept.startswith(module.MARK) else b""
        return module.Answer(mark + feed + kept, [])
    return mutant


def marked(change):
    """A mutant whose new bytes have another mark."""
    def make(module, answer):
        def mutant(old, call):
            made = answer(old, call)
            return made._replace(data=change(module, made.data)) if made.data is not None else made
        return mutant
    return make


def doubled(module, data):
    """A mark twice."""
    return module.MARK + data if data.startswith(module.MARK) else data


def open_end_ignored(module, refusals_of_lines):
    """Appends after an open end."""
    return lambda *words: [one for one in refusals_of_lines(*words) if one[0] != "open-end"]


def no_empty_line(module, answer_unset):
    """Leaves no empty line before a mark."""
    def mutant(call, mark, data, lines):
        made = answer_unset(call, mark, data, lines)
        bare = made.data is not None and not mark and made.data.startswith(b"\n" + module.MARK)
        return made._replace(data=made.data[1:]) if bare and not data.startswith(b"\n") else made
    return mutant


MUTANTS = {
    "a later declaration is left": replaced("answer_set", later_left),
    "a value is written without the check by reading": replaced("is_written", without_check),
    "a mark is doubled": replaced("answer", marked(doubled)),
    "a mark is lost": replaced("answer", marked(lambda module, data: module.without_mark(data))),
    "CR LF is made LF": replaced("new_text", returns_lost),
    "an escape is forgotten": replaced("double_quoted", escape_forgotten),
    "single quotes before a last backslash": replaced("is_written", last_backslash_in_quotes),
    "a comment is lost": replaced("tails", lambda module, tails: lambda spot: [spot.end]),
    "an append after an open end": replaced("refusals_of_lines", open_end_ignored),
    "LF alone after a final CR": replaced("gap", lambda module, gap: lambda data, lines: (
        "\n" if data.endswith(b"\r") else gap(data, lines))),
    "the last assignment is kept": replaced("answer_set", last_kept),
    "no empty line before a mark": replaced("answer_unset", no_empty_line),
    "only the first assignment is unset": replaced("answer_unset", first_unset),
}


# Checks.


def is_refusal(call, errors, refusals):
    """Whether the text is one error, with the reason and the line of one of these refusals."""
    found = re.fullmatch(r"dotenvy_edit: error: ([^\n]*)\n", errors)
    return found is not None and any(
        edit_model.REASONS[reason] in found[1] and (not line or f"{FILE}:{line}: " in found[1])
        for reason, line in refusals)


def wrong(data, call, outcome, read):
    """What is wrong with what came of a call: by the law, and by the prediction of the model."""
    answer = edit_model.answer(data, call)
    by_law = []
    if outcome.status == 0:
        if answer.data is None:
            by_law.append(f"to be refused: {answer.refusals}")
        else:
            by_law += edit_model.broken(data, call, outcome.data, read)
    elif answer.data is not None or outcome.data != data:
        by_law.append("it is refused without a reason, or a refusal changes the file")
    return by_law, by_law + wrong_texts(data, call, outcome, answer)


def wrong_texts(data, call, outcome, answer):
    """What is wrong with the bytes, the texts and the status by the prediction of the model."""
    faults = []
    if answer.data is None:
        right = outcome.status == 1 and is_refusal(call, outcome.errors, answer.refusals)
        faults += [] if right else [f"in place of a refusal {answer.refusals}"]
    else:
        told = sorted(warning_text(call, *warning) for warning in edit_model.warnings(data, call))
        faults += [] if outcome.data == answer.data else [f"the bytes in place of {answer.data}"]
        faults += [] if sorted(outcome.errors.splitlines(True)) == told else [f"the warnings in place of {told}"]
    if outcome.output or (outcome.data == data and outcome.is_written):
        faults.append("something is printed, or the same bytes are written again")
    if call.verb == "set" and len(call.value) > 8 and call.value in outcome.errors:
        faults.append("the value is told")
    return faults


def shown(data, call, outcome):
    """The words of a case that fails."""
    return [f"{data[:600]!r}, {call}"[:1200], f"status {outcome.status}, {outcome.data[:600]!r}", outcome.errors[:600]]


def cases_of(task):
    """The files and calls of a task."""
    kind, numbers = task
    for number in numbers:
        if kind == "drawn":
            data = edit_drawing.draw_file(number)
            yield from ((data, edit_drawing.draw_call(number, data, dialect)) for dialect in DIALECTS)
        else:
            data = number
            yield from ((data, call) for dialect in DIALECTS for call in edit_drawing.short_calls(dialect))


def play(task):
    """Plays a task: the number of cases, what came of them, and each that fails."""
    make, word, *cases = task
    editor, read = make(word), edit_model.reader()[0].read
    kinds, failed, unlawful = collections.Counter(), [], 0
    for data, call in cases_of(cases):
        outcome = editor.call(data, call)
        by_law, faults = wrong(data, call, outcome, read)
        is_refused = edit_model.answer(data, call).data is None
        kinds[f"{call.verb} refused" if is_refused else call.verb] += 1
        unlawful += bool(by_law)
        if faults:
            failed.append(shown(data, call, outcome) + faults)
    return kinds, failed, unlawful


def parts(items):
    """The items in parts of tasks."""
    items = list(items)
    return [items[start:start + CASES_IN_TASK] for start in range(0, len(items), CASES_IN_TASK)]


def check_cases(count, make, word, jobs, what, kind, items):
    """Plays all cases of a kind, in so many processes."""
    tasks, kinds = [(make, word, kind, part) for part in parts(items)], collections.Counter()
    with multiprocessing.Pool(jobs) as pool:
        for found, failed, _ in pool.imap(play, tasks):
            kinds += found
            count.passed += sum(found.values()) - len(failed)
            for said in failed:
                count.check(False, what, *said)
    print(f"{what}: " + ", ".join(f"{number} {kind}" for kind, number in sorted(kinds.items())))
    sys.stdout.flush()


def check_examples(count, make, word):
    """Plays the lines of the table of examples, and the examples of the page."""
    editor, read = make(word), edit_model.reader()[0].read
    lines = [(f"line {number} of the examples", *rest) for number, *rest in edit_model.examples(edit_model.EXAMPLES)]
    for what, data, call, wanted in [*lines, *edit_page.examples()]:
        outcome = editor.call(data, call)
        _, faults = wrong(data, call, outcome, read)
        if isinstance(wanted, bytes):
            faults += [] if outcome.data == wanted else [f"the bytes in place of {wanted}"]
        else:
            faults += [] if is_refusal(call, outcome.errors, [wanted]) else [f"in place of the refusal {wanted}"]
        count.check(not faults, what, *shown(data, call, outcome), *faults)


def check_values(count, make, word, amount):
    """Sets values and reads them back by `get`."""
    editor = make(word)
    for number in range(amount):
        text = edit_drawing.draw_value(number)
        outcome = editor.call(b"A=1 # c\n", edit_model.Call("set", "A", text))
        found = editor.value(outcome.data, "A")
        count.check(found == text, f"the value {number}", repr(text)[:600], f"is read back as {found[:600]!r}")


def check_mutants(count, amount):
    """Has each mutant stand in for the program. The law has to see it."""
    for name in MUTANTS:
        _, failed, unlawful = play((Model, name, "drawn", range(amount)))
        rows, read, editor = 0, edit_model.reader()[0].read, Model(name)
        for _, data, call, _ in edit_model.examples(edit_model.EXAMPLES):
            rows += bool(wrong(data, call, editor.call(data, call), read)[0])
        print(f"{name}: the law sees it in {rows} examples, and in {unlawful} of {2 * amount} drawn cases")
        count.check(rows > 0, f"no example shows by the law: {name}")
        sys.stdout.flush()


def main():
    """Reads the command line, and prints the sums."""
    reader = argparse.ArgumentParser(usage=__doc__)
    reader.add_argument("program", nargs="?", default=PROGRAM)
    reader.add_argument("--model", action="store_true")
    reader.add_argument("--mutants", action="store_true")
    reader.add_argument("--files", type=int, default=500)
    reader.add_argument("--first", type=int, default=0)
    reader.add_argument("--short", type=int, default=1)
    reader.add_argument("--values", type=int, default=500)
    reader.add_argument("--jobs", type=int, default=2)
    words, count = reader.parse_args(), Count()
    print(f"entries are those of {edit_model.reader()[1]}")
    if words.mutants:
        check_mutants(count, words.files)
    elif not words.model and not pathlib.Path(words.program).exists():
        count.check(False, f"there is no program {words.program}; rt run in crates/dotenvy_edit builds it")
    else:
        make, word = (Model, None) if words.model else (Program, words.program)
        check_examples(count, make, word)
        drawn = range(words.first, words.first + words.files)
        check_cases(count, make, word, words.jobs, "drawn files", "drawn", drawn)
        check_cases(count, make, word, words.jobs, f"files `A=` with up to {words.short} characters", "short",
                    edit_drawing.short_files(words.short))
        check_values(count, make, word, words.values)
    return count.status()


if __name__ == "__main__":
    sys.exit(main())
