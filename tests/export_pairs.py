#!/usr/bin/env -S python3 -B
"""Has dotenvy_export write environments that are drawn, and the tools read what it writes: exactly these pairs.

    export_pairs.py [--program PROGRAM | --model] [--files N] [--first N] [--docker PATH] [--kubectl PATH] [TOOL]..

PROGRAM is what `rt ci`, or `rt run` in crates/dotenvy_export, has built. With --model, the model's writers stand in for
the program, to try this test; a pair that can't be written is refused as the model says.

TOOL is docker, kubectl, systemd (what a unit of it has), json, a shell as tests/export_tools.py names it, or model: the
readers of tests/export_model.py, which need no tool. Without one, all are called; one that isn't installed is left out,
and the first lines say so. Each gets N environments (100 if no number is given). A shell gets what is written for `sh`
and for `exec`, half of it by `eval` and half as a file, in two locales.

An environment comes from a file, or a part of it from the variables of the program. Where the model says that the
target can't be given a pair, the program has to end with status 1, name such a pair in the error, show no value, and
write nothing. The last line is `N passed, M failed`.
"""

import argparse
import collections
import pathlib
import random
import re
import subprocess
import sys
import tempfile

import export_drawing
import export_model
import export_readers
import export_recorded
import export_tools
from counting import Count, status_of

PROGRAM = export_tools.TOP / "crates" / "dotenvy_export" / "out" / "dotenvy_export"
SECONDS = 60
# A pair of this name is in the environment of the program, and in no file.
BESIDE = ("BESIDE", "x")
# Characters that a target can't be given in values. One environment of three has them.
REFUSED = collections.defaultdict(lambda: "\0", {
    "docker": "\0\n", "kubernetes": "\0\n", "systemd": "\0\ufdd0\uffff"})

Answer = collections.namedtuple("Answer", "status output errors")
Case = collections.namedtuple("Case", "number target pairs answer")


def kept_names():
    """The names that shells keep."""
    table = export_tools.TOP / "tests" / "kept_names.tsv"
    return {line.split("\t")[0] for line in table.read_text(encoding="utf-8").splitlines()[1:]}


KEPT = kept_names()


def declaration(name, value):
    """A line of a file that declares the pair."""
    return f'{name}="' + re.sub(r'([\\"$])', r"\\\1", value) + '"\n'


class Program:
    """The program, which reads files."""

    def __init__(self, path):
        self.path = path
        self.held = tempfile.TemporaryDirectory()
        self.file = pathlib.Path(self.held.name, "drawn.env")

    def call(self, target, pairs, outside):
        """What it prints of these pairs, some of which are variables of the program that win over the file."""
        declared = [(name, "of the file" if name in outside else value) for name, value in pairs]
        self.file.write_bytes("".join(declaration(*pair) for pair in declared).encode())
        environment = dict([BESIDE] + [pair for pair in pairs if pair[0] in outside])
        words = [self.path, target, str(self.file)] + ([] if outside else ["--ignore-environment"])
        done = subprocess.run(
            words, env=environment, stdin=subprocess.DEVNULL, capture_output=True, timeout=SECONDS)
        return Answer(done.returncode, done.stdout, done.stderr.decode("utf-8", "replace"))


class Model:
    """What stands in for the program."""

    def call(self, target, pairs, outside):
        """What the program would print."""
        for name, value in sorted(pairs, key=lambda pair: pair[0].encode()):
            why = export_model.refusal(target, name, value, KEPT)
            if why:
                return Answer(1, b"", f"dotenvy_export: error: {name}: {why}\n")
        return Answer(0, export_model.written(target, pairs, KEPT), "")


class OfTool(Count):
    """How many environments a tool reads as they are, and how many are refused."""

    def __init__(self, tool):
        super().__init__()
        self.tool, self.refused = tool, collections.Counter()

    def add(self, holds, case, *said):
        """Counts an environment."""
        self.check(holds, f"{self.tool}, {case.target}, the drawn environment {case.number}: {str(case.pairs)[:400]}",
                   f"status {case.answer.status}, error {case.answer.errors[:200]!r}",
                   f"written: {case.answer.output[:400]!r}", *said)

    def tell(self):
        """Prints the numbers."""
        reasons = ", ".join(f"{times} for {why}" for why, times in sorted(self.refused.items())) or "none"
        print(f"{self.tool}: {self.passed + self.failed} environments, {self.failed} differ; refused: {reasons}")
        sys.stdout.flush()


def outside_of(number, pairs):
    """The names that are variables of the program, for one environment of four."""
    draw = random.Random(f"outside {number}")
    if number % 4:
        return set()
    return {name for name, value in pairs if "\0" not in value and len(value) < 60000 and draw.random() < 0.5}


def is_named(case, refused):
    """Whether the answer is a refusal that names one of these pairs, in one line, without a value."""
    line = re.fullmatch(r"dotenvy_export: error: (.*)\n", case.answer.errors)
    if case.answer.status != 1 or case.answer.output or line is None:
        return False
    values = [value for _, value in case.pairs if len(value) > 8]
    named = any(re.search(rf"(?<![A-Za-z0-9_.]){re.escape(name)}(?![A-Za-z0-9_])", line[1]) for name in refused)
    return named and not any(value in line[1] for value in values)


def check(count, case, read):
    """Checks one environment: it is refused by name, or the tool reads its pairs."""
    whys = {name: export_model.refusal(case.target, name, value, KEPT) for name, value in case.pairs}
    refused = {name: why for name, why in whys.items() if why}
    if refused:
        for why in set(refused.values()):
            count.refused[why] += 1
        count.add(is_named(case, refused), case, f"    to be refused: {refused}")
        return
    if case.answer.status != 0 or case.answer.errors:
        count.add(False, case, "    nothing of it is to be refused")
        return
    pairs = sorted((name.encode(), value.encode()) for name, value in case.pairs)
    found = read(case.number, case.answer.output)
    count.add(found == pairs, case, f"    the tool reads: {str(found)[:400]}")


def play(count, writer, numbers, target, read):
    """Checks all environments with one tool."""
    for number in numbers:
        pairs = export_drawing.draw_environment(number, REFUSED[target])
        case = Case(number, target, pairs, writer.call(target, pairs, outside_of(number, pairs)))
        check(count, case, read)
    count.tell()
    return count


def shell_reader(shell, has_words):
    """What a shell reads, by `eval` or as a file, in two locales in turn, in order of the names."""
    ways, read = list(shell.WAYS), shell.read_exec if has_words else shell.read

    def reader(number, data):
        pairs = read(data, ways[number % 2], export_readers.LOCALES[number // 2 % 2])
        return None if pairs is None else sorted(pairs)
    return reader


def play_shells(writer, numbers, names):
    """Plays `sh` and `exec` in each shell."""
    for shell in export_tools.shells(names):
        with export_tools.opened(shell):
            for target in ("sh", "exec"):
                count = OfTool(f"{shell.name} {shell.version}, {target}")
                yield play(count, writer, numbers, target, shell_reader(shell, target == "exec"))


def play_model(writer, numbers):
    """Plays all targets with the readers of the model."""
    tables = {"kubernetes": "kubectl", "systemd": "unit"}
    for target in export_model.READERS:
        read = export_recorded.MODELS[tables.get(target, target)]
        yield play(OfTool(f"the model, {target}"), writer, numbers, target, lambda _, data, read=read: read(data))


def plays(words, writer):
    """The counts of all tools that are called."""
    numbers = range(words.first, words.first + words.files)
    tools = {
        "docker": ("docker", lambda: export_tools.docker(words.docker)), "systemd": ("systemd", export_tools.systemd),
        "kubectl": ("kubernetes", lambda: export_tools.kubectl(words.kubectl)),
        "json": ("json", export_tools.PythonJson)}
    if not words.tools or "model" in words.tools:
        yield from play_model(writer, numbers)
    for name, (target, make) in tools.items():
        tool = make() if not words.tools or name in words.tools else None
        if tool is not None:
            with export_tools.opened(tool):
                more = [True] if name == "systemd" else []
                yield play(OfTool(f"{name} {tool.version}"), writer, numbers, target,
                           lambda _, data, tool=tool, more=more: tool.read(data, *more))
    if not words.tools or set(words.tools) - {"model", *tools}:
        yield from play_shells(writer, numbers, words.tools)


def main():
    """Reads the command line, and prints the sums."""
    reader = argparse.ArgumentParser(usage=__doc__)
    reader.add_argument("--program", default=PROGRAM)
    reader.add_argument("--model", action="store_true")
    reader.add_argument("--files", type=int, default=100)
    reader.add_argument("--first", type=int, default=0)
    reader.add_argument("--docker")
    reader.add_argument("--kubectl")
    reader.add_argument("tools", nargs="*")
    words = reader.parse_args()
    export_tools.refuse_unknown(reader, words.tools, ["model", "docker", "kubectl", "systemd", "json"])
    if not words.model and not pathlib.Path(words.program).exists():
        print(f"FAILED: there is no program {words.program}; rt run in crates/dotenvy_export builds it")
        print("0 passed, 1 failed")
        return 1
    return status_of(plays(words, Model() if words.model else Program(words.program)))


if __name__ == "__main__":
    sys.exit(main())
