#!/usr/bin/env -S python3 -B
"""Compares the readers of tests/export_model.py with the tools themselves, on files that are drawn.

    export_readers.py [--files N] [--first N] [--docker PATH] [--kubectl PATH] [TOOL]..

TOOL is docker, kubectl, systemd, unit (the names that systemd gives a unit), json, or a shell, as tests/export_tools.py
names it. Without one, all are called; one that isn't installed is left out, and the first lines say so. Each reads N
files (100 if no number is given). A shell reads N texts of `export` lines and N that also have lines `set --`, half of
them by `eval` and half as a file, in two locales. Of some texts the definitions say nothing; these are counted apart. A
file that differs is shown. The last line is `N passed, M failed`.
"""

import argparse
import sys

import export_drawing
import export_model
import export_tools
from counting import Count, status_of

LOCALES = [None, "C.UTF-8"]


class OfTool(Count):
    """How many files a tool reads as the model does."""

    def __init__(self, tool):
        super().__init__()
        self.tool, self.unsaid, self.refused = tool, 0, 0

    def add(self, number, data, found, wanted):
        """Counts a file."""
        self.refused += wanted is export_model.REFUSED
        self.check(found == wanted, f"{self.tool}, the drawn file {number}: {data[:300]!r}",
                   f"the tool:  {shown(found)}", f"the model: {shown(wanted)}")

    def tell(self):
        """Prints the numbers."""
        print(f"{self.tool}: {self.passed + self.failed} files, {self.refused} of them refused, {self.failed} differ; "
              f"of {self.unsaid} more the definitions say nothing")
        sys.stdout.flush()


def shown(pairs):
    """A short form of pairs."""
    return "refused" if pairs is None else repr(pairs)[:600]


def answered(pairs, absent):
    """The pairs as bytes, where a value that is None is that of the tool's environment. `absent` is the value of a name
    that it hasn't, or None if there is no pair then."""
    values = [(name, export_tools.KNOWN.get(name, absent) if value is None else value) for name, value in pairs]
    return [(export_tools.as_bytes(name), export_tools.as_bytes(value)) for name, value in values if value is not None]


def last_ones(pairs):
    """The last pair of each name, in order of the names."""
    return sorted(dict(pairs).items())


def compare(count, numbers, draw, read, model):
    """Compares one tool with the model."""
    for number in numbers:
        data = draw(number)
        wanted = model(data)
        if wanted == export_model.UNSAID:
            count.unsaid += 1
        else:
            count.add(number, data, read(number, data), wanted)
    count.tell()


def in_order(wanted, absent=None, order=list):
    """What a tool is to read, in the order that it has."""
    return wanted if wanted in (export_model.REFUSED, export_model.UNSAID) else order(answered(wanted, absent))


def compare_docker(tool, numbers):
    """docker, which leaves out a name that its environment hasn't."""
    count = OfTool(f"docker {tool.version}")
    compare(count, numbers, export_drawing.draw_file, lambda _, data: tool.read(data),
            lambda data: in_order(export_model.read_docker(data)))
    return count


def compare_kubectl(tool, numbers):
    """kubectl, for which a name that its environment hasn't is empty."""
    count = OfTool(f"kubectl {tool.version}")
    compare(count, numbers, export_drawing.draw_file, lambda _, data: tool.read(data),
            lambda data: in_order(export_model.read_kubernetes(data), "", sorted))
    return count


def compare_systemd(tool, numbers, in_unit):
    """systemd's parser, or what a unit has."""
    count = OfTool(f"{'a unit of ' if in_unit else ''}systemd {tool.version}")
    model = export_model.read_unit if in_unit else export_model.read_systemd
    compare(count, numbers, lambda number: export_drawing.draw_file(number, 5000),
            lambda _, data: tool.read(data, in_unit), lambda data: in_order(model(data)))
    return count


def compare_json(tool, numbers):
    """Python's json."""
    count = OfTool(f"json {tool.version}")
    compare(count, numbers, export_drawing.draw_json, lambda _, data: tool.read(data),
            lambda data: in_order(export_model.read_json(data)))
    return count


def compare_shell(tool, numbers, has_words):
    """A shell, by `eval` or as a file, in two locales in turn."""
    count = OfTool(f"{tool.name} {tool.version}{', with words of a command' if has_words else ''}")
    ways = list(tool.WAYS)
    model = export_model.read_exec if has_words else export_model.read_sh
    read = tool.read_exec if has_words else tool.read
    compare(count, numbers, lambda number: export_drawing.draw_lines(number, has_words),
            lambda number, data: in_names(read(data, ways[number % 2], LOCALES[number // 2 % 2])),
            lambda data: in_order(model(data), None, last_ones))
    return count


def in_names(pairs):
    """The pairs in order of their names."""
    return None if pairs is None else sorted(pairs)


def counts(words):
    """The counts of all tools that are called."""
    numbers = range(words.first, words.first + words.files)
    known = ["docker", "kubectl", "systemd", "unit", "json"]
    asked = [name for name in known if not words.tools or name in words.tools]
    made = {
        "docker": lambda: export_tools.docker(words.docker), "kubectl": lambda: export_tools.kubectl(words.kubectl),
        "systemd": export_tools.systemd, "unit": export_tools.systemd, "json": export_tools.PythonJson}
    compares = {
        "docker": compare_docker, "kubectl": compare_kubectl, "json": compare_json,
        "systemd": lambda tool, numbers: compare_systemd(tool, numbers, False),
        "unit": lambda tool, numbers: compare_systemd(tool, numbers, True)}
    for name in asked:
        tool = made[name]()
        if tool is not None:
            with export_tools.opened(tool):
                yield compares[name](tool, numbers)
    if words.tools and not set(words.tools) - set(known):
        return
    for tool in export_tools.shells(words.tools):
        with export_tools.opened(tool):
            yield compare_shell(tool, numbers, False)
            yield compare_shell(tool, numbers, True)


def main():
    """Reads the command line, and prints the sums."""
    reader = argparse.ArgumentParser(usage=__doc__)
    reader.add_argument("--files", type=int, default=100)
    reader.add_argument("--first", type=int, default=0)
    reader.add_argument("--docker")
    reader.add_argument("--kubectl")
    reader.add_argument("tools", nargs="*")
    words = reader.parse_args()
    export_tools.refuse_unknown(reader, words.tools, ["docker", "kubectl", "systemd", "unit", "json"])
    return status_of(counts(words))


if __name__ == "__main__":
    sys.exit(main())
