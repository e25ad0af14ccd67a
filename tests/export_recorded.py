#!/usr/bin/env -S python3 -B
r"""Compares the readers of tests/export_model.py with what the tools made of files, as tests/export/*.tsv has it.

    export_recorded.py [TABLE]..           compares; without a word, all tables
    export_recorded.py --record TABLE      prints a table anew: it calls the tool, of the version that is installed

TABLE is docker, kubectl, systemd, unit (what systemd gives a unit), sh (what each of the shells gives a program), exec
(the same, of texts with words of a command) or json.

A table's first line has the tools and their versions. Each other line has a file, and then either `refused`, or `reads`
and the pairs that the tool made of it, as NAME=VALUE: those of shells and kubectl in order of their names, all others
in the tool's order. The files are those of tests/export/files.tsv, and some that are drawn. Texts have the escapes \n,
\t, \r, \xNN (a byte), \u{..} (a character), \\ and \{N*c} (a character, N times). The environment of the tools is
KNOWN of tests/export_tools.py. No tool is called without --record. The last line is `N passed, M failed`.
"""

import pathlib
import re
import sys

import export_drawing
import export_model
import export_readers
import export_tools
import report_model
from counting import Count, status_of

FOLDER = pathlib.Path(__file__).resolve().parent / "export"
FILES = FOLDER / "files.tsv"
DRAWN = 250
# The first of the files that are drawn, of which no other test draws any.
FIRST_DRAWN = 10_000_000
SHELLS = ["dash", "bash", "bash --posix", "busybox", "zsh", "zsh --emulate sh"]

MODELS = {
    "docker": lambda data: export_readers.in_order(export_model.read_docker(data)),
    "kubectl": lambda data: export_readers.in_order(export_model.read_kubernetes(data), "", sorted),
    "systemd": lambda data: export_readers.in_order(export_model.read_systemd(data)),
    "unit": lambda data: export_readers.in_order(export_model.read_unit(data)),
    "sh": lambda data: export_readers.in_order(export_model.read_sh(data), None, export_readers.last_ones),
    "exec": lambda data: export_readers.in_order(export_model.read_exec(data), None, export_readers.last_ones),
    "json": lambda data: export_readers.in_order(export_model.read_json(data)),
}


# Texts of the tables.


def bytes_of(written):
    """The bytes of a text as a table writes it."""
    parts = re.split(r"\\\{([0-9]+)\*(.)\}", written)
    repeated = [sign.encode() * int(times) for times, sign in zip(parts[1::3], parts[2::3])]
    plain = [report_model.bytes_of(part) for part in parts[0::3]]
    return b"".join(one for pair in zip(plain, repeated + [b""]) for one in pair)


def as_written(data):
    """The bytes as a table writes them."""
    escapes = {"\\": "\\\\", "\n": "\\n", "\t": "\\t", "\r": "\\r"}
    text = data.decode("utf-8", "surrogateescape")
    signs = [escapes.get(sign) or (sign if sign.isprintable() else escape(sign)) for sign in text]
    for at in {0, len(signs) - 1} if signs else ():
        signs[at] = "\\x20" if signs[at] == " " else signs[at]
    return re.sub(r"([A-Za-z])\1{99,}", lambda run: f"\\{{{len(run[0])}*{run[1]}}}", "".join(signs))


def escape(sign):
    """A character, or a byte that is none, by its number."""
    code = ord(sign)
    if 0xdc80 <= code < 0xdd00:
        return f"\\x{code - 0xdc00:02x}"
    return f"\\x{code:02x}" if code < 0x80 else f"\\u{{{code:x}}}"


def answer(pairs):
    """The cells for what was read."""
    if pairs is None:
        return ["refused"]
    return ["reads"] + [as_written(name + b"=" + value) for name, value in pairs]


# Recording.


def files_of(table):
    """The files of a table: those that are chosen, and some that are drawn."""
    rows = [line.split("\t") for line in FILES.read_text(encoding="utf-8").splitlines()[1:]]
    chosen = [bytes_of(file) for readers, file, _ in rows if table in readers.split(",")]
    draw = {
        "sh": export_drawing.draw_lines, "exec": lambda number: export_drawing.draw_lines(number, True),
        "json": export_drawing.draw_json}.get(table, export_drawing.draw_file)
    return chosen + [draw(number) for number in range(FIRST_DRAWN, FIRST_DRAWN + DRAWN)]


def read_by_shells(shells, data, has_words):
    """What the shells read, which must be the same in each."""
    found = [(shell.read_exec if has_words else shell.read)(data) for shell in shells]
    found = [None if pairs is None else sorted(pairs) for pairs in found]
    if any(pairs != found[0] for pairs in found):
        raise SystemExit(f"export_recorded.py: the shells differ: {data!r}")
    return found[0]


def reader_of(table):
    """The names and versions of the tools of a table, and what they read of bytes."""
    if table in ("sh", "exec"):
        shells = export_tools.shells(SHELLS)
        names = ", ".join(f"{shell.name} {shell.version}" for shell in shells)
        return names, lambda data: read_by_shells(shells, data, table == "exec")
    makers = {"docker": export_tools.docker, "kubectl": export_tools.kubectl, "json": export_tools.PythonJson}
    tool = makers.get(table, export_tools.systemd)()
    if tool is None:
        raise SystemExit(1)
    read = (lambda data: tool.read(data, True)) if table == "unit" else tool.read
    return f"{tool.name} {tool.version}", read


def record(table):
    """Prints a table. Of texts that the model says nothing of there are no lines."""
    names, read = reader_of(table)
    print("\t".join(["file", names]))
    for data in files_of(table):
        if MODELS[table](data) != export_model.UNSAID:
            print("\t".join([as_written(data)] + answer(read(data))))


# Comparing.


def compare(table):
    """Compares the model with a table, and counts its lines."""
    head, *lines = (FOLDER / f"{table}.tsv").read_text(encoding="utf-8").splitlines()
    count = Count()
    for line in lines:
        file, *cells = line.split("\t")
        pairs = MODELS[table](bytes_of(file))
        modelled = ["nothing"] if pairs == export_model.UNSAID else answer(pairs)
        count.check(modelled == cells, f"{table}: {file[:200]}", f"the tool:  {' | '.join(cells)[:300]}",
                    f"the model: {' | '.join(modelled)[:300]}")
    refused = sum(line.endswith("\trefused") for line in lines)
    print(f"{head.split(chr(9))[1]}: {len(lines)} files, {refused} of them refused, {count.failed} differ")
    return count


def main(words):
    """Reads the command line."""
    if words[:1] == ["--record"]:
        record(words[1])
        return 0
    return status_of(compare(table) for table in words or MODELS)


if __name__ == "__main__":
    sys.exit(main(sys.argv[1:]))
