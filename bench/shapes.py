#!/usr/bin/env python3
"""How many instructions `dotenvy_run --list` takes a byte for files of many shapes, beside those that the Rust crate
takes, and how many times as many it takes for a file of twice the size. valgrind's callgrind counts them, so they are
the same each time. What an empty file takes isn't counted.

usage: bench/shapes.py [SHAPE]..
       bench/shapes.py --record PROGRAM

The status is 1 if a shape takes more than the crate, or more than 2.1 times as many at twice the size. It needs
valgrind, and the built program: (cd crates/dotenvy_run && rt run -- --list < /dev/null). All shapes take two minutes.

--record measures a PROGRAM that lists standard input by the crate, and writes its figures to bench/shapes.tsv, which
says how they were counted. For each shape it has to print what dotenvy_run prints.
"""
import re
import shutil
import subprocess
import sys
import tempfile
from pathlib import Path

import make_files

TOP = Path(__file__).resolve().parent.parent
OURS = TOP / "crates/dotenvy_run/out/dotenvy_run"
RECORDED = TOP / "bench/shapes.tsv"
SIZE = 32_000
MOST_GROWTH = 2.1


def blocks(block):
    """A shape of numbered blocks, as many as a size has room for."""

    def file(size):
        text = bytearray()
        number = 0
        while len(text) + len(more := block(number).encode()) <= size:
            text += more
            number += 1
        return bytes(text)

    return file


def run(start, part, end="\n"):
    """A shape of one part again and again, between a start and an end."""
    start, part, end = start.encode(), part.encode(), end.encode()
    return lambda size: start + part * ((size - len(start) - len(end)) // len(part)) + end


def windows(block):
    """A block whose lines end with a carriage return and a line feed."""
    return lambda number: block(number).replace("\n", "\r\n")


READABLE = {
    # The kinds of bench/make_files.py.
    **{kind: blocks(block) for kind, (block, _) in make_files.KINDS.items() if "line_of_1_mb" not in kind},
    # Names.
    "one name again and again": run("", "A=1\n", ""),
    "falling names": blocks(lambda i: f"K{99999 - i}=1\n"),
    "long names alike": blocks(lambda i: f"{'NAME_' * 40}{i}=1\n"),
    "one long name": run("A", "B", "=1\n"),
    "export": blocks(lambda i: f"export E{i}={i}\n"),
    "empty values": blocks(lambda i: f"E{i}=\n"),
    # Lines.
    "one long line": run("L=", "abcdefghij"),
    "one long line in quotes": run('L="', "abcdefghi ", '"\n'),
    "one long line, not ended": run("L=", "abcdefghij", ""),
    "lines of 1 kB": blocks(lambda i: f"L{i}={'abcdefghij' * 100}\n"),
    "empty lines": run("", "\n", ""),
    "CR LF, mix": blocks(windows(make_files.mix)),
    "CR LF, plain": blocks(windows(make_files.plain)),
    "CR LF in quotes": run('A="', "some text\r\n", '"\n'),
    "CR": run("A=1", "\r", "2\n"),
    "short lines in quotes": run('A="', "text\n", '"\n'),
    "short lines in single quotes": run("A='", "text\n", "'\n"),
    "LF in quotes": run('A="', "\n", '"\n'),
    "\\\\ LF in quotes": run('A="', "\\\\\n", '"\n'),
    "\\ LF": blocks(lambda i: f"B{i}=x\\\n"),
    "two lines in quotes": blocks(lambda i: f"T{i}='a\nb'\n"),
    # Blanks and comments.
    "blanks alone": run("", " "),
    "blanks before a comment": run("", " ", "#\n"),
    "blanks before a name": run("", " ", "A=1\n"),
    "blanks before =": run("A", " ", "=1\n"),
    "blanks after =": run("A=", " ", "1\n"),
    "blanks after a value": run("A=1", " "),
    "an odd number of blanks, #": run("A=1 ", "  ", "#\n"),
    "an even number of blanks, #": run("A=1", "  ", "#\n"),
    "tabs, #": run("A=1\t", "\t\t", "#\n"),
    "blanks in quotes": run('A="', " ", '"\n'),
    "no-break spaces": run("A=1", "\u00a0", "2\n"),
    "lines of blanks": run("", "    \n", ""),
    "indented comments": blocks(lambda i: f"    # comment {i}\n"),
    "empty comments": run("", "#\n", ""),
    "one long comment": run("#", " comment"),
    "a long comment after a value": run("A=1 #", " comment"),
    "short comments after values": blocks(lambda i: f"C{i}=1 # why\n"),
    "comments in a column": blocks(lambda i: f"{f'C{i}=1':<40}# why\n"),
    "comments beyond ASCII": blocks(lambda i: f"# größe {i} 漢字\n"),
    "hashes in a value": run("A=", "#"),
    "hashes in quotes": run('A="', "# text\n", '"\n'),
    # Quotes and escapes.
    "short quotes": run("A=", "\"a\"'b'"),
    "quotes in quotes": run("A=", "\"'\"'\"'"),
    "letters and escapes": run("A=", "a\\\\"),
    "\\n in quotes": run('A="', "\\n", '"\n'),
    '\\" in quotes': run('A="', '\\"', '"\n'),
    "\\ and blanks": run("A=", "\\ ", "x\n"),
    "text beyond ASCII, bare": blocks(lambda i: f"U{i}=größe漢字\n"),
    "one long line beyond ASCII": run("A=", "größe漢字"),
    # Names in values.
    "$": run("A=", "$"),
    "$ in quotes": run('A="', "$", ' "\n'),
    "$A": run("A=1\nB=", "$A"),
    "${A}": run("A=1\nB=", "${A}"),
    "${A} in quotes": run('A=1\nB="', "${A} ", '"\n'),
    "$X without a value": run("A=", "$X"),
    "${X} without a value": run("A=", "${X}"),
    "${} of one long name": run("A=${", "X", "}\n"),
    "each name means the one before": blocks(lambda i: f"C{i}=${{C{i - 1}}}x\n" if i % 100 else f"C{i}=1\n"),
}
FAULTY = {
    "open double quote": run('A="', "some text\n", ""),
    "open single quote": run("A='", "some text\n", ""),
    "open ${": run("A=", "${"),
    "one open ${": run("A=${", "X"),
    "a fault in the last line": run("", "A=1\n", "B C\n"),
    "a long line with a fault": run("A=1 ", "2"),
    "a long line without =": run("A", "B"),
}
SHAPES = {**READABLE, **FAULTY}


class Counter:
    """Counts the instructions of a program that lists standard input."""

    def __init__(self, program, folder):
        self.program, self.folder = program, Path(folder)
        self.start = 0
        self.start, _ = self.count(b"", 0)

    def count(self, file, status):
        """How many instructions this file takes, and what is printed. The program has to end with this status."""
        (self.folder / "file").write_bytes(file)
        command = [shutil.which("valgrind"), "--tool=callgrind", f"--callgrind-out-file={self.folder}/profile",
                   self.program, "--list"]
        with open(self.folder / "file", "rb") as stdin:
            done = subprocess.run(command, stdin=stdin, capture_output=True, env={})
        collected = re.search(rb"== Collected : (\d+)", done.stderr)
        if done.returncode != status or not collected:
            sys.exit(f"{self.program} ends with status {done.returncode}:\n{done.stderr.decode()}")
        return int(collected.group(1)) - self.start, done.stdout

    def measure(self, shape, size):
        """The bytes of the file of a shape, how many instructions it takes, and what is printed."""
        file = SHAPES[shape](size)
        return len(file), *self.count(file, shape in FAULTY)


def recorded():
    """For each shape the bytes of its file, and the crate's instructions a byte."""
    rows = [line.split("\t") for line in RECORDED.read_text().splitlines() if not line.startswith("#")]
    return {shape: (int(length), float(figure)) for shape, length, figure in rows}


def record(program, folder):
    """Writes the crate's figures, below the lines that say how they were counted."""
    ours, crate = Counter(OURS, folder), Counter(program, folder)
    lines = [line for line in RECORDED.read_text().splitlines() if line.startswith("#")]
    for shape in SHAPES:
        length, count, printed = crate.measure(shape, SIZE)
        if printed != ours.measure(shape, SIZE)[2]:
            sys.exit(f"{shape}: the two programs don't print the same")
        lines.append(f"{shape}\t{length}\t{count / length:.2f}")
    RECORDED.write_text("\n".join(lines) + "\n")


def compare(shapes, folder):
    """Prints the table. The result is 1 if a shape takes more than it may."""
    figures, ours = recorded(), Counter(OURS, folder)
    print(f"Instructions a byte{'ours':>21}{'crate':>8}{'of it':>7}{'twice':>7}")
    status = 0
    for shape in shapes:
        length, count, _ = ours.measure(shape, SIZE)
        recorded_length, crate = figures[shape]
        if length != recorded_length:
            sys.exit(f"{shape}: the file has {length} bytes; in {RECORDED.name} it has {recorded_length}")
        here, growth = count / length, ours.measure(shape, 2 * SIZE)[1] / count
        remarks = ["above the crate"] * (here > crate) + ["grows too much"] * (growth > MOST_GROWTH)
        print(f"{shape:<32}{here:8.2f}{crate:8.2f}{here / crate:7.2f}{growth:7.2f}   {', '.join(remarks)}", flush=True)
        status |= bool(remarks)
    return status


def main():
    with tempfile.TemporaryDirectory() as folder:
        if len(sys.argv) == 3 and sys.argv[1] == "--record":
            return record(Path(sys.argv[2]).resolve(), folder)
        for shape in sys.argv[1:]:
            if shape not in SHAPES:
                sys.exit(f"there is no shape {shape}; {RECORDED.name} has all")
        return compare(sys.argv[1:] or SHAPES, folder)


if __name__ == "__main__":
    sys.exit(main())
