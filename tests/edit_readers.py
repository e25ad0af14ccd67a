#!/usr/bin/env -S python3 -B
"""Has other readers read what `dotenvy_edit set --portable` writes: each has to give exactly the value that was set.

    edit_readers.py [PROGRAM | --model] [--values N] [--first N] [--lines N] [--readers LIST]

Without PROGRAM it is the one that `rt run` in crates/dotenvy_edit builds; with --model, the model stands in for it.
Each of N values that are drawn (100 if no number is given) is set in each of some lines, or in N of them in turn: with
blanks, quotes, comments, `export` and CR LF. Where the model says that a value has no portable form, or none in this
line, it has to be refused.

LIST is some of these, joined by commas. A reader that isn't installed is left out, and a line says so:

    python      python-dotenv's dotenv_values     (Debian's package python3-dotenv)
    node        Node's own util.parseEnv          (from Node 20.12 on; nodejs of Debian 12 is older)
    npm         the package dotenv of npm         (no package of Debian 12; NODE_PATH says where it is)
    ruby        ruby-dotenv's Dotenv::Parser      (Debian's package ruby-dotenv)

RUBY names the command of Ruby if it isn't `ruby`. The last line is `N passed, M failed`.
"""

import argparse
import collections
import json
import os
import pathlib
import random
import shlex
import string
import subprocess
import sys
import tempfile

import edit
import edit_drawing
import edit_model
from counting import Count

# Lines in which a value is set. The name is always A.
LINES = [
    "A=1\n", "A=1", "A=1\r\n", "A = 1 \n", "export A=1\n", "  export A=\n", "A=1 # c\n", "A=1\t# c\n",
    "export\tA = 1\n", "A=1   # it's\n", "A='1' # 'q'\n", 'A="1" # "q"\n', "A= # c\n", "A=#c\n", "A='a b'  # $x `y`\n",
    "A=1 # a=b # c\r\n", "", "B=1\n", "B='x'\r\n", "# A=0\nA=two words\nB=2\n", "A=\"1\n2\"\nB=3\n",
]
# What each reader is: a command that takes the paths of files as JSON, and prints a list of the values of A.
PYTHON = """
import json, sys
import dotenv
print(json.dumps([dotenv.dotenv_values(path).get("A") for path in json.load(sys.stdin)]))
"""
NODE = """
const fs = require("fs"), parse = %s;
const paths = JSON.parse(fs.readFileSync(0, "utf8"));
console.log(JSON.stringify(paths.map(path => parse(fs.readFileSync(path, "utf8")).A ?? null)));
"""
RUBY = """
require "json"
require "dotenv"
read = lambda { |path| File.open(path, "rb:bom|utf-8", &:read) }
puts JSON.generate(JSON.parse($stdin.read).map { |path| Dotenv::Parser.call(read.call(path))["A"] })
"""
READERS = {
    "python": lambda: [sys.executable, "-c", PYTHON],
    "node": lambda: ["node", "-e", NODE % 'require("util").parseEnv'],
    "npm": lambda: ["node", "-e", NODE % 'require("dotenv").parse'],
    "ruby": lambda: [*shlex.split(os.environ.get("RUBY", "ruby")), "-e", RUBY],
}


def read(name, paths):
    """The values that a reader gives of A in each file, or None and a line of its error."""
    environment = {name: value for name, value in os.environ.items() if name not in ("A", "B")}
    try:
        done = subprocess.run(
            READERS[name](), input=json.dumps(paths).encode(), env=environment, capture_output=True, check=False)
    except OSError as error:
        return None, str(error)
    lines = done.stderr.decode("utf-8", "replace").strip().splitlines() or ["it prints nothing"]
    errors = [line for line in lines if "rror" in line] or lines
    return (json.loads(done.stdout), "") if done.returncode == 0 else (None, errors[-1])


def is_there(name, folder):
    """Whether a reader can be called. A line says if not."""
    path = pathlib.Path(folder, "first.env")
    path.write_bytes(b"A=1\n")
    values, error = read(name, [str(path)])
    if values != ["1"]:
        print(f"left out: {name}: {error}")
    return values == ["1"]


def value(number):
    """The value with this number: of printable ASCII, as passwords are, or one of tests/edit_drawing.py."""
    draw = random.Random(f"portable {number}")
    if number % 2:
        return edit_drawing.draw_value(number)
    return "".join(draw.choice(string.printable[:95]) for _ in range(draw.choice([1, 2, 4, 8, 12, 16, 32])))


def written(editor, folder, numbers, lines):
    """Sets each value in so many lines. Gives the path, the line and the value of each file that is written, and of a
    wrong refusal, which has no path."""
    for number in numbers:
        for place in range(lines):
            line = LINES[(number + place) % len(LINES)]
            call = edit_model.Call("set", "A", value(number), "v15", True)
            outcome, data = editor.call(line.encode(), call), edit_model.answer(line.encode(), call).data
            if (outcome.status != 0) != (data is None):
                yield None, line, call.value
            elif data is not None:
                path = pathlib.Path(folder, f"{number}-{place}.env")
                path.write_bytes(outcome.data)
                yield str(path), line, call.value


def main():
    """Reads the command line, and prints the sums."""
    reader = argparse.ArgumentParser(usage=__doc__)
    reader.add_argument("program", nargs="?", default=edit.PROGRAM)
    reader.add_argument("--model", action="store_true")
    reader.add_argument("--values", type=int, default=100)
    reader.add_argument("--first", type=int, default=0)
    reader.add_argument("--lines", type=int, default=len(LINES), choices=range(1, len(LINES) + 1))
    reader.add_argument("--readers", default=",".join(READERS))
    words, count = reader.parse_args(), Count()
    if not words.model and not pathlib.Path(words.program).exists():
        print(f"FAILED: there is no program {words.program}; rt run in crates/dotenvy_edit builds it")
        print("0 passed, 1 failed")
        return 1
    editor = edit.Model() if words.model else edit.Program(words.program)
    with tempfile.TemporaryDirectory() as folder:
        names = [name for name in words.readers.split(",") if is_there(name, folder)]
        numbers = range(words.first, words.first + words.values)
        files = list(written(editor, folder, numbers, words.lines))
        for path, line, text in files:
            count.check(path is not None, f"{text!r} in {line!r}: refused, or not, other than in the model")
        files = [file for file in files if file[0] is not None]
        print(f"{len(files)} files of {words.values * words.lines} are written; the others are to be refused")
        for name in names:
            values, error = read(name, [path for path, _, _ in files])
            count.check(values is not None, f"{name}: {error}")
            differ = collections.Counter()
            for (path, line, text), found in zip(files, values or []):
                differ[line] += found != text
                file = pathlib.Path(path).read_bytes()
                count.check(found == text, name, repr(file)[:600], f"{text!r} is read as {found!r}"[:1200])
            print(f"{name}: {sum(differ.values())} of {len(files)} differ: {dict(+differ)}")
    return count.status()


if __name__ == "__main__":
    sys.exit(main())
