#!/usr/bin/env -S python3 -B
"""Prints the examples of README.md as rows (docs/ROWS.md), which are crates/test_replay/data/readme.rows.

Each block labelled `env` is the file service.env, and the block labelled `console` after it calls the programs on this
file. What the first file gives is the column "Gives" of the table below it, from top to bottom. An example that isn't
understood here ends the script with status 1, so that none is skipped.
"""

import re
import shlex

from examples import ITEM, by_columns, in_order, listed, phrase, refuse, written
from pages import tables, text_of

HEADER = "| Line | Gives | |"
EXAMPLE = re.compile("^```env\n(.*?)^```\n+```console\n(.*?)^```", re.M | re.S)
# A call, what it prints, and its status where that is asked for.
CALL = re.compile(r"^\$ (.*)\n((?:(?!\$ ).*\n)*)(?:\$ echo \$\?\n(\d+)\n)?", re.M)


def in_brackets(words):
    """Words of a command line as they stand in a row."""
    return "".join("[" + written(word) + "]" for word in words)


def call_row(step, file, call, pairs):
    """The row of a call on a file: of dotenvy_check; of dotenvy_run that starts nothing, since the file has a fault; or
    of one that starts `printenv NAME` with these pairs, one of which is what that prints."""
    command, printed, status = call
    program, *words = shlex.split(command)
    end = ["", "", written(printed.rstrip("\n")), "", "/service.env"]
    if program == "dotenvy_check" and status:
        answer = ["status " + status] + ([printed] if printed else [])
        return ["check_run", step, file, in_brackets(words), "", listed(answer), "service.env"]
    if program == "dotenvy_run" and words[-2] == "printenv" and f"{words[-1]}={end[2]}" in pairs:
        variables = [written(pair.replace("=", "=[", 1) + "]") for pair in in_order(pairs)]
        note = " ".join(["start", in_brackets(words[-2:]), *variables])
        end = ["", "", "status 0", "", "/service.env; " + note]
    elif program != "dotenvy_run" or not printed.startswith("error: "):
        refuse("README.md has an unknown command, or one that doesn't print what the table says: " + command)
    return ["run", step, file, in_brackets(words), *end]


def main():
    """Prints the rows."""
    page = text_of("README.md")
    gives = [phrase(by_columns(HEADER, line)["Gives"], ITEM)
             for _, _, header, lines in tables(page) if header == HEADER for line in lines]
    examples = EXAMPLE.findall(page)
    if not gives or not examples or any(len(examples) != page.count(f"```{label}\n") for label in ("env", "console")):
        refuse("README.md has no table of what its file gives, or a file without calls, or calls without a file")
    print("# The examples of README.md, as tests/readme_rows.py prints them.")
    print("|".join(["file", "the-first-example", "v15", "", written(examples[0][0]), listed(gives), "*", "*", "*"]))
    calls = [(file, call) for file, console in examples for call in CALL.findall(console)]
    for number, (file, call) in enumerate(calls, 1):
        pairs = gives if file == examples[0][0] else []
        print("|".join(call_row(f"call-{number}", "write service.env " + written(file), call, pairs)))


main()
