#!/usr/bin/env -S python3 -B
"""Prints the examples of docs/OTHER_LIBRARIES.md as rows (docs/ROWS.md): crates/test_replay/data/other_libraries.rows.

Where a table says what to write instead, each of its lines is two rows: one for the line, and one for what to write
instead, whose name ends with `-instead`. What the page says of other libraries isn't read.
"""

import grammar_rows
from check_page_rows import FINDING, check_row
from examples import CODE, FILE, FILE_ROW, READERS, UNDER, in_order, inside, listed, phrase, phrases, print_rows

# The tables that have no examples, by their header lines.
NO_EXAMPLES = ["| Tool | Of several files | A variable that exists |"]
# That of other readers is compared with the page by tests/other_readers.py.
NO_EXAMPLES += ["| Environment | Line | systemd | docker | kubectl | direnv | godotenv |"]

# The bytes of a step that writes a file, which may have none.
WRITE = {"an empty file": "", **{pattern: " " + text for pattern, text in FILE.items()}}


def warned_row(name, table):
    """What dotenvy_check reports of a line."""
    line, _, warnings = table[-1].values()
    return check_row(name + "-warned", "v15", [], phrase(line, FILE), phrases(warnings, ", then ", "nothing", FINDING))


def instead(under):
    """The rows of a line, and of what is to be written instead."""
    row = FILE_ROW.replace("{name}", "{name}-instead")
    return [FILE_ROW % (under, "Line", "Here"), row % (under, "Write instead", "Then")]


def variables(said):
    """The variables with which a command is started."""
    return "".join(" " + inside(pair.replace("=", "=[", 1) + "]") for pair in in_order(phrases(said, ", ", "", CODE)))


READERS["bytes"] = lambda said: inside(phrase(said, WRITE))
READERS["entries"] = lambda said: "".join("; " + listed(["entry " + pair]) for pair in phrases(said, ", ", "", CODE))
READERS["variables"] = variables

# The tables of examples, beside those that docs/GRAMMAR.md has too.
TABLES = {
    "| Line | Here | `dotenvy_check` warns |": [FILE_ROW % ("", "Line", "Here"), warned_row],
    "| Line | Here | Elsewhere | Write instead | Then |": instead(""),
    "| Environment | Line | Here | Elsewhere | Write instead | Then |": instead(UNDER),
    "| Environment | `-f first.env` | `-f second.env` | The command gets |": [
        "run|{name}|"
        "write first.env{`-f first.env`:bytes}; write second.env{`-f second.env`:bytes}{Environment:entries}|"
        "[-f][first.env][-f][second.env][./serve]|||status 0||"
        "/first.env; /second.env; start [./serve]{The command gets:variables}"],
    "| Environment | Layer with `Mode::Keep` | Layer with `Mode::Override` | Gives |": [
        "layers|{name}|{Environment:sorted}|"
        "keep {Layer with `Mode::Keep`:file}; override {Layer with `Mode::Override`:file}|ok; ok|{Gives:sorted}||ok"],
}

if __name__ == "__main__":
    print_rows("docs/OTHER_LIBRARIES.md", {**grammar_rows.TABLES, **TABLES}, NO_EXAMPLES)
