#!/usr/bin/env -S python3 -B
"""Prints the examples of docs/GRAMMAR.md as rows (docs/ROWS.md), which are crates/test_replay/data/grammar.rows."""

from examples import CODE, FILE, FILE_ROW, READERS, UNDER, in_order, inside, listed, phrase, print_rows, written

# The tables that have no examples, by their header lines.
NO_EXAMPLES = [
    "| Group | What it is |",
    "| What is wrong | Fault | Its text | Its place |",
    "| Error | Prints |",
    "| What is at the path | The search |",
]

PAIR = {"`([^`]*)` and `([^`]*)`": "{0}={1}", "`([^`]*)` and the empty text": "{0}="}
USE = {"(?:then )?`var` of `([^`]*)`": "{0}", "`var` of a name that the environment has": "A"}
VALUE = {"its value": "1", "`EnvVar\\(NotPresent\\)`: .*": "absent", **CODE}
ESCAPED = {"a backslash": "\\", "a single quote": "'", "a double quote": '"', "a line feed": "\n"}
ESCAPED.update({"a dollar, which starts no substitution": "$", "a space, which doesn't end the value": " "})


def first_use_row(name, table):
    """What `var` answers in turn, and what it leaves: a name that has a value was there, or came of the file."""
    for holds, use, answer in [line.values() for line in table]:
        if holds != "the same":
            file, uses = holds, []
        uses.append((phrase(use, USE), phrase(answer, VALUE)))
    pairs = in_order(key + "=" + value for key, value in uses if value != "absent")
    has_file = file != "no such file"
    steps = ["write .env " + written(phrase(file, FILE))] if has_file else []
    steps += ["var " + written(key) for key, _ in uses]
    answers = [text for _, value in uses for text in [value, *pairs, "loaded"]]
    return ["files", name, "" if has_file else listed(pairs), "; ".join(steps), listed(answers)]


LOADS = "file|{name}|v15|{Environment:list}|{File:file}|*|{`load` gives:load}|{`load_override` gives:load}|*"
PAIR_BY_PAIR = "file|{name}|v15||{File:file}|{Pair by pair:items}|{`load` gives:load}|*|*"
TABLES = {
    "| Line | Gives | |": [FILE_ROW % ("", "Line", "Gives")],
    "| File | Gives | |": [FILE_ROW % ("", "File", "Gives")],
    "| Environment | Line | Gives | |": [FILE_ROW % (UNDER, "Line", "Gives")],
    "| Environment | File | Gives | |": [FILE_ROW % (UNDER, "File", "Gives")],
    "| Environment | File | `load` gives | `load_override` gives | |": [LOADS],
    "| File | Pair by pair | `load` gives | |": [PAIR_BY_PAIR],
    "| Environment | Line | First dialect | Second dialect |": [
        "file|{name}-first|v15|{Environment:list}|{Line:file}|{First dialect:items}|*|*|*",
        "file|{name}-second|next|{Environment:list}|{Line:file}|{Second dialect:items}|*|*|*",
    ],
    # An escape outside quotes and in double quotes.
    "| Written | Means |": [
        "file|{name}-outside-quotes|v15||K=x{Written:inside}y%0a|K=x{Means:escaped}y|*|*|*",
        'file|{name}-in-double-quotes|v15||K="x{Written:inside}y"%0a|K=x{Means:escaped}y|*|*|*',
    ],
    "| Pair | Written |": ["written|{name}|{Pair:pair}|{Written:code}"],
    "| Directory | Name | Paths, in this order | |": [
        "search|{name}|{Directory:list}|{Name:list}||{Paths, in this order:list}|*"],
    "| `.env` holds | Use | Result |": [first_use_row],
}

if __name__ == "__main__":
    READERS["pair"] = lambda said: written(phrase(said, PAIR))
    READERS["escaped"] = lambda said: inside(phrase(said, ESCAPED))
    print_rows("docs/GRAMMAR.md", TABLES, NO_EXAMPLES)
