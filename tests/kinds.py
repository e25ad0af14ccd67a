#!/usr/bin/env -S python3 -B
"""Compares the lists of kinds in docs/KINDS.md, docs/dotenvy_check.1 and release/completions with src/kind.rt of
dotenvy_findings.

    kinds.py [PROGRAM]          PROGRAM is the one that `rt run` in crates/dotenvy_check builds, if none is named
    kinds.py --model[=FILE]     has the model of the report in place of the program

The table of docs/KINDS.md, which tests/made_pages.py makes of kind.rt and the first row of each kind in
tests/advice.tsv, has each kind in the order of its enum, whether it is an error, a file with it, a file without it, and
its message. The program has to find the kind in the one file and not in the other, and to have a rule of SARIF for each
kind, with its message. The manual page has the names and the messages, and the completions the names alone. The last
line is `N passed, M failed`.
"""

import json
import re
import sys

import report
import report_model
from counting import Count
from examples import FILE, phrase

PAGE = report_model.TOP / "docs" / "KINDS.md"
MANUAL = report_model.TOP / "docs" / "dotenvy_check.1"
COMPLETIONS = report_model.TOP / "release" / "completions"
HEADER = ["| Kind | Is | A file with it | A file without it | Message |", "|---|---|---|---|---|"]
SEVERITIES = {"Errors": "error", "Warnings": "warning"}
SIGNS = {"\t": "<TAB>", "\r": "<CR>", "\0": "<NUL>", "\n": "\u23ce"}


def severities():
    """Whether each kind is an error or a warning, by src/kind.rt."""
    text = report_model.KINDS.read_text(encoding="utf-8")
    names = re.search(r"pub fn name\(self\)(.*?)\n    \}\n", text, re.S).group(1)
    faults = re.search(r"pub fn is_fault\(self\)(.*?)\n    \}\n", text, re.S).group(1)
    is_fault = dict(re.findall(r"Kind::(\w+) => (true|false),", faults))
    return {
        name: "error" if is_fault[variant] == "true" else "warning"
        for variant, name in re.findall(r'Kind::(\w+) => "([^"]*)",', names)}


def sign(found):
    """How a character is written, or blanks that could be overlooked."""
    text = found.group()
    if "\udc80" <= text <= "\udcff":
        return f"<x{ord(text) - 0xdc00:02X}>"
    if text.startswith(" "):
        return "\u2423" * len(text)
    return text if text.isprintable() else SIGNS.get(text) or f"<U+{ord(text):04X}>"


def shown(data):
    """The bytes of a file as the tables of the pages have them."""
    text = data.decode("utf-8", "surrogateescape")
    behind = "" if text.endswith("\n") else " (no `\u23ce` at the end)"
    text = re.sub(r"^ +| +(?=\n|$)| {2,}|[^ ]", sign, re.sub(r"\n\Z", "", text))
    return f"`{text}`{behind}"


def table():
    """The rows of the table."""
    examples = {}
    for kind, file, instead in report.rows(report.ADVICE):
        examples.setdefault(kind, [shown(report_model.bytes_of(cell)) for cell in (file, instead)])
    kinds = severities()
    return [
        "| " + " | ".join([f"`{kind}`", kinds[kind]] + examples.get(kind, ["", ""]) + [f"`{message}`"]) + " |"
        for kind, message in report.MESSAGES.items()]


def page_rows(count):
    """The rows of the table as the page has them."""
    lines = re.findall(r"^\|.*", PAGE.read_text(encoding="utf-8"), re.M)
    count.check(lines[:2] == HEADER, "docs/KINDS.md has no table of kinds")
    return lines[2:]


def check_page(count, lines):
    """Checks that the page has each kind in its place, with its severity and its message, and no more."""
    kinds = severities()
    wanted = [(f"`{kind}`", kinds[kind], f"`{message}`") for kind, message in report.MESSAGES.items()]
    cells = [line.strip("|").split("|") for line in lines]
    found = [tuple(row[at].strip() for at in (0, 1, -1)) if len(row) == 5 else tuple(row) for row in cells]
    for row in wanted:
        count.check(row in found, f"docs/KINDS.md has no row with {row}")
    for row in found:
        count.check(row in wanted, f"docs/KINDS.md has a row with {row}")
    count.check(found == wanted, "docs/KINDS.md has the kinds in another order")
    count.check(lines == table(), "docs/KINDS.md has another table than tests/made_pages.py makes")


def check_files(count, lines, reader):
    """Checks that what the page says of each file is so."""
    rows = [[cell.strip() for cell in line.strip("|").split("|")] for line in lines]
    texts = [phrase(cell, FILE) for row in rows for cell in row[2:4]]
    files = [text.encode("utf-8", "surrogateescape") for text in texts]
    found = report.findings_of(count, reader, "the table", files)
    for row, before, after in zip(rows, found[0::2], found[1::2]):
        kind = row[0].strip("`")
        is_told = any(finding.kind == kind and not finding.is_guess for finding in before)
        count.check(is_told, f"{kind} isn't told of {row[2]}", before)
        count.check(kind not in {finding.kind for finding in after}, f"{kind} is told of {row[3]}", after)


def check_rules(count, program):
    """Checks that a document of SARIF has a rule for each kind, with its message."""
    answer = program.call("/", [], "v15", [], ["--format", "sarif", "/dev/null"])
    driver = json.loads(answer.output)["runs"][0]["tool"]["driver"]
    rules = [(rule["id"], rule["shortDescription"]["text"]) for rule in driver["rules"]]
    count.check(rules[:len(report.MESSAGES)] == list(report.MESSAGES.items()), "SARIF has other rules", *rules)


def check_manual(count):
    """Checks that the manual page has the names of all kinds, by errors and warnings, in order."""
    section = re.search(r"^\.SH KINDS OF FINDINGS\n(.*?)(?=^\.SH )", MANUAL.read_text(encoding="utf-8"), re.M | re.S)
    lists = re.findall(r"^\.SS (\w+)\n(.*?)(?=^\.SS |\Z)", section.group(1), re.M | re.S) if section else []
    found = {}
    for title, text in lists:
        names = re.findall(r"^\.TP\n\\fB(.*)\\fR$", text, re.M)
        found[SEVERITIES.get(title, title)] = [name.replace("\\-", "-") for name in names]
    kinds = severities()
    for severity in SEVERITIES.values():
        wanted = [kind for kind in kinds if kinds[kind] == severity]
        names = found.get(severity, [])
        for kind in wanted:
            count.check(kind in names, f"docs/dotenvy_check.1, {severity}s, hasn't {kind}")
        count.check(names == wanted, f"docs/dotenvy_check.1, {severity}s, has {names}")
    count.check(len(lists) == len(found) == len(SEVERITIES), "docs/dotenvy_check.1 has other lists of kinds")


def check_completions(count):
    """Checks that the completions of each shell have the names of all kinds, by errors and warnings, in order."""
    kinds = severities()
    for path in sorted(COMPLETIONS.glob("dotenvy_check.*")):
        words = [word for word in path.read_text(encoding="utf-8").split() if word != "\\"]
        for severity in SEVERITIES.values():
            wanted = [kind for kind in kinds if kinds[kind] == severity]
            at = words.index(wanted[0]) if wanted[0] in words else 0
            named = [word for word in words[at:at + len(wanted) + 1] if word in kinds]
            count.check(named == wanted, f"release/completions/{path.name} has other {severity}s: {named}")


def main(words):
    """Does what the words of the command line say, and returns the status."""
    sys.stdout.reconfigure(encoding="utf-8", errors="backslashreplace")
    make, path, _ = report.asked(words)
    count = Count()
    count.check(severities().keys() == report.MESSAGES.keys(), "kind.rt has other names than messages")
    lines = page_rows(count)
    check_page(count, lines)
    check_manual(count)
    check_completions(count)
    if make is report.Program and not path.exists():
        count.check(False, f"there is no program {path}; rt run in crates/dotenvy_check builds it")
    else:
        check_files(count, lines, make(path))
        if make is report.Program:
            check_rules(count, make(path))
    return count.status()


if __name__ == "__main__":
    sys.exit(main(sys.argv[1:]))
