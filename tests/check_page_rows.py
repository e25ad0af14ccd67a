#!/usr/bin/env -S python3 -B
"""Prints the examples of docs/CHECK.md as rows (docs/ROWS.md), which are crates/test_replay/data/check_page.rows.

The first example is the block labelled `env`, and the block labelled `report` is what is reported of it. Each line of a
table of findings is a row of its file. The page names their kinds, and tests/report_model.py says where they are and
what is printed of each. If it finds others, the script ends with status 1.
"""

import report_model
from examples import CODE, FILE, listed, phrase, phrases, print_rows, refuse, written
from pages import blocks, text_of

# The tables that have no examples, by their header lines.
NO_EXAMPLES = ["| Word | Means |", "| Line | Means |", "| Text | Means |", "| Status | When |", "| Text | When |"]
# That of the kinds is tried by tests/kinds.py.
NO_EXAMPLES += ["| Kind | Is | A file with it | A file without it | Message |"]

DIALECTS = {"first": "v15", "second": "next"}
# Phrases for findings.
FINDING = {"`([^`]*)`": "{0}", "`([^`]*)` as a guess": "{0}?"}
MESSAGES = report_model.messages()


def answer_of(findings, path):
    """What a row wants of a check of a file with this name: what was found, and the report."""
    faults = any(finding.is_error and not finding.is_guess for finding in findings)
    warnings = any(not finding.is_error and not finding.is_guess for finding in findings)
    found = " and ".join(["faults"] * faults + ["warnings"] * warnings)
    report = "".join(report_model.printed(path, finding, MESSAGES) + "\n" for finding in findings)
    return listed([found, report]) if findings else "nothing"


def check_row(name, dialect, pairs, file, kinds):
    """What is reported of a file called .env, in an environment of these pairs: findings of these kinds."""
    names = [pair.split("=")[0] for pair in pairs]
    findings = report_model.report(file.encode("utf-8", "surrogateescape"), dialect, names)
    found = [finding.kind + "?" * finding.is_guess for finding in findings]
    if found != kinds:
        refuse(f"the page has other findings of {written(file)} than the model, which has {found}")
    return ["check", name, dialect, ".env", listed(pairs), written(file), "", answer_of(findings, ".env")]


def finding_row(name, table):
    """What is reported of a file."""
    dialect, environment, file, said = table[-1].values()
    pairs = phrases(environment, ", ", "", CODE)
    kinds = phrases(said, ", then ", "none", FINDING)
    return check_row(name, DIALECTS[dialect], pairs, phrase(file, FILE), kinds)


def first_example():
    """Prints what is reported of the first example, which has faults and warnings."""
    found = [list(blocks(text_of("docs/CHECK.md"), label)) for label in ("env", "report")]
    if not all(found):
        refuse("CHECK.md has no block of an environment file, or none of its report")
    file, report = [first[0][1] for first in found]
    answer = listed(["faults and warnings", report])
    if answer != answer_of(report_model.report(file.encode()), "service.env"):
        refuse("CHECK.md has another report of its first example than the model")
    print("|".join(["check", "the-first-example", "v15", "service.env", "", written(file), "", answer]))


if __name__ == "__main__":
    print_rows("docs/CHECK.md", {"| Dialect | Environment | File | Findings |": [finding_row]}, NO_EXAMPLES)
    first_example()
