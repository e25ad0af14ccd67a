#!/usr/bin/env -S python3 -B
"""Reads a report of dotenvy_check in another format than text, and prints it as the text of the same report.

    formats.py github|json|sarif < REPORT

It ends with status 1 at a report that is no such format, and says what is wrong: a line that is no command for a
workflow of GitHub, no object of JSON or one with other members, or a document that lacks what SARIF 2.1.0 requires.
"""

import json
import re
import sys
import urllib.parse

SCHEMA = "https://json.schemastore.org/sarif-2.1.0.json"
COMMAND = re.compile(r"::(error|warning) file=([^,:]*)(?:,line=(\d+),col=(\d+))?(?:,title=([^,:]*))?::(.*)")
ESCAPES = {"%25": "%", "%0D": "\r", "%0A": "\n", "%3A": ":", "%2C": ","}
SHOWN = {"\n": "\\n", "\r": "\\r", "\t": "\\t"}
TYPES = {"file": str, "line": int, "column": int, "severity": str, "kind": str, "message": str}
TYPES.update({"other": int, "guess": bool})
ALWAYS = ["file", "severity", "message"]


def line(file, place, severity, message, kind):
    """The line of text of a finding at a place, or of a whole file if there is none."""
    where = ":".join([file] + [str(number) for number in place])
    return f"{where}: {severity}: {message}" + (f" [{kind}]" if kind else "")


def unescaped(text, escapes):
    """The text for which a text of a command stands, in which these escapes are replaced."""
    if re.search(r"%(?!" + "|".join(code[1:] for code in escapes) + ")", text):
        raise ValueError(f"there is no such escape: {text}")
    return re.sub("|".join(escapes), lambda found: ESCAPES[found.group()], text)


def of_github(report):
    """The lines of text of a report for GitHub."""
    for command in report.splitlines():
        found = COMMAND.fullmatch(command)
        if not found:
            raise ValueError(f"this is no command for a workflow: {command}")
        severity, file, row, column, title, message = found.groups()
        place = [row, column] if row else []
        yield line(unescaped(file, list(ESCAPES)), place, severity, unescaped(message, ["%25", "%0D", "%0A"]), title)


def of_json(report):
    """The lines of text of a report in JSON."""
    for text in report.splitlines():
        told = json.loads(text)
        for name, value in told.items():
            if type(value) is not TYPES.get(name):
                raise ValueError(f"{name} is another member, or of another type: {text}")
        if not all(name in told for name in ALWAYS) or told["severity"] not in ("error", "warning"):
            raise ValueError(f"a member is missing, or wrong: {text}")
        place = [told["line"], told["column"]] if "line" in told else []
        behind = " (after the open quote)" if told.get("guess") else ""
        behind += f" (line {told['other']})" if "other" in told else ""
        yield line(told["file"], place, told["severity"], told["message"] + behind, told.get("kind"))


def required(there, what):
    """Refuses a document without something that SARIF requires."""
    if not there:
        raise ValueError(f"SARIF requires {what}")


def driver_of(document):
    """What made a document of SARIF, and its only run."""
    required(document["version"] == "2.1.0", "the version 2.1.0")
    required(document["$schema"] == SCHEMA, "a schema")
    [run] = document["runs"]
    driver = run["tool"]["driver"]
    required(driver["name"] == "dotenvy_check", "the name of the tool")
    rules = [rule["id"] for rule in driver["rules"]]
    required(len(rules) == len(set(rules)), "another name for each rule")
    required(all(rule["shortDescription"]["text"] for rule in driver["rules"]), "a text of each rule")
    required(run["columnKind"] in ("unicodeCodePoints", "utf16CodeUnits"), "a kind of columns")
    return run


def shown(name):
    """The name of a file on one line, as a text has it."""
    return re.sub(
        "[\0-\x1f\x7f-\x9f\u2028-\u202e\u2066-\u2069]",
        lambda found: SHOWN.get(found.group()) or f"\\u{{{ord(found.group()):x}}}", name)


def of_sarif(report):
    """The lines of text of a document of SARIF."""
    for result in driver_of(json.loads(report))["results"]:
        required(result["level"] in ("error", "warning"), "a level")
        [location] = result["locations"]
        physical = location["physicalLocation"]
        place = []
        if "region" in physical:
            place = [physical["region"]["startLine"], physical["region"]["startColumn"]]
            required(all(type(number) is int and number > 0 for number in place), "places from 1 on")
        uri = physical["artifactLocation"]["uri"]
        required(re.fullmatch(r"([-._~/A-Za-z0-9]|%[0-9A-F]{2})*", uri), f"a URI: {uri}")
        kind = result["ruleId"] if result["ruleId"] != "unread-file" else None
        file = shown(urllib.parse.unquote(uri, errors="strict"))
        yield line(file, place, result["level"], result["message"]["text"], kind)


READERS = {"github": of_github, "json": of_json, "sarif": of_sarif}


def main(words):
    """Does what the words of the command line say, and returns the status."""
    if len(words) != 1 or words[0] not in READERS:
        print(__doc__, file=sys.stderr)
        return 2
    try:
        report = sys.stdin.buffer.read().decode("utf-8")
        lines = list(READERS[words[0]](report))
    except (KeyError, TypeError, ValueError) as fault:
        print(f"{words[0]}: {type(fault).__name__}: {fault}", file=sys.stderr)
        return 1
    sys.stdout.reconfigure(encoding="utf-8")
    sys.stdout.write("".join(text + "\n" for text in lines))
    return 0


if __name__ == "__main__":
    sys.exit(main(sys.argv[1:]))
