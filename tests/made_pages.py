#!/usr/bin/env -S python3 -B
"""Makes what is made in docs/ of other texts.

    made_pages.py            prints how each file would change, and ends with status 1 if one would
    made_pages.py --write    writes the files

- The pages of the programs have the options of `--help`, in its words: the rows of a table up to that of `--`.
- docs/KINDS.md has the kinds of findings, by the code and tests/advice.tsv.
- A manual page has all of its page, in that order, under the headings of manual pages. What a page has between
  `<!-- page only -->` and `<!-- end -->` is left out, and `<!-- manual: KEY -->` stands for a text of `inserts`. A
  table of two columns becomes a list with tags, and any other table a block.
"""

import difflib
import re
import sys
import textwrap

import kept_names
import kinds
import report
from pages import DOCS, TOP, cells

# The page of each program, and what the program does.
MANUALS = {
    "dotenvy_run": ("COMMAND.md", "start a command with the settings of environment files"),
    "dotenvy_check": ("CHECK.md", "say on which lines of environment files something is wrong"),
    "dotenvy_edit": ("EDIT.md", "change one name in an environment file, and keep every other byte"),
    "dotenvy_export": (
        "EXPORT.md", "write the settings of environment files for docker, kubectl, systemd, shells or JSON"),
    "dotenvy_exec": ("EXEC.md", "become a command that has the settings of environment files"),
}
# The text of `--help` of each program that has one.
HELPS = {
    "dotenvy_check": "crates/dotenvy_checker/specs/Help.antt",
    "dotenvy_edit": "crates/dotenvy_edit_command/specs/Help.antt",
    "dotenvy_export": "crates/dotenvy_export_command/specs/Help.antt",
    "dotenvy_exec": "bin/dotenvy_exec",
}
OPTIONS_HEADER = "| Word | Means |\n|---|---|\n"
KINDS_START = """# The kinds of findings of `dotenvy_check`

[`tests/made_pages.py`](../tests/made_pages.py) makes this page of the code. {} kinds are errors and {} are warnings. Of
each there is a file with it, a similar file without it, written
[as in the grammar](GRAMMAR.md#how-the-examples-are-written), and its message. No name has a value except those that the
file declares. If you mean a dollar, you can also put the value in single quotes.
[Defaults](OTHER_LIBRARIES.md#defaults) and [the output of commands](OTHER_LIBRARIES.md#the-output-of-commands) can be
had in other ways. [The checker](CHECK.md) says what is printed of a finding.

"""
HEADINGS = {
    "Options and files": "Options", "Options and the command": "Options", "Statuses": "Exit status",
    "Texts on standard error": "Diagnostics", "What is printed": "Output",
}
# What roff or a terminal would take for something else, in a text that is to be typed.
SIGNS = {"\\": "\\e", "-": "\\-", "'": "\\(aq", '"': "\\(dq", "`": "\\(ga", "^": "\\(ha", "~": "\\(ti"}
COLUMNS = 110


def inserts():
    """The texts that only manual pages have, by their keys."""
    start = (DOCS / "GRAMMAR.md").read_text(encoding="utf-8").partition("\n## ")[0]
    example = next(chunk for chunk in chunks(start) if chunk[0] == "```")
    habits = re.search(r"(?m)(^- (?!\[).*\n)+", start)[0]
    found = kinds.severities()
    lists = [
        f"### {title}\n\n| Kind | Message |\n|---|---|\n"
        + "".join(f"| `{kind}` | {text} |\n" for kind, text in report.MESSAGES.items() if found[kind] == severity)
        for title, severity in kinds.SEVERITIES.items()]
    return {
        "an example": "\n".join(["An environment file looks like this:\n", *example, "\n"]),
        "the habits": f"Five habits keep files clear of nearly all surprises:\n\n{habits}\n",
        "the kinds": "\n".join(lists),
        "the names that shells keep": "These are the names: " + ", ".join(kept_names.code_names()) + ".\n\n",
    }


def kinds_page():
    """The page of the kinds."""
    found = list(kinds.severities().values())
    start = KINDS_START.format(*map(found.count, kinds.SEVERITIES.values()))
    return start + "\n".join(kinds.HEADER + kinds.table()) + "\n"


def option_rows(path):
    """The options of a text of `--help`, as rows of a table."""
    text = (TOP / path).read_text(encoding="utf-8")
    lines = re.findall(r'codes "(.*)\\n"', text) or text.splitlines()
    rows = []
    for line in lines:
        option = re.fullmatch(r" +(-\S*(?:, -\S+)?)( [A-Z]+)?(?: {2,}(.*))?", line)
        if option:
            rows.append([", ".join(f"`{word}{option[2] or ''}`" for word in option[1].split(", ")), option[3] or ""])
        elif rows and re.match(" {18}", line):
            rows[-1][1] += " " + line.strip()
        elif rows:
            break
    return "".join(f"| {words} | {text.strip()} |\n" for words, text in rows)


def with_options(name):
    """The text of a program's page, with the options of `--help`."""
    text = (DOCS / MANUALS[name][0]).read_text(encoding="utf-8")
    if name not in HELPS:
        return text
    start, header, rows = text.partition(OPTIONS_HEADER)
    last = re.search(r"^\| `--` \|.*\n", rows, re.M)
    return start + header + option_rows(HELPS[name]) + rows[last.end():]


def source(name):
    """The text of a page that a manual page has."""
    text = with_options(name).partition("\n")[2]
    text = re.sub(r"^<!-- page only -->\n.*?^<!-- end -->\n", "", text, flags=re.M | re.S)
    text = re.sub(r"^<!-- manual: (.*?) -->\n", lambda found: inserts()[found[1]], text, flags=re.M)
    if "<!--" in text:
        raise SystemExit(f"docs/{MANUALS[name][0]}: a comment that has no end, or isn't known")
    return text


def escaped(text, signs):
    """A text as roff has it, with these signs escaped."""
    text = "".join(SIGNS[char] if char in signs else char for char in text)
    return re.sub(r"[^\0-~]", lambda found: f"\\[u{ord(found[0]):04X}]", text)


def in_font(font, text):
    """A text that is to be typed or is printed, in a font."""
    return f"\\f{font}{escaped(text, SIGNS)}\\fR"


def call(text):
    """How a program or an option is called: what the caller names is in capital letters."""
    parts = re.split(r"([A-Z]{2,}|[-a-z_=]+)", text)
    for number in range(1, len(parts), 2):
        parts[number] = in_font("I" if parts[number].isupper() else "B", parts[number])
    return "".join(parts)


def linked(found):
    """What is said in place of a link: a program's manual page, or the words, with that page if they are on it."""
    words, target = found.groups()
    name = words.strip("`")
    if name in MANUALS:
        return f"`{name}`(1)"
    return words + "".join(f" (`{other}`(1))" for other in MANUALS if MANUALS[other][0] == target.partition("#")[0])


def inline(text):
    """A paragraph, an item or a cell: code and words between asterisks are bold."""
    text = re.sub(r"\[([^\]]+)\]\(([^)\s]+)\)", linked, text)
    parts = re.split(r"`([^`]+)`", text)
    for number, part in enumerate(parts):
        parts[number] = in_font("B", part) if number % 2 else escaped(part, "\\")
    return re.sub(r"\*\*(.*?)\*\*", lambda found: f"\\fB{found[1]}\\fR", "".join(parts))


def filled(text):
    """The lines of a paragraph. None of them is a request of roff."""
    lines = textwrap.wrap(inline(" ".join(text.split())), COLUMNS, break_long_words=False, break_on_hyphens=False)
    return ["\\&" + line if line[0] in ".'" else line for line in lines]


def block(lines):
    """Lines that stay as they are."""
    lines = [escaped(line, SIGNS) for line in lines]
    lines = ["\\&" + line if line.startswith(".") else line for line in lines]
    return [".PP", ".RS 4", ".EX", *lines, ".EE", ".RE"]


def table(rows):
    """The rows of a table, without its header where each has a tag and a text."""
    rows = [cells(row) for row in rows[:1] + rows[2:]]
    if len(rows[0]) != 2:
        rows = [[re.sub(r"\[([^\]]+)\]\([^)]+\)|`", r"\1", cell) for cell in row] for row in rows]
        widths = [max(map(len, column)) for column in zip(*rows)]
        return block("  ".join(map(str.ljust, row, widths)).rstrip() for row in rows)
    lines = []
    for tag, text in rows[1:]:
        is_option = re.fullmatch(r"`-[^`]*`(, `-[^`]*`)*", tag)
        lines += [".TP", call(tag.replace("`", "")) if is_option else inline(tag), *filled(text)]
    return lines


def chunks(text):
    """The lines of each part of a text: of a heading, a block, a table, an item or a paragraph."""
    found, is_open, in_block = [], False, False
    for line in text.splitlines():
        begins = re.match(r"```|#+ |\||- |\d+\. ", line)
        if in_block:
            found[-1].append(line)
            in_block = line != "```"
        elif is_open and line and (not begins or begins[0] == found[-1][0][0] == "|"):
            found[-1].append(line)
        elif line:
            found.append([line])
            in_block = line.startswith("```")
        is_open = bool(line) and not line.startswith(("#", "```"))
    return found


def rendered(chunk):
    """A part of a text in the language of manual pages."""
    first = chunk[0]
    item = re.match(r"(-|\d+\.) ", first)
    if first.startswith("### "):
        return [".SS " + inline(first[4:])]
    if first.startswith("```"):
        return block(chunk[1:-1])
    if first.startswith("|"):
        return table(chunk)
    if item:
        return [".IP " + ("\\(bu 2" if item[1] == "-" else item[1] + " 3"), *filled(" ".join(chunk)[item.end():])]
    return [".PP", *filled(" ".join(chunk))]


def manual(name):
    """The manual page of a program."""
    sections = {"Description": []}
    title = "Description"
    for chunk in chunks(source(name)):
        if chunk[0].startswith("## "):
            title = HEADINGS.get(chunk[0][3:], chunk[0][3:])
        elif title == "Usage" and chunk[0] == "```":
            sections["Synopsis"] = [".nf", *map(call, chunk[1:-1]), ".fi"]
        else:
            sections.setdefault("Description" if title == "Usage" else title, []).extend(rendered(chunk))
    page, does = MANUALS[name]
    lines = [f'.\\" tests/made_pages.py makes it of docs/{page}.']
    lines += [f'.TH {name.upper()} 1 "" "dotenvy, proved" "User Commands"', ".nr HY 0", ".nh", ".ad l"]
    lines += [".SH NAME", f"{name} \\- {does}", ".SH SYNOPSIS", *sections.pop("Synopsis")]
    for title, found in sections.items():
        lines += [".SH " + inline(title.upper()), *found[found[0] == ".PP":]]
    return "\n".join(lines) + "\n"


def made():
    """Each file that is made, and its text."""
    return {
        DOCS / "KINDS.md": kinds_page(),
        **{DOCS / MANUALS[name][0]: with_options(name) for name in HELPS},
        **{DOCS / f"{name}.1": manual(name) for name in MANUALS},
    }


def main(words):
    """Writes or compares the files. The status."""
    status = 0
    for path, text in made().items():
        before = path.read_text(encoding="utf-8") if path.exists() else ""
        if words == ["--write"]:
            path.write_text(text, encoding="utf-8")
        elif text != before:
            status = 1
            name = str(path.relative_to(TOP))
            sys.stdout.writelines(difflib.unified_diff(before.splitlines(True), text.splitlines(True), name, "made"))
    return status


if __name__ == "__main__":
    sys.exit(main(sys.argv[1:]))
