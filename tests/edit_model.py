#!/usr/bin/env -S python3 -B
r"""A model of dotenvy_edit, written from its law and from docs/GRAMMAR.md, without a look at its code.

    edit_model.py --examples [TABLE]     compares the model with tests/edit_examples.tsv
    edit_model.py --rows                 compares what the model reads of files with the rows of crates/test_replay/data

`broken` judges an answer: it takes the old bytes, a call and the new bytes, and returns what of the law doesn't hold.
`answer` predicts the answer: the new bytes, or the refusals that are right, each a word of REASONS and the line that is
told, or 0. `warnings` says what is told beside new bytes.

A slice is the physical lines of one logical line. An assignment of a key is a slice whose text is a statement of it, a
declaration or one with a fault in its value. In a slice that assigns, `front` is what comes before the value, `old` is
the value as it is written, and `rest` is blanks, then nothing or a comment, and the line end.

Bytes are compared slice by slice. Entries, which are the pairs and the faults of a file, are those of a reader:
`Library` asks the library for C through its Python package, where bindings/build.sh has built it, and `Own` is a reader
of the model's own. Each name that a file mentions gets a value that no file has, so that two values which mention other
names differ.
"""

import collections
import importlib
import pathlib
import re
import sys
import unicodedata

import report_model
from report_model import ESCAPED, MARK, SPACE, SPACE_OR_TAB, without_mark

TOP = report_model.TOP
EXAMPLES = TOP / "tests" / "edit_examples.tsv"
ROWS = TOP / "crates" / "test_replay" / "data"
PLAIN = re.compile("[A-Za-z0-9_./:@%+,=-]*")
KEY = report_model.KEY
# Of each refusal, what its text has to say.
REASONS = {
    "key": "name", "nul": "NUL", "text": "UTF-8", "open-line": "open", "broken-line": "UTF-8", "open-end": "open",
    "comment-cut": "comment", "comment-removed": "comment", "absent": "not in", "there": "already",
    "mark": "byte order mark", "quote": "quote", "backslash": "backslash", "dollar": "dollar",
    "return": "carriage return", "comment-quote": "comment", "white-space": "white space",
}

# What is asked for: set, unset or rename; the key; the value, or the new key of rename; and how.
Call = collections.namedtuple("Call", "verb key value dialect portable", defaults=("", "v15", False))
# New bytes, or None and the refusals that are right.
Answer = collections.namedtuple("Answer", "data refusals")
# A logical line with its slice: where that begins, its bytes, and the number of its first physical line.
Line = collections.namedtuple("Line", "start data number what text")
Spot = collections.namedtuple("Spot", "front old pieces rest end")
# An entry. Of a pair there is a key, of a fault there are `text` and `index`, which is None where it isn't counted.
Entry = collections.namedtuple("Entry", "kind key text index line")
Name = collections.namedtuple("Name", "name")


# Reading a value.


def read_value(value, dialect):
    """The pieces of a value, texts and names, and the place where its blanks and its comment begin; or None."""
    place, pieces = 0, []
    while place < len(value):
        if value[place] in SPACE_OR_TAB:
            rest = value[place:].lstrip(SPACE_OR_TAB)
            return (pieces, place) if report_model.says_nothing(rest) else None
        found = read_quoted(value, place, dialect) if value[place] in "'\"" else read_part(value, place, False, dialect)
        if found is None:
            return None
        pieces += found[0]
        place = found[1]
    return pieces, place


def read_quoted(value, place, dialect):
    """The pieces of the part in quotes that begins there, and the place after it; or None."""
    quote, pieces = value[place], []
    place += 1
    if quote == "'":
        end = value.find("'", place)
        return None if end < 0 else ([value[place:end]], end + 1)
    while place < len(value):
        if value[place] == '"':
            return pieces, place + 1
        found = read_part(value, place, True, dialect)
        if found is None:
            return None
        pieces += found[0]
        place = found[1]
    return None


def read_part(value, place, is_inside, dialect):
    """The pieces of the character, escape or substitution that begins there, and the place after it; or None."""
    if value[place] == "$":
        return read_name(value, place + 1, is_inside, dialect)
    if value[place] != "\\":
        return [value[place]], place + 1
    if place + 1 == len(value):
        return None if is_inside else ([], place + 1)
    escaped = value[place + 1]
    if escaped not in ESCAPED:
        return None
    return ["\n" if escaped == "n" else escaped], place + 2


def read_name(value, place, is_inside, dialect):
    """The same of a substitution, from the place after its dollar on."""
    if value.startswith("{", place):
        end = value.find("}", place)
        return None if end < 0 else ([Name(value[place + 1:end])], end + 1)
    start = place
    while place < len(value) and report_model.is_name_character(value[place], dialect):
        place += 1
    name = Name(value[start:place])
    closes = is_inside and dialect == "next" and value.startswith('"', place)
    if place == len(value) or value[place] == "$" or closes:
        return [name], place
    return [name, value[place]], place + 1


def text_of(pieces):
    """The text that pieces mean under every look-up, or None if they have a name."""
    if pieces is None or any(isinstance(piece, Name) for piece in pieces):
        return None
    return "".join(pieces)


def meant(value, dialect):
    """The text that a whole value means under every look-up, or None. It has no blanks and no comment at its end."""
    if report_model.says_nothing(value):
        return "" if value == "" else None
    found = read_value(value, dialect)
    return text_of(found[0]) if found and found[1] == len(value) else None


# Slices.


def lines_of(data):
    """The logical lines of bytes without a mark, each with its slice."""
    physical = report_model.physical_lines(data)
    logical = report_model.logical_lines(data)
    ends = [line.first_line - 1 for line in logical[1:]] + [len(physical)]
    lines, start = [], 0
    for line, end in zip(logical, ends):
        piece = b"".join(physical[line.first_line - 1:end])
        lines.append(Line(start, piece, line.first_line, line.what, line.text))
        start += len(piece)
    return lines


def statement_of(line):
    """The statement of a logical line that is a text, or None."""
    if line.what != "text":
        return None
    text = line.text.rstrip(SPACE)
    return None if report_model.says_nothing(text.lstrip(SPACE)) else report_model.statement_of(text)


def assigns(line, key):
    """Whether the logical line is an assignment of the key."""
    statement = statement_of(line)
    return statement is not None and statement.key == key


def begins_with(line, key):
    """Whether a line that is open or not UTF-8 begins as an assignment of the key does."""
    if line.what not in ("open", "broken"):
        return False
    statement = report_model.statement_of(line.data.decode("utf-8", "replace"))
    return statement is not None and statement.key == key


def line_end(text):
    """The line end of a text."""
    return re.search("(?:\r?\n|\r|)\\Z", text).group()


def spot_of(line, dialect):
    """The parts of a slice that assigns."""
    statement, whole = statement_of(line), line.data.decode()
    if report_model.says_nothing(statement.value):
        front, old, pieces = whole[:statement.equals + 1], "", []
    else:
        read = read_value(statement.value, dialect)
        pieces = read[0] if read else None
        old = statement.value[:read[1]] if read else statement.value
        front = whole[:statement.value_start]
    rest = whole[len(front) + len(old):]
    return Spot(front, old, pieces, rest, line_end(rest))


def comment_of(spot):
    """The comment of a spot, without the line end."""
    start = spot.rest.find("#")
    return "" if start < 0 else spot.rest[start:len(spot.rest) - len(spot.end)]


def has_long_comment(line, dialect):
    """Whether the slice assigns and has a comment over several lines."""
    return "\n" in comment_of(spot_of(line, dialect))


# Forms of a value.


def double_quoted(value):
    """The value in double quotes, with escapes."""
    return '"' + re.sub(r'([\\"$])', r"\\\1", value) + '"'


def old_quotes(spot):
    """The quotes of the old value, if it is one part in quotes, whatever is in it; or the empty text. As where lines
    are split, a backslash in either quotes takes the next character with it."""
    found = re.fullmatch(r"""(?s)'(?:[^'\\]|\\.)*'|"(?:[^"\\]|\\.)*\"""", spot.old)
    return spot.old[0] if found else ""


def forms(spot, value):
    """The forms of a value, in the order in which they are tried. Without a spot, those of an appended line."""
    found = []
    if spot and text_of(spot.pieces) == value:
        found.append(spot.old)
    quote = old_quotes(spot) if spot else ""
    if quote and not set(value) & set("'" if quote == "'" else "\"\\$"):
        found.append(quote + value + quote)
    if PLAIN.fullmatch(value):
        found.append(value)
    if "'" not in value:
        found.append("'" + value + "'")
    return found + [double_quoted(value)]


def portable_forms(value, comment=""):
    """The forms of a value that other readers give the same before this comment, in the order in which they are tried;
    and the reasons for which it has none before any comment."""
    single = [("quote", "'" in value), ("line feed", "\n" in value),
              ("backslash", "\\\\" in value or value[-1:] == "\\"),
              ("dollar", re.search(r"(?s)\$\{.*\}", value) is not None)]
    double = [("quote", '"' in value), ("dollar", "$" in value), ("backslash", "\\" in value)]
    always = [(reason, sign in value) for reason, sign in (("nul", "\0"), ("return", "\r"))]
    reasons = [reason for reason, holds in always if holds]
    if reasons:
        return [], reasons
    is_single, is_double = (not any(holds for _, holds in faults) for faults in (single, double))
    found = [value] if PLAIN.fullmatch(value) and (value or not comment) else []
    if is_single and "'" not in comment:
        found.append("'" + value + "'")
    if is_double and '"' not in comment:
        found.append('"' + value.replace("\n", "\\n") + '"')
    has_form = is_single or is_double
    return found, [reason for reason, holds in single + double if holds and not has_form and reason != "line feed"]


def tails(spot):
    """What may follow the form: what follows the old value; one blank and the comment; or the line end alone."""
    comment, found = comment_of(spot), [spot.rest]
    if comment and "\n" not in comment:
        found.append(" " + comment + spot.end)
    return found if comment else found + [spot.end]


def is_written(text, key, value, dialect):
    """Whether a text is one logical line, which declares the key with a value that means this text."""
    lines = lines_of(text.encode())
    if len(lines) != 1 or not assigns(lines[0], key):
        return False
    return text_of(spot_of(lines[0], dialect).pieces) == value


# What is predicted.


def last_end(data):
    """The line end of the last line that has one."""
    end = data.rfind(b"\n")
    return "\r\n" if end > 0 and data[end - 1:end] == b"\r" else "\n"


def gap(data, lines):
    """The line end that the last line gets before a line is appended."""
    if data[-1:] in (b"", b"\n"):
        return ""
    if data[-1:] != b"\r":
        return last_end(data)
    last = lines[-1]
    quotes_return = last.what == "text" and last.text[-1:] == "\r" and statement_of(last) is None
    return "\r\n" if quotes_return and last.text.strip(SPACE) and last.text.lstrip(SPACE)[0] != "#" else "\n"


def refusals_of_value(call):
    """The refusals of a call by its words alone."""
    found = [("key", 0)] if KEY.fullmatch(call.key) is None else []
    if call.verb == "rename":
        return found + ([("key", 0)] if KEY.fullmatch(call.value) is None else [])
    if call.verb == "set" and "\0" in call.value:
        found.append(("nul", 0))
    if call.verb == "set" and call.portable:
        found += [(reason, 0) for reason in portable_forms(call.value)[1]]
    return found


def refusals_of_lines(call, data, lines):
    """The refusals of a call by lines of the key that can't be read, where no line assigns it."""
    if any(assigns(line, call.key) for line in lines):
        return []
    found = [(line.what + "-line", line.number) for line in lines if begins_with(line, call.key)]
    if call.verb == "set":
        found += [("open-end", line.number) for line in lines if line.what == "open"]
    elif not found:
        found.append(("absent", 0))
    return found


def has_only_spaces(spot):
    """Whether all white space around the name and after the value is spaces. Node takes a tab for a part of either."""
    blanks = spot.rest[:len(spot.rest) - len(spot.end) - len(comment_of(spot))]
    return not (set(spot.front + blanks) & set(SPACE)) - {" "} and spot.end != "\r"


def new_text(call, line):
    """The new text of the slice that assigns, or None and the refusals."""
    spot = spot_of(line, call.dialect)
    if call.portable and not has_only_spaces(spot):
        return None, [("white-space", line.number)]
    candidates = portable_forms(call.value, comment_of(spot))[0] if call.portable else forms(spot, call.value)
    if not candidates:
        return None, [("comment-quote", line.number)]
    for form in candidates:
        for tail in tails(spot):
            now = spot.front + form + tail
            if is_written(now, call.key, call.value, call.dialect):
                return now, []
    return None, [("comment-cut", line.number)]


def answer_set(call, mark, data, lines):
    """The answer to `set`."""
    assigned = [line for line in lines if assigns(line, call.key)]
    refusals = [("mark", 1)] if call.portable and mark else []
    if not assigned:
        forms_of = portable_forms(call.value)[0] if call.portable else forms(None, call.value)
        front, end = gap(data, lines) + call.key + "=", last_end(data)
        written = [front + form + end for form in forms_of if is_written(
            call.key + "=" + form + end, call.key, call.value, call.dialect)]
        return Answer(None, refusals) if refusals else Answer(mark + data + written[0].encode(), [])
    refusals += [("comment-removed", line.number) for line in assigned[1:] if has_long_comment(line, call.dialect)]
    now, more = new_text(call, assigned[0])
    if refusals or more:
        return Answer(None, refusals + more)
    kept = [now.encode() if line is assigned[0] else line.data for line in lines if line not in assigned[1:]]
    return Answer(mark + b"".join(kept), [])


def answer_unset(call, mark, data, lines):
    """The answer to `unset`."""
    removed = [line for line in lines if assigns(line, call.key)]
    refusals = [("comment-removed", line.number) for line in removed if has_long_comment(line, call.dialect)]
    kept = b"".join(line.data for line in lines if line not in removed)
    feed = b"\n" if not mark and kept.startswith(MARK) else b""
    return Answer(None, refusals) if refusals else Answer(mark + feed + kept, [])


def renamed(line, key, name):
    """The slice with a new name in place of the key."""
    place = line.text.index("=")
    head = line.text[:place].rstrip(SPACE)
    return (head[:len(head) - len(key)] + name).encode() + line.data[len(head.encode()):]


def answer_rename(call, mark, data, lines):
    """The answer to `rename`."""
    there = [line for line in lines if assigns(line, call.value)]
    if there:
        return Answer(None, [("there", line.number) for line in there])
    return Answer(mark + b"".join(
        renamed(line, call.key, call.value) if assigns(line, call.key) else line.data for line in lines), [])


def answer(old, call):
    """The new bytes, or the refusals that are right."""
    mark = MARK if old.startswith(MARK) else b""
    data = old[len(mark):]
    lines = lines_of(data)
    marked = [("mark", 1)] if call.verb == "set" and call.portable and mark else []
    refusals = refusals_of_value(call) or refusals_of_lines(call, data, lines)
    if refusals:
        return Answer(None, refusals + marked)
    make = {"set": answer_set, "unset": answer_unset, "rename": answer_rename}[call.verb]
    return make(call, mark, data, lines)


# Warnings.


def mentions(lines, key, dialect):
    """The declarations that mention the key, directly or through names of lines before: each line, with its name."""
    reached, found = {key}, []
    for line in lines:
        statement = statement_of(line)
        pieces = spot_of(line, dialect).pieces if statement else None
        names = {piece.name for piece in pieces or [] if isinstance(piece, Name)}
        if names & reached and statement.key != key:
            reached.add(statement.key)
            found.append((line.number, statement.key))
    return found


def stops_load(line, dialect):
    """Whether a load stops at a logical line, since it is a fault, or its value has a NUL."""
    if line.what in ("open", "broken"):
        return True
    if line.what == "skipped" or report_model.says_nothing(line.text.strip(SPACE)):
        return False
    pieces = spot_of(line, dialect).pieces if statement_of(line) else None
    return pieces is None or any("\0" in piece for piece in pieces if isinstance(piece, str))


def loses_lines(line, dialect):
    """Whether the slice that assigns has a fault in its value, of which more lines than the first go."""
    return spot_of(line, dialect).pieces is None and len(report_model.physical_lines(line.data)) > 1


def has_dollar(value, dialect):
    """Whether a dollar before a name or a brace is in a value."""
    return any(before == "$" and (after == "{" or report_model.is_name_character(after, dialect))
               for before, after in zip(value, value[1:]))


def warnings(old, call):
    """What is told of a call that isn't refused: a kind, the line, and a name or the empty text."""
    lines = lines_of(without_mark(old))
    slices = [line for line in lines if assigns(line, call.key)]
    assigned = [line.number for line in slices]
    first = assigned[0] if assigned else len(lines) + sum(line.data.count(b"\n") for line in lines) + 1
    found = [("mention", number, name) for number, name in mentions(lines, call.key, call.dialect)]
    if call.verb != "unset":
        stops = [line.number for line in lines if stops_load(line, call.dialect) and line.number < first]
        found += [("stop", number, "") for number in stops[:1]]
    if call.verb != "rename":
        found += [("removed", line.number + 1, "") for line in slices[:1] if loses_lines(line, call.dialect)]
        found += [("removed", number, "") for number in assigned[1:]]
    if call.verb == "set":
        found += [("dollar", 0, "")] if has_dollar(call.value, call.dialect) else []
    return found


# Readers.


def mentioned_names(data):
    """Each text that could be a name in a substitution of the file, and can have a value in an environment."""
    text = data.decode("utf-8", "ignore")
    names = {found.group(1) for found in re.finditer(r"(?=\$\{([^}]*)\})", text)}
    for found in re.finditer(r"\$", text):
        for dialect in ("v15", "next"):
            end = found.end()
            while end < len(text) and report_model.is_name_character(text[end], dialect):
                end += 1
            names.add(text[found.end():end])
    return [name for name in names if name and "=" not in name and "\0" not in name]


def value_of_name(name):
    """The value of a name in the environment of a reader."""
    return f"\U0010fffd{name}\U0010fffd"


class Library:
    """The library itself, through its package for Python."""

    def __init__(self):
        sys.path.insert(0, str(TOP / "bindings" / "python"))
        self.calls = importlib.import_module("dotenvy._library")

    def read(self, data, dialect, names):
        """The entries of bytes without a mark, where these names have values."""
        block = self.calls.block_of((name.encode(), value_of_name(name).encode()) for name in names)
        options = self.calls.NEXT_DIALECT if dialect == "next" else 0
        kinds = {self.calls.OK: "pair", self.calls.LINE_PARSE: "fault", self.calls.NOT_UTF8: "broken"}
        return [Entry(kinds[found.status], found.key.decode(), found.text.decode(), found.place, found.first_line)
                for found in self.calls.items(data, block, options)]


class Own:
    """The reader of the model."""

    def read(self, data, dialect, names):
        """The entries of bytes without a mark, where these names have values. Places of faults aren't counted."""
        values = {name: value_of_name(name) for name in names}
        return [entry for line in lines_of(data) for entry in self.read_line(line, dialect, values)]

    def read_line(self, line, dialect, values):
        """The entry of a logical line, in a list, or an empty list."""
        if line.what == "broken":
            return [Entry("broken", "", "", None, line.number)]
        if line.what == "skipped":
            return []
        if line.what == "open":
            return [Entry("fault", "", line.text, None, line.number)]
        statement = statement_of(line)
        if statement is None:
            is_fault = not report_model.says_nothing(line.text.strip(SPACE))
            return [Entry("fault", "", line.text, None, line.number)] if is_fault else []
        pieces = spot_of(line, dialect).pieces
        if pieces is None:
            return [Entry("fault", "", statement.value, None, line.number)]
        texts = [values.get(piece.name, "") if isinstance(piece, Name) else piece for piece in pieces]
        return [Entry("pair", statement.key, "".join(texts), None, line.number)]


def reader():
    """The library, if it is built; or the reader of the model. The second item names it."""
    try:
        return Library(), "the library"
    except ImportError:
        return Own(), "the model's own reader, since bindings/build.sh hasn't built the library"


# The law.


def said(entries):
    """What entries say, without their lines."""
    return [entry[:4] for entry in entries]


def entries_of(entries, lines):
    """The entries of some of the logical lines."""
    numbers = {line.number for line in lines}
    return [entry for entry in entries if entry.line in numbers]


def broken_slice(call, line, now):
    """What of the law doesn't hold of the slice that takes the place of the one that assigned."""
    spot = spot_of(line, call.dialect)
    if not is_written(now, call.key, call.value, call.dialect):
        return ["the line doesn't declare the key with this text under every look-up"]
    if now == line.data.decode():
        return []
    if not now.startswith(spot.front):
        return ["what comes before the value is changed"]
    behind, earlier = now[len(spot.front):], []
    for tail in tails(spot):
        form = behind[:len(behind) - len(tail)]
        if behind == form + tail and meant(form, call.dialect) == call.value:
            need_not = [one for one in earlier if is_written(spot.front + form + one, *call[1:4])]
            return ["what comes after the value is changed, and need not be"] if need_not else []
        earlier.append(tail)
    return ["what comes after the value is changed"]


def broken_place(call, data, new, lines):
    """What of the law of `set` doesn't hold of the bytes, where lines assign the key."""
    assigned = [line for line in lines if assigns(line, call.key)]
    front = b"".join(line.data for line in lines if line.number < assigned[0].number)
    rest = b"".join(line.data for line in lines if line.number > assigned[0].number and line not in assigned)
    if len(new) < len(front) + len(rest) or not new.startswith(front) or not new.endswith(rest):
        return ["another line is changed, or a later assignment is left"]
    now = new[len(front):len(new) - len(rest)]
    try:
        return broken_slice(call, assigned[0], now.decode())
    except UnicodeDecodeError:
        return ["the line is not UTF-8"]


def broken_append(call, data, new, lines):
    """What of the law of `set` doesn't hold of the bytes, where no line assigns the key."""
    if lines and lines[-1].what == "open":
        return ["it is appended after an open end"]
    front, end = gap(data, lines) + call.key + "=", last_end(data)
    if not new.startswith(data):
        return ["another line is changed"]
    text = new[len(data):].decode("utf-8", "replace")
    form = text[len(front):len(text) - len(end)]
    if text != front + form + end:
        return ["the appended line isn't the end of the last line, KEY=, a value and the file's line end"]
    return [] if meant(form, call.dialect) == call.value else ["the appended value doesn't mean this text"]


def broken_entries(call, data, new, lines, read):
    """What of the laws over entries doesn't hold."""
    names = sorted({*mentioned_names(data), *mentioned_names(new)})
    before, after = read(data, call.dialect, names), said(read(new, call.dialect, names))
    assigned = [line for line in lines if assigns(line, call.key)]
    others = [line for line in lines if line not in assigned]
    if call.verb == "set":
        first = assigned[0].number if assigned else len(data) + 2
        wanted = said(entries_of(before, [line for line in others if line.number < first]))
        own = [entry for entry in after if entry[:3] == ("pair", call.key, call.value)]
        wanted += own[:1] or [("pair", call.key, call.value)]
        wanted += said(entries_of(before, [line for line in others if line.number > first]))
    elif call.verb == "unset":
        wanted = said(entries_of(before, others))
    else:
        numbers = {line.number for line in assigned}
        wanted = said(entry._replace(key=call.value) if entry.kind == "pair" and entry.line in numbers else entry
                      for entry in before)
    return [] if after == wanted else [f"entries: {after} in place of {wanted}"]


def broken(old, call, new, read):
    """What of the law doesn't hold of new bytes: a list of texts, empty if all of it holds."""
    if old.startswith(MARK) != new.startswith(MARK):
        return ["the mark at the start is lost, or one has come"]
    data, new = without_mark(old), without_mark(new) if old.startswith(MARK) else new
    lines, found = lines_of(data), []
    assigned = [line for line in lines if assigns(line, call.key)]
    if call.verb == "set":
        found += (broken_place if assigned else broken_append)(call, data, new, lines)
    elif call.verb == "unset":
        kept = b"".join(line.data for line in lines if line not in assigned)
        feed = b"\n" if kept.startswith(MARK) and not old.startswith(MARK) else b""
        found += [] if new == feed + kept else ["another line is changed, or an assignment is left"]
    else:
        changed = [renamed(line, call.key, call.value) if line in assigned else line.data for line in lines]
        found += [] if new == b"".join(changed) else ["more or less than the name is changed"]
    if call.verb == "set" and call.portable and not found:
        found += broken_portable(call, old, new, lines)
    return found + broken_entries(call, data, new, lines, read)


def broken_portable(call, old, new, lines):
    """What of the portable form doesn't hold."""
    if old.startswith(MARK):
        return ["there is no portable form"]
    line = next(line for line in lines_of(new) if assigns(line, call.key))
    spot = spot_of(line, call.dialect)
    if not has_only_spaces(spot):
        return ["other white space than spaces is around the name or the value"]
    written = [form for form in portable_forms(call.value, comment_of(spot))[0]
               if is_written(spot.front + form + spot.rest, call.key, call.value, call.dialect)]
    if spot.old not in written[:1]:
        return ["the value isn't in the first portable form that this comment allows, and that reads back"]
    return []


# Examples and rows.


def call_of(cells, value):
    """The call of a line of the table of examples."""
    words = cells.split(" ")
    return Call(words[0], words[1], value, "next" if "--next" in words else "v15", "--portable" in words)


def examples(path):
    """The lines of the table: the number, the file, the call, and the new bytes or the refusal."""
    for number, row in enumerate(path.read_text(encoding="utf-8").rstrip("\n").split("\n")[1:], 2):
        file, call, value, after, _ = row.split("\t")
        value = report_model.bytes_of(value).decode() if value != "-" else ""
        refused = re.fullmatch(r"refused: ([a-z-]+)(?: (\d+))?", after)
        wanted = (refused[1], int(refused[2] or 0)) if refused else report_model.bytes_of(after)
        yield number, report_model.bytes_of(file), call_of(call, value), wanted


def compare_examples(path):
    """Compares the model with each line of the table, and prints what differs. Returns the status."""
    count, (read, name) = collections.Counter(), reader()
    print(f"entries are those of {name}")
    for number, file, call, wanted in examples(path):
        data, refusals = answer(file, call)
        holds = data == wanted if data is not None else wanted in refusals
        faults = broken(file, call, wanted, read.read) if isinstance(wanted, bytes) else []
        count[holds and not faults] += 1
        if not holds or faults:
            print(f"{path.name}:{number}: {file} {call}\n    wanted {wanted}\n    found  {data, refusals} {faults}")
    print(f"{count[True]} passed, {count[False]} failed")
    return 1 if count[False] else 0


def row_text(written):
    """The bytes of a text of a row, as docs/ROWS.md says."""
    repeated = re.sub(r"%\((\d+)\*([^)]*)\)", lambda found: int(found[1]) * found[2], written)
    parts = re.split(r"(%[0-9a-f]{2})", repeated)
    return b"".join(bytes.fromhex(part[1:]) if at % 2 else part.encode() for at, part in enumerate(parts))


def values_under(entries, environment):
    """The entries of a file as rows have them, under an environment: a list of texts."""
    known, found = {}, []
    for kind, key, pieces in entries:
        if kind != "pair":
            found.append("io InvalidData" if kind == "broken" else pieces)
            continue
        texts = [environment.get(piece.name, known.get(piece.name, "")) if isinstance(piece, Name) else piece
                 for piece in pieces]
        known[key] = "".join(texts)
        found.append(key + "=" + known[key])
    return found


def pieces_of_file(data, dialect):
    """The entries of a file with the pieces of their values, or the text of a fault."""
    for line in lines_of(data):
        for entry in Own().read_line(line, dialect, {}):
            pieces = spot_of(line, dialect).pieces if entry.kind == "pair" else entry.text
            yield entry.kind, entry.key, pieces


def is_odd(sign):
    """Whether this Python may not know of a character whether it is a letter."""
    return unicodedata.category(sign) in ("Mn", "Mc", "Me", "So", "Cn", "Co")


def has_odd_letters(data):
    """Whether a file with a dollar has such characters."""
    text = data.decode("utf-8", "ignore")
    return "$" in text and any(is_odd(sign) for sign in text)


def compare_rows():
    """Compares what the model reads of files with the rows of files, and prints what differs. Left out are rows whose
    reader fails, and those with characters of which this Python may know too little. Returns the status."""
    count = collections.Counter()
    for path in sorted(ROWS.glob("*.rows")):
        for row in path.read_text(encoding="utf-8").split("\n"):
            cells = row.split("|")
            if cells[0] != "file" or cells[5] == "*" or re.search(r"; |^fail |%\(\d+\.\.", cells[4]):
                continue
            if has_odd_letters(row_text(cells[4])):
                continue
            pairs = [row_text(one).decode().split("=", 1) for one in cells[3].split("; ") if "=" in one]
            wanted = [row_text(re.sub(r"^fault at \d+: ", "", one)).decode() for one in cells[5].split("; ") if one]
            found = values_under(pieces_of_file(row_text(cells[4]), cells[2]), dict(reversed(pairs)))
            count[found == wanted] += 1
            if found != wanted:
                print(f"{path.name}: {row[:300]}\n    found {found}"[:2000])
    print(f"{count[True]} passed, {count[False]} failed")
    return 1 if count[False] or not count[True] else 0


def main(words):
    """Does what the words of the command line say, and returns the status."""
    if words[:1] == ["--examples"]:
        return compare_examples(pathlib.Path(words[1]) if words[1:] else EXAMPLES)
    if words == ["--rows"]:
        return compare_rows()
    print(__doc__)
    return 2


if __name__ == "__main__":
    sys.exit(main(sys.argv[1:]))
