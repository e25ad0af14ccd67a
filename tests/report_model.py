#!/usr/bin/env python3
r"""A model of the report of dotenvy_check, written from its rules and from docs/GRAMMAR.md, without a look at its code.

    report_model.py [--next] [--name NAME].. FILE..    prints the findings of each file
    report_model.py --examples [TABLE]                 compares the model with tests/report_examples.tsv

A finding is a line, a column, a kind, whether it is an error, the number of another line or 0, and whether it is a
guess: what a quote took that probably should have been closed is read physical line by physical line. NAME is a name
that has a value in the environment. Where Unicode decides, the letters and numbers are those of this Python, which
doesn't know the marks that Unicode calls alphabetic too; so files with such marks after a dollar are none for this
model.

The table has a line for each example: the bytes of the file, with the escapes \n, \t, \r, \xNN (a byte), \u{..} (a
character) and \\; the dialect; the names that have a value; and the findings, as `LINE:COL kind`, with a `?` behind it
if it is a guess, and ` (line N)` if there is another line. A lone `-` stands for no names or no findings.

Whether a value can be read is decided twice: part by part, as the grammar says it, and character by character, as the
rules of the report say it. If the two differ, the model ends with an error, since then the rules are wrong.
"""

import collections
import pathlib
import re
import sys
import unicodedata

TOP = pathlib.Path(__file__).resolve().parent.parent
EXAMPLES = TOP / "tests" / "report_examples.tsv"
KINDS = TOP / "crates" / "dotenvy_findings" / "src" / "kind.rt"

FAULTS = set("""
    open-double-quote open-single-quote open-apostrophe open-quote-in-comment blank-at-end backslash-at-end
    space-in-value several-on-line semicolon text-after-quote slash-comment unquoted-key command-with-space array
    typographic-quotes bare-name-in-quotes dollar-before-quote open-brace backslash-in-plain-value
    carriage-return-escape tab-escape unknown-escape line-continuation quote-after-name no-equals-sign
    export-without-value export-option colon other-word section other-comment merge name-character name-start no-name
    not-utf-8 utf-16 latin-1 other-fault
""".split())
WARNINGS = set("""
    unknown-name unknown-braced-name later-name own-name default required empty-braces blank-in-braces lone-dollar
    command name-before-underscore text-after-name dropped-backslash declared-twice nul quote-closed-later
    quote-in-comment hash-after-equals dropped-quotes hash-after-quote semicolon-after-quote lone-carriage-return
    typographic-text odd-space tilde here-document key-line
""".split())
BACKSLASH_FAULTS = set("""
    backslash-in-plain-value line-continuation carriage-return-escape tab-escape unknown-escape
""".split())

OPEN_QUOTES = set("open-double-quote open-single-quote open-apostrophe open-quote-in-comment".split())

MARK = b"\xef\xbb\xbf"
SPACE = "\t\n\v\f\r \x85\xa0\u1680" + "".join(map(chr, range(0x2000, 0x200b))) + "\u2028\u2029\u202f\u205f\u3000"
BLANKS = SPACE.replace("\n", "").replace("\r", "")
SPACE_OR_TAB = " \t"
QUOTES = "'\""
TYPOGRAPHIC = "\u201c\u201d\u2018\u2019\u201e\u00ab"
APOSTROPHE = "\u2019"
ODD_SPACES = "\u0085\u00a0\u200b\u2003\u2007\u2009\u202f\u205f\u2060\u3000\ufeff"
ESCAPED = "\\'\"$ n"
KEY = re.compile("[A-Za-z_][A-Za-z0-9_.]*")
DECLARATION = re.compile("[ \t]*(?:export [ \t]*)?[A-Za-z_][A-Za-z0-9_.]*=[^\n\r=]")
KEY_LINE = re.compile("[A-Za-z0-9]{20,}")
MERGE = ("<<<<<<<", "=======", ">>>>>>>", "|||||||")
COMMENTS = ("//", "--", ";")
FIRST_SIGNS = [
    ("merge", MERGE), ("unquoted-key", "-----"), ("other-comment", COMMENTS), ("section", "["), ("no-name", "="),
]
OTHER_WORDS = set("set setx setenv declare typeset let local readonly const var env ENV SET".split())

Finding = collections.namedtuple("Finding", "line column kind is_error other_line is_guess")
Statement = collections.namedtuple("Statement", "key value_start value equals start")
Found = collections.namedtuple("Found", "kind index name")
QuotedPart = collections.namedtuple("QuotedPart", "start end is_after_hash")


class LogicalLine:
    """A logical line: where it begins, what it is (skipped, broken, open or text), its text, and how the walk ended.

    A broken one has the kind and the place of its first bad byte."""

    def __init__(self, first_line, what, text="", mode="", bad=None):
        self.first_line, self.what, self.text, self.mode, self.bad = first_line, what, text, mode, bad


# Characters.


def is_alphanumeric(character):
    """Whether Unicode calls the character alphabetic or a number."""
    return character.isalpha() or unicodedata.category(character) in ("Nd", "Nl", "No")


def is_name_character(character, dialect):
    """Whether a bare name can have the character."""
    return is_alphanumeric(character) or (dialect == "next" and character == "_")


def key_at(text, start):
    """The key that begins there, or the empty text."""
    found = KEY.match(text, start)
    return found.group() if found else ""


def after_space(text, start):
    """The place behind the white space that begins there."""
    while start < len(text) and text[start] in SPACE:
        start += 1
    return start


# From bytes to logical lines.


def physical_lines(data):
    """The bytes, cut after each line feed."""
    return re.findall(rb"[^\n]*\n|[^\n]+", data)


def decoded(piece):
    """The text of the bytes, or None if they aren't UTF-8, and the number of the first bad byte."""
    try:
        return piece.decode("utf-8"), 0
    except UnicodeDecodeError as error:
        return None, error.start


def bad_byte(number, piece, start):
    """The kind and the place of the bad byte of the physical line with this number."""
    place, bad, behind = (number, len(piece[:start].decode("utf-8")) + 1), piece[start], piece[start + 1:start + 2]
    if place == (1, 1) and bad in (0xFE, 0xFF):
        return "utf-16", place
    return "latin-1" if bad >= 0xA0 and behind.isascii() else "not-utf-8", place


def next_mode(mode, character):
    """How the splitter goes on after the character, or `end` if the logical line ends with it."""
    if mode == "escaping":
        return "end" if character == "\n" else "outside"
    if mode.startswith("inside escaping"):
        return "inside " + mode[-1]
    if mode.startswith("inside"):
        if character == "\\":
            return "inside escaping " + mode[-1]
        return "outside" if character == mode[-1] else mode
    if mode == "blank":
        if character == "#":
            return "end"
        if character not in "\\'\"\n":
            return "outside"
    return mode_after_group(character)


def mode_after_group(character):
    """How the splitter goes on if the character begins a group."""
    if character == "\n":
        return "end"
    if character == "\\":
        return "escaping"
    if character in QUOTES:
        return "inside " + character
    return "blank" if character in BLANKS else "outside"


def walk(text, mode):
    """The mode after the text, and the number of characters before the one that ended the line, or None."""
    for index, character in enumerate(text):
        mode = next_mode(mode, character)
        if mode == "end":
            return mode, index
    return mode, None


def kept(text, end):
    """The text of a logical line that ends with the character at that place."""
    if text[end] == "\n" and text[:end].endswith("\r"):
        return text[:end - 1]
    return text[:end]


def logical_lines(data):
    """The logical lines of the bytes, skipped ones too."""
    lines, text, mode, first = [], "", "outside", 1
    for number, line in enumerate(physical_lines(data), 1):
        if not text:
            first = number
        piece, good = decoded(line)
        if piece is None:
            lines.append(LogicalLine(first, "broken", bad=bad_byte(number, line, good)))
            text, mode = "", "outside"
        elif not text and piece.lstrip(SPACE).startswith("#"):
            lines.append(LogicalLine(first, "skipped"))
        else:
            mode, end = walk(piece, mode)
            if end is None:
                text += piece
            else:
                lines.append(LogicalLine(first, "text", kept(text + piece, len(text) + end)))
                text, mode = "", "outside"
    if text:
        lines.append(LogicalLine(first, "text" if mode == "outside" else "open", text, mode))
    return lines


# From a line to a statement, as the grammar has it.


def statement_of(text):
    """The statement of a trimmed text, or None: an optional `export`, a key, `=`, and the value."""
    start = after_space(text, 0)
    key = key_at(text, start)
    equals = after_space(text, start + len(key))
    if key == "export" and text[equals:equals + 1] != "=" and equals > start + len(key):
        key_start = equals
        key = key_at(text, key_start)
        equals = after_space(text, key_start + len(key))
    if not key or text[equals:equals + 1] != "=":
        return None
    value_start = after_space(text, equals + 1)
    return Statement(key, value_start, text[value_start:], equals, start)


def says_nothing(value):
    """Whether a value is empty, or a comment."""
    return value == "" or value.startswith("#")


def can_be_read(value, dialect):
    """Whether the value is one of the grammar: parts, then perhaps a space or a tab and a comment."""
    place = 0
    while place < len(value):
        if value[place] in SPACE_OR_TAB:
            rest = value[place:].lstrip(SPACE_OR_TAB)
            return says_nothing(rest)
        place = after_part(value, place, False, dialect)
        if place is None:
            return False
    return True


def after_part(value, place, is_quoted, dialect):
    """The place behind the part of a value that begins there, or None if no part does."""
    character = value[place]
    if character == "\\":
        if place + 1 == len(value):
            return None if is_quoted else place + 1
        return place + 2 if value[place + 1] in ESCAPED else None
    if character == "$":
        return after_substitution(value, place + 1, is_quoted, dialect)
    if character in QUOTES and not is_quoted:
        return after_quoted_part(value, place, dialect)
    return place + 1


def after_substitution(value, place, is_quoted, dialect):
    """The place behind a substitution, from behind its dollar on: with the one character that is text after a name."""
    if value.startswith("{", place):
        end = value.find("}", place)
        return None if end < 0 else end + 1
    while place < len(value) and is_name_character(value[place], dialect):
        place += 1
    closes = is_quoted and dialect == "next" and value.startswith('"', place)
    if place == len(value) or value[place] == "$" or closes:
        return place
    return place + 1


def after_quoted_part(value, place, dialect):
    """The place behind the part in quotes that begins there, or None if it has no end."""
    quote = value[place]
    place += 1
    if quote == "'":
        end = value.find(quote, place)
        return None if end < 0 else end + 1
    while place is not None and place < len(value):
        if value[place] == quote:
            return place + 1
        place = after_part(value, place, True, dialect)
    return None


# Faults of a line with a text that is no statement.


def first_sign_fault(text):
    """The kind and place of the fault that the first characters of a text alone tell, or None."""
    start = after_space(text, 0)
    for kind, signs in FIRST_SIGNS:
        if text.startswith(signs, start):
            return kind, start
    return None


def line_fault(text):
    """The kind and place of the fault of a trimmed text that is no statement."""
    start = after_space(text, 0)
    word = key_at(text, start)
    end = start + len(word)
    if first_sign_fault(text):
        return first_sign_fault(text)
    if not word:
        is_like_name = is_alphanumeric(text[start]) or text[start] in "-."
        return "name-start" if is_like_name and "=" in text[start:] else "other-fault", start
    if is_cut_off(text, end):
        return fault_after_word(text, end)
    if word == "export":
        return export_fault(text, start)
    if word in OTHER_WORDS and after_space(text, end) < len(text):
        return "other-word", start
    return fault_after_word(text, end)


def is_cut_off(text, end):
    """Whether the word that ends there has a character right behind it that is no white space."""
    return end < len(text) and text[end] not in SPACE


def fault_after_word(text, end):
    """The fault of a text that has no `=` behind its word, which ends there."""
    behind = after_space(text, end)
    if text[behind:behind + 1] == ":":
        return "colon", behind
    return "name-character" if is_cut_off(text, end) else "no-equals-sign", end


def export_fault(text, start):
    """The fault of a text that begins with `export` as a word by itself and is no statement."""
    behind = after_space(text, start + len("export"))
    word = key_at(text, behind)
    if text[behind:behind + 1] == "-":
        return "export-option", behind
    if behind < len(text) and not word:
        return "name-start", behind
    if after_space(text, behind + len(word)) == len(text):
        return "export-without-value", start
    return fault_after_word(text, behind + len(word))


# Faults of a value.


class Machine:
    """The machine that goes over a value. Its state is a word, and beside it what stands before, or the quoting."""

    def __init__(self, value, dialect):
        self.value, self.dialect = value, dialect
        self.state, self.beside = "outside", "start"
        self.quote = self.at = self.name_start = 0
        self.swallowed = self.fault = None

    def go(self, state, beside=""):
        """Goes to a state."""
        self.state, self.beside = state, beside

    def go_inside(self):
        """Goes on in the quoting that was, after something that isn't a closing quote."""
        if self.beside == "double":
            self.go("double")
        else:
            self.go("outside", "text")

    def fail(self, kind, index):
        """Stops with a fault."""
        self.fault = (kind, index)
        self.go("failed")

    def step(self, index):
        """Goes on by one character."""
        getattr(self, "step_" + self.state.replace(" ", "_"))(index, self.value[index])

    def step_outside(self, index, character):
        """Outside quotes."""
        if character in QUOTES:
            self.quote = index
            self.go("single" if character == "'" else "double")
        elif character in "\\$" + SPACE_OR_TAB:
            self.at = index
            self.go({"\\": "escaped", "$": "dollar"}.get(character, "tail"), "plain")
        else:
            self.go("outside", "text")

    def step_double(self, index, character):
        """In double quotes."""
        if character == '"':
            self.go("outside", "quote")
        elif character in "\\$":
            self.at = index
            self.go("escaped" if character == "\\" else "dollar", "double")

    def step_single(self, index, character):
        """In single quotes."""
        if character == "'":
            self.go("outside", "quote")

    def step_escaped(self, index, character):
        """After a backslash."""
        if character in ESCAPED:
            self.go_inside()
        elif character == "\n":
            self.fail("line-continuation", self.at)
        elif self.beside == "plain":
            self.fail("backslash-in-plain-value", self.at)
        else:
            self.fail({"r": "carriage-return-escape", "t": "tab-escape"}.get(character, "unknown-escape"), self.at)

    def step_dollar(self, index, character):
        """Right after a dollar."""
        self.name_start = index
        if character == "{":
            self.name_start = index + 1
            self.go("braced", self.beside)
        elif is_name_character(character, self.dialect):
            self.go("bare", self.beside)
        else:
            self.end_name(index, character, "dollar-before-quote")

    def step_bare(self, index, character):
        """In a name without braces."""
        if not is_name_character(character, self.dialect):
            self.end_name(index, character, "bare-name-in-quotes")

    def end_name(self, index, character, kind):
        """Goes on with the character that ends a name without braces; the kind is that of a quote it swallows."""
        at, is_double = self.at, self.beside == "double"
        self.go_inside()
        if character == "$" or (character == '"' and is_double and self.dialect == "next"):
            self.step(index)
        elif character == '"' and is_double:
            self.swallowed = (kind, at)
        elif character in QUOTES and not is_double:
            self.swallowed = ("quote-after-name", index)

    def step_braced(self, index, character):
        """In a name in braces."""
        if character == "}":
            self.go_inside()

    def step_tail(self, index, character):
        """After the space or tab that ends the value."""
        if character == "#":
            self.go("comment")
        elif character not in SPACE_OR_TAB:
            self.fail(*tail_fault(self.value, index, self.at))

    def step_comment(self, index, character):
        """In a comment after the value."""
        if character in QUOTES:
            self.quote = index
            self.go("comment quote")

    def step_comment_quote(self, index, character):
        """In a comment, after a quote."""

    def step_failed(self, index, character):
        """After a fault."""

    def fault_at_end(self):
        """The kind and place of the fault, if the value ends here, or None."""
        is_double = self.beside == "double"
        if self.state == "failed":
            return self.fault if self.fault[0] in BACKSLASH_FAULTS else self.swallowed or self.fault
        if self.state == "braced":
            return "open-brace", self.at
        if self.state == "dollar" and is_double:
            return "dollar-before-quote", self.at
        if self.state == "bare" and is_double:
            return "bare-name-in-quotes", self.at
        if self.state == "double" or (self.state == "escaped" and is_double):
            return self.swallowed or ("open-double-quote", self.quote)
        if self.state == "single":
            return self.swallowed or ("open-single-quote", self.quote)
        return None


def tail_fault(value, index, blank):
    """The kind and place of the fault of a value that goes on at the index, after the blank that ended it."""
    rest = value[index:]
    if value.startswith("-----BEGIN"):
        return "unquoted-key", 0
    if rest.startswith("//"):
        return "slash-comment", blank
    if rest.startswith(";") or value[blank - 1:blank] == ";":
        return "semicolon", blank
    if rest == "\\" or rest.startswith("\\\n"):
        return "line-continuation", blank
    if DECLARATION.match(rest):
        return "several-on-line", blank
    if value.startswith("("):
        return "array", 0
    if closes_in_word(value):
        return "open-single-quote", 0
    if value[0] in QUOTES:
        return "text-after-quote", blank
    if value[0] in TYPOGRAPHIC:
        return "typographic-quotes", 0
    return ("command-with-space", 0) if "$(" in value[:index] else ("space-in-value", blank)


def closes_in_word(value):
    """Whether a value begins with a single quote, and the next one is an apostrophe between letters or numbers."""
    closing = value.find("'", 1)
    if not value.startswith("'") or closing in (-1, len(value) - 1):
        return False
    return is_alphanumeric(value[closing - 1]) and is_alphanumeric(value[closing + 1])


def value_fault(value, dialect):
    """The kind and place of the fault of a value that has a character and is no comment, or None."""
    machine = Machine(value, dialect)
    for index in range(len(value)):
        machine.step(index)
    fault = machine.fault_at_end()
    if can_be_read(value, dialect):
        if fault:
            raise AssertionError(f"the grammar can read {value!r}, but the rules give {fault}")
        return None
    return fault or ("other-fault", 0)


# Open quotes.


def quoted_parts(text):
    """The parts in quotes of a text, as the splitter finds them, and whether a `#` like that of a comment is before."""
    parts, mode, start, has_hash, start_has_hash = [], "outside", None, False, False
    for index, character in enumerate(text):
        following = next_mode(mode, character)
        if start is None and following.startswith("inside"):
            start, start_has_hash = index, has_hash
        elif start is not None and not following.startswith("inside"):
            parts.append(QuotedPart(start, index + 1, start_has_hash))
            start = None
        if character == "\n":
            has_hash = False
        elif character == "#" and not mode.startswith("inside") and index > 0 and text[index - 1] in SPACE:
            has_hash = True
        mode = following
    return parts if start is None else parts + [QuotedPart(start, len(text), start_has_hash)]


def suspect_part(text):
    """The first part in quotes that looks as if its end were missing, and where the declaration in it begins."""
    for part in quoted_parts(text) if "\n" in text else []:
        for index in range(part.start, part.end):
            if text[index] == "\n" and DECLARATION.match(text, index + 1):
                return part, index + 1
    return None, None


def quote_fault(text, part):
    """The kind and place of the fault of a part in quotes that isn't closed where it should be."""
    quote = part.start
    if part.is_after_hash:
        return "open-quote-in-comment", quote
    if text[quote] == '"':
        return "open-double-quote", quote
    if quote == 0 or not is_alphanumeric(text[quote - 1]):
        return "open-single-quote", quote
    value_start = after_space(text, text.find("=") + 1)
    if "=" in text and text[value_start:value_start + 1] == "'":
        return "open-single-quote", value_start
    return "open-apostrophe", quote


def open_fault(text, mode):
    """The kind and place of the fault of a line that stays open at the end of the file."""
    part, _ = suspect_part(text)
    if first_sign_fault(text):
        return first_sign_fault(text)
    if part:
        return quote_fault(text, part)
    if mode in ("escaping", "blank"):
        return "backslash-at-end" if mode == "escaping" else "blank-at-end", len(text) - 1
    return quote_fault(text, quoted_parts(text)[-1]) if mode.startswith("inside") else ("other-fault", len(text) - 1)


def fault_and_guess(text, fault, is_open):
    """The fault of a line that is told, and the place from which on its text is read as guesses, or None."""
    part, declaration = suspect_part(text)
    if is_open and first_sign_fault(text):
        return fault, None
    if part and is_open:
        return fault, declaration
    if part and fault[1] >= declaration:
        return quote_fault(text, part), declaration
    second_line = text.find("\n") + 1
    if is_open and fault[0] in OPEN_QUOTES and second_line > 0:
        return fault, second_line
    return fault, None


# Warnings.


def line_warnings(text, statement, dialect, known):
    """The warnings of a text that declares, in order and each kind once, but not that it declares twice."""
    warnings = []
    if not says_nothing(statement.value) and statement.value != "=":
        for kind, index, name in value_warnings(statement.value, statement.key, dialect, known):
            warnings.append(Found(kind, statement.value_start + index, name))
    elif text.startswith("#", statement.equals + 1):
        warnings.append(Found("hash-after-equals", statement.equals + 1, ""))
    elif KEY_LINE.fullmatch(statement.key):
        warnings.append(Found("key-line", statement.start, ""))
    part, _ = suspect_part(text)
    if part:
        kind = "quote-in-comment" if part.is_after_hash else "quote-closed-later"
        warnings.append(Found(kind, quote_fault(text, part)[1], ""))
    first = {}
    for warning in warnings:
        first.setdefault(warning.kind, warning)
    return list(first.values())


def value_warnings(value, key, dialect, known):
    """The warnings of a value that can be read: kind, place and name of each."""
    machine, warnings = Machine(value, dialect), []
    for index, character in enumerate(value):
        warnings.append(name_warning(machine, index, key, known))
        warnings.append(character_warning(machine, index, character))
        machine.step(index)
    if machine.state == "escaped":
        warnings.append(Found("dropped-backslash", machine.at, ""))
    warnings.append(name_warning(machine, len(value), key, known))
    return [warning for warning in warnings if warning]


def name_warning(machine, index, key, known):
    """The warning of the name that ends before the character at the index, if one does."""
    value, at = machine.value, machine.at
    character = value[index:index + 1]
    if machine.state == "braced":
        return braced_name_warning(value[machine.name_start:index], at, key, known) if character == "}" else None
    is_empty = machine.state == "dollar"
    if not is_empty and machine.state != "bare":
        return None
    if character and (is_name_character(character, machine.dialect) or (is_empty and character == "{")):
        return None
    is_double = machine.beside == "double"
    if character == "$" or (character == '"' and is_double and machine.dialect == "next"):
        character = ""
    if character == "_":
        return Found("name-before-underscore", index, "")
    if is_empty:
        return Found("command" if character == "(" else "lone-dollar", at, "")
    if character and character in ('"\\' if is_double else "'\"\\ \t"):
        return Found("text-after-name", index, "")
    return unknown_name(value[machine.name_start:index], "unknown-name", at, key, known)


def braced_name_warning(name, at, key, known):
    """The warning of a name in braces, if it has one."""
    if name in known:
        return None
    if not name:
        return Found("empty-braces", at, "")
    front = 0
    while front < len(name) and (is_alphanumeric(name[front]) or name[front] == "_"):
        front += 1
    if name.startswith(("?", ":?"), front):
        return Found("required", at, "")
    if name.startswith((":", "-", "=", "+"), front):
        return Found("default", at, "")
    if any(character in SPACE for character in name):
        return Found("blank-in-braces", at, "")
    return unknown_name(name, "unknown-braced-name", at, key, known)


def unknown_name(name, kind, at, key, known):
    """The warning of a name, if it has no value."""
    if name in known:
        return None
    return Found("own-name", at, "") if name == key else Found(kind, at, name)


def character_warning(machine, index, character):
    """The warning of a character of a value by itself, if it has one."""
    state = machine.state
    if character == "\0" and state not in ("comment", "comment quote"):
        return Found("nul", index, "")
    if state == "outside":
        kind = outside_warning(machine, index, character)
        return Found(kind, index, "") if kind else None
    if character == "\n" and state == "comment quote":
        return Found("quote-in-comment", machine.quote, "")
    return None


def outside_warning(machine, index, character):
    """The kind of the warning of a character outside quotes, if it has one."""
    what, value = machine.beside, machine.value
    before, follows = value[index - 1:index] if index else "", value[index + 1:index + 2]
    is_behind_letter = before != "" and is_alphanumeric(before)
    if before == "\r":
        return "lone-carriage-return"
    if what == "start" and character == "~" and (follows == "" or follows in "/ \t"):
        return "tilde"
    if what == "start" and character == "<" and follows == "<":
        return "here-document"
    if what == "text" and character in QUOTES and (value[0] not in QUOTES or is_behind_letter):
        return "dropped-quotes"
    if what == "quote" and character in "#;":
        return "hash-after-quote" if character == "#" else "semicolon-after-quote"
    if character == APOSTROPHE and is_behind_letter:
        return None
    if character in TYPOGRAPHIC:
        return "typographic-text"
    return "odd-space" if character in ODD_SPACES else None


# The report of a file.


class Report:
    """The report of a file while it is read: the findings so far, the name that each is about, or the empty text, and
    what the comment above allows; the line of the first declaration of each name; and the number of the last line that
    was skipped, and what the comments allow, by the number of their line."""

    def __init__(self, dialect, names):
        self.dialect, self.names = dialect, set(names)
        self.findings, self.first_lines = [], {}
        self.skipped, self.allowed, self.first_line = 0, {}, 0

    def tell(self, place, kind, is_guess, other_line=0, name=""):
        """Adds a finding."""
        above = self.allowed.get(self.skipped, ()) if self.skipped == self.first_line - 1 else ()
        self.findings.append((Finding(*place, kind, kind in FAULTS, other_line, is_guess), name, above))

    def read(self, data):
        """Reads the bytes of the file."""
        self.allowed = dict(enumerate(map(kinds_of_comment, data.split(b"\n")), 1))
        for line in logical_lines(data):
            self.first_line = line.first_line
            if line.what == "broken":
                kind, place = line.bad
                self.tell(place, kind, False)
                continue
            start = self.read_line(line, False)
            if start is not None:
                self.guess(line, place_of(line, start)[0])

    def guess(self, line, first_guess):
        """Reads the physical lines of a logical line by themselves, from the one with this number on."""
        is_open = False
        for number, piece in enumerate(line.text.split("\n"), line.first_line):
            if number < first_guess or (is_open and not DECLARATION.match(piece)):
                continue
            alone = alone_line(number, piece)
            is_open, self.first_line = alone.what == "open", number
            self.read_line(alone, True)

    def read_line(self, line, is_guess):
        """Reads a logical line that is a text. Returns the place from which on it is read as guesses, or None."""
        is_open = line.what == "open"
        # White space at the end of a line means something where the line stays open.
        text = line.text if is_open else line.text.rstrip(SPACE)
        if line.what == "skipped" or text == "":
            self.skipped = line.first_line
            return None
        statement, fault = (None, open_fault(text, line.mode)) if is_open else read_statement(text, self.dialect)
        if fault is None:
            self.read_declaration(line, text, statement, is_guess)
            return None
        (kind, index), start = fault_and_guess(text, fault, is_open)
        self.tell(place_of(line, index), kind, is_guess)
        return start

    def read_declaration(self, line, text, statement, is_guess):
        """Reads a logical line that declares."""
        key, first_lines = statement.key, self.first_lines
        if key in first_lines:
            self.tell(place_of(line, statement.start), "declared-twice", is_guess, first_lines[key])
        known = self.names | first_lines.keys()
        for kind, index, name in line_warnings(text, statement, self.dialect, known):
            self.tell(place_of(line, index), kind, is_guess, 0, name)
        first_lines.setdefault(key, line.first_line)

    def whole(self):
        """The findings, where the names that are declared later are known too."""
        findings = []
        for finding, name, allowed in self.findings:
            if finding.kind in ("unknown-name", "unknown-braced-name") and name in self.first_lines:
                finding = finding._replace(kind="later-name", other_line=self.first_lines[name])
            if finding.kind not in allowed or (finding.is_error and not finding.is_guess):
                findings.append(finding)
        return findings


def kinds_of_comment(line):
    """The words that may be kinds which the physical line allows, if it is a comment that allows any."""
    try:
        text = line.decode("utf-8").lstrip(" \t\r")
    except UnicodeDecodeError:
        return ()
    words = re.split("[ \t\r]+", text[1:].strip(" \t\r"))
    return words[2:] if text.startswith("#") and words[:2] == ["dotenvy_check:", "allow"] else ()


def alone_line(number, piece):
    """A physical line by itself, without its line feed and the comment at its end, as a logical line."""
    if piece.lstrip(SPACE).startswith("#"):
        return LogicalLine(number, "skipped")
    mode, end = walk(piece, "outside")
    return LogicalLine(number, "open" if mode.startswith("inside") else "text", piece[:end], mode)


def read_statement(text, dialect):
    """The statement of a trimmed text, or the kind and place of its fault; the other one is None."""
    statement = statement_of(text)
    if statement is None:
        return None, line_fault(text)
    fault = None if says_nothing(statement.value) else value_fault(statement.value, dialect)
    return (None, (fault[0], statement.value_start + fault[1])) if fault else (statement, None)


def place_of(line, index):
    """The number of the physical line and the column of a character of a logical line."""
    before = line.text[:index]
    return line.first_line + before.count("\n"), index - before.rfind("\n")


def without_mark(data):
    """The bytes of a file without its byte order mark."""
    return data[len(MARK):] if data.startswith(MARK) else data


def report(data, dialect="v15", names=()):
    """The findings of the bytes of a file, in order."""
    found = Report(dialect, names)
    found.read(without_mark(data))
    return found.whole()


# The command.


def messages():
    """The message of each kind, in the order of its enum."""
    text, texts = KINDS.read_text(encoding="utf-8"), {}
    for function, body in re.findall(r"pub fn (name|message)\(self\)(.*?)\n    \}\n", text, re.S):
        said = re.findall(r'Kind::(\w+) =>[\s{]*"((?:[^"\\]|\\.)*)"', body)
        texts[function] = {variant: re.sub(r"\\(.)", r"\1", words) for variant, words in said}
    return {name: texts["message"][variant] for variant, name in texts["name"].items()}


def printed(path, finding, said):
    """The line of the report for a finding. What a guess finds isn't sure, so it is a warning."""
    severity = "error" if finding.is_error and not finding.is_guess else "warning"
    guess = " (after the open quote)" if finding.is_guess else ""
    other = f" (line {finding.other_line})" if finding.other_line else ""
    place = f"{path}:{finding.line}:{finding.column}"
    return f"{place}: {severity}: {said[finding.kind]}{guess}{other} [{finding.kind}]"


def bytes_of(written):
    """The bytes of a file as the table writes it."""
    def sign(found):
        kind, number = found.group(1)[0], found.group(2) or found.group(3)
        if kind in "xu":
            return bytes([int(number, 16)]) if kind == "x" else chr(int(number, 16)).encode()
        return {"n": b"\n", "t": b"\t", "r": b"\r", "\\": b"\\"}[kind]
    pieces, end = [], 0
    for found in re.finditer(r"\\(n|t|r|\\|x([0-9A-Fa-f]{2})|u\{([0-9A-Fa-f]{1,6})\})", written):
        pieces += [plain_bytes(written[end:found.start()]), sign(found)]
        end = found.end()
    return b"".join(pieces) + plain_bytes(written[end:])


def plain_bytes(written):
    """The bytes of a text without escapes."""
    if "\\" in written:
        raise SystemExit("unknown escape in " + written)
    return written.encode()


def wanted_findings(written):
    """The findings as the table writes them: `LINE:COL kind` each, perhaps with `?`, perhaps with ` (line N)`."""
    if written == "-":
        return []
    pattern = r"(\d+):(\d+) ([a-z0-9-]+)(\??)(?: \(line (\d+)\))?(?: |$)"
    if re.sub(pattern, "", written):
        raise SystemExit("no findings: " + written)
    return [(int(line), int(column), kind, kind in FAULTS, int(other or 0), guess == "?")
            for line, column, kind, guess, other in re.findall(pattern, written)]


def compare_examples(path):
    """Compares the model with each line of the table, and prints what differs. Returns the status."""
    passed, failed = 0, 0
    for number, row in enumerate(path.read_text(encoding="utf-8").rstrip("\n").split("\n"), 1):
        if number == 1:
            continue
        file, dialect, names, wanted = row.split("\t")
        names = [] if names == "-" else names.split(",")
        found = [tuple(finding) for finding in report(bytes_of(file), dialect, names)]
        if found == wanted_findings(wanted):
            passed += 1
        else:
            failed += 1
            print(f"{path.name}:{number}: {file}\n    wanted {wanted}\n    found  {found}")
    print(f"{passed} passed, {failed} failed")
    return 1 if failed else 0


def main(words):
    """Does what the words of the command line say, and returns the status."""
    if words[:1] == ["--examples"]:
        return compare_examples(pathlib.Path(words[1]) if words[1:] else EXAMPLES)
    dialect, names, paths, rest = "v15", [], [], iter(words)
    for word in rest:
        if word == "--next":
            dialect = "next"
        elif word == "--name":
            names.append(next(rest, ""))
        else:
            paths.append(word)
    said, status = messages(), 0
    for path in paths:
        for finding in report(pathlib.Path(path).read_bytes(), dialect, names):
            print(printed(path, finding, said))
            status = 1 if finding.is_error and not finding.is_guess else status
    return status


if __name__ == "__main__":
    sys.exit(main(sys.argv[1:]))
