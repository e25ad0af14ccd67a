"""Draws files, values and calls for tests/edit.py. What is drawn depends on a kind and a number alone, so that each can
be drawn again by itself.
"""

import itertools
import random

import edit_model
import report_drawing

KEYS = ["A", "A", "A", "B", "C", "K.9", "_x", "export", "a"]
# Characters that mean something to a reader of environment files, or to its editor.
SIGNS = list("'\"\\$# \t\n\r=`{};:~!*&|<>()[]") + ["${", "$A", "}", "\\n", "\\\\", " #", "\r\n", "\ufeff", "\xa0", "\v"]
SIGNS += ["\u2028", "\u3000", "\x85", "\x7f", "\x01", "it's", "--", "-"]
LETTERS = list("aB1_x.-/:@%+,=") + ["\u00e9", "\u4e2d", "\U0001f600"]
PARTS = ["x", "word", "8080", "$B", "${A}", "$A", "$", "\\n", "\\ ", "\\$", "\\\\", "\\t", "'a b'", "''", '"a b"', '""']
PARTS += ["'a\nb'", '"a\nb"', "'it", '"$A"', '"${B}"', "'\\'", "\u00e9", "#", "two words", "\\", "=", "\r", "\xa0"]
PARTS += ['"a\r\nb"']
BLANKS = ["", "", "", "", " ", " ", "  ", "\t", "\xa0", "   "]
COMMENTS = ["# c", "# c", "# it's", "# 'q'", '# "', "#", "# it's\nB=it's", '# "\nC=1\n"', "# A=1", "#x", "# c\\"]
ENDS = ["\n"] * 10 + ["\r\n"] * 4 + ["\r\r\n", "\n\n", " \n", "\\\n"]
LAST_ENDS = ["", "", "\r", " ", "\\", "\t", "  ", "\r\n", "\n", "\n", "\n", "'"]
OTHER_LINES = ["", "# c", "# it's", "  # A=1", "A", "x", "export A", "A: 1", "1A=2", "-", "\ufeffB=2", "\ufeff", " "]
OTHER_LINES += ["// it's"]
MORE_LINES = ["A=1\nA=2", "B=$A", "C=${B}x", "A=$B\nB=$A", "A='\n", 'A="x\nB=1', "x\r", "A=it's\nB=don't"]
BAD_BYTES = report_drawing.BAD_BYTES
# What the short files have after `A=`.
SHORT = ["'", '"', "\\", " ", "#", "\n", "$", "x", "\r"]


# Files.


def line(draw):
    """A line of a file, with its end."""
    kind = draw.random()
    if kind < 0.12:
        text = draw.choice(OTHER_LINES)
    elif kind < 0.2:
        text = draw.choice(MORE_LINES)
    else:
        head = draw.choice(["", "", "", "", " ", "export ", "\t", " export  "]) + draw.choice(KEYS)
        value = "".join(draw.choice(PARTS) for _ in range(draw.choice([0, 1, 1, 1, 1, 2, 2, 3])))
        text = head + draw.choice(BLANKS[:5]) + "=" + draw.choice(BLANKS) + value + draw.choice(BLANKS)
        text += draw.choice(COMMENTS) if draw.random() < 0.45 else ""
    return text + draw.choice(ENDS)


def text_of(draw):
    """The text of a file."""
    if draw.random() < 0.25:
        return report_drawing.text_of(draw)[:3000]
    text = "".join(line(draw) for _ in range(draw.choice([0, 1, 1, 2, 2, 3, 4, 6])))
    if draw.random() < 0.3:
        text = text.rstrip("\r\n") + draw.choice(LAST_ENDS)
    if draw.random() < 0.15:
        text = text.replace("\r\n", "\n").replace("\n", "\r\n")
    for _ in range(draw.choice([0, 0, 0, 0, 0, 1, 2])):
        text = report_drawing.changed(draw, text)
    return text


def draw_file(number):
    """The bytes of the file with this number."""
    draw = random.Random(f"edited {number}")
    data = text_of(draw).encode()
    while draw.random() < 0.06:
        place = draw.randrange(len(data) + 1)
        data = data[:place] + draw.choice(BAD_BYTES) + data[place:]
    return (edit_model.MARK if draw.random() < 0.08 else b"") + data


# Values.


def character(draw):
    """A character: one that means something, a letter, or a code point of any plane but a NUL."""
    kind = draw.random()
    if kind < 0.4:
        return draw.choice(SIGNS)
    if kind < 0.8:
        return draw.choice(LETTERS)
    sign = chr(draw.randrange(1, draw.choice([0x80, 0x800, 0x10000, 0x110000])))
    return "\ue000" if "\ud800" <= sign < "\ue000" or edit_model.is_odd(sign) else sign


def value(draw, text):
    """A value: of characters that are drawn, or a part of the file's text."""
    kind = draw.random()
    if kind < 0.15:
        usual = ["", "", "x", "v1", "two words", "it's", 'say "hi"', "C:\\dir\\", "pa$$word", "#fff", "a\nb"]
        return draw.choice(usual)
    if kind < 0.25 and text:
        place = draw.randrange(len(text))
        return text[place:place + draw.choice([1, 2, 5, 9])].replace("\0", "")
    if kind < 0.27:
        return character(draw) * draw.randrange(1, 3000)
    return "".join(character(draw) for _ in range(draw.choice([1, 1, 2, 2, 3, 4, 8, 24])))


def draw_value(number):
    """The value with this number."""
    return value(random.Random(f"value {number}"), "")


# Calls.


def draw_call(number, data, dialect):
    """The call with this number, on the file."""
    draw = random.Random(f"call {number} {dialect}")
    there = sorted({found for found in KEYS if found.encode() in data})
    kind, key = draw.random(), draw.choice(there if there and draw.random() < 0.75 else KEYS)
    if kind < 0.15:
        return edit_model.Call("unset", key, "", dialect)
    if kind < 0.25:
        return edit_model.Call("rename", key, draw.choice(["B", "C", "D", "D_.9", "export", key + "1"]), dialect)
    key = draw.choice(["", "1A", "A B", "\u00c9", "A=", "A\n"]) if draw.random() < 0.01 else key
    text = value(draw, data.decode("utf-8", "ignore"))
    text = text + "\0" if draw.random() < 0.01 else text
    return edit_model.Call("set", key, text, dialect, draw.random() < 0.2)


def short_files(most):
    """All files `A=` with up to so many of nine characters."""
    for length in range(most + 1):
        for signs in itertools.product(SHORT, repeat=length):
            yield ("A=" + "".join(signs)).encode()


def short_calls(dialect):
    """The calls on a short file."""
    return [edit_model.Call("set", "A", text, dialect) for text in ("v", "", "x", "it's")] + [
        edit_model.Call("set", "B", "1", dialect), edit_model.Call("unset", "A", "", dialect)]
