"""Draws files and environments for tests of dotenvy_export. What is drawn depends on a kind and a number alone, so that
each can be drawn again by itself.
"""

import random

# Characters that mean something to one of the readers, or to a language of strings.
SIGNS = list("\n\n\r\t =#;'\"\\$`") + ["\r\n", "\0", "\v", "\f", "\x85", "\xa0", "\u2028", "\u3000", "\ufeff", "\x01"]
SIGNS += ["\x7f", "\x80", "\x81", "\x83", "\x88", "\u00e9", "\u4e2d", "\U0001f600", "\uffff", "\ufdd0", "\ufffd"]
LETTERS = list("aB1_x.-~:/,+@%!*?&|<>(){}[]^")
NAMES = ["A", "B_2", "_x", "C", "aB"]
ODD_NAMES = ["A.B", "B-2", "\u00e9", "1A", ".", "..", "..A", "A B", "A\t", " A", "\ufeffA", "", "export A", "A\0", "=A"]
ODD_NAMES += ["KNOWN", "K\u00e9", "UNKNOWN", "A" * 253, "A" * 254, "A\u3000B"]
BAD_BYTES = [b"\xff", b"\xe9", b"\xc0\xaf", b"\xed\xa0\x80", b"\xf4\x90\x80\x80", b"\x80", b"\xe2\x82"]
# How long a line may be for docker and kubectl.
EDGES = [65533, 65534, 65535, 65536, 65537]


def character(draw):
    """A character: of those that mean something, a letter, or any code point that is a character of UTF-8."""
    kind = draw.random()
    if kind < 0.45:
        return draw.choice(SIGNS)
    if kind < 0.85:
        return draw.choice(LETTERS)
    code = draw.randrange(draw.choice([0x80, 0x800, 0x10000, 0x110000]))
    return chr(code) if not 0xd800 <= code < 0xe000 else "\ue000"


def text(draw, most, without=""):
    """A text of up to so many characters, without some."""
    signs = [character(draw) for _ in range(draw.randint(0, most))]
    return "".join(sign for sign in signs if not set(sign) & set(without))


def signs_file(draw):
    """A file of signs alone."""
    signs = [draw.choice(SIGNS + ["A", "B", "A=", "=", "KNOWN", "\nA=", "#"]) for _ in range(draw.randint(0, 16))]
    return "".join(signs).encode()


def line(draw):
    """A line, which is nearly right."""
    name = draw.choice(NAMES * 6 + ODD_NAMES)
    before = draw.choice([""] * 8 + [" ", "\t", "\u3000", "export ", "# ", "; ", "\ufeff"])
    value = draw.choice([text(draw, 8, "\n\r\0"), text(draw, 8, "\n\r\0"), "'" + text(draw, 6, "'\0") + "'"])
    value = draw.choice([value, value, '"' + text(draw, 6, "\0") + '"', "a\\\nb", "'a' \"b\"", " a ", "\\" + value])
    equals = draw.choice(["="] * 10 + [" = ", "", "=="])
    return before + name + equals + value + draw.choice([""] * 4 + [" ", "\t", " # c", "\\", "\r", "\r\r"])


def lines_file(draw):
    """A file of lines, perhaps with a mark or without a last line feed."""
    ends = draw.choice(["\n", "\n", "\r\n", "\n\n"])
    lines = ends.join(line(draw) for _ in range(draw.randint(1, 4)))
    return (draw.choice([""] * 9 + ["\ufeff"]) + lines + draw.choice([ends, ends, ""])).encode()


def named_file(draw):
    """A file whose names are right, each there once, as kubectl asks for."""
    lines = [draw.choice(["", "", " ", "\ufeff"] if number == 0 else ["", "", "\t"]) + name + "=" + text(draw, 12, "\n")
             for number, name in enumerate(draw.sample(NAMES + ["A.B", "B-2", "KNOWN"], draw.randint(0, 4)))]
    lines += draw.choice([[], [""], ["# c", ""], ["KNOWN"], ["UNKNOWN"]])
    return draw.choice(["\n", "\r\n"]).join(lines).encode()


def bad_file(draw):
    """A file with bytes that are no text."""
    data = draw.choice([lines_file, named_file])(draw)
    at = draw.randint(0, len(data))
    return data[:at] + draw.choice(BAD_BYTES) + data[at:]


def long_file(draw):
    """A file with a line that is about as long as docker and kubectl take."""
    length = draw.choice(EDGES)
    front = draw.choice(["A=", "A=\u00e9", "# ", " A=", "\ufeffA="])
    rest = "x" * (length - len(front.encode()))
    return (draw.choice(["", "C=1\n"]) + front + rest + draw.choice(["", "\n", "\r\n", "\nB=2\n"])).encode()


def draw_file(number, long_ones=50):
    """A file for docker, kubectl and systemd. One of so many has a long line."""
    draw = random.Random(f"file {number}")
    makers = [signs_file] * 4 + [lines_file] * 5 + [named_file] * 5 + [bad_file]
    return long_file(draw) if number % long_ones == long_ones - 1 else draw.choice(makers)(draw)


# Lines for shells.


def word(draw, most=4):
    """A word of quotes, escapes and plain characters."""
    parts = []
    for _ in range(draw.randint(0, most)):
        escaped = "\\" + (text(draw, 1, "\0\n") or "'")
        plain = draw.choice("aB1_-./:,+@")
        parts += draw.choice([["'", text(draw, 8, "'\0"), "'"]] * 2 + [[escaped], [plain], ["\\'"]])
    return "".join(parts)


def shell_line(draw, has_words):
    """A line that exports, or puts a word before the words that there are; rarely another one."""
    name, kind = draw.choice(NAMES), draw.random()
    if has_words and kind < 0.4:
        return f"set -- '{draw.choice(ODD_NAMES[:3] + ['UID', 'PPID', 'A'])}='{word(draw)} \"$@\"\n"
    if kind < 0.03:
        return draw.choice(["# c\n", "\n", "A=1\n", f"export {name}\n", f" export {name}=1\n", f"export {name}=$A\n"])
    return f"export {name}={word(draw)}\n"


def draw_lines(number, has_words=False):
    """Lines for a shell."""
    draw = random.Random(f"shell {has_words} {number}")
    lines = "".join(shell_line(draw, has_words) for _ in range(draw.randint(0, 4)))
    return (lines[:-1] if draw.random() < 0.1 else lines).encode()


# JSON.

JSON_ESCAPES = ["\\\"", "\\\\", "\\/", "\\b", "\\f", "\\n", "\\r", "\\t", "\\u0000", "\\u00e9", "\\u2028"]
JSON_ESCAPES += ["\\uD83d\\uDE00"]
JSON_FAULTS = ["\\x", "\\u12", "\\uD83d", "\\uDE00\\uD83d", "\n", "\x00", "\\", "\"", "\x1f"]


def json_string(draw, faults):
    """A string of JSON."""
    parts = [draw.choice([text(draw, 2, "\"\\\n\r\t\0\x01\v\f") or "a", draw.choice(JSON_ESCAPES)])
             for _ in range(draw.randint(0, 5))]
    parts += [draw.choice(JSON_FAULTS)] if faults else []
    return '"' + "".join(one for one in parts if one >= " ") + '"'


def draw_json(number):
    """A text of JSON: mostly one object of texts."""
    draw = random.Random(f"json {number}")
    fault, blank = draw.random(), draw.choice(["", "", " ", "\n", "\t\r\n "])
    members = [json_string(draw, False) + blank + ":" + blank + json_string(draw, fault < 0.1)
               for _ in range(draw.randint(0, 4))]
    made = blank + "{" + blank + (blank + "," + blank).join(members) + blank + "}" + blank
    if fault > 0.8:
        at = draw.randint(0, len(made))
        sign = draw.choice([",", "{", "}", ":", "1", "null", "\"", "[]", "\u00a0", "\ufeff", "\v"])
        made = made[:at] + sign + made[at:]
    return made.encode()


# Environments.

# Names that a file may declare.
PLAIN_NAMES = ["A", "B_2", "_x", "C", "aB", "HOME", "PATH", "PORT", "DATABASE_URL", "IFS", "PS1", "LANG", "TERM"]
DOTTED_NAMES = ["A.B", "B_2.", "_.x", "A" * 254]
KEPT_NAMES = ["UID", "EUID", "PPID", "_", "RANDOM", "SECONDS", "OPTIND", "SHLVL", "GROUPS"]


def value(draw, without):
    """A value: short or long, of all code points, or with one sign at a chosen place."""
    kind = draw.random()
    if kind < 0.6:
        return text(draw, 14, without)
    if kind < 0.9:
        parts = [draw.choice(["", "a", "a b", "\u00e9"]) for _ in range(2)]
        return draw.choice([sign for sign in SIGNS if not set(sign) & set(without)]).join(parts)
    if kind < 0.97:
        return text(draw, 3, without) + "x" * draw.randint(100, 3000) + text(draw, 3, without)
    return "x" * (draw.choice(EDGES) - 2 - draw.randint(0, 2))


def draw_environment(number, without=""):
    """Pairs of distinct names that a file may declare, in any order. Two of three have only plain names, and values
    without these characters."""
    draw, is_any = random.Random(f"environment {number}"), number % 3 == 0
    names = draw.sample(PLAIN_NAMES, draw.randint(0, 5))
    for others in (DOTTED_NAMES, KEPT_NAMES):
        names += [draw.choice(others)] if is_any and draw.random() < 0.15 else []
    draw.shuffle(names)
    return [(name, value(draw, "" if is_any else without)) for name in names]
