"""Draws environment files for tests/report.py: many nearly right, some with planted mistakes, some of signs alone.

A file depends on its number and the seed alone, so that each can be drawn again by itself.
"""

import random

SEED = "report"
# The names that have a value where the files are read.
KNOWN = ["K", "HOST", "\u00e9", "K.9", "a b"]

KEYS = ["A", "B", "C", "A", "B", "K", "HOST", "DB_URL", "_x.9", "export", "set", "APP_NAME", "MIIEPAIBAAKCAQEAX0QG"]
NAMES = ["A", "B", "C", "K", "HOST", "DB", "\u00e9", "9", "D", "\u00bd", "APP_NAME", "K.9"]
WORDS = [
    "x", "y1", "word", "8080", "http://h/", "it", "s", "don", "t", "\u00e9t\u00e9", "\u4e2d", "a.b", "-", "_", "n", "1",
]
FORMS = [
    "${%s}", "${%s}", "${%s}", "$%s", "$%s", "$%s_x", "${%s:-x}", "${%s-x y}", "${%s:?x}", "${%s?}", "${ %s }",
    "${%s+x}", "${}", "$", "$$%s", "$(%s)", "$(%s x)", "${%s", "\\$%s", "$%s'", "$%s\"", "$%s ", "$%s\\", "${%s.x}",
    "${a b}", "${:-%s}",
]
ESCAPES = ["\\n", "\\\\", "\\$", "\\\"", "\\'", "\\ ", "\\n", "\\r", "\\t", "\\d", "\\\n", "\\", "\\U", "\\#"]
ODD = [
    "\u201c", "\u201d", "\u2018", "\u2019", "\u201e", "\u00ab", "\u00a0", "\u0085", "\u200b", "\u2003", "\u2007",
    "\u2009", "\u202f", "\u205f", "\u2060", "\u3000", "\ufeff", "\u200d", "\u2002", "\0", "\r", "~", "~/", "<<", "(",
    ")", ";", "#", "{", "}", "[", "=", ":", "//", "\v", "\u2028", "\U0001f600", "don\u2019t", "-----BEGIN",
    "-----BEGIN ", "<",
]
TAILS = [""] * 20 + [
    " # c", " # c", "  # c", " # it's", "  # it's", " #\"", "  # \"x\"", " ", "\t", "\\", " \\", "; B=2", " B=2", ";",
]
TAILS += [
    " // c", "#c", " x", " 'y'", "   # don't", "\u00a0# it's", " ; x", " export B=1", "\\ ", "\r", " \u3000", "; ",
    "  ",
]
BLANKS = [""] * 12 + [" ", " ", "\t", "  ", "\u00a0", "\r"]
PREFIXES = [""] * 30 + [
    "export ", "export ", "export ", "export\t", " ", "\t", "export  ", "set ", "export export ", "export -n ", "let ",
]
# What comments allow.
ALLOWED = [
    "unknown-name", "later-name", "own-name", "declared-twice", "dropped-quotes", "unknown-braced-name", "lone-dollar",
    "tilde", "default", "odd-space", "space-in-value", "x", "quote-in-comment", "bare-name-in-quotes",
]
ENDS = ["\n"] * 12 + ["\r\n", "\r\n", "\r", "\n\n", " \n", ""]
OTHER_LINES = [
    "", "# c", "# it's", "  # \"", "A", "export A", "export", "A: 1", "A : 1", "A-B=1", "1A=2", "=1", "[s]", "[it's]",
    "// c", "// don't", "-- c", "; c", "<<<<<<< HEAD", "=======", ">>>>>>> it's", "|||||||", "-----BEGIN KEY-----",
    "-----END it's", "\u00e9=1", "?", "\"A\"=1", "A B", "A B=1", "export A B=1", "set A=1", "set", "declare -x A=1",
    "export: 1", ".A=1", "-A", "A\u00a0: 1", " ", "\t\t", "\u3000", "C", "let", "env : 1", "MIIEPAIBAAKCAQEAX0QG=",
    "abcdefghij0123456789==", "A==", "\ufeff",
]
MISTAKES = [
    "GREETING='It's fine'", "TITLE=Tom's shop", "A=1  # don't", "A='C:\\dir\\'", "A=\"x", "A='x",
    "A={\"a\":1,\"b\":\"x y\"}", "A='it'\\''s'", "A=\"$HOST:$K\"", "A=\"x$\"", "A=\u201cx y\u201d", "A=x\\",
    "A=$B'x y'", "A=$B\"x\"", "A='a'b'c'd e", "A=\"x\"#c",
    "# dotenvy_check: allow own-name\nA=$A:/bin", "# dotenvy_check: allow tilde open-apostrophe\nA=~'s x",
    "A='x # dotenvy_check: allow unknown-name\n\t# dotenvy_check: allow unknown-name' \nB=$D",
    "A='x\n# dotenvy_check: allow unknown-name later-name\nB=$D\nC=$C",
    "KEY=\"-----BEGIN X-----\nMIIEPAIBAAKCAQEAX0QG\n-----END X-----", "A='\\'x\r\ny$\\'z'", "A='\\'x\nB=1 $\\'z'",
    "A=<<EOF", "A=-----BEGIN X-----\nMIIEPAIBAAKCAQEAX0QG=\n-----END X-----", "A=$A:/bin", "A=  # 'x\nB=1'", "A=#x",
    "A=(a b)", "A=\"a\\tb\"", "A='\\'x\"y' $K", "A='\\'\"$' K", "A='\\'x\n B=1'",
    "A='x\nB=\"y\nC 1\nD=1 2\nE", "A=\"x\n# it's\nB=$K # it's\nexport C # c", "[it's\nB=1 2", "A=\"x # y\" 'z",
    "A='\\'\"x$K\"'\"'", "A='\\'\"x$\"' y", "A='\\'x\"y' $", "A='\\'x\"y' ${K", "A=''a'b c' x",
]
INSIDE = [" ", " ", "\n", "\n", "\r\n", "\nB=1", "\n C=$A", "\nexport A=", "\n# c ", " # c", "'", "\"", "  "]
SIGNS = list("''\"\"\"$${}\\\\  \t##==\n\n\n\rAB1x_-.:;/~<(n") + ODD[:12] + [
    "${", "export ", " # ", "  # ", "\nB=1", "\nB=", "=x",
]
BAD_BYTES = [
    b"\xff", b"\xe9", b"\xe2\x82", b"\xc0\xaf", b"\xed\xa0\x80", b"\xf4\x90\x80\x80", b"\x80", b"\xff\xfe", b"\xfe\xff",
    b"\xa0", b"\x9f", b"\xe9\xe8", b"\xf0\x9f\x98", b"\xe9\n",
]


def part(draw, inside):
    """A part of a value, as it may stand in the quotes, or outside of them."""
    kind = draw.random()
    if kind < 0.45:
        return draw.choice(WORDS)
    if kind < 0.65:
        form = draw.choice(FORMS)
        return form % draw.choice(NAMES) if "%" in form else form
    if kind < 0.73:
        return draw.choice(ESCAPES)
    if kind < 0.80:
        return draw.choice(ODD)
    if inside:
        return draw.choice(INSIDE)
    return quoted(draw)


def quoted(draw):
    """A part in quotes, nearly always closed."""
    quote = draw.choice("'\"")
    parts = [part(draw, True) for _ in range(draw.choice([0, 1, 1, 2, 3, 4]))]
    text = "".join(parts)
    if draw.random() < 0.8:
        text = text.replace(quote, "")
    return quote + text + (quote if draw.random() < 0.9 else "")


def value(draw):
    """A value."""
    kind = draw.random()
    if kind < 0.08:
        return draw.choice(["", "=", "#x", "'", "\"", "''", "\"\""])
    if kind < 0.3:
        return quoted(draw)
    return "".join(part(draw, False) for _ in range(draw.choice([1, 1, 2, 2, 3, 5])))


def comment(draw):
    """A comment that allows kinds, or nearly."""
    odd = ["#\tdotenvy_check:  allow", " # dotenvy_check: deny", "#allow"]
    tool = draw.choice(["# dotenvy_check: allow"] * 8 + odd)
    kinds = [draw.choice(ALLOWED) for _ in range(draw.choice([0, 1, 2, 4, 8]))]
    return draw.choice([" ", " ", " ", "\t", "  ", ", "]).join([tool] + kinds)


def line(draw):
    """A line, or several that quotes join."""
    kind = draw.random()
    if kind < 0.06:
        text = comment(draw)
    elif kind < 0.12:
        text = draw.choice(OTHER_LINES)
    elif kind < 0.22:
        text = draw.choice(MISTAKES)
    elif kind < 0.27:
        text = "".join(draw.choice(SIGNS) for _ in range(draw.randrange(12)))
    else:
        head = draw.choice(PREFIXES) + draw.choice(KEYS) + draw.choice(BLANKS) + "=" + draw.choice(BLANKS)
        text = head + value(draw) + draw.choice(TAILS)
    return text + draw.choice(ENDS)


def changed(draw, text):
    """A text with one small change: something left out, put in, written twice or moved."""
    place = draw.randrange(len(text) + 1)
    end = min(len(text), place + draw.choice([1, 1, 1, 2, 5]))
    kind = draw.randrange(4)
    if kind == 0:
        return text[:place] + text[end:]
    if kind == 1:
        return text[:place] + draw.choice(SIGNS) + text[place:]
    if kind == 2:
        return text[:end] + text[place:]
    other = draw.randrange(len(text) + 1)
    return text[:other] + text[place:end] + text[other:]


def text_of(draw):
    """The text of a file."""
    kind = draw.random()
    if kind < 0.12:
        return "".join(draw.choice(SIGNS) for _ in range(draw.randrange(30)))
    text = "".join(line(draw) for _ in range(draw.choice([1, 1, 2, 2, 3, 4, 6])))
    for _ in range(draw.choice([0, 0, 0, 1, 1, 2, 4])):
        text = changed(draw, text)
    if kind > 0.985 and text:
        place = draw.randrange(len(text))
        count = 9000 if kind > 0.9995 else draw.randrange(400)
        text = text[:place] + text[place] * count + text[place:]
    return text


def drawn(number, examples):
    """The bytes of the file with this number. One in ten is a changed one of the examples, which are texts."""
    draw = random.Random(f"{SEED} {number}")
    if draw.random() < 0.1:
        text = draw.choice(examples) + (draw.choice(examples) if draw.random() < 0.5 else "")
        for _ in range(draw.choice([1, 1, 2, 3])):
            text = changed(draw, text)
    else:
        text = text_of(draw)
    data = text.encode()
    while draw.random() < 0.03:
        place = draw.choice([0, draw.randrange(len(data) + 1), draw.randrange(len(data) + 1)])
        data = data[:place] + draw.choice(BAD_BYTES) + data[place:]
    if draw.random() < 0.01:
        data = b"\xef\xbb\xbf" + data
    return data
