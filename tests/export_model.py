"""A model of dotenvy_export: how each target reads a file, and what is written of pairs for it.

The readers are written from the definitions in crates/dotenvy_exporter/specs. A reader takes the bytes of a file. It
returns a list of pairs of texts, in order; REFUSED if the target refuses the file; or UNSAID if the definitions say
nothing of it. A value that is None asks for what the target's own environment has.

They were compared with systemd 252 on 100,000 drawn files, docker 28.2 on 5,000 and kubectl 1.32 on 1,000, and with
dash, bash, busybox, zsh and Python's json on those of tests/export. These tools read what was written for drawn names
and values: 10,000, docker 1,000 and kubectl 500.

`refusal` says why a target can't be given a pair, and `written` is what is written of pairs for it. No test takes what
`written` returns as an expected value: it stands in for the program where a test is to be tried.
"""

import json
import re

REFUSED = None
UNSAID = "nothing is said of it"

MARK = "\ufeff"
# The White_Space of Unicode.
SPACE = "\t\n\v\f\r \x85\xa0\u1680" + "".join(map(chr, range(0x2000, 0x200b))) + "\u2028\u2029\u202f\u205f\u3000"
# A line of so many bytes is too long for docker and kubectl.
TOO_LONG = 65536


# docker and kubectl.


def go_lines(data):
    """What docker and kubectl take of each line: its text without the mark of the first one, white space at its start,
    and a carriage return at its end. None is for a line that is not UTF-8, False for one that is too long."""
    cut = data.split(b"\n")
    lines = []
    for number, line in enumerate(cut if cut[-1] else cut[:-1]):
        if len(line) >= TOO_LONG:
            return lines + [False]
        text = decoded(line[:-1] if line.endswith(b"\r") else line)
        if text is None:
            return lines + [None]
        text = text[1:] if number == 0 and text.startswith(MARK) else text
        lines.append(text.lstrip(SPACE))
    return lines


def parted(line):
    """The name of a line and its value, which is None if there is no equals sign."""
    name, equals, value = line.partition("=")
    return name, value if equals else None


def decoded(data):
    """The text, or None if it is not UTF-8."""
    try:
        return data.decode()
    except UnicodeDecodeError:
        return None


def go_pairs(lines):
    """The pairs of lines, without empty ones and comments."""
    return [parted(line) for line in lines if line and not line.startswith("#")]


def is_docker_name(name):
    """Whether docker takes the name of a line."""
    return name != "" and " " not in name and "\t" not in name


def read_docker(data):
    """What `docker run --env-file` reads."""
    lines = go_lines(data)
    if lines and lines[-1] in (None, False):
        return REFUSED
    pairs = go_pairs(lines)
    return pairs if all(is_docker_name(name) for name, _ in pairs) else REFUSED


def is_kubernetes_key(name):
    """Whether a name is a key of a configmap, and the name of a variable of kubernetes."""
    is_path = name == "." or name.startswith("..")
    return re.fullmatch(r"[-._A-Za-z][-._A-Za-z0-9]{0,252}", name) is not None and not is_path


def read_kubernetes(data):
    """What `kubectl create configmap --from-env-file` reads. It stops at a line that is too long, without a word."""
    lines = go_lines(data)
    if lines and lines[-1] is None:
        return REFUSED
    pairs = go_pairs(line for line in lines if line is not False)
    names = [name for name, _ in pairs]
    if not all(map(is_kubernetes_key, names)) or len(set(names)) < len(names):
        return REFUSED
    return pairs


# systemd.


class SystemdReading:
    """systemd's walk over a file: the assignments so far, the name and the value that it is in, and white space that
    counts only if more follows it. Each method is for a place, and takes a byte."""

    ENDS = b"\n\r"
    WHITE = b" \t\n\r"
    ESCAPED = b"\"\\`$"

    def __init__(self):
        self.done = []
        self.forget()

    def assign(self):
        """Ends an assignment."""
        self.done.append((self.name, bytes(self.value)))
        self.forget()

    def forget(self):
        """Goes to the next line."""
        self.name, self.value, self.white = b"", bytearray(), b""
        self.place = self.before_name

    def put(self, byte):
        """Adds a byte to the value, and the white space before it."""
        self.value += self.white + byte
        self.white = b""

    def before_name(self, byte):
        """At the start of a line."""
        if byte in b"#;":
            self.place = self.comment
        elif byte not in self.WHITE:
            self.name, self.place = byte, self.in_name

    def in_name(self, byte):
        """In a name: white space counts if more of it follows."""
        if byte in self.ENDS:
            self.forget()
        elif byte == b"=":
            self.white, self.place = b"", self.before_value
        elif byte in self.WHITE:
            self.white += byte
        else:
            self.name, self.white = self.name + self.white + byte, b""

    def before_value(self, byte):
        """Before a value, or after a part of it in quotes."""
        places = {b"'": self.in_single, b'"': self.in_double, b"\\": self.escaped}
        if byte in self.ENDS:
            self.assign()
        elif byte in places:
            self.place = places[byte]
        elif byte not in self.WHITE:
            self.put(byte)
            self.place = self.in_value

    def in_value(self, byte):
        """In a value: quotes are themselves here."""
        if byte in self.ENDS:
            self.assign()
        elif byte == b"\\":
            self.value += self.white
            self.white, self.place = b"", self.escaped
        elif byte in self.WHITE:
            self.white += byte
        else:
            self.put(byte)

    def escaped(self, byte):
        """After a backslash outside quotes: the end of a line vanishes."""
        if byte not in self.ENDS:
            self.put(byte)
        self.place = self.in_value

    def in_single(self, byte):
        """Between single quotes."""
        if byte == b"'":
            self.place = self.before_value
        else:
            self.put(byte)

    def in_double(self, byte):
        """Between double quotes."""
        if byte == b'"':
            self.place = self.before_value
        elif byte == b"\\":
            self.place = self.double_escaped
        else:
            self.put(byte)

    def double_escaped(self, byte):
        """After a backslash between double quotes: it stays before most bytes."""
        if byte in self.ESCAPED:
            self.put(byte)
        elif byte != b"\n":
            self.put(b"\\" + byte)
        self.place = self.in_double

    def comment(self, byte):
        """In a comment."""
        if byte == b"\\":
            self.place = self.comment_escaped
        elif byte in self.ENDS:
            self.place = self.before_name

    def comment_escaped(self, byte):
        """After a backslash in a comment, which also takes the end of a line."""
        self.place = self.comment

    def all(self, data):
        """The assignments of a whole file."""
        for start in range(len(data)):
            self.place(data[start:start + 1])
        if self.place not in (self.before_name, self.in_name, self.comment, self.comment_escaped):
            self.assign()
        return self.done


def is_for_systemd(data):
    """Whether the bytes are UTF-8 of characters that systemd takes: it refuses the noncharacters of Unicode."""
    text = decoded(data)
    return text is not None and not any(is_noncharacter(sign) for sign in text)


def is_noncharacter(sign):
    """Whether Unicode says that this code point is no character."""
    return 0xfdd0 <= ord(sign) <= 0xfdef or ord(sign) & 0xfffe == 0xfffe


def read_systemd(data):
    """What systemd reads of an EnvironmentFile=, before it leaves out names that are not a shell's."""
    if b"\0" in data:
        return REFUSED
    pairs = {}
    for name, value in SystemdReading().all(data):
        if not is_for_systemd(name) or not is_for_systemd(value):
            return REFUSED
        # A name also ends before an equals sign that is its first byte.
        name, _, value = (name + b"=" + value).partition(b"=")
        pairs[name.decode()] = value.decode()
    return list(pairs.items())


def read_unit(data):
    """What a unit has of its EnvironmentFile=."""
    pairs = read_systemd(data)
    return pairs if pairs in (REFUSED, UNSAID) else [pair for pair in pairs if is_shell_name(pair[0])]


# Shells.

SHELL_NAME = re.compile("[A-Za-z_][A-Za-z0-9_]*")
PLAIN = r"[A-Za-z0-9_./:,+@-]"
# A part of a word, and what it means.
PART = re.compile(rf"(?s)'(?P<quoted>[^']*)'|\\(?P<escaped>[^\n])|(?P<plain>{PLAIN}+)")
WORD = rf"(?s:(?:'[^']*'|\\[^\n]|{PLAIN})*)"
EXPORT = re.compile(rf"export ({SHELL_NAME.pattern})=({WORD})(?:\n|\Z)")
SET = re.compile(rf'set -- ({WORD}) "\$@"(?:\n|\Z)')


def is_shell_name(name):
    """Whether a shell can have a variable of this name."""
    return SHELL_NAME.fullmatch(name) is not None


def shell_word(word):
    """What is left of a word when its quotes are removed."""
    return "".join(found[found.lastgroup] for found in PART.finditer(word))


def read_shell_lines(data, kinds):
    """The pairs of each kind of line, if there are only such lines; or UNSAID."""
    text, start, pairs = decoded(data), 0, {kind: [] for kind in kinds}
    if text is None or "\0" in text:
        return UNSAID
    while start < len(text):
        found = next(filter(None, [kind.match(text, start) for kind in kinds]), None)
        if found is None:
            return UNSAID
        pairs[found.re].append(tuple(found.groups()))
        start = found.end()
    return pairs


def read_sh(data):
    """What a POSIX shell exports that evaluates lines `export NAME=WORD`."""
    pairs = read_shell_lines(data, [EXPORT])
    if pairs == UNSAID:
        return UNSAID
    return [(name, shell_word(word)) for name, word in pairs[EXPORT]]


def read_exec(data):
    """What a command gets that a POSIX shell becomes by `env "$@"`, after lines `export NAME=WORD` and
    `set -- WORD "$@"`, in which each WORD has an equals sign after a first character."""
    pairs = read_shell_lines(data, [EXPORT, SET])
    if pairs == UNSAID:
        return UNSAID
    words = [shell_word(word) for word, in reversed(pairs[SET])]
    if any(word.find("=") < 1 or word.startswith("-") for word in words):
        return UNSAID
    exported = [(name, shell_word(word)) for name, word in pairs[EXPORT]]
    return exported + [tuple(word.split("=", 1)) for word in words]


# JSON.

BLANKS = "[ \t\n\r]*"
STRING = r'"((?:[^"\\\x00-\x1f]|\\["\\/bfnrt]|\\u[0-9A-Fa-f]{4})*)"'
MEMBER = re.compile(f"{STRING}{BLANKS}:{BLANKS}{STRING}{BLANKS}")
ESCAPE = re.compile(r"\\u[Dd][89ABab]..\\u[Dd][C-Fc-f]..|\\u....|\\.")
ESCAPES = {"b": "\b", "f": "\f", "n": "\n", "r": "\r", "t": "\t"}


def escape_meaning(found):
    """The text of an escape, or of two that are one character."""
    escape = found.group()
    if escape[1] != "u":
        return ESCAPES.get(escape[1], escape[1])
    units = [int(unit, 16) for unit in escape[2:].split("\\u")]
    return chr(units[0]) if len(units) == 1 else chr(0x10000 + (units[0] - 0xd800 << 10) + units[1] - 0xdc00)


def read_json(data):
    """The members of one object of texts."""
    text = decoded(data)
    text = None if text is None else text.strip(" \t\n\r")
    if text is None or not text.startswith("{") or not text.endswith("}") or len(text) < 2:
        return REFUSED
    text, start, pairs = text[1:-1].lstrip(" \t\n\r"), 0, []
    while start < len(text) or pairs and text:
        found = MEMBER.match(text, start)
        if found is None:
            return REFUSED
        pairs.append(tuple(ESCAPE.sub(escape_meaning, part) for part in found.groups()))
        start = found.end()
        if start == len(text):
            break
        comma = re.compile("," + BLANKS).match(text, start)
        if comma is None:
            return REFUSED
        start = comma.end()
    return pairs


READERS = {
    "docker": read_docker, "kubernetes": read_kubernetes, "systemd": read_unit, "sh": read_sh, "json": read_json,
    "exec": read_exec,
}


# What is written.


def closing(value):
    """What is written after a value for docker, which drops a carriage return."""
    return "\r" if value.endswith("\r") else ""


def write_docker(name, value):
    """The line for docker, and for kubectl."""
    return f"{name}={value}{closing(value)}\n"


def write_systemd(name, value):
    """The line for systemd."""
    return f'{name}="' + re.sub(r'([\\"$])', r"\\\1", value) + '"\n'


def quoted(text):
    """The text in single quotes."""
    return "'" + text.replace("'", "'\\''") + "'"


def write_sh(name, value):
    """The line for a shell."""
    return f"export {name}={quoted(value)}\n"


def write_exec(name, value, kept):
    """The line for dotenvy_exec."""
    if is_shell_name(name) and name not in kept:
        return write_sh(name, value)
    return f'set -- {quoted(name + "=" + value)} "$@"\n'


def written(target, pairs, kept):
    """What is written of pairs for a target, where shells keep these names."""
    pairs = sorted(pairs, key=lambda pair: pair[0].encode())
    if target == "json":
        return (json.dumps(dict(pairs), ensure_ascii=False) + "\n").encode()
    if target == "exec":
        return "".join(write_exec(name, value, kept) for name, value in pairs).encode()
    write = {"docker": write_docker, "kubernetes": write_docker, "systemd": write_systemd, "sh": write_sh}[target]
    return "".join(write(name, value) for name, value in pairs).encode()


def refusal(target, name, value, kept):
    """Why a target can't be given this pair, or None: a word of the message, or a part of it."""
    is_name = {"docker": lambda name: True, "json": lambda name: True, "exec": lambda name: True}
    is_name.update({"kubernetes": is_kubernetes_key, "systemd": is_shell_name, "sh": is_shell_name})
    if not is_name[target](name):
        return "name"
    if target == "sh" and name in kept:
        return "shells keep"
    if "\0" in value:
        return "NUL"
    if target == "systemd" and not is_for_systemd(value.encode()):
        return "character"
    if target not in ("docker", "kubernetes"):
        return None
    if "\n" in value:
        return "line feed"
    return "long" if len(write_docker(name, value).encode()) > TOO_LONG else None
