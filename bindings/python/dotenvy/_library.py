"""The calls of libdotenvy.so.1, by ctypes: bytes in, bytes out. bindings/c/dotenvy.h says what each does."""

from __future__ import annotations

import ctypes
import re
import struct
from collections.abc import Callable, Iterable
from pathlib import Path
from typing import Any, NamedTuple

OK, LINE_PARSE, NOT_UTF8, NUL, TOO_MANY_READS, NO_MEMORY, BAD_OPTION = range(7)
NO_KEY, ABSENT, QUOTE_OPEN, END_OPEN, UNREADABLE, LONG_COMMENT = range(7, 13)
UNPORTABLE_MARK, UNPORTABLE_CARRIAGE_RETURN, UNPORTABLE_APOSTROPHE, UNPORTABLE_LINE_FEED = range(13, 17)
UNPORTABLE_BACKSLASHES, UNPORTABLE_LAST_BACKSLASH, UNPORTABLE_SUBSTITUTION, UNPORTABLE_COMMENT = range(17, 21)
UNPORTABLE_WHITE_SPACE = 22
OVERRIDE, NEXT_DIALECT, DROP_MARK, PORTABLE, AS_WRITTEN = 1, 2, 4, 8, 16
MENTIONS, STOPS_BEFORE, REMOVED, DOLLAR = 1, 2, 3, 4


class Answer(ctypes.Structure):
    """`struct dotenvy_answer`."""

    _fields_ = [
        ("status", ctypes.c_uint32),
        ("fits", ctypes.c_bool),
        ("index", ctypes.c_size_t),
        ("block_len", ctypes.c_size_t),
        ("text_len", ctypes.c_size_t),
        ("reserved", ctypes.c_uint64 * 2),
    ]


class Item(ctypes.Structure):
    """`struct dotenvy_item`."""

    _fields_ = [
        ("status", ctypes.c_uint32),
        ("key_at", ctypes.c_size_t),
        ("key_len", ctypes.c_size_t),
        ("text_len", ctypes.c_size_t),
        ("index", ctypes.c_size_t),
        ("first_line", ctypes.c_uint64),
        ("last_line", ctypes.c_uint64),
        ("file_at", ctypes.c_size_t),
        ("file_len", ctypes.c_size_t),
        ("reserved", ctypes.c_uint64 * 2),
    ]


class Counts(ctypes.Structure):
    """`struct dotenvy_counts`."""

    _fields_ = [
        ("status", ctypes.c_uint32),
        ("fits", ctypes.c_bool),
        ("items", ctypes.c_size_t),
        ("text_len", ctypes.c_size_t),
        ("reserved", ctypes.c_uint64 * 2),
    ]


class Text(ctypes.Structure):
    """`struct dotenvy_text`."""

    _fields_ = [
        ("status", ctypes.c_uint32),
        ("fits", ctypes.c_bool),
        ("text_len", ctypes.c_size_t),
        ("reserved", ctypes.c_uint64 * 2),
    ]


class Edit(ctypes.Structure):
    """`struct dotenvy_edit`."""

    _fields_ = [
        ("status", ctypes.c_uint32),
        ("fits", ctypes.c_bool),
        ("line", ctypes.c_uint64),
        ("file_len", ctypes.c_size_t),
        ("names_len", ctypes.c_size_t),
        ("warnings", ctypes.c_size_t),
        ("reserved", ctypes.c_uint64 * 2),
    ]


class ToldWarning(ctypes.Structure):
    """`struct dotenvy_warning`."""

    _fields_ = [
        ("kind", ctypes.c_uint32),
        ("name_at", ctypes.c_size_t),
        ("name_len", ctypes.c_size_t),
        ("first_line", ctypes.c_uint64),
        ("last_line", ctypes.c_uint64),
        ("reserved", ctypes.c_uint64 * 2),
    ]


# What the code of the library needs of a processor (x86-64-v2), as Linux calls it. On a lesser one a call would end the
# process by an illegal instruction.
NEEDED = frozenset({"cx16", "lahf_lm", "popcnt", "pni", "ssse3", "sse4_1", "sse4_2"})


def missing_features(cpuinfo: str) -> list[str]:
    """What the library needs and this text of /proc/cpuinfo lacks. Where it tells no features, nothing is missing."""
    found = re.search(r"^flags\s*:(.*)$", cpuinfo, re.MULTILINE)
    return sorted(NEEDED - set(found[1].split())) if found else []


def _check_processor() -> None:
    try:
        cpuinfo = Path("/proc/cpuinfo").read_text(encoding="utf-8", errors="replace")
    except OSError:
        return
    missing = missing_features(cpuinfo)
    if missing:
        raise ImportError(f"dotenvy needs a processor of x86-64-v2, and this one lacks {', '.join(missing)}")


def _open() -> ctypes.CDLL:
    path = Path(__file__).with_name("libdotenvy.so.1")
    if not path.exists():
        raise ImportError(f"{path} is missing: bindings/build.sh builds it")
    _check_processor()
    library = ctypes.CDLL(str(path))
    for name, (result, arguments) in _declared().items():
        call = getattr(library, f"dotenvy_{name}")
        call.restype, call.argtypes = result, arguments
    return library


def _declared() -> dict[str, tuple[Any, list[Any]]]:
    """What each call returns and takes."""
    number: Any = ctypes.c_uint32
    text: list[Any] = [ctypes.c_char_p, ctypes.c_size_t]
    # Items and warnings are written to plain buffers, which `struct` reads.
    records: list[Any] = [ctypes.c_void_p, ctypes.c_size_t, *text]
    edit: list[Any] = [number, ctypes.POINTER(Edit), *records]
    return {
        "is_key": (ctypes.c_bool, text),
        "version": (number, []),
        "status_text": (ctypes.c_size_t, [number, *text]),
        "load": (number, [*text, *text, number, ctypes.POINTER(Answer), *text]),
        "items": (number, [*text, *text, number, ctypes.POINTER(Counts), *records]),
        "write": (number, [*text, *text, number, ctypes.POINTER(Text), *text]),
        "set": (number, [*text, *text, *text, *edit]),
        "unset": (number, [*text, *text, *edit]),
    }


_library = _open()

# An `Item` and a `ToldWarning` as `struct` reads them, which for many is much faster than their attributes are. What is
# reserved is skipped.
_ITEM = struct.Struct("@IQQQQQQQQ16x")
_PAIR = struct.Struct("@IQQQ56x")  # of an `Item` what a pair without its lines needs
_WARNING = struct.Struct("@IQQQQ16x")

MARK = b"\xef\xbb\xbf"


class Loaded(NamedTuple):
    """What a load leaves, and the error at which it stopped, if its status is not `OK`."""

    status: int
    pairs: dict[bytes, bytes]
    text: bytes
    place: int


class Record(NamedTuple):
    """An item of a file: a pair if its status is `OK`, else an error. Its lines are also told as bytes of the file."""

    status: int
    key: bytes
    text: bytes
    place: int
    first_line: int
    last_line: int
    file_at: int = 0
    file_len: int = 0


class Note(NamedTuple):
    """A warning of an edit: its kind, its name if it has one, and its lines."""

    kind: int
    name: bytes
    first_line: int
    last_line: int


class Edited(NamedTuple):
    """The new file of an edit; or, if its status is not `OK`, why it is refused, and the line at fault."""

    status: int
    line: int
    file: bytes
    notes: list[Note]


def status_text(status: int) -> str:
    """What a status says."""
    out = ctypes.create_string_buffer(100)
    length = _library.dotenvy_status_text(status, out, len(out))
    return out.raw[:length].decode()


def _refuse(status: int) -> None:
    if status == NO_MEMORY:
        raise MemoryError
    if status == BAD_OPTION:
        raise ValueError(status_text(status))


def block_of(pairs: Iterable[tuple[bytes, bytes]]) -> bytes:
    """The block of these pairs. A pair that no block can hold is left out."""
    return b"".join(
        b"%b=%b\0" % (name, value)
        for name, value in pairs
        if b"=" not in name and b"\0" not in name + value
    )


def pairs_of(block: bytes) -> dict[bytes, bytes]:
    """The pairs of a block that the library wrote."""
    parts = (entry.partition(b"=") for entry in block.split(b"\0")[:-1])
    return {name: value for name, _, value in parts}


def is_key(text: bytes) -> bool:
    """Whether these bytes may be a key of a file."""
    return bool(_library.dotenvy_is_key(text, len(text)))


def version() -> int:
    """1000000 times the major version, 1000 times the minor one, and the number of the patch."""
    return int(_library.dotenvy_version())


def _fill(sizes: list[int], call: Callable[..., bool], needed: Callable[[], list[int]]) -> list[Any]:
    """The buffers that a call filled: of these sizes, or else of those that it needs.

    The same call needs the same sizes, so what it needs is enough the second time.
    """
    for _ in range(2):
        buffers = [ctypes.create_string_buffer(size) for size in sizes]
        if call(*buffers):
            return buffers
        sizes = needed()
    raise RuntimeError("libdotenvy.so.1 needs more than it told")


def load(file: bytes, block: bytes, options: int = 0) -> Loaded:
    """Loads a file over the environment of a block."""
    answer = Answer()
    given = file, len(file), block, len(block), options

    def call(out: Any) -> bool:
        _refuse(_library.dotenvy_load(*given, ctypes.byref(answer), out, len(out)))
        return bool(answer.fits)

    (out,) = _fill([len(file) + len(block) + 256], call, lambda: [answer.block_len + answer.text_len])
    written = ctypes.string_at(out, answer.block_len + answer.text_len)
    left = pairs_of(written[:answer.block_len])
    return Loaded(answer.status, left, written[answer.block_len:], answer.index)


def _listed(file: bytes, block: bytes, options: int) -> tuple[memoryview, bytes]:
    """The items of a file as the library writes them: their records, and their keys and texts."""
    # Most items have a line and a `=`; a file of line feeds alone has none.
    count = min(file.count(b"\n"), file.count(b"=")) + 16
    counts = Counts()
    given = file, len(file), block, len(block), options

    def call(found: Any, out: Any) -> bool:
        places = len(found) // _ITEM.size
        _refuse(_library.dotenvy_items(*given, ctypes.byref(counts), found, places, out, len(out)))
        return bool(counts.fits)

    sizes = [count * _ITEM.size, len(file) + 256]
    found, out = _fill(sizes, call, lambda: [counts.items * _ITEM.size, counts.text_len])
    return memoryview(found)[:counts.items * _ITEM.size], ctypes.string_at(out, counts.text_len)


def items(file: bytes, block: bytes, options: int = 0) -> list[Record]:
    """The items of a file under the environment of a block; with `AS_WRITTEN` nothing in a value is substituted."""
    found, written = _listed(file, block, options)
    records = []
    for status, key_at, key_len, text_len, *others in _ITEM.iter_unpack(found):
        text_at = key_at + key_len
        text_end = text_at + text_len
        records.append(Record(status, written[key_at:text_at], written[text_at:text_end], *others))
    return records


def values(file: bytes, block: bytes, options: int = 0) -> dict[str, str] | None:
    """The last value of each name of a file under the environment of a block; None if an item is an error."""
    found, written = _listed(file, block, options)
    last = {}
    for status, key_at, key_len, text_len in _PAIR.iter_unpack(found):
        if status != OK:
            return None
        text_at = key_at + key_len
        last[written[key_at:text_at].decode()] = written[text_at:text_at + text_len].decode()
    return last


def _edited(library_call: Callable[..., int], room: int, *given: bytes | int) -> Edited:
    edit = Edit()

    def call(found: Any, out: Any) -> bool:
        _refuse(library_call(*given, ctypes.byref(edit), found, len(found) // _WARNING.size, out, len(out)))
        return bool(edit.fits or edit.status != OK)

    sizes = [16 * _WARNING.size, room + 256]
    found, out = _fill(sizes, call, lambda: [edit.warnings * _WARNING.size, edit.file_len + edit.names_len])
    written = ctypes.string_at(out, edit.file_len + edit.names_len)
    notes = []
    for kind, name_at, name_len, *lines in _WARNING.iter_unpack(memoryview(found)[:edit.warnings * _WARNING.size]):
        notes.append(Note(kind, written[name_at:name_at + name_len], *lines))
    return Edited(edit.status, edit.line, written[:edit.file_len], notes)


def set_value(file: bytes, key: bytes, value: bytes, options: int = 0) -> Edited:
    """Sets a key of a file to a value."""
    room = len(file) + len(key) + 2 * len(value)
    return _edited(_library.dotenvy_set, room, file, len(file), key, len(key), value, len(value), options)


def unset(file: bytes, key: bytes, options: int = 0) -> Edited:
    """Unsets a key of a file."""
    return _edited(_library.dotenvy_unset, len(file), file, len(file), key, len(key), options)


def line_of(key: bytes, value: bytes) -> bytes:
    """The line of a file that declares a pair, and reads back as it, whatever the environment has."""
    text = Text()

    def call(out: Any) -> bool:
        status = _library.dotenvy_write(key, len(key), value, len(value), 0, ctypes.byref(text), out, len(out))
        _refuse(status)
        if status != OK:
            raise ValueError(status_text(status))
        return bool(text.fits)

    (out,) = _fill([len(key) + 2 * len(value) + 4], call, lambda: [text.text_len])
    return ctypes.string_at(out, text.text_len)
