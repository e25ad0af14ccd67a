"""Sets and unsets a key of a file in the ways of python-dotenv: quotes, `export`, encodings, and names alone."""

from __future__ import annotations

import os
import re
from collections.abc import Callable, Iterator
from typing import NamedTuple

from .. import Dialect, _library
from .._edit import AnyPath, is_made
from .._replace import read_old, replace
from . import _reading, _text

_EXPORTED = re.compile(r"\s*export\s+[A-Za-z_]")


class Form(NamedTuple):
    """How a line is written: whether its value has quotes in any case, and whether it begins with `export`."""

    is_quoted: bool
    is_exported: bool


class Target(NamedTuple):
    """The key that is edited, and its file."""

    path: AnyPath
    key: str
    encoding: str | None
    follow_symlinks: bool


def _located(file: bytes, dialect: Dialect) -> Iterator[tuple[_library.Record, int, int]]:
    """The items of a file, and where the lines of each begin and end; the first line begins after the mark."""
    mark = len(file) - len(_reading.without_mark(file))
    for record in _library.items(file, b"", dialect.value | _library.DROP_MARK):
        yield record, max(record.file_at, mark), record.file_at + record.file_len


def _assigned(file: bytes, key: bytes, dialect: Dialect) -> bytes:
    """The file with a `=` after each name alone that is this key, which makes an assignment of it."""
    parts, last = [], 0
    for record, start, _ in _located(file, dialect):
        alone = _reading.name_alone(record, file, start)
        if alone is not None and alone.name.encode() == key:
            place = start + alone.end
            parts += [file[last:place], b"="]
            last = place
    return b"".join([*parts, file[last:]])


def _exported(file: bytes, key: bytes, dialect: Dialect) -> bytes:
    """The file, which assigns this key, with `export` before it where there is none."""
    start, end = next((start, end) for record, start, end in _located(file, dialect) if record.key == key)
    line = file[start:end].decode()
    if _EXPORTED.match(line):
        return file
    place = start + len(line[:len(line) - len(line.lstrip())].encode())
    return file[:place] + b"export " + file[place:]


def _set_quoted(file: bytes, key: bytes, value: bytes, dialect: Dialect) -> _library.Edited:
    """Sets a key to a value that has quotes: first to one that needs them, since quotes that are there stay."""
    quoted = _library.set_value(file, key, b" ", dialect.value)
    if quoted.status != _library.OK:
        return quoted
    return _library.set_value(quoted.file, key, value, dialect.value)


def set_in(file: bytes, pair: tuple[bytes, bytes], form: Form, dialect: Dialect) -> _library.Edited:
    """Sets a key of a file to a value."""
    key, value = pair
    assigned = _assigned(file, key, dialect)
    if form.is_quoted:
        edited = _set_quoted(assigned, key, value, dialect)
    else:
        edited = _library.set_value(assigned, key, value, dialect.value)
    if form.is_exported and edited.status == _library.OK:
        edited = edited._replace(file=_exported(edited.file, key, dialect))
    return edited


def unset_in(file: bytes, key: bytes, dialect: Dialect) -> _library.Edited:
    """Unsets a key of a file."""
    return _library.unset(_assigned(file, key, dialect), key, dialect.value)


def edit_file(target: Target, edit: Callable[[bytes], _library.Edited]) -> bool:
    """Edits a file. It is false if no line assigns the key; then nothing is written.

    A symbolic link is replaced by a file, unless links are followed; then the file that it leads to is.
    """
    file = os.fsdecode(target.path)
    place = os.path.realpath(file) if target.follow_symlinks else file
    old = read_old(place, True)
    edited = edit(_text.to_utf8_and_back(old.content, target.encoding))
    if not is_made(edited, file, target.key):
        return False
    new = _text.from_utf8(edited.file, target.encoding)
    if old.state is None or new != old.content:
        replace(place, new, None if os.path.islink(place) else old.state)
    return True
