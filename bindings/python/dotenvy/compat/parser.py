"""The bindings of a text: each pair, name alone, faulty line and comment, with its lines."""

from __future__ import annotations

import re
from collections.abc import Iterator
from typing import IO, Any, NamedTuple

from .. import Dialect
from . import _reading, _text

_LINE = re.compile(rb"[^\n]*\n|[^\n]+")


class Original(NamedTuple):
    """The text of a binding, with the empty lines before it, and the number of its first line."""

    string: str
    line: int


class Binding(NamedTuple):
    """A pair, with each substitution as it is written; without a key it is a comment, empty lines or an error."""

    key: str | None
    value: str | None
    original: Original
    error: bool


def _comments(file: bytes, start: int, end: int) -> Iterator[tuple[int, None]]:
    """Where each line of this part of a file ends that is not empty."""
    for line in _LINE.finditer(file, start, end):
        if line[0].strip():
            yield line.end(), None


def _ends(file: bytes, dialect: Dialect) -> Iterator[tuple[int, _reading.Statement | None]]:
    """Where each statement ends, and each comment between them, which has no statement, in order."""
    records = _reading.records_as_written(file, dialect)
    last = 0
    for statement, record in zip(_reading.statements_of(records, file, None), records):
        yield from _comments(file, last, record.file_at)
        last = record.file_at + record.file_len
        yield last, statement
    yield from _comments(file, last, len(file))


def parse_stream(stream: IO[Any], *, dialect: Dialect = Dialect.V15) -> Iterator[Binding]:
    """The bindings of a stream. Their texts, joined, are its text, without a byte order mark at the start."""
    content = stream.read()
    errors = "surrogatepass" if isinstance(content, str) else "surrogateescape"
    file = _reading.without_mark(_text.bytes_of(content))
    # Empty lines belong to what comes after them.
    start, line = 0, 1
    for end, statement in _ends(file, dialect):
        original = Original(file[start:end].decode(errors=errors), line)
        line += file.count(b"\n", start, end)
        start = end
        if statement is None:
            yield Binding(None, None, original, False)
        else:
            yield Binding(statement.key, statement.value, original, statement.error is not None)
    if start < len(file):
        yield Binding(None, None, Original(file[start:].decode(errors=errors), line), False)
