"""Reads the bytes of a file as statements: pairs, names alone, and lines that are skipped."""

from __future__ import annotations

import re
from typing import NamedTuple

from .. import Dialect, DotenvError, _environment, _library
from .._errors import error_of

_NAME_ALONE = re.compile(r"\s*(?:export\s+)?([A-Za-z_][A-Za-z0-9_.]*)\s*(?:\s(#)[^\n]*)?")


class Alone(NamedTuple):
    """A name without a value, and where it ends in the text of its item, in bytes."""

    name: str
    end: int


class Statement(NamedTuple):
    """A pair; a name alone, whose value is None; or, with an error, a line that says nothing."""

    key: str | None
    value: str | None
    error: DotenvError | None
    first_line: int
    last_line: int


def without_mark(content: bytes) -> bytes:
    """The bytes after a byte order mark, if there is one at the start."""
    return content[len(_library.MARK):] if content.startswith(_library.MARK) else content


def name_alone(record: _library.Record, file: bytes, start: int) -> Alone | None:
    """The name of a line that holds a name alone, perhaps after `export`, and would be an assignment with a `=`.

    The line is at this place of the file.
    """
    # The text of a faulty value can look like this, too, but no line begins with its value.
    if record.status != _library.LINE_PARSE or not file.startswith(record.text, start):
        return None
    text = record.text.decode()
    found = _NAME_ALONE.fullmatch(text)
    if not found:
        return None
    # Python's white space has characters that no line can have around a name; the fault is at the first of them.
    ends = [text[:found.start(2)]] if found[2] else [text, text.rstrip()]
    is_alone = record.place in {len(end.encode()) for end in ends}
    return Alone(found[1], len(text[:found.end(1)].encode())) if is_alone else None


def records_as_written(file: bytes, dialect: Dialect) -> list[_library.Record]:
    """The items of a file, with each substitution as it is written."""
    return _library.items(file, b"", dialect.value | _library.AS_WRITTEN)


def records_under_process(file: bytes, dialect: Dialect) -> list[_library.Record]:
    """The items of a file. A name means its value in the process's environment, else its last value in the file."""
    return _library.items(file, _library.block_of(_environment.seen_by(file).items()), dialect.value)


def records_over_process(file: bytes, dialect: Dialect) -> list[_library.Record]:
    """The items of a file. A name means its last value in the file, else its value in the process's environment.

    For that the variables of the process are put before the file, as lines. A name that no line can declare is given to
    the library as a variable.
    """
    lines, block = [], {}
    for name, value in _environment.seen_by(file).items():
        if not _environment.is_text(value):
            continue
        if _library.is_key(name):
            lines.append(_library.line_of(name, value))
        else:
            block[name] = value
    before = b"".join(lines)
    records = _library.items(before + file, _library.block_of(block.items()), dialect.value)
    shift = before.count(b"\n")
    return [
        record._replace(
            first_line=record.first_line - shift,
            last_line=record.last_line - shift,
            file_at=record.file_at - len(before),
        )
        for record in records[len(lines):]
    ]


def statements_of(records: list[_library.Record], file: bytes, path: str | None) -> list[Statement]:
    """What these items of a file say."""
    statements = []
    for record in records:
        lines = record.first_line, record.last_line
        alone = name_alone(record, file, record.file_at)
        if record.status == _library.OK:
            statements.append(Statement(record.key.decode(), record.text.decode(), None, *lines))
        elif alone is not None:
            statements.append(Statement(alone.name, None, None, *lines))
        else:
            statements.append(Statement(None, None, error_of(record, path), *lines))
    return statements
