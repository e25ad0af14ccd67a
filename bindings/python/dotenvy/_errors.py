"""The errors of files, and which of them a status of the library is."""

from __future__ import annotations

from . import _library


class DotenvError(ValueError):
    """A file is wrong. It is one of the three classes below, unless the library read for too long.

    The message quotes the text at fault, which can be a part of a secret.
    """

    def __init__(
        self, message: str, file: str | None = None, line: int = 0, last_line: int = 0, text: str = "", index: int = 0
    ) -> None:
        # `copy` and `pickle` call the class with the message alone, and then set the attributes.
        super().__init__(message)
        self.message = message
        """What is wrong, without the place."""
        self.file = file
        """The path of the file, or None for bytes."""
        self.line = line
        """The physical line on which the error begins, counted from 1; 0 if it is on none."""
        self.last_line = last_line
        """The physical line on which it ends."""
        self.text = text
        """The text at fault, or for `NulError` the key."""
        self.index = index
        """The place in the text where a reader has to give up, counted from 0.

        It counts characters where a value is wrong at one, and bytes otherwise (docs/GRAMMAR.md, "Faults and their
        places").
        """

    def __str__(self) -> str:
        where = [part for part in (self.file, str(self.line) if self.line else None) if part]
        return f"{':'.join(where)}: {self.message}" if where else self.message


class LineParseError(DotenvError):
    """A line is no `KEY=value`, or its value is wrong."""


class NotUtf8Error(DotenvError):
    """A line is not UTF-8."""


class NulError(DotenvError):
    """The value of a key has a NUL, which no environment can hold."""


def error_of(record: _library.Record, file: str | None) -> DotenvError:
    """The error that an item is, of a file with this path."""
    said = record.text.decode()
    lines = record.first_line, record.last_line
    if record.status == _library.LINE_PARSE:
        message = f"Error parsing line: '{said}', error at line index: {record.place}"
        return LineParseError(message, file, *lines, said, record.place)
    if record.status == _library.NOT_UTF8:
        return NotUtf8Error("stream did not contain valid UTF-8", file, *lines)
    if record.status == _library.NUL:
        return NulError(f"value of '{said}' contains a NUL", file, *lines, said)
    return DotenvError(_library.status_text(record.status), file, *lines)
