"""Edits of a file: what is refused, what is logged, and that the file is replaced as a whole."""

from __future__ import annotations

import codecs
import enum
import logging
import os
from collections.abc import Callable
from typing import Union

from . import _library
from ._replace import read_old, replace

logger = logging.getLogger("dotenvy")

AnyPath = Union[str, bytes, "os.PathLike[str]", "os.PathLike[bytes]"]


class Refusal(enum.Enum):
    """Why an edit is refused."""

    NO_KEY = _library.NO_KEY
    """The name can be no key."""

    NOT_UTF8 = _library.NOT_UTF8
    """The value can't be written as UTF-8."""

    NUL = _library.NUL
    """The value has a NUL, which no environment can hold."""

    QUOTE_OPEN = _library.QUOTE_OPEN
    """A quote stays open to the end of the file, so nothing can be appended."""

    END_OPEN = _library.END_OPEN
    """The file ends after a backslash or a single blank, so nothing can be appended."""

    UNREADABLE = _library.UNREADABLE
    """No line assigns the key, and one that begins with it stays open, or is not UTF-8."""

    LONG_COMMENT = _library.LONG_COMMENT
    """A comment goes on over several lines, and it would be cut, or go."""

    UNPORTABLE_MARK = _library.UNPORTABLE_MARK
    """The file begins with a byte order mark."""

    UNPORTABLE_CARRIAGE_RETURN = _library.UNPORTABLE_CARRIAGE_RETURN
    """The value has a carriage return."""

    UNPORTABLE_APOSTROPHE = _library.UNPORTABLE_APOSTROPHE
    """The value has a single quote, and a double quote, a dollar or a backslash."""

    UNPORTABLE_LINE_FEED = _library.UNPORTABLE_LINE_FEED
    """The value has a line feed, and a double quote, a dollar or a backslash."""

    UNPORTABLE_BACKSLASHES = _library.UNPORTABLE_BACKSLASHES
    """The value has two backslashes in a row."""

    UNPORTABLE_LAST_BACKSLASH = _library.UNPORTABLE_LAST_BACKSLASH
    """The value ends with a backslash."""

    UNPORTABLE_SUBSTITUTION = _library.UNPORTABLE_SUBSTITUTION
    """The value has `${` and a later `}`."""

    UNPORTABLE_COMMENT = _library.UNPORTABLE_COMMENT
    """The comment of the line has the quotes that the value needs."""

    UNPORTABLE_WHITE_SPACE = _library.UNPORTABLE_WHITE_SPACE
    """The line has white space other than spaces around the name or after the value, or a carriage return ends it."""


NO_FORM = "the value has no portable form, since it has"

# What each refusal says.
SAID = {
    Refusal.NO_KEY: "this can't be a name",
    Refusal.NOT_UTF8: "the value isn't UTF-8",
    Refusal.NUL: "the value has a NUL",
    Refusal.QUOTE_OPEN: "an open end, so nothing can be appended",
    Refusal.END_OPEN: "an open end, so nothing can be appended; end it with a line feed",
    Refusal.UNREADABLE: "this line of {key} has an open end, or isn't UTF-8",
    Refusal.LONG_COMMENT: "the comment runs over several lines, and would be cut, or go",
    Refusal.UNPORTABLE_MARK: "a byte order mark is not portable",
    Refusal.UNPORTABLE_CARRIAGE_RETURN: f"{NO_FORM} a carriage return",
    Refusal.UNPORTABLE_APOSTROPHE: f"{NO_FORM} a single quote, and a double quote, a dollar or a backslash",
    Refusal.UNPORTABLE_LINE_FEED: f"{NO_FORM} a line feed, and a double quote, a dollar or a backslash",
    Refusal.UNPORTABLE_BACKSLASHES: f"{NO_FORM} two backslashes in a row",
    Refusal.UNPORTABLE_LAST_BACKSLASH: f"{NO_FORM} a backslash at its end",
    Refusal.UNPORTABLE_SUBSTITUTION: f"{NO_FORM} a dollar and braces",
    Refusal.UNPORTABLE_COMMENT: "the comment has the quotes of a portable value",
    Refusal.UNPORTABLE_WHITE_SPACE: "white space other than spaces is not portable",
}


class EditError(ValueError):
    """An edit is refused, and the file is as it was."""

    def __init__(self, reason: Refusal, file: str, key: str, line: int) -> None:
        # All of them, so that a copy can be made of them: `copy` and `pickle` call the class with `args`.
        super().__init__(reason, file, key, line)
        self.reason = reason
        """Why."""
        self.file = file
        """The path of the file."""
        self.key = key
        """The key that was to be edited."""
        self.line = line
        """The physical line at fault, counted from 1; 0 if it is of none."""

    def __str__(self) -> str:
        where = f"{self.file}:{self.line}" if self.line else self.key
        return f"{where}: {SAID[self.reason].replace('{key}', self.key)}"


class UnsupportedError(ValueError):
    """A call was asked for what python-dotenv has and this package hasn't."""


def check_encoding(encoding: str | None) -> None:
    """Refuses an encoding that is not UTF-8."""
    if encoding is not None and codecs.lookup(encoding).name != "utf-8":
        raise UnsupportedError(f"encoding={encoding!r}: a file is UTF-8")


def check_form(quote_mode: str, export: bool) -> None:
    """Refuses to be told the form of a line."""
    if quote_mode not in ("always", "auto"):
        raise UnsupportedError(f"quote_mode={quote_mode!r}: quotes are written where the value needs them")
    if export:
        raise UnsupportedError("export=True: a line keeps its export, and a new one has none")


def is_made(edited: _library.Edited, file: str, key: str) -> bool:
    """Whether an edit is made: it isn't if no line assigns the key. A refusal raises `EditError`."""
    if edited.status == _library.ABSENT:
        return False
    if edited.status != _library.OK:
        raise EditError(Refusal(edited.status), file, key, edited.line)
    return True


def edit_file(
    path: AnyPath, key: str, follow_symlinks: bool, edit: Callable[[bytes], _library.Edited]
) -> bool:
    """Edits a file, and logs what the edit warns of. It is false if no line assigns the key; then nothing is written.

    Where nothing changes, no file is written.
    """
    file = os.fsdecode(path)
    target = os.path.realpath(file) if follow_symlinks else file
    old = read_old(target, follow_symlinks)
    edited = edit(old.content)
    if not is_made(edited, file, key):
        return False
    if old.state is None or edited.file != old.content:
        replace(target, edited.file, old.state)
    for note in edited.notes:
        logger.warning("%s", _warning(note, file, key))
    return True


def _warning(note: _library.Note, file: str, key: str) -> str:
    if note.kind == _library.DOLLAR:
        return f"{key}: the value has a $, which is text here"
    where = f"{file}:{note.first_line}"
    if note.kind == _library.MENTIONS:
        return f"{where}: {note.name.decode()} mentions {key}, directly or through another name"
    if note.kind == _library.STOPS_BEFORE:
        return f"{where}: a load stops at this line, before {key}"
    if note.first_line == note.last_line:
        return f"{where}: this line of {key} is removed"
    return f"{where}: the lines of {key} up to {note.last_line} are removed"
