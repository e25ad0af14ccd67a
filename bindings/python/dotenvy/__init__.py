"""Reads and edits environment files (`.env`) by a proved library.

    from dotenvy import load_dotenv

    load_dotenv()    # the variables of .env are in os.environ; those that exist keep their values

The file format is that of the Rust crate dotenvy 0.15; docs/GRAMMAR.md says all of it. What is proved is the parsing,
which value counts, and what an edit makes of bytes; searching for files, reading and replacing them is Python's.
"""

from __future__ import annotations

import enum
import errno
import os
import stat
from collections.abc import Iterator, Mapping
from dataclasses import dataclass
from pathlib import Path
from typing import Tuple, Union

from . import _environment, _library
from ._edit import AnyPath, EditError, Refusal, UnsupportedError, check_encoding, check_form, edit_file
from ._errors import DotenvError, LineParseError, NotUtf8Error, NulError, error_of

__all__ = [
    "Dialect",
    "DotenvError",
    "EditError",
    "LineParseError",
    "NotUtf8Error",
    "NulError",
    "Pair",
    "Refusal",
    "UnsupportedError",
    "dotenv_items",
    "dotenv_values",
    "find_dotenv",
    "get_key",
    "is_key",
    "load_dotenv",
    "set_key",
    "unset_key",
]

Source = Union[str, "os.PathLike[str]", "os.PathLike[bytes]", bytes, bytearray, memoryview]
"""A path, or the bytes of a file. A path that is itself given as bytes has to be a `PathLike`."""


class Dialect(enum.Enum):
    """How substitutions without braces are read."""

    V15 = 0
    """As dotenvy 0.15: a name ends before `_`, and can't be right before a closing double quote."""

    NEXT = _library.NEXT_DIALECT
    """A name may have `_`, and in double quotes it may be right before the closing quote."""


@dataclass(frozen=True)
class Pair:
    """A key with its value, and the physical lines that it is on, counted from 1."""

    key: str
    value: str
    first_line: int
    last_line: int


_Asked = Tuple[bytes, bytes, int]
"""A file, the block of what its values can mention, and options: what the library is asked for its items with."""


def _asked(
    path_or_bytes: Source, environment: Mapping[str, str] | None, dialect: Dialect
) -> tuple[_Asked, str | None]:
    file, name = _read(path_or_bytes)
    block = _library.block_of(_environment.seen_by(file, environment).items())
    return (file, block, dialect.value | _library.DROP_MARK), name


def _records(
    path_or_bytes: Source, environment: Mapping[str, str] | None, dialect: Dialect
) -> tuple[list[_library.Record], str | None]:
    asked, name = _asked(path_or_bytes, environment, dialect)
    return _library.items(*asked), name


def _read(path_or_bytes: Source) -> tuple[bytes, str | None]:
    if isinstance(path_or_bytes, (bytes, bytearray, memoryview)):
        return bytes(path_or_bytes), None
    path = os.fsdecode(path_or_bytes)
    with open(path, "rb") as file:
        return file.read(), path


def is_key(text: str) -> bool:
    """Whether a file may assign a value to this name.

    >>> is_key("_a.B9"), is_key("1A")
    (True, False)
    """
    return _library.is_key(text.encode(errors="surrogatepass"))


def dotenv_items(
    path_or_bytes: Source,
    environment: Mapping[str, str] | None = None,
    dialect: Dialect = Dialect.V15,
) -> Iterator[Pair | DotenvError]:
    """The pairs and the errors of a file, in order; an error is given and not raised.

    The file is given by its path, or as bytes. A name that a value mentions means its value in `environment`, else the
    last one declared before it in the file. `environment` is that of the process unless it is given. The file is read
    by this call, and not when the first item is asked for.

    >>> list(dotenv_items(b"A=1\\nB=${A}0\\n", {}))[1]
    Pair(key='B', value='10', first_line=2, last_line=2)
    """
    records, name = _records(path_or_bytes, environment, dialect)
    return _items(records, name)


def _items(records: list[_library.Record], name: str | None) -> Iterator[Pair | DotenvError]:
    for record in records:
        if record.status == _library.OK:
            yield Pair(
                record.key.decode(), record.text.decode(), record.first_line, record.last_line
            )
        else:
            yield error_of(record, name)


def dotenv_values(
    path_or_bytes: Source | None = None,
    environment: Mapping[str, str] | None = None,
    dialect: Dialect = Dialect.V15,
) -> dict[str, str]:
    """The names that a file declares with their values. The last value of a name counts; `os.environ` stays as it is.

    The file is given by its path or as bytes; None is the file that `find_dotenv` finds, and if there is none, the
    result is empty. What names in values mean is as in `dotenv_items`. The first error of the file is raised.

    >>> dotenv_values(b"A=1\\nB=${A}0\\n", {})
    {'A': '1', 'B': '10'}
    """
    if path_or_bytes is None:
        path_or_bytes = find_dotenv() or b""
    asked, name = _asked(path_or_bytes, environment, dialect)
    values = _library.values(*asked)
    if values is None:
        raise next(error_of(it, name) for it in _library.items(*asked) if it.status != _library.OK)
    return values


def load_dotenv(
    path: Source | None = None,
    override: bool = False,
    dialect: Dialect = Dialect.V15,
) -> bool:
    """Loads a file into `os.environ`, and returns whether there was one.

    The file is given by its path, or as bytes; None is the file that `find_dotenv` finds. A variable that exists keeps
    its value, unless `override` is set; then each name gets the last value that the file gives it. A path at which
    there is no file raises `FileNotFoundError`.

    The first error of the file is raised, and what is before it was set. Only variables that the file declares are
    written: what another thread changes meanwhile stays.

    >>> load_dotenv(b"PORT=8080\\n"), os.environ["PORT"]
    (True, '8080')
    """
    if path is None:
        path = find_dotenv()
        if not path:
            return False
    file, name = _read(path)
    seen = _environment.seen_by_load(file)
    block = _library.block_of(seen.items())
    options = dialect.value | (_library.OVERRIDE if override else 0)
    loaded = _library.load(file, block, options)
    _environment.set_loaded(loaded.pairs, seen, override)
    if loaded.status != _library.OK:
        records = _library.items(file, block, dialect.value | _library.DROP_MARK)
        raise error_of(_record_of(loaded, records), name)
    return True


def _record_of(loaded: _library.Loaded, records: list[_library.Record]) -> _library.Record:
    """The error at which a load stopped, on its lines: those of the first error, or of the value with a NUL."""
    lines = 0, 0
    for record in records:
        if loaded.status == _library.NUL:
            is_it = record.key == loaded.text and b"\0" in record.text
        else:
            is_it = record.status == loaded.status
        if is_it:
            lines = record.first_line, record.last_line
            break
    return _library.Record(loaded.status, b"", loaded.text, loaded.place, *lines)


def find_dotenv(filename: str = ".env", raise_error_if_not_found: bool = False) -> str:
    """The path of the file of this name in the current directory, or in the nearest directory above that has it.

    A named pipe counts as a file. It is the empty text if there is none, or `FileNotFoundError` is raised where that is
    asked for. A directory that can't be looked into raises `OSError`.

    >>> find_dotenv("there is no such file.env")
    ''
    """
    here = Path.cwd()
    for directory in (here, *here.parents):
        path = str(directory / filename)
        if is_file_or_pipe(path):
            return path
    if raise_error_if_not_found:
        raise FileNotFoundError(f"no {filename} in {here} or above it")
    return ""


def is_file_or_pipe(path: AnyPath) -> bool:
    """Whether a regular file or a named pipe is there, or a link that leads to one."""
    try:
        mode = os.stat(path).st_mode
    except OSError as error:
        if error.errno in (errno.ENOENT, errno.ENOTDIR, errno.ELOOP):
            return False
        raise
    except ValueError:  # a NUL in the path
        return False
    return stat.S_ISREG(mode) or stat.S_ISFIFO(mode)


def set_key(
    dotenv_path: AnyPath,
    key_to_set: str,
    value_to_set: str,
    quote_mode: str = "always",
    export: bool = False,
    encoding: str | None = "utf-8",
    follow_symlinks: bool = False,
    *,
    dialect: Dialect = Dialect.V15,
    portable: bool = False,
) -> tuple[bool, str, str]:
    """Sets a key of a file to a value, and keeps every other byte; returns True, the key and the value.

    The first line that assigns the key gets the value, and later ones go; where none does, a line is appended. Where
    there is no file, one is made that only its owner can read. The value is text: it reads back as it is, in quotes
    where it needs them. With `portable` it is written as Python's, Node's and Ruby's libraries read it, too.

    What is refused raises `EditError`, and what else is to be known of the edit is logged, by the logger `dotenvy`. The
    file is replaced as a whole, and not written where nothing changes. A symbolic link raises `OSError`, unless
    `follow_symlinks` is set; then the file that it leads to is edited.

    The arguments up to `follow_symlinks` are those of python-dotenv. `quote_mode` may be "always" or "auto", which mean
    the same here. "never", `export` and an encoding other than UTF-8 raise `UnsupportedError`.

    >>> set_key("new.env", "MOTTO", "two words"), Path("new.env").read_text()
    ((True, 'MOTTO', 'two words'), "MOTTO='two words'\\n")
    """
    check_encoding(encoding)
    check_form(quote_mode, export)
    key, value = key_to_set.encode(errors="surrogatepass"), value_to_set.encode(errors="surrogatepass")
    options = dialect.value | (_library.PORTABLE if portable else 0)
    edit_file(
        dotenv_path, key_to_set, follow_symlinks, lambda file: _library.set_value(file, key, value, options)
    )
    return True, key_to_set, value_to_set


def unset_key(
    dotenv_path: AnyPath,
    key_to_unset: str,
    quote_mode: str = "always",
    encoding: str | None = "utf-8",
    follow_symlinks: bool = False,
    *,
    dialect: Dialect = Dialect.V15,
) -> tuple[bool | None, str]:
    """Removes the lines that assign a key, and keeps every other byte; returns True and the key.

    Where no line assigns it, or there is no file, it returns None and the key, and nothing is written. `quote_mode`
    means nothing, as in python-dotenv. All else is as in `set_key`.

    >>> Path("old.env").write_text("A=1\\nB=2\\n"), unset_key("old.env", "A"), Path("old.env").read_text()
    (8, (True, 'A'), 'B=2\\n')
    """
    check_encoding(encoding)
    key = key_to_unset.encode(errors="surrogatepass")
    is_removed = edit_file(
        dotenv_path, key_to_unset, follow_symlinks, lambda file: _library.unset(file, key, dialect.value)
    )
    return (True if is_removed else None), key_to_unset


def get_key(
    dotenv_path: AnyPath,
    key_to_get: str,
    encoding: str | None = "utf-8",
    *,
    dialect: Dialect = Dialect.V15,
) -> str | None:
    """The value of a key, or None if the file doesn't declare it, or there is no file.

    It is the last one that the file declares, as `dotenv_values` of this path has it. An encoding other than UTF-8
    raises `UnsupportedError`.

    >>> set_key("app.env", "PORT", "8080"), get_key("app.env", "PORT"), get_key("app.env", "HOST")
    ((True, 'PORT', '8080'), '8080', None)
    """
    check_encoding(encoding)
    try:
        return dotenv_values(os.fsdecode(dotenv_path), dialect=dialect).get(key_to_get)
    except FileNotFoundError:
        return None
