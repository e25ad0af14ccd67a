"""`DotEnv`, and the calls that load, read, find and edit files."""

from __future__ import annotations

import logging
import os
import sys
from collections import OrderedDict
from collections.abc import Callable, Iterator
from types import FrameType
from typing import IO, Any, Dict, Optional

from .. import Dialect, NulError, _library, is_file_or_pipe
from .._edit import AnyPath
from . import _editing, _reading, _text

# A program that sets the level of python-dotenv's logger sets that of this one.
logger = logging.getLogger("dotenv.main")

Values = Dict[str, Optional[str]]


def is_there(path: AnyPath) -> bool:
    """Whether a file or a named pipe is there. A place that can't be looked at has none, as in `os.path.isfile`."""
    try:
        return is_file_or_pipe(path)
    except OSError:
        return False


def _warn(statements: list[_reading.Statement]) -> None:
    for statement in statements:
        if statement.error is not None:
            logger.warning("Python-dotenv could not parse statement starting at line %s", statement.first_line)


class DotEnv:
    """A file, or a stream, whose pairs can be asked for.

    A line that can't be read is skipped with a warning; with `strict`, the first one raises its `DotenvError`.
    """

    def __init__(
        self,
        dotenv_path: AnyPath | None,
        stream: IO[Any] | None = None,
        verbose: bool = False,
        encoding: str | None = None,
        interpolate: bool = True,
        override: bool = True,
        *,
        strict: bool = False,
        dialect: Dialect = Dialect.V15,
    ) -> None:
        self.dotenv_path = dotenv_path
        self.stream = stream
        self.verbose = verbose
        self.encoding = encoding
        self.interpolate = interpolate
        self.override = override
        self.strict = strict
        self.dialect = dialect
        self._dict: Values | None = None

    def _path(self) -> str | None:
        """The path of the file, if it is there."""
        return os.fsdecode(self.dotenv_path) if self.dotenv_path and is_there(self.dotenv_path) else None

    def _content(self, path: str | None) -> bytes:
        if path is not None:
            with open(path, "rb") as file:
                return _text.to_utf8(file.read(), self.encoding)
        if self.stream is not None:
            return _text.bytes_of(self.stream.read())
        if self.verbose:
            logger.info("Python-dotenv could not find configuration file %s.", self.dotenv_path or ".env")
        return b""

    def _statements(self, interpolate: bool) -> list[_reading.Statement]:
        path = self._path()
        file = _reading.without_mark(self._content(path))
        if not interpolate:
            records = _reading.records_as_written(file, self.dialect)
        elif self.override:
            records = _reading.records_over_process(file, self.dialect)
        else:
            records = _reading.records_under_process(file, self.dialect)
        statements = _reading.statements_of(records, file, path)
        if self.strict:
            for statement in statements:
                if statement.error is not None:
                    raise statement.error
        _warn(statements)
        return statements

    def parse(self) -> Iterator[tuple[str, str | None]]:
        """The pairs, with each substitution as it is written; a name alone has the value None."""
        for statement in self._statements(False):
            if statement.key is not None:
                yield statement.key, statement.value

    def dict(self) -> Values:
        """The names with their last values. They are read once, unless there are none."""
        if not self._dict:
            statements = self._statements(self.interpolate)
            self._dict = OrderedDict((it.key, it.value) for it in statements if it.key is not None)
        return self._dict

    def set_as_environment_variables(self) -> bool:
        """Sets the variables of the process, and returns whether the file declares any name.

        A value with a NUL raises `NulError`; what is before it was set.
        """
        values = self.dict()
        for key, value in values.items():
            if value is None or (key in os.environ and not self.override):
                continue
            if "\0" in value:
                raise NulError(f"value of '{key}' contains a NUL", self._path(), text=key)
            os.environ[key] = value
        return bool(values)

    def get(self, key: str) -> str | None:
        """The value of a name; None if the file has no such name, or only the name alone."""
        values = self.dict()
        if key in values:
            return values[key]
        if self.verbose:
            logger.warning("Key %s not found in %s.", key, self.dotenv_path)
        return None


def get_key(
    dotenv_path: AnyPath,
    key_to_get: str,
    encoding: str | None = "utf-8",
    *,
    strict: bool = False,
    dialect: Dialect = Dialect.V15,
) -> str | None:
    """The value of a name in a file; None if it isn't there, or has no value. A missing file is logged."""
    dotenv = DotEnv(dotenv_path, verbose=True, encoding=encoding, strict=strict, dialect=dialect)
    return dotenv.get(key_to_get)


def _edit(target: _editing.Target, dialect: Dialect, edit: Callable[[bytes], _library.Edited]) -> bool:
    """Edits a file, and warns of its lines that can't be read. It is false if no line assigns the key."""

    def warned(content: bytes) -> _library.Edited:
        file = _reading.without_mark(content)
        _warn(_reading.statements_of(_reading.records_as_written(file, dialect), file, None))
        return edit(content)

    return _editing.edit_file(target, warned)


def set_key(
    dotenv_path: AnyPath,
    key_to_set: str,
    value_to_set: str,
    quote_mode: str = "always",
    export: bool = False,
    encoding: str | None = "utf-8",
    follow_symlinks: bool = False,
    *,
    dialect: Dialect = Dialect.V15,
) -> tuple[bool | None, str, str]:
    """Sets a key of a file to a value, and keeps every other byte; returns True, the key and the value.

    The value reads back as it is. It is written in quotes with `quote_mode` "always", and with "auto" unless it has
    only letters and digits. With "never" it has quotes only where it would not read back without, or where there are
    some already. With `export`, the line begins with `export`; without, the line keeps what it has. What can't be
    written raises `EditError`, and the file is as it was. A missing file is made.

    >>> set_key("app.env", "PORT", "80", export=True), get_key("app.env", "PORT")
    ((True, 'PORT', '80'), '80')
    """
    if quote_mode not in ("always", "auto", "never"):
        raise ValueError(f"Unknown quote_mode: {quote_mode}")
    is_quoted = quote_mode == "always" or (quote_mode == "auto" and not value_to_set.isalnum())
    pair = key_to_set.encode(errors="surrogatepass"), value_to_set.encode(errors="surrogatepass")
    form = _editing.Form(is_quoted, export)
    target = _editing.Target(dotenv_path, key_to_set, encoding, follow_symlinks)
    _edit(target, dialect, lambda file: _editing.set_in(file, pair, form, dialect))
    return True, key_to_set, value_to_set


def unset_key(
    dotenv_path: AnyPath,
    key_to_unset: str,
    quote_mode: str = "always",
    encoding: str | None = "utf-8",
    follow_symlinks: bool = False,
    *,
    dialect: Dialect = Dialect.V15,
) -> tuple[bool | None, str]:
    """Removes the lines of a key, and keeps every other byte; returns True and the key.

    Where there is no such line, or no file, it returns None and the key, and logs so. `quote_mode` means nothing.
    """
    if not os.path.exists(dotenv_path):
        logger.warning("Can't delete from %s - it doesn't exist.", dotenv_path)
        return None, key_to_unset
    key = key_to_unset.encode(errors="surrogatepass")
    target = _editing.Target(dotenv_path, key_to_unset, encoding, follow_symlinks)
    is_removed = _library.is_key(key) and _edit(
        target, dialect, lambda file: _editing.unset_in(file, key, dialect)
    )
    if not is_removed:
        logger.warning("Key %s not removed from %s - key doesn't exist.", key_to_unset, dotenv_path)
        return None, key_to_unset
    return True, key_to_unset


def _is_interactive() -> bool:
    main = sys.modules.get("__main__")
    return main is not None and not hasattr(main, "__file__")


def _walk_to_root(path: str) -> Iterator[str]:
    """The folder at this path, or that of the file there, and each folder above it. Other packages call it, too."""
    if not os.path.exists(path):
        raise OSError("Starting path not found")
    folder = os.path.abspath(os.path.dirname(path) if os.path.isfile(path) else path)
    yield folder
    while os.path.dirname(folder) != folder:
        folder = os.path.dirname(folder)
        yield folder


def _folder_of_caller() -> str:
    """The folder of the file that calls this module; the current one if the caller is no file."""
    frame: FrameType | None = sys._getframe()
    while frame is not None:
        file = frame.f_code.co_filename
        if file != __file__ and os.path.exists(file):
            return os.path.dirname(os.path.abspath(file))
        frame = frame.f_back
    return os.getcwd()


def find_dotenv(filename: str = ".env", raise_error_if_not_found: bool = False, usecwd: bool = False) -> str:
    """The path of the file of this name in the folder of the calling file, or in the nearest folder above that has it.

    The search begins in the current directory with `usecwd`, and where no file calls, as in an interactive session. It
    is the empty text if there is none, or `OSError` is raised where that is asked for.
    """
    is_from_here = usecwd or _is_interactive() or getattr(sys, "frozen", False)
    for folder in _walk_to_root(os.getcwd() if is_from_here else _folder_of_caller()):
        path = os.path.join(folder, filename)
        if is_there(path):
            return path
    if raise_error_if_not_found:
        raise OSError("File not found")
    return ""


def _is_disabled() -> bool:
    return os.environ.get("PYTHON_DOTENV_DISABLED", "").casefold() in ("1", "true", "t", "yes", "y")


def load_dotenv(
    dotenv_path: AnyPath | None = None,
    stream: IO[Any] | None = None,
    verbose: bool = False,
    override: bool = False,
    interpolate: bool = True,
    encoding: str | None = "utf-8",
    *,
    strict: bool = False,
    dialect: Dialect = Dialect.V15,
) -> bool:
    """Loads a file, or a stream, into `os.environ`, and returns whether it declares any name.

    Without both it is the file that `find_dotenv` finds. An existing variable keeps its value, and wins in
    substitutions, unless `override` is set. A missing file declares nothing; with `verbose` it is logged. A line that
    can't be read is skipped with a warning; with `strict`, its `DotenvError` is raised, and nothing is set. Nothing is
    loaded where the variable PYTHON_DOTENV_DISABLED is true.

    >>> load_dotenv("there is no such file.env")
    False
    """
    if _is_disabled():
        logger.debug("python-dotenv: .env loading disabled by PYTHON_DOTENV_DISABLED environment variable")
        return False
    if dotenv_path is None and stream is None:
        dotenv_path = find_dotenv()
    dotenv = DotEnv(
        dotenv_path, stream, verbose, encoding, interpolate, override, strict=strict, dialect=dialect
    )
    return dotenv.set_as_environment_variables()


def dotenv_values(
    dotenv_path: AnyPath | None = None,
    stream: IO[Any] | None = None,
    verbose: bool = False,
    interpolate: bool = True,
    encoding: str | None = "utf-8",
    *,
    strict: bool = False,
    dialect: Dialect = Dialect.V15,
) -> Values:
    """The names of a file, or of a stream, with their last values; a name alone has the value None. Nothing is set.

    In substitutions the names of the file come before those of the process. All else is as in `load_dotenv`.

    >>> import io
    >>> dict(dotenv_values(stream=io.StringIO("A=1\\nB=${A}0\\nC\\n")))
    {'A': '1', 'B': '10', 'C': None}
    """
    if dotenv_path is None and stream is None:
        dotenv_path = find_dotenv()
    dotenv = DotEnv(dotenv_path, stream, verbose, encoding, interpolate, True, strict=strict, dialect=dialect)
    return dotenv.dict()
