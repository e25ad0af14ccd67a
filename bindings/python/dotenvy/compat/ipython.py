"""The line magic `%dotenv` of IPython."""

from __future__ import annotations

import argparse
import shlex
from typing import Any, NoReturn

from .main import find_dotenv, load_dotenv


class _Options(argparse.ArgumentParser):
    def error(self, message: str) -> NoReturn:
        # In a session the program has to go on.
        raise ValueError(f"%dotenv: {message}")


_OPTIONS = _Options("%dotenv", add_help=False)
_OPTIONS.add_argument("-o", "--override", action="store_true")
_OPTIONS.add_argument("-v", "--verbose", action="store_true")
_OPTIONS.add_argument("dotenv_path", nargs="?", default=".env")


def dotenv(line: str) -> None:
    """Loads the file of this name, or `.env`, of the current directory or of the nearest one above that has it.

    %dotenv [-o] [-v] [dotenv_path]

    -o, --override: the file wins over variables that exist. -v, --verbose: a missing file is logged.
    """
    asked = _OPTIONS.parse_args(shlex.split(line))
    try:
        path = find_dotenv(asked.dotenv_path, True, True)
    except OSError:
        print("cannot find .env file")
        return
    load_dotenv(path, verbose=asked.verbose, override=asked.override)


def load_ipython_extension(ipython: Any) -> None:
    """Registers the magic."""
    ipython.register_magic_function(dotenv, "line", "dotenv")
