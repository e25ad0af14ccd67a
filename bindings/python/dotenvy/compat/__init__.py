"""The calls of python-dotenv 1.0.1 over the proved library, with their arguments, results and messages.

    from dotenvy.compat import load_dotenv

The package dotenvy-dotenv gives them under the name `dotenv`. What a file means is what docs/GRAMMAR.md says.
"""

from __future__ import annotations

from typing import Any

from .main import DotEnv, dotenv_values, find_dotenv, get_key, load_dotenv, set_key, unset_key

__all__ = [
    "DotEnv",
    "dotenv_values",
    "find_dotenv",
    "get_cli_string",
    "get_key",
    "load_dotenv",
    "load_ipython_extension",
    "set_key",
    "unset_key",
]


def load_ipython_extension(ipython: Any) -> None:
    """Gives IPython the line magic `%dotenv`."""
    from .ipython import load_ipython_extension as load

    load(ipython)


def get_cli_string(
    path: str | None = None,
    action: str | None = None,
    key: str | None = None,
    value: str | None = None,
    quote: str | None = None,
) -> str:
    """The command line of `dotenv` with these arguments. Only a value with a space gets quotes."""
    words = ["dotenv"]
    if quote:
        words.append(f"-q {quote}")
    if path:
        words.append(f"-f {path}")
    if action:
        words.append(action)
    if action and key:
        words.append(key)
    if action and key and value:
        words.append(f'"{value}"' if " " in value else value)
    return " ".join(words)
