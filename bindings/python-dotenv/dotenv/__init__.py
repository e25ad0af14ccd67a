"""The calls of python-dotenv, over the proved library dotenvy. `dotenvy.compat` has all of it."""

from dotenvy.compat import get_cli_string, load_ipython_extension

# python-dotenv has these modules as soon as it is imported.
from . import main, parser, variables  # noqa: F401 # modules of a package are there once they are imported
from .main import dotenv_values, find_dotenv, get_key, load_dotenv, set_key, unset_key

__all__ = [
    "dotenv_values",
    "find_dotenv",
    "get_cli_string",
    "get_key",
    "load_dotenv",
    "load_ipython_extension",
    "set_key",
    "unset_key",
]
