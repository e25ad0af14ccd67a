"""`DotEnv`, the calls that use it, the logger, and what other packages take from this module."""

from dotenvy.compat.main import (
    DotEnv,
    _walk_to_root,
    dotenv_values,
    find_dotenv,
    get_key,
    load_dotenv,
    logger,
    set_key,
    unset_key,
)

__all__ = [
    "DotEnv",
    "_walk_to_root",
    "dotenv_values",
    "find_dotenv",
    "get_key",
    "load_dotenv",
    "logger",
    "set_key",
    "unset_key",
]
