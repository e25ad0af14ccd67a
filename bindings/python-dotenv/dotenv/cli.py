"""The command line."""

from dotenvy.compat.cli import cli, get, run, run_command, unset
from dotenvy.compat.cli import list_values as list
from dotenvy.compat.cli import set_value as set

__all__ = ["cli", "get", "list", "run", "run_command", "set", "unset"]
