"""The command line `dotenv`. It needs the package click."""

from __future__ import annotations

import contextlib
import json
import os
import shlex
import signal
import sys
from collections.abc import Iterator

try:
    import click
except ImportError:
    sys.stderr.write("dotenv: the command line needs the package click: pip install click\n")
    sys.exit(1)

from .. import EditError
from .main import Values, dotenv_values, is_there, set_key, unset_key
from .version import __version__


def _default_file() -> str:
    try:
        return os.path.join(os.getcwd(), ".env")
    except FileNotFoundError:  # the current directory was removed
        return ".env"


def _values_of(file: str) -> Values:
    """The values of a file. If it can't be opened, the program ends with the status 2."""
    try:
        with open(file, "rb") as stream:
            return dotenv_values(stream=stream)
    except OSError as error:
        print(f"Error opening env file: {error}", file=sys.stderr)
        sys.exit(2)


@contextlib.contextmanager
def _edit() -> Iterator[None]:
    """An edit. If it is refused, or fails, the program says why, and ends with the status 1."""
    try:
        yield
    except (EditError, OSError) as error:
        print(f"dotenv: {error}", file=sys.stderr)
        sys.exit(1)


@click.group()
@click.option("-f", "--file", default=_default_file, type=click.Path(file_okay=True),
              help="The file; that of the current directory with the name .env, unless it is given.")
@click.option("-q", "--quote", default="always", type=click.Choice(["always", "never", "auto"]),
              help="When set writes quotes; always, unless it is given.")
@click.option("-e", "--export", default=False, type=click.BOOL, help="Whether set writes export before the name.")
@click.version_option(version=__version__)
@click.pass_context
def cli(ctx: click.Context, file: str, quote: str, export: bool) -> None:
    """Lists, gets, sets and unsets the variables of a .env file, and runs commands with them."""
    ctx.obj = {"FILE": file, "QUOTE": quote, "EXPORT": export}


@cli.command(name="list")
@click.option("--format", "form", default="simple", type=click.Choice(["simple", "json", "shell", "export"]),
              help="How they are printed: simple is NAME=VALUE without quotes.")
@click.pass_context
def list_values(ctx: click.Context, form: str) -> None:
    """Prints the variables of the file, in the order of their names."""
    values = _values_of(ctx.obj["FILE"])
    if form == "json":
        click.echo(json.dumps(values, indent=2, sort_keys=True))
        return
    prefix = "export " if form == "export" else ""
    for name, value in sorted(values.items()):
        if value is not None:
            click.echo(f"{prefix}{name}={shlex.quote(value) if form in ('shell', 'export') else value}")


@cli.command(name="set")
@click.argument("key", required=True)
@click.argument("value", required=True)
@click.pass_context
def set_value(ctx: click.Context, key: str, value: str) -> None:
    """Sets a variable of the file."""
    with _edit():
        set_key(ctx.obj["FILE"], key, value, ctx.obj["QUOTE"], ctx.obj["EXPORT"])
    click.echo(f"{key}={value}")


@cli.command()
@click.argument("key", required=True)
@click.pass_context
def get(ctx: click.Context, key: str) -> None:
    """Prints the value of a variable of the file."""
    value = _values_of(ctx.obj["FILE"]).get(key)
    if not value:
        sys.exit(1)
    click.echo(value)


@cli.command()
@click.argument("key", required=True)
@click.pass_context
def unset(ctx: click.Context, key: str) -> None:
    """Removes a variable from the file."""
    with _edit():
        is_removed, _ = unset_key(ctx.obj["FILE"], key, ctx.obj["QUOTE"])
    if not is_removed:
        sys.exit(1)
    click.echo(f"Successfully removed {key}")


@cli.command(context_settings={"ignore_unknown_options": True, "allow_interspersed_args": False})
@click.option("--override/--no-override", default=True, help="Whether the file wins over variables that exist.")
@click.argument("commandline", nargs=-1, type=click.UNPROCESSED)
@click.pass_context
def run(ctx: click.Context, override: bool, commandline: tuple[str, ...]) -> None:
    """Runs a command with the variables of the file."""
    file = ctx.obj["FILE"]
    if not is_there(file):
        raise click.BadParameter(f"Invalid value for '-f' \"{file}\" does not exist.", ctx=ctx)
    if not commandline:
        click.echo("No command given.")
        sys.exit(1)
    variables = {
        name: value for name, value in dotenv_values(file).items()
        if value is not None and (override or name not in os.environ)
    }
    run_command([*commandline], variables)


def run_command(command: list[str], env: dict[str, str]) -> None:
    """Has a command take the place of this process, with these variables over those of the process.

    One that can't be run ends the process with the status 127 or 126.
    """
    sys.stdout.flush()
    # Python ignores these signals, and what a process ignores its next program would ignore, too.
    for number in (signal.SIGPIPE, signal.SIGXFSZ):
        signal.signal(number, signal.SIG_DFL)
    try:
        os.execvpe(command[0], command, {**os.environ, **env})
    except OSError as error:
        print(f"dotenv: {command[0]}: {error.strerror}", file=sys.stderr)
        sys.exit(127 if isinstance(error, FileNotFoundError) else 126)
