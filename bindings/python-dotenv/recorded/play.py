"""Plays recorded calls over the module `dotenv` that an import finds, and prints the result of each as a line of JSON.

usage: play.py CALLS

Each line of CALLS is a call as JSON: `name`; `files` of its folder, by their paths, with the text of each, or `["link",
PATH]`; the `variables` of its process; `call`, an expression in the names below; and, if it `needs` another package,
the name of that.

A result has what is there of these: the `value`; or the `error`, its class and its text; the `log`; what changed of
`variables`, where None stands for a deleted one; and what changed of `files`. `%` is the folder of the call. A call
that lacks what it needs has the result None.
"""

import contextlib
import importlib.util
import inspect
import io
import json
import logging
import os
import subprocess
import sys
import tempfile
from pathlib import Path
from unittest import mock

import dotenv
from dotenv import dotenv_values, find_dotenv, get_cli_string, get_key, load_dotenv, set_key, unset_key
from dotenv.main import DotEnv
from dotenv.parser import parse_stream
from dotenv.variables import parse_variables

PROCESS = dict(os.environ)
# The file from which the calls come. Its folder is that of the call.
CALLER = "caller.py"


def values(text, **how):
    """The values of a text."""
    return dotenv_values(stream=io.StringIO(text), **how)


def bindings(text):
    """The bindings of a text."""
    return list(parse_stream(io.StringIO(text)))


def atoms(value, **environment):
    """The kind of each part of a value, and what it is under an environment."""
    return [[type(atom).__name__, atom.resolve(environment)] for atom in parse_variables(value)]


def arguments(call):
    """The arguments of a call that may be given by place, with their defaults."""
    found = inspect.signature(call).parameters.values()
    return [[it.name, None if it.default is it.empty else it.default] for it in found if it.kind < it.KEYWORD_ONLY]


def last_line(text):
    """The last line of what a program says: before it, click tells the usage."""
    return text.splitlines()[-1] if text else ""


def command(*words):
    """The status of a command line in this process, its output, and the last line of what it says."""
    from dotenv.cli import cli

    status = 0
    with contextlib.redirect_stdout(io.StringIO()) as out, contextlib.redirect_stderr(io.StringIO()) as said:
        try:
            cli(args=words, prog_name="dotenv")
        except SystemExit as end:
            status = end.code or 0
    return status, out.getvalue(), last_line(said.getvalue())


def program(*words):
    """The same of a separate process."""
    ended = subprocess.run(
        [sys.executable, "-B", "-m", "dotenv", *words], env={**PROCESS, **os.environ}, stdin=subprocess.DEVNULL,
        stdout=subprocess.PIPE, stderr=subprocess.PIPE,
    )
    return ended.returncode, ended.stdout.decode(), last_line(ended.stderr.decode())


def session(*lines):
    """What the magic prints for each of these lines of a session of IPython."""
    from IPython.core.interactiveshell import InteractiveShell
    from traitlets.config import Config

    with tempfile.TemporaryDirectory() as folder, mock.patch.dict(os.environ, IPYTHONDIR=folder):
        shell = InteractiveShell(config=Config(HistoryManager={"enabled": False}))
    shell.run_line_magic("load_ext", "dotenv")
    with contextlib.redirect_stdout(io.StringIO()) as out:
        for line in lines:
            shell.run_line_magic("dotenv", line)
    return out.getvalue()


NAMES = {
    "dotenv": dotenv, "dotenv_values": dotenv_values, "find_dotenv": find_dotenv, "get_cli_string": get_cli_string,
    "get_key": get_key, "load_dotenv": load_dotenv, "set_key": set_key, "unset_key": unset_key, "DotEnv": DotEnv,
    "values": values, "bindings": bindings, "atoms": atoms, "arguments": arguments, "command": command,
    "program": program, "session": session, "StringIO": io.StringIO, "Path": Path, "os": os,
}


def plain(value, folder):
    """A value as JSON has it: a mapping as a list of pairs, since their order counts."""
    if value is None or isinstance(value, (bool, int)):
        return value
    if isinstance(value, str):
        return value.replace(folder, "%")
    if isinstance(value, dict):
        value = value.items()
    return [plain(part, folder) for part in value]


def written(folder, files):
    """Writes the files of a call into its folder."""
    for name, content in files.items():
        path = folder / name
        path.parent.mkdir(parents=True, exist_ok=True)
        if isinstance(content, list):
            path.symlink_to(content[1])
        else:
            path.write_bytes(content.encode(errors="surrogateescape"))


def found(folder):
    """The files of a folder, as `written` takes them."""
    files = {}
    for path in sorted(folder.rglob("*")):
        name = str(path.relative_to(folder))
        if path.is_symlink():
            files[name] = ["link", os.readlink(str(path))]
        elif path.is_file():
            files[name] = path.read_bytes().decode(errors="surrogateescape")
    return files


def changes(before, after):
    """What is new or other in a mapping, and None for what is gone."""
    gone = {name: None for name in before if name not in after}
    return {**gone, **{name: value for name, value in after.items() if before.get(name) != value}}


class Log(logging.Handler):
    """Keeps what is logged."""

    def __init__(self):
        super().__init__()
        self.lines = []

    def emit(self, record):
        self.lines.append([record.levelname, record.getMessage()])


def play(call, folder):
    """The result of a call in an empty folder."""
    written(folder, {**call.get("files", {}), CALLER: ""})
    before, log = found(folder), Log()
    logger = logging.getLogger("dotenv")
    logger.handlers, logger.level, logger.propagate = [log], logging.DEBUG, False
    os.chdir(folder)
    with mock.patch.dict(os.environ, call.get("variables", {}), clear=True):
        variables = dict(os.environ)
        try:
            code = compile(call["call"], str(folder / CALLER), "eval")
            result = {"value": plain(eval(code, dict(NAMES)), str(folder))}
        except Exception as error:
            result = {"error": [type(error).__name__, str(error).replace(str(folder), "%")]}
        changed = {"variables": changes(variables, dict(os.environ)), "files": changes(before, found(folder))}
    os.chdir("/")
    result["log"] = plain(log.lines, str(folder))
    return {**result, **changed}


def main():
    for line in Path(sys.argv[1]).read_text().splitlines():
        call, result = json.loads(line), None
        if importlib.util.find_spec(call.get("needs", "os")):
            with tempfile.TemporaryDirectory() as folder:
                result = play(call, Path(folder).resolve())
            result = {key: part for key, part in result.items() if part or key == "value"}
        print(json.dumps(result), flush=True)


if __name__ == "__main__":
    main()
