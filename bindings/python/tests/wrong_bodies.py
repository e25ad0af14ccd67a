"""Bodies that are wrong, each as a change of one place of the package: a test has to see each of them.

usage: python -m tests.wrong_bodies [NAME ...]

Each is tried in a copy of the package. The last line is `N passed, M failed`: a body passes where a test fails.
"""

import os
import shutil
import subprocess
import sys
import tempfile
from concurrent.futures import ThreadPoolExecutor
from pathlib import Path

from .in_folder import PYTHON

INIT, LIBRARY, ERRORS, ENVIRONMENT = "__init__", "_library", "_errors", "_environment"
EDIT, REPLACE = "_edit", "_replace"
MAIN, READING, EDITING, TEXT, PARSER, CLI, MAGIC = (
    f"compat/{name}" for name in ("main", "_reading", "_editing", "_text", "parser", "cli", "ipython")
)

# The name, what is wrong, the module, what stands there, and what is in its place.
BODIES = [
    ("search-in-pwd", INIT, "    here = Path.cwd()\n", '    here = Path(os.environ.get("PWD", os.getcwd()))\n'),
    ("search-finds-devices", INIT, "stat.S_ISREG(mode) or stat.S_ISFIFO(mode)", "not stat.S_ISDIR(mode)"),
    ("search-finds-no-pipe", INIT, "stat.S_ISREG(mode) or stat.S_ISFIFO(mode)", "stat.S_ISREG(mode)"),
    (
        "search-for-one-name", INIT,
        "        path = str(directory / filename)\n",
        '        path = str(directory / (".env" if (directory / ".env").exists() else filename))\n',
    ),
    (
        "environment-is-encoded-strictly", ENVIRONMENT,
        '        return text.encode(errors="surrogateescape")\n',
        "        return text.encode()\n",
    ),
    (
        "what-is-no-text-raises", ENVIRONMENT,
        '        return text.encode(errors="surrogatepass")\n',
        "        raise\n",
    ),
    (
        "environment-is-of-the-locale", ENVIRONMENT,
        "{_bytes_of(name): _bytes_of(value) for",
        "{os.fsencode(name): os.fsencode(value) for",
    ),
    (
        "the-process-is-a-mapping", ENVIRONMENT,
        "    if environment is None or environment is os.environ:\n",
        "    if environment is None:\n",
    ),
    (
        "names-are-of-the-locale", ENVIRONMENT,
        '[name.decode(errors="surrogateescape") for name in names]',
        "[os.fsdecode(name) for name in names]",
    ),
    ("errors-in-latin-1", ERRORS, "    said = record.text.decode()\n", '    said = record.text.decode("latin-1")\n'),
    (
        "items-in-latin-1", INIT,
        "record.key.decode(), record.text.decode(), record.first",
        'record.key.decode(), record.text.decode("latin-1"), record.first',
    ),
    (
        "load-in-the-first-dialect", INIT,
        "    options = dialect.value | (_library.OVERRIDE if override else 0)\n",
        "    options = _library.OVERRIDE if override else 0\n",
    ),
    (
        "no-override-of-what-is-found", INIT,
        "        path = find_dotenv()\n        if not path:\n            return False\n",
        "        path = find_dotenv()\n        override = False\n        if not path:\n            return False\n",
    ),
    ("load-of-no-names-is-false", INIT, "name)\n    return True\n", "name)\n    return bool(file)\n"),
    (
        "lines-with-the-mark", INIT,
        "records = _library.items(file, block, dialect.value | _library.DROP_MARK)",
        "records = _library.items(file, block, dialect.value)",
    ),
    (
        "lines-in-the-first-dialect", INIT,
        "records = _library.items(file, block, dialect.value | _library.DROP_MARK)",
        "records = _library.items(file, block, _library.DROP_MARK)",
    ),
    (
        "lines-of-the-first-nul-key", INIT,
        '            is_it = record.key == loaded.text and b"\\0" in record.text\n',
        "            is_it = record.key == loaded.text\n",
    ),
    (
        "values-pass-over-errors", LIBRARY,
        "        if status != OK:\n            return None\n",
        "        if status != OK:\n            continue\n",
    ),
    (
        "values-in-latin-1", LIBRARY,
        "written[text_at:text_at + text_len].decode()",
        'written[text_at:text_at + text_len].decode("latin-1")',
    ),
    (
        "first-value-of-a-name", LIBRARY,
        "        last[written[key_at:text_at].decode()] = written[text_at:text_at + text_len].decode()\n",
        "        last.setdefault(written[key_at:text_at].decode(), written[text_at:text_at + text_len].decode())\n",
    ),
    (
        "error-of-values-is-the-last", INIT,
        "for it in _library.items(*asked) if",
        "for it in reversed(_library.items(*asked)) if",
    ),
    (
        "items-in-the-first-dialect", INIT,
        "environment, dialect)\n    return _items",
        "environment, Dialect.V15)\n    return _items",
    ),
    (
        "items-under-the-process", INIT,
        "(path_or_bytes, environment, dialect)\n    return _items",
        "(path_or_bytes, None, dialect)\n    return _items",
    ),
    (
        "variables-are-set-as-texts", ENVIRONMENT,
        "            os.environb[name] = value\n",
        "            os.environ[name.decode()] = value.decode()\n",
    ),
    (
        "override-deletes-what-is-no-text", ENVIRONMENT,
        "    for name, value in loaded.items():\n",
        "    for name in [n for n in list(os.environb) if override and not is_text(os.environb[n])]:\n"
        "        del os.environb[name]\n    for name, value in loaded.items():\n",
    ),
    (
        "errors-of-items-have-no-file", INIT,
        "            yield error_of(record, name)\n",
        "            yield error_of(record, None)\n",
    ),
    (
        "a-load-of-a-missing-file-is-false", INIT,
        "    file, name = _read(path)\n    seen",
        "    if isinstance(path, str) and not os.path.exists(path):\n        return False\n"
        "    file, name = _read(path)\n    seen",
    ),
    (
        "a-search-for-env-does-not-raise", INIT,
        "    if raise_error_if_not_found:\n",
        '    if raise_error_if_not_found and filename != ".env":\n',
    ),
    (
        "the-last-line-is-the-first", ERRORS,
        "    lines = record.first_line, record.last_line\n",
        "    lines = record.first_line, record.first_line\n",
    ),
    ("search-ends-below-the-root", INIT, "(here, *here.parents):", "(here, *here.parents[:-1]):"),
    ("search-in-three-folders", INIT, "(here, *here.parents):", "(here, *here.parents)[:3]:"),
    ("load-of-an-empty-text-searches", INIT, "    if path is None:\n", "    if not path:\n"),
    ("values-of-no-bytes-search", INIT, "    if path_or_bytes is None:\n", "    if not path_or_bytes:\n"),
    (
        "no-memory-is-no-items", LIBRARY,
        "        _refuse(_library.dotenvy_items(*given, ctypes.byref(counts), found, places, out, len(out)))\n",
        "        status = _library.dotenvy_items(*given, ctypes.byref(counts), found, places, out, len(out))\n"
        "        if status == NO_MEMORY:\n            return True\n        _refuse(status)\n",
    ),
    (
        "values-end-at-the-second-sign", LIBRARY,
        '    parts = (entry.partition(b"=") for',
        '    parts = (entry.partition(b"=")[:2] + (entry.split(b"=")[1],) for',
    ),
    (
        "keys-end-at-a-nul", LIBRARY,
        "    return bool(_library.dotenvy_is_key(text, len(text)))\n",
        '    text = text.split(b"\\0")[0]\n    return bool(_library.dotenvy_is_key(text, len(text)))\n',
    ),
    ("not-utf8-says-another-text", ERRORS, '"stream did not contain valid UTF-8"', '"the line is not UTF-8"'),
    (
        "the-file-is-made-absolute", INIT,
        "    path = os.fsdecode(path_or_bytes)\n",
        "    path = os.path.abspath(os.fsdecode(path_or_bytes))\n",
    ),
    (
        "empty-variables-are-set", ENVIRONMENT,
        "(override or not is_text(os.environb.get(name)))",
        "(override or not os.environb.get(name))",
    ),
    (
        "what-is-no-text-is-kept", ENVIRONMENT,
        "(override or not is_text(os.environb.get(name)))",
        "(override or name not in os.environb)",
    ),
    (
        "a-load-writes-what-it-saw", ENVIRONMENT,
        "        if seen.get(name) != value and (override",
        "        if (override",
    ),
    (
        "a-load-asks-before-only", ENVIRONMENT,
        "(override or not is_text(os.environb.get(name)))",
        "(override or name not in seen)",
    ),
    ("names-end-at-the-last-underscore", ENVIRONMENT, 'bare.partition(b"_")[0]', 'bare.rpartition(b"_")[0]'),
    (
        "letters-of-other-scripts-end-names", ENVIRONMENT,
        "        if other or (brace and braced is None):\n",
        "        if brace and braced is None:\n",
    ),
    (
        "names-over-255-bytes-are-lost", ENVIRONMENT,
        "        if other or (brace and braced is None):\n            return None\n        if brace:\n",
        "        if other:\n            return None\n        if brace and braced is not None:\n",
    ),
    (
        "a-nul-is-seen-without-the-process", ENVIRONMENT,
        'of_process(None) if b"\\0" in file else seen_by(file)',
        "seen_by(file)",
    ),
    (
        "items-are-read-late", INIT,
        "    records, name = _records(path_or_bytes, environment, dialect)\n    return _items(records, name)\n",
        "    def late():\n        yield from _items(*_records(path_or_bytes, environment, dialect))\n"
        "    return late()\n",
    ),
    (
        "a-path-of-bytes-is-content", INIT,
        "    path = os.fsdecode(path_or_bytes)\n",
        "    path = os.fspath(path_or_bytes)\n    if isinstance(path, bytes):\n        return path, None\n",
    ),
    (
        "errors-cannot-be-copied", ERRORS,
        "message: str, file: str | None = None, line",
        "message: str, file: str | None, line",
    ),
    (
        "room-for-an-item-a-line-feed", LIBRARY,
        'min(file.count(b"\\n"), file.count(b"=")) + 16',
        'file.count(b"\\n") + 1',
    ),
    (
        "values-under-the-process", MAIN,
        "            records = _reading.records_over_process(file, self.dialect)\n",
        "            records = _reading.records_under_process(file, self.dialect)\n",
    ),
    (
        "loads-over-the-process", MAIN,
        "        elif self.override:\n            records",
        "        elif True:\n            records",
    ),
    ("lines-count-the-process", READING, '    shift = before.count(b"\\n")\n', "    shift = len(lines)\n"),
    (
        "values-of-the-process-without-escapes", READING,
        "lines.append(_library.line_of(name, value))",
        'lines.append(b"%b=%b\\n" % (name, value))',
    ),
    ("bytes-count-the-process", READING, "file_at=record.file_at - len(before),", "file_at=record.file_at,"),
    (
        "a-name-alone-has-no-value", READING,
        "Statement(alone.name, None, None, *lines)",
        'Statement(alone.name, "", None, *lines)',
    ),
    (
        "a-name-after-a-fault-is-alone", READING,
        "    return Alone(found[1], len(text[:found.end(1)].encode())) if is_alone else None\n",
        "    return Alone(found[1], len(text[:found.end(1)].encode()))\n",
    ),
    ("a-value-is-a-name-alone", READING, " or not file.startswith(record.text, start):\n", ":\n"),
    (
        "a-name-alone-after-the-mark-is-lost", EDITING,
        "_reading.name_alone(record, file, start)",
        "_reading.name_alone(record, file, record.file_at)",
    ),
    ("strict-warns", MAIN, "                    raise statement.error\n", "                    _warn(statements)\n"),
    (
        "warnings-tell-the-last-line", MAIN,
        'starting at line %s", statement.first_line)',
        'starting at line %s", statement.last_line)',
    ),
    ("interpolate-is-unheard", MAIN, "        if not interpolate:\n", "        if False:\n"),
    (
        "as-written-in-the-first-dialect", READING,
        "dialect.value | _library.AS_WRITTEN",
        "_library.AS_WRITTEN",
    ),
    (
        "a-missing-file-raises", MAIN,
        "if self.dotenv_path and is_there(self.dotenv_path) else",
        "if self.dotenv_path else",
    ),
    (
        "a-stream-comes-first", MAIN,
        "        if path is not None:\n",
        "        if path is not None and self.stream is None:\n",
    ),
    (
        "an-existing-empty-variable-is-set", MAIN,
        "(key in os.environ and not self.override)",
        "(os.environ.get(key) and not self.override)",
    ),
    (
        "a-load-tells-whether-it-set", MAIN,
        "        return bool(values)\n",
        "        return any(value is not None for value in values.values())\n",
    ),
    (
        "a-place-that-cannot-be-looked-at-raises", MAIN,
        "    except OSError:\n        return False\n",
        "    except ValueError:\n        return False\n",
    ),
    (
        "verbose-is-unheard", MAIN,
        "        if self.verbose:\n            logger.info(",
        "        if False:\n            logger.info(",
    ),
    ("disabled-is-unheard", MAIN, "    if _is_disabled():\n", "    if False:\n"),
    ("the-search-begins-here", MAIN, "is_from_here = usecwd or", "is_from_here = True or"),
    ("usecwd-is-unheard", MAIN, "is_from_here = usecwd or", "is_from_here ="),
    ("a-session-is-a-file", MAIN, 'main is not None and not hasattr(main, "__file__")', "False"),
    ("no-main-module-is-a-session", MAIN, "    return main is not None and not hasattr", "    return not hasattr"),
    ("a-walk-begins-at-a-file", MAIN, "os.path.dirname(path) if os.path.isfile(path) else path", "path"),
    (
        "an-error-is-of-a-missing-file", MAIN,
        "_reading.statements_of(records, file, path)\n        if self",
        "_reading.statements_of(records, file, self.dotenv_path and os.fsdecode(self.dotenv_path))\n        if self",
    ),
    ("auto-never-quotes", MAIN, 'or (quote_mode == "auto" and not value_to_set.isalnum())', ""),
    ("always-is-auto", EDITING, "    if form.is_quoted:\n", "    if False:\n"),
    ("export-is-written-twice", EDITING, "    if _EXPORTED.match(line):\n", "    if False:\n"),
    (
        "export-comes-before-the-indent", EDITING,
        "start + len(line[:len(line) - len(line.lstrip())].encode())",
        "start",
    ),
    ("the-mark-is-no-part-of-the-first-line", EDITING, "max(record.file_at, mark)", "record.file_at"),
    (
        "one-name-alone-is-assigned", EDITING,
        "            last = place\n",
        "            last = place\n            break\n",
    ),
    (
        "a-name-alone-is-not-set", EDITING,
        "    assigned = _assigned(file, key, dialect)\n",
        "    assigned = file\n",
    ),
    (
        "a-name-alone-is-not-unset", EDITING,
        "_library.unset(_assigned(file, key, dialect), key",
        "_library.unset(file, key",
    ),
    (
        "a-link-is-followed", EDITING,
        "os.path.realpath(file) if target.follow_symlinks else file",
        "os.path.realpath(file)",
    ),
    (
        "follow-symlinks-is-unheard", EDITING,
        "os.path.realpath(file) if target.follow_symlinks else file",
        "file",
    ),
    (
        "an-edit-loses-the-encoding", EDITING,
        "    new = _text.from_utf8(edited.file, target.encoding)\n",
        "    new = edited.file\n",
    ),
    ("an-edit-changes-other-bytes", TEXT, "    if text.encode(name) != content:\n", "    if False:\n"),
    ("a-new-file-has-a-mark-already", TEXT, "_is_utf8(name) or not content:", "_is_utf8(name):"),
    (
        "what-is-no-utf8-is-read", TEXT,
        "    text = content.decode(name)\n    return content if _is_utf8(name)",
        '    text = content.decode(name, "replace")\n    return content if _is_utf8(name)',
    ),
    (
        "empty-lines-are-bindings", PARSER,
        "        if line[0].strip():\n",
        "        if True:\n",
    ),
    ("empty-lines-at-the-end-are-lost", PARSER, "    if start < len(file):\n", "    if False:\n"),
    (
        "texts-that-are-no-utf8-change", PARSER,
        'errors = "surrogatepass" if isinstance(content, str) else "surrogateescape"',
        'errors = "surrogateescape"',
    ),
    (
        "a-refused-edit-is-a-traceback", CLI,
        "    except (EditError, OSError) as error:\n",
        "    except OSError as error:\n",
    ),
    (
        "a-failed-edit-is-a-traceback", CLI,
        "    except (EditError, OSError) as error:\n",
        "    except EditError as error:\n",
    ),
    ("a-pipe-is-no-file-to-run-with", CLI, "    if not is_there(file):\n", "    if not os.path.isfile(file):\n"),
    ("list-prints-in-the-order-of-the-file", CLI, "in sorted(values.items()):", "in values.items():"),
    ("no-override-is-unheard", CLI, "(override or name not in os.environ)", "True"),
    (
        "a-command-has-no-status", CLI,
        "        os.execvpe(command[0], command, {**os.environ, **env})\n",
        "        import subprocess\n        subprocess.run(command, env={**os.environ, **env})\n",
    ),
    ("a-command-ignores-signals", CLI, "(number, signal.SIG_DFL)", "(number, signal.SIG_IGN)"),
    ("a-command-has-no-other-variables", CLI, "command, {**os.environ, **env})", "command, env)"),
    (
        "a-refused-edit-is-made", EDIT,
        "        raise EditError(Refusal(edited.status), file, key, edited.line)\n",
        "        return False\n",
    ),
    (
        "a-folder-stays-open", REPLACE,
        'open(path, "rb", opener=lambda name, flags: os.open(name, flags | others))',
        'open(os.open(path, os.O_RDONLY | others), "rb")',
    ),
    (
        "the-file-beside-is-elsewhere", REPLACE,
        "os.path.realpath(os.path.dirname(path))",
        "os.path.dirname(os.path.abspath(path))",
    ),
    (
        "the-file-beside-is-told", REPLACE,
        "        raise OSError(error.errno, error.strerror, path) from None\n",
        "        raise\n",
    ),
    ("a-call-is-made-once", LIBRARY, "    for _ in range(2):\n", "    for _ in range(1):\n"),
    (
        "a-call-that-never-fits-is-empty", LIBRARY,
        '    raise RuntimeError("libdotenvy.so.1 needs more than it told")\n',
        "    return buffers\n",
    ),
    (
        "room-grows-by-the-texts-alone", LIBRARY,
        "lambda: [counts.items * _ITEM.size, counts.text_len]",
        "lambda: [sizes[0], counts.text_len]",
    ),
    ("the-magic-overrides", MAGIC, "override=asked.override)", "override=True)"),
    (
        "the-magic-does-not-search", MAGIC,
        "        path = find_dotenv(asked.dotenv_path, True, True)\n",
        "        path = asked.dotenv_path\n",
    ),
]

# A body of `compat` is in few tests, and the others of the package come in this order.
OF_COMPAT = ["test_compat", "test_command_line", "test_usual_calls", "test_recorded"]
OF_ALL = ["test_dotenvy", "test_environment", "test_edit", "test_rows", *OF_COMPAT]
# A body that loops is seen, too.
MOST_SECONDS = 600


def copied(folder):
    """A copy of the package beside what its tests read of the repository."""
    bindings = folder / "bindings"
    bindings.mkdir()
    ignored = shutil.ignore_patterns("__pycache__")
    shutil.copytree(str(PYTHON), str(bindings / "python"), ignore=ignored)
    repository = PYTHON.parents[1]
    for path in ("bindings/python-dotenv", "bindings/rust", "bindings/README.md", "crates", "docs", "tests"):
        if (repository / path).exists():
            (folder / path).symlink_to(repository / path)
    return bindings / "python"


def failing(package, names):
    """The first of these tests that fails over a package, or None."""
    for name in names:
        words = [sys.executable, "-B", "-m", "unittest", "-q", "-f", f"tests.{name}"]
        quiet = {"stdout": subprocess.DEVNULL, "stderr": subprocess.DEVNULL}
        try:
            if subprocess.run(words, cwd=str(package), timeout=MOST_SECONDS, **quiet).returncode:
                return name
        except subprocess.TimeoutExpired:
            return f"{name}, which doesn't end,"
    return None


def seen_by(body):
    """The test that sees a body in a copy of the package, or None."""
    _, module, old, new = body
    with tempfile.TemporaryDirectory() as folder:
        package = copied(Path(folder))
        path = package / "dotenvy" / f"{module}.py"
        path.write_text(path.read_text().replace(old, new))
        return failing(package, OF_COMPAT if module.startswith("compat/") else OF_ALL)


def misfits():
    """The bodies that aren't a change of one place of the package."""
    sources = {module: (PYTHON / "dotenvy" / f"{module}.py").read_text() for _, module, _, _ in BODIES}
    return [body for body, module, old, _ in BODIES if sources[module].count(old) != 1]


def refusal(wanted):
    """Why bodies of these names can't be tried, or None."""
    if misfits():
        return f"no place of the package is changed by {', '.join(misfits())}"
    unknown = wanted - {body[0] for body in BODIES}
    if unknown:
        return f"there is no body {', '.join(unknown)}"
    # What fails without a wrong body would see all of them.
    with tempfile.TemporaryDirectory() as folder:
        name = failing(copied(Path(folder)), OF_ALL)
    return name and f"{name} fails over the package as it is"


def main():
    wanted = set(sys.argv[1:])
    os.environ.pop("DOTENVY_TESTS", None)
    reason = refusal(wanted)
    if reason:
        print(f"FAILED: {reason}\n0 passed, 1 failed")
        return 1
    bodies = [body for body in BODIES if not wanted or body[0] in wanted]
    passed = 0
    with ThreadPoolExecutor(len(os.sched_getaffinity(0))) as pool:
        for body, name in zip(bodies, pool.map(seen_by, bodies)):
            passed += name is not None
            print(f"{body[0]}: seen by {name}" if name else f"FAILED: no test sees {body[0]}", flush=True)
    print(f"{passed} passed, {len(bodies) - passed} failed")
    return passed != len(bodies)


if __name__ == "__main__":
    sys.exit(main())
