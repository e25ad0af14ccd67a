"""What tests of files share."""

import contextlib
import logging
import os
import tempfile
import unittest
from pathlib import Path
from unittest import mock

PYTHON = Path(__file__).resolve().parents[1]
# The package with the module `dotenv`, if this is a clone of the repository.
DROP_IN = PYTHON.parent / "python-dotenv"
SKIPPED = "Python-dotenv could not parse statement starting at line %s"


def amount(short, full):
    """How much of a long test is run: the first, unless `python -m tests.run --full` asks for all of it."""
    return full if os.environ.get("DOTENVY_TESTS") == "full" else short


def paths():
    """`PYTHONPATH` of a program that imports `dotenv`. What the tests have there comes last."""
    others = os.environ.get("PYTHONPATH", "").split(os.pathsep)
    return os.pathsep.join([str(DROP_IN), str(PYTHON), *filter(None, others)])


def plain_environment(**variables):
    """The environment of a program of a test."""
    kept = {name: os.environ[name] for name in ("PATH", "HOME", "LD_LIBRARY_PATH") if name in os.environ}
    return {**kept, "PYTHONPATH": paths(), "PYTHONDONTWRITEBYTECODE": "1", **variables}


class InFolder(unittest.TestCase):
    """A test that has the current directory and `os.environ` to itself."""

    def setUp(self):
        self.folder = Path(self.enterContext(tempfile.TemporaryDirectory())).resolve()
        before = Path.cwd()
        os.chdir(self.folder)
        self.addCleanup(os.chdir, before)
        self.programs_environment = plain_environment()
        self.enterContext(mock.patch.dict(os.environ, {}, clear=True))

    if not hasattr(unittest.TestCase, "enterContext"):  # Python 3.10 and before

        def enterContext(self, context):
            stack = contextlib.ExitStack()
            self.addCleanup(stack.close)
            return stack.enter_context(context)

    def write(self, path, text):
        path = self.folder / path
        path.parent.mkdir(parents=True, exist_ok=True)
        path.write_bytes(text if isinstance(text, bytes) else text.encode())
        return path


class InLog(InFolder):
    """A test that looks at what the calls of python-dotenv log."""

    def setUp(self):
        super().setUp()
        # What isn't asserted is not to be printed.
        handler = logging.NullHandler()
        logging.getLogger("dotenv.main").addHandler(handler)
        self.addCleanup(logging.getLogger("dotenv.main").removeHandler, handler)

    def said(self, call, level="DEBUG"):
        """What a call returns, and what it logs."""
        with self.assertLogs("dotenv.main", level) as logs:
            # There has to be one record for assertLogs.
            logging.getLogger("dotenv.main").critical("end")
            found = call()
        return found, [(record.levelname, record.getMessage()) for record in logs.records if record.msg != "end"]

    def warned(self, *lines):
        return [("WARNING", SKIPPED % line) for line in lines]
