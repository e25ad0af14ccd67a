"""The types of both packages, by mypy, where it is there."""

import importlib.util
import subprocess
import sys
import unittest

from .in_folder import DROP_IN, PYTHON


def has(*modules):
    return all(importlib.util.find_spec(module) for module in modules)


class Types(unittest.TestCase):
    @unittest.skipUnless(has("mypy", "click"), "mypy or click isn't there")
    def test_types(self):
        parts = [str(PYTHON / "dotenvy"), *([str(DROP_IN / "dotenv")] if DROP_IN.exists() else [])]
        words = [sys.executable, "-B", "-m", "mypy", "--strict", "--cache-dir=/dev/null", *parts]
        said = subprocess.run(words, cwd=str(PYTHON), stdout=subprocess.PIPE, stderr=subprocess.STDOUT)
        self.assertEqual(said.returncode, 0, said.stdout.decode())


if __name__ == "__main__":
    unittest.main()
