"""Recorded calls of python-dotenv 1.0.1, played over the module `dotenv`: each has the result that was recorded, or the
one that a rule of this repository gives."""

import importlib.metadata
import re
import sys
import unittest
from pathlib import Path

from .in_folder import DROP_IN, PYTHON

REPOSITORY = PYTHON.parents[1]

if DROP_IN.exists():
    sys.path.append(str(DROP_IN / "recorded"))
    import record
    import rules


def wanted(call):
    """The result that a call has over the module `dotenv` of this repository."""
    return call.get("here", call["result"])


def installed():
    """The folder of python-dotenv, if the version that was recorded is installed."""
    try:
        package = importlib.metadata.distribution("python-dotenv")
    except importlib.metadata.PackageNotFoundError:
        return None
    return Path(str(package.locate_file(""))) if package.version == record.VERSION else None


def anchors(page):
    """The anchors of the headings of a page."""
    headings = re.findall(r"^#+ (.*)$", page.read_text(), re.MULTILINE)
    return {re.sub(r"[^\w -]", "", heading.lower()).replace(" ", "-") for heading in headings}


@unittest.skipUnless(DROP_IN.exists(), "there is no package of the name dotenv")
class Recorded(unittest.TestCase):
    def test_the_module_dotenv(self):
        calls = record.calls()
        results = record.played([DROP_IN, PYTHON])
        self.assertEqual(len(results), len(calls))
        pairs = [(call, result) for call, result in zip(calls, results) if result is not None]
        # Without click and IPython some calls can't be played.
        self.assertGreater(len(pairs), 200)
        for call, result in pairs:
            with self.subTest(call["name"]):
                self.assertEqual(result, wanted(call))

    def test_what_differs_is_named(self):
        calls = record.calls()
        self.assertEqual(len({call["name"] for call in calls}), len(calls))
        differing = [call for call in calls if "here" in call or "rule" in call]
        self.assertGreater(len(calls) - len(differing), 200)
        for call in differing:
            with self.subTest(call["name"]):
                self.assertNotEqual(call["here"], call["result"])
                page, anchor = re.match("(.*?)#(.*?): ", getattr(rules, call["rule"])).groups()
                self.assertIn(anchor, anchors(REPOSITORY / page))

    def test_python_dotenv(self):
        folder = installed()
        if folder is None:
            self.skipTest(f"python-dotenv {record.VERSION} isn't installed")
        self.assertEqual(record.differing(folder), [])


if __name__ == "__main__":
    unittest.main()
