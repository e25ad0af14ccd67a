"""Runs all tests of the package. The last line is `N passed, M failed`.

usage: python -m tests.run [--full]

With --full the long tests, of random values and of threads, are run in their whole length.
"""

import os
import sys
import unittest
from pathlib import Path

HERE = Path(__file__).resolve().parent


class Result(unittest.TextTestResult):
    """A result that counts the tests that passed, without those of which a part was left out."""

    passed = 0

    def addSuccess(self, test: unittest.TestCase) -> None:
        super().addSuccess(test)
        self.passed += 1


def main() -> int:
    if "--full" in sys.argv[1:]:
        os.environ["DOTENVY_TESTS"] = "full"
    tests = unittest.defaultTestLoader.discover(str(HERE), top_level_dir=str(HERE.parent))
    result = unittest.TextTestRunner(stream=sys.stderr, verbosity=1, resultclass=Result).run(tests)
    failed = len(result.failures) + len(result.errors) + len(result.unexpectedSuccesses)
    for test, reason in result.skipped:
        print(f"left out: {test.id()}: {reason}", file=sys.stderr)
    print(f"{result.passed} passed, {failed} failed")
    return failed != 0


if __name__ == "__main__":
    sys.exit(main())
