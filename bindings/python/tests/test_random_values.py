"""Random values are set, got and unset: each reads back, and nothing else of its file changes."""

import logging
import random
import unittest

import dotenvy
from dotenvy import EditError, Refusal, compat

from .in_folder import InFolder, amount

VALUES = amount(400, 10_000)
SIGNS = [
    *"'\"\\ #$\n\r\t={}ax0_.", "é", "\u00a0", "\u2028", "\ufeff", "\x01", "\U0001f511", "${A}", "$A", "\\n", " #",
    "  # '", "export ",
]
FILES = [
    "", "A=1\n", "A=1", "B=1", "B=2\nA='x' # c\nC=3\n", "export A=\"1\"\nD=$A\n", "A = x # it's\nF=1\n",
    "A=1\nA=2\nA=3\n", "B=1\r\nA=2\r\n", "bad line\nA=y z\n", "# A=5\n", "\ufeffA=1\n", "C='A=1\nA=2'\n",
    "A=1  # it's\nE=it's\nG=1\n",
]
# Only the calls of python-dotenv read a name alone.
NAMES_ALONE = ["A\n", "export A # c\nB=2\n", "\ufeffA\n", "B=1\nA\nA=2\n"]


class RandomValues(InFolder):
    def setUp(self):
        super().setUp()
        self.choice = random.Random(7)
        logging.disable(logging.CRITICAL)
        self.addCleanup(logging.disable, logging.NOTSET)

    def others(self, path):
        return [(it.key, it.value) for it in compat.main.DotEnv(path)._statements(False) if it.key not in (None, "A")]

    def check(self, module, content, how):
        value = "".join(self.choice.choice(SIGNS) for _ in range(self.choice.randrange(12)))
        path = self.write("a.env", content)
        others = self.others(path)
        case = module.__name__, content, value, how
        # A comment that runs over several lines would go.
        is_refused = "# it's\nE" in content
        try:
            self.assertEqual(module.set_key(path, "A", value, **how), (True, "A", value), case)
            self.assertEqual(compat.get_key(path, "A"), value, case)
            if "bad line" not in content:
                self.assertEqual(dotenvy.get_key(path, "A"), value, case)
            self.assertEqual(self.others(path), others, case)
            self.assertEqual(module.unset_key(path, "A"), (True, "A"), case)
        except EditError as error:
            self.assertTrue(is_refused and error.reason is Refusal.LONG_COMMENT, case)
            return
        self.assertEqual(self.others(path), others, case)
        self.assertNotIn("A", compat.dotenv_values(path), case)

    def test_values(self):
        for _ in range(VALUES):
            self.check(dotenvy, self.choice.choice(FILES), {})

    def test_values_like_python_dotenv(self):
        for _ in range(VALUES):
            how = {"quote_mode": self.choice.choice(["always", "auto", "never"]), "export": self.choice.random() < 0.3}
            self.check(compat, self.choice.choice(FILES + NAMES_ALONE), how)


if __name__ == "__main__":
    unittest.main()
