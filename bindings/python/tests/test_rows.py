"""Recorded files, through the shared object: each has the items and the loads that were recorded."""

import unittest

from . import rows

FILES = "cases.rows", "more_cases.rows", "values.rows", "lines.rows", "grammar.rows"


class Rows(unittest.TestCase):
    def test_texts(self):
        self.assertEqual(rows.text("a%0a%(3*xy)é"), "a\nxyxyxyé".encode())
        self.assertEqual(rows._item("fault at 3: a b"), (1, b"", b"a b", 3))
        self.assertEqual(rows._load("nul B; A=1"), ((3, b"B", 0), {b"A": b"1"}))

    def test_a_wrong_row_is_told(self):
        row = next(rows.file_rows("cases.rows"))
        wrong = row._replace(file=b"A=1\n")
        self.assertTrue(any(rows.differences(wrong)))

    def test_recorded_files(self):
        for name in FILES:
            compared = [difference for row in rows.file_rows(name) for difference in rows.differences(row)]
            differ = [difference for difference in compared if difference]
            print(f"{name}: {len(compared)} comparisons, {len(differ)} differ")
            with self.subTest(name):
                self.assertGreaterEqual(len(compared), 100)
                self.assertEqual(differ, [])


if __name__ == "__main__":
    unittest.main()
