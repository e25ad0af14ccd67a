"""Tests of what a file sees of an environment, of what a load writes to it, and of what both cost."""

import os
import random
import subprocess
import sys
import threading
import time
import unittest

from dotenvy import _environment, _library, compat, dotenv_values, load_dotenv

from . import rows
from .in_folder import InFolder, amount

LOADS = amount(200, 3000)
FILES = amount(2000, 50_000)


def environment_of(block):
    return _library.pairs_of(block)


class Mentioned(unittest.TestCase):
    def test_names(self):
        cases = [
            (b"A=1\n", set()),
            (b"A=$B\n", {b"B"}),
            (b"A=$B_C-$D.E\n", {b"B", b"B_C", b"D"}),
            (b"A=${B} ${C D}\n", {b"B", b"C D"}),
            (b"A='${B' $C}\n", {b"B' $C", b"C"}),
            (b"A=$\n", {b""}),
            (b"A=$$B\n", {b"", b"B"}),
            (b"A=${}\n", {b""}),
            ("A=${é}\n".encode(), {"é".encode()}),
        ]
        for file, names in cases:
            with self.subTest(file):
                self.assertEqual(_environment.mentioned(file), names)

    def test_any_name(self):
        files = [
            "A=$é\n".encode(),
            "A=$Bé\n".encode(),
            b"A=${B\n",
            b"A=${" + b"B" * 256 + b"}\n",
            b"A=$B\n" * (_environment.MOST_DOLLARS + 1),
        ]
        for file in files:
            with self.subTest(file):
                self.assertIsNone(_environment.mentioned(file))
        self.assertEqual(_environment.mentioned(b"A=${" + b"B" * 255 + b"}\n"), {b"B" * 255})

    def test_values_are_those_under_the_whole_environment(self):
        compared = 0
        for name in ("cases.rows", "values.rows", "lines.rows", "grammar.rows"):
            for row in rows.file_rows(name):
                compared += self.compare(row.file, environment_of(row.block), row.options)
        self.assertGreater(compared, 300)

    def test_random_files(self):
        signs = [*"$$${}AB_é1.-'\"\\ #=\n", "A=", "${A}"]
        choice = random.Random(1)
        names = ["A", "B", "A_B", "é", "Aé", "A B", "1"]
        environment = {name.encode(): b"<%d>" % number for number, name in enumerate(names)}
        for _ in range(FILES):
            file = "X=" + "".join(choice.choice(signs) for _ in range(choice.randrange(1, 12)))
            for options in (0, _library.NEXT_DIALECT):
                self.compare(file.encode(), environment, options)

    def compare(self, file, environment, options):
        names = _environment.mentioned(file)
        if names is None:
            return 0
        seen = {name: value for name, value in environment.items() if name in names}
        part, whole = (_library.block_of(pairs.items()) for pairs in (seen, environment))
        self.assertEqual(_library.items(file, part, options), _library.items(file, whole, options), file)
        return 1


class Asked(InFolder):
    def test_only_names_that_are_mentioned_are_asked_for(self):
        os.environ.update({f"N_{number}": "1" for number in range(100)})
        self.assertEqual(_environment.seen_by(b"A=${N_5}$B\n"), {b"N_5": b"1"})
        self.assertEqual(_environment.seen_by_load(b"N_3=1\n"), {})
        self.assertEqual(len(_environment.seen_by_load(b'N_3="\0"\n')), 100)
        self.assertEqual(len(_environment.seen_by("A=$é\n".encode())), 100)

    def test_an_environment_that_is_given(self):
        given = {"A": "1", "é": "2", "\udcff": "3"}
        self.assertEqual(_environment.seen_by(b"X=${A}\n", given), {b"A": b"1"})
        self.assertEqual(len(_environment.seen_by("X=$é\n".encode(), given)), 3)
        self.assertEqual(dotenv_values("X=$é${A}\n".encode(), given), {"X": "21"})

    def test_a_load_writes_what_the_file_declares(self):
        os.environ.update({"A": "1", "B": "2"})
        seen = {b"A": b"1", b"B": b"2"}
        _environment.set_loaded({b"A": b"1", b"B": b"3", b"C": b"4"}, seen, True)
        self.assertEqual(dict(os.environ), {"A": "1", "B": "3", "C": "4"})

    def test_what_was_changed_meanwhile_stays(self):
        os.environ.update({"A": "changed", "C": "made"})
        # A was 1 when the load began, and C wasn't there.
        _environment.set_loaded({b"A": b"1", b"C": b"4", b"D": b"5"}, {b"A": b"1"}, False)
        self.assertEqual(dict(os.environ), {"A": "changed", "C": "made", "D": "5"})
        _environment.set_loaded({b"A": b"1", b"D": b"6"}, {b"A": b"1"}, True)
        self.assertEqual(dict(os.environ), {"A": "changed", "C": "made", "D": "6"})


class Threads(InFolder):
    """Other threads set and delete variables while files are loaded; each sees what it left."""

    def setUp(self):
        super().setUp()
        before = sys.getswitchinterval()
        self.addCleanup(sys.setswitchinterval, before)
        sys.setswitchinterval(1e-5)
        os.environ.update({f"FILL_{number}": "x" * 50 for number in range(300)})
        self.write("a.env", "".join(f"D_{number}=${{T_{number % 4}}}\n" for number in range(40)))

    def change(self, name):
        count = 0
        while not self.has_ended:
            count += 1
            os.environ[name] = str(count)
            for _ in range(3):
                time.sleep(0)
                self.wrong += os.environ.get(name) != str(count)
            if count % 5 == 0:
                del os.environ[name]
                time.sleep(0)
                self.wrong += name in os.environ

    def set_back(self, load):
        self.has_ended, self.wrong = False, 0
        threads = [threading.Thread(target=self.change, args=(f"T_{number}",), daemon=True) for number in range(4)]
        for thread in threads:
            thread.start()
        try:
            for number in range(LOADS):
                for name in [name for name in list(os.environ) if name.startswith("D_")]:
                    del os.environ[name]
                load("a.env", override=bool(number % 2))
        finally:
            self.has_ended = True
            for thread in threads:
                thread.join()
        return self.wrong

    def test_loads(self):
        self.assertEqual(self.set_back(load_dotenv), 0)

    def test_loads_like_python_dotenv(self):
        self.assertEqual(self.set_back(compat.load_dotenv), 0)

    def test_loads_that_see_the_whole_environment(self):
        self.write("a.env", "".join(f"D_{number}=$é\n" for number in range(40)))
        self.assertEqual(self.set_back(load_dotenv), 0)


MEASURE = """
import re, resource, sys
import dotenvy, dotenvy.compat
resource.setrlimit(resource.RLIMIT_AS, (2**30, 2**30))
def most():
    with open("/proc/self/status") as status:
        return int(re.search("VmHWM:[^0-9]*([0-9]+)", status.read())[1]) // 1024
before = most()
module = dotenvy.compat if sys.argv[1] == "compat" else dotenvy
found = getattr(module, sys.argv[2])(sys.argv[3])
if sys.argv[2] == "dotenv_items":
    found = list(found)
print(before, most())
"""


class Sizes(InFolder):
    def test_memory_of_line_feeds(self):
        length = amount(3, 10)
        path = self.write("a.env", b"\n" * length * 1_000_000)
        calls = [("dotenvy", "load_dotenv"), ("dotenvy", "dotenv_values"), ("dotenvy", "dotenv_items")]
        calls += [("compat", "load_dotenv"), ("compat", "dotenv_values")]
        for module, call in calls[:amount(3, 5)]:
            with self.subTest(module=module, call=call):
                words = [sys.executable, "-c", MEASURE, module, call, str(path)]
                said = subprocess.run(words, env=self.programs_environment, stdout=subprocess.PIPE, check=True)
                before, most = map(int, said.stdout.split())
                self.assertLess(most - before, 4 * length)
                self.assertLess(most, 60)

    def test_many_dollars(self):
        file = b"A=" + b"${" * 200_000
        begun = time.process_time()
        with self.assertRaises(ValueError):
            dotenv_values(file)
        self.assertLess(time.process_time() - begun, 5)


if __name__ == "__main__":
    unittest.main()
