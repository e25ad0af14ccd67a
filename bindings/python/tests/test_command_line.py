"""Tests of the command line `dotenv`: what it prints, what it makes of files, and its statuses."""

import os
import subprocess
import sys
import threading
import unittest
from pathlib import Path

from .in_folder import DROP_IN, InLog

try:
    from click.testing import CliRunner
except ImportError:
    CliRunner = None


@unittest.skipUnless(CliRunner, "the command line needs click")
class CommandLine(InLog):
    def ran(self, *words):
        from dotenvy.compat.cli import cli

        result = CliRunner().invoke(cli, words)
        return result.exit_code, result.output

    def test_list(self):
        self.write(".env", "B='x y'\nA=1\nC\nD=it's # it's\n")
        self.assertEqual(self.ran("list")[0], 0)
        self.write(".env", "B='x y'\nA=1\nC\n")
        self.assertEqual(self.ran("list"), (0, "A=1\nB=x y\n"))
        self.assertEqual(self.ran("list", "--format", "simple"), (0, "A=1\nB=x y\n"))
        self.assertEqual(self.ran("list", "--format=shell"), (0, "A=1\nB='x y'\n"))
        self.assertEqual(self.ran("list", "--format=export"), (0, "export A=1\nexport B='x y'\n"))
        self.assertEqual(self.ran("list", "--format=json"), (0, '{\n  "A": "1",\n  "B": "x y",\n  "C": null\n}\n'))
        self.assertEqual(self.ran("list", "--format=other")[0], 2)

    def test_get(self):
        self.write("x.env", "A=1\nE=\nN\n")
        self.assertEqual(self.ran("-f", "x.env", "get", "A"), (0, "1\n"))
        for name in ("B", "E", "N"):
            self.assertEqual(self.ran("--file", "x.env", "get", name), (1, ""))
        self.assertEqual(self.ran("get")[0], 2)

    def test_files_that_cannot_be_opened(self):
        for words in (["list"], ["get", "A"]):
            for file in ("nx.env", "."):
                status, said = self.ran("-f", file, *words)
                self.assertEqual(status, 2)
                self.assertIn("Error opening env file", said)

    def test_set(self):
        self.assertEqual(self.ran("set", "A", "x"), (0, "A=x\n"))
        self.assertEqual(Path(".env").read_text(), "A='x'\n")
        self.assertEqual(self.ran("-q", "never", "-e", "true", "set", "B", "y"), (0, "B=y\n"))
        self.assertEqual(Path(".env").read_text(), "A='x'\nexport B=y\n")
        self.assertEqual(self.ran("--quote=auto", "--export=false", "set", "C", "z"), (0, "C=z\n"))
        self.assertEqual(Path(".env").read_text(), "A='x'\nexport B=y\nC=z\n")
        status, said = self.ran("set", "A")
        self.assertEqual(status, 2)
        self.assertIn("Missing argument", said)

    def test_edits_that_are_refused(self):
        self.write(".env", "A=1\n")
        self.write("open.env", "A=1  # it's\nB=it's\n")
        where = "open.env:1: the comment runs over several lines, and would be cut, or go"
        cases = [
            (("set", "1A", "x"), "1A: this can't be a name"),
            (("-f", "open.env", "unset", "A"), where),
            (("-f", "nx/a.env", "set", "A", "x"), "[Errno 2] No such file or directory: 'nx/a.env'"),
        ]
        for words, said in cases:
            with self.subTest(words):
                self.assertEqual(self.ran(*words), (1, f"dotenv: {said}\n"))
        self.assertEqual(Path(".env").read_text(), "A=1\n")

    def test_unset(self):
        self.write(".env", "A=1\nB=2\n")
        self.assertEqual(self.ran("unset", "A"), (0, "Successfully removed A\n"))
        self.assertEqual(Path(".env").read_text(), "B=2\n")
        self.assertEqual(self.ran("unset", "A")[0], 1)
        self.assertEqual(Path(".env").read_text(), "B=2\n")

    def test_the_version(self):
        status, said = self.ran("--version")
        self.assertEqual(status, 0)
        self.assertTrue(said.endswith("1.0.1\n"))

    def program(self, *words, module="dotenvy.compat", **variables):
        said = subprocess.run(
            [sys.executable, "-m", module, *words], env={**self.programs_environment, **variables},
            stdout=subprocess.PIPE, stderr=subprocess.PIPE,
        )
        return said.returncode, said.stdout.decode(), said.stderr.decode()

    def test_run(self):
        self.write(".env", "A=1\nB\nC=$A\n")
        self.assertEqual(self.program("run", "printenv", "A", "C"), (0, "1\n1\n", ""))
        self.assertEqual(self.program("run", "printenv", "A", A="9"), (0, "1\n", ""))
        self.assertEqual(self.program("run", "--no-override", "printenv", "A", A="9"), (0, "9\n", ""))
        self.assertEqual(self.program("run", "printenv", "A", "X", X="9"), (0, "1\n9\n", ""))
        self.assertEqual(self.program("run", "--", "sh", "-c", "exit 7"), (7, "", ""))
        self.assertEqual(self.program("run", "sh", "-c", "echo $#", "x", "--override", "-f"), (0, "2\n", ""))
        status, _, said = self.program("run", "no such command")
        self.assertEqual((status, said), (127, "dotenv: no such command: No such file or directory\n"))
        self.assertEqual(self.program("run"), (1, "No command given.\n", ""))
        status, _, said = self.program("-f", "nx.env", "run", "true")
        self.assertEqual(status, 2)
        self.assertIn("Invalid value for '-f' \"nx.env\" does not exist.", said)

    def test_signals_of_a_command(self):
        self.write(".env", "A=1\n")
        words = ["grep", "SigIgn", "/proc/self/status"]
        ignored = subprocess.run(words, stdout=subprocess.PIPE, check=True).stdout.decode()
        self.assertEqual(self.program("run", *words), (0, ignored, ""))

    def test_a_pipe(self):
        for words in (["list"], ["run", "sh", "-c", "echo A=$A"]):
            os.mkfifo("pipe.env")
            threading.Thread(target=Path("pipe.env").write_bytes, args=(b"A=1\n",), daemon=True).start()
            self.assertEqual(self.program("-f", "pipe.env", *words), (0, "A=1\n", ""))
            Path("pipe.env").unlink()

    def test_a_current_directory_that_was_removed(self):
        os.mkdir("gone")
        os.chdir("gone")
        os.rmdir("../gone")
        status, said = self.ran("list")
        os.chdir(self.folder)
        self.assertEqual((status, said), (2, "Error opening env file: [Errno 2] No such file or directory: '.env'\n"))

    @unittest.skipUnless(DROP_IN.exists(), "there is no package of the name dotenv")
    def test_the_module_dotenv(self):
        self.write(".env", "A=1\n")
        self.assertEqual(self.program("list", module="dotenv"), (0, "A=1\n", ""))


class WithoutClick(InLog):
    def test_what_it_says(self):
        self.write(".env", "A=1\n")
        program = (
            "import runpy, sys\n"
            "sys.modules['click'] = None\n"
            "import dotenvy.compat\n"
            "print(dotenvy.compat.dotenv_values('.env')['A'], flush=True)\n"
            "runpy.run_module('dotenvy.compat', run_name='__main__')\n"
        )
        said = subprocess.run(
            [sys.executable, "-c", program], env=self.programs_environment, stdout=subprocess.PIPE,
            stderr=subprocess.PIPE,
        )
        self.assertEqual((said.returncode, said.stdout), (1, b"1\n"))
        self.assertEqual(said.stderr, b"dotenv: the command line needs the package click: pip install click\n")


if __name__ == "__main__":
    unittest.main()
