"""Usual calls of python-dotenv, as its users write them. Each is a program that imports `dotenv`, in a separate folder
whose `.env` holds `A=1` and `B=${A}0`, and prints its result."""

import subprocess
import sys
import unittest

from .in_folder import DROP_IN, InFolder

try:
    import click
except ImportError:
    click = None

HEAD = "import io, os, pathlib, subprocess, sys\nimport dotenv\n"
STREAM = "io.StringIO('USER2=foo\\nEMAIL=foo@example.org')"

# What it is, its statements before the last one, the value that is printed, and what is printed.
CALLS = [
    ("a load", "", "dotenv.load_dotenv(), os.environ['A'], os.environ['B']", "(True, '1', '10')"),
    ("a load of what is found", "", "dotenv.load_dotenv(dotenv.find_dotenv()), os.environ['B']", "(True, '10')"),
    ("a load of what isn't found", "", "dotenv.load_dotenv(dotenv.find_dotenv('nx.env'))", "False"),
    ("a load of a text", "", "dotenv.load_dotenv('.env')", "True"),
    ("a load of a path", "", "dotenv.load_dotenv(pathlib.Path('.') / '.env')", "True"),
    ("a load of a missing file", "", "dotenv.load_dotenv('nx.env')", "False"),
    ("uvicorn: dotenv_path", "", "dotenv.load_dotenv(dotenv_path='.env')", "True"),
    ("verbose", "", "dotenv.load_dotenv('.env', verbose=True)", "True"),
    (
        "override",
        "os.environ['A'] = '9'; dotenv.load_dotenv('.env'); before = os.environ['A']",
        "before, dotenv.load_dotenv('.env', override=True), os.environ['A']",
        "('9', True, '1')",
    ),
    ("a stream", "", f"dotenv.load_dotenv(stream={STREAM}), os.environ['EMAIL']", "(True, 'foo@example.org')"),
    ("values", "", "dict(dotenv.dotenv_values('.env'))", "{'A': '1', 'B': '10'}"),
    (
        "values of missing files",
        "",
        "{**dotenv.dotenv_values('.env.shared'), **dotenv.dotenv_values('.env.secret'), **os.environ} == os.environ",
        "True",
    ),
    ("values of a stream", "", "dict(dotenv.dotenv_values(stream=io.StringIO('A=1')))", "{'A': '1'}"),
    ("values as written", "", "dict(dotenv.dotenv_values('.env', interpolate=False))", "{'A': '1', 'B': '${A}0'}"),
    (
        "Flask, pydantic-settings: an encoding",
        "",
        "dict(dotenv.dotenv_values('.env', encoding='utf-8'))",
        "{'A': '1', 'B': '10'}",
    ),
    ("Flask: a search", "", "os.path.relpath(dotenv.find_dotenv('.env', usecwd=True))", "'.env'"),
    (
        "a search that raises",
        "try: found = dotenv.find_dotenv('nx', raise_error_if_not_found=True)\nexcept IOError: found = 'IOError'",
        "found",
        "'IOError'",
    ),
    ("the value of a key", "", "dotenv.get_key('.env', 'A'), dotenv.get_key('.env', 'B')", "('1', '10')"),
    (
        "a key is set",
        "done = dotenv.set_key('.env', 'B', 'x y')",
        "done, open('.env').read()",
        "((True, 'B', 'x y'), \"A=1\\nB='x y'\\n\")",
    ),
    (
        "a key is unset",
        "done = dotenv.unset_key('.env', 'A')",
        "done, open('.env').read()",
        "((True, 'A'), 'B=${A}0\\n')",
    ),
    ("IPython", "", "callable(dotenv.load_ipython_extension)", "True"),
    (
        "the command line lists",
        "said = subprocess.run([sys.executable, '-m', 'dotenv', 'list'], stdout=subprocess.PIPE)",
        "said.returncode, said.stdout",
        "(0, b'A=1\\nB=10\\n')",
    ),
    (
        "the command line runs",
        "said = subprocess.run([sys.executable, '-m', 'dotenv', 'run', '--', 'printenv', 'A'], stdout=subprocess.PIPE)",
        "said.returncode, said.stdout",
        "(0, b'1\\n')",
    ),
    ("the class", "from dotenv.main import DotEnv", "DotEnv('.env').dict()['A']", "'1'"),
    (
        "a line without =",
        "pathlib.Path('.env').write_text('A\\n')",
        "dict(dotenv.dotenv_values('.env'))",
        "{'A': None}",
    ),
    (
        "a bad line",
        "pathlib.Path('.env').write_text('A=1\\n: x\\nB=2\\n')",
        "dict(dotenv.dotenv_values('.env'))",
        "{'A': '1', 'B': '2'}",
    ),
]


@unittest.skipUnless(DROP_IN.exists(), "there is no package of the name dotenv")
class UsualCalls(InFolder):
    def test_calls(self):
        self.assertEqual(len(CALLS), 26)
        for number, (what, before, value, printed) in enumerate(CALLS):
            with self.subTest(what):
                if "command line" in what and click is None:
                    self.skipTest("the command line needs click")
                self.write(f"{number}/.env", "A=1\nB=${A}0\n")
                program = self.write(f"{number}/program.py", f"{HEAD}{before}\nprint(repr(({value})))\n")
                said = subprocess.run(
                    [sys.executable, str(program)], cwd=str(program.parent), env=self.programs_environment,
                    stdout=subprocess.PIPE, stderr=subprocess.PIPE,
                )
                self.assertEqual((said.returncode, said.stdout.decode()), (0, f"{printed}\n"), said.stderr)
                errors = "Python-dotenv could not parse statement starting at line 2\n" if what == "a bad line" else ""
                self.assertEqual(said.stderr.decode(), errors)

    def test_modules_that_come_with_the_package(self):
        program = (
            "import dotenv\n"
            "print(dotenv.main.DotEnv('nx.env').dict(), dotenv.parser.Original('A', 1).line)\n"
            "print(dotenv.variables.Literal('A').value)\n"
        )
        said = subprocess.run(
            [sys.executable, "-c", program], env=self.programs_environment, stdout=subprocess.PIPE, check=True
        )
        self.assertEqual(said.stdout.decode(), "OrderedDict() 1\nA\n")

    def test_the_modules_have_the_same_calls(self):
        program = (
            "import dotenv, dotenv.main, dotenv.parser, dotenv.variables, dotenv.version, dotenv.ipython\n"
            "from dotenvy import compat\n"
            "assert all(getattr(dotenv, name) is getattr(compat, name) for name in dotenv.__all__)\n"
            "assert all(getattr(dotenv.main, name) is getattr(compat.main, name) for name in dotenv.main.__all__)\n"
            "assert dotenv.main.logger.name == 'dotenv.main'\n"
            "assert '_walk_to_root' in dotenv.main.__all__\n"
            "print(*sorted(dotenv.__all__), dotenv.version.__version__)\n"
        )
        said = subprocess.run(
            [sys.executable, "-c", program], env=self.programs_environment, stdout=subprocess.PIPE, check=True
        )
        names = "dotenv_values find_dotenv get_cli_string get_key load_dotenv load_ipython_extension set_key unset_key"
        self.assertEqual(said.stdout.decode(), f"{names} 1.0.1\n")


if __name__ == "__main__":
    unittest.main()
