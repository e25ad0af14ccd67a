"""Flask, pydantic-settings and uvicorn load a file by the module `dotenv`; each where it is installed."""

import importlib.util
import subprocess
import sys
import unittest

from .in_folder import DROP_IN, InFolder

FLASK = """
import os, sys
from flask import Flask

app = Flask(__name__)

@app.cli.command("show")
def show():
    print(*map(os.environ.get, "ABC"), "dotenvy.compat" in sys.modules)
"""
PYDANTIC = """
import sys
from pydantic_settings import BaseSettings, SettingsConfigDict

class Settings(BaseSettings):
    model_config = SettingsConfigDict(env_file=(".env.default", ".env"), env_file_encoding="utf-8")
    a: int
    b: str
    c: str = "none"

print(*Settings().model_dump().values(), "dotenvy.compat" in sys.modules)
"""
UVICORN = """
import os, sys
import uvicorn

uvicorn.Config("program:app", env_file=".env")
print(*map(os.environ.get, "ABC"), "dotenvy.compat" in sys.modules)
"""


@unittest.skipUnless(DROP_IN.exists(), "there is no package of the name dotenv")
class Frameworks(InFolder):
    def setUp(self):
        super().setUp()
        self.write(".env", "A=1\nB=${A}0\n")

    def printed(self, program, words):
        """What Python prints with these words, beside a program."""
        self.write("program.py", program)
        said = subprocess.run(
            [sys.executable, *words], env=self.programs_environment, stdout=subprocess.PIPE, stderr=subprocess.PIPE
        )
        self.assertEqual(said.returncode, 0, said.stderr.decode())
        return said.stdout.decode()

    @unittest.skipUnless(importlib.util.find_spec("flask"), "Flask isn't installed")
    def test_flask(self):
        self.write(".flaskenv", "A=9\nC=3\n")
        self.assertEqual(self.printed(FLASK, ["-m", "flask", "--app", "program", "show"]), "1 10 3 True\n")

    @unittest.skipUnless(importlib.util.find_spec("pydantic_settings"), "pydantic-settings isn't installed")
    def test_pydantic_settings(self):
        self.write(".env.default", "A=9\nC=3\n")
        self.assertEqual(self.printed(PYDANTIC, ["program.py"]), "1 10 3 True\n")

    @unittest.skipUnless(importlib.util.find_spec("uvicorn"), "uvicorn isn't installed")
    def test_uvicorn(self):
        self.assertEqual(self.printed(UVICORN, ["program.py"]), "1 10 None True\n")


if __name__ == "__main__":
    unittest.main()
