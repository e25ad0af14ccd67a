#!/usr/bin/env python3
"""Runs the examples of bindings/README.md as they stand, and compares what they print with the text after each. Runs
the Python of the README at the top, too, beside a `service.env`; it prints nothing.

Where cc or cargo isn't there, the example that needs it is left out, and this says so. The last line is
`N passed, M failed`.
"""
import os
import re
import shutil
import subprocess
import sys
import tempfile
from pathlib import Path

HERE = Path(__file__).resolve().parent
EXAMPLE = re.compile(r"```(c|python|rust)\n(.*?)```\n.*?```text\n(.*?)```", re.DOTALL)
SILENT = re.compile(r"```python\n(.*?)```", re.DOTALL)
MANIFEST = """[package]
name = "example"
version = "0.1.0"
edition = "2021"

[dependencies]
dotenvy = {{ path = "{path}" }}
"""


def c(code, folder):
    (folder / "example.c").write_text(code)
    archive = HERE / "out/libdotenvy.a"
    build = ["cc", "-Wall", "-Wextra", "-Werror", "-I", HERE / "c", "example.c", archive, "-o", "example"]
    subprocess.run(build, cwd=folder, check=True)
    return [folder / "example"]


def python(code, folder):
    (folder / "example.py").write_text(code)
    return [sys.executable, "-B", folder / "example.py"]


def rust(code, folder):
    (folder / "src").mkdir()
    (folder / "src/main.rs").write_text(code)
    (folder / "Cargo.toml").write_text(MANIFEST.format(path=HERE / "rust"))
    return ["cargo", "run", "--quiet", "--offline"]


# How many examples the two READMEs have together.
EXAMPLES = 8

LANGUAGES = {"c": (c, ["cc"]), "python": (python, []), "rust": (rust, ["cargo", "cc"])}


def printed(language, code):
    """What an example prints, in a folder of its own with no `.env` in it."""
    with tempfile.TemporaryDirectory() as folder:
        Path(folder, "service.env").write_text("A=1\n")
        command = LANGUAGES[language][0](code, Path(folder))
        environment = {**os.environ, "PYTHONPATH": str(HERE / "python")}
        environment.pop("HOST", None)
        run = subprocess.run(command, cwd=folder, env=environment, capture_output=True, text=True)
        return run.stdout if run.returncode == 0 else f"status {run.returncode}: {run.stderr}"


def main():
    passed = failed = 0
    examples = EXAMPLE.findall((HERE / "README.md").read_text())
    examples += [("python", code, "") for code in SILENT.findall((HERE.parent / "README.md").read_text())]
    for language, code, wanted in examples:
        if not all(shutil.which(tool) for tool in LANGUAGES[language][1]):
            print(f"left out: the example in {language}, whose tools aren't there", file=sys.stderr)
            continue
        found = printed(language, code)
        if found == wanted:
            passed += 1
        else:
            failed += 1
            print(f"FAILED: the example in {language} prints\n{found}", file=sys.stderr)
    if len(examples) != EXAMPLES:
        failed += 1
        print(f"FAILED: the two READMEs have {len(examples)} examples", file=sys.stderr)
    print(f"{passed} passed, {failed} failed")
    return failed != 0


if __name__ == "__main__":
    sys.exit(main())
