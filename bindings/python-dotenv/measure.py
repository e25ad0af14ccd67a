#!/usr/bin/env python3
"""Measures dotenvy, dotenvy.compat and python-dotenv in one run: the processor time of a small file in a large
environment, and the memory and processor time of a file of 10 MB of line feeds.

usage: measure.py [FOLDER]

FOLDER has python-dotenv's package `dotenv`; without it the installed one is measured, if there is one.
"""

import importlib.util
import os
import re
import subprocess
import sys
import tempfile
import time
from pathlib import Path

HERE = Path(__file__).resolve().parent
NAMES = ("dotenvy", "dotenvy.compat", "dotenv")


def small_file():
    """70 names, ten of which mention a variable of the process and a name of the file."""
    plain = [f"NAME_{number}=value_{number}" for number in range(60)]
    urls = [f'URL_{number}="http://${{OTHER_{number * 7}}}/${{NAME_{number}}}"' for number in range(10)]
    return "".join(f"{line}\n" for line in plain + urls)


def best(call, before=lambda: None):
    """The shortest processor time of a call in ms; what else runs on the machine counts little in it."""
    least = float("inf")
    for _ in range(50):
        before()
        begun = time.process_time()
        call()
        least = min(least, time.process_time() - begun)
    return least * 1000


def forget():
    """Deletes what a load of the small file set."""
    for name in [name for name in list(os.environ) if name.startswith(("NAME_", "URL_"))]:
        del os.environ[name]


def measure(name, folder):
    """Prints what one package takes."""
    if not importlib.util.find_spec(name):
        print(f"left out: {name}, which isn't there", file=sys.stderr)
        return
    module = importlib.import_module(name)
    os.environ.update({f"OTHER_{number}": f"value {number}" for number in range(1000)})
    small, large = folder / "small.env", folder / "large.env"
    values = best(lambda: module.dotenv_values(str(small)))
    load = best(lambda: module.load_dotenv(str(small)), forget)
    status = Path("/proc/self/status")
    begun = time.process_time()
    module.load_dotenv(str(large))
    took = time.process_time() - begun
    most = int(re.search("VmHWM:[^0-9]*([0-9]+)", status.read_text())[1]) // 1024
    print(f"{name}|{values:.2f}|{load:.2f}|{most}|{took:.1f}", flush=True)


def main():
    if sys.argv[1:2] == ["--one"]:
        return measure(sys.argv[2], Path(sys.argv[3]))
    print("package|values of 70 names (ms)|load of 70 names (ms)|10 MB of line feeds (MB)|(s)", flush=True)
    with tempfile.TemporaryDirectory() as folder:
        Path(folder, "small.env").write_text(small_file())
        Path(folder, "large.env").write_bytes(b"\n" * 10_000_000)
        for name in NAMES:
            paths = sys.argv[1:2] if name == "dotenv" else [str(HERE.parent / "python")]
            environment = {"PATH": os.environ["PATH"], "PYTHONPATH": os.pathsep.join(paths)}
            # Not in the folder of this script, which has a module of the same name.
            code = f"import runpy, sys; sys.argv = ['measure.py', '--one', {name!r}, {folder!r}]\n"
            code += f"runpy.run_path({str(HERE / 'measure.py')!r}, run_name='__main__')"
            subprocess.run([sys.executable, "-B", "-c", code], cwd=folder, env=environment)


if __name__ == "__main__":
    main()
