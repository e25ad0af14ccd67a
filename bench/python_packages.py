#!/usr/bin/env python3
"""How long the Python package takes to read a file, and python-dotenv, if it is installed: processor time, alternated.

usage: bench/python_packages.py [KIND] [KILOBYTES]

It needs bindings/build.sh to have been run. Both read the same text in memory, with the same environment.
"""
import importlib.util
import io
import os
import statistics
import subprocess
import sys
import time
from pathlib import Path

TOP = Path(__file__).resolve().parent.parent
ROUNDS = 9


def seconds(call):
    start = time.process_time()
    call()
    return time.process_time() - start


def main():
    kind = sys.argv[1] if len(sys.argv) > 1 else "mix"
    most = 1000 * int(sys.argv[2] if len(sys.argv) > 2 else 200)
    made = subprocess.run(
        [sys.executable, TOP / "bench/make_files.py", kind], capture_output=True, check=True
    ).stdout
    file = made[: made.rindex(b"\n", 0, most) + 1] if len(made) > most else made
    os.environ.clear()

    sys.path.insert(0, str(TOP / "bindings/python"))
    import dotenvy

    calls = {"dotenvy": lambda: dotenvy.dotenv_values(file)}
    if importlib.util.find_spec("dotenv"):
        import dotenv

        text = file.decode()
        calls["python-dotenv"] = lambda: dotenv.dotenv_values(stream=io.StringIO(text))
        same = calls["dotenvy"]() == dict(calls["python-dotenv"]())
        print(f"{kind}, {len(file)} bytes: the values are {'the same' if same else 'not the same'}")
    else:
        print(f"{kind}, {len(file)} bytes; python-dotenv isn't installed")

    took = {name: [] for name in calls}
    for _ in range(ROUNDS):
        for name, call in calls.items():
            took[name].append(seconds(call))
    for name, times in took.items():
        print(f"{name:14} {1000 * statistics.median(times):9.2f} ms, the median of {ROUNDS}")
    if len(took) == 2:
        ours, theirs = (statistics.median(times) for times in took.values())
        print(f"python-dotenv takes {theirs / ours:.0f} times as long")


if __name__ == "__main__":
    main()
