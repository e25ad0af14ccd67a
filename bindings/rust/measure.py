#!/usr/bin/env python3
"""Measures this package beside the crate `dotenvy` 0.15.7: how long calls take, and how much memory.

usage: measure.py CRATE     the folder of that crate
"""
import sys
from pathlib import Path

from programs import HERE, printed


def main():
    crates = {"here": HERE, "dotenvy 0.15.7": Path(sys.argv[1]).resolve()}
    for name, crate in crates.items():
        for line in printed("measure", 2021, crate, ["--release"]).splitlines():
            print(f"{name}: {line}")


if __name__ == "__main__":
    main()
