#!/usr/bin/env python3
"""Has `rt` take the libraries that `rt ci` built in a checkout. They lack the stamp of a library that is built, so `rt`
would prove each of them once more.

usage: .ci/take_built.py FROM TO [CRATE]

FROM is the checkout, and TO the same or a copy without what is built, to which they go. With CRATE it takes those that
CRATE needs, else all. What isn't built in FROM is left to `rt`. One `rt ci` has built all of them, or taken them as one
before it built them, so each was proved over those below it.
"""
import importlib
import pathlib
import shutil
import subprocess
import sys


def crates_below(folder):
    """The crates of a checkout, as `rt` knows them."""
    page = subprocess.run(["rt", "doc"], stdout=subprocess.PIPE, text=True, check=True).stdout.strip()
    sys.path.insert(0, str(pathlib.Path(page).parent / "bin"))
    return importlib.import_module("rtlib").crates_below(str(folder))


def wanted(crates, name):
    """The libraries among these crates, or those that the crate of this name needs."""
    if name is None:
        return [crate for crate in crates if crate.makes_rlib()]
    return next(crate.below() for crate in crates if crate.name == name)


def take(crate, source, to):
    """Copies the crate's library, unless it is there, and stamps it."""
    folder = pathlib.Path("crates", crate.name, "out", "rlib")
    library = folder / f"{crate.name}.rlib"
    if not (source / library / "format").is_file():
        return
    if source != to:
        shutil.copytree(source / library, to / library)
    (to / folder / "stamp").write_text(crate.stamp())
    print(f"taken: {crate.name}")


def main():
    """Takes what is asked for."""
    source, to = (pathlib.Path(word).resolve() for word in sys.argv[1:3])
    for crate in wanted(crates_below(to), *sys.argv[3:] or [None]):
        take(crate, source, to)


if __name__ == "__main__":
    main()
