#!/usr/bin/env python3
"""Gets a package of Debian into a folder, for tests that compare with another library. Nothing is installed, and no
list of the system changes: apt-get works in that folder, as any user. It takes two minutes at most.

usage: fetch_source.py PACKAGE FOLDER                   the files of the package
       fetch_source.py PACKAGE FOLDER ARCHIVE SHA256    what is in this archive of its source, which has this digest

It prints the folder that they are in. Where they can't be had it prints why on standard error, and the status is 1.
"""
import hashlib
import shutil
import subprocess
import sys
import tarfile
import time
from pathlib import Path

SUITES = ("trixie", "forky", "sid")
KEYS = "/usr/share/keyrings/debian-archive-keyring.gpg"
SECONDS = 120


class Unavailable(Exception):
    """Why a package can't be had."""


class Apt:
    """The command apt-get, with lists and a cache in a folder, for one suite at a time."""

    def __init__(self, folder, kind):
        if not shutil.which("apt-get") or not Path(KEYS).exists():
            raise Unavailable("there is no apt-get with the keys of Debian")
        self.folder, self.kind = folder, kind
        self.end = time.monotonic() + SECONDS
        (folder / "lists/partial").mkdir(parents=True)
        (folder / "cache/archives/partial").mkdir(parents=True)

    def choose(self, suite):
        """From now on packages are those of this suite."""
        line = f"{self.kind} [signed-by={KEYS}] http://deb.debian.org/debian {suite} main\n"
        (self.folder / "sources.list").write_text(line)
        self.run("update")

    def run(self, *words):
        """Runs apt-get with these words in the folder. If it fails, what a caller looks for then isn't there."""
        settings = {
            "Dir::Etc::sourcelist": self.folder / "sources.list",
            "Dir::Etc::sourceparts": "/nonexistent",
            "Dir::State::lists": self.folder / "lists",
            "Dir::Cache": self.folder / "cache",
            "Acquire::http::Timeout": 20,
            "APT::Sandbox::User": "root",
        }
        options = [word for setting in settings.items() for word in ("-o", "{}={}".format(*setting))]
        try:
            subprocess.run(["apt-get", "-q", *options, *words], cwd=str(self.folder), stdin=subprocess.DEVNULL,
                           stdout=subprocess.DEVNULL, stderr=subprocess.DEVNULL,
                           timeout=max(1, self.end - time.monotonic()))
        except subprocess.TimeoutExpired:
            raise Unavailable(f"it takes more than {SECONDS} seconds") from None


def package(name, folder):
    """The folder with the files of a package, below this folder, which is made."""
    apt = Apt(folder, "deb")
    for suite in SUITES:
        apt.choose(suite)
        apt.run("download", name)
        for archive in folder.glob(f"{name}_*.deb"):
            files = folder / "files"
            if subprocess.run(["dpkg-deb", "-x", str(archive), str(files)]).returncode == 0:
                return files
    raise Unavailable(f"no suite of Debian has the package {name}")


def source(name, folder, archive, sha256):
    """The folder with the files of an archive of a package's source, below this folder, which is made."""
    apt = Apt(folder, "deb-src")
    for suite in SUITES:
        apt.choose(suite)
        apt.run("source", "--download-only", name)
        path = folder / archive
        if path.exists() and hashlib.sha256(path.read_bytes()).hexdigest() == sha256:
            files = folder / "files"
            with tarfile.open(str(path)) as packed:
                packed.extractall(str(files))
            return files
    raise Unavailable(f"no suite of Debian has the archive {archive} of {name}, with its digest")


def main():
    if len(sys.argv) not in (3, 5):
        print(__doc__, file=sys.stderr)
        return 2
    name, folder, *archive = sys.argv[1:]
    get = source if archive else package
    try:
        print(get(name, Path(folder).resolve(), *archive))
    except Unavailable as why:
        print(f"{name}: {why}", file=sys.stderr)
        return 1
    return 0


if __name__ == "__main__":
    sys.exit(main())
