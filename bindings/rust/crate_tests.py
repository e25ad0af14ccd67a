#!/usr/bin/env python3
"""Runs the tests of the crate `dotenvy` 0.15.7 over this package, which takes its place by `[patch]`: its unit tests,
the examples of its documentation, and the files in `tests`. They are read from the crate's source and are no part of
this repository. A distribution has it: `apt-get source rust-dotenvy`, or the package `librust-dotenvy-dev`.

usage: crate_tests.py FOLDER     the folder that has the crate's `src` and `tests`

The two crates that the tests use, `tempfile` and `once_cell`, are replaced by a few lines of the same names, so that no
registry is asked. The last line is `N passed, M failed`.
"""
import re
import shutil
import subprocess
import sys
import tempfile
from pathlib import Path

HERE = Path(__file__).resolve().parent

MANIFEST = """[package]
name = "crate_tests"
version = "0.0.0"
edition = "2018"

[dependencies]
dotenvy = "0.15.7"
once_cell = "1"
tempfile = "3"

[patch.crates-io]
dotenvy = {{ path = "{here}" }}
once_cell = {{ path = "once_cell" }}
tempfile = {{ path = "tempfile" }}
"""

ONCE_CELL = "pub mod sync { pub use std::sync::OnceLock as OnceCell; }\n"

TEMPFILE = """use std::{env, fs, io, path::{Path, PathBuf}, process};
use std::sync::atomic::{AtomicUsize, Ordering};
static NEXT: AtomicUsize = AtomicUsize::new(0);
#[derive(Debug)]
pub struct TempDir(PathBuf);
pub fn tempdir() -> io::Result<TempDir> {
    let name = format!("crate-tests-{}-{}", process::id(), NEXT.fetch_add(1, Ordering::Relaxed));
    let path = env::temp_dir().join(name);
    fs::create_dir(&path)?;
    Ok(TempDir(path))
}
impl TempDir {
    pub fn path(&self) -> &Path { &self.0 }
    pub fn close(self) -> io::Result<()> { fs::remove_dir_all(&self.0) }
}
impl Drop for TempDir {
    fn drop(&mut self) { let _ = fs::remove_dir_all(&self.0); }
}
"""

# What a module of the crate has for its tests, other than what it declares.
IMPORTS = {"errors": "pub use dotenvy::{Error, Result};", "iter": "pub use dotenvy::Iter;"}

TESTS = re.compile(r"^#\[cfg\(test\)\]\nmod .*?^}\n", re.DOTALL | re.MULTILINE)
DOCUMENTED = re.compile(r"((?:^ *///.*\n)+)(?:^ *(?:#\[.*)?\n)*^ *pub fn (\w+)", re.MULTILINE)
RESULT = re.compile(r"^test result: \w+\. (\d+) passed; (\d+) failed", re.MULTILINE)


def library(source):
    """One file with the unit tests of each module, and the documentation of each function on an empty function."""
    text = "#![allow(unused_imports, deprecated)]\n"
    for module in sorted(source.glob("*.rs")):
        tests = "".join(TESTS.findall(module.read_text()))
        imports = IMPORTS.get(module.stem, "use crate::errors::*;")
        if module.stem != "lib" and (tests or module.stem in IMPORTS):
            text += f"pub mod {module.stem} {{\n{imports}\n{tests}}}\n"
    for documentation, name in DOCUMENTED.findall((source / "lib.rs").read_text()):
        text += f"{documentation}pub fn {name}() {{}}\n"
    return text


def tests_of(source):
    """How many tests the crate has, with the examples of its documentation."""
    files = [path for folder in ("src", "tests") for path in (source / folder).rglob("*.rs")]
    examples = (source / "src/lib.rs").read_text().count("/// ```") // 2
    return sum(path.read_text().count("#[test]\n") for path in files) + examples


def make_crate(folder, manifest, text):
    (folder / "src").mkdir(parents=True)
    (folder / "Cargo.toml").write_text(manifest)
    (folder / "src/lib.rs").write_text(text)


def run(source, folder):
    make_crate(folder, MANIFEST.format(here=HERE), library(source / "src"))
    for name, version, text in ("once_cell", "1.99.0", ONCE_CELL), ("tempfile", "3.99.0", TEMPFILE):
        manifest = f'[package]\nname = "{name}"\nversion = "{version}"\nedition = "2021"\n'
        make_crate(folder / name, manifest, text)
    shutil.copytree(source / "tests", folder / "tests")
    # The files that its examples load.
    for name in ".env", "custom.env":
        (folder / name).write_text("")
    command = ["cargo", "test", "--offline", "--no-fail-fast", "--jobs=1"]
    return subprocess.run(command, cwd=folder, capture_output=True, text=True)


def main():
    source = Path(sys.argv[1])
    with tempfile.TemporaryDirectory() as folder:
        done = run(source, Path(folder))
    print(done.stdout + done.stderr, file=sys.stderr)
    results = RESULT.findall(done.stdout)
    passed, failed = (sum(int(numbers[which]) for numbers in results) for which in (0, 1))
    if passed + failed != tests_of(source):
        print(f"FAILED: of {tests_of(source)} tests of the crate, {passed + failed} ran", file=sys.stderr)
        failed += 1
    if "was not used in the crate graph" in done.stderr or (done.returncode != 0 and failed == 0):
        failed += 1
    print(f"{passed} passed, {failed} failed")
    return failed != 0


if __name__ == "__main__":
    sys.exit(main())
