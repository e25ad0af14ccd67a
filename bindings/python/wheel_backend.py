"""Builds the wheel, as pip's build backend and by itself: the package with the shared object inside, the programs and
their manual pages. The tag says what the code inside needs: x86-64, and the newest glibc that a symbol of it names.

usage: wheel_backend.py TREE FOLDER

TREE is laid out as an installation, by release/layout.sh; for pip it is the setting `tree`. It needs Python 3.11 or
later, and no other package. The wheel is the same bytes each time: SOURCE_DATE_EPOCH is the time of its files.
"""

import base64
import hashlib
import os
import re
import sys
import time
import tomllib
import zipfile
from pathlib import Path

HERE = Path(__file__).resolve().parent
SHARED = "libdotenvy.so.1"
PROGRAMS = ("dotenvy_check", "dotenvy_edit", "dotenvy_exec", "dotenvy_export", "dotenvy_run")
# No file of a zip archive can be older.
FIRST_TIME = 315_532_800


class Refused(Exception):
    """There is something that a wheel has to have and that isn't there."""


def glibc_of(objects):
    """The minor version of the newest glibc 2 that these objects ask for."""
    asked = [int(minor) for code in objects for minor in re.findall(rb"\0GLIBC_2\.(\d+)", code)]
    if not asked:
        raise Refused("the objects name no glibc, so no tag can be told")
    return max(asked)


def taken(path):
    """The bytes of a file that has to be there."""
    if not path.is_file():
        raise Refused(f"there is no {path}; ./release.sh builds the wheel with all that it needs")
    return path.read_bytes()


def metadata(project, papers=("LICENSE", "NOTICES")):
    """The file METADATA, of a wheel with these papers."""
    lines = [
        "Metadata-Version: 2.1",
        f"Name: {project['name']}",
        f"Version: {project['version']}",
        f"Summary: {project['description']}",
        f"License: {project['license']['text']}",
        *(f"License-File: {paper}" for paper in papers),
        "Classifier: Operating System :: POSIX :: Linux",
        "Classifier: Programming Language :: Python :: 3",
        "Classifier: Typing :: Typed",
        f"Requires-Python: {project['requires-python']}",
        *(f"Requires-Dist: {name}" for name in project.get("dependencies", [])),
    ]
    for extra, names in project.get("optional-dependencies", {}).items():
        lines.append(f"Provides-Extra: {extra}")
        lines += [f"Requires-Dist: {name}; extra == '{extra}'" for name in names]
    return "".join(f"{line}\n" for line in lines)


def sources_of(package):
    """The files of a package and of its parts, by their names below the folder that has it."""
    kept = (path for path in package.rglob("*") if path.suffix == ".py" or path.name == "py.typed")
    return {path.relative_to(package.parent).as_posix(): (path.read_bytes(), 0o644) for path in sorted(kept)}


def files_of(tree, project):
    """The files of the wheel but for its list, with their modes, and its tag."""
    name, version = project["name"], project["version"]
    info, data = f"{name}-{version}.dist-info", f"{name}-{version}.data"
    shared = taken(tree / "lib" / SHARED)
    programs = {program: taken(tree / "bin" / program) for program in PROGRAMS}
    tag = f"py3-none-manylinux_2_{glibc_of([shared, *programs.values()])}_x86_64"
    files = {f"{name}/{SHARED}": (shared, 0o755), **sources_of(HERE / name)}
    for program, code in programs.items():
        files[f"{data}/scripts/{program}"] = (code, 0o755)
        page = f"share/man/man1/{program}.1"
        files[f"{data}/data/{page}"] = (taken(tree / page), 0o644)
    for paper in ("LICENSE", "NOTICES", "BUILT"):
        files[f"{info}/licenses/{paper}"] = (taken(tree / "share" / "doc" / "dotenvy" / paper), 0o644)
    files[f"{info}/METADATA"] = (metadata(project).encode(), 0o644)
    wheel = f"Wheel-Version: 1.0\nGenerator: dotenvy\nRoot-Is-Purelib: false\nTag: {tag}\n"
    files[f"{info}/WHEEL"] = (wheel.encode(), 0o644)
    return files, tag


def listed(files, info):
    """The file RECORD: each file with its sum and its size, and itself without."""
    lines = ""
    for name in sorted(files):
        digest = base64.urlsafe_b64encode(hashlib.sha256(files[name][0]).digest()).rstrip(b"=").decode()
        lines += f"{name},sha256={digest},{len(files[name][0])}\n"
    return lines + f"{info}/RECORD,,\n"


def write_wheel(tree, folder):
    """Writes the wheel into a folder, and returns its name."""
    project = tomllib.loads((HERE / "pyproject.toml").read_text())["project"]
    files, tag = files_of(Path(tree), project)
    return write_files(files, f"{project['name']}-{project['version']}", tag, folder)


def write_files(files, stem, tag, folder):
    """Writes the wheel with these files and a list of them, and returns its name."""
    info = f"{stem}.dist-info"
    files[f"{info}/RECORD"] = (listed(files, info).encode(), 0o644)
    moment = time.gmtime(max(int(os.environ.get("SOURCE_DATE_EPOCH", FIRST_TIME)), FIRST_TIME))[:6]
    wheel = f"{stem}-{tag}.whl"
    with zipfile.ZipFile(Path(folder) / wheel, "w", zipfile.ZIP_DEFLATED, compresslevel=9) as archive:
        # The format asks for what is about the wheel at its end.
        for name in sorted(files, key=lambda name: (name.startswith(info), name)):
            content, mode = files[name]
            entry = zipfile.ZipInfo(name, moment)
            entry.compress_type, entry.create_system = zipfile.ZIP_DEFLATED, 3
            entry.external_attr = (0o100000 | mode) << 16
            archive.writestr(entry, content)
    return wheel


def build_wheel(wheel_directory, config_settings=None, metadata_directory=None):
    """pip's call."""
    tree = (config_settings or {}).get("tree")
    if tree is None:
        raise Refused("which programs and which library? ./release.sh builds the wheel with all that it needs")
    return write_wheel(tree, wheel_directory)


def build_sdist(sdist_directory, config_settings=None):
    """pip's call for an archive of sources, which there isn't: nothing could build it without the toolchain."""
    raise Refused("there is no archive of sources")


def main():
    if len(sys.argv) != 3:
        sys.exit("usage: wheel_backend.py TREE FOLDER")
    try:
        print(write_wheel(sys.argv[1], sys.argv[2]))
    except Refused as error:
        sys.exit(f"wheel_backend.py: {error}")


if __name__ == "__main__":
    main()
