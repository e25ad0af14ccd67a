"""Builds the wheel of the module `dotenv`, as pip's build backend and by itself. It has no code of the library, so the
package dotenvy has to be installed beside it.

usage: drop_in_backend.py FOLDER

It needs Python 3.11 or later, and the folder `python` beside this one.
"""

import sys
import tomllib
from pathlib import Path

HERE = Path(__file__).resolve().parent
REPOSITORY = HERE.parents[1]
sys.path.append(str(HERE.parent / "python"))

from wheel_backend import Refused, metadata, sources_of, taken, write_files  # noqa: E402  # it is beside


def build_wheel(wheel_directory, config_settings=None, metadata_directory=None):
    """pip's call."""
    project = tomllib.loads((HERE / "pyproject.toml").read_text())["project"]
    stem = f"{project['name'].replace('-', '_')}-{project['version']}"
    info = f"{stem}.dist-info"
    tag = "py3-none-any"
    files = sources_of(HERE / "dotenv")
    wheel = f"Wheel-Version: 1.0\nGenerator: dotenvy\nRoot-Is-Purelib: true\nTag: {tag}\n"
    scripts = "".join(f"{name} = {call}\n" for name, call in project["scripts"].items())
    about = {
        "METADATA": metadata(project, ["LICENSE"]),
        "WHEEL": wheel,
        "entry_points.txt": f"[console_scripts]\n{scripts}",
    }
    for name, text in about.items():
        files[f"{info}/{name}"] = (text.encode(), 0o644)
    files[f"{info}/licenses/LICENSE"] = (taken(REPOSITORY / "LICENSE"), 0o644)
    return write_files(files, stem, tag, wheel_directory)


def build_sdist(sdist_directory, config_settings=None):
    """pip's call for an archive of sources, which there isn't."""
    raise Refused("there is no archive of sources")


def main():
    if len(sys.argv) != 2:
        sys.exit("usage: drop_in_backend.py FOLDER")
    print(build_wheel(sys.argv[1]))


if __name__ == "__main__":
    main()
