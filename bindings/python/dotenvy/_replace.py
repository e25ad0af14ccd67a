"""Reads a file, and replaces it as a whole: whoever reads it sees the old file or the new one, and nothing between."""

from __future__ import annotations

import contextlib
import errno
import os
import stat
import tempfile
from typing import NamedTuple


class OldFile(NamedTuple):
    """The bytes of a file, and what the system tells of it; None of a file that is not there."""

    content: bytes
    state: os.stat_result | None


def read_old(path: str, follow_symlinks: bool) -> OldFile:
    """The file at this path. What is no file raises `OSError`; so does a symbolic link, unless links are followed."""
    others = os.O_NONBLOCK | (0 if follow_symlinks else os.O_NOFOLLOW)
    try:
        # Where it is a folder, `open` closes what its opener opened, and its error names the path.
        file = open(path, "rb", opener=lambda name, flags: os.open(name, flags | others))
    except FileNotFoundError:
        return OldFile(b"", None)
    with file:
        state = os.fstat(file.fileno())
        if not stat.S_ISREG(state.st_mode):
            raise OSError(errno.EINVAL, "not a regular file", path)
        return OldFile(file.read(), state)


def replace(path: str, content: bytes, old: os.stat_result | None) -> None:
    """Has this content at a path, with the owner and the permissions of the old file; without one, for its owner only.

    The content is written beside the file, under a name that no file has, and then takes its place. Where a step fails,
    the old file is as it was, and nothing is left; only where the last one fails, of the folder, the new file is there.
    """
    # A `..` after a link leads to another folder than the text of the path says.
    folder = os.path.realpath(os.path.dirname(path))
    try:
        _put_in_place(path, folder, content, old)
    except OSError as error:
        # It has no name, or that of the file beside, which tells nobody anything.
        raise OSError(error.errno, error.strerror, path) from None
    _sync_folder(folder)


def _put_in_place(path: str, folder: str, content: bytes, old: os.stat_result | None) -> None:
    """Writes a file in the folder of a path, and has it take the place of what is there."""
    place, beside = tempfile.mkstemp(prefix=".dotenvy_", dir=folder)
    try:
        with open(place, "wb") as file:
            if old is not None:
                _keep_state(place, old)
            file.write(content)
            file.flush()
            os.fsync(place)
        os.replace(beside, path)
    except BaseException:
        # An interrupt can come after the file took its place.
        with contextlib.suppress(FileNotFoundError):
            os.unlink(beside)
        raise


def _keep_state(place: int, old: os.stat_result) -> None:
    made = os.fstat(place)
    if (made.st_uid, made.st_gid) != (old.st_uid, old.st_gid):
        os.fchown(place, old.st_uid, old.st_gid)
    os.fchmod(place, stat.S_IMODE(old.st_mode))


def _sync_folder(folder: str) -> None:
    place = os.open(folder, os.O_RDONLY | os.O_DIRECTORY | os.O_CLOEXEC)
    try:
        os.fsync(place)
    finally:
        os.close(place)
