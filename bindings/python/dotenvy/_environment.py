"""What a file can see of an environment, and what a load writes to the environment of the process."""

from __future__ import annotations

import os
import re
from collections.abc import Mapping

# A dollar and what a name after it can be: in braces, or a run of ASCII characters, with a byte of another character
# right after it. Names may overlap, so only the dollar is consumed.
_MENTION = re.compile(rb"\$(?=(\{)(?:([^}]{0,255})\})?|(\w*)([\x80-\xff])?)")

# A file with more dollars sees the whole environment.
MOST_DOLLARS = 1000


def mentioned(file: bytes) -> set[bytes] | None:
    """The names that a value of this file can mention, in either dialect, and perhaps others; None stands for any name.

    Any name is what a file can mention that has very many dollars, a very long name in braces, or a bare name that can
    have other letters than those of ASCII.
    """
    names: set[bytes] = set()
    if b"$" not in file:
        return names
    if file.count(b"$") > MOST_DOLLARS:
        return None
    for found in _MENTION.finditer(file):
        brace, braced, bare, other = found.groups()
        if other or (brace and braced is None):
            return None
        if brace:
            names.add(braced)
        else:
            names.update((bare, bare.partition(b"_")[0]))
    return names


def of_process(names: set[bytes] | None) -> dict[bytes, bytes]:
    """The variables of the process with these names, or all of them."""
    found = {name: os.environb.get(name) for name in (list(os.environb) if names is None else names)}
    return {name: value for name, value in found.items() if value is not None}


def of_mapping(names: set[bytes] | None, environment: Mapping[str, str]) -> dict[bytes, bytes]:
    """The variables of an environment that is given, with these names, or all of them."""
    wanted = list(environment) if names is None else [name.decode(errors="surrogateescape") for name in names]
    found = {name: environment.get(name) for name in wanted}
    return {_bytes_of(name): _bytes_of(value) for name, value in found.items() if value is not None}


def _bytes_of(text: str) -> bytes:
    """A text as UTF-8, in any locale. Bytes of the process that were no text are the same bytes again."""
    try:
        return text.encode(errors="surrogateescape")
    except UnicodeEncodeError:
        # The library doesn't count what isn't UTF-8.
        return text.encode(errors="surrogatepass")


def seen_by(file: bytes, environment: Mapping[str, str] | None = None) -> dict[bytes, bytes]:
    """The variables that values of this file can mention, of an environment; None is that of the process."""
    names = mentioned(file)
    if environment is None or environment is os.environ:
        return of_process(names)
    return of_mapping(names, environment)


def seen_by_load(file: bytes) -> dict[bytes, bytes]:
    """The variables of the process that count in a load of this file.

    Where a value has a NUL, these are all: whether it is an error depends on whether its name has a value already.
    """
    return of_process(None) if b"\0" in file else seen_by(file)


def is_text(value: bytes | None) -> bool:
    """Whether there is a value, and it is UTF-8. Any other doesn't count as one."""
    if value is None:
        return False
    try:
        value.decode()
    except UnicodeDecodeError:
        return False
    return True


def set_loaded(loaded: dict[bytes, bytes], seen: dict[bytes, bytes], override: bool) -> None:
    """Writes to the process what a load made of the variables that it saw: what the file declares, and nothing else.

    A variable that another thread set meanwhile counts as one that exists.
    """
    for name, value in loaded.items():
        if seen.get(name) != value and (override or not is_text(os.environb.get(name))):
            os.environb[name] = value
