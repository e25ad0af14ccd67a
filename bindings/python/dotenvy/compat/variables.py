"""Cuts a value into texts and names in braces, as python-dotenv does. Reading a file doesn't use this."""

from __future__ import annotations

import re
from collections.abc import Iterator, Mapping
from typing import NamedTuple, Union

_NAME = re.compile(r"\$\{([^}:]*)(?::-([^}]*))?\}")


class Literal(NamedTuple):
    """A text."""

    value: str

    def resolve(self, env: Mapping[str, str | None]) -> str:
        """The text."""
        return self.value


class Variable(NamedTuple):
    """A name in braces, and what is after `:-`."""

    name: str
    default: str | None

    def resolve(self, env: Mapping[str, str | None]) -> str:
        """The value of the name, or the default if there is none."""
        return env.get(self.name, self.default) or ""


Atom = Union[Literal, Variable]


def parse_variables(value: str) -> Iterator[Atom]:
    """The texts and the names of a value, in order."""
    end = 0
    for found in _NAME.finditer(value):
        if found.start() > end:
            yield Literal(value[end:found.start()])
        yield Variable(found[1], found[2])
        end = found.end()
    if end < len(value):
        yield Literal(value[end:])
