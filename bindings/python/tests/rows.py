"""Reads rows, the test cases of crates/test_replay/data (docs/ROWS.md), and plays those of files."""

from __future__ import annotations

import re
from collections.abc import Iterator
from pathlib import Path
from typing import NamedTuple

from dotenvy import _library

DATA = Path(__file__).resolve().parents[3] / "crates/test_replay/data"
_FAULT = re.compile(r"fault at (\d+): (.*)", re.DOTALL)
_STATUS_OF_KIND = {"InvalidData": _library.NOT_UTF8, "Other": _library.TOO_MANY_READS}


class Row(NamedTuple):
    """A file with what is wanted of it; None is not checked."""

    name: str
    options: int
    block: bytes
    file: bytes
    items: list[tuple] | None
    loads: list[tuple[tuple, dict[bytes, bytes]] | None]


def text(written: str) -> bytes:
    """The bytes that a text of a row stands for."""
    repeated = re.sub(
        r"%\((\d+)\*([^)]*)\)", lambda found: int(found[1]) * found[2], written
    )
    parts = re.split(r"(%[0-9a-f]{2})", repeated)
    return b"".join(
        bytes.fromhex(part[1:]) if index % 2 else part.encode() for index, part in enumerate(parts)
    )


def _pair(written: str) -> tuple[bytes, bytes]:
    key, value = written.split("=", 1)
    return text(key), text(value)


def _fault(written: str) -> tuple[int, bytes, int] | None:
    """The status, the text and the index of a fault, if this is one."""
    if found := _FAULT.fullmatch(written):
        return _library.LINE_PARSE, text(found[2]), int(found[1])
    if written.startswith("io "):
        return _STATUS_OF_KIND[written[3:]], b"", 0
    if written.startswith("nul "):
        return _library.NUL, text(written[4:]), 0
    return None


def _list(field: str) -> list[str]:
    return field.split("; ") if field else []


def _item(written: str) -> tuple:
    fault = _fault(written)
    if fault:
        status, said, index = fault
        return status, b"", said, index
    return _library.OK, *_pair(written), 0


def _load(field: str) -> tuple[tuple, dict[bytes, bytes]] | None:
    if field == "*":
        return None
    answer, *pairs = field.split("; ")
    outcome = (_library.OK, b"", 0) if answer == "ok" else _fault(answer)
    if outcome is None:
        raise ValueError(f"no answer of a load: {answer}")
    return outcome, dict(_pair(pair) for pair in pairs)


def file_rows(name: str) -> Iterator[Row]:
    """The rows of the kind `file` in this file of rows."""
    for line in (DATA / name).read_text().splitlines():
        if not line.startswith("file|"):
            continue
        _, row, dialect, environment, file, items, load, override, _ = line.split("|")
        yield Row(
            row,
            {"v15": 0, "next": _library.NEXT_DIALECT}[dialect],
            _library.block_of(_pair(pair) for pair in _list(environment)),
            text(file),
            None if items == "*" else [_item(item) for item in _list(items)],
            [_load(load), _load(override)],
        )


def differences(row: Row) -> Iterator[str | None]:
    """For each thing that the row checks: how the library's answer differs, or None."""
    if row.items is not None:
        found = [item[:4] for item in _library.items(row.file, row.block, row.options)]
        yield None if found == row.items else f"{row.name}: items {found}, not {row.items}"
    for bit, wanted in zip((0, _library.OVERRIDE), row.loads):
        if wanted is not None:
            status, pairs, said, index = _library.load(row.file, row.block, row.options | bit)
            found = (status, said, index), pairs
            yield None if found == wanted else f"{row.name}: load {bit} {found}, not {wanted}"
