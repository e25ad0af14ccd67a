"""Turns the content of files of any encoding into UTF-8, and back."""

from __future__ import annotations

import codecs
import locale

from .. import UnsupportedError


def _is_utf8(encoding: str) -> bool:
    # The library knows a byte order mark, so that of "utf-8-sig" stays.
    return codecs.lookup(encoding).name in ("utf-8", "utf-8-sig")


def name_of(encoding: str | None) -> str:
    """The name of an encoding; None is that of the locale."""
    return locale.getpreferredencoding(False) if encoding is None else encoding


def bytes_of(content: str | bytes) -> bytes:
    """What a stream gave, as UTF-8 if it is text."""
    return content.encode(errors="surrogatepass") if isinstance(content, str) else bytes(content)


def to_utf8(content: bytes, encoding: str | None) -> bytes:
    """Content as UTF-8. What isn't text in its encoding raises `UnicodeDecodeError`."""
    name = name_of(encoding)
    text = content.decode(name)
    return content if _is_utf8(name) else text.encode(errors="surrogatepass")


def to_utf8_and_back(content: bytes, encoding: str | None) -> bytes:
    """Content as UTF-8, for an edit. UTF-8 stays as it is, and other content has to come back from it unchanged.

    No content has no mark yet, which some encodings write.
    """
    name = name_of(encoding)
    if _is_utf8(name) or not content:
        return content
    text = content.decode(name)
    if text.encode(name) != content:
        raise UnsupportedError(f"encoding={name!r}: written again, the file would have other bytes")
    return text.encode()


def from_utf8(content: bytes, encoding: str | None) -> bytes:
    """UTF-8 in an encoding. A character that the encoding lacks raises `UnicodeEncodeError`."""
    name = name_of(encoding)
    return content if _is_utf8(name) else content.decode().encode(name)
