"""The bindings of a text."""

from dotenvy.compat.parser import Binding, Original, parse_stream

__all__ = ["Binding", "Original", "parse_stream"]
