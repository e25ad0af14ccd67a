"""The texts and the names of a value."""

from dotenvy.compat.variables import Atom, Literal, Variable, parse_variables

__all__ = ["Atom", "Literal", "Variable", "parse_variables"]
