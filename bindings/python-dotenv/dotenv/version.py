"""The version of python-dotenv whose calls these are."""

from dotenvy.compat.version import __version__

__all__ = ["__version__"]
