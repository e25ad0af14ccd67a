"""The version of python-dotenv whose calls these are."""

__version__ = "1.0.1"
