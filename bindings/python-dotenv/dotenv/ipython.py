"""The line magic of IPython."""

from dotenvy.compat.ipython import load_ipython_extension

__all__ = ["load_ipython_extension"]
