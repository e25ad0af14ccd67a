"""The command line, as `python -m dotenv`."""

from .cli import cli

if __name__ == "__main__":
    cli(prog_name="dotenv")
