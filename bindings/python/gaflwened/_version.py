"""The version. It stands in the file VERSION of the repository, from which backend.py writes this file when it makes the wheel."""

__version__ = "0+unbuilt"
