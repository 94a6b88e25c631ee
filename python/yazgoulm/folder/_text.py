"""Paths as text for people."""
from .._text import printable


def shown(path: str) -> str:
    """A path whose names are by `to_name`, for people. A byte that is no UTF-8 is as \\xf6, and a backslash is two."""
    return printable(path.replace("\\", "\\\\"))
