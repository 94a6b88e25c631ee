"""A query as a file, and a process that keeps what many of them ask for."""
import os
from typing import Any, List, NamedTuple, Optional

from .._text import printable
from ._terminal import UNUSABLE, Trouble

SUFFIX = ".query"
_MOST = 1 << 16  # bytes of a file
_KEYS = "folder", "formula", "skip", "links", "maildir", "columns", "tree", "relative"


class QueryFile(NamedTuple):
    """What a file says. Paths are whole: those in the file begin at its own folder, and `~` is the user's."""

    path: str
    folder: str
    formula: str
    skip: List[str]
    links: Optional[str]
    maildir: Optional[str]
    columns: Optional[str]
    tree: bool
    relative: bool


def read(path: str) -> QueryFile:
    """Reads a file. Trouble: it isn't one of a query, and the line says what is wrong with it."""
    try:
        with open(path, "rb") as file:
            text = file.read(_MOST + 1).decode("utf-8", "surrogateescape")
    except OSError as error:
        raise Trouble(f"{path}: {error.strerror}", UNUSABLE) from None
    if len(text) > _MOST:
        raise Trouble(f"{path} has over {_MOST} bytes, so it is no query", UNUSABLE)
    import configparser  # which few need

    parser = configparser.ConfigParser(interpolation=None, delimiters=("=",), comment_prefixes=("#", ";"))
    try:
        parser.read_string(text, path)
    except configparser.Error as error:
        raise Trouble(f"{path} is no query: {' '.join(printable(str(error)).split())}", UNUSABLE) from None
    if parser.sections() != ["query"]:
        raise Trouble(f"{path} is no query: it has to have one part, [query]", UNUSABLE)
    return _of(path, parser["query"])


def _of(path: str, part: Any) -> QueryFile:
    for key in part:
        if key not in _KEYS:
            raise Trouble(f"{path}: a query has no {key}, only {', '.join(_KEYS)}", UNUSABLE)
    if "\0" in "".join(part.values()):
        raise Trouble(f"{path} is no query: it has a NUL", UNUSABLE)
    if not part.get("folder"):
        raise Trouble(f"{path}: it doesn't say which folder, as folder = ~/Documents", UNUSABLE)
    if part.get("links") and part.get("maildir"):
        raise Trouble(f"{path}: it has both links and maildir, and can have one", UNUSABLE)
    flags = {}
    for key in ("tree", "relative"):
        try:
            flags[key] = part.getboolean(key, fallback=False)
        except ValueError:
            raise Trouble(f"{path}: {key} has to be yes or no", UNUSABLE) from None
    return QueryFile(
        path, _whole(path, part["folder"]), part.get("formula") or "name==*", part.get("skip", "").split(),
        _whole(path, part["links"]) if part.get("links") else None,
        _whole(path, part["maildir"]) if part.get("maildir") else None, part.get("columns") or None, **flags,
    )  # fmt: skip


def _whole(path: str, word: str) -> str:
    return os.path.join(os.path.dirname(os.path.abspath(path)), os.path.expanduser(word))
