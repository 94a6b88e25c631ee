"""What a formula can ask of a folder's entries, and what they have of it."""
from typing import Any, Dict, Iterator, List, Union

from .. import NotFound
from .._formulas import NUMBER, Warned, Words, no_entry, others
from .._types import Attr, Op
from ._calls import fold
from ._folder import Folder
from ._lines import Line

# What the entries of a folder have.
WORDS = Words(("name", "iname", "size", "last_modified", "kind"), lambda attr: "." in attr, True, fold)

STATS = "inode", "ctime", "mtime"  # columns of what was read of an entry on disk


def missing(folder: Folder, formula: str) -> Iterator[Warned]:
    """The attributes of a formula that no entry has, once all were looked at."""
    for it in others(formula, WORDS):
        attr = Attr(it.attr)
        has: List[Union[Attr, str, int, Op]] = [attr, "*", Op.EQ]
        if it.attr.endswith(NUMBER):
            has = [attr, 0, Op.GE, attr, 0, Op.LT, Op.OR]
        if not folder.volume.fetch(has):
            yield no_entry(it)


def value_of(folder: Folder, node: int, column: str) -> Union[str, int, None]:
    """What an entry has now in a column of STATS, or as an extended attribute. None: it has none."""
    try:
        if column in STATS:
            value: Union[str, int, None] = getattr(folder.entry(node), column)
        else:
            value = folder.volume.entry(node).attributes.get(column)
    except NotFound:  # it has gone, and a later line says so
        return None
    return value


def attributes(folder: Folder, line: Line) -> Dict[str, Any]:
    """The extended attributes that a line's entry has now."""
    if line.what in ("left", "anew"):
        return {}
    try:
        has = folder.volume.entry(line.node).attributes
    except NotFound:  # it has gone, and a later line says so
        return {}
    return {name: value for name, value in has.items() if "." in name and not name.endswith(NUMBER)}
