"""Why a call was refused, where its arguments alone show it: a name that breaks its rule, or more than may be."""
from typing import Any, Iterator, Tuple

from ._names import encode, encode_name, fault
from ._text import said

RESERVED = "name", "size", "last_modified"  # what no attribute can have as its name
_MOST_TEXT, _MOST_PATH = 4096, 65_536  # bytes of a value, and of a path
_MOST_SIZE, _MOST_PUSHES = (1 << 63) - 1, 4096

# The name that a call is given: the number of its argument, what it is called, and whether an entry is to have it.
_NAMES = {
    "create": (0, "name", True), "move": (2, "name", True), "rename": (1, "name", True), "find": (0, "name", True),
    "set": (1, "attr", False), "unset": (1, "attr", False), "attribute": (1, "name", False),
}  # fmt: skip


def reason(code: int, call: str, given: Tuple[Any, ...]) -> str:
    """What is wrong with an argument of a call that was refused, or an empty text."""
    explain = _REASONS.get(code)
    return explain(call, given) if explain else ""


def _names(call: str, given: Tuple[Any, ...]) -> Iterator[Tuple[str, Any, bool]]:
    """Each name that a call was given: what it is called, the name, and whether an entry is to have it."""
    if call in _NAMES:
        at, argument, of_entry = _NAMES[call]
        yield argument, given[at], of_entry
    for attr, _ in _attributes(call, given):
        yield "a name in attributes", attr, False


def _attributes(call: str, given: Tuple[Any, ...]) -> Any:
    """The names and values of `attributes`."""
    return given[5].items() if call == "create" and len(given) > 5 else ()


def _bad_name(call: str, given: Tuple[Any, ...]) -> str:
    if call == "find_path":
        path = encode_name("path", given[0])
        if len(path) > _MOST_PATH:
            return f"path has {len(path)} bytes, and may have {_MOST_PATH}"
        names = [("a name in path", it.decode(), True) for it in path.split(b"/") if it]
    else:
        names = [*_names(call, given)]
    return next(filter(None, (fault(*it) for it in names)), "")


def _reserved(call: str, given: Tuple[Any, ...]) -> str:
    for argument, name, of_entry in _names(call, given):
        if not of_entry and encode_name(argument, name).decode() in RESERVED:
            return f"{argument} is {said(name)}, which no attribute can have as its name"
    return "the root can't be changed"


def _too_long(call: str, given: Tuple[Any, ...]) -> str:
    values = [("value", given[2])] if call == "set" else []
    if call in ("open", "fetch"):
        values = [(f"values[{at}]", value) for at, value in enumerate(given[-1])]
    for attr, value in _attributes(call, given):
        values.append((f"attributes[{said(attr)}]", value[0] if isinstance(value, tuple) else value))
    for argument, value in values:
        size = len(encode(argument, value)) if isinstance(value, str) else 0
        if size > _MOST_TEXT:
            return f"{argument} has {size} bytes, and may have {_MOST_TEXT}"
    return f"size may be {_MOST_SIZE} at most"


def _misuse(call: str, given: Tuple[Any, ...]) -> str:
    pushes = given[0] if call in ("open", "fetch") else ()
    is_over = isinstance(pushes, tuple) and len(pushes) > _MOST_PUSHES
    return f"formula has {len(pushes)} pushes, and may have {_MOST_PUSHES}" if is_over else ""


_REASONS = {1: _bad_name, 11: _reserved, 12: _too_long, 40: _misuse}
