"""Texts for people: what could control a terminal or be invisible is escaped, and what is long is cut."""
import reprlib
from typing import Any, List, Tuple

_COLUMNS, _BEFORE = 72, 48  # that are shown at most of a text, and that are left to what comes before a fault


def printable(text: str) -> str:
    """A text for people. Escapes replace all that could control a terminal or be invisible."""
    return "".join(char if char.isprintable() else _escape(char) for char in text)


def _escape(char: str) -> str:
    code = ord(char)
    if 0xF780 <= code <= 0xF7FF:
        return f"\\x{code - 0xF700:02x}"
    if code < 0x80:
        return char.encode("unicode_escape").decode()
    return f"\\u{code:04x}" if code < 0x10000 else f"\\U{code:08x}"


def said(value: Any) -> str:
    """A value as Python writes it, cut where it is long, and its type where it can't be written."""
    try:
        return reprlib.repr(value)
    except Exception:  # an int of more digits than Python writes, or an object whose __repr__ fails
        return f"this {type(value).__name__}"


def marked(formula: str, place: int, indent: str = "    ") -> str:
    """A formula on one line, and below it a caret under the byte `place` of its UTF-8."""
    raw = formula.encode("utf-8", "surrogatepass")[:place]
    count = sum(byte & 0xC0 != 0x80 for byte in raw)  # of the characters that begin before it
    return marked_between(formula[:count], formula[count:], indent)


def marked_between(before: str, after: str, indent: str = "    ") -> str:
    """A text in two parts on one line, cut to what is near, and below it a caret under the begin of the second."""
    left, right = _cells(before[-_COLUMNS:]), _cells(after[:_COLUMNS])
    room = max(_BEFORE, _COLUMNS - _columns(right))
    while _columns(left) > room:
        del left[0]
    while _columns(right) > _COLUMNS - _columns(left):
        del right[-1]
    first = "..." if len(left) < len(before) else ""
    last = "..." if len(right) < len(after) else ""
    line = first + "".join(shown for shown, _ in left + right) + last
    return f"{indent}{line}".rstrip() + f"\n{indent}{' ' * (len(first) + _columns(left))}^"


def _cells(text: str) -> List[Tuple[str, int]]:
    """Each character as it is printed, with the columns that it takes there."""
    return [(char, _width(char)) if char.isprintable() else (_escape(char), len(_escape(char))) for char in text]


def _width(char: str) -> int:
    if char.isascii():
        return 1
    import unicodedata  # which few need

    if unicodedata.category(char) in ("Mn", "Me"):
        return 0
    return 2 if unicodedata.east_asian_width(char) in "WF" else 1


def _columns(cells: List[Tuple[str, int]]) -> int:
    return sum(width for _, width in cells)
