"""Texts in the cells of a terminal. What the terminal may show in another width, or not at all, is escaped."""
import ctypes, time
from typing import Any, Callable, List, Tuple

MARKS = 3  # of combining characters on one before them: terminals drop more
UNITS = "kB", "MB", "GB", "TB", "PB", "EB"
_VARIANTS = range(0xFE00, 0xFE10)  # characters that change the width of the one before them
_wcwidth: Any = None


def width_by_system(char: str) -> int:
    """The cells of a character as curses counts them: by the C library's table. -1: it isn't one that is shown."""
    global _wcwidth
    if _wcwidth is None:
        _wcwidth = ctypes.CDLL(None).wcwidth
        _wcwidth.argtypes, _wcwidth.restype = [ctypes.c_wchar], ctypes.c_int
    width: int = _wcwidth(char)
    return width


class Cells:
    """Cuts and fills texts. `can_show` says whether the terminal has a character; each is asked once."""

    def __init__(self, is_utf_8: bool, width: Callable[[str], int] = width_by_system) -> None:
        self.is_utf_8, self.width, self.more = is_utf_8, width, "\u2026" if is_utf_8 else "~"

    def of(self, text: str) -> List[Tuple[str, int]]:
        """A printable text as what stands in its cells: each with how many these are."""
        if text.isascii():
            return [(char, 1) for char in text]
        found: List[Tuple[str, int]] = []
        marks = MARKS  # on the last cell, so that the first character is none
        for char in text:
            width = self.width(char) if self.is_utf_8 else -1
            if width == 0 and marks < MARKS and ord(char) not in _VARIANTS:
                marks += 1
                found[-1] = (found[-1][0] + char, found[-1][1])
            elif width > 0:
                marks = 0
                found.append((char, width))
            elif char.isascii():
                marks = 0
                found.append((char, 1))
            else:
                marks = MARKS
                found += [(it, 1) for it in _escaped(char)]
        return found

    def fitted(self, text: str, room: int, is_right: bool = False) -> str:
        """A text in just so many cells: filled with blanks, or cut, which `more` says."""
        if room <= 0:
            return ""
        cells = self.of(text)
        taken = sum(width for _, width in cells)
        if taken > room:
            while taken > room - 1:
                taken -= cells.pop()[1]
            cells.append((self.more, 1))
            taken += 1
        whole, blanks = "".join(it for it, _ in cells), " " * (room - taken)
        return blanks + whole if is_right else whole + blanks


def _escaped(char: str) -> str:
    return char.encode("ascii", "backslashreplace").decode()


def size_for_people(count: int) -> str:
    """A size in two or three digits and a unit, as the page has it."""
    if count < 1000:
        return f"{count} byte{'' if count == 1 else 's'}"
    value, unit = float(count), ""
    for unit in UNITS:
        value /= 1000
        if value < 999.5:
            break
    return f"{value:.1f} {unit}" if value < 9.95 else f"{value:.0f} {unit}"


def time_for_people(seconds: int, is_whole: bool = False) -> str:
    """A time in seconds since 1970: of today by the clock, unless it is to be whole."""
    try:
        it = time.localtime(seconds)
    except (OverflowError, OSError, ValueError):
        return f"{seconds} s"  # no calendar has it
    is_today = it[:3] == time.localtime()[:3]
    return time.strftime("%Y-%m-%d %H:%M:%S" if is_whole else "%H:%M:%S" if is_today else "%Y-%m-%d %H:%M", it)
