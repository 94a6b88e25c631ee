"""What the commands share: how they write, and how they end."""
import errno, math, os, re, select, signal, sys, time
from typing import Any, Callable, Optional, Tuple

from .. import BadQuery, Error, Refused
from .._text import marked, printable
from ._folder import FolderGone

UNUSABLE = 2  # the command can't begin with its arguments
ENDED = 3  # the folder, or another thing that it needs, has gone
NO_SLOT = 23
UNREAD = 141  # nobody reads standard output, as after SIGPIPE


class Unread(Exception):
    """Nobody reads standard output any more, as after `| head -1`."""


class Progress:
    """How far something is that takes long: a line on standard error, where that is a terminal, which goes again."""

    AFTER, PAUSE = 1.0, 0.1  # seconds: before the first line, and from one to the next

    def __init__(self, name: str, is_quiet: bool) -> None:
        self.name, self.is_shown = name, False
        self.due = math.inf if is_quiet or not (sys.stderr and sys.stderr.isatty()) else time.monotonic() + self.AFTER

    def show(self, line: str) -> None:
        if time.monotonic() >= self.due:
            sys.stderr.write(f"\r{self.name}: {line}")
            sys.stderr.flush()
            self.is_shown, self.due = True, time.monotonic() + self.PAUSE

    def end(self) -> None:
        if self.is_shown:
            sys.stderr.write("\r\x1b[K")
            sys.stderr.flush()


class Trouble(Error):
    """Why a command can't go on, in one line, and its exit status."""

    def __init__(self, line: str, status: int) -> None:
        super().__init__(printable(line))
        self.status = status


def need_output() -> None:
    """Standard output is open, or the command can't begin."""
    if sys.stdout is None:
        raise Trouble(f"standard output: {os.strerror(errno.EBADF)}", ENDED)


def write(text: bytes) -> None:
    """Writes to standard output at once."""
    need_output()
    try:
        sys.stdout.buffer.write(text)
        sys.stdout.buffer.flush()
    except BrokenPipeError:
        raise Unread() from None
    except OSError as error:
        let_go()
        raise Trouble(f"standard output: {error.strerror}", ENDED) from None


def let_go() -> None:
    """Standard output takes no more: what Python still has for it is dropped, so that its last flush doesn't fail."""
    os.dup2(os.open(os.devnull, os.O_WRONLY), sys.stdout.fileno())


def say(line: str) -> None:
    """Writes a line to standard output at once, in the characters that it has."""
    encoding = sys.stdout.encoding if sys.stdout else "utf-8"
    write(f"{line}\n".encode(encoding, "backslashreplace"))


def tell(name: str, line: str) -> None:
    """Writes what a command found, and doesn't end it, to standard error."""
    if sys.stderr:
        print(f"{name}: {printable(line)}", file=sys.stderr, flush=True)


def warn(name: str, text: str) -> None:
    """Writes a warning with a mark in its formula to standard error."""
    if sys.stderr:
        print(f"{name}: {text}", file=sys.stderr, flush=True)


def is_read() -> bool:
    """Whether standard output has a reader, or is no pipe."""
    if sys.stdout is None:
        return True
    waiting = select.poll()
    waiting.register(sys.stdout, 0)  # reports only that the other end has gone
    return not waiting.poll(0)


def fault(formula: str, refused: BadQuery) -> str:
    """Why a formula can't be read, with a mark below its fault."""
    hint = ""
    if not re.search("[=<>]", formula):
        hint = "\nput the formula in quotes, as 'size>1000'; names are asked for by 'name==*.txt'"
    return f"the formula can't be read: BadQuery at byte {refused.place}\n{marked(formula, refused.place)}{hint}"


def carried_out(name: str, main: Callable[[], Optional[int]]) -> int:
    """The status of a command. What ends it is said on standard error, and Ctrl-C ends it quietly."""
    signal.signal(signal.SIGINT, signal.SIG_DFL)
    try:
        return main() or 0
    except Unread:
        let_go()
        return UNREAD
    except (Error, OSError, ValueError, MemoryError) as error:
        line, status = reason(error)
        if sys.stderr:
            print(f"{name}: {line}", file=sys.stderr)
        return status


def reason(error: Any) -> Tuple[str, int]:
    """A line that says why a command can't go on, and its status."""
    if isinstance(error, BadQuery) and error.arguments and isinstance(error.arguments[0], str):
        return fault(error.arguments[0], error), UNUSABLE
    if isinstance(error, Trouble):
        return str(error), error.status
    if isinstance(error, FolderGone):
        return error.strerror, ENDED
    if isinstance(error, MemoryError):
        return "there is no memory for it", ENDED
    if isinstance(error, Refused) and error.code == NO_SLOT:
        return "64 windows are open, and no more can be: close one", UNUSABLE
    if isinstance(error, OSError) and not isinstance(error, Refused):
        where = f"{printable(str(error.filename))}: " if error.filename is not None else ""
        return f"{where}{error.strerror}", ENDED if error.errno == errno.ENOSPC else UNUSABLE
    return printable(str(error)), UNUSABLE
