"""What the command writes, and how it ends."""
import errno, os, select, signal, sys

from old_mirror.mirror import FolderGone
from yazgoulm import BadQuery, Error

UNUSABLE = 2  # the command can't begin with its arguments
ENDED = 3  # the folder, or another thing that it needs, has gone
UNREAD = 141  # nobody reads standard output, as after SIGPIPE
NAME = "live_folder"


class Unread(Exception):
    """Nobody reads standard output any more, as after `| head -1`."""


class Trouble(Error):
    """Why the command can't go on, in one line, and its exit status."""

    def __init__(self, line, status):
        super().__init__(line)
        self.status = status


def say(line):
    """Writes a line to standard output at once, in the characters that it has."""
    if sys.stdout is None:
        raise Trouble(f"standard output: {os.strerror(errno.EBADF)}", ENDED)
    try:
        sys.stdout.buffer.write(f"{line}\n".encode(sys.stdout.encoding, "backslashreplace"))
        sys.stdout.buffer.flush()
    except BrokenPipeError:
        raise Unread() from None
    except OSError as error:
        let_go()
        raise Trouble(f"standard output: {error.strerror}", ENDED) from None


def let_go():
    """Standard output takes no more: what Python still has for it is dropped, so that its last flush doesn't fail."""
    os.dup2(os.open(os.devnull, os.O_WRONLY), sys.stdout.fileno())


def tell(line):
    """Writes what was found, and doesn't end the command, to standard error."""
    print(f"{NAME}: {printable(line)}", file=sys.stderr, flush=True)


def printable(text):
    """A text without what could control a terminal."""
    return "".join(char if char.isprintable() else char.encode("unicode_escape").decode() for char in text)


def is_read():
    """Whether standard output has a reader, or is no pipe."""
    if sys.stdout is None:
        return True
    waiting = select.poll()
    waiting.register(sys.stdout, 0)  # reports only that the other end has gone
    return not waiting.poll(0)


def carried_out(main):
    """The status of the command. What ends it is said on standard error, and Ctrl-C ends it quietly."""
    signal.signal(signal.SIGINT, signal.SIG_DFL)
    try:
        return main() or 0
    except Unread:
        let_go()
        return UNREAD
    except Trouble as trouble:
        tell(str(trouble))
        return trouble.status
    except BadQuery as bad:
        _, _, marked = str(bad).partition("\n")
        print(f"{NAME}: the formula can't be read: BadQuery at byte {bad.place}\n{marked}", file=sys.stderr)
        return UNUSABLE
    except FolderGone as gone:
        tell(gone.strerror)
        return ENDED
    except OSError as error:
        tell(f"{error.filename}: {error.strerror}" if error.filename is not None else error.strerror)
        return ENDED if error.errno == errno.ENOSPC else UNUSABLE
