"""A volume in a file: it is written beside its place and put there once it is whole on the disk; and read back. And one
that is kept in a folder, by a journal, with the thread that makes its turns."""
import os, stat, threading, warnings, weakref
from typing import Any, Callable, Optional, Tuple

from ._text import said
from ._types import BadSave, Kept, NotKept, refusal

_NOT_OPEN, _SYSTEM, _BAD_SAVE, _OTHER_VERSION = 25, 45, 47, 48
NEVER = (1 << 64) - 1
_LONGEST = 1.0  # seconds until the next turn of a journal, which may have to be cut anew
_NAME = 40  # characters of a file's name that the one beside it has too


def _taken(path: Any) -> str:
    if not isinstance(path, (str, bytes, os.PathLike)):
        raise TypeError(f"path must be a str, bytes or a path, not {said(path)}")
    text = os.fsdecode(path)
    if "\0" in text:
        raise ValueError("path has a NUL")
    return text


def _is_open(path: Any) -> bool:
    """Whether it is the number of an open file."""
    if isinstance(path, bool) or not isinstance(path, int):
        return False
    if not 0 <= path <= 2_147_483_647:
        raise ValueError(f"path is {path}, which is no number of an open file")
    return True


def save(handle: Any, path: Any) -> None:
    """Saves a volume. The file that was at the path is there, whole, until the new one is."""
    if _is_open(path):
        handle.save(path)
        return
    place = os.path.realpath(_taken(path))  # behind a link its file is replaced, and not the link
    folder, name = os.path.split(place)
    beside = os.path.join(folder, f".{name[:_NAME]}.{os.urandom(8).hex()}")
    try:
        with open(beside, "xb", buffering=0) as file:
            if os.path.exists(place):
                os.chmod(file.fileno(), stat.S_IMODE(os.stat(place).st_mode))
            handle.save(file.fileno())
            os.fsync(file.fileno())
        os.replace(beside, place)
    except BaseException as error:
        if os.path.lexists(beside):  # else it is in its place, or was never made
            os.unlink(beside)
        if isinstance(error, OSError) and error.filename in (None, beside):
            error.filename, error.filename2 = place, None
        raise
    _sync(folder)


def _sync(folder: str) -> None:
    """Has the disk keep the names of a folder, with the one that was replaced."""
    descriptor = os.open(folder, os.O_RDONLY | os.O_DIRECTORY | os.O_CLOEXEC)
    try:
        os.fsync(descriptor)
    finally:
        os.close(descriptor)


def load(handle: Any, path: Any) -> None:
    """Puts the volume of a file in place of a handle's own. Where it is refused the handle is closed."""
    if _is_open(path):
        refused = handle.load(path)
    else:
        with open(_taken(path), "rb", buffering=0) as file:
            refused = handle.load(file.fileno())
    if refused is not None:
        code, name, place, node, fault = refused
        bad = BadSave(code, name, "load", (path,), place, fault)
        bad.node = node or None
        raise bad


# ---- a volume that is kept in a folder ----


def sync_number(sync: Any) -> int:
    """What the library takes for `sync`."""
    if sync == "always":
        return 0
    if sync == "never":
        return NEVER
    if isinstance(sync, bool) or not isinstance(sync, int):
        raise TypeError(f'sync must be "always", "never" or milliseconds, not {said(sync)}')
    if not 1 <= sync <= 2_147_483_647:
        raise ValueError(f"sync is {sync}, and may be 1 to 2147483647 milliseconds")
    return sync


def keep(handle: Any, path: Any, sync: int, damaged: bool) -> Tuple[int, int]:
    """Puts the volume that a folder keeps in place of a handle's own. How many changes its journal gave, and how many
    bytes at its end were no whole change."""
    text = _taken(path)
    code, name, replayed, dropped, place, reason, fault = handle.keep(os.fsencode(text), sync, damaged)
    if code == _SYSTEM:
        raise OSError(fault, os.strerror(fault), text)
    if code in (_BAD_SAVE, _OTHER_VERSION):
        raise BadSave(code, name, "Volume", (path,), place, reason or name)
    if code:
        raise refusal(code, name, place, "Volume", (path,))
    return replayed, dropped


def turn(handle: Any) -> Tuple[Optional[Kept], float]:
    """Makes a turn: what it tells, and how many seconds may pass until the next."""
    told = handle.keep_turn()
    if told is None or told[0] == _NOT_OPEN:  # in memory alone, as in the child of a fork
        return None, _LONGEST
    code, name, due, size, unsynced, cutting, halted, fault = told
    why = f"{name}: {os.strerror(fault)}" if fault else name
    return Kept(size, unsynced, cutting, halted, why if code else None), min(due / 1000, _LONGEST)


def synced(code: int, call: str) -> None:
    """Raises what a sync was refused by; in the child of a fork there is nothing to sync."""
    if code not in (0, _NOT_OPEN):
        raise NotKept(code, "Halted", call, ())


def closed(status: int) -> None:
    """Raises what the end of a journal was refused by."""
    if status:
        raise NotKept(status, "Unkept", "close", ())


class Turns:
    """A thread that makes the turns of a volume, while there is one."""

    def __init__(self, turn: "weakref.WeakMethod[Callable[[], Tuple[Optional[Kept], float]]]", name: str, most: float) -> None:
        self._ended = threading.Event()
        self._thread = threading.Thread(target=_turns, args=(turn, self._ended, name, most), daemon=True)
        self._thread.start()

    def end(self) -> None:
        self._ended.set()


def _turns(found: Any, ended: threading.Event, name: str, most: float) -> None:
    wait, said_last = most, None
    while not ended.wait(wait):
        turn = found()
        if turn is None:
            return
        try:
            kept, due = turn()
        except ValueError:  # the volume is closed
            return
        del turn
        if kept is None:  # of a parent's process
            return
        wait = max(min(due, most), 0.001)  # others have their turn too
        if kept.fault != said_last and kept.fault:
            warnings.warn(f"the journal in {name}: {kept.fault}", RuntimeWarning)
        said_last = kept.fault
