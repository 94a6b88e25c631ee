"""A folder on disk, kept in a volume by the library, and windows on it."""
import errno, math, os, select, sys, time, weakref
from operator import length_hint
from typing import Any, Callable, Dict, Iterable, List, NamedTuple, NoReturn, Optional, Set, Tuple, Union

from .. import _arguments
from .._names import encode, to_name
from .._text import said
from .._types import ROOT, Error, Refused, refusal
from .._volume import Volume
from ._calls import FolderCalls
from ._lines import Line, sentence
from ._text import shown

Path = Union[str, bytes, "os.PathLike[Any]"]

SECONDS = 0.3  # the longest that a wait goes on without a look at whether the folder was closed
PACE = 0.001  # seconds from one turn to the next, where much happens: less turns cost less
IN_A_ROW = 100  # lines of an `async for`, after which the loop has a turn
_AT_ONCE = 256  # lines that are taken at a time
_FOR_EVER = (1 << 64) - 1
_TOO_LONG, _NO_SLOT, _MISUSE, _SYSTEM, _GONE = 12, 23, 40, 45, 46
# The statuses that the calls of a folder answer.
_NAMES = {
    2: "NoNode", 3: "NotFolder", 4: "NoEntry", 7: "NotEmpty", 12: "TooLong", 13: "Exhausted", 15: "NoMemory",
    20: "BadQuery", 23: "NoSlot", 25: "NotOpen", 31: "NotUtf8", 40: "Misuse",
}  # fmt: skip


class FolderGone(Error, FileNotFoundError):
    """The folder that is watched was moved or removed, or its disk has gone."""


class Turned(NamedTuple):
    """What a turn did. `more`: not all was taken, so the next turn is due at once. `due`: in so many seconds the next
    turn is due, also if `fileno()` can't be read; None: only once it can. `listed`: the first look at everything has
    ended. `settled`: nothing waits, so the volume is what was on disk. `entries` is how many are below the folder."""

    more: bool
    due: Optional[float]
    listed: bool
    settled: bool
    entries: int


class Stat(NamedTuple):
    """What was last read of an entry on disk: `kind` "file", "folder", "link" or "other", its inode, its device (major
    number * 2**32 + minor number), and its times in nanoseconds since 1970. `born` is 0 where the file system doesn't
    tell, and the `mtime` of a folder is 0."""

    kind: str
    inode: int
    device: int
    born: int
    ctime: int
    mtime: int


class _Taken:
    """Lines that were taken of the library, up to the one that is numbered `last`: the `rest` wasn't given yet, and the
    `notices` weren't told."""

    def __init__(self, last: int, lines: List[Line], notices: Iterable[Line]) -> None:
        self.last, self.lines, self.rest, self.notices = last, lines, iter(lines), iter(notices)

    def left(self) -> List[Line]:
        """The rest, which stays."""
        return self.lines[len(self.lines) - length_hint(self.rest) :]


class Window:
    """A live query on a folder: `number` is its number in the folder's lines, `formula` what it was opened with. It
    stays open until it is closed, or its folder is. As a context manager it is closed at the end."""

    def __init__(self, folder: "Folder", formula: str, number: int) -> None:
        self.folder, self.formula, self.number = folder, formula, number

    def rows(self) -> List[int]:
        """The nodes that match now, by rising number."""
        found: List[int] = self.folder._locked(self._rows)
        return found

    def _rows(self) -> List[int]:
        folder = self.folder
        calls = folder._own()
        if folder._windows.get(self.number) is not self:
            raise ValueError("the window is closed")
        status, nodes = calls.rows(self.number)
        if status:
            folder._fail(status, "rows", (self.number,))
        return list(nodes)

    def paths(self) -> List[str]:
        """Their paths, in the same order."""
        found: List[str] = self.folder._locked(self._paths)
        return found

    def _paths(self) -> List[str]:
        return [self.folder.path(node) for node in self.rows()]

    def close(self) -> None:
        """Ends the window, and forgets its lines. It may be called again."""
        self.folder._locked(self.folder._close_window, self)

    def __enter__(self) -> "Window":
        return self

    def __exit__(self, *_: Any) -> None:
        self.close()

    def __repr__(self) -> str:
        return f"<Window {self.number} of {self.formula!r}>"


class Folder:
    """A folder on disk whose entries are in a volume, and stay what is on disk: each turn makes the changes.

        Folder(path, volume=None, node=ROOT, skip=(), poll=None, once=False, attributes=True,
               one_file_system=False, tell=None)

    Windows say what happens to the entries that match a formula, and are opened as often as one likes. An iteration
    gives the lines of all windows, makes turns, and waits: by `for`, and by `async for` beside other tasks. It ends
    once the folder is closed. A program with a loop of its own polls `fileno()`, calls `turn()`, and takes `lines()`.

    - `volume` is a Volume, which may have other folders below other nodes; without one the folder has its own. The
      entries are made below `node`, a folder with nothing below it. Nobody else may change what is there.
    - `skip` has patterns of names that aren't looked at, as [".git"], nor what is in such a folder.
    - With `poll` everything is looked at after so many seconds, and the system isn't asked for events.
    - With `once` the folder is read one time, without watches, and an iteration ends after that.
    - Without `attributes` extended attributes aren't read. With `one_file_system` what is mounted below is passed over.
    - `tell` is given a line for what goes wrong and doesn't end the folder, each once for a path. So a folder that
      can't be read is told, and a name or an attribute that is too long. So is a lack of watches, and a file system
      that tells nothing, and more changes at once than inotify's queue holds. If it isn't given, the logger
      "yazgoulm.folder" warns.

    FileNotFoundError, NotADirectoryError, PermissionError, OSError: the folder can't be opened; they have the path.
    FolderGone is raised by each turn after the folder itself was moved or removed. A call that raises, also by a
    signal, loses no line. After a fork the child has the volume, but no folder: each call but `close` raises
    ValueError."""

    _calls: Any = None  # also where a signal's exception cuts the beginning

    def __init__(
        self,
        path: Path,
        volume: Optional[Volume] = None,
        *,
        node: int = ROOT,
        skip: Iterable[Path] = (),
        poll: Optional[float] = None,
        once: bool = False,
        attributes: bool = True,
        one_file_system: bool = False,
        tell: Optional[Callable[[str], Any]] = None,
    ) -> None:
        given = os.fsencode(path)
        if b"\0" in given:
            raise ValueError(f"path has a NUL: {given!r}")
        names = _skipped(skip)
        pause = _milliseconds(poll)
        if volume is not None and not isinstance(volume, Volume):
            raise TypeError(f"volume must be a Volume or None, not {said(volume)}")
        if volume is not None and volume._turns is not None:
            raise ValueError("volume is kept in a folder: what it keeps would be a disk of the past")
        self._tell = _arguments.call("tell", tell) or _warn
        self.given: str = os.fsdecode(given)  # the path that it was opened with
        self.volume: Volume = Volume() if volume is None else volume
        self._has_own, self._once = volume is None, bool(once)
        self._locked = self.volume._handle.locked
        self._windows: Dict[int, Window] = {}
        self._closing: Set[int] = set()  # the numbers of windows that may be open in the library alone
        self._taken = _Taken(0, [], [])
        self._is_closed = self._is_left = False
        self._has_more = True  # whether a turn is due at once
        self._has_lines = True  # whether the library may have lines
        self._last: Optional[Turned] = None  # what the last turn did
        self._turned_at = -math.inf
        self._steps = 0  # of the asynchronous iterator
        self._calls = FolderCalls(self.volume._handle, given.rstrip(b"/") + b"/")
        _OPEN.add(weakref.ref(self, _OPEN.discard))
        real = os.path.realpath(given) if given else b""
        options = pause, bool(once), not attributes, bool(one_file_system)
        status, fault = self._calls.open(real, _arguments.natural("node", node), names, *options)
        if status:
            self._refuse(status, fault, node)

    def _refuse(self, status: int, fault: int, node: int) -> NoReturn:
        """Raises why it wasn't opened."""
        if self._has_own:
            self.volume.close()
        if status == _SYSTEM:
            self._fail_of_system(fault)
        if status == _TOO_LONG:
            fault = errno.ENAMETOOLONG if self.given else errno.ENOENT
            raise OSError(fault, os.strerror(fault), self.given)
        self._fail(status, "Folder", (self.given, node))

    def _fail_of_system(self, fault: int) -> NoReturn:
        more = "; see `ulimit -n` and /proc/sys/fs/inotify/max_user_instances" if fault == errno.EMFILE else ""
        raise OSError(fault, f"{os.strerror(fault)}{more}", self.given)

    def _fail(self, status: int, call: str, given: Tuple[Any, ...], place: int = 0) -> NoReturn:
        """Raises what a status says."""
        if status == _MISUSE:
            self._own()
            if not self.volume._handle.is_open():
                raise ValueError("the volume is closed")
        if status == _GONE:
            where = shown(to_name(self.given))
            wrong = f"{where} was moved or removed, so it isn't followed any more"
            raise FolderGone(errno.ENOENT, wrong, self.given)
        refused: Refused = refusal(status, _NAMES.get(status, ""), place, call, given)
        if status == _NO_SLOT:
            refused.reason = "all 64 slots of the volume are taken: close a window or a query"
        raise refused

    def _own(self) -> Any:
        """The calls of a folder that is open."""
        if self._is_left:
            raise ValueError("the folder is one of the process that this one was forked from")
        if self._is_closed:
            raise ValueError("the folder is closed")
        return self._calls

    def close(self) -> None:
        """Ends the folder and its windows. The entries stay in a volume that was given; one of its own is closed. It
        may be called again, and on any thread."""
        self._is_closed = True
        self._locked(self._free)
        if self._has_own:
            self.volume.close()

    def _free(self) -> None:
        self._calls.close()
        self._windows.clear()
        self._closing.clear()

    def __enter__(self) -> "Folder":
        return self

    def __exit__(self, *_: Any) -> None:
        self.close()

    def __del__(self) -> None:
        # a thread may be in a call of the volume, also this one, and this may run at any point of it
        calls = self._calls
        if calls is None or self._is_closed:
            return
        if not self.volume._handle.tried(calls.close, False):
            _FORGOTTEN.append(calls)

    def __reduce_ex__(self, _protocol: Any) -> Any:
        raise TypeError("a Folder can be neither copied nor pickled")

    def __repr__(self) -> str:
        return f"<Folder {self.given!r}{', closed' if self._is_closed else ''}>"

    def open(self, formula: str, values: bool = True, there: bool = True) -> Window:
        """Opens a window, at any time: see Line. If everything was looked at before, "there" lines for all that matches
        come first, by rising path; without `there` they don't. Without `values` there are no "changed" lines for what
        is written or given attributes.

        A formula can ask for `name`, `size`, `last_modified` (seconds since 1970), and `kind` ("file", "folder", "link"
        or "other"). It can ask for `iname`, the name with its case folded, and for extended attributes by their whole
        names, as `user.rating`. Their values are texts; where one is a number, `user.rating:number` is that number.
        The volume's entries have `kind`, `iname` and numbers once a window asks for them, so that they cost nobody else
        memory: a query of the volume itself finds nothing by them before."""
        if not isinstance(formula, str):
            raise TypeError(f"formula must be a str, not {said(formula)}")
        opened = bytearray(8)  # the slot, once there is one
        try:
            window: Window = self._locked(self._open_window, opened, formula, bool(values), not there)
            return window
        except BaseException:
            self._locked(self._drop, opened)
            raise

    def _open_window(self, opened: bytearray, formula: str, values: bool, no_there: bool) -> Window:
        self._close_rest()
        if self.volume._is_unsure:
            self.volume._sweep()  # before this gives a slot that it would free
        status, place = self._own().query_open(opened, encode("formula", formula), values, no_there)
        if status:
            self._fail(status, "open", (formula,), place)
        number = int.from_bytes(opened, sys.byteorder)
        window = self._windows[number] = Window(self, formula, number)
        self._has_more = self._has_lines = True
        return window

    def _drop(self, opened: bytearray) -> None:
        """Closes a window that isn't given, if it was opened."""
        number = int.from_bytes(opened, sys.byteorder)
        if number:
            self._closing.add(number)
            self._windows.pop(number, None)
            self._close_rest()

    def _close_window(self, window: Window) -> None:
        if self._windows.get(window.number) is window and not (self._is_closed or self._is_left):
            self._closing.add(window.number)
            del self._windows[window.number]  # now it is closed
            self._close_rest()

    def _close_rest(self) -> None:
        """Closes in the library what was closed here, and forgets its lines; a signal's exception may have cut that."""
        for number in [*self._closing]:
            if number not in self._windows:
                self._calls.query_close(number)
                taken = self._taken
                left = [it for it in taken.left() if it.window != number]
                self._taken = _Taken(taken.last, left, taken.notices)
            self._closing.discard(number)

    def fileno(self) -> int:
        """A descriptor that can be read once something has happened on disk. -1: there is none, with `once` and `poll`
        and after `close`."""
        fd: int = self._calls.fd()
        return fd

    def turn(self) -> Turned:
        """Takes what has happened on disk and makes the changes; it is bounded, and other threads run meanwhile. It
        takes nothing while many lines wait. FolderGone: the folder isn't there any more. NoMemory: later turns make up
        for what was left out. OSError: a call of the system failed; a later turn tries again."""
        calls = self._own()
        _close_forgotten()
        status, fault, due, entries, lines, more, listed, settled = calls.turn()
        self._turned_at, self._has_more, self._has_lines = time.monotonic(), more, lines > 0
        if self.volume._is_due:
            self.volume._turned()
        if not self._windows:
            self._waits()
        if status == _SYSTEM:
            self._fail_of_system(fault)
        if status:
            self._fail(status, "turn", ())
        self._last = Turned(more, None if due == _FOR_EVER else due / 1000, listed, settled, entries)
        return self._last

    def begin(self, heard: Optional[Callable[[Turned], Any]] = None) -> Turned:
        """Makes turns until everything was looked at once, which may take long. `heard` is called after each turn."""
        while True:
            turned = self.turn()
            if heard is not None:
                heard(turned)
            if turned.listed:
                return turned
            self._wait(self._pause(turned))

    def _waits(self) -> bool:
        """Whether a line waits. Notices that came are told."""
        if self._closing:
            self._locked(self._close_rest)
        while True:
            taken = self._taken
            for line in taken.notices:
                self._tell(sentence(line))
            if length_hint(taken.rest) > 0:
                return True
            if not self._locked(self._read_after, taken):
                return False

    def _read_after(self, taken: "_Taken") -> bool:
        """Takes lines of the library, once those that it had given are read. False: there are none."""
        if self._taken is not taken:
            return True  # another thread has done it
        if self._is_closed or self._is_left:
            return False
        status, found = self._calls.read(taken.last, _AT_ONCE)
        if status:
            self._fail(status, "read", ())
        if found:
            notices = [it for it in found if it.what == "notice"]
            self._taken = _Taken(found[-1].number, [it for it in found if it.what != "notice"], notices)
        self._has_lines = bool(found)
        return self._has_lines

    def lines(self) -> List[Line]:
        """Lines that wait: some of them, and none only where none waits. It makes no turn, after which more may wait:
        those of a window's opening come by many turns."""
        self._own()
        if not self._waits():
            return []
        taken = self._taken
        try:
            left: List[Line] = self._locked(self._left)
            return left
        except BaseException:
            self._taken = taken  # who is interrupted has left them
            raise

    def _left(self) -> List[Line]:
        taken = self._taken
        left = taken.left()
        self._taken = _Taken(taken.last, [], taken.notices)
        return left

    def _printed(self) -> bytes:
        """Lines that wait as yazgoulm-folder prints them, up to one with characters that aren't printed as they are."""
        taken = self._taken
        try:
            text: bytes = self._locked(self._print)
            return text
        except BaseException:
            self._taken, self._has_lines = taken, True
            raise

    def _print(self) -> bytes:
        taken = self._taken
        if length_hint(taken.rest) > 0:
            return b""
        status, text, last, self._has_lines = self._own().printed(taken.last)
        if status:
            self._fail(status, "read", ())
        self._taken = _Taken(last, [], taken.notices)
        return bytes(text)

    def read(self, timeout: Optional[float] = None) -> Optional[Line]:
        """The next line. Where none waits it makes turns and waits for one: at most `timeout` seconds, if one is given,
        after one turn. None: none came, the folder is closed, or it was read `once`."""
        timeout = _arguments.seconds("timeout", timeout)
        end = math.inf if timeout is None else time.monotonic() + timeout
        while self._awaits(end):
            for line in self._taken.rest:  # in one step: who is interrupted either has the line or left it
                return line
        return None

    def _comes(self, seconds: float) -> bool:
        """Makes turns and waits until lines may be printed, at most so long. They stay in the library. Where no turn is
        due it begins with the wait: so a storm has one turn each PACE."""
        end, last = time.monotonic() + seconds, None if self._has_more else self._last
        return self._awaits(end, lambda: self._has_lines or length_hint(self._taken.rest) > 0, last)

    def _awaits(
        self, end: float, waits: Optional[Callable[[], bool]] = None, turned: Optional[Turned] = None
    ) -> bool:
        """Makes turns and waits until a line waits; `turned` is what the turn before did. False: none will come, or the
        time is over."""
        while not self._is_closed:
            if (waits or self._waits)():
                return True
            if self._is_over(turned):
                return False
            if turned is not None:
                left = end - time.monotonic()
                if left <= 0:
                    return False
                self._wait(min(left, self._pause(turned)))
            turned = self._turn_if_open()
        return False

    def _turn_if_open(self) -> Optional[Turned]:
        """A turn, unless the folder is closed, also by another thread during this call."""
        try:
            return None if self._is_closed else self.turn()
        except ValueError:
            if self._is_closed:
                return None
            raise

    def _is_over(self, turned: Optional[Turned]) -> bool:
        return self._once and turned is not None and turned.listed and not turned.more

    def _pause(self, turned: Turned) -> float:
        """How long to wait for an event after a turn."""
        if turned.more:
            return 0.0
        return SECONDS if turned.due is None else min(SECONDS, turned.due)

    def _wait(self, seconds: float) -> None:
        """Waits until something has happened on disk, at most so long, and at least until the next turn may come."""
        if seconds > 0:
            waiting = select.poll()
            fd = self.fileno()
            if fd >= 0:
                waiting.register(fd, select.POLLIN)
            waiting.poll(math.ceil(1000 * seconds))
            early = self._turned_at + PACE - time.monotonic()
            if early > 0:
                time.sleep(early)

    def __iter__(self) -> "Folder":
        return self

    def __next__(self) -> Line:
        while self._awaits(math.inf):
            for line in self._taken.rest:
                return line
        raise StopIteration

    def __aiter__(self) -> "Folder":
        return self

    async def __anext__(self) -> Line:
        self._steps += 1
        if self._steps % IN_A_ROW == 0:
            import asyncio  # which takes longer to load than all of this module

            await asyncio.sleep(0)  # before the read, so that who is cancelled here loses no line
        turned: Optional[Turned] = None
        while not self._is_closed:
            if self._waits():
                for line in self._taken.rest:
                    return line
                continue  # another task has it
            if self._is_over(turned):
                break
            if turned is not None:
                await self._told(self._pause(turned))
            turned = self._turn_if_open()
        raise StopAsyncIteration

    async def _told(self, seconds: float) -> None:
        """Waits as `_wait`, beside other tasks."""
        import asyncio

        if seconds <= 0:
            return await asyncio.sleep(0)
        loop, fd = asyncio.get_running_loop(), self.fileno()
        future = loop.create_future()
        timer = loop.call_later(seconds, _settle, future)
        if fd >= 0:
            loop.add_reader(fd, _settle, future)
        try:
            await future
        finally:
            timer.cancel()
            if fd >= 0:
                loop.remove_reader(fd)
        await asyncio.sleep(max(0.0, self._turned_at + PACE - time.monotonic()))

    def path(self, node: int) -> str:
        """The path of a node's entry, as in a line. NotFound: no entry below the folder has it."""
        status, path = self._own().path(_arguments.natural("node", node))
        if status:
            self._fail(status, "path", (node,))
        return str(path)

    def node(self, path: Path) -> int:
        """The node of the entry at a path, as in a line. NotFound, NotFolder."""
        raw, begin = os.fsencode(path), os.fsencode(self.given).rstrip(b"/") + b"/"
        if not (raw + b"/").startswith(begin):
            raise ValueError(f"path must begin with {self.given!r}, not {said(path)}")
        status, node = self._own().node(raw[len(begin) :])
        if status:
            self._fail(status, "node", (path,))
        return int(node)

    def entry(self, node: int) -> Stat:
        """What was last read of a node's entry on disk. NotFound."""
        status, *found = self._own().entry(_arguments.natural("node", node))
        if status:
            self._fail(status, "entry", (node,))
        return Stat(*found)

    def _leave_out(self, fd: int, is_out: bool) -> None:
        """Leaves out the folder that a descriptor has, by its identity, or no longer. A folder that is closed, or the
        parent's after a fork, has nothing in it anyhow."""
        if self._is_closed or self._is_left or not self.volume._handle.is_open():
            return
        found = os.fstat(fd)
        device = os.major(found.st_dev) << 32 | os.minor(found.st_dev)
        status = self._calls.leave_out(device, found.st_ino, is_out)
        if status:
            self._fail(status, "leave_out", ())
        self._has_more = True

    def _leave(self) -> None:
        """In the child of a fork: the folder is the parent's. Another thread of the parent may have the lock of a volume
        that it has just made; it isn't waited for, since it isn't here."""
        if not self._is_closed:
            self._is_left = True
            self.volume._handle.tried(self._calls.close, True)


_OPEN: Set["weakref.ref[Folder]"] = set()  # the folders that there are
_FORGOTTEN: List[Any] = []  # folders that nobody has any more, and whose volume was in a call


def _close_forgotten() -> None:
    for _ in range(len(_FORGOTTEN)):
        _FORGOTTEN.pop().close()


def _leave_all() -> None:
    for each in [*_OPEN]:
        folder = each()
        if folder is not None:
            folder._leave()


os.register_at_fork(after_in_child=_leave_all)


def _warn(line: str) -> None:
    import logging  # which few need

    logging.getLogger(__package__).warning("%s", line)


def _settle(future: Any) -> None:
    if not future.done():
        future.set_result(None)


def _skipped(skip: Iterable[Path]) -> Tuple[bytes, ...]:
    names = tuple(os.fsencode(it) for it in ([skip] if isinstance(skip, (str, bytes)) else skip))
    for name in names:
        if b"\0" in name:
            raise ValueError(f"skip has a NUL: {name!r}")
    return names


def _milliseconds(poll: Optional[float]) -> int:
    seconds = _arguments.seconds("poll", poll)
    if seconds is None:
        return 0
    if not seconds > 0:
        raise ValueError(f"poll must be above 0 seconds, not {poll!r}")
    return max(1, math.ceil(1000 * seconds))
