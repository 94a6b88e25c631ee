"""The system's inotify by ctypes: a watch for each folder, and the names that changed in it. Polling elsewhere."""
import ctypes, errno, os, struct, time
from typing import Any, List, Optional, Set, Tuple, Union

from .disk import within_reach

MODIFY, ATTRIB, CLOSE_WRITE = 0x2, 0x4, 0x8
MOVED_FROM, MOVED_TO, CREATE, DELETE = 0x40, 0x80, 0x100, 0x200
OVERFLOW, IGNORED = 0x4000, 0x8000  # events were lost; a watch has ended
ONLY_FOLDERS, NO_LINKS = 0x1000000, 0x2000000
WATCHED = MODIFY | ATTRIB | CLOSE_WRITE | MOVED_FROM | MOVED_TO | CREATE | DELETE
AGAIN = 0x10000000  # of Polling alone: it is time to look at everything
HEAD = struct.Struct("iIII")  # an event: its watch, its kind, a cookie, the size of the name

Number = Any  # of a watch
Event = Tuple[Number, int, bytes]

try:
    _libc: Any = ctypes.CDLL(None, use_errno=True)
    _libc.inotify_init1
except (OSError, TypeError, AttributeError):
    _libc = None  # another system than Linux


class Inotify:
    """The events of folders. OSError: the system gives none any more."""

    due: Optional[float] = None  # when there are events without a word from the system

    def __init__(self) -> None:
        self.fd = _libc.inotify_init1(os.O_NONBLOCK | os.O_CLOEXEC)
        if self.fd < 0:
            code = ctypes.get_errno()
            more = "; see /proc/sys/fs/inotify/max_user_instances" if code == errno.EMFILE else ""
            raise OSError(code, f"inotify: {os.strerror(code)}{more}")

    def close(self) -> None:
        fd, self.fd = self.fd, -1
        if fd >= 0:
            os.close(fd)

    __del__ = close

    def watch(self, path: bytes) -> Number:
        """Watches a folder. Returns the watch's number, or None where that can't be done."""
        try:
            with within_reach(path) as path:
                watch = _libc.inotify_add_watch(self.fd, path, WATCHED | ONLY_FOLDERS | NO_LINKS)
        except OSError:
            return None
        if watch < 0 and ctypes.get_errno() == errno.ENOSPC:
            raise OSError(errno.ENOSPC, "no watches are left: see /proc/sys/fs/inotify/max_user_watches")
        return watch if watch >= 0 else None

    def unwatch(self, watch: Number) -> None:
        _libc.inotify_rm_watch(self.fd, watch)

    def events(self) -> List[Event]:
        """The events since the last call, each as a watch, its kind, and a name or b"".

        A rename is two events, which the system adds one after the other. Where the second hasn't
        come yet, it waits for it, but not long, since what leaves the folder has the first alone.
        """
        found = self.read()
        for _ in range(3):
            if self.pair(found, MOVED_FROM) <= self.pair(found, MOVED_TO):
                break
            time.sleep(0.01)
            found += self.read()
        return [(watch, kind, name) for watch, kind, _, name in found]

    @staticmethod
    def pair(events: List[Tuple[Number, int, int, bytes]], half: int) -> Set[int]:
        """The cookies of one half of the renames among these events."""
        return {cookie for _, kind, cookie, _ in events if kind & half}

    def read(self) -> List[Tuple[Number, int, int, bytes]]:
        """The events that have come, with the cookie that both halves of a rename have."""
        try:
            data = os.read(self.fd, 1 << 20)
        except BlockingIOError:
            return []
        found, at = [], 0
        while at < len(data):
            watch, kind, cookie, size = HEAD.unpack_from(data, at)
            at += HEAD.size + size
            found.append((watch, kind, cookie, data[at - size : at].rstrip(b"\0")))
        return found


class Polling:
    """In place of inotify: every so many seconds, everything is looked at."""

    fd = -1

    def __init__(self, seconds: float) -> None:
        self.seconds = seconds
        self.due: Optional[float] = time.monotonic() + seconds

    def close(self) -> None:
        """There is nothing to free."""

    def watch(self, path: bytes) -> Number:
        """What identifies a folder, or None where it isn't there."""
        try:
            with within_reach(path) as path:
                found = os.stat(path, follow_symlinks=False)
        except OSError:
            return None
        return found.st_dev, found.st_ino

    def unwatch(self, watch: Number) -> None:
        """There is nothing to end."""

    def events(self) -> List[Event]:
        if self.due is not None and time.monotonic() < self.due:
            return []
        self.due = time.monotonic() + self.seconds
        return [(None, AGAIN, b"")]


Events = Union[Inotify, Polling]


def events(poll: Optional[float] = None) -> Events:
    """The events of the system, or of a look every `poll` seconds: one second where the system has none."""
    if poll is None and _libc is not None:
        return Inotify()
    return Polling(1.0 if poll is None else poll)
