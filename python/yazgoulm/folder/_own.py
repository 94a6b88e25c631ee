"""Folders that a program keeps for a person. It never removes or replaces there what it didn't make.

A mark, a small file, says what the program keeps in the folder, and one process at a time has it. A new link or a new
name is made only where nothing is. What is to be replaced or removed is first moved to a hidden name, where nobody else
puts anything, and looked at there: what isn't the program's own goes back."""
import ctypes, errno, fcntl, json, os
from typing import Any, Callable, Dict, Optional

from .._text import printable
from ._terminal import UNUSABLE, Trouble

MARK = ".yazgoulm"
HIDDEN = f"{MARK}-"  # what hidden names begin with
_MOST = 1 << 20  # bytes of a mark
_RENAMEAT2, _NOREPLACE, _EXCHANGE = 316, 1, 2  # of Linux on x86-64
_UNABLE = errno.ENOSYS, errno.EINVAL, errno.EOPNOTSUPP  # where a file system has no such rename


class Own:
    """A folder that a program keeps: `fd` is a descriptor of it. It is made, or taken if it is empty or has the mark.

    `keeps` is a word for what is kept there, `of` the path of the folder that it is made from, `formula` what that was
    asked for, and `about` a sentence for who opens the mark. A mark with another formula is written anew.

    Trouble: the folder has something else, another mark, or another process. OSError: a call of the system failed."""

    def __init__(self, path: str, keeps: str, of: str, formula: str, about: str, mode: int = 0o777) -> None:
        try:
            os.mkdir(path, mode)
        except FileExistsError:
            pass
        self.path, self.fd = path, os.open(path, os.O_RDONLY | os.O_DIRECTORY)
        try:
            self._lock()
            self._take({"about": about, "keeps": keeps, "of": of, "formula": formula})
        except BaseException:
            self.close()
            raise

    def close(self) -> None:
        """Gives the folder back. It may be called again."""
        fd, self.fd = self.fd, -1
        if fd >= 0:
            os.close(fd)

    def _lock(self) -> None:
        try:
            fcntl.flock(self.fd, fcntl.LOCK_EX | fcntl.LOCK_NB)
        except BlockingIOError:
            raise Trouble(f"{self.path}: another process keeps it", UNUSABLE) from None
        except OSError:
            pass  # the file system has no locks

    def _take(self, wanted: Dict[str, str]) -> None:
        mark = self._read()
        if mark is None and any(not it.startswith(MARK) for it in os.listdir(self.fd)):
            raise Trouble(f"{self.path} isn't empty, and has no mark: name another folder, or a new one", UNUSABLE)
        if mark is not None and (mark["keeps"], mark["of"]) != (wanted["keeps"], wanted["of"]):
            raise Trouble(f"{self.path} has what is kept of {mark['of']}: remove it, or name another folder", UNUSABLE)
        if mark != wanted:
            self._write(wanted)

    def _read(self) -> Optional[Dict[str, str]]:
        """What the mark says. None: there is none."""
        try:
            fd = os.open(MARK, os.O_RDONLY | os.O_NOFOLLOW | os.O_NONBLOCK, dir_fd=self.fd)
        except FileNotFoundError:
            return None
        with open(fd, "rb") as file:
            raw = file.read(_MOST)
        try:
            mark: Dict[str, str] = json.loads(raw)
            return {it: str(mark[it]) for it in ("about", "keeps", "of", "formula")}
        except (ValueError, TypeError, KeyError):
            raise Trouble(f"{self.path}/{MARK} is no mark: name another folder, or a new one", UNUSABLE) from None

    def _write(self, mark: Dict[str, str]) -> None:
        """Writes the mark whole, or leaves the one that is there."""
        new = f"{HIDDEN}mark"
        fd = os.open(new, os.O_WRONLY | os.O_CREAT | os.O_TRUNC | os.O_NOFOLLOW, 0o666, dir_fd=self.fd)
        with open(fd, "wb") as file:
            file.write(json.dumps(mark, indent=2).encode() + b"\n")
            file.flush()
            os.fsync(fd)
        os.replace(new, MARK, src_dir_fd=self.fd, dst_dir_fd=self.fd)


class Links:
    """Symbolic links that a program makes. `fd` is of the folder for the hidden name, which stays open. Of the links
    with hidden names that a killed process left there, those with a target that `is_own` are removed."""

    def __init__(self, fd: int, is_own: Callable[[str], bool]) -> None:
        self.fd = fd
        taken = {it for it in os.listdir(fd) if it.startswith(HIDDEN)}
        for name in [*taken]:
            target = target_of(name, fd)
            if target is not None and is_own(target):
                os.unlink(name, dir_fd=fd)
                taken.discard(name)
        self.hidden = next(it for it in (f"{HIDDEN}{number}" for number in range(len(taken) + 1)) if it not in taken)

    def relink(self, name: str, fd: int, old: str, new: str) -> bool:
        """Gives the link to `old` at a name another target. False: that link isn't there, and all is as it was."""
        if target_of(name, fd) != old:
            return False
        os.symlink(new, self.hidden, dir_fd=self.fd)
        try:
            is_exchanged = _exchange(self.hidden, self.fd, name, fd)
        except FileNotFoundError:
            os.unlink(self.hidden, dir_fd=self.fd)
            return False
        if is_exchanged and target_of(self.hidden, self.fd) != old:
            self._put_back(name, fd, new)
            return False
        if is_exchanged:
            os.unlink(self.hidden, dir_fd=self.fd)
        return True

    def _put_back(self, name: str, fd: int, new: str) -> None:
        """What came to the hidden name and isn't the program's own goes back, where the link to `new` is."""
        try:
            _exchange(self.hidden, self.fd, name, fd)
        except FileNotFoundError:
            rename_new(self.hidden, self.fd, name, fd)
        if target_of(self.hidden, self.fd) == new:
            os.unlink(self.hidden, dir_fd=self.fd)

    def remove(self, name: str, fd: int, target: str) -> bool:
        """Removes the link to `target` at a name. False: that link isn't there, and all is as it was."""
        if target_of(name, fd) != target:
            return False
        try:
            rename_new(name, fd, self.hidden, self.fd)
        except FileNotFoundError:
            return False
        if target_of(self.hidden, self.fd) == target:
            os.unlink(self.hidden, dir_fd=self.fd)
            return True
        rename_new(self.hidden, self.fd, name, fd)
        return False


def target_of(name: str, fd: int) -> Optional[str]:
    """Where the link at a name leads. None: no link is there."""
    try:
        return os.readlink(name, dir_fd=fd)
    except OSError as error:
        if error.errno not in (errno.ENOENT, errno.EINVAL):
            raise
        return None


def rename_new(old: str, old_fd: Optional[int], new: str, new_fd: Optional[int]) -> None:
    """Renames a file or a link. FileExistsError: something has the new name, and all is as it was."""
    try:
        _rename(old, old_fd, new, new_fd, _NOREPLACE)
    except OSError as error:
        if error.errno not in _UNABLE:
            raise
        os.link(old, new, src_dir_fd=old_fd, dst_dir_fd=new_fd, follow_symlinks=False)
        os.unlink(old, dir_fd=old_fd)


def _exchange(one: str, one_fd: int, other: str, other_fd: int) -> bool:
    """Exchanges what is at two names. False: the file system can't, so the first has replaced the second."""
    try:
        _rename(one, one_fd, other, other_fd, _EXCHANGE)
        return True
    except OSError as error:
        if error.errno not in _UNABLE:
            raise
        os.replace(one, other, src_dir_fd=one_fd, dst_dir_fd=other_fd)
        return False


_AT_FDCWD = -100
_libc: Any = None


def _rename(old: str, old_fd: Optional[int], new: str, new_fd: Optional[int], how: int) -> None:
    """The system's renameat2."""
    global _libc
    if _libc is None:
        _libc = ctypes.CDLL(None, use_errno=True)
        _libc.syscall.restype = ctypes.c_long
    words = [_AT_FDCWD if it is None else it for it in (old_fd, new_fd)]
    names = os.fsencode(old), os.fsencode(new)
    numbers = [ctypes.c_long(it) for it in (_RENAMEAT2, *words, how)]
    if _libc.syscall(numbers[0], numbers[1], names[0], numbers[2], names[1], numbers[3]) < 0:
        code = ctypes.get_errno()
        raise OSError(code, os.strerror(code), printable(old), None, printable(new))
