"""A copy of a folder that is made by the lines of a window alone, as the reference says a reader makes one."""
import re, time
from typing import Dict, List, NamedTuple, Optional, Tuple

from looks import at, content_of

AGAIN = 0.1  # seconds after which what isn't there yet is read again
ID = re.compile(rb"[0-9a-f]{16}")


class Line(NamedTuple):
    """A line of a window. `inode`, `ctime` and `mtime` are None where a follower doesn't tell them."""

    what: str
    path: bytes
    old_path: Optional[bytes]
    kind: Optional[str]
    size: Optional[int]
    time: Optional[int]
    inode: Optional[int]
    ctime: Optional[int]
    mtime: Optional[int]
    window: int
    attributes: Optional[Dict[str, str]] = None


class Copy(NamedTuple):
    content: Optional[bytes]
    inode: int
    ctime: int
    device: int


class Mirror:
    """`lines` is the fold of the lines: the last one of each path. `copies` is what was read, `wrong` which lines can't
    be right. Where lines don't tell inodes, `doubtful` counts moves to a path that has another file under the same
    inode."""

    def __init__(self, root: bytes, carries: bool = False) -> None:
        """With `carries` it doesn't read at a move."""
        self.root = root
        self.carries = carries
        self.lines: Dict[bytes, Line] = {}
        self.copies: Dict[bytes, Copy] = {}
        self.waiting: Dict[bytes, float] = {}
        self.wrong: List[str] = []
        self.doubtful = 0

    def take(self, line: Line) -> None:
        if line.what == "anew":
            self.lines.clear()
            self.copies.clear()
            self.waiting.clear()
            return
        if line.what == "left":
            if self.lines.pop(line.path, None) is None:
                self.wrong.append(f"lines: left, and was not there: {line.path!r}")
            self.copies.pop(line.path, None)
            self.waiting.pop(line.path, None)
            return
        copy = self.moved(line) if line.what == "moved" else None
        is_new = line.what in ("there", "came")
        if is_new and line.path in self.lines:
            self.wrong.append(f"lines: came, and was there: {line.path!r}")
        if line.what == "changed" and line.path not in self.lines:
            self.wrong.append(f"lines: changed, and was not there: {line.path!r}")
        self.lines[line.path] = line
        if copy and (self.carries or (copy.inode, copy.ctime) == (line.inode, line.ctime)):
            self.copies[line.path] = copy
            self.waiting.pop(line.path, None)
        else:
            self.read(line, copy)

    def moved(self, line: Line) -> Optional[Copy]:
        """What was read of a file that has moved."""
        assert line.old_path is not None
        if self.lines.pop(line.old_path, None) is None:
            self.wrong.append(f"lines: moved, and was not there: {line.old_path!r} > {line.path!r}")
        self.waiting.pop(line.old_path, None)
        return self.copies.pop(line.old_path, None)

    def read(self, line: Line, before: Optional[Copy] = None) -> None:
        """Takes what is at the path of its last line, if that is what the line says; else later."""
        self.waiting.pop(line.path, None)
        self.copies.pop(line.path, None)
        try:
            copy = Copy(*content_of(at(self.root, line.path)))
        except OSError:
            copy = None
        if copy and line.inode in (None, copy.inode):
            self.copies[line.path] = copy
            self.compare(line, before, copy)
        elif line.kind in (None, "file", "link"):
            self.waiting[line.path] = time.monotonic() + AGAIN

    def compare(self, line: Line, before: Optional[Copy], after: Copy) -> None:
        """A file that moved is the file that it was, if it was read before another one came."""
        known = before and ID.match(before.content or b""), ID.match(after.content or b"")
        if not known[0] or not known[1] or known[0][0] == known[1][0] or before.device != after.device:
            return
        if line.inode is None:
            self.doubtful += before.inode == after.inode
        elif line.ctime == after.ctime and line.ctime % 10**9:  # a ctime of whole seconds says too little
            self.wrong.append(f"lines: another file is told as moved: {line.old_path!r} > {line.path!r}")

    def turn(self) -> None:
        """Reads again what is due."""
        now = time.monotonic()
        for path in [path for path, due in self.waiting.items() if due <= now]:
            self.read(self.lines[path])

    def stale(self) -> List[Tuple[bytes, str]]:
        """The paths whose content isn't what is on disk. What can't be read is passed over."""
        found = []
        for path, line in self.lines.items():
            try:
                content, inode, ctime, device = content_of(at(self.root, path))
            except OSError:
                continue
            copy = self.copies.get(path)
            if copy and copy.device != device and (inode, ctime) == (line.inode, line.ctime):
                # a mount hid it while it was read, with a file of the same inode: the line doesn't tell the device
                self.copies[path] = copy = Copy(content, inode, ctime, device)
            if content is None and copy is None:
                continue
            if copy is None:
                found.append((path, f"never read: the line has inode {line.inode}, the disk {inode}"))
            elif copy.content != content:
                has = f"{copy.content!r} of inode {copy.inode}"
                found.append((path, f"stale content: has {has}, the disk {content!r} of {inode}"))
        return found
