"""What a folder tells: lines, and notices as sentences."""
from typing import Any, Dict, NamedTuple, Optional

from .._names import to_name
from ._text import shown

SIGNS = {"there": "=", "came": "+", "left": "-", "moved": ">", "changed": "~", "anew": "!"}
KINDS = "file", "folder", "link", "other"


class Line(NamedTuple):
    """What happened to an entry of a window. `what` is:

    - "there": it matches when the window is opened;
    - "came": it matches from now on;
    - "left": it matches no longer, or it has gone;
    - "moved": it matches at another path, and `old_path` is the one before;
    - "changed": it was written, replaced, or given other attributes, and matches as before;
    - "anew": memory ran out for the window's lines; those before hold no more, and "there" lines with all follow.

    `number` counts the lines of a folder, and `window` is the number of the window. `path` begins with the path that
    the folder was given, and `os.fsencode` gets the bytes of a name that is no UTF-8. `node`, `size`, `time` (seconds
    since 1970) and `kind` ("file", "folder", "link" or "other") are the entry's in the volume; `inode`, and `ctime` and
    `mtime` in nanoseconds, are those that were read. What has left has 0 for all these, and None as its kind."""

    number: int
    what: str
    path: str
    old_path: Optional[str]
    window: int
    node: int
    size: int
    time: int
    kind: Optional[str]
    inode: int
    ctime: int
    mtime: int
    notice: int = 0

    @property
    def sign(self) -> str:
        """One character for `what`: = + - > ~ !."""
        return SIGNS[self.what]


def as_object(line: Line, attributes: Dict[str, Any]) -> Dict[str, Any]:
    """A line as an object of JSON, with the extended attributes that its entry has."""
    it: Dict[str, Any] = {"change": line.what, "path": to_name(line.path)}
    if line.old_path is not None:
        it["old_path"] = to_name(line.old_path)
    if line.what not in ("left", "anew"):
        it.update(size=line.size, time=line.time, kind=line.kind, attributes=attributes)
        it.update(inode=line.inode, ctime=line.ctime, mtime=line.mtime)
    return it


# What a notice says, by its number in lq_folder.h; `{}` is the path.
_NOTICES = {
    1: "{}: Permission denied, so what is in it isn't seen",
    2: "{}: the name has more than 255 bytes as a text, so it is passed over",
    3: "{}: an attribute has more than 4096 bytes as a text, so it is passed over",
    4: "{}: no watches are left (/proc/sys/fs/inotify/max_user_watches), so folders are looked at again and again",
    5: "{}: its file system tells of no changes, so it is looked at again and again",
    6: "more changed at once than inotify's queue holds, so everything is looked at again",
    7: "{}: something couldn't be looked at, so everything is looked at again",
}  # fmt: skip


def sentence(line: Line) -> str:
    """A notice for people."""
    return _NOTICES.get(line.notice, "{}: notice " + str(line.notice)).format(shown(to_name(line.path)))
