"""What is on disk, also at paths that are longer than the system accepts."""
import contextlib, os, re, stat
from typing import Dict, Iterator, List, NamedTuple, Optional, Tuple, Union

from yazgoulm import to_name

PATH_MAX = 4096  # with the NUL that ends a path
VALUE_MAX = 1024  # bytes of an extended attribute
KINDS = {stat.S_IFREG: "file", stat.S_IFDIR: "folder", stat.S_IFLNK: "link"}

Identity = Tuple[int, int, str]
Attributes = Dict[str, Tuple[str, Union[str, int]]]


class Seen(NamedTuple):
    """What is at a path. `id` identifies a file wherever it is; `attrs` has a type and a value for each name.

    `written` is the time of the last write in nanoseconds, of which `time` has the seconds."""

    id: Identity
    kind: str
    size: int
    time: int
    attrs: Attributes
    written: int


@contextlib.contextmanager
def within_reach(path: bytes) -> Iterator[bytes]:
    """A path that the system accepts: a long one is taken from an open folder on the way."""
    opened: List[int] = []
    try:
        while len(path) >= PATH_MAX:
            cut = path.rindex(b"/", 0, PATH_MAX)
            opened.append(os.open(path[:cut], os.O_PATH | os.O_DIRECTORY | os.O_NOFOLLOW))
            path = b"/proc/self/fd/%d%s" % (opened[-1], path[cut:])
        yield path
    finally:
        for folder in opened:
            os.close(folder)


def look(path: bytes) -> Optional[Seen]:
    """What is at a path, or None. A folder has size and times 0, since no change sets them."""
    with contextlib.suppress(OSError), within_reach(path) as path:
        found = os.lstat(path)
        kind = kind_of(found)
        attrs: Attributes = {"kind": ("CSTR", kind), **extended(path)}
        size, written = (0, 0) if kind == "folder" else (found.st_size, found.st_mtime_ns)
        return Seen((found.st_dev, found.st_ino, kind), kind, size, written // 10**9, attrs, written)
    return None


def identity(path: bytes) -> Optional[Identity]:
    """The `id` of what is at a path, or None."""
    with contextlib.suppress(OSError), within_reach(path) as path:
        found = os.lstat(path)
        return found.st_dev, found.st_ino, kind_of(found)
    return None


def kind_of(found: os.stat_result) -> str:
    return KINDS.get(stat.S_IFMT(found.st_mode), "other")


def extended(path: bytes) -> Attributes:
    """The extended attributes that can be read. A value written as a number becomes a number."""
    attrs: Attributes = {}
    with contextlib.suppress(OSError, AttributeError):  # a system may have no calls for them
        for name in os.listxattr(path, follow_symlinks=False):
            raw = os.getxattr(path, name, follow_symlinks=False)
            number = re.fullmatch(rb"-?[0-9]{1,18}", raw)
            attrs[to_name(name)] = ("LLNG", int(raw)) if number else ("CSTR", to_name(raw[:VALUE_MAX]))
    return attrs


def names_in(path: bytes) -> List[bytes]:
    """The names in a folder. OSError: it can't be read or isn't there."""
    with within_reach(path) as path:
        return os.listdir(path)


def look_below(root: bytes) -> Dict[bytes, Optional[Seen]]:
    """All that is below a folder, by the path from there."""
    seen: Dict[bytes, Optional[Seen]] = {}
    folders = [b""]
    for folder in folders:
        names: List[bytes] = []
        with contextlib.suppress(OSError):
            names = names_in(root + folder or b"/")
        for name in names:
            path = folder + b"/" + name
            it = seen[path] = look(root + path)
            if it and it.kind == "folder":
                folders.append(path)
    return seen
