"""What is on disk below a folder, as a volume has to have it."""
import fnmatch, os, re, stat
from typing import Callable, Dict, NamedTuple, Optional, Sequence, Tuple

NAME_SIZE = 255  # the most bytes of a name as a text
TEXT_SIZE = 4096  # the most bytes of a value as a text
LONG_PATH, CUT = 3900, 3700  # a path that is longer is cut, at a folder that stays where it is (bursts.py)
KINDS = {stat.S_IFREG: "file", stat.S_IFDIR: "folder", stat.S_IFLNK: "link"}


class Entry(NamedTuple):
    """What is at a path. Size and times of a folder are 0."""

    kind: str
    size: int
    time: int
    attributes: Dict[str, str]
    inode: int
    ctime: int
    mtime: int


def as_text(raw: bytes) -> str:
    """A name on disk as a text: a byte b that is no UTF-8 is the character U+F700 + b, and so is each byte of such a
    character."""
    text = raw.decode("utf-8", "surrogateescape")
    text = re.sub("[\uf780-\uf7ff]", lambda found: found[0].encode().decode("ascii", "surrogateescape"), text)
    return re.sub("[\udc80-\udcff]", lambda found: chr(ord(found[0]) - 0xDC00 + 0xF700), text)


def as_bytes(text: str) -> bytes:
    """The name on disk of a text."""
    raw = re.sub("[\uf780-\uf7ff]", lambda found: chr(ord(found[0]) - 0xF700 + 0xDC00), text)
    return raw.encode("utf-8", "surrogateescape")


OPEN: Dict[bytes, int] = {}  # descriptors of such folders


def at(root: bytes, path: bytes) -> bytes:
    """The path of what is below a folder, as the system takes it: no longer than PATH_MAX."""
    whole = os.path.join(root, path)
    if len(whole) < LONG_PATH:
        return whole
    cut = whole.rindex(b"/", 0, CUT)
    if whole[:cut] not in OPEN:
        OPEN[whole[:cut]] = os.open(whole[:cut], os.O_PATH | os.O_DIRECTORY)
    return b"/proc/self/fd/%d%s" % (OPEN[whole[:cut]], whole[cut:])


def attributes_of(path: bytes) -> Dict[str, str]:
    """The extended attributes that can be read and aren't too long."""
    found = {}
    try:
        for name in os.listxattr(path, follow_symlinks=False):
            try:
                value = as_text(os.getxattr(path, name, follow_symlinks=False))
            except OSError:
                continue
            attribute = as_text(os.fsencode(name))
            if len(value.encode()) <= TEXT_SIZE and len(attribute.encode()) <= NAME_SIZE:
                found[attribute] = value
    except OSError:
        pass
    return found


def entry_of(path: bytes) -> Optional[Entry]:
    try:
        it = os.lstat(path)
    except OSError:
        return None
    kind = KINDS.get(stat.S_IFMT(it.st_mode), "other")
    size, mtime = (0, 0) if kind == "folder" else (it.st_size, it.st_mtime_ns)
    return Entry(kind, size, mtime // 10**9, attributes_of(path), it.st_ino, it.st_ctime_ns, mtime)


def is_skipped(name: bytes, skip: Sequence[str]) -> bool:
    return any(fnmatch.fnmatchcase(name, os.fsencode(it)) for it in skip)


def look(root: bytes, skip: Sequence[str] = ()) -> Dict[bytes, Entry]:
    """All that can be seen below a folder, by the path from there."""
    seen: Dict[bytes, Entry] = {}
    folders = [b""]
    for folder in folders:
        try:
            names = os.listdir(at(root, folder))
        except OSError:
            continue
        for name in names:
            path = os.path.join(folder, name)
            is_passed = len(as_text(name).encode()) > NAME_SIZE or is_skipped(name, skip)
            it = None if is_passed else entry_of(at(root, path))
            if it:
                seen[path] = it
                if it.kind == "folder":
                    folders.append(path)
    return seen


def content_of(path: bytes) -> Tuple[Optional[bytes], int, int, int]:
    """The bytes of a file or the target of a link, with its inode, ctime and device from before the reading. OSError: it
    isn't there, or can't be read. What is neither has no content."""
    try:
        file = os.open(path, os.O_RDONLY | os.O_NOFOLLOW | os.O_NONBLOCK | os.O_CLOEXEC)
    except OSError:
        it = os.lstat(path)
        if not stat.S_ISLNK(it.st_mode):
            raise
        return os.readlink(path), it.st_ino, it.st_ctime_ns, it.st_dev
    try:
        it = os.fstat(file)
        content = None
        if stat.S_ISREG(it.st_mode):
            content = b""
            while True:
                part = os.read(file, 1 << 16)
                content += part
                if not part:
                    break
        return content, it.st_ino, it.st_ctime_ns, it.st_dev
    finally:
        os.close(file)


def name_of(path: bytes) -> str:
    return as_text(os.path.basename(path))


def folded(path: bytes) -> str:
    """The name with its case folded: of the names that acts.c gives, no letter is folded to several."""
    return name_of(path).casefold()


def numbers_of(attributes: Dict[str, str]) -> Dict[str, int]:
    """The attributes that are added to those whose text is a number."""
    found = {}
    for name, text in attributes.items():
        if re.fullmatch("-?[0-9]{1,18}", text) and len(f"{name}:number".encode()) <= NAME_SIZE:
            found[f"{name}:number"] = int(text)
    return found


Predicate = Callable[[bytes, Entry], bool]

# Formulas, each with what it says of an entry.
EVERYTHING = "name==*"
FORMULAS: Dict[str, Predicate] = {
    EVERYTHING: lambda path, it: True,
    "name==*.x": lambda path, it: name_of(path).endswith(".x"),
    "size>30": lambda path, it: it.size > 30,
    "kind==folder": lambda path, it: it.kind == "folder",
    "last_modified>1000000000": lambda path, it: it.time > 1000000000,
    "user.rating==1*": lambda path, it: it.attributes.get("user.rating", "").startswith("1"),
    "(name==*.txt && size>20) || user.status==N*": lambda path, it: (name_of(path).endswith(".txt") and it.size > 20)
    or it.attributes.get("user.status", "").startswith("N"),
    "iname==g || iname==*éé": lambda path, it: folded(path) == "g" or folded(path).endswith("éé"),
    "user.rating:number>3": lambda path, it: numbers_of(it.attributes).get("user.rating:number", 0) > 3,
}
