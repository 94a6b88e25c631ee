"""What is at the places of a Maildir on disk."""
import os
from typing import Callable, Dict, List, NamedTuple, Optional

from .folder import Folder, Line

FOLDERS = "new", "cur"
SKIPPED = "tmp", ".*"  # what is being delivered, and other Maildirs within this one
FLAGS = ":2,"  # between a message's key and its flags


class Place(NamedTuple):
    """Where a message is: "new" or "cur", and the name of its file, which is its key and its flags."""

    folder: str
    name: str

    @property
    def key(self) -> str:
        return self.name.partition(FLAGS)[0]

    @property
    def flags(self) -> str:
        return self.name.partition(FLAGS)[2]

    @property
    def path(self) -> str:
        return f"{self.folder}/{self.name}"


def place_in(path: str, maildir: str) -> Optional[Place]:
    """The place of a message, by its path and by that of its Maildir with a `/`. None: it is no place of a message."""
    if not path.startswith(maildir):
        return None
    folder, _, name = path[len(maildir) :].partition("/")
    place = Place(folder, name)
    return place if folder in FOLDERS and place.key and "/" not in name else None


class File(NamedTuple):
    """A file or a link: its place, that of the mail (a link may have another), its node on disk, and what says whether
    it was written."""

    place: Place
    of: Place
    node: int
    inode: int
    size: int
    time: int

    def is_as(self, other: "File") -> bool:
        """Whether what was read of one is what the other has."""
        return (self.inode, self.size, self.time) == (other.inode, other.size, other.time)


class Files:
    """What is at the places of a Maildir, by the lines of folders over it. `by_key` has it by the keys of mails.

    `mail_at` tells the place of the mail that is at a place: the same one, or where a link leads; or None, and then
    nothing is kept. `part_left` is called with the path of `new` or `cur` where that was moved, removed or replaced."""

    def __init__(
        self, path: str, mail_at: Callable[[Place], Optional[Place]], part_left: Callable[[str], object]
    ) -> None:
        self.path, self.mail_at, self.part_left = os.path.join(path, ""), mail_at, part_left
        self.by_key: Dict[str, Dict[Place, File]] = {}
        self._nodes: Dict[int, File] = {}  # by the nodes on disk
        self._at: Dict[Place, int] = {}  # the node at each place

    def parts(self) -> List[str]:
        """The paths of its folders."""
        return [self.path + it for it in FOLDERS]

    def begin(self, folder: Folder) -> Dict[str, None]:
        """Has a folder look at everything, and takes its lines, which come with some turns."""
        folder.begin()
        folder.open("name==*")
        keys = self.hear(folder)
        while folder.turn().more:
            keys.update(self.hear(folder))
        keys.update(self.hear(folder))
        return keys

    def hear(self, folder: Folder) -> Dict[str, None]:
        """Takes the lines of a folder. Returns the keys that they are about, and those in the names."""
        keys: Dict[str, None] = {}
        for lines in iter(folder.lines, []):
            for line in lines:
                self._note(line, keys)
        return keys

    def _note(self, line: Line, keys: Dict[str, None]) -> None:
        if line.what == "anew":
            raise MemoryError()
        for path in line.path, line.old_path:
            if path is not None:
                place = place_in(path, self.path)
                if place is not None:
                    keys[place.key] = None
                elif line.what not in ("there", "came") and path in self.parts():
                    self.part_left(path)
        self._forget(line.node, keys)
        place = place_in(line.path, self.path)
        if place is not None and line.kind in ("file", "link"):  # and not None, as of what has left
            if place in self._at:  # what was replaced has no line of its own
                self._forget(self._at[place], keys)
            mail = self.mail_at(place)
            if mail is not None:
                self._put(File(place, mail, line.node, line.inode, line.size, line.mtime), keys)

    def _forget(self, node: int, keys: Dict[str, None]) -> None:
        if node in self._nodes:
            file = self._nodes.pop(node)
            files = self.by_key[file.of.key]
            del files[file.place], self._at[file.place]
            if not files:
                del self.by_key[file.of.key]
            keys[file.of.key] = None

    def _put(self, file: File, keys: Dict[str, None]) -> None:
        self.by_key.setdefault(file.of.key, {})[file.place] = file
        self._nodes[file.node], self._at[file.place] = file, file.node
        keys[file.of.key] = None
