"""A Maildir as a volume, which stays what is on disk."""
import os, re, stat, time
from email.errors import MessageError
from email.header import decode_header, make_header
from typing import Any, Callable, Dict, List, NamedTuple, Optional

from . import FOLDER, Refused, Volume, to_name
from ._maildir import FOLDERS, SKIPPED, File, Files, Place
from .folder import Folder
from .folder._terminal import UNUSABLE, Trouble
from .folder._text import shown

HEADERS = "from", "subject"
HEAD = 1 << 20  # bytes of a message, in which its headers are looked for
SECONDS, SHARE = 1.0, 20  # at least, and as a share of all time, between two tries to read what couldn't be read
_FIELD = re.compile(rb"(?im)^(from|subject)[ \t]*:(.*(?:\n[ \t].*)*)")


class Head(NamedTuple):
    """What is read of a message: the size and the time of its file, and headers."""

    size: int
    time: int
    headers: Dict[str, str]


def read_head(path: str) -> Optional[Head]:
    """What is read of a message. None: no file is there, or an empty one."""
    try:
        fd = os.open(path, os.O_RDONLY | os.O_NONBLOCK | os.O_NOCTTY)  # it may be a FIFO
    except FileNotFoundError:
        return None
    with open(fd, "rb", buffering=0) as file:
        found = os.fstat(fd)
        if not stat.S_ISREG(found.st_mode) or not found.st_size:  # empty until its writer has gone on
            return None
        raw = b"\n"
        while len(raw) < HEAD and not _ends(raw):
            more = file.read(8192)
            if not more:
                break
            raw += more
    fields: Dict[str, bytes] = {}
    for name, value in _FIELD.findall(raw[: min(_ends(raw), default=len(raw))]):
        fields.setdefault(name.decode().lower(), value)
    return Head(found.st_size, found.st_mtime_ns // 10**9, {it: text(fields.get(it, b"")) for it in HEADERS})


def _ends(raw: bytes) -> List[int]:
    """Where the headers may end, after which an empty line comes."""
    return [at for at in (raw.find(b"\n\n"), raw.find(b"\n\r\n")) if at >= 0]


def text(header: bytes) -> str:
    """A header as an attribute takes it: on one line, in UTF-8, of at most 4,096 bytes."""
    words = re.sub(rb"\r?\n(?=[ \t])", b"", header).strip().decode("utf-8", "replace")
    if "=?" in words:
        try:
            words = str(make_header(decode_header(words)))
        except (MessageError, LookupError, ValueError):
            pass
    return words.encode("utf-8", "replace")[:4096].decode("utf-8", "ignore")


class Message:
    """A message: its entry's node, its place, and the file that was read."""

    __slots__ = "node", "place", "read", "is_told"

    def __init__(self) -> None:
        self.node: Optional[int] = None
        self.place: Optional[Place] = None
        self.read: Optional[File] = None
        self.is_told = False  # that it can't be read


class Mails:
    """A Maildir as a volume: an entry for each message, under the message's key.

    Each `hear` after a turn makes the changes that bring the volume up to what is on disk. A message is read once it has
    come, and again only if its file was written. Two files have one key while a mail program moves a message by a second
    link; the one in `cur` counts then. `tell` is given a line for what goes wrong and doesn't end it."""

    def __init__(self, path: str, tell: Callable[[str], Any]) -> None:
        self.path, self.tell = path, tell
        self.volume, self._disk = Volume(), Volume()
        self.messages: Dict[str, Message] = {}  # by their keys
        self._unread: Dict[str, None] = {}  # the keys of those that couldn't be read
        self._retry_at = 0.0
        self._files = Files(path, lambda place: place, lambda part: os.scandir(part).close())
        # links below a folder aren't followed, and `new` or `cur` may be one
        roots = [path, *(it for it in self._files.parts() if os.path.islink(it))]
        self.folders = [self._folder(number, it) for number, it in enumerate(roots)]

    def _folder(self, number: int, path: str) -> Folder:
        node = self._disk.create(str(number), kind=FOLDER).node
        return Folder(path, self._disk, node=node, skip=SKIPPED, attributes=False, tell=self.tell)

    def close(self) -> None:
        for folder in self.folders:
            folder.close()
        self._disk.close()
        self.volume.close()

    def begin(self, heard: Optional[Callable[[int], Any]] = None) -> None:
        """Looks at everything, which may take long. `heard` is called with the number of messages so far."""
        for folder in self.folders:
            for number, key in enumerate(sorted(self._files.begin(folder))):
                self._renew(key)
                if heard is not None and number % 256 == 0:
                    heard(number)

    def hear(self, folder: Folder) -> List[str]:
        """Makes the changes that a folder's lines tell. Returns the keys of the messages that they are about.
        FileNotFoundError: `new` or `cur` has gone."""
        keys = sorted(self._files.hear(folder))
        for key in keys:
            self._renew(key)
        return keys + self._retry()

    def _retry(self) -> List[str]:
        """Tries to read what couldn't be read, now and then: no line tells of a permission that comes back."""
        begin = time.monotonic()
        if not self._unread or begin < self._retry_at:
            return []
        keys = [*self._unread]
        for key in keys:
            self._renew(key)
        now = time.monotonic()
        self._retry_at = now + max(SECONDS, SHARE * (now - begin))
        return [key for key in keys if key not in self._unread]

    def _renew(self, key: str) -> None:
        """Makes a message's entry what its file says."""
        files = self._files.by_key.get(key)
        self._unread.pop(key, None)
        if not files:
            if key in self.messages:
                self._remove(self.messages.pop(key))
            return
        message, file = self.messages.setdefault(key, Message()), files[min(files)]
        if not (message.read and message.read.is_as(file)) and not self._read(key, message, file):
            self._remove(message)
            self._unread[key] = None
        elif message.node is not None:
            self._place(message, message.node, file.place)

    def _remove(self, message: Message) -> None:
        if message.node is not None:
            self.volume.remove(message.node)
        message.node = message.place = message.read = None

    def _read(self, key: str, message: Message, file: File) -> bool:
        """Reads a message's file, and makes its entry. False: there is nothing to be read."""
        path = os.path.join(self.path, file.place.path)
        try:
            head = read_head(path)
            if head is not None:
                self._enter(key, message, head, file)
        except Refused as refused:
            if isinstance(refused, MemoryError):
                raise
            self._tell_once(message, f"{shown(to_name(path))}: {refused.name}, so it is passed over")
            return False
        except OSError as error:
            self._tell_once(message, f"{shown(to_name(path))}: {error.strerror}, so it is passed over")
            return False
        message.read = file
        return head is not None

    def _tell_once(self, message: Message, line: str) -> None:
        if not message.is_told:
            message.is_told = True
            self.tell(line)

    def _enter(self, key: str, message: Message, head: Head, file: File) -> None:
        """Gives a message an entry, with its headers; or its entry others. The status comes last."""
        if message.node is None:
            message.node = self.volume.create(os.fsencode(key), size=head.size, time=head.time).node
        else:
            self.volume.write(message.node, head.size, head.time)
        for name, value in head.headers.items():
            self.volume.set(message.node, f"MAIL:{name}", value)
        self._place(message, message.node, file.place)

    def _place(self, message: Message, node: int, place: Place) -> None:
        """Takes down where a message is now."""
        old, message.place = message.place, place
        if old is None or old.flags != place.flags:
            self.volume.set(node, "MAIL:flags", place.flags)
        if old is None or status(old) != status(place):
            self.volume.set(node, "MAIL:status", status(place))


def need(path: str) -> None:
    """A Maildir is there, and its folders can be listed, or a command can't begin."""
    need_folder(path, UNUSABLE)
    for part in FOLDERS:
        if not os.path.isdir(os.path.join(path, part)):
            raise Trouble(f"{path} is no Maildir: it has no folder {part}", UNUSABLE)
        need_folder(os.path.join(path, part), UNUSABLE)


def need_folder(path: str, status: int) -> None:
    """A folder can be listed, or a command ends with a status."""
    try:
        os.scandir(path).close()
    except OSError as error:
        raise Trouble(f"{path}: {error.strerror}", status) from None


def status(place: Place) -> str:
    """What `MAIL:status` is: a message that was seen is read."""
    return "Read" if "S" in place.flags else "New"
