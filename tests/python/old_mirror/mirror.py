"""Keeps the entries of a volume the same as a folder on disk."""
import collections, errno, fnmatch, os, select, time
from typing import Any, DefaultDict, Dict, Iterable, List, Optional, Set, Tuple

from yazgoulm import Error, to_bytes, to_name
from .disk import Identity, Seen, identity, look, names_in
from .inotify import AGAIN, IGNORED, MODIFY, OVERFLOW, Events, events
from .server import Server
from .text import shown

ROOT = 1  # the folder's node

Place = Tuple["Entry", bytes]  # a name in a folder


class FolderGone(Error, FileNotFoundError):
    """The folder that is watched was moved or removed, or its disk has gone."""


class Entry:
    """An entry: its node, its place, and what was seen there. A folder also has a watch."""

    def __init__(self, node: int, folder: Optional["Entry"], name: bytes, seen: Seen) -> None:
        self.node, self.folder, self.name, self.seen = node, folder, name, seen
        self.is_folder = seen.kind == "folder"
        self.inside: Dict[bytes, Entry] = {}
        self.watch: Any = None
        self.is_unread = False  # whether it was told that it can't be read

    def way(self) -> List["Entry"]:
        """The entries from the root to this one."""
        way = [self]
        while way[-1].folder:
            way.append(way[-1].folder)
        return way[::-1]

    def path(self) -> bytes:
        return b"/".join(entry.name for entry in self.way()) or b"/"

    def is_at(self, path: bytes) -> bool:
        return identity(path) == self.seen.id

    def is_there(self) -> bool:
        return self.is_at(self.path())


class Mirror:
    """A folder on disk and its entries in a volume. `changed` has the names to look at next.

    Entries whose names match a pattern of `skip` are passed over. With `poll` there is a look at everything after so
    many seconds, in place of the system's events."""

    def __init__(self, server: Server, folder: bytes, skip: Iterable[str] = (), poll: Optional[float] = None) -> None:
        path = real_path(folder)
        self.server, self.change, self.given = server, server.change, folder.rstrip(b"/")
        self.skip = [os.fsencode(it) for it in skip]
        self.events: Events = events(poll)
        self.nodes: Dict[int, Entry] = {}
        self.by_watch: Dict[Any, Entry] = {}
        self.by_id: DefaultDict[Identity, Dict[Entry, None]] = collections.defaultdict(dict)
        self.changed: Dict[Place, None] = {}
        self.written: Set[Place] = set()  # names whose latest event is a write: the file is still open
        self.has_moved = False  # whether a folder has moved in this turn
        seen = look(path)
        if seen is None:
            raise FileNotFoundError(errno.ENOENT, os.strerror(errno.ENOENT), os.fsdecode(folder))
        self.root = self.nodes[ROOT] = Entry(ROOT, None, path.rstrip(b"/"), seen)
        self.list(self.root)
        self.settle()

    def close(self) -> None:
        self.events.close()

    def wait(self, seconds: float) -> bool:
        """Waits until something has happened on disk, at most for a while. Returns whether it has."""
        waiting = select.poll()
        if self.events.fd >= 0:
            waiting.register(self.events.fd, select.POLLIN)
        return bool(waiting.poll(1000 * self.pause(seconds)))

    def pause(self, seconds: float) -> float:
        """How long to wait for the events: some seconds, or less if it is time to look at everything before."""
        due = self.events.due
        return seconds if due is None else max(0.0, min(seconds, due - time.monotonic()))

    def names(self, folder: int, name: str) -> List[bytes]:
        """The names on the way to a name in the folder of a node. The first is the path that the user gave."""
        return [self.given, *(entry.name for entry in self.nodes[folder].way()[1:]), to_bytes(name)]

    def path_of(self, folder: int, name: str) -> str:
        """The path of a name in the folder of a node, as Python's own calls have it."""
        return os.fsdecode(b"/".join(self.names(folder, name)))

    def shown(self, folder: int, name: str) -> str:
        """The same path for people."""
        return shown("/".join(map(to_name, self.names(folder, name))))

    def shown_root(self) -> str:
        """The folder's path for people."""
        return shown(to_name(self.given or b"/"))

    def list(self, folder: Entry) -> None:
        """Watches a folder and only then lists it, so that no name is missed."""
        path = folder.path()
        folder.watch = self.events.watch(path)
        names: List[bytes] = []
        try:
            names = names_in(path)
        except PermissionError as error:
            self.tell_unread(folder, error)
        except OSError:
            pass  # it went meanwhile
        if folder is not self.root and not folder.is_at(path):  # it moved meanwhile: later again
            folder.watch = None
            self.look_at(folder.folder, folder.name)
        elif folder.watch is not None:
            self.by_watch[folder.watch] = folder
        for name in {*names, *folder.inside}:
            self.look_at(folder, name)

    def tell_unread(self, folder: Entry, error: OSError) -> None:
        """Tells once that what is in a folder can't be seen."""
        if not folder.is_unread:
            given = self.shown(folder.folder.node, to_name(folder.name)) if folder.folder else self.shown_root()
            self.server.tell(f"{given}: {error.strerror}, so what is in it isn't seen")
        folder.is_unread = True

    def look_at(self, folder: Optional[Entry], name: bytes) -> None:
        """Notes a name to be looked at."""
        if folder and not any(fnmatch.fnmatchcase(name, pattern) for pattern in self.skip):
            self.changed[folder, name] = None

    def turn(self) -> bool:
        """Carries out what has changed on disk. Returns whether a folder has moved. FolderGone: it isn't there."""
        self.has_moved = False
        for watch, kind, name in self.events.events():
            if kind & OVERFLOW:
                self.written.clear()
                self.server.tell("more changed at once than inotify's queue holds, so everything is looked at again")
            folders = [*self.nodes.values()] if kind & (OVERFLOW | AGAIN) else [self.by_watch.get(watch)]
            for folder in filter(None, folders):
                if name:
                    self.look_at(folder, name)
                    (self.written.add if kind & MODIFY else self.written.discard)((folder, name))
                elif folder.is_folder and kind & (OVERFLOW | AGAIN | IGNORED):
                    self.list(folder)
        self.settle()
        if not self.root.is_there():
            raise FolderGone(errno.ENOENT, f"{self.shown_root()} was moved or removed, so it isn't followed any more")
        return self.has_moved

    def settle(self) -> None:
        """Looks at each changed name: first at all that are there, then at those that have gone.

        So it finds a moved entry at its new place before it finds the old place empty. A name in a
        folder that isn't at its path waits for the event that says where the folder is.
        """
        before: Any = None
        gone: Dict[Place, bool] = {}
        while before != self.changed.keys():
            before, self.changed, gone = self.changed.keys(), {}, {}
            for folder, name in filter(self.is_known, before):
                path = folder.path()
                there = folder.is_at(path)
                seen = look(os.path.join(path, name)) if there else None
                if seen:
                    self.meet(folder, name, seen)
                    self.looked()
                else:
                    gone[folder, name] = there
            self.changed.update(dict.fromkeys(gone))
        self.changed = {place: None for place, there in gone.items() if not there}
        for folder, name in [place for place, there in gone.items() if there]:
            if self.is_known((folder, name)) and name in folder.inside:
                self.remove(folder.inside[name])
                self.looked()

    def looked(self) -> None:
        """Called after each look at a name."""

    def touched(self, entry: Entry) -> None:
        """Called if an entry was written, or its attributes changed."""

    def is_known(self, place: Place) -> bool:
        folder, _ = place
        return self.nodes.get(folder.node) is folder

    def meet(self, folder: Entry, name: bytes, seen: Seen) -> None:
        """Carries out what was seen at a name: the same entry, one that moved, or a new one."""
        known = folder.inside.get(name)
        if known and known.seen.id == seen.id:
            return self.update(known, seen)
        entry = next((it for it in self.by_id[seen.id] if not it.is_there()), None)
        if known and (not entry or entry.is_folder or known.is_folder):
            self.remove(known)
        if not (entry and entry.node in self.nodes and self.move(entry, folder, name)):
            entry = self.create(folder, name, seen)
        if entry:
            folder.inside[name] = entry
            self.update(entry, seen)

    def move(self, entry: Entry, folder: Entry, name: bytes) -> bool:
        """Moves an entry, and replaces a file that has the name. Returns whether lq did so."""
        if not self.change("move", node=entry.node, dir=folder.node, name=to_name(name), clobber=True):
            return False
        if name in folder.inside:
            self.remove(folder.inside[name], is_told=True)
        assert entry.folder
        del entry.folder.inside[entry.name]
        entry.folder, entry.name, entry.watch = folder, name, None
        self.has_moved |= entry.is_folder
        return True

    def create(self, folder: Entry, name: bytes, seen: Seen) -> Optional[Entry]:
        """Makes an entry. Returns None where lq refuses its name."""
        kind = "folder" if seen.kind == "folder" else "file"
        node = self.change("create", dir=folder.node, name=to_name(name), kind=kind, size=seen.size, time=seen.time)
        if not node:
            return None
        entry = self.nodes[node] = Entry(node, folder, name, seen._replace(attrs={}))
        self.by_id[seen.id][entry] = None
        return entry

    def update(self, entry: Entry, seen: Seen) -> None:
        """Sends what differs from the last look."""
        old, entry.seen, node = entry.seen, seen, entry.node
        if (old.size, old.time) != (seen.size, seen.time):
            self.change("write", node=node, size=seen.size, time=seen.time)
        for attr in old.attrs.keys() - seen.attrs.keys():
            self.change("unset", node=node, attr=attr)
        for attr, (kind, value) in seen.attrs.items() - old.attrs.items():
            self.change("set", node=node, attr=attr, type=kind, value=value)
        if old != seen:
            self.touched(entry)
        # an event names one link of a file: look at the others too
        for link in [link for link in self.by_id[seen.id] if link.seen != seen]:
            self.look_at(link.folder, link.name)
        if entry.is_folder and entry.watch is None:
            self.list(entry)

    def remove(self, entry: Entry, is_told: bool = False) -> None:
        """Removes an entry and all that is inside, the innermost first."""
        doomed = [entry]
        for folder in doomed:
            doomed += folder.inside.values()
        for it in reversed(doomed):
            assert it.folder
            if not is_told:
                self.change("remove", node=it.node)
            del self.nodes[it.node], self.by_id[it.seen.id][it], it.folder.inside[it.name]
            if not self.by_id[it.seen.id]:
                del self.by_id[it.seen.id]
            if self.by_watch.get(it.watch) is it:
                del self.by_watch[it.watch]
                self.events.unwatch(it.watch)


def real_path(folder: bytes) -> bytes:
    """The path of a folder, where the name that was given may be a link to it. OSError: it can't be listed."""
    os.scandir(os.fsdecode(folder)).close()  # so that an error has the path as a str
    return os.path.realpath(folder)
