"""A folder of symbolic links to the entries of a folder that match a formula."""
import errno, os, re, time, zlib
from typing import Any, Callable, Dict, Iterable, Iterator, List, NamedTuple, Optional, Set, Tuple

from .. import _arguments
from .._names import to_name
from .._types import NotFound
from ._folder import Folder, Path, Turned, Window, _warn
from ._lines import Line
from ._own import HIDDEN, MARK, Own, rename_new, target_of
from ._own import Links as Renamed
from ._terminal import ENDED, UNUSABLE, Trouble
from ._text import shown

ABOUT = "Yazgoulm keeps symbolic links here, to what matches the formula. What else is put here stays as it is."
_MOST_LINKS = 40  # that the system follows one after the other
_NAME_SIZE = 255  # the most bytes of a name
_AGAIN = 1.0  # seconds until what failed is tried again
_MOVING = f"{HIDDEN}moving"  # a hidden link: its target names a link whose name is being changed
_PLACE = f"{HIDDEN}place"  # a hidden link: its target is where the folder was when relative links were made
_AT = "at "  # before it, so that no link leads there
_FOLDER = f"{HIDDEN}folder"  # a folder that is being made
_RESERVED = re.compile(rf"{re.escape(HIDDEN)}\w+|{re.escape(MARK)}")
_NUMBER = re.compile(r" \(([1-9][0-9]{0,8})\)")


def numbered(name: str, number: int) -> str:
    """A name with a number before its extension: cut at a character, where that has more than 255 bytes."""
    if number < 2:
        return name
    stem, extension = os.path.splitext(name)
    tail = f" ({number}){extension}"
    if len(os.fsencode(tail)) >= _NAME_SIZE:
        stem, tail = name, f" ({number})"
    while len(os.fsencode(stem + tail)) > _NAME_SIZE:
        stem = stem[:-1]
    return stem + tail


def is_of(name: str, entry: str) -> bool:
    """Whether a link of this name may be one to an entry of that name."""
    return name == entry or any(numbered(entry, int(it[1])) == name for it in _NUMBER.finditer(name))


def _moving(inode: int, target: str) -> str:
    """What names a link whose name is being changed: its inode, which may be another one's after it, and its target."""
    return f"{inode} {zlib.crc32(os.fsencode(target)):08x}"


class _Foreign(Exception):
    """Something is in the way that the program didn't make: `path` is where, from the folder on."""

    def __init__(self, path: str) -> None:
        super().__init__(path)
        self.path = path


class _Link(NamedTuple):
    """A link that was made: the folder that it is in, from the kept one on, its name, and its target."""

    folder: str
    name: str
    target: str


class _Folders:
    """The kept folder and those that were made below it, which have a mark of their own. One of them is open at a time.
    A link in the place of one isn't followed."""

    def __init__(self, fd: int) -> None:
        self.fd = fd
        self.sizes: Dict[str, int] = {}  # how many links and folders are in each that was made
        self._path, self._open = "", fd

    def close(self) -> None:
        if self._open != self.fd:
            os.close(self._open)
        self._path, self._open = "", self.fd

    def at(self, path: str, make: bool = False) -> int:
        """A descriptor of a folder, until the next call. _Foreign: something else is there."""
        if path == self._path:
            return self._open
        self.close()
        fd = self.fd
        done = ""
        for name in path.split("/") if path else []:
            begin, done = done, f"{done}/{name}" if done else name
            try:
                inner = self._one(name, fd, done, make)
            finally:
                if fd != self.fd:
                    os.close(fd)
            fd = inner
            if make and done not in self.sizes:
                self._count(begin, 1)
                self.sizes[done] = 0
        self._path, self._open = path, fd
        return fd

    def _one(self, name: str, fd: int, path: str, make: bool) -> int:
        try:
            inner = os.open(name, os.O_RDONLY | os.O_DIRECTORY | os.O_NOFOLLOW, dir_fd=fd)
        except FileNotFoundError:
            if not make:
                raise _Foreign(path) from None
            self._make(name, fd, path)
            return self._one(name, fd, path, False)
        except OSError as error:
            if error.errno in (errno.ENOTDIR, errno.ELOOP):
                raise _Foreign(path) from None
            raise
        if target_of(MARK, inner) is None:
            os.close(inner)
            raise _Foreign(path)
        return inner

    def _make(self, name: str, fd: int, path: str) -> None:
        """Makes a folder with its mark in one step."""
        try:
            os.mkdir(_FOLDER, dir_fd=self.fd)
        except FileExistsError:
            self.drop_new()
            os.mkdir(_FOLDER, dir_fd=self.fd)
        new = os.open(_FOLDER, os.O_RDONLY | os.O_DIRECTORY | os.O_NOFOLLOW, dir_fd=self.fd)
        try:
            os.symlink("made by yazgoulm-folder", MARK, dir_fd=new)
            rename_new(_FOLDER, self.fd, name, fd)
        except FileExistsError:
            raise _Foreign(path) from None
        finally:
            os.close(new)

    def drop_new(self) -> None:
        """Removes a folder that a killed process was making."""
        if _FOLDER not in os.listdir(self.fd):
            return
        for name in (f"{_FOLDER}/{MARK}", _FOLDER):
            try:
                (os.rmdir if name == _FOLDER else os.unlink)(name, dir_fd=self.fd)
            except OSError as error:
                if error.errno not in (errno.ENOENT, errno.ENOTEMPTY, errno.ENOTDIR):
                    raise

    def _count(self, path: str, more: int) -> None:
        if path:
            self.sizes[path] = self.sizes.get(path, 0) + more

    def added(self, path: str) -> None:
        self._count(path, 1)

    def removed(self, path: str) -> None:
        """A link in a folder has gone, and the folder goes if nothing else is in it."""
        while path:
            self.sizes[path] -= 1
            if self.sizes[path] > 0 or not self._remove(path):
                return
            del self.sizes[path]
            path = os.path.dirname(path)

    def _remove(self, path: str) -> bool:
        """Removes a folder that was made. False: it stays, as something is in it."""
        try:
            fd = self.at(path)
        except _Foreign:
            return True  # it isn't there any more
        if os.listdir(fd) != [MARK]:
            return False
        os.unlink(MARK, dir_fd=fd)
        parent, name = os.path.split(path)
        try:
            os.rmdir(name, dir_fd=self.at(parent))
        except OSError as error:
            if error.errno != errno.ENOTEMPTY:
                raise
            os.symlink("made by yazgoulm-folder", MARK, dir_fd=self.at(path))
            return False
        return True


class _Renamed(Renamed):
    """Links whose new ones are renamed over the old: a file manager takes an exchange of two for a removal."""

    def relink(self, name: str, fd: int, old: str, new: str) -> bool:
        if target_of(name, fd) != old:
            return False
        os.symlink(new, self.hidden, dir_fd=self.fd)
        os.replace(self.hidden, name, src_dir_fd=self.fd, dst_dir_fd=fd)
        return True


class Links:
    """A folder `path` that has a symbolic link to each entry of `folder` that matches a formula.

        Links(folder, formula, path, tree=False, relative=False, tell=None)

        with Folder("docs") as folder, Links(folder, "name==*.txt", "texts") as links:
            links.follow()

    It makes the folder, or takes one that is empty or has its mark, the file `.yazgoulm`. It never removes or replaces
    there what it didn't make: that stays, is told, and its name is passed over. A link has the name of its entry. A
    second one of a name has ` (2)` before the extension, and so on by the lowest free number. It keeps its name while
    its entry matches, also over the end of the program: the next one makes the difference alone. At the end links stay.

    A program with a loop of its own calls `begin()` once the folder was looked at, gives it all lines by `hear`, and
    calls `mend()` where no line waits and `turn()` has no more. Several may be on one folder, each with its window.

    - With `tree` links are in folders, as their entries are. A folder has no link then.
    - With `relative` links lead from the place of the link, and else from the root.
    - `tell` is given a line for what stays, and for a call of the system that fails, which `mend` tries again.

    Where `path` is below the folder, it is left out of it while the links are kept: no window of the folder has it, nor
    what is in it. A link that leads there isn't linked. BadQuery: the formula can't be read. Error: the
    folder has something else, or another process keeps it, or it is the folder itself. OSError: it can't be made."""

    def __init__(
        self,
        folder: Folder,
        formula: str,
        path: Path,
        *,
        tree: bool = False,
        relative: bool = False,
        tell: Optional[Callable[[str], Any]] = None,
    ) -> None:
        folder.volume.fetch(formula)
        self.folder, self.formula, self.tree, self.relative = folder, formula, bool(tree), bool(relative)
        self.window: Optional[Window] = None
        self._tell = _arguments.call("tell", tell) or _warn
        self._begin = folder.given.rstrip("/") + "/"
        self._kept = _Kept(folder.given, formula, os.fsdecode(path), self._tell)
        self._kept.is_relative = self.relative
        if self._kept.inside is not None:
            folder._leave_out(self._kept.own.fd, True)
        self._wanted: Dict[str, int] = {}  # the nodes of what matches, by their paths below the folder
        self._places: Dict[int, str] = {}  # and their paths
        self._origins: Dict[int, str] = {}  # where a node was when the links were right
        self._due: Set[str] = set()  # paths that may need another link
        self.failed: Optional[str] = None  # why the links aren't right
        self._again_at = 0.0

    def close(self) -> None:
        """Ends it, and the links stay. It may be called again."""
        if self.window is not None:
            self.window.close()
        if self._kept.inside is not None and self._kept.own.fd >= 0:
            self.folder._leave_out(self._kept.own.fd, False)
        self._kept.close()

    def __enter__(self) -> "Links":
        return self

    def __exit__(self, *_: Any) -> None:
        self.close()

    def __len__(self) -> int:
        """How many links there are."""
        return len(self._kept.links)

    def begin(self) -> None:
        """Opens the window, once the folder was looked at."""
        self._kept.look()
        self._due.update(self._kept.links)
        formula = f"({self.formula}) && kind!=folder" if self.tree else self.formula
        self.window = self.folder.open(formula)

    def hear(self, line: Line) -> None:
        """Takes a line of the folder; those of other windows are passed over."""
        if self.window is None or line.window != self.window.number:
            return
        if line.what == "anew":
            self._due.update(self._wanted)
            self._wanted.clear()
            self._places.clear()
            return
        path = line.path[len(self._begin) :]
        self._due.add(path)
        if line.what == "left" or self._is_back(line, path):
            self._forget(path, line.node)
        else:
            self._want(path, line.node)
        if line.old_path is not None:
            old = line.old_path[len(self._begin) :]
            self._due.add(old)
            if self._wanted.get(old) == line.node:
                del self._wanted[old]

    def _want(self, path: str, node: int) -> None:
        old = self._places.get(node)
        if old is not None and old != path:
            self._origins.setdefault(node, old)
            self._due.add(old)
            if self._wanted.get(old) == node:
                del self._wanted[old]
        other = self._wanted.get(path)
        if other is not None and other != node:
            self._origins.setdefault(other, path)
            self._places.pop(other, None)
        self._wanted[path], self._places[node] = node, path

    def _forget(self, path: str, node: int) -> None:
        if node == 0 or self._wanted.get(path) == node:
            self._places.pop(self._wanted.pop(path, 0), None)

    def _is_back(self, line: Line, path: str) -> bool:
        """Whether an entry is in the kept folder, or a link that leads there."""
        inside = self._kept.inside
        if inside is not None and (path == inside or path.startswith(f"{inside}/")):
            return True
        return line.kind == "link" and self._kept.leads_back(line.path)

    def mend(self) -> Optional[float]:
        """Makes the links right, once all lines were taken. Returns after how many seconds to call it again, if it is
        to be called without a line. Error: the kept folder was moved, removed or replaced."""
        self._kept.need()
        if self.failed and time.monotonic() < self._again_at:
            return self._again_at - time.monotonic()
        try:
            self._mend()
        except OSError as error:
            self._kept.need()
            reason = error.strerror or str(error)
            if self.failed != reason:
                self.failed = reason
                self._tell(f"{shown(to_name(self._kept.path))}: {reason}; it is tried again")
            self._again_at = time.monotonic() + _AGAIN
            return _AGAIN
        finally:
            self._kept.folders.close()
        self.failed = None
        return None

    def _mend(self) -> None:
        kept = self._kept
        for path in self._due:
            self._test(path)
        moved = {}
        for node, old in self._origins.items():
            new = self._places.get(node)
            if new is not None and old in kept.links and old not in self._wanted and new not in kept.links:
                moved[old] = new
        for path in [it for it in self._due if it in kept.links and it not in self._wanted and it not in moved]:
            kept.remove(path)
            self._due.discard(path)
        for old, new in kept.relink_all(moved, self.tree):
            if old in kept.links:
                kept.move(old, new, self._folder_of(new))
            self._due.discard(old)
        self._due.difference_update(moved)
        self._origins.clear()
        while self._due:
            for path in sorted(self._due):
                if path in self._wanted:
                    kept.make(path, self._folder_of(path))
                self._due.discard(path)
            self._due.update(kept.pushed)  # they were in the place of a folder
            kept.pushed.clear()
        kept.done()

    def _test(self, path: str) -> None:
        """A path is wanted only for the entry that is there: lines tell no more than the last of what happened."""
        node = self._wanted.get(path)
        if node is None:
            return
        try:
            is_there = self.folder.path(node) == self._begin + path
        except NotFound:
            is_there = False
        if not is_there:
            del self._wanted[path]
            if self._places.get(node) == path:
                del self._places[node]

    def _folder_of(self, path: str) -> str:
        return os.path.dirname(path) if self.tree else ""

    def follow(self) -> None:
        """Keeps the links right, without end: FolderGone, and Error, as of `mend`, end it."""
        if self.window is None:
            self.folder.begin()
            self.begin()
        for _ in following(self.folder, lambda: [self]):
            pass


def following(folder: Folder, kept: Callable[[], Iterable[Links]]) -> Iterator[Turned]:
    """Keeps the links of a folder right, without end, and gives each turn."""
    while True:
        turned = folder.turn()
        every = [*kept()]
        for lines in iter(folder.lines, []):
            for line in lines:
                for it in every:
                    it.hear(line)
        pauses = [] if turned.more else [it.mend() for it in every]
        yield turned
        folder._wait(min([folder._pause(turned), *(it for it in pauses if it is not None)]))


class _Kept:
    """The links that there are on disk, by the path of the entry that each leads to."""

    def __init__(self, of: str, formula: str, path: str, tell: Callable[[str], Any]) -> None:
        self.of, self.path, self.tell = os.path.realpath(of), path, tell
        self.real = os.path.realpath(path)
        if self.of == self.real or f"{self.of}/".startswith(f"{self.real.rstrip('/')}/"):
            raise Trouble(f"{path} has the folder itself in it: name another folder for links", UNUSABLE)
        begin = self.of.rstrip("/") + "/"
        # where it is below the folder that it has the links of, if it is
        self.inside = self.real[len(begin) :] if self.real.startswith(begin) else None
        self.own = Own(path, "links", self.of, formula, ABOUT)
        self.links: Dict[str, _Link] = {}
        self.is_relative = False
        self._names: Dict[Tuple[str, str], str] = {}  # the entry's path, by a link's folder and name
        self._next: Dict[Tuple[str, str], int] = {}  # all numbers below it are taken, for an entry's name in a folder
        self._foreign: Set[str] = set()  # what was told
        self.pushed: Set[str] = set()  # entries whose links were removed, as a folder has to be there
        self._prefixes: Dict[str, str] = {}
        self._old_place: Optional[str] = None
        try:
            self._identity = self._identity_of(os.fstat(self.own.fd))
            self.folders = _Folders(self.own.fd)
            self.folders.drop_new()
            self._moving = target_of(_MOVING, self.own.fd)
            place = target_of(_PLACE, self.own.fd)
            self._old_place = None if place is None else place[len(_AT) :]
            self.renamed = _Renamed(self.own.fd, self._is_own)
        except BaseException:
            self.own.close()
            raise

    def close(self) -> None:
        if self.own.fd >= 0:
            self.folders.close()
        self.own.close()

    @staticmethod
    def _identity_of(found: os.stat_result) -> Tuple[int, int]:
        return found.st_dev, found.st_ino

    def need(self) -> None:
        """The kept folder is the one at its path, or the program can't go on."""
        try:
            there: Optional[os.stat_result] = os.stat(self.path)
        except OSError:
            there = None
        if there is None or self._identity_of(there) != self._identity:
            raise Trouble(f"{self.path} was moved, removed or replaced, so no links are kept in it any more", ENDED)

    def leads_back(self, path: str) -> bool:
        """Whether a link leads into the kept folder, itself or by other links."""
        place = path
        for _ in range(_MOST_LINKS):
            folder, name = os.path.split(place)
            place = os.path.realpath(place) if name in ("", ".", "..") else os.path.join(os.path.realpath(folder), name)
            if place == self.real or place.startswith(f"{self.real}/"):
                return True
            try:
                place = os.path.join(os.path.dirname(place), os.readlink(place))
            except OSError:
                return False
        return False

    def _target(self, path: str, folder: str) -> str:
        return f"{self._prefix(folder) if self.is_relative else self.of.rstrip('/')}/{path}"

    def _prefix(self, folder: str, place: Optional[str] = None) -> str:
        at = os.path.join(place or self.real, folder)
        if at not in self._prefixes:
            if len(self._prefixes) > 1000:
                self._prefixes.clear()
            self._prefixes[at] = os.path.relpath(self.of, at).rstrip("/")
        return self._prefixes[at]

    def _entry(self, target: str, folder: str) -> Optional[str]:
        """The path of the entry that a link leads to, by its target. None: it leads elsewhere."""
        begins = [self.of.rstrip("/"), self._prefix(folder)]
        if self._old_place is not None:
            begins.append(self._prefix(folder, self._old_place))
        for begin in begins:
            path = target[len(begin) + 1 :]
            if target.startswith(f"{begin}/") and path and path == os.path.normpath(path) and path[:3] != "../":
                return path
        return None

    def _is_own(self, target: str) -> bool:
        """Whether a link with a hidden name was made for an entry: it may be one for a deeper folder."""
        while target.startswith("../") and self._entry(target, "") is None:
            target = target[3:]
        return self._entry(target, "") is not None

    def look(self) -> None:
        """Finds the links that an earlier program made."""
        self._look_in("")
        self._say_moved()

    def _look_in(self, folder: str) -> None:
        inner: List[str] = []
        with os.scandir(self.folders.at(folder)) as found:
            for it in found:
                if _RESERVED.fullmatch(it.name):
                    continue
                place = f"{folder}/{it.name}" if folder else it.name
                if it.is_symlink():
                    self._take(folder, it.name, it.inode())
                elif it.is_dir(follow_symlinks=False):
                    inner.append(place)
        for place in inner:
            try:
                self.folders.at(place)
            except (_Foreign, PermissionError):
                continue
            self.folders.sizes[place] = 1  # it stays while it is looked at
            self.folders.added(folder)
            self._look_in(place)
            self.folders.removed(place)

    def _take(self, folder: str, name: str, inode: int) -> None:
        fd = self.folders.at(folder)
        target = target_of(name, fd)
        if target is None:
            return
        link = _Link(folder, name, target)
        if self._moving == _moving(inode, target):  # it may be where its target leads elsewhere
            self.folders.added(folder)
            self._drop(link)
            return
        path = self._entry(target, folder)
        if path is None or folder not in ("", os.path.dirname(path)) or not is_of(name, os.path.basename(path)):
            return
        other = self.links.get(path)
        if other is not None and self._is_better(other, link, path):
            self.folders.added(folder)
            self._drop(link)
            return
        if other is not None:
            self._forget(path)
            self._drop(other)
        self._note(path, link)

    def _is_better(self, one: _Link, other: _Link, path: str) -> bool:
        """Which of two links to an entry stays."""
        return (len(one.name), one.name) <= (len(other.name), other.name)

    def _drop(self, link: _Link) -> None:
        """Removes a link that isn't noted."""
        try:
            self.renamed.remove(link.name, self.folders.at(link.folder), link.target)
        except _Foreign:
            pass
        self.folders.removed(link.folder)

    def _note(self, path: str, link: _Link) -> None:
        self.links[path] = link
        self._names[link.folder, link.name] = path
        self.folders.added(link.folder)

    def _forget(self, path: str) -> _Link:
        """Its name is free from now on."""
        link = self.links.pop(path)
        del self._names[link.folder, link.name]
        self._free(link.folder, os.path.basename(path), 1)
        for it in _NUMBER.finditer(link.name):
            self._free(link.folder, link.name[: it.start()] + link.name[it.end() :], int(it[1]))
        return link

    def _free(self, folder: str, entry: str, number: int) -> None:
        if self._next.get((folder, entry), 0) > number:
            self._next[folder, entry] = number

    def _found(self, folder: str, name: str) -> None:
        """Something is there that the program didn't make."""
        place = os.path.join(folder, name)
        if place not in self._foreign and place not in self.folders.sizes and (folder, name) not in self._names:
            self._foreign.add(place)
            where = shown(to_name(os.path.join(self.path, place)))
            self.tell(f"{where}: it isn't a link that was made here, so it stays as it is")

    def remove(self, path: str) -> None:
        link = self.links[path]
        is_removed = False
        try:
            is_removed = self.renamed.remove(link.name, self.folders.at(link.folder), link.target)
        except _Foreign as foreign:
            self._found(*os.path.split(foreign.path))
        self._lose(path, is_removed)

    def _lose(self, path: str, is_removed: bool) -> None:
        """A link was removed, or isn't as it was made, and what is there is told."""
        link = self._forget(path)
        if not is_removed:
            try:
                self._test(link)
            except _Foreign:
                pass
        self.folders.removed(link.folder)

    def _test(self, link: _Link) -> None:
        """Tells what is in a link's place, if something is."""
        if os.path.lexists(f"/proc/self/fd/{self.folders.at(link.folder)}/{link.name}"):
            self._found(link.folder, link.name)

    def make(self, path: str, folder: str) -> None:
        """There is a link to the entry in that folder, and its target is as it has to be."""
        link, target = self.links.get(path), self._target(path, folder)
        if link is not None and link.folder == folder:
            if link.target == target or self._relink(path, path, target):
                return
            link = None
        if link is not None:
            self.remove(path)
        self._add(path, folder, target)

    def relink_all(self, moved: Dict[str, str], tree: bool) -> List[Tuple[str, str]]:
        """Gives the links of entries whose paths are others, and whose names aren't, their new targets: as where a folder
        moved. Returns the others, and those whose links aren't as they were made."""
        links, names, renamed, others = self.links, self._names, self.renamed, []
        prefix = f"{self._prefix('') if self.is_relative else self.of.rstrip('/')}/"
        for old, new in moved.items():
            folder, name, old_target = links[old]
            if tree or folder or new.rpartition("/")[2] != name:
                others.append((old, new))
                continue
            target = prefix + new
            if not renamed.relink(name, self.own.fd, old_target, target):
                others.append((old, new))
                continue
            del links[old]
            links[new] = _Link("", name, target)
            names["", name] = new
        return others

    def _relink(self, old: str, new: str, target: str) -> bool:
        """Gives a link another target. False: it isn't there any more, and is forgotten."""
        link = self.links[old]
        try:
            if self.renamed.relink(link.name, self.folders.at(link.folder), link.target, target):
                del self.links[old]
                self.links[new] = link._replace(target=target)
                self._names[link.folder, link.name] = new
                return True
        except _Foreign as foreign:
            self._found(*os.path.split(foreign.path))
        self._lose(old, False)
        return False

    def _add(self, path: str, folder: str, target: str) -> None:
        entry = os.path.basename(path)
        try:
            for number, name in self._free_names(folder, entry):
                try:
                    os.symlink(target, name, dir_fd=self.folders.at(folder, make=True))
                except FileExistsError:
                    self._found(folder, name)
                    continue
                self._note(path, _Link(folder, name, target))
                self._next[folder, entry] = number + 1
                return
        except _Foreign as foreign:
            blocking = self._names.get(os.path.split(foreign.path))
            if blocking is None:
                return self._found(*os.path.split(foreign.path))
            self.remove(blocking)
            self.pushed.add(blocking)
            self._add(path, folder, target)
        except OSError as error:
            if error.errno != errno.ENAMETOOLONG:
                raise
            self.tell(f"{shown(to_name(path))}: its path is too long for a link, so it is passed over")

    def _free_names(self, folder: str, entry: str) -> Iterator[Tuple[int, str]]:
        number = self._next.get((folder, entry), 1)
        while True:
            name = numbered(entry, number)
            if (folder, name) not in self._names and not _RESERVED.fullmatch(name):
                yield number, name
            number += 1

    def move(self, old: str, new: str, folder: str) -> None:
        """The entry of a link has another path: the link gets another target, and another name if it needs one. A file
        manager that has it selected sees a link that is renamed, and then written."""
        link, target = self.links[old], self._target(new, folder)
        entry = os.path.basename(new)
        if link.folder == folder and is_of(link.name, entry):
            if not self._relink(old, new, target):
                self._add(new, folder, target)
            return
        is_right = self._rename(old, folder, entry) and self._relink(old, new, target)
        if not is_right and old in self.links:
            self.remove(old)
        self._say_moved()
        if not is_right:
            self._add(new, folder, target)

    def _rename(self, old: str, folder: str, entry: str) -> bool:
        """Gives a link another name. A hidden link says which one that is, so that the next program knows it after a
        kill: until it has its new target, its name isn't that of its entry. False: it isn't there any more."""
        link = self.links[old]
        from_fd = -1
        try:
            from_fd = os.dup(self.folders.at(link.folder))
            to_fd = self.folders.at(folder, make=True)
            if target_of(link.name, from_fd) != link.target:
                return False
            inode = os.stat(link.name, dir_fd=from_fd, follow_symlinks=False).st_ino
            self._say_moving(_moving(inode, link.target))
            for number, name in self._free_names(folder, entry):
                try:
                    rename_new(link.name, from_fd, name, to_fd)
                except FileExistsError:
                    self._found(folder, name)
                    continue
                break
        except FileNotFoundError:
            return False
        except _Foreign as foreign:
            self._found(*os.path.split(foreign.path))
            return False
        finally:
            if from_fd >= 0:
                os.close(from_fd)
        self._forget(old)
        self._note(old, _Link(folder, name, link.target))
        self._next[folder, entry] = number + 1
        self.folders.removed(link.folder)
        return True

    def _say_moving(self, link: str) -> None:
        self._say_moved()
        os.symlink(link, _MOVING, dir_fd=self.own.fd)
        self._moving = link

    def _say_moved(self) -> None:
        if self._moving is not None:
            os.unlink(_MOVING, dir_fd=self.own.fd)
            self._moving = None

    def done(self) -> None:
        """All links are right."""
        if self.is_relative and self._old_place != self.real:
            if self._old_place is not None:
                os.unlink(_PLACE, dir_fd=self.own.fd)
            os.symlink(_AT + self.real, _PLACE, dir_fd=self.own.fd)
            self._old_place = self.real

    def clear(self) -> int:
        """Takes away all that was made. Returns how many links there were."""
        self.look()
        count = len(self.links)
        for path in [*self.links]:
            self.remove(path)
        for name in (_PLACE, MARK):
            try:
                os.unlink(name, dir_fd=self.own.fd)
            except FileNotFoundError:
                pass
        return count


def clear(of: str, path: str, tell: Callable[[str], Any]) -> int:
    """Takes away the links of a folder. Returns how many there were."""
    if not os.path.isdir(path):
        raise Trouble(f"{path}: there is no such folder", UNUSABLE)
    if not os.path.lexists(os.path.join(path, MARK)):
        raise Trouble(f"{path} has no mark, so no links were made there", UNUSABLE)
    kept = _Kept(of, "", path, tell)
    try:
        return kept.clear()
    finally:
        kept.close()
