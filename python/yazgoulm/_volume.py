"""Volumes, their queries, and the rows of a query."""
import os, threading, time, weakref
from typing import (
    TYPE_CHECKING, Any, Callable, Dict, ItemsView, Iterable, Iterator, List, Mapping, Optional, Set, SupportsIndex,
    Tuple, Type, TypeVar, Union, ValuesView,
)  # fmt: skip

from . import _arguments, _kept
from ._reasons import RESERVED, reason
from ._text import said
from ._types import (
    FILE, ROOT, Applied, Attribute, Cause, Difference, Entry, Formula, Info, Kept, Mark, Message, NotFound, Overrun, Place,
    Refused, Result,
)  # fmt: skip

if TYPE_CHECKING:
    from ._by_ctypes import Handle
    from ._by_ctypes import Reader as _Reader
else:
    from ._library import Handle
    from ._library import Reader as _Reader

# A name of an entry: a str, or the name of a file on disk as bytes or as a path. And a path of one.
Name = Union[str, bytes, "os.PathLike[Any]"]
Path = Union[str, bytes, "os.PathLike[str]", "os.PathLike[bytes]"]
_Self = TypeVar("_Self", bound="Volume")
Value = Union[str, int, Tuple[int, str]]  # of an attribute: by itself, or with the type
_NO_NODE = (1 << 64) - 1  # which is never given
_CHANGES = {"create", "remove", "move", "rename", "write", "set", "unset"}  # of `apply`
_IN_A_ROW = 100  # messages of an `async for`, after which the loop has a turn


def _no_copy(self: Any, _protocol: SupportsIndex) -> Any:
    raise TypeError(f"a {type(self).__name__} can be neither copied nor pickled")


class Volume:
    """A tree of folders, files and typed attributes, and the live queries on it. It begins with the root, node 1.

    A volume, its queries and their rows can be used on any thread: a call holds the volume's lock, so none sees another
    one half done. After a fork the child has a volume of its own, with all that this one held. As a context manager the
    volume is closed at the end; once it is, each call but `close` raises ValueError.

    `wake`, if it is set, is called after each change, line, `close` and `hang_up` after which a query has something to
    read: there an event loop can be told to read. It has no arguments, and is called on the thread of that call, once
    the lock is free. What it raises, the call raises.

    With a path the volume is kept in that folder, which is made if it isn't there. What was accepted is there again when
    the path is opened after a restart, with the same nodes and numbers. A change is in the folder's journal before its
    call returns, so it survives the end of the process at any moment. `sync` says what a power cut may take: with
    "always" nothing, with a number the changes of the last so many milliseconds, with "never" what the system hasn't
    written yet. A thread of the volume syncs, and cuts the journal anew. Windows aren't kept. Of a fork the child's
    volume is in memory alone. `damaged=True` opens what comes before a damage. Locked: another volume has the folder.
    BadSave: a file in it is damaged. NotKept, of a change: see there."""

    def __init__(
        self, path: Optional[Path] = None, *, sync: Union[str, int] = "always", damaged: bool = False
    ) -> None:
        number = _kept.sync_number(sync)
        self._turns: Optional[_kept.Turns] = None
        self._handle = Handle()  # its `locked` alone takes the lock of the volume, its queries and their rows
        self._queries: Dict[int, "weakref.ref[Query]"] = {}  # by the slots that they have, or had until the next sweep
        # who waits for a query: under the future of one that awaits it the loop, under the lock of a thread None
        self._waiting: Dict[Any, Tuple["weakref.ref[Query]", Any]] = {}
        self._wake: Optional[Callable[[], Any]] = None
        self._is_due = False  # whether there is something to do after a turn
        self._is_held = False  # whether the changes of `apply` wait for their sync
        self._of_parent: Any = None  # after a fork: who awaits a query in the process that this one comes from
        _FORKS.volumes.add(weakref.ref(self, _FORKS.volumes.discard))
        #: How many changes the journal gave at the opening, and how many bytes at its end were no whole change.
        self.replayed, self.dropped = 0, 0
        self._syncs = False  # whether `apply` syncs
        if path is not None:
            self._keep(path, number, bool(damaged))

    def _keep(self, path: Path, sync: int, damaged: bool) -> None:
        try:
            self.replayed, self.dropped = _kept.keep(self._handle, path, sync, damaged)
            self._syncs = sync != _kept.NEVER
            most = sync / 1000 if 0 < sync < 1000 else 1.0
            self._turns = _kept.Turns(weakref.WeakMethod(self._turn_journal), os.fsdecode(path), most)
        except BaseException:
            self._handle.free()
            raise

    def _turn_journal(self) -> Tuple[Optional[Kept], float]:
        return _kept.turn(self._handle)

    def kept(self) -> Optional[Kept]:
        """How the volume is kept, after a turn of its journal: what is due is synced. None: it is in memory alone."""
        return self._turn_journal()[0]

    def sync(self) -> None:
        """Has the disk keep all changes so far; a volume in memory has nothing to do. NotKept: it can't."""
        _kept.synced(self._handle.keep_sync(), "sync")

    def save(self, path: Union[Path, int]) -> None:
        """Saves the volume to a file: its entries with their nodes and attributes, and its numbers, but no queries.

        The file is written beside its place, with a name that begins with a dot, and is renamed once the disk has it.
        So whatever fails, the file that was there before stays whole; OSError says what failed. A file that is open is
        given by its number, as `open` takes it, and is written where it stands. Other threads run meanwhile, but calls of
        this volume wait."""
        _kept.save(self._handle, path)

    @classmethod
    def load(cls: Type[_Self], path: Union[Path, int]) -> _Self:
        """The volume that `save` has written to a file, or to the one that is open under this number: then it reads from
        where that stands, to the end. Changes and nodes go on at the numbers that it had.

        BadSave: the file holds no saved volume, as where it was cut; its `place` is the byte, and its `node` the entry."""
        volume = cls()
        try:
            _kept.load(volume._handle, path)
        except BaseException:
            volume.close()
            raise
        return volume

    def copy(self: _Self) -> _Self:
        """Another volume that is as if this one were saved and loaded: what is done with one leaves the other."""
        volume = type(self)()
        try:
            self._handle.locked(volume._handle.copy, self._handle)
        except BaseException:
            volume.close()
            raise
        return volume

    def close(self) -> None:
        """Frees the volume and its queries. It may be called again. A volume that is kept is synced first; NotKept: it
        can't be, and is closed all the same."""
        if self._turns is not None:
            self._turns.end()
        try:
            _kept.closed(self._handle.free())
        finally:
            self._turned()

    def __enter__(self) -> "Volume":
        return self

    def __exit__(self, *_: Any) -> None:
        self.close()

    __reduce_ex__ = _no_copy

    def __repr__(self) -> str:
        return self._handle.locked(self._said)

    def _said(self) -> str:
        if not self._handle.is_open():
            return "<Volume, closed>"
        return f"<Volume with {self.changes} changes and {len(self._queries)} queries>"

    @property
    def wake(self) -> Optional[Callable[[], Any]]:
        """What is called after each turn that leaves a query with something to read, or None."""
        return self._wake

    @wake.setter
    def wake(self, wake: Optional[Callable[[], Any]]) -> None:
        self._handle.locked(self._set_wake, _arguments.call("wake", wake))

    def _set_wake(self, wake: Optional[Callable[[], Any]]) -> None:
        self._is_due, self._wake = True, wake

    def _turned(self) -> None:
        """What is due after a turn: frees the slots that nobody has any more, and wakes who waits for messages. Within
        `apply` it comes at the end."""
        if self._is_held and self._handle.is_mine():
            return
        try:
            wake = self._handle.locked(self._turn)
        except BaseException:  # of a signal, which may have cut it anywhere: others wait for what it does
            self._handle.locked(self._turn)
            raise
        if wake is not None:
            wake()

    def _turn(self) -> Optional[Callable[[], Any]]:
        """Does all but the last of it, under the lock. Returns what is to be called then."""
        if self._is_held:  # by an `apply` that was cut
            self._end_batch()
        self._is_due = False  # before what follows is looked at: a query may be forgotten at any moment
        if self._is_unsure:
            self._sweep()
        ready = self._handle.ready() if self._handle.is_open() else 0
        waiting = [(loop, waiter, query()) for waiter, (query, loop) in self._waiting.items()]
        woken = [(loop, waiter) for loop, waiter, query in waiting if query is None or query._is_ready(ready)]
        for loop, waiter in woken:
            _tell(loop, waiter)
            self._waiting.pop(waiter, None)
        if self._waiting or self._wake:
            self._is_due = True
        return self._wake if ready else None

    @property
    def _is_unsure(self) -> bool:
        """Whether a slot may be open that no query has. The handle has it, since a line looks at it under the lock."""
        return self._handle.is_unsure

    def _sweep(self) -> None:
        """Frees each slot that no query has, under the lock: that of a query which was dropped or which nobody has any
        more, and that of an opening which a signal's exception has cut. What gives slots, an opening or a line, comes
        after it; so none that stands here is another's by now, and it can be cut and done again."""
        self._handle.is_unsure = False  # before they are looked at, as above
        try:
            untold = self._handle.untold()
            for slot in [*self._queries, untold] if untold else [*self._queries]:
                if not self._has(slot):
                    try:
                        self._free(slot)
                    except Refused:  # it is free already: a line did that, or this before it was cut
                        self._queries.pop(slot, None)
            self._handle.told()
        except BaseException:
            self._handle.is_unsure = True
            raise

    def _has(self, slot: int) -> bool:
        """Whether a query has a slot."""
        found = self._queries.get(slot)
        query = found() if found else None
        return query is not None and query.slot == slot

    def _free(self, slot: int) -> None:
        if self._handle.is_open():
            self._handle.drop(slot)
        self._queries.pop(slot, None)

    def _doubt(self) -> None:
        """Says that a slot may be open that no query has, before or after there is one."""
        self._handle.is_unsure = self._is_due = True

    def answer(self, line: Union[str, bytes]) -> bytes:
        """The reply to one line of a script, as `lq run` writes it, with its LF; b"" for an empty line.

        A line that is refused has a reply that says so, and raises nothing. Lines shouldn't read, close or finish the
        slot of a Query, which wouldn't know of it."""
        try:
            reply = self._handle.answer(line)
            return self._handle.locked(self._swept_for, line) if reply is None else reply
        finally:
            if self._is_due:
                self._turned()

    def _swept_for(self, line: Union[str, bytes]) -> bytes:
        """The reply after a sweep, under the same lock: the line may open a query in a slot that is swept else."""
        reply: Optional[bytes] = None
        while reply is None:
            self._sweep()
            reply = self._handle.answer(line)
        return reply

    @property
    def changes(self) -> int:
        """The number of changes so far."""
        return self._handle.changes()

    def create(
        self,
        name: Name,
        dir: int = ROOT,
        kind: str = FILE,
        size: int = 0,
        time: int = 0,
        attributes: Optional[Mapping[Name, Value]] = None,
    ) -> Applied:
        """Creates an entry in a folder: `size` in bytes, 0 for a folder, `time` in seconds since 1970. No call reads a
        clock, so without a time it is 0.

        `attributes` are set in their order, by a change for each, and the last change is returned. The one that windows
        ask for comes last: then an entry has all others when it enters one. A value is as `set` takes it; for another
        type it is a pair of the value and the type. All are tested before the first change. Where one is refused after
        that, for want of memory, the exception has the node as `node`, and the names that were set as `attributes`."""
        try:
            if attributes is None:
                return self._handle.create(name, dir, kind, size, time)
            return self._create_with(name, dir, kind, size, time, attributes)
        finally:
            if self._is_due:
                self._turned()

    def _create_with(
        self, name: Name, dir: int, kind: str, size: int, time: int, given: Mapping[Name, Value]
    ) -> Applied:
        text, number = _arguments.encode_name("name", name).decode(), _arguments.natural("dir", dir)
        _arguments.kind(kind)
        numbers = number, kind, _arguments.natural("size", size), _arguments.whole("time", time)
        attributes = _arguments.attributes(given)
        with _as("create", name, dir, kind, size, time, given):
            return self._handle.locked(self._create_all, (text, *numbers), attributes)

    def _create_all(self, entry: Tuple[Any, ...], attributes: List[Tuple[str, Any, Any]]) -> Applied:
        """Creates an entry with its attributes, under the lock."""
        for attr, value, type in attributes:
            try:
                self._handle.set(_NO_NODE, attr, value, type)
            except NotFound:
                pass  # which is what comes where the attribute is well
            if attr in RESERVED:
                raise Refused(11, "Reserved")
        applied = self._handle.create(*entry)
        node, done = applied.node, []
        try:
            for attr, value, type in attributes:
                applied = self._handle.set(node, attr, value, type)
                done.append(attr)
        except Refused as refused:
            refused.node, refused.attributes = node, tuple(done)
            raise
        return applied

    def remove(self, node: int, recursive: bool = False) -> Applied:
        """Removes a file, or a folder that is empty. With `recursive` a folder goes with all that is in it, and the
        last of the changes is returned; where one is refused, as for want of memory, those before it stay made."""
        try:
            if not recursive:
                return self._handle.remove(node)
            with _as("remove", node, True):
                return self._handle.locked(self._remove_all, node)
        finally:
            if self._is_due:
                self._turned()

    def _remove_all(self, node: int) -> Applied:
        """Removes an entry after all that is in it, under the lock."""
        folders, nodes = [node], [node]
        if node == ROOT or self._handle.entry(node).kind == FILE:
            folders = []
        for folder in folders:  # which grow
            for it in self._handle.children(folder):
                nodes.append(it.node)
                if it.kind != FILE:
                    folders.append(it.node)
        for each in reversed(nodes):
            applied = self._handle.remove(each)
        return applied

    def move(self, node: int, dir: int, name: Name, clobber: bool = False) -> Applied:
        """Moves an entry to another place; with `clobber` another entry there goes."""
        try:
            return self._handle.move(node, dir, name, clobber)
        finally:
            if self._is_due:
                self._turned()

    def rename(self, node: int, name: Name, clobber: bool = False) -> Applied:
        """Gives an entry another name in its folder; with `clobber` another entry of that name goes."""
        node, text = _arguments.natural("node", node), _arguments.encode_name("name", name).decode()
        try:
            with _as("rename", node, name, clobber):
                return self._handle.locked(self._rename, node, text, clobber)
        finally:
            if self._is_due:
                self._turned()

    def _rename(self, node: int, name: str, clobber: bool) -> Applied:
        dir = ROOT if node == ROOT else self._handle.entry(node).dir
        return self._handle.move(node, dir, name, clobber)

    def write(self, node: int, size: Optional[int] = None, time: Optional[int] = None) -> Applied:
        """Sets a file's size in bytes, and its `last_modified` in seconds since 1970. What isn't given stays: without a
        time the time is as it was."""
        try:
            if size is None or time is None:
                return self._write_part(node, size, time)
            return self._handle.write(node, size, time)
        finally:
            if self._is_due:
                self._turned()

    def _write_part(self, node: int, size: Optional[int], time: Optional[int]) -> Applied:
        node = _arguments.natural("node", node)
        if size is not None:
            size = _arguments.natural("size", size)
        if time is not None:
            time = _arguments.whole("time", time)
        with _as("write", node, size, time):
            return self._handle.locked(self._write_rest, node, size, time)

    def _write_rest(self, node: int, size: Optional[int], time: Optional[int]) -> Applied:
        """Writes what is given, and what stands there for the rest, under the lock."""
        info = Info(ROOT, ROOT, "", FILE, 0, 0, {}, {}) if node == ROOT else self._handle.entry(node)
        return self._handle.write(node, info.size if size is None else size, info.time if time is None else time)

    def set(self, node: int, attr: Name, value: Union[str, int], type: Optional[str] = None) -> Applied:
        """Sets an attribute. Without a type, a str is "CSTR" and an int is "LLNG", a number of 64 bits with a sign."""
        try:
            return self._handle.set(node, attr, value, type)
        finally:
            if self._is_due:
                self._turned()

    def unset(self, node: int, attr: Name) -> Applied:
        """Removes an attribute."""
        try:
            return self._handle.unset(node, attr)
        finally:
            if self._is_due:
                self._turned()

    def apply(self, changes: Iterable[Union[Tuple[Any, ...], List[Any]]]) -> List[Applied]:
        """Makes changes in order, and returns what each call returned. A change is a tuple: the name of a call (`create`,
        `remove`, `move`, `rename`, `write`, `set` or `unset`), and what it takes. Other threads wait meanwhile.

        The first that is refused ends it. The exception has as `at` how many came before it, and as `applied` what they
        returned: they stand, since this is no transaction. A volume that is kept syncs once for all of them, before this
        returns or raises, unless `sync` is "never"; after a kill within it those are there that were made until then."""
        given = [*changes]
        try:
            return self._handle.locked(self._apply, given)
        finally:
            if self._is_due:
                self._turned()

    def _apply(self, given: List[Any]) -> List[Applied]:
        done: List[Applied] = []
        self._is_held = self._is_due = True  # so that, wherever this is cut, the next call ends the batch
        self._handle.keep_hold()
        try:
            for change in given:
                done.append(self._apply_one(change))
        except Exception as error:
            vars(error).update(at=len(done), applied=tuple(done))
            raise
        finally:
            self._end_batch()
        return done

    def _apply_one(self, change: Any) -> Applied:
        if not isinstance(change, (tuple, list)) or not change or change[0] not in _CHANGES:
            raise TypeError(f"a change must be a tuple of a call's name and what it takes, not {said(change)}")
        applied: Applied = getattr(self, change[0])(*change[1:])
        return applied

    def _end_batch(self) -> None:
        """Syncs the changes of `apply`, under the lock."""
        code = self._handle.keep_sync() if self._syncs and self._handle.is_open() else 0
        self._is_held = False
        _kept.synced(code, "apply")

    def open(
        self,
        formula: Formula,
        bound: Optional[Iterable[Union[str, int]]] = None,
        *,
        backlog: int = 65_536,
        moved: bool = False,
        values: Union[bool, Iterable[Union[str, int]], None] = False,
        on_overrun: str = "raise",
    ) -> "Query":
        """Opens a live query: see Query. `bound` has the values of the formula's `$1`, `$2` and so on, as `fetch` takes
        them.

        At most `backlog` messages, 1 to 65,536, wait beside the oldest. With `moved` an entry that moves within the
        result has one message for it, and not two. Where more messages come the query ends, and reading it then raises
        Overrun; with `on_overrun="mark"` its `mark` alone says so.

        With `values=True` each `write`, `set` and `unset` of an entry that is in the result before and after it has one
        message too, also where the value stays the same. Before 0.4.0 `values` was the name of `bound`: a list is still
        taken as that."""
        if not isinstance(values, bool):
            if bound is not None:
                raise TypeError(f"values must be True or False beside bound, not {said(values)}")
            bound, values = values, False
        return Query(self, formula, bound, backlog, moved, values, on_overrun)

    def ready(self) -> List["Query"]:
        """The queries that have a message, or their mark, to be read."""
        return self._handle.locked(self._ready)

    def _ready(self) -> List["Query"]:
        bits, found = self._handle.ready(), []
        for slot, query in [*self._queries.items()] if bits else ():
            it = query() if bits >> (slot - 1) & 1 else None
            if it is not None and it.slot == slot:
                found.append(it)
        return found

    def fetch(self, formula: Formula, values: Optional[Iterable[Union[str, int]]] = None) -> List[Entry]:
        """The entries that match now, by rising node.

        With `values`, a literal of the formula that is just `$1` to `$256`, without quotes, stands for the value of that
        number. A str is a text as it is, and no pattern; an int is a number. BadValues: a parameter has no value, or a
        value has no parameter. Without `values` a formula has no parameters, and `$1` is a text as any other."""
        return self._handle.fetch(*_arguments.asked(formula, values))

    def find(self, name: Name, dir: int = ROOT) -> int:
        """The node of the entry with this name in a folder."""
        return self._handle.find(name, dir)

    def find_path(self, path: Name, dir: int = ROOT) -> int:
        """The node at the end of a path from a folder: names with `/` between them, 65,536 bytes at most."""
        return self._handle.find_path(path, dir)

    def entry(self, node: int) -> Info:
        """The entry of a node, with its attributes: see Info."""
        return self._handle.entry(node)

    def attribute(self, node: int, name: Name) -> Attribute:
        """One attribute of an entry, by its name."""
        return self._handle.attribute(node, name)

    def children(self, dir: int = ROOT) -> List[Entry]:
        """The entries of a folder, in the order of their names' bytes."""
        return self._handle.children(dir)

    def path(self, node: int) -> str:
        """The path of an entry from the root, as "/folder/file"; "/" for the root."""
        return self._handle.path(node)


class _as:
    """Has a refusal within it say the name and the arguments of the call that a user has made."""

    def __init__(self, call: str, *arguments: Any) -> None:
        self.call, self.arguments = call, arguments

    def __enter__(self) -> None:
        pass

    def __exit__(self, _type: Any, error: Optional[BaseException], _traceback: Any) -> None:
        if isinstance(error, Refused):
            error.call, error.arguments = self.call, self.arguments
            error.args = error.code, error.name, self.call, self.arguments
            error.reason = reason(error.code, self.call, self.arguments)


def quote(text: str) -> str:
    """A text of at most 4,096 bytes as a literal that means just this text after `==`, `=` and `!=`: no character of it
    is a pattern's. `f"name=={quote(name)}"` finds the entries of this name, as `"name==$1"` does with `values`."""
    literal: str = Handle.quote(text)
    return literal


def _tell(loop: Any, waiter: Any) -> None:
    """Tells who waits that there is something to read. It may be told twice."""
    try:
        if loop is None:
            waiter.release()
            return
        loop.call_soon_threadsafe(_settle, waiter)
    except RuntimeError:
        pass  # the loop was closed, or the thread was told before


def _settle(future: Any) -> None:
    if not future.done():
        future.set_result(None)


class _Forks(threading.local):
    """Holds the lock of each volume during a fork: so no other thread is within a call, and the child has locks that
    are free and volumes that are whole. Whoever awaits a query does so in the parent alone."""

    volumes: "Set[weakref.ref[Volume]]" = set()  # of all threads

    def __init__(self) -> None:
        self.held: List[Any] = []  # which this thread takes, each from before it has it

    def before(self) -> None:
        """Takes all locks. While it waits for one it has no other, so that who has that one may take others."""
        busy: Any = None
        while True:
            self.free()
            if busy is not None:
                self.take(busy, True)
            busy = next((it for it in self.handles() if not self.take(it, False)), None)
            if busy is None:
                return

    def handles(self) -> List[Any]:
        return [volume._handle for volume in [it() for it in [*self.volumes]] if volume is not None]

    def take(self, handle: Any, waits: bool) -> bool:
        """Takes a lock, unless the thread has it. False: another thread has it, and this one may not wait."""
        if handle.is_mine():
            return True
        self.held.append(handle)
        return bool(handle.acquire(waits))

    def free(self) -> None:
        while self.held:
            if self.held[-1].is_mine():
                self.held[-1].release()
            self.held.pop()

    def after_in_child(self) -> None:
        for handle in self.handles():
            handle.forked()
        for found in [*self.volumes]:
            volume = found()
            if volume is not None and volume._waiting:
                volume._of_parent, volume._waiting = volume._waiting, {}
        self.free()


_FORKS = _Forks()
if hasattr(os, "register_at_fork"):
    for _ in range(2):  # since a signal's exception may cut one of them anywhere, and Python goes on with the next
        os.register_at_fork(
            before=_FORKS.before, after_in_parent=_FORKS.free, after_in_child=_FORKS.after_in_child
        )  # fmt: skip


# What says where an entry is: what an opening gave, or the latest message of it.
_Placed = Union[Place, Entry, Message]


def _place(it: _Placed) -> Place:
    return Place(it.dir, it.node, it.name)


class Row:
    """An entry of a query's result, at the place that the messages read so far give it.

    `info` is what it shows beside. A query with `values` has a message of each change to it, and `info` is looked up
    again after that. Without, a change inside a result has no message, so call `refresh` after making one."""

    __slots__ = "node", "_rows", "_placed", "_info", "_is_old"

    def __init__(self, rows: "Rows", node: int) -> None:
        self.node, self._rows, self._placed = node, rows, rows._placed[node]
        self._info: Optional[Info] = None
        self._is_old = False  # whether a message that was read says that `_info` may be another now

    @property
    def place(self) -> Place:
        """Its folder's node, its node and its name; the last ones, once it has left the result."""
        placed = self._rows._placed.get(self.node)
        return _place(self._placed if placed is None else placed)  # it was given the last one before it left

    @property
    def name(self) -> str:
        """Its name."""
        return self.place.name

    @property
    def info(self) -> Optional[Info]:
        """The entry with all that it has. It is looked up by `refresh`, when this is first asked for, and when this is
        first asked for after a message of one of its values was read. None where the entry had gone from the volume
        before it was ever looked up, as a message that waits says."""
        if self._info is None or self._is_old:
            self.refresh()
        return self._info

    def refresh(self) -> bool:
        """Looks the entry up again. True where `info` is another now; an entry that has gone keeps its last one."""
        handle = self._rows._volume._handle
        return handle.locked(self._look, handle)

    def _look(self, handle: Handle) -> bool:
        old = self._info
        try:
            self._info = handle.entry(self.node)
        except NotFound:
            pass  # no node is given twice
        self._is_old = False
        return self._info is not old and self._info != old

    __reduce_ex__ = _no_copy

    def __repr__(self) -> str:
        return f"<Row {self.node} {self.name!r}>"


class Rows(Mapping[int, Row]):
    """The rows of a query by their nodes. A row stays the same object while its entry is in the result. An iteration
    goes over those that are there when it begins, and messages may be read meanwhile."""

    def __init__(self, volume: Volume) -> None:
        self._volume = volume
        self._placed: Dict[int, _Placed] = {}  # which a read keeps, as it does the next
        self._rows: Dict[int, Row] = {}  # those that were asked for

    def __getitem__(self, node: int) -> Row:
        row = self._rows.get(node)
        if row is None:
            return self._volume._handle.locked(self._made, node)
        return row

    def _made(self, node: int) -> Row:
        row = self._rows.get(node)
        if row is None:
            row = self._rows[node] = Row(self, node)
        return row

    def __contains__(self, node: object) -> bool:
        return node in self._placed

    def __iter__(self) -> Iterator[int]:
        return iter([*self._placed])

    def __len__(self) -> int:
        return len(self._placed)

    def items(self) -> ItemsView[int, Row]:
        """The nodes and their rows."""
        return _Items(self)

    def values(self) -> ValuesView[Row]:
        """The rows."""
        return _Values(self)

    __reduce_ex__ = _no_copy

    def __repr__(self) -> str:
        return f"<Rows of {len(self)} entries>"

    def _all(self) -> List[Row]:
        return self._volume._handle.locked(self._all_made)

    def _all_made(self) -> List[Row]:
        return [*map(self._made, self._placed)]

    def _begin(self, placed: Dict[int, _Placed], are_old: bool) -> None:
        """Has these entries alone. Rows of those that it had stay, and look them up again where they are old."""
        for node, row in self._rows.items():
            if node not in placed:
                row._placed = self._placed[node]
            elif are_old:
                row._is_old = True
        self._rows = {node: row for node, row in self._rows.items() if node in placed}
        self._placed = placed

    def _in_order(self) -> List[Place]:
        return [_place(self._placed[node]) for node in sorted(self._placed)]


class _Items(ItemsView[int, Row]):
    def __iter__(self) -> Iterator[Tuple[int, Row]]:
        return iter([(row.node, row) for row in self._mapping._all()])  # type: ignore[attr-defined]


class _Values(ValuesView[Row]):
    def __iter__(self) -> Iterator[Row]:
        return iter(self._mapping._all())  # type: ignore[attr-defined]


def _difference(old: Dict[int, _Placed], new: Dict[int, _Placed]) -> Difference:
    """How two results differ, by rising node, which is the order of the new one."""
    both = [(_place(old[node]), _place(it)) for node, it in new.items() if node in old]
    return Difference(
        [_place(old[node]) for node in sorted(old.keys() - new.keys())],
        [_place(it) for node, it in new.items() if node not in old],
        [it for it in both if it[0] != it[1]],
    )


class Query(_Reader):
    """A live query of a volume. `entries` is its result at the opening, `at` the number of changes then, `slot` its
    number, and `rows` its result by the messages read so far.

    It is an iterator of the messages that are there: it stops where none waits, and goes on after the next change. With
    `async for` it waits for the next one. Where more messages come than the backlog has room for, the query ends; once
    those from before are read, Overrun is raised, and again by each read until `reopen` or `drop`. After any other end
    the iteration stops. `mark` then says why the query ended.

    As a context manager it is dropped at the end; a query that nobody has any more is dropped too."""

    def __init__(
        self,
        volume: Volume,
        formula: Formula,
        bound: Optional[Iterable[Union[str, int]]],
        backlog: int,
        moved: bool,
        values: bool,
        on_overrun: str,
    ) -> None:
        if on_overrun not in ("raise", "mark"):
            raise ValueError(f'on_overrun must be "raise" or "mark", not {said(on_overrun)}')
        self._volume, self._moved, self._values, self._on_overrun = volume, moved, values, on_overrun
        self._backlog = _arguments.whole("backlog", backlog, 1, 65_536)
        self._in_a_row = 0  # messages of an `async for` that waited for nothing
        self.formula, *self._bound = _arguments.asked(formula, bound)
        self.rows = Rows(volume)
        volume._handle.locked(self._open)

    def _open(self) -> None:
        """Opens it in a slot, under the lock. It has the slot with the last step, `_begin`; a sweep frees the slot of
        an opening that is cut before that."""
        volume, rows = self._volume, self.rows
        volume._sweep()
        volume._doubt()
        options = self._backlog, self._moved, self._values
        slot, self.at, self.entries = volume._handle.open(self.formula, *options, *self._bound)
        rows._begin({it.node: it for it in self.entries}, self._values)
        volume._queries[slot] = weakref.ref(self)
        self._begin(volume._handle, slot, rows._placed, rows._rows)
        volume._handle.told()

    def _own(self) -> int:
        slot: Optional[int] = self.slot
        if slot is None:
            raise ValueError("the query was dropped or finished")
        return slot

    def _is_ready(self, ready: int) -> bool:
        """Whether who awaits it has something to do, by the word of who is ready: also where its mark was read by
        another, or it can't be read any more."""
        slot = self.slot
        return (
            slot is None
            or bool(ready >> (slot - 1) & 1)
            or self.mark is not None
            or not self._volume._handle.is_open()
        )

    def _ended(self, mark: Mark) -> None:
        """What an iteration does after the end: it stops, unless this raises."""
        if mark.cause is Cause.OVERRUN and self._on_overrun == "raise":
            raise Overrun(mark.change, self.formula)

    def read(self, timeout: Optional[float] = 0) -> Optional[Message]:
        """The next message, or None where none waits or the query has ended: `mark` is then there. Overrun: it has
        ended, since more messages came than its backlog has room for, and those from before were read.

        With a `timeout` it waits so many seconds for a message or the end, and with None until one comes. Other threads
        use the volume meanwhile."""
        message: Optional[Message] = next(self, None)
        if message is None and timeout != 0:
            return self._waited(timeout)
        return message

    def wait(self, timeout: Optional[float] = None) -> Iterator[Message]:
        """The messages, each as soon as it is there: an iterator that waits where none is. It stops after the end of
        the query, or where none has come for `timeout` seconds, and may be asked for again."""
        while True:
            message = self.read(timeout)
            if message is None:
                return
            yield message

    def _waited(self, timeout: Optional[float]) -> Optional[Message]:
        """What `read` gives once there is something to read, or the time is over."""
        timeout = _arguments.seconds("timeout", timeout)
        until = None if timeout is None else time.monotonic() + timeout
        while True:
            told = threading.Lock()  # no Event, which keeps a lock where a signal's exception comes within it
            try:
                told.acquire()
                if self._waits(told, None):
                    told.acquire(timeout=-1 if until is None else max(0, until - time.monotonic()))
            finally:
                self._waits_no_more(told)
            message: Optional[Message] = next(self, None)
            if message is None and self.mark is not None:
                return next(self, None)  # which raises Overrun where another thread has read the mark
            if message is not None or (until is not None and time.monotonic() >= until):
                return message

    def _waits(self, waiter: Any, loop: Any) -> bool:
        """Has a waiter told when there is something to read. False: there is."""
        # under the lock, so that a change on another thread is seen here or sees this
        return self._volume._handle.locked(self._wait, waiter, loop)

    def _wait(self, waiter: Any, loop: Any) -> bool:
        volume = self._volume
        if self._is_ready(volume._handle.ready()):
            return False
        volume._is_due = True
        # weak, since a signal's exception may cut what takes it off
        volume._waiting[waiter] = weakref.ref(self), loop
        return True

    def _waits_no_more(self, waiter: Any) -> None:
        self._volume._handle.locked(self._volume._waiting.pop, waiter, None)

    def __aiter__(self) -> "Query":
        return self

    async def __anext__(self) -> Message:
        if self._in_a_row >= _IN_A_ROW:
            import asyncio  # which takes longer to load than all of this module

            self._in_a_row = 0
            await asyncio.sleep(0)  # before the read, so that who is cancelled here loses no message
        while True:
            message: Optional[Message] = next(self, None)
            if message is not None:
                self._in_a_row += 1
                return message
            mark = self.mark
            if mark is not None:
                self._ended(mark)
                raise StopAsyncIteration
            self._in_a_row = 0
            await self._told()

    async def _told(self) -> None:
        """Waits until there is something to read. Nothing is left of it where it is cancelled."""
        import asyncio

        loop = asyncio.get_running_loop()
        future = loop.create_future()
        try:
            if self._waits(future, loop):
                await future
        finally:
            self._waits_no_more(future)

    def result(self) -> Result:
        """The result as the messages read so far make it, by rising node."""
        return self._volume._handle.locked(self._result)

    def _result(self) -> Result:
        self._own()
        latest = self._latest
        change, is_settled = (latest.change, latest.last) if latest else (self.at, True)
        return Result(change, is_settled, self.rows._in_order())

    def hang_up(self) -> None:
        """Asks for the end, as a reader does; the next change, read or close carries it out."""
        volume = self._volume
        try:
            volume._handle.locked(self._hang_up)
        finally:
            if volume._is_due:
                volume._turned()

    def _hang_up(self) -> None:
        self._volume._handle.hang_up(self._own())

    def close(self) -> Optional[int]:
        """Ends the query: what waits can still be read. Returns the last change that is covered. It may be called
        again, and after another end; None: the query had ended by itself, and the mark that says so wasn't read."""
        volume = self._volume
        try:
            return self._close()
        finally:
            if volume._is_due:
                volume._turned()

    def finish(self) -> None:
        """Frees the slot of a query whose mark was read."""
        volume = self._volume
        try:
            volume._handle.locked(self._finish)
        finally:
            if volume._is_due:
                volume._turned()

    def _finish(self) -> None:
        slot, handle = self._own(), self._volume._handle
        if self.mark is None or not handle.is_open():
            handle.finish(slot)  # which refuses it, unless a line has read the mark
        self._drop()

    def drop(self) -> None:
        """Ends the query, drops what wasn't read, and frees its slot. It may be called again."""
        volume = self._volume
        try:
            volume._handle.locked(self._drop)
        finally:
            if volume._is_due:
                volume._turned()

    def _drop(self) -> None:
        """Forgets the slot, which is the step that counts, and frees it. Refused: a line has freed it before."""
        slot, volume = self.slot, self._volume
        if slot is not None:
            volume._doubt()
            self.slot = None  # now it is dropped
            volume._free(slot)

    def reopen(self) -> Difference:
        """Drops the query and opens its formula again, with its rows as the new opening has them. Returns how they
        differ from the rows before, by their places. With `values` each row that stays looks its `info` up again. A
        refusal leaves the query dropped, with the rows that it had."""
        volume = self._volume
        try:
            return volume._handle.locked(self._reopen)
        finally:
            if volume._is_due:
                volume._turned()

    def _reopen(self) -> Difference:
        old = self.rows._placed
        self._drop()
        self._open()
        return _difference(old, self.rows._placed)

    def __enter__(self) -> "Query":
        return self

    def __exit__(self, *_: Any) -> None:
        self.drop()

    def __del__(self) -> None:
        # no call of the library here: a thread may be in one, and this may run at any point of it
        if self.slot is not None:
            self.slot = None
            self._volume._doubt()

    __reduce_ex__ = _no_copy

    def __repr__(self) -> str:
        slot, mark = self.slot, self.mark
        how = "dropped" if slot is None else f"slot {slot}" + (f", {mark.cause}" if mark else "")
        return f"<Query {self.formula!r}, {how}>"
