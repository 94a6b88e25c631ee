"""The calls of the library by ctypes, for where there is no extension. _native.c has the same handles and readers."""
import ctypes, os, threading
from ctypes import byref, c_size_t, c_uint64
from typing import Any, Callable, Dict, List, Optional, Tuple, TypeVar, Union

from . import _header
from ._arguments import encode, encode_name, is_whole, kind, natural, no_value, whole
from ._types import (
    B_ATTR_CHANGED, B_ENTRY_MOVED, B_ENTRY_REMOVED, B_STAT_CHANGED, CAUSES, FILE, FOLDER, TYPES, Applied, Attr,
    Attribute, Entry, Info, Mark, Message, Op, Opcode, refusal,
)  # fmt: skip

_ROOM = 64  # entries that are taken at a time
_TEXT_SIZE = 4096
_KINDS = FILE, FOLDER
_OPCODES = {int(op): op for op in Opcode}
_END = 2  # of lq_what
_NO_CHANGE = (1 << 64) - 1  # which is never made
_Given = TypeVar("_Given")  # what a call under the lock gives
_lq: Any = None


def load(path: str) -> Tuple[Any, Any]:
    """Loads the shared library, with the types of its calls. Returns the types of handles and of readers."""
    global _lq
    try:
        library = ctypes.CDLL(path, use_errno=True)
        for name, (gives, takes) in _header.CALLS.items():
            call = getattr(library, name)
            call.restype, call.argtypes = gives, takes
    except (OSError, AttributeError) as error:
        raise ImportError(f"{path} is not the library: {error}") from None
    version = library.lq_version()
    if version // 1000 != _header.VERSION // 1000 or version < _header.VERSION:
        raise ImportError(f"{path} has version {version}, and this module is for {_header.VERSION}")
    _lq = library
    return Handle, Reader


def _of_system(name: str) -> Any:
    """The address of a call of the C library."""
    return ctypes.cast(getattr(ctypes.CDLL(None), name), ctypes.c_void_p)


def _text(array: Any, size: int) -> str:
    return ctypes.string_at(array, size).decode("utf-8")


class Handle:
    """A handle of the library, with the lock of its volume: `locked` takes it, for a call or for several. Arguments are
    made ready before that, in their order, since what they are may call Python."""

    is_unsure = False  # whether a slot may be open that no query has: see Volume

    def __init__(self) -> None:
        self._at: Any = None
        self._lock: Any = threading.RLock()
        self._handle, self._journal = _header.lq(), _header.lq_journal()
        self._open = byref(self._handle)
        status = _lq.lq_volume_open_as(self._open, _header.VERSION)
        if status:
            raise refusal(status, _lq.lq_status_name(status).decode(), 0, "Volume", ())
        self._at = self._open
        self._applied, self._opening = _header.lq_applied(), _header.lq_opening()
        self._out = byref(self._applied)

    def locked(self, call: Callable[..., _Given], *given: Any) -> _Given:
        """What a call gives, made under the lock. Nothing else takes it, so nothing else can keep it where a signal's
        exception comes."""
        lock = self._lock
        if lock._is_owned():  # within a call of this thread
            return call(*given)
        try:
            try:
                with lock:
                    return call(*given)
            except BaseException:
                if lock._is_owned():  # it came after the block, and before what gives the lock back
                    lock.release()
                raise
        except BaseException:
            if lock._is_owned():  # it came within that, as a second one
                lock.release()
            raise

    def tried(self, call: Callable[[], Any], within: bool) -> bool:
        """Makes a call under the lock, unless another thread has it, or this one has and it isn't to be made within.
        True: it was made."""
        lock = self._lock
        if lock._is_owned():
            if within:
                call()
            return within
        made = False
        try:
            try:
                if lock.acquire(False):
                    call()
                    made = True
                    lock.release()
            except BaseException:
                if lock._is_owned():  # it came before what gives the lock back
                    lock.release()
                raise
        except BaseException:
            if lock._is_owned():  # it came before that did, as a second one
                lock.release()
            raise
        return made

    def acquire(self, waits: bool) -> bool:
        return bool(self._lock.acquire(waits))

    def release(self) -> None:
        self._lock.release()

    def forked(self) -> None:
        """Says that this is the child of a fork; a lock of Python needs no care then."""

    def is_mine(self) -> bool:
        return bool(self._lock._is_owned())

    def free(self) -> int:
        return self.locked(self._free)

    def _free(self) -> int:
        """Closes it; the status of the end of a journal."""
        self._at, status = None, 0
        if self._journal.at:
            status = int(_lq.lq_journal_close(self._journal))
        _lq.lq_volume_close(self._open)  # which does nothing the second time
        return status

    def __del__(self) -> None:
        if hasattr(self, "_open") and _lq is not None:
            self._free()

    def is_open(self) -> bool:
        return self._at is not None

    def save(self, descriptor: int) -> None:
        self.locked(self._kept, "save", lambda: _lq.lq_save(self._own(), _of_system("write"), descriptor))

    def load(self, descriptor: int) -> Optional[Tuple[int, str, int, int, str]]:
        """Puts a volume that is read in place of its own. Where the bytes are refused, what they are refused by; in each
        case but success the handle is closed then."""
        return self.locked(self._load, descriptor)

    def _load(self, descriptor: int) -> Optional[Tuple[int, str, int, int, str]]:
        self._free()
        read = _of_system("read")
        status = self._kept("load", lambda: int(_lq.lq_load_as(self._open, _header.VERSION, read, descriptor)))
        if status:
            at, word, why = self._open, _lq.lq_status_name(status).decode(), _lq.lq_fault_reason(self._open).decode()
            return status, word, _lq.lq_fault_place(at), _lq.lq_fault_node(at), why
        self._at = self._open
        return None

    def _kept(self, name: str, call: Callable[[], int]) -> int:
        """The status of a call that writes or reads, if it is one that says what is wrong with the bytes."""
        status = call()
        if status == _header.SYSTEM:
            fault = ctypes.get_errno()
            raise OSError(fault, os.strerror(fault))
        if status not in (0, _header.BAD_SAVE, _header.OTHER_VERSION):
            raise refusal(status, _lq.lq_status_name(status).decode(), 0, name, ())
        return status

    def keep(self, path: bytes, sync: int, damaged: bool) -> Tuple[int, str, int, int, int, Optional[str], int]:
        """Puts the volume that a folder keeps in place of its own. What the opening answers and has found; if it is
        refused, the handle is closed then."""
        return self.locked(self._keep, path, sync, damaged)

    def _keep(self, path: bytes, sync: int, damaged: bool) -> Tuple[int, str, int, int, int, Optional[str], int]:
        options, it = _header.lq_journal_options(sync, 0, damaged), _header.lq_journal_report()
        self._free()
        status = _lq.lq_journal_open_as(self._journal, self._open, _header.VERSION, path, len(path), options, it)
        if not status:
            self._at = self._open
        reason = it.reason.decode() if it.reason else None
        return status, _lq.lq_status_name(status).decode(), it.replayed, it.dropped, it.place, reason, it.fault

    def keep_turn(self) -> Optional[Tuple[int, str, int, int, int, bool, bool, int]]:
        """Makes a turn of the journal. None: there is none."""
        return self.locked(self._keep_turn)

    def _keep_turn(self) -> Optional[Tuple[int, str, int, int, int, bool, bool, int]]:
        self._own()
        if not self._journal.at:
            return None
        it = _header.lq_journal_turned()
        status = _lq.lq_journal_turn(self._journal, it)
        word = _lq.lq_status_name(status).decode()
        return status, word, it.due, it.size, it.unsynced, it.cutting, it.halted, it.fault

    def keep_sync(self) -> int:
        return self.locked(self._keep_sync)

    def _keep_sync(self) -> int:
        self._own()
        return int(_lq.lq_journal_sync(self._journal)) if self._journal.at else 0

    def keep_hold(self) -> int:
        """Begins a batch of the journal."""
        return self.locked(self._keep_hold)

    def _keep_hold(self) -> int:
        self._own()
        return int(_lq.lq_journal_hold(self._journal)) if self._journal.at else 0

    def copy(self, other: "Handle") -> None:
        """Puts a copy of another volume in place of its own, under the lock of that one."""
        self.locked(self._copy, other)

    def _copy(self, other: "Handle") -> None:
        self._free()
        status = _lq.lq_volume_copy(other._own(), self._open)
        if status:
            raise refusal(status, _lq.lq_status_name(status).decode(), 0, "copy", ())
        self._at = self._open

    def _own(self) -> Any:
        if self._at is None:
            raise ValueError("the volume is closed")
        return self._at

    def _call(self, name: str, said: Tuple[Any, ...], call: Any, *given: Any) -> None:
        """Makes a call, under the lock. Where it is refused, the exception says the name and what the caller said."""
        status = call(self._own(), *given)
        if status:
            self._want(status, name, said)

    def _want(self, status: int, name: str, said: Tuple[Any, ...], has_values: bool = False) -> None:
        if status:
            place, word = _lq.lq_fault_place(self._at), _lq.lq_status_name(status).decode()
            # the formula with its values in place, where the fault is in it
            size = _lq.lq_text(self._at, None, 0) if has_values and status == _header.BAD_QUERY else 0
            bound = [self._copied(size).decode("utf-8")] if size else []
            raise refusal(status, word, place, name, said, *bound)

    def _change(self, name: str, said: Tuple[Any, ...], call: Any, *given: Any) -> Applied:
        return self.locked(self._make, name, said, call, given)

    def _make(self, name: str, said: Tuple[Any, ...], call: Any, given: Tuple[Any, ...]) -> Applied:
        status = call(self._own(), *given, self._out)
        if status:
            self._want(status, name, said)
        return Applied(self._applied.change, self._applied.node)

    def create(self, name: Any, dir: Any, what: Any, size: Any, time: Any) -> Applied:
        self._own()
        raw, said = encode_name("name", name), (name, dir, what, size, time)
        place = natural("dir", dir), raw, len(raw)
        numbers = kind(what), natural("size", size), whole("time", time)
        return self._change("create", said, _lq.lq_create, *place, *numbers)

    def remove(self, node: Any) -> Applied:
        self._own()
        return self._change("remove", (node,), _lq.lq_remove, natural("node", node))

    def move(self, node: Any, dir: Any, name: Any, clobber: Any) -> Applied:
        self._own()
        places, said = (natural("node", node), natural("dir", dir)), (node, dir, name, clobber)
        raw = encode_name("name", name)
        return self._change("move", said, _lq.lq_move, *places, raw, len(raw), bool(clobber))

    def write(self, node: Any, size: Any, time: Any) -> Applied:
        self._own()
        numbers = natural("node", node), natural("size", size), whole("time", time)
        return self._change("write", (node, size, time), _lq.lq_write, *numbers)

    def set(self, node: Any, attr: Any, value: Any, type: Optional[str]) -> Applied:
        self._own()
        number, raw, said = natural("node", node), encode_name("attr", attr), (node, attr, value, type)
        head = number, raw, len(raw)
        if isinstance(value, str) and type in (None, "CSTR"):
            text = encode("value", value)
            return self._change("set", said, _lq.lq_set_text, *head, text, len(text))
        if isinstance(value, str) or not is_whole(value):
            no_value(value, type)
        if type in (None, "LLNG"):
            return self._change("set", said, _lq.lq_set_int64, *head, whole("value", value))
        if type == "LONG":
            number = whole("value", value, -(1 << 31), (1 << 31) - 1)
            return self._change("set", said, _lq.lq_set_int32, *head, number)
        if type == "ULNG":
            return self._change("set", said, _lq.lq_set_uint32, *head, natural("value", value, 32))
        if type == "ULLG":
            return self._change("set", said, _lq.lq_set_uint64, *head, natural("value", value))
        no_value(value, type)

    def unset(self, node: Any, attr: Any) -> Applied:
        self._own()
        number, raw = natural("node", node), encode_name("attr", attr)
        return self._change("unset", (node, attr), _lq.lq_unset, number, raw, len(raw))

    def answer(self, line: Union[str, bytes]) -> Optional[bytes]:
        """None: a sweep is due before it."""
        self._own()
        raw = line if isinstance(line, bytes) else encode("line", line)
        return self.locked(self._answered, line, raw)

    def _answered(self, line: Any, raw: bytes) -> Optional[bytes]:
        if self.is_unsure:
            return None
        size = c_size_t()
        status = _lq.lq_answer(self._own(), raw, len(raw), byref(size))
        if status:
            self._want(status, "answer", (line,))
        return self._copied(size.value)

    def _copied(self, size: int) -> bytes:
        room = ctypes.create_string_buffer(size)
        _lq.lq_text(self._at, room, size)
        return room.raw

    def changes(self) -> int:
        return self.locked(lambda: int(_lq.lq_changes(self._own())))

    def _taken(self, count: int, result: int) -> List[Entry]:
        """The entries of a result that was just made, under the same lock."""
        array, got = (_header.lq_row * min(count, _ROOM))(), c_size_t()
        entries: List[Entry] = []
        while len(entries) < count:
            status = _lq.lq_take(self._at, result, array, len(array), byref(got))
            if status or got.value == 0:
                raise RuntimeError(f"the volume was used while it gave a result: {status}")
            for it in array[: got.value]:
                name = _text(it.name, it.name_size)
                entries.append(Entry(it.dir, it.node, name, _KINDS[it.kind], it.size, it.time))
        return entries

    def _push(self, name: str, said: Tuple[Any, ...], pushes: Any) -> None:
        """Pushes each item. Where one doesn't fit none stays, and BadQuery has the number of those before it."""
        if not isinstance(pushes, tuple):
            raise TypeError(f"formula must be a str or pushes, not {type(pushes).__name__}")
        _lq.lq_clear_pushed(self._own())
        try:
            for item in pushes:
                if isinstance(item, Op):
                    self._call(name, said, _lq.lq_push_op, item)
                elif isinstance(item, Attr):
                    raw = encode_name("formula", item.name)
                    self._call(name, said, _lq.lq_push_attr, raw, len(raw))
                elif isinstance(item, str):
                    raw = encode("formula", item)
                    self._call(name, said, _lq.lq_push_text, raw, len(raw))
                else:
                    number = whole("formula", item, -(1 << 63), (1 << 64) - 1)
                    if -(1 << 31) <= number < 1 << 31:
                        self._call(name, said, _lq.lq_push_int32, number)
                    elif 0 <= number < 1 << 32:
                        self._call(name, said, _lq.lq_push_uint32, number)
                    elif number < 1 << 63:
                        self._call(name, said, _lq.lq_push_int64, number)
                    else:
                        self._call(name, said, _lq.lq_push_uint64, number)
        except BaseException:
            _lq.lq_clear_pushed(self._at)
            raise

    def _bind(self, name: str, said: Tuple[Any, ...], values: Tuple[Any, ...]) -> None:
        """Binds each value. Where one is refused none stays."""
        _lq.lq_clear_bound(self._own())
        try:
            for value in values:
                if isinstance(value, str):
                    raw = encode("values", value)
                    self._call(name, said, _lq.lq_bind_text, raw, len(raw))
                    continue
                number = whole("values", value, -(1 << 63), (1 << 64) - 1)
                self._call(name, said, _lq.lq_bind_int64 if number < 1 << 63 else _lq.lq_bind_uint64, number)
        except BaseException:
            _lq.lq_clear_bound(self._at)
            raise

    @staticmethod
    def _asked(formula: Any, values: Any) -> bytes:
        """A formula as the library takes it, and nothing for pushes. Values are a tuple beside a formula."""
        if values is not None and not (isinstance(values, tuple) and isinstance(formula, str)):
            raise TypeError("values must be a tuple, beside a formula that is a str")
        return encode("formula", formula) if isinstance(formula, str) else b""

    def _ask(self, name: str, said: Tuple[Any, ...], raw: bytes, formula: Any, values: Any, *given: Any) -> None:
        """Opens a query, or fetches, by a formula, a formula and a tuple of values, or pushes, under the lock."""
        call = "lq_query_open" if name == "open" else "lq_fetch"
        if not isinstance(formula, str):
            self._push(name, said, formula)
            self._call(name, said, getattr(_lq, f"{call}_pushed"), *given)
        elif values is None:
            self._call(name, said, getattr(_lq, call), raw, len(raw), *given)
        else:
            self._bind(name, said, values)
            status = getattr(_lq, f"{call}_bound")(self._own(), raw, len(raw), *given)
            self._want(status, name, said, has_values=True)

    @staticmethod
    def quote(text: Any) -> str:
        raw = encode("text", text)
        literal = ctypes.create_string_buffer(2 * _TEXT_SIZE + 2)
        size = _lq.lq_quote(raw, len(raw), literal, len(literal))
        if size == 0:
            raise ValueError(f"text must have at most {_TEXT_SIZE} bytes in UTF-8, not {len(raw)}")
        return literal.raw[:size].decode("utf-8")

    def open(self, formula: Any, backlog: int, moved: Any, values: Any, *bound: Any) -> Tuple[int, int, List[Entry]]:
        self._own()
        how = _header.lq_options(backlog, bool(moved), True, bool(values))  # a Query keeps rows of its own
        its, said = bound[0] if bound else None, (formula, backlog, moved, values, *bound)
        return self.locked(self._opened, said, self._asked(formula, its), its, how)

    def _opened(
        self, said: Tuple[Any, ...], raw: bytes, bound: Any, how: _header.lq_options
    ) -> Tuple[int, int, List[Entry]]:
        it = self._opening  # whose slot is 0 until it is opened, and until `told`
        self._ask("open", said, raw, said[0], bound, byref(how), byref(it))
        return it.slot, it.at, self._taken(it.count, it.result)

    def untold(self) -> int:
        """The slot of the last opening, where no query has it yet, else 0."""
        return int(self._opening.slot)

    def told(self) -> None:
        self._opening.slot = 0

    def hang_up(self, slot: int) -> None:
        self.locked(self._call, "hang_up", (slot,), _lq.lq_hang_up, slot)

    def close(self, slot: int) -> int:
        change = c_uint64()
        self.locked(self._call, "close", (slot,), _lq.lq_query_close, slot, byref(change))
        return change.value

    def finish(self, slot: int) -> None:
        self.locked(self._call, "finish", (slot,), _lq.lq_finish, slot)

    def drop(self, slot: int) -> None:
        self.locked(self._call, "drop", (slot,), _lq.lq_drop, slot)

    def ready(self) -> int:
        return self.locked(lambda: int(_lq.lq_ready(self._own())))

    def fetch(self, formula: Any, *values: Any) -> List[Entry]:
        self._own()
        its = values[0] if values else None
        return self.locked(self._fetched, (formula, *values), self._asked(formula, its), its)

    def _fetched(self, said: Tuple[Any, ...], raw: bytes, values: Any) -> List[Entry]:
        it = _header.lq_fetched()
        self._ask("fetch", said, raw, said[0], values, byref(it))
        return self._taken(it.count, it.result)

    def find(self, name: Any, dir: Any) -> int:
        self._own()
        raw, number, node = encode_name("name", name), natural("dir", dir), c_uint64()
        self.locked(self._call, "find", (name, dir), _lq.lq_find, number, raw, len(raw), byref(node))
        return node.value

    def find_path(self, path: Any, dir: Any) -> int:
        self._own()
        raw, number, node = encode_name("path", path), natural("dir", dir), c_uint64()
        self.locked(self._call, "find_path", (path, dir), _lq.lq_find_path, number, raw, len(raw), byref(node))
        return node.value

    def entry(self, node: Any) -> Info:
        self._own()
        return self.locked(self._entry, natural("node", node), (node,))

    def _entry(self, number: int, said: Tuple[Any, ...]) -> Info:
        it = _header.lq_info()
        status = _lq.lq_entry(self._own(), number, byref(it))
        if status:
            self._want(status, "entry", said)
        attributes = [self._attribute("entry", said, _lq.lq_attr_at, number, at) for at in range(it.attr_count)]
        values, types = {each.name: each.value for each in attributes}, {each.name: each.type for each in attributes}
        return Info(it.dir, it.node, _text(it.name, it.name_size), _KINDS[it.kind], it.size, it.time, values, types)

    def attribute(self, node: Any, name: Any) -> Attribute:
        self._own()
        number, raw, said = natural("node", node), encode_name("name", name), (node, name)
        return self.locked(
            self._attribute, "attribute", said, _lq.lq_attr_named, number, raw, len(raw)
        )

    def _attribute(self, name: str, said: Tuple[Any, ...], call: Any, *given: Any) -> Attribute:
        it = _header.lq_attr()
        self._call(name, said, call, *given, byref(it))
        type = TYPES[it.type]
        value = _text(it.text, it.text_size) if type == "CSTR" else it.whole if type in ("LONG", "LLNG") else it.natural
        return Attribute(_text(it.name, it.name_size), type, value)

    def children(self, dir: Any) -> List[Entry]:
        self._own()
        return self.locked(self._listed, natural("dir", dir), (dir,))

    def _listed(self, number: int, said: Tuple[Any, ...]) -> List[Entry]:
        it = _header.lq_listing()
        self._call("children", said, _lq.lq_children, number, byref(it))
        return self._taken(it.count, it.result)

    def path(self, node: Any) -> str:
        self._own()
        return self.locked(self._path, natural("node", node), (node,))

    def _path(self, number: int, said: Tuple[Any, ...]) -> str:
        size = c_size_t()
        self._call("path", said, _lq.lq_path, number, byref(size))
        return self._copied(size.value).decode("utf-8")


class Reader:
    """What a query is read by, and a Query is one. `slot` is None where it has none, `mark` where its end wasn't read.
    Under the nodes of the result stand `placed`, what says where an entry is, and `rows`, those that were asked for.

    What was read stands in `_it`, which each query has for itself. Where a signal's exception comes before it is taken
    in, the next read takes it in, and gives it."""

    slot: Optional[int] = None
    mark: Optional[Mark] = None
    _latest: Optional[Message] = None
    _reads_by: Any = None

    def _begin(self, handle: Handle, slot: int, placed: Dict[int, Any], rows: Dict[int, Any]) -> None:
        self._reads_by, self._now_placed, self._now_rows = handle, placed, rows
        self._it, self._taken_in = _header.lq_message(), 0  # the number of the last message that was taken in
        self._at_it, self._covered = byref(self._it), c_uint64(_NO_CHANGE)
        self.mark = self._latest = None
        self.slot = slot  # last: then it is open

    def __iter__(self) -> "Reader":
        return self

    def __next__(self) -> Message:
        handle = self._reads_by
        if handle is None:
            raise ValueError("the query was dropped or finished")
        it: Union[Message, Mark, None] = handle.locked(self._next, handle)
        if isinstance(it, Message):
            return it
        if it is not None:
            self._ended(it)
        raise StopIteration

    def _next(self, handle: Handle) -> Union[Message, Mark, None]:
        """The next message, or the mark, under the lock. None: neither is there."""
        slot, mark, it = self.slot, self.mark, self._it
        if slot is None:
            raise ValueError("the query was dropped or finished")
        if mark is not None:
            return mark
        if it.seq == self._taken_in:
            status = _lq.lq_read(handle._own(), slot, self._at_it)
            if status:
                if status in (_header.EMPTY, _header.ENDED):
                    return None
                handle._want(status, "read", (slot,))
        if it.what == _END:
            self.mark = Mark(it.seq, it.change, CAUSES[it.cause])
            return self.mark
        message = self._latest = self._followed(it)
        self._taken_in = message.seq
        return message

    def _followed(self, it: Any) -> Message:
        """The message, which is put under its node or takes the node out, also where that was begun before. A row that
        goes keeps the place that it had, and one of a value is to look its entry up again."""
        op, node = _OPCODES[it.op], it.node
        is_moved = op is B_ENTRY_MOVED
        place = (it.from_dir, _text(it.from_name, it.from_name_size)) if is_moved else (None, None)
        attribute = _text(it.attr, it.attr_size) if op is B_ATTR_CHANGED else None
        message = Message(it.seq, it.change, it.last, op, it.dir, node, _text(it.name, it.name_size), *place, attribute)
        placed, rows = self._now_placed, self._now_rows
        if op is not B_ENTRY_REMOVED:
            placed[node] = message
            if op >= B_STAT_CHANGED and node in rows:
                rows[node]._is_old = True
        elif node in placed:
            if node in rows:
                rows[node]._placed = placed[node]
                del rows[node]
            del placed[node]
        return message

    def _ended(self, mark: Mark) -> None:
        """What an iteration does after the end: it stops, unless this raises."""

    def _close(self) -> Optional[int]:
        """Ends the query. Gives the last change that is covered; None: it ended by itself, and the mark wasn't read."""
        if self._reads_by is None:
            raise ValueError("the query was dropped or finished")
        covered: Optional[int] = self._reads_by.locked(self._closed, self._reads_by)
        return covered

    def _closed(self, handle: Handle) -> Optional[int]:
        slot = self.slot
        if slot is None:
            raise ValueError("the query was dropped or finished")
        if self.mark is not None:
            return self.mark.change
        if self._covered.value == _NO_CHANGE:
            status = _lq.lq_query_close(handle._own(), slot, byref(self._covered))
            if status == _header.NOT_OPEN:
                return None
            handle._want(status, "close", (slot,))
        return self._covered.value
