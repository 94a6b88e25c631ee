"""The calls of a folder by ctypes, for where there is no extension. _native_folder.c has the same."""
import ctypes, os
from ctypes import byref, c_char_p, c_int32, c_size_t, c_uint64
from typing import Any, List, Optional, Tuple

from .._header import MISUSE as _MISUSE
from . import _header
from ._lines import Line

_AT_ONCE = 256  # lines that are read by one call
_SHORT = 1024  # bytes of a path that is copied by one call
_WHATS = "", "there", "came", "left", "moved", "changed", "anew", "notice"
_MOVED = 4
_KINDS = {ord("f"): "file", ord("d"): "folder", ord("l"): "link", ord("o"): "other"}

_lq: Any = None


def load(library: Any) -> Any:
    """The type of folders, for the library that yazgoulm/_by_ctypes.py has loaded."""
    global _lq
    try:
        for name, (gives, takes) in _header.CALLS.items():
            call = getattr(library, name)
            call.restype, call.argtypes = gives, takes
    except AttributeError as error:
        raise ImportError(f"the library has no folders: {error}") from None
    _lq = library
    return FolderCalls


class FolderCalls:
    """A folder of the library, over the volume of a handle. Each call takes the handle's lock, and answers a status. A
    path begins with `begin`."""

    def __init__(self, handle: Any, begin: bytes) -> None:
        self._handle, self._begin = handle, begin
        self._it = _header.lq_folder()
        self._at = byref(self._it)
        self._lines = (_header.lq_folder_line * _AT_ONCE)()

    def open(
        self,
        path: bytes,
        node: int,
        skip: Tuple[bytes, ...],
        poll: int,
        once: bool,
        no_attributes: bool,
        one_file_system: bool,
    ) -> Tuple[int, int]:
        names, fault = (c_char_p * len(skip))(*skip), c_int32()
        options = _header.lq_folder_options(node, names, len(skip), poll, once, no_attributes, one_file_system)
        return self._handle.locked(self._open, path, options, fault), fault.value

    def _open(self, path: bytes, options: _header.lq_folder_options, fault: Any) -> int:
        if not self._handle.is_open():
            return _MISUSE
        given = path, len(path), byref(options), byref(fault)
        status: int = _lq.lq_folder_open(self._at, self._handle._own(), *given)
        return status

    def close(self) -> None:
        self._handle.locked(_lq.lq_folder_close, self._at)

    def __del__(self) -> None:
        if getattr(self, "_it", None) is not None and self._it.at and _lq is not None:
            self.close()

    def _call(self, call: Any, *given: Any) -> int:
        """The status of a call, under the lock. The volume may have been closed."""
        status: int = self._handle.locked(self._make, call, given)
        return status

    def _make(self, call: Any, given: Tuple[Any, ...]) -> int:
        status: int = call(self._at, *given) if self._handle.is_open() else _MISUSE
        return status

    def fd(self) -> int:
        fd: int = _lq.lq_folder_fd(self._at)
        return fd

    def turn(self) -> Tuple[int, int, int, int, int, bool, bool, bool]:
        it = _header.lq_folder_turned((1 << 64) - 1)
        status = self._call(_lq.lq_folder_turn, byref(it))
        return status, it.fault, it.due, it.entries, it.lines, it.more, it.listed, it.settled

    def query_open(self, opened: bytearray, formula: bytes, values: bool, no_there: bool) -> Tuple[int, int]:
        """The slot comes into the 8 bytes of `opened`: so who is interrupted after the call finds it."""
        options = _header.lq_folder_query_options(values, no_there)
        answered: Tuple[int, int] = self._handle.locked(self._query_open, opened, formula, options)
        return answered

    def _query_open(self, opened: bytearray, formula: bytes, options: _header.lq_folder_query_options) -> Tuple[int, int]:
        given = formula, len(formula), byref(options), byref(c_uint64.from_buffer(opened))
        status = self._call(_lq.lq_folder_query_open, *given)
        return status, _lq.lq_fault_place(self._handle._own()) if status != _MISUSE else 0

    def query_close(self, slot: int) -> int:
        return self._call(_lq.lq_folder_query_close, slot)

    def rows(self, slot: int) -> Tuple[int, List[int]]:
        answered: Tuple[int, List[int]] = self._handle.locked(self._rows, slot)
        return answered

    def _rows(self, slot: int) -> Tuple[int, List[int]]:
        count = c_size_t()
        status = self._call(_lq.lq_folder_rows, slot, None, 0, byref(count))
        nodes = (c_uint64 * count.value)()
        if status == 0:
            status = self._call(_lq.lq_folder_rows, slot, nodes, len(nodes), byref(count))
        return status, nodes[: count.value] if status == 0 else []

    def _whole(self, path: bytes) -> str:
        return os.fsdecode(self._begin + path)

    def _line(self, it: Any) -> Line:
        path = self._whole(ctypes.string_at(it.path, it.path_size) if it.path_size else b"")
        is_moved = it.what == _MOVED
        old = self._whole(ctypes.string_at(it.old_path, it.old_path_size)) if is_moved else None
        what, kind, numbers = _WHATS[it.what], _KINDS.get(it.kind), (it.inode, it.ctime, it.mtime, it.notice)
        return Line(it.number, what, path, old, it.slot, it.node, it.size, it.time, kind, *numbers)

    def read(self, seen: int, most: int) -> Tuple[int, List[Line]]:
        answered: Tuple[int, List[Line]] = self._handle.locked(self._read, seen, most)
        return answered

    def _read(self, seen: int, most: int) -> Tuple[int, List[Line]]:
        got = c_size_t()
        status = self._call(_lq.lq_folder_read, seen, self._lines, min(most, _AT_ONCE), byref(got))
        return status, [self._line(it) for it in self._lines[: got.value]] if status == 0 else []

    def printed(self, seen: int) -> Tuple[int, bytes, int, bool]:
        """The extension prints lines as they are; here `read` gives each."""
        return 0, b"", seen, True

    def path(self, node: int) -> Tuple[int, Optional[str]]:
        answered: Tuple[int, Optional[str]] = self._handle.locked(self._path, node)
        return answered

    def _path(self, node: int) -> Tuple[int, Optional[str]]:
        room, size = ctypes.create_string_buffer(_SHORT), c_size_t()
        status = self._call(_lq.lq_folder_path, node, room, len(room), byref(size))
        if status == 0 and size.value > len(room):
            room = ctypes.create_string_buffer(size.value)
            status = self._call(_lq.lq_folder_path, node, room, len(room), byref(size))
        return status, self._whole(room.raw[: size.value]) if status == 0 else None

    def node(self, path: bytes) -> Tuple[int, int]:
        node = c_uint64()
        return self._call(_lq.lq_folder_node, path, len(path), byref(node)), node.value

    def entry(self, node: int) -> Tuple[int, Optional[str], int, int, int, int, int]:
        it = _header.lq_folder_stat()
        status = self._call(_lq.lq_folder_entry, node, byref(it))
        return status, _KINDS.get(it.kind), it.inode, it.device, it.born, it.ctime, it.mtime

    def leave_out(self, device: int, inode: int, is_out: bool) -> int:
        return self._call(_lq.lq_folder_leave_out, device, inode, is_out)

    @staticmethod
    def fold(text: bytes) -> bytes:
        size = _lq.lq_folder_fold(text, len(text), None, 0)
        room = ctypes.create_string_buffer(size)
        _lq.lq_folder_fold(text, len(text), room, size)
        return room.raw
