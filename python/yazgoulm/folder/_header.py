"""Drawn by tools/api from lq_folder.h: structs and calls, as ctypes has them."""
from ctypes import (
    POINTER, Structure, c_bool, c_char_p, c_int, c_int32, c_int64, c_size_t, c_uint32, c_uint64, c_void_p,
)  # fmt: skip
from typing import Any, Dict, List, Tuple

from .._header import lq


class lq_folder(Structure):
    _fields_ = [
        ("at", c_void_p),
        ("tag", c_uint64),
    ]


class lq_folder_options(Structure):
    _fields_ = [
        ("node", c_uint64),
        ("skip", POINTER(c_char_p)),
        ("skip_count", c_size_t),
        ("poll", c_uint64),
        ("once", c_bool),
        ("no_attributes", c_bool),
        ("one_file_system", c_bool),
    ]


class lq_folder_turned(Structure):
    _fields_ = [
        ("due", c_uint64),
        ("entries", c_uint64),
        ("lines", c_uint64),
        ("more", c_bool),
        ("listed", c_bool),
        ("settled", c_bool),
        ("fault", c_int32),
    ]


class lq_folder_query_options(Structure):
    _fields_ = [
        ("values", c_bool),
        ("no_there", c_bool),
    ]


class lq_folder_line(Structure):
    _fields_ = [
        ("number", c_uint64),
        ("slot", c_uint64),
        ("node", c_uint64),
        ("size", c_uint64),
        ("time", c_int64),
        ("inode", c_uint64),
        ("ctime", c_int64),
        ("mtime", c_int64),
        ("path", c_void_p),
        ("old_path", c_void_p),
        ("path_size", c_size_t),
        ("old_path_size", c_size_t),
        ("what", c_uint32),
        ("notice", c_uint32),
        ("kind", c_uint32),
    ]


class lq_folder_stat(Structure):
    _fields_ = [
        ("inode", c_uint64),
        ("device", c_uint64),
        ("born", c_int64),
        ("ctime", c_int64),
        ("mtime", c_int64),
        ("kind", c_uint32),
    ]


# Each call: what it gives, and what it takes.
CALLS: Dict[str, Tuple[Any, List[Any]]] = {
    "lq_folder_open": (c_uint32, [
        POINTER(lq_folder), POINTER(lq), c_char_p,
        c_size_t, POINTER(lq_folder_options), POINTER(c_int32),
    ]),
    "lq_folder_close": (None, [POINTER(lq_folder)]),
    "lq_folder_fd": (c_int, [POINTER(lq_folder)]),
    "lq_folder_turn": (c_uint32, [POINTER(lq_folder), POINTER(lq_folder_turned)]),
    "lq_folder_leave_out": (c_uint32, [POINTER(lq_folder), c_uint64, c_uint64, c_bool]),
    "lq_folder_query_open": (c_uint32, [
        POINTER(lq_folder), c_char_p,
        c_size_t, POINTER(lq_folder_query_options), POINTER(c_uint64),
    ]),
    "lq_folder_query_close": (c_uint32, [POINTER(lq_folder), c_uint64]),
    "lq_folder_rows": (c_uint32, [POINTER(lq_folder), c_uint64, POINTER(c_uint64), c_size_t, POINTER(c_size_t)]),
    "lq_folder_read": (c_uint32, [POINTER(lq_folder), c_uint64, POINTER(lq_folder_line), c_size_t, POINTER(c_size_t)]),
    "lq_folder_path": (c_uint32, [POINTER(lq_folder), c_uint64, c_char_p, c_size_t, POINTER(c_size_t)]),
    "lq_folder_node": (c_uint32, [POINTER(lq_folder), c_char_p, c_size_t, POINTER(c_uint64)]),
    "lq_folder_entry": (c_uint32, [POINTER(lq_folder), c_uint64, POINTER(lq_folder_stat)]),
    "lq_folder_to_name": (c_size_t, [c_char_p, c_size_t, c_char_p, c_size_t]),
    "lq_folder_to_bytes": (c_size_t, [c_char_p, c_size_t, c_char_p, c_size_t]),
    "lq_folder_fold": (c_size_t, [c_char_p, c_size_t, c_char_p, c_size_t]),
}
