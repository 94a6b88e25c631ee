"""Drawn by tools/api from lq.h and lq_journal.h: version, statuses, structs and calls, as ctypes has them."""
from ctypes import (
    POINTER, Structure, c_bool, c_char_p, c_int32, c_int64, c_size_t, c_uint8, c_uint32, c_uint64, c_void_p,
)  # fmt: skip
from typing import Any, Dict, List, Tuple

VERSION = 5000
OK = 0
BAD_NAME = 1
NO_NODE = 2
NOT_FOLDER = 3
NO_ENTRY = 4
EXISTS = 5
WOULD_LOOP = 6
NOT_EMPTY = 7
KIND_CLASH = 8
IS_FOLDER = 9
NO_ATTR = 10
RESERVED = 11
TOO_LONG = 12
EXHAUSTED = 13
NO_MEMORY = 15
BAD_QUERY = 20
BAD_PORT = 21
BAD_BACKLOG = 22
NO_SLOT = 23
NO_SEAT = 24
NOT_OPEN = 25
STILL_OPEN = 26
LONG_LINE = 30
NOT_UTF8 = 31
NOT_JSON = 32
BAD_LINE = 33
OUT_OF_STEP = 34
MISMATCH = 35
MISUSE = 40
EMPTY = 41
ENDED = 42
NO_VALUE = 43
UNUSED_VALUE = 44
SYSTEM = 45
GONE_FOLDER = 46
BAD_SAVE = 47
OTHER_VERSION = 48
LOCKED = 49
UNKEPT = 50
HALTED = 51


class lq(Structure):
    _fields_ = [
        ("at", c_void_p),
        ("tag", c_uint64),
        ("result", c_uint64),
        ("ready", c_void_p),
        ("user", c_void_p),
        ("version", c_uint32),
        ("pushes", c_uint32),
    ]


class lq_applied(Structure):
    _fields_ = [
        ("change", c_uint64),
        ("node", c_uint64),
    ]


class lq_row(Structure):
    _fields_ = [
        ("dir", c_uint64),
        ("node", c_uint64),
        ("size", c_uint64),
        ("time", c_int64),
        ("kind", c_uint32),
        ("name_size", c_size_t),
        ("name", c_uint8 * 256),
    ]


class lq_options(Structure):
    _fields_ = [
        ("backlog", c_uint64),
        ("moved", c_bool),
        ("no_result", c_bool),
        ("values", c_bool),
    ]


class lq_opening(Structure):
    _fields_ = [
        ("slot", c_uint64),
        ("at", c_uint64),
        ("count", c_size_t),
        ("result", c_uint64),
    ]


class lq_message(Structure):
    _fields_ = [
        ("seq", c_uint64),
        ("change", c_uint64),
        ("dir", c_uint64),
        ("node", c_uint64),
        ("from_dir", c_uint64),
        ("what", c_uint32),
        ("op", c_uint32),
        ("cause", c_uint32),
        ("last", c_bool),
        ("name_size", c_size_t),
        ("from_name_size", c_size_t),
        ("attr_size", c_size_t),
        ("name", c_uint8 * 256),
        ("from_name", c_uint8 * 256),
        ("attr", c_uint8 * 256),
    ]


class lq_rebuilt(Structure):
    _fields_ = [
        ("change", c_uint64),
        ("count", c_size_t),
        ("settled", c_bool),
        ("result", c_uint64),
    ]


class lq_fetched(Structure):
    _fields_ = [
        ("at", c_uint64),
        ("count", c_size_t),
        ("result", c_uint64),
    ]


class lq_info(Structure):
    _fields_ = [
        ("dir", c_uint64),
        ("node", c_uint64),
        ("size", c_uint64),
        ("time", c_int64),
        ("kind", c_uint32),
        ("attr_count", c_size_t),
        ("name_size", c_size_t),
        ("name", c_uint8 * 256),
    ]


class lq_attr(Structure):
    _fields_ = [
        ("type", c_uint32),
        ("whole", c_int64),
        ("natural", c_uint64),
        ("name_size", c_size_t),
        ("text_size", c_size_t),
        ("name", c_uint8 * 256),
        ("text", c_uint8 * 4097),
    ]


class lq_listing(Structure):
    _fields_ = [
        ("count", c_size_t),
        ("result", c_uint64),
    ]


class lq_journal(Structure):
    _fields_ = [
        ("at", c_void_p),
        ("tag", c_uint64),
    ]


class lq_journal_options(Structure):
    _fields_ = [
        ("sync", c_uint64),
        ("least", c_uint64),
        ("damaged", c_bool),
    ]


class lq_journal_report(Structure):
    _fields_ = [
        ("changes", c_uint64),
        ("replayed", c_uint64),
        ("dropped", c_uint64),
        ("place", c_uint64),
        ("reason", c_char_p),
        ("file", c_uint32),
        ("fault", c_int32),
    ]


class lq_journal_turned(Structure):
    _fields_ = [
        ("due", c_uint64),
        ("size", c_uint64),
        ("unsynced", c_uint64),
        ("cutting", c_bool),
        ("halted", c_bool),
        ("fault", c_int32),
    ]


# Each call: what it gives, and what it takes.
CALLS: Dict[str, Tuple[Any, List[Any]]] = {
    "lq_version": (c_uint32, []),
    "lq_status_name": (c_char_p, [c_uint32]),
    "lq_volume_open_as": (c_uint32, [POINTER(lq), c_uint32]),
    "lq_volume_close": (None, [POINTER(lq)]),
    "lq_fault_place": (c_uint64, [POINTER(lq)]),
    "lq_save": (c_uint32, [POINTER(lq), c_void_p, c_void_p]),
    "lq_load_as": (c_uint32, [POINTER(lq), c_uint32, c_void_p, c_void_p]),
    "lq_volume_copy": (c_uint32, [POINTER(lq), POINTER(lq)]),
    "lq_fault_node": (c_uint64, [POINTER(lq)]),
    "lq_fault_reason": (c_char_p, [POINTER(lq)]),
    "lq_answer": (c_uint32, [POINTER(lq), c_char_p, c_size_t, POINTER(c_size_t)]),
    "lq_text": (c_size_t, [POINTER(lq), c_char_p, c_size_t]),
    "lq_create": (c_uint32, [
        POINTER(lq), c_uint64, c_char_p, c_size_t,
        c_uint32, c_uint64, c_int64, POINTER(lq_applied),
    ]),
    "lq_remove": (c_uint32, [POINTER(lq), c_uint64, POINTER(lq_applied)]),
    "lq_move": (c_uint32, [POINTER(lq), c_uint64, c_uint64, c_char_p, c_size_t, c_bool, POINTER(lq_applied)]),
    "lq_write": (c_uint32, [POINTER(lq), c_uint64, c_uint64, c_int64, POINTER(lq_applied)]),
    "lq_set_text": (c_uint32, [POINTER(lq), c_uint64, c_char_p, c_size_t, c_char_p, c_size_t, POINTER(lq_applied)]),
    "lq_set_int32": (c_uint32, [POINTER(lq), c_uint64, c_char_p, c_size_t, c_int32, POINTER(lq_applied)]),
    "lq_set_int64": (c_uint32, [POINTER(lq), c_uint64, c_char_p, c_size_t, c_int64, POINTER(lq_applied)]),
    "lq_set_uint32": (c_uint32, [POINTER(lq), c_uint64, c_char_p, c_size_t, c_uint32, POINTER(lq_applied)]),
    "lq_set_uint64": (c_uint32, [POINTER(lq), c_uint64, c_char_p, c_size_t, c_uint64, POINTER(lq_applied)]),
    "lq_unset": (c_uint32, [POINTER(lq), c_uint64, c_char_p, c_size_t, POINTER(lq_applied)]),
    "lq_take": (c_uint32, [POINTER(lq), c_uint64, POINTER(lq_row), c_size_t, POINTER(c_size_t)]),
    "lq_next": (c_uint32, [POINTER(lq), c_uint64, POINTER(lq_row)]),
    "lq_query_open": (c_uint32, [POINTER(lq), c_char_p, c_size_t, POINTER(lq_options), POINTER(lq_opening)]),
    "lq_ready": (c_uint64, [POINTER(lq)]),
    "lq_on_ready": (c_uint32, [POINTER(lq), c_void_p, c_void_p]),
    "lq_read": (c_uint32, [POINTER(lq), c_uint64, POINTER(lq_message)]),
    "lq_read_many": (c_uint32, [POINTER(lq), c_uint64, POINTER(lq_message), c_size_t, POINTER(c_size_t)]),
    "lq_hang_up": (c_uint32, [POINTER(lq), c_uint64]),
    "lq_query_close": (c_uint32, [POINTER(lq), c_uint64, POINTER(c_uint64)]),
    "lq_finish": (c_uint32, [POINTER(lq), c_uint64]),
    "lq_drop": (c_uint32, [POINTER(lq), c_uint64]),
    "lq_result": (c_uint32, [POINTER(lq), c_uint64, POINTER(lq_rebuilt)]),
    "lq_fetch": (c_uint32, [POINTER(lq), c_char_p, c_size_t, POINTER(lq_fetched)]),
    "lq_find": (c_uint32, [POINTER(lq), c_uint64, c_char_p, c_size_t, POINTER(c_uint64)]),
    "lq_find_path": (c_uint32, [POINTER(lq), c_uint64, c_char_p, c_size_t, POINTER(c_uint64)]),
    "lq_entry": (c_uint32, [POINTER(lq), c_uint64, POINTER(lq_info)]),
    "lq_attr_at": (c_uint32, [POINTER(lq), c_uint64, c_size_t, POINTER(lq_attr)]),
    "lq_attr_named": (c_uint32, [POINTER(lq), c_uint64, c_char_p, c_size_t, POINTER(lq_attr)]),
    "lq_children": (c_uint32, [POINTER(lq), c_uint64, POINTER(lq_listing)]),
    "lq_path": (c_uint32, [POINTER(lq), c_uint64, POINTER(c_size_t)]),
    "lq_changes": (c_uint64, [POINTER(lq)]),
    "lq_push_attr": (c_uint32, [POINTER(lq), c_char_p, c_size_t]),
    "lq_push_text": (c_uint32, [POINTER(lq), c_char_p, c_size_t]),
    "lq_push_int32": (c_uint32, [POINTER(lq), c_int32]),
    "lq_push_int64": (c_uint32, [POINTER(lq), c_int64]),
    "lq_push_uint32": (c_uint32, [POINTER(lq), c_uint32]),
    "lq_push_uint64": (c_uint32, [POINTER(lq), c_uint64]),
    "lq_push_op": (c_uint32, [POINTER(lq), c_uint32]),
    "lq_clear_pushed": (c_uint32, [POINTER(lq)]),
    "lq_query_open_pushed": (c_uint32, [POINTER(lq), POINTER(lq_options), POINTER(lq_opening)]),
    "lq_fetch_pushed": (c_uint32, [POINTER(lq), POINTER(lq_fetched)]),
    "lq_quote": (c_size_t, [c_char_p, c_size_t, c_char_p, c_size_t]),
    "lq_bind_text": (c_uint32, [POINTER(lq), c_char_p, c_size_t]),
    "lq_bind_int64": (c_uint32, [POINTER(lq), c_int64]),
    "lq_bind_uint64": (c_uint32, [POINTER(lq), c_uint64]),
    "lq_clear_bound": (c_uint32, [POINTER(lq)]),
    "lq_query_open_bound": (c_uint32, [POINTER(lq), c_char_p, c_size_t, POINTER(lq_options), POINTER(lq_opening)]),
    "lq_fetch_bound": (c_uint32, [POINTER(lq), c_char_p, c_size_t, POINTER(lq_fetched)]),
    "lq_journal_open_as": (c_uint32, [
        POINTER(lq_journal), POINTER(lq), c_uint32,
        c_char_p, c_size_t, POINTER(lq_journal_options), POINTER(lq_journal_report),
    ]),
    "lq_journal_close": (c_uint32, [POINTER(lq_journal)]),
    "lq_journal_turn": (c_uint32, [POINTER(lq_journal), POINTER(lq_journal_turned)]),
    "lq_journal_due": (c_uint64, [POINTER(lq_journal)]),
    "lq_journal_sync": (c_uint32, [POINTER(lq_journal)]),
    "lq_journal_hold": (c_uint32, [POINTER(lq_journal)]),
}
