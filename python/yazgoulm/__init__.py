"""Live queries over a tree of files with typed attributes, in this process: the C library of Yazgoulm.

    with Volume() as volume, volume.open("size>100") as query:
        volume.create("a", size=200)
        for message in query:
            print(message)

A call that is refused raises Refused, and its act isn't done. Numbers are whole, and names are str; those of files on
disk may be bytes or paths. Other arguments raise TypeError or ValueError, with the argument's name.

The calls go by an extension in C, where there is one for this Python (`make library` builds it where there is a
compiler), or else by ctypes, at some eight times the cost. `backend` says which, and YAZGOULM_BACKEND in the
environment chooses one. YAZGOULM_LIBRARY names the shared library. Without it the module looks beside itself,
where a wheel, a clone and `make install` have it, and then asks the system."""
from ._library import VERSION as __version__
from ._library import backend
from ._names import to_bytes, to_name
from ._types import (
    B_ATTR_CHANGED, B_ENTRY_CREATED, B_ENTRY_MOVED, B_ENTRY_REMOVED, B_STAT_CHANGED, FILE, FOLDER, ROOT, Applied, Attr,
    Attribute, BadName, BadQuery, BadSave, BadValues, Cause, Difference, Entry, Error, Exists, Formula, Info, Kept,
    Kind, Locked, Mark, Message, NoMemory, NotEmpty, NotFolder, NotFound, NotKept, Op, Opcode, Overrun, Place, Refused, Result, Type,
)  # fmt: skip
from ._volume import Query, Row, Rows, Volume, quote

__all__ = [
    "B_ATTR_CHANGED", "B_ENTRY_CREATED", "B_ENTRY_MOVED", "B_ENTRY_REMOVED", "B_STAT_CHANGED", "FILE", "FOLDER", "ROOT",
    "Applied", "Attr", "Attribute", "BadName", "BadQuery", "BadSave", "BadValues", "Cause", "Difference", "Entry",
    "Error", "Exists", "Formula", "Info", "Kept", "Kind", "Locked", "Mark", "Message", "NoMemory", "NotEmpty", "NotFolder",
    "NotFound", "NotKept", "Op", "Opcode", "Overrun", "Place", "Query", "Refused", "Result", "Row", "Rows", "Type", "Volume", "__version__",
    "backend", "quote", "to_bytes", "to_name",
]  # fmt: skip
