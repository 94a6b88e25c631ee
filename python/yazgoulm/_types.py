"""What the module gives: numbers with names, tuples, and exceptions."""
import enum, errno, reprlib
from typing import Any, Dict, Iterable, List, NamedTuple, Optional, Tuple, Union

from ._reasons import reason
from ._text import marked, marked_between

ROOT = 1


class _Text(str, enum.Enum):
    """One of a few words, and its number in lq.h: it is a text in all that asks for one."""

    code: int

    def __new__(cls, word: str, code: int) -> "_Text":
        made = str.__new__(cls, word)
        made._value_, made.code = word, code
        return made

    def __str__(self) -> str:
        return str(self.value)

    def __repr__(self) -> str:
        return repr(self.value)

    def __format__(self, form: str) -> str:
        return format(self.value, form)


class Kind(_Text):
    """What an entry is: a text, "file" or "folder", which has the number of lq.h as `code`."""

    FILE = "file", 0
    FOLDER = "folder", 1


FILE, FOLDER = Kind.FILE, Kind.FOLDER


class Type(_Text):
    """The type of an attribute: a text, which has the number of Be's TypeConstants.h as `code`. CSTR is of texts; LONG
    and LLNG are of numbers with a sign, of 32 and 64 bits, ULNG and ULLG of those without."""

    CSTR = "CSTR", 0x43535452
    LONG = "LONG", 0x4C4F4E47
    LLNG = "LLNG", 0x4C4C4E47
    ULNG = "ULNG", 0x554C4E47
    ULLG = "ULLG", 0x554C4C47


TYPES = {type.code: type for type in Type}


class _Word(enum.IntEnum):
    """A number that is written as the word that a script has for it."""

    def __str__(self) -> str:
        return self.name

    def __repr__(self) -> str:
        return str(self)

    def __format__(self, form: str) -> str:
        return format(str(self), form)


class Opcode(_Word):
    """What a message says of its entry, by the numbers of BeOS. It entered the result, left it, or moved in it; or its
    size and time were written, or an attribute of it was set or removed. The last two come with `values` alone."""

    B_ENTRY_CREATED = 1
    B_ENTRY_REMOVED = 2
    B_ENTRY_MOVED = 3
    B_STAT_CHANGED = 4
    B_ATTR_CHANGED = 5


B_ENTRY_CREATED, B_ENTRY_REMOVED = Opcode.B_ENTRY_CREATED, Opcode.B_ENTRY_REMOVED
B_ENTRY_MOVED = Opcode.B_ENTRY_MOVED
B_STAT_CHANGED, B_ATTR_CHANGED = Opcode.B_STAT_CHANGED, Opcode.B_ATTR_CHANGED


class Cause(_Text):
    """Why a query ended: a text, the word of a script, which has the number of lq.h as `code`."""

    CLOSED = "closed", 1
    HUNG_UP = "hung_up", 2
    OVERRUN = "overrun", 3


CAUSES = {cause.code: cause for cause in Cause}


class Op(enum.IntEnum):
    """An operator among the pushes of a query: it takes what it needs from those before it."""

    EQ = 1
    NE = 2
    GT = 3
    GE = 4
    LT = 5
    LE = 6
    CONTAINS = 7
    BEGINS_WITH = 8
    ENDS_WITH = 9
    AND = 10
    OR = 11
    NOT = 12


class Attr(NamedTuple):
    """A name of an attribute, among the pushes of a query."""

    name: str


# A formula, or pushes in postfix order: [Attr("size"), 100, Op.GT] is size>100.
Formula = Union[str, Iterable[Union[Attr, str, int, Op]]]


class Applied(NamedTuple):
    """The effect of a change: its number, and the node that it created or named."""

    change: int
    node: int


class Place(NamedTuple):
    """Where an entry is: its folder's node, its own node, and its name."""

    dir: int
    node: int
    name: str


class Entry(NamedTuple):
    """An entry that was found: its place; `kind` "file" or "folder", `size` in bytes, `time` in seconds since 1970."""

    dir: int
    node: int
    name: str
    kind: Kind
    size: int
    time: int


class Attribute(NamedTuple):
    """An attribute: `type` is "CSTR" with a str, or "LONG", "LLNG", "ULNG" or "ULLG" with an int."""

    name: str
    type: Type
    value: Union[str, int]


class Info(NamedTuple):
    """An entry with all that it has: `size` in bytes, `time` in seconds since 1970, `kind` "file" or "folder".

    `attributes` has the values by their names, in the order in which they were first set, and `types` their types."""

    dir: int
    node: int
    name: str
    kind: Kind
    size: int
    time: int
    attributes: Dict[str, Union[str, int]]
    types: Dict[str, Type]


class Message(NamedTuple):
    """What one change did to one result. `last` is true for the final message of its change.

    `op` is B_ENTRY_CREATED, B_ENTRY_REMOVED or B_ENTRY_MOVED; the last alone has `from_dir` and `from_name`. With
    `values` it may be B_STAT_CHANGED too, or B_ATTR_CHANGED, which alone has `attribute`: the attribute's name."""

    seq: int
    change: int
    last: bool
    op: Opcode
    dir: int
    node: int
    name: str
    from_dir: Optional[int]
    from_name: Optional[str]
    attribute: Optional[str] = None


class Mark(NamedTuple):
    """The end of a query: why it ended, and the last change that its messages cover."""

    seq: int
    change: int
    cause: Cause


class Result(NamedTuple):
    """The result of a query by its opening and the messages read so far, after the change of the latest.

    `settled` is true where that message was the last of its change, so that this is the query's result then."""

    change: int
    settled: bool
    entries: List[Place]


class Difference(NamedTuple):
    """How a new opening differs from what a query showed before, by rising node.

    `moved` has where an entry was and where it is, if these differ."""

    removed: List[Place]
    created: List[Place]
    moved: List[Tuple[Place, Place]]


class Error(Exception):
    """What this module raises by itself: Refused, or Overrun."""


class Refused(Error):
    """A call was refused, and its act isn't done. `code` and `name` are those of the table of refusals.

    `call` is the name of the call, and `arguments` what it was given. `reason` says what is wrong with one of these,
    where they alone show it, and is empty elsewhere. Of an entry that `create` had made before one of
    its attributes was refused, `node` is the node, and `attributes` has the names of those that were set. Within
    `apply`, `at` is how many changes came before it, and `applied` what they returned."""

    node: Optional[int] = None
    attributes: Tuple[str, ...] = ()
    at: Optional[int] = None
    applied: Tuple["Applied", ...] = ()
    reason: str = ""

    def __init__(self, code: int, name: str, call: str = "", arguments: Tuple[Any, ...] = ()) -> None:
        self.code, self.name, self.call, self.arguments = code, name, call, tuple(arguments)
        self.args = code, name, call, self.arguments

    def __str__(self) -> str:
        why = f": {self.reason}" if self.reason else ""
        return f"{self.name}: {self.call}({', '.join(map(reprlib.repr, self.arguments))}){why}"

    def __reduce__(self) -> Tuple[Any, ...]:
        return type(self), (self.code, self.name, self.call, self.arguments), vars(self)


class BadName(Refused, ValueError):
    """A name of an entry or of an attribute breaks its rule. The text says which: it is empty, has more than 255 bytes,
    has a NUL, or, as the name of an entry, has a `/`, or is `.` or `..`."""


class NotFound(Refused, KeyError):
    """NoNode, NoEntry or NoAttr: what was named isn't there."""


class Exists(Refused, FileExistsError):
    """The folder has an entry of this name."""

    def __init__(self, code: int, name: str, call: str = "", arguments: Tuple[Any, ...] = ()) -> None:
        super().__init__(code, name, call, arguments)
        self.errno, self.strerror = errno.EEXIST, name


class NotFolder(Refused, NotADirectoryError):
    """What was named as a folder is a file."""

    def __init__(self, code: int, name: str, call: str = "", arguments: Tuple[Any, ...] = ()) -> None:
        super().__init__(code, name, call, arguments)
        self.errno, self.strerror = errno.ENOTDIR, name


class NotEmpty(Refused, OSError):
    """The folder that would go has entries: an OSError as `os.rmdir` raises it, with errno.ENOTEMPTY."""

    def __init__(self, code: int, name: str, call: str = "", arguments: Tuple[Any, ...] = ()) -> None:
        super().__init__(code, name, call, arguments)
        self.errno, self.strerror = errno.ENOTEMPTY, name


class NoMemory(Refused, MemoryError):
    """There is no memory for the call."""


class BadQuery(Refused, ValueError):
    """A formula can't be read. `place` is the byte of its leftmost fault, in UTF-8, or 4096 where it has more bytes; of
    pushes it is the number of those before the one that doesn't fit. With values the formula is cut into tokens first,
    and read with its values in place: where the fault is in that, it is `text`, else None. What is printed has a caret
    under the place."""

    def __init__(self, code: int, name: str, call: str = "", arguments: Tuple[Any, ...] = (), place: int = 0) -> None:
        super().__init__(code, name, call, arguments)
        self.place = place
        self.text: Optional[str] = None

    def __str__(self) -> str:
        given = self.arguments[0] if self.arguments else None
        shown = _shown(given if self.text is None else self.text, self.place)
        return f"{self.name} at {self.place}{super().__str__()[len(self.name):]}{shown}"

    def __reduce__(self) -> Tuple[Any, ...]:
        kind, given, fields = super().__reduce__()
        return kind, (*given, self.place), fields


class BadValues(Refused, ValueError):
    """NoValue: a formula has a parameter, `$1` to `$256`, for which `values` has no item. UnusedValue: `values` has an
    item for which the formula has no parameter. `place` is the parameter's number, from 1."""

    def __init__(self, code: int, name: str, call: str = "", arguments: Tuple[Any, ...] = (), place: int = 0) -> None:
        super().__init__(code, name, call, arguments)
        self.place = place
        is_missing = code == _NO_VALUE
        self.reason = f"{'values has no item for' if is_missing else 'the formula has no'} ${place}"
        if not is_missing:
            self.reason += f", so values[{place - 1}] isn't used"

    def __reduce__(self) -> Tuple[Any, ...]:
        kind, given, fields = super().__reduce__()
        return kind, (*given, self.place), fields


class BadSave(Refused, ValueError):
    """A file holds no saved volume. BadSave: it was cut or changed, or its entries are no volume; OtherVersion: it is of a
    version of the format that the library doesn't know. `fault` is the word for it, such as "Cut" or "Checksum", and
    `place` the byte where it is, counted from 0. `node` is the entry's node, if the fault is one of an entry, else None."""

    def __init__(
        self, code: int, name: str, call: str = "", arguments: Tuple[Any, ...] = (), place: int = 0, fault: str = ""
    ) -> None:
        super().__init__(code, name, call, arguments)
        self.place, self.fault = place, fault

    def __str__(self) -> str:
        at = f"{self.fault} at byte {self.place}" + (f", node {self.node}" if self.node else "")
        return f"{super().__str__()}: {at}"

    def __reduce__(self) -> Tuple[Any, ...]:
        kind, given, fields = super().__reduce__()
        return kind, (*given, self.place, self.fault), fields


class Locked(Refused, OSError):
    """Another volume keeps the folder, in this process or another: an OSError with errno.EAGAIN."""

    def __init__(self, code: int, name: str, call: str = "", arguments: Tuple[Any, ...] = ()) -> None:
        super().__init__(code, name, call, arguments)
        self.errno, self.strerror = errno.EAGAIN, name


class NotKept(Refused, OSError):
    """A volume that is kept in a folder can't write or sync its journal: an OSError with errno.EIO. Unkept: the change
    was made in memory, and may not be on the disk. Halted: it wasn't made, since one before it isn't on the disk. Turns
    try again, and changes are made again once all is there."""

    def __init__(self, code: int, name: str, call: str = "", arguments: Tuple[Any, ...] = ()) -> None:
        super().__init__(code, name, call, arguments)
        self.errno, self.strerror = errno.EIO, name


class Kept(NamedTuple):
    """How a volume is kept: the size of its journal in bytes, and how many changes a power cut may take. `cutting`: the
    journal is being cut anew. `halted`: changes are refused. `fault` is what failed in the latest turn, or None."""

    size: int
    unsynced: int
    cutting: bool
    halted: bool
    fault: Optional[str]


class Overrun(Error):
    """More messages came than the query's backlog has room for, so it has ended. `change` is the last change that the
    messages cover, and `formula` the query's. `Query.reopen` goes on."""

    def __init__(self, change: int, formula: Formula) -> None:
        super().__init__(change, formula)
        self.change, self.formula = change, formula

    def __str__(self) -> str:
        return f"the messages of {reprlib.repr(self.formula)} end after change {self.change}: the backlog was full"


def _shown(formula: Any, place: int) -> str:
    """Lines that mark a place in a formula or in pushes."""
    if isinstance(formula, str):
        return "\n" + marked(formula, place)
    if isinstance(formula, tuple):
        pushes = [*map(_push, formula)]
        return "\n" + marked_between("".join(f"{it}, " for it in pushes[:place]), ", ".join(pushes[place:]))
    return ""


def _push(item: Any) -> str:
    if isinstance(item, Op):
        return f"Op.{item.name}"
    return f"Attr({item.name!r})" if isinstance(item, Attr) else repr(item)


_REFUSALS = {
    1: BadName, 2: NotFound, 3: NotFolder, 4: NotFound, 5: Exists, 7: NotEmpty, 10: NotFound, 15: NoMemory, 49: Locked,
    50: NotKept, 51: NotKept,
}  # fmt: skip
_BAD_QUERY, _NO_VALUE, _UNUSED_VALUE = 20, 43, 44


def refusal(
    code: int, name: str, place: int, call: str, arguments: Tuple[Any, ...], text: Optional[str] = None
) -> Refused:
    """The exception for a status. `text` is a formula with its values in place, where `place` is one of it."""
    if code == _BAD_QUERY:
        bad = BadQuery(code, name, call, arguments, place)
        bad.text = text
        return bad
    if code in (_NO_VALUE, _UNUSED_VALUE):
        return BadValues(code, name, call, arguments, place)
    made: Refused = _REFUSALS.get(code, Refused)(code, name, call, arguments)
    made.reason = reason(code, call, arguments)
    return made
