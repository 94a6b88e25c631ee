"""A window on the pages: its rows, the orders in which they are shown, and what happened to them."""
import bisect, collections, re, time
from typing import Any, Callable, Deque, Dict, Iterable, Iterator, List, NamedTuple, Sequence, Set, Union

from .. import NotFound
from .._formulas import NUMBER, others, warnings
from .._names import to_name
from ._folder import Folder
from ._lines import Line, as_object
from ._text import shown
from ._words import STATS, WORDS, attributes, missing, value_of

MESSAGES = 50  # lines of a window that a page is told at once: the latest
MARKS = 1000  # rows whose change a page is told at once
ORDERS = 3  # that are kept of a window, beside that by name
FEW = 50  # rows that are put into an order one by one
COLUMNS = "name", "folder", "size", "modified", "kind"  # that each window has
_BEFORE_ALL = 1 << 63  # no time is as long before 1970


class Row(NamedTuple):
    """An entry that matches, as its latest line had it. `name` and `folder` are its path below the folder."""

    node: int
    path: str
    folder: str
    name: str
    size: int
    time: int
    kind: str


class Order:
    """The rows by rising keys. What has come and gone since the last reading waits, so that a storm costs little."""

    def __init__(self, key: Callable[[Row], str], rows: Iterable[Row]) -> None:
        self.key = key
        self.keys = {row.node: key(row) for row in rows}
        self.nodes = {made: node for node, made in self.keys.items()}
        self.sorted = sorted(self.nodes)
        self.come: Dict[str, None] = {}
        self.gone: Set[str] = set()

    def add(self, row: Row) -> None:
        made = self.keys[row.node] = self.key(row)
        self.nodes[made] = row.node
        if made in self.gone:
            self.gone.remove(made)
        else:
            self.come[made] = None

    def remove(self, node: int) -> None:
        made = self.keys.pop(node)
        del self.nodes[made]
        if made in self.come:
            del self.come[made]
        else:
            self.gone.add(made)

    def settle(self) -> None:
        """Puts into the order what waits."""
        if len(self.come) + len(self.gone) > FEW:
            self.sorted = [*(it for it in self.sorted if it not in self.gone), *self.come]
            self.sorted.sort()
        else:
            for made in self.gone:
                del self.sorted[bisect.bisect_left(self.sorted, made)]
            for made in self.come:
                bisect.insort(self.sorted, made)
        self.come.clear()
        self.gone.clear()

    def piece(self, first: int, count: int, is_down: bool) -> List[int]:
        """The nodes of some rows: from the end on, if it goes down."""
        self.settle()
        if is_down:
            end = max(0, len(self.sorted) - first)
            found = self.sorted[max(0, end - count) : end][::-1]
        else:
            found = self.sorted[first : first + count]
        return [self.nodes[made] for made in found]


class Heard(NamedTuple):
    """A line, when it came, and the node of the row that left by it."""

    line: Line
    at: float
    left: int


class Pane:
    """A window on the pages."""

    def __init__(self, folder: Folder, formula: str, asked: Sequence[str], numbers: Iterator[int]) -> None:
        self.folder, self.window = folder, folder.open(formula)
        self.number = next(numbers)
        self.more = more_columns(formula, asked)
        self.columns = [*COLUMNS, *self.more]
        self.skipped = len(folder.given.rstrip("/")) + 1  # of a path, before what is below the folder
        self.warnings = [it._asdict() for it in [*warnings(formula, WORDS), *missing(folder, formula)]]
        self.told = 0  # lines so far, without those of the opening
        self.fresh: Deque[Heard] = collections.deque((), MESSAGES)
        self.latest: Deque[Dict[str, Any]] = collections.deque((), MESSAGES)
        self.is_fresh = False  # whether a line came since the last update
        self.marks: Dict[int, str] = {}
        self.clear()

    def clear(self) -> None:
        """No rows."""
        self.rows: Dict[int, Row] = {}
        self.nodes: Dict[str, int] = {}  # of the rows, by their paths
        self.orders = {"name": Order(self.key("name"), ())}

    def hear(self, line: Line) -> None:
        """Takes a line. By the promise of the lines, each alone leaves right what is at its paths."""
        self.is_fresh = True
        left = 0
        if line.what == "anew":
            self.clear()
            self.marks.clear()
        elif line.what == "left":
            left = self.remove(line.path)
        else:
            if line.old_path is not None:
                self.remove(line.old_path)
            self.remove(line.path)
            self.add(line)
        if line.what != "there":
            self.told += 1
            self.fresh.append(Heard(line, time.time(), left))
            self.mark(left or line.node, line.what)

    def add(self, line: Line) -> None:
        folder, _, name = line.path[self.skipped :].rpartition("/")
        row = Row(line.node, line.path, folder, name, line.size, line.time, line.kind or "")
        self.rows[row.node], self.nodes[row.path] = row, row.node
        for order in self.orders.values():
            order.add(row)

    def remove(self, path: str) -> int:
        """Takes away the row at a path. Returns its node, or 0 where there is none."""
        node = self.nodes.pop(path, 0)
        if node:
            del self.rows[node]
            for order in self.orders.values():
                order.remove(node)
        return node

    def mark(self, node: int, what: str) -> None:
        if node and (len(self.marks) < MARKS or node in self.marks):
            is_new = self.marks.get(node) == "came" and what in ("moved", "changed")
            self.marks[node] = "came" if is_new else what

    def whole(self) -> Dict[str, Any]:
        """What a page has to know first."""
        head = {"formula": self.window.formula, "columns": self.columns, "warnings": self.warnings}
        return {**self.counts(), **head, "lines": [*self.latest]}

    def counts(self) -> Dict[str, Any]:
        return {"window": self.number, "count": len(self.rows), "told": self.told}

    def update(self) -> Dict[str, Any]:
        """What has happened since the last call: the lines in words, and the rows that a page should mark."""
        lines = [self.told_of(it) for it in self.fresh]
        made = {**self.counts(), "lines": lines, "marks": self.marks}
        self.latest.extend(lines)
        self.fresh.clear()
        self.marks, self.is_fresh = {}, False
        self.orders["name"].settle()
        return made

    def told_of(self, heard: Heard) -> Dict[str, Any]:
        line = heard.line
        return {"at": heard.at, "says": self.sentence(heard), "json": as_object(line, attributes(self.folder, line))}

    def sentence(self, heard: Heard) -> str:
        """What happened, in words."""
        line = heard.line
        if line.what == "anew":
            return "memory ran out, so the window was opened anew"
        path = self.below(line.path)
        if line.what == "came":
            return f"{path} came"
        if line.what == "moved":
            return f"{self.below(line.old_path or '')} is now {path}"
        if line.what == "changed":
            return f"{path} was changed" + ("" if line.kind == "folder" else f": {counted(line.size, 'byte')}")
        return f"{path} {self.how_it_left(heard)}"

    def how_it_left(self, heard: Heard) -> str:
        try:
            now = self.folder.path(heard.left)
        except NotFound:
            return "is gone"
        if now != heard.line.path:
            return f"is now {self.below(now)}, and matches no more"
        return "matches no more"

    def below(self, path: str) -> str:
        """A path below the folder, for people."""
        return for_people(path[self.skipped :])

    def piece(self, by: str, is_down: bool, first: int, count: int) -> Dict[str, Any]:
        """Some of the rows, in the order of a column."""
        nodes = self.order(by).piece(first, count, is_down)
        return {**self.counts(), "first": first, "rows": [self.shown(self.rows[node]) for node in nodes]}

    def order(self, by: str) -> Order:
        """The order by a column. The one that was read last is kept longest."""
        order = self.orders.pop(by, None) or Order(self.key(by), self.rows.values())
        self.orders[by] = order
        kept = [name for name in self.orders if name != "name"]
        for name in kept[:-ORDERS]:
            del self.orders[name]
        return order

    def key(self, by: str) -> Callable[[Row], str]:
        """What a row is ordered by, as a text that no other row has."""

        def last(row: Row) -> str:
            return f"{row.name.casefold()}\0{row.folder}\0{row.node}"

        def of_folder(row: Row) -> str:
            return f"{row.folder.casefold()}\0{last(row)}"

        def of_size(row: Row) -> str:
            return f"{row.size:020}\0{last(row)}"

        def of_time(row: Row) -> str:
            return f"{row.time + _BEFORE_ALL:020}\0{last(row)}"

        def of_kind(row: Row) -> str:
            return f"{row.kind}\0{last(row)}"

        def of_other(row: Row) -> str:
            return f"{ordered(value_of(self.folder, row.node, by))}\0{last(row)}"

        known = {"name": last, "folder": of_folder, "size": of_size, "modified": of_time, "kind": of_kind}
        return known.get(by, of_other)

    def shown(self, row: Row) -> Dict[str, Any]:
        """A row for a page."""
        made = {"node": row.node, "name": for_people(row.name), "folder": for_people(row.folder)}
        values = [value_of(self.folder, row.node, it) for it in self.more]
        texts = [for_people(it) if isinstance(it, str) else it for it in values]
        return {**made, "size": row.size, "time": row.time, "kind": row.kind, "more": texts}


def more_columns(formula: str, asked: Iterable[str]) -> List[str]:
    """The columns that not each window has: the attributes of its formula, and what was asked for."""
    named = [it.attr[: -len(NUMBER)] if it.attr.endswith(NUMBER) else it.attr for it in others(formula, WORDS)]
    return [*dict.fromkeys([*named, *(it for it in asked if "." in it or it in STATS)])]


def ordered(value: Union[str, int, None]) -> str:
    """A value as a text that is ordered: numbers, then other texts, then none."""
    if value is None:
        return "2"
    if isinstance(value, int) or re.fullmatch("-?[0-9]{1,18}", value):
        return f"0{int(value) + _BEFORE_ALL:020}"
    return f"1{value.casefold()}"


def for_people(path: str) -> str:
    return shown(to_name(path))


def counted(count: int, what: str) -> str:
    return f"{count:,} {what}{'' if count == 1 else 's'}"
