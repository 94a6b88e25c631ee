"""The volume that a mirror changes, and windows on it: a live query each."""
import json
from typing import Any, Callable, Dict, Iterable, List, Optional, Tuple

from yazgoulm import B_ENTRY_REMOVED, Message, Query, Refused, Volume

PATIENCE = 1000  # changes after which the windows are read
BACKLOG = 3 * PATIENCE  # a change sends a window at most three messages

Tell = Callable[[str], object]


class Window:
    """A live query. `rows` is its result: the folder's node and the name for each node."""

    def __init__(self, formula: str, entries: Iterable[Any], messages: Iterable[Message]) -> None:
        self.formula, self.messages = formula, messages
        self.rows: Dict[int, Tuple[int, str]] = {it.node: (it.dir, it.name) for it in entries}
        self.heard: Callable[["Window", Message], object] = lambda *_: None
        self.told = 0  # messages so far

    def read(self) -> None:
        """Takes all messages that are there."""
        for message in self.messages:
            self.fold(message)
            self.heard(self, message)

    def fold(self, message: Message) -> None:
        self.told = message.seq
        if message.op == B_ENTRY_REMOVED:
            del self.rows[message.node]
        else:
            self.rows[message.node] = message.dir, message.name


class Server:
    """A volume and its windows. It reads them after `patience` changes at the latest.

    `tell` is given a line for each change that is refused. `pipe`, if there is one, reports that nothing answers any
    more."""

    pipe: Any = None

    def __init__(self, tell: Tell, patience: int = PATIENCE) -> None:
        self.tell, self.patience = tell, patience
        self.windows: List[Window] = []
        self.refused = self.unread = 0
        self.begin()

    def begin(self) -> None:
        self.volume = Volume()

    def test(self, formula: str) -> None:
        """Raises Refused where a formula can't be read."""
        self.volume.fetch(formula)

    def act(self, do: str, fields: Dict[str, Any]) -> int:
        """Makes a change. Returns its node."""
        applied = getattr(self.volume, do)(**fields)
        return int(applied.node)

    def change(self, do: str, **fields: Any) -> Optional[int]:
        """Makes a change. Returns its node, or None where it is refused."""
        node = None
        try:
            node = self.act(do, fields)
        except (Refused, ValueError) as refused:
            self.refused += 1
            self.tell(f"lq refused {do} {json.dumps(fields)}: {getattr(refused, 'name', refused)}")
        self.unread += 1
        if self.unread >= self.patience:
            self.read()
        return node

    def read(self) -> None:
        """Reads the windows' messages, if there was a change since the last time."""
        if self.unread:
            self.unread = 0
            for window in self.windows:
                window.read()

    def open(self, formula: str, values: bool = False) -> Window:
        """Opens a window: Refused, if its formula can't be read or no slot is free. With `values` it hears of those
        that change within the result too."""
        window = self.new_window(formula, values)
        self.windows.append(window)
        return window

    def new_window(self, formula: str, values: bool) -> Window:
        query = self.volume.open(formula, None, backlog=BACKLOG, moved=True, values=values)
        return Window(formula, query.entries, query)

    def close(self, window: Window) -> None:
        """Closes a window, and gives its slot back."""
        self.windows.remove(window)
        assert isinstance(window.messages, Query)
        window.messages.drop()

    def ask(self, do: str, **fields: Any) -> Any:
        """The reply to a line of a script."""
        return json.loads(self.volume.answer(json.dumps({"do": do, **fields})))

    def end(self) -> None:
        self.volume.close()


def line_of(message: Message) -> str:
    """A message as the line of a script's reply."""
    fields = {name: value for name, value in message._asdict().items() if value is not None}
    if message.attribute is not None:
        fields["attr"] = fields.pop("attribute")
    fields.update(op=message.op.name, what="B_QUERY_UPDATE")
    return json.dumps(fields, ensure_ascii=False, separators=(",", ":"), sort_keys=True)
