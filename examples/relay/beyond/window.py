"""A live query, and the records that its clients read: openings, messages, and the mark."""
import contextlib, gc

from yazgoulm import B_ENTRY_REMOVED, NotFound

from . import ENDED, Trouble
from .opening import Opening, to_json, to_records

CHANGES = 250  # changes of a turn; each sends a window at most three messages
BACKLOG = 3 * CHANGES


@contextlib.contextmanager
def uncollected():
    """Python's collector of cycles would go over many new objects again and again, and let no other thread run."""
    was_enabled = gc.isenabled()
    gc.disable()
    try:
        yield
    finally:
        gc.freeze()
        if was_enabled:
            gc.enable()


class Window:
    """The query of one formula. It was opened after `opened` entries of the log of changes. `seq` is the number of its
    last message, and `latest` that message as it was written.

    The query counts its messages from 1, and `seq` is added. After `far` messages since the last opening a new one is
    written, so that the older may go. A result whose opening `is_too_large` can't be served. `has_values` says whether
    values that change within the result have messages, and whether the values of the rows stand beside. `step` is
    called before each part of its work."""

    def __init__(self, volume, number, formula, opened, far, step, seq=0, latest=None, has_values=False):
        self.volume, self.has_values, self.step = volume, has_values, step
        self.number, self.formula, self.opened = number, formula, opened
        step("the opening of a query")
        with uncollected():
            self.query = volume.open(formula, None, backlog=BACKLOG, moved=True, values=has_values, on_overrun="mark")
        self.base, self.seq, self.latest, self.change = seq, seq, latest, self.query.at
        self.far = self.since = far
        self.is_too_large = False

    @property
    def stream(self):
        return f"window:{self.number}"

    def read(self):
        """The records of what has come, with an opening at the end where the last one is far back. Each stands beside
        its stream."""
        records = [(self.stream, self.record(message)) for message in self.query]
        if self.query.mark:
            raise Trouble(f"the query {self.formula} has ended: {self.query.mark.cause}", ENDED)
        self.since += len(records)
        if records and self.since >= self.far:
            records += self.opening()
        return records

    def record(self, message):
        fields = {name: value for name, value in message._asdict().items() if value is not None}
        if message.attribute is not None:
            fields["attr"] = fields.pop("attribute")
        self.seq = fields["seq"] = message.seq + self.base
        self.change = message.change
        self.latest = to_json({**fields, "op": str(message.op), "what": "B_QUERY_UPDATE"})
        values = self.values(message)
        return {"message": self.latest, **({"values": to_json(values)} if values else {})}

    def values(self, message):
        """The values of a message's row, and of its attribute, as the volume has them now: after all changes of a turn.
        `at` is the number of changes then. None where nobody asked, or the row has left the result or the volume."""
        if not self.has_values or message.op == B_ENTRY_REMOVED:
            return None
        try:
            entry = self.volume.entry(message.node)
        except NotFound:
            return None
        values = {"at": self.volume.changes, "size": entry.size, "time": entry.time}
        if message.attribute is None:
            return values
        attr = message.attribute
        return {**values, "type": entry.types.get(attr), "value": entry.attributes.get(attr)}

    def opening(self):
        """The result as the messages so far make it, which is settled after all changes of a turn: its records, beside
        their streams."""
        self.since = 0
        head, values = {"change": self.change, "seq": self.seq}, None
        with uncollected():
            self.step("the rows of an opening")
            rows = self.query.result().entries
            if self.has_values:
                self.step("the values of an opening")
                head["at"] = self.volume.changes
                values = [(it.size, it.time) for it in self.volume.fetch(self.formula)]
            records = to_records(self.stream, head, rows, values, self.step)
        self.is_too_large = not records
        return records

    def end(self, cause, change):
        """Ends the query. Returns its mark."""
        self.query.drop()
        return self.stream, {"mark": to_json({"what": "END", "cause": cause, "change": change, "seq": self.seq + 1})}

    def compare(self, log):
        """Raises Trouble where the stream's last message isn't the one that this window wrote last. A stream without a
        message has an opening of the same number."""
        found = opening = None
        for position, record in log.backwards(self.stream):
            found = record.get(b"message")
            if found:
                break
            if b"opening" in record:
                opening = opening or Opening(log, self.stream, position, record)
        if found != self.latest and (found or not opening or opening.seq != self.seq):
            where = log.key(self.stream)
            raise Trouble(f"{where} differs from the changes: {found!r} is there, not {self.latest!r}", ENDED)
