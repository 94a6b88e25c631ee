"""An opening in parts: what the relay writes of a result, and how a client reads it.

An opening of one part is one record of a window's stream. Of a larger one the parts stand in a stream of their own, and
the record in the window's stream, which is written after them, says how many there are. Their IDs begin with the same
number of a batch."""
import json

from . import reading
from .engine import order

SIZE = 10_000  # bytes of a part, as a rule
LARGEST = 32_000_000  # and of an opening
AT_ONCE = 32  # parts that are read at a time


def to_json(fields):
    return json.dumps(fields, separators=(",", ":"), sort_keys=True, ensure_ascii=False).encode()


def parts_of(stream):
    """The stream that has the parts of the openings of a window's stream."""
    return f"{stream}:parts"


def to_records(stream, head, rows, values, step):
    """The records of an opening with their streams, or none where it would have over LARGEST bytes as one record."""
    lists = {"result": rows, **({} if values is None else {"values": values})}
    none, seq, parts = dict.fromkeys(lists, ()), {"seq": head["seq"]}, []
    frame, size = len(to_json({**none, **seq})), len(to_json({**head, **none}))
    for begin, end in cut(rows):
        step("a part of an opening")
        parts.append(to_json({**{name: it[begin:end] for name, it in lists.items()}, **seq}))
        size += len(parts[-1]) - frame + (len(lists) if begin else 0)  # a comma in each list, between two parts
        if size > LARGEST:
            return []
    if len(parts) == 1:
        return [(stream, {"opening": to_json({**head, **lists})})]
    head = {**head, "parts": len(parts)}
    return [*((parts_of(stream), {"part": part}) for part in parts), (stream, {"opening": to_json(head)})]


def cut(rows):
    """The places of the parts in a list of rows: at least one part, and one for each SIZE bytes or so."""
    begin = size = 0
    for at, (_, _, name) in enumerate(rows):
        size += len(name) + 24  # the two nodes and what stands between
        if size > SIZE:
            yield begin, at + 1
            begin, size = at + 1, 0
    if begin < len(rows) or begin == 0:
        yield begin, len(rows)


class Gap(Exception):
    """A part of an opening isn't kept any more."""


class Opening:
    """An opening as far as a client has read it. `read` goes on where it was, also after the engine had gone."""

    def __init__(self, log, stream, position, record):
        self.log, self.stream, self.position = log, stream, position
        with reading(f"{log.key(stream)} {position.decode()}"):
            fields = json.loads(record[b"opening"])
            self.seq, self.change, self.at = fields["seq"], fields["change"], fields.get("at")
            self.parts, self.rows, self.values = int(fields.get("parts", 0)), {}, {}
            if not self.parts:
                self.add(fields)
        self.batch = order(position)[0]
        self.count, self.place = 0, b"%d-0" % self.batch

    def read(self, beat):
        """Reads the parts that are missing, and calls `beat` meanwhile. Gap: one of them isn't kept."""
        stream = parts_of(self.stream)
        while self.count < self.parts:
            found = self.log.read({stream: self.place}, AT_ONCE).get(stream, ())
            if not found:
                raise Gap()
            for self.place, record in found:
                with reading(f"{self.log.key(stream)} {self.place.decode()}"):
                    self.take(json.loads(record[b"part"]))
            beat()

    def take(self, part):
        """Takes the next part that is kept. A batch may have another opening, whose parts have another `seq`. Where a
        part has gone, a later batch or the stream's end comes before all were taken."""
        if order(self.place)[0] != self.batch:
            if self.count < self.parts:
                raise Gap()
        elif part["seq"] == self.seq and self.count < self.parts:
            self.count += 1
            self.add(part)

    def add(self, fields):
        self.rows.update((node, (dir, name)) for dir, node, name in fields["result"])
        values = zip(fields["result"], fields.get("values", ()))
        self.values.update((node, {"size": size, "last_modified": time}) for (_, node, _), (size, time) in values)
