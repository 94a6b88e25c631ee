"""The relay: one volume, which takes the changes in order, and its windows."""
import collections, itertools, json, resource

from yazgoulm import NoMemory, Refused, Volume

from . import ENDED, Trouble, reading
from .batches import Batches
from .changes import Answered, is_change, refusal
from .engine import START, order
from .snapshot import from_pieces, head_of, to_pieces, way_station
from .opening import to_json
from .tries import Tries
from .window import CHANGES, uncollected
from .windows import Leases, Windows

LONGEST = 1  # seconds that a turn waits


class Relay:
    """`taken` counts the entries of the log of changes that were carried out, refused ones too; `applied` is the
    position of the last, `change` the number of the last accepted one. Of the requests, `heard` counts those that were
    answered, and `asked` is the position of the last. `skipped` counts the entries that went before they were taken,
    where `skips` has allowed it."""

    def __init__(self, log, every, is_whole=False, lease=60.0, warn=lambda line: None, skips=False):
        self.log, self.every, self.is_whole, self.warn, self.skips = log, every, is_whole, warn, skips
        self.batches, self.leases = Batches(log), Leases(log, lease)
        self.step, self.tries = self.batches.step, Tries(log, self.batches.me)

    # ---- the beginning

    def begin(self, is_standby=False):
        """Takes the log, and makes the volume and the windows what its batches left. Writes what the last one lacks."""
        self.batches.take(is_standby)
        self.step("the beginning")
        self.taken, self.applied, self.heard, self.asked, self.skipped = 0, START, 0, START, 0
        self.hold(Volume(), ())
        with uncollected():
            position = START if self.is_whole else self.load()
        self.kept = self.taken
        batch, records = self.replay(position)
        self.batches.derive(batch, records, is_again=True)
        self.compare()
        if self.skips:
            self.skip()
        self.tries.begin(self.asked)
        self.leases.begin()
        self.beat()

    def hold(self, volume, answered):
        self.volume, self.answered = volume, Answered(answered)
        self.windows = Windows(volume, max(1, self.log.keep // 4), self.step)

    @property
    def change(self):
        return self.volume.changes

    def load(self):
        """Begins at the snapshot, if there is one that this version reads. Returns the position of the batch after
        which it was written."""
        pieces = self.log_pieces()
        first = next(pieces, None)
        if first is None:
            return START
        with reading(self.log.key("snapshot")):
            head = head_of(first)
            if head is None:
                self.warn(f"{self.log.key('snapshot')} is of another version: begins at the first change")
                return START
            self.taken, self.heard, self.skipped = head["taken"], head["heard"], head["skipped"]
            self.applied, self.asked = head["applied"].encode(), head["asked"].encode()
            try:
                answered, volume = from_pieces(head, pieces)
                self.hold(volume, answered)
                self.windows.restore(head["last"], head["windows"], head["names"])
            except NoMemory:
                raise
            except Refused as refused:
                raise ValueError(str(refused)) from None
            return head["batch"].encode()

    def log_pieces(self):
        for piece in self.batches.snapshot():
            self.step("a piece of a snapshot")
            yield piece

    def replay(self, position):
        """Carries out the batches after a position again. Returns the last one that wrote something, and what."""
        last = START, []
        changes, requests = Taken(self.log, "changes", self.applied), Taken(self.log, "windows", self.asked)
        for position, batch in self.log.forwards("log", position):
            with reading(f"{self.log.key('log')} {position.decode()}"):
                taken, heard, change = (int(batch[field]) for field in (b"taken", b"heard", b"change"))
                left, ends = json.loads(batch.get(b"left", b"{}")), (batch[b"applied"], batch[b"asked"], change)
                self.skipped = int(batch.get(b"skipped", 0))
                refused = [it.encode() for it in json.loads(batch.get(b"refused", b"[]"))]
            self.step("a batch that was taken")
            records = self.carry_out(left, requests.next(heard - self.heard), changes.next(taken - self.taken), refused)
            if (self.applied, self.asked, self.change) != ends:
                raise Trouble(f"the changes of {self.log.name} differ from its log at {position.decode()}: they give "
                              f"{place(self.applied, self.asked, self.change)}, and not {place(*ends)}", ENDED)
            if records:
                last = position, records
        return last

    def compare(self):
        """Raises Trouble where a window's stream isn't what this relay would have written. One that has nothing, since
        it was trimmed or deleted, gets an opening."""
        empty = [it for it in self.windows.values() if self.log.end(it.stream) == START]
        for window in self.windows.values():
            if window not in empty:
                window.compare(self.log)
        for window in empty:
            self.warn(f"{self.log.key(window.stream)} had nothing: a new opening is written")
        self.batches.derive(self.batches.end, [record for it in empty for record in it.opening()])

    # ---- changes that have gone

    def lost(self, changes=()):
        """How many entries of the log of changes went (XTRIM) before they were taken, or read as these were. As long as
        one that was taken is kept, none did."""
        added, kept, first = self.log.counts()
        if START != first and order(first) <= order(self.applied):
            return 0
        read = sum(first == START or order(position) < order(first) for position, _ in changes)
        return max(0, added - kept - self.taken - self.skipped - read)

    def skip(self):
        """Goes on without what has gone."""
        lost = self.lost()
        if lost:
            self.warn(f"goes on without {lost} entries of {self.log.key('changes')}")
            self.skipped += lost
            self.batches.append(self.state())

    def check_kept(self, changes):
        lost = self.lost(changes)
        if lost:
            raise Trouble(f"{lost} entries of {self.log.key('changes')} after {self.applied.decode()} have gone before "
                          "they were taken: `serve --skip` goes on without them", ENDED)

    # ---- a turn

    def turn(self):
        """Takes what has come: appends a batch to the log, and then writes all that it gives. Returns whether there was
        something."""
        self.step("a turn")
        places = {"windows": self.asked, "changes": self.applied}
        read = self.log.read(places, CHANGES, min(self.log.lock / 4, LONGEST))
        requests, changes = self.tries.next(read.get("windows", ())), read.get("changes", ())
        self.check_kept(changes)
        self.beat()
        self.leases.renew(requests)
        left = {**self.windows.too_large(), **self.leases.ended(self.windows.names)}
        if not (read or left):
            return False
        refused = self.tries.refused(requests)
        self.tries.note(requests)
        records = self.carry_out(left, requests, changes, refused)
        self.batches.append({**self.state(), **({"left": to_json(left)} if left else {}),
                             **({"refused": to_json([it.decode() for it in refused])} if refused else {})})
        self.batches.derive(self.batches.end, records)
        self.tries.done()
        if self.taken >= self.kept + self.every:
            self.keep()
        if requests or left:
            self.beat(is_due=True)
        return True

    def carry_out(self, left, requests, changes, refused):
        """Does what a batch takes, in this order. Returns the records that it gives, the replies last: whoever has one
        finds all else written. `refused` has the positions of the requests that aren't tried again."""
        records, opened, replies = [], [], []
        for name, cause in left.items():
            self.windows.drop(name, cause, self.change, records)
        for self.asked, request in requests:
            reply = self.windows.answer(request, self.taken, self.change, records, self.asked in refused)
            opened.append(("opened", {"of": self.asked, "reply": to_json(reply)}))
            self.heard += 1
        for position, record in changes:
            replies.append(("replies", {"of": position, "reply": to_json(self.take(position, record))}))
        self.windows.read(records)
        return records + opened + replies

    def take(self, position, record):
        """Carries out an entry of the log of changes, if it wasn't before. Returns the reply."""
        self.applied, self.taken = position, self.taken + 1
        line, by = record.get(b"line", b""), record.get(b"by")
        reply = self.answered.find(by, line)
        if reply is None:
            reply = self.apply(line)
            self.answered.add(by, line, reply)
        return reply

    def apply(self, line):
        if not is_change(line):
            return refusal(line)
        return json.loads(self.volume.answer(line))

    def state(self):
        """The fields of a batch: up to where all was taken."""
        skipped = {"skipped": self.skipped} if self.skipped else {}
        return {"taken": self.taken, "applied": self.applied, "change": self.change,
                "heard": self.heard, "asked": self.asked, **skipped}

    def keep(self):
        """Writes a snapshot of all that is known after the last batch."""
        self.kept = self.taken
        windows = self.windows
        head = {"batch": self.batches.end.decode(), "taken": self.taken, "applied": self.applied.decode(),
                "heard": self.heard, "asked": self.asked.decode(), "skipped": self.skipped, "last": windows.last,
                "windows": windows.table(), "names": windows.names}
        self.step("a snapshot of the volume")
        with uncollected(), way_station() as file:
            self.volume.save(file.fileno())
            self.batches.write_snapshot(to_pieces(head, self.answered.items(), file))

    # ---- signs of life

    def beat(self, is_due=False):
        self.batches.pulse.taken = self.taken + self.skipped
        self.batches.beat(self.life, is_due)

    def life(self):
        """What a sign of life between two turns says."""
        names = collections.Counter(self.windows.names.values())
        windows = {it.number: {"query": it.formula, "opened": it.opened, "names": names[it.number], "seq": it.seq,
                               "change": it.change, **({"values": True} if it.has_values else {})}
                   for it in self.windows.values()}
        memory = 1024 * resource.getrusage(resource.RUSAGE_SELF).ru_maxrss
        return {"taken": self.taken, "change": self.change, "memory": memory,
                "lag": self.log.lag(self.taken + self.skipped), "windows": to_json(windows)}


def place(applied, asked, change):
    """Up to where the changes and the requests were taken, in words."""
    return f"change {change} at {applied.decode()} with the requests up to {asked.decode()}"


class Taken:
    """The entries of a stream that were taken, in order, read many at a time."""

    def __init__(self, log, stream, position):
        self.where, self.records = log.key(stream), log.forwards(stream, position)

    def next(self, count):
        """The next so many."""
        found = [*itertools.islice(self.records, max(count, 0))]
        if len(found) != count:
            raise Trouble(f"{self.where} ends too early: {len(found)} of {count} entries of a batch are there", ENDED)
        return found
