"""A client: asks for a window by its name and a formula, and folds what comes."""
import contextlib, json, time

from . import ENDED, UNUSABLE, Trouble, reading
from .engine import PART, SECONDS, SILENT, Gone, Pause
from .opening import Gap, Opening

BEAT = 5.0  # seconds between two signs of life of a client
LOOK = 1.0  # and between two looks at what it follows, while nothing comes


class Beginning:
    """How far a follower's beginning is, so that it goes on there where the engine had gone: `why` it began, the stream
    of the window, down to where that was searched for an opening, and the opening as far as it was read."""

    def __init__(self, why):
        self.why, self.stream, self.top, self.opening = why, None, b"+", None


class Follower:
    """A window as this client has it. `rows` has the folder's node and the name of each entry, by its node; `change` is
    the change of the last message. Where `is_settled`, `rows` is the query's result after that change. While nothing
    comes, `age` is how many seconds ago the relay gave a sign of life, and `lag` how many changes waited then.

    With `has_values` the relay sends values too. `values` then has of each row, by its node, a dict of `size`,
    `last_modified`, and each attribute that was set since the row came or this began. `at` is the number of changes at
    which the latest of them were read. Where it is `change`, and `is_settled`, all are as of this change.

    It calls `opened` with itself and a line that says why, or None at first, `heard` with each message, and `told` with
    a line where the relay is silent or is back."""

    def __init__(self, log, name, formula, opened=lambda *_: None, heard=lambda _: None, told=lambda _: None,
                 has_values=False):
        self.log, self.name, self.formula, self.has_values = log, name, formula, has_values
        self.opened, self.heard, self.told = opened, heard, told
        self.rows, self.values, self.at, self.pause = {}, {}, None, Pause()
        self.age, self.lag, self.is_silent = None, None, False
        self.beaten = self.looked = 0.0
        self.beginning = self.met = None

    # ---- a beginning

    def begin(self, why=None):
        """Asks for the window, and takes its newest opening. Where the last beginning was no help, it waits before.
        Where the engine goes away meanwhile, the next call goes on where this one was."""
        while True:
            if not self.beginning:
                if why:
                    why += self.pause.words()
                    self.pause.wait()
                self.beginning = Beginning(why)
            try:
                return self.take(self.beginning)
            except Gap:
                why, self.beginning = "a part of its opening isn't kept", None
            except Trouble:
                self.beginning = None
                raise

    def take(self, it):
        """Goes on with a beginning to its end."""
        self.beat()
        if not it.stream:
            it.stream = f"window:{self.ask()}"
        if not it.opening:
            newest = self.newest(it)
            if not newest:
                it.stream = f"window:{self.ask(opening='1')}"
                newest = self.newest(it)
            if not newest:
                raise Gone(f"{self.log.key(it.stream)} has no opening")
            it.opening = Opening(self.log, it.stream, *newest)
        it.opening.read(self.beat)
        opening, self.stream, self.beginning, self.is_settled = it.opening, it.stream, None, True
        self.position, self.seq, self.change = opening.position, opening.seq, opening.change
        self.rows, self.values, self.at = opening.rows, opening.values, opening.at
        self.opened(self, it.why)

    def newest(self, it):
        """The newest opening of the window's stream, with its position. The search begins at the end again once it has
        found none."""
        while found := self.log.before(it.stream, it.top):
            for each in found:
                if b"opening" in each[1]:
                    return each
            it.top = b"(" + found[-1][0]
            self.beat()
        it.top = b"+"

    def ask(self, **more):
        """Has the relay open the window. Returns its number. A relay is waited for as long as it gives signs of life."""
        position, end = self.log.end("opened"), time.monotonic() + SECONDS
        if self.has_values:
            more["values"] = "1"
        asked, = self.log.append("windows", [{"name": self.name, "query": self.formula, **more}])
        while time.monotonic() < end or self.is_awaited(asked):
            for position, record in self.log.read({"opened": position}, PART, 1).get("opened", ()):
                if record.get(b"of") == asked:
                    with reading(f"{self.log.key('opened')} {position.decode()}"):
                        return self.number(json.loads(record[b"reply"]))
            self.beat()
        raise Trouble(f"no relay answers for {self.log.name}", ENDED)

    def is_awaited(self, asked):
        """Whether a request still stands, and a relay gives signs of life."""
        life = self.log.life()
        return bool(life and life["age"] < SILENT and self.log.has("windows", asked))

    def number(self, reply):
        if "error" in reply:
            raise Trouble(f"{self.formula}: {reply['error']}", UNUSABLE)
        return reply["window"]

    # ---- what comes

    def turn(self, seconds):
        """Folds the records that have come. Begins anew where the next one isn't the next message, or the last one has
        gone: some were trimmed, the stream was deleted, or the log ended earlier than this client."""
        records = self.log.read({self.stream: self.position}, PART, seconds).get(self.stream, ())
        for position, record in records:
            with reading(f"{self.log.key(self.stream)} {position.decode()}"):
                why, message = self.fold(position, record)
            if why:
                return self.begin(why)
            self.position = position
            if message:
                self.pause.reset()
                self.heard(message)
        self.beat()
        if not records:
            self.pause.reset()
        if not records and time.monotonic() > self.looked + LOOK:
            self.looked = time.monotonic()
            self.resume()
            self.look()

    def fold(self, position, record):
        """Folds a record. Returns why it isn't the next one, or None, and the message, if it is one."""
        gap = f"the next message after {self.seq} isn't kept"
        if b"mark" in record:
            return self.ended(json.loads(record[b"mark"])["cause"]), None
        if b"opening" in record:
            return None if self.compare(position, record) else gap, None
        message = json.loads(record[b"message"])
        if message["seq"] != self.seq + 1:
            return gap, None
        self.seq, self.change, self.is_settled = message["seq"], message["change"], message["last"]
        if message["op"] == "B_ENTRY_REMOVED":
            del self.rows[message["node"]]
        else:
            self.rows[message["node"]] = message["dir"], message["name"]
        self.fold_values(message, record)
        return None, message

    def fold_values(self, message, record):
        """Folds the values beside a message. There are none of a row that has left the result, or the volume since."""
        node = message["node"]
        if message["op"] == "B_ENTRY_REMOVED":
            self.values.pop(node, None)
        if b"values" not in record:
            return
        found = json.loads(record[b"values"])
        self.at, row = found["at"], self.values.setdefault(node, {})
        row.update(size=found["size"], last_modified=found["time"])
        attr, value = message.get("attr"), found.get("value")
        if value is not None:
            row[attr] = value
        elif attr is not None:
            row.pop(attr, None)  # it was removed, by this change or since

    def compare(self, position, record):
        """Compares an opening with the rows, if its parts are still kept. Returns whether it is of the last message.
        Where the engine goes away meanwhile, the next call goes on where this one was."""
        if not self.met or self.met.position != position:
            self.met = Opening(self.log, self.stream, position, record)
        if self.met.seq != self.seq:
            return False
        with contextlib.suppress(Gap):
            self.met.read(self.beat)
            if (self.met.rows, self.met.values) != (self.rows, self.known()):
                raise Trouble(f"the opening at {self.met.change} differs from the messages", ENDED)
        self.met = None
        return True

    def known(self):
        """The values that an opening has too."""
        return {node: {name: row[name] for name in ("size", "last_modified")} for node, row in self.values.items()}

    def ended(self, cause):
        """A window ends with its last name. This client asks again where it was late with its signs of life."""
        if cause == "lease":
            return "the lease of the window's names has ended"
        raise Trouble(f"the window of {self.formula} has ended: {cause}", ENDED)

    def resume(self):
        """Goes on where the engine had gone. Begins anew where the last record that was folded isn't there any more."""
        if self.beginning:
            self.begin()
        elif not self.log.has(self.stream, self.position):
            self.begin(f"the record of change {self.change} isn't kept")

    # ---- signs of life

    def beat(self):
        """Keeps the lease of the window's name."""
        if time.monotonic() > self.beaten + BEAT:
            self.log.beat(self.name)
            self.beaten = time.monotonic()

    def look(self):
        """Looks for the relay's last sign of life, and says where it is silent or is back."""
        life = self.log.life()
        self.age, self.lag = (life["age"], int(life["lag"])) if life else (None, None)
        is_silent = life is None or life["age"] > SILENT
        if is_silent != self.is_silent:
            self.is_silent = is_silent
            self.told(f"no relay serves {self.log.name}: what is shown is as of change {self.change}" if is_silent
                      else f"a relay serves {self.log.name} again")


def follow(follower, turned=lambda: None):
    """Follows a window without end, from where it is after each time that the engine had gone. It calls `turned` after
    each turn."""
    log = follower.log
    log.wait_for(follower.begin)
    while True:
        try:
            while True:
                turned()
                follower.turn(1)
        except Gone:
            log.wait_for(follower.resume)
