"""The table of windows, the names of those who asked for them, and the answers to requests."""
import json, time

from yazgoulm import BadQuery, NoMemory, Refused

from . import opening
from .changes import BAD_LINE
from .tries import MOST
from .window import Window

TOO_LARGE = {"error": f"TooLarge: the result has over {opening.LARGEST:,} bytes"}
TRIED = {"error": f"Tried: {MOST} relays have ended at this request"}
ROW = b'{"dir":'  # what a row of a fetch begins with
MORE = len('{"dir":,"name":"","node":}') - len('[,,""]')  # the bytes that it has more than a row of an opening
CLOSED, LEASE, LARGE = "closed", "lease", "too large"  # why a name has no window any more


class Windows(dict):
    """Each window by its number. `names` has the window's number of each name, `last` is the highest that was given.
    A window ends with its last name. After `far` messages a window writes a new opening. `step` is called before each
    part of what is done. `fresh` has the windows that have an opening in this batch, with no message after it."""

    def __init__(self, volume, far, step):
        super().__init__()
        self.volume, self.far, self.step, self.names, self.last = volume, far, step, {}, 0
        self.fresh = set()

    def open(self, number, formula, opened, seq=0, latest=None, has_values=False):
        self[number] = Window(self.volume, number, formula, opened, self.far, self.step, seq, latest, has_values)
        return self[number]

    def table(self):
        """What a snapshot keeps of the windows: of those with values that they have them, at the end."""
        return [(it.number, it.formula, it.opened, it.seq, it.latest and it.latest.decode(), *[True] * it.has_values)
                for it in self.values()]

    def restore(self, last, table, names):
        for number, formula, opened, seq, latest, *has_values in table:
            self.open(number, formula, opened, seq, latest and latest.encode(), bool(has_values))
        self.last, self.names = last, names

    def read(self, records):
        self.fresh.clear()
        for window in self.values():
            records += window.read()

    def write_opening(self, window, records):
        """Has the window's opening among the records of this batch, once."""
        if window.number not in self.fresh:
            self.fresh.add(window.number)
            records += window.opening()

    # ---- requests

    def answer(self, request, taken, change, records, is_refused=False):
        """Opens a window under a name, or takes the name back where the request has no formula. Returns the reply.
        `is_refused` says that the request isn't tried again."""
        try:
            name, formula = request[b"name"].decode(), request.get(b"query", b"").decode()
        except (KeyError, UnicodeDecodeError):
            return BAD_LINE
        if not formula:
            self.drop(name, CLOSED, change, records)
            return {}
        if is_refused:
            return TRIED
        window, reply = self.opened(formula, b"values" in request, taken, records)
        if window is None:
            return reply
        if self.names.get(name) != window.number:
            self.drop(name, CLOSED, change, records)
            self.names[name] = window.number
        if b"opening" in request:
            self.write_opening(window, records)
        return reply

    def opened(self, formula, has_values, taken, records):
        """The window of a formula and the reply: the one that is open, or a new one, or None with a refusal."""
        for window in self.values():
            if (window.formula, window.has_values) == (formula, has_values):
                return window, {"window": window.number}
        if self.size(formula) > opening.LARGEST:
            return None, TOO_LARGE
        try:
            window = self.open(self.last + 1, formula, taken, has_values=has_values)
        except NoMemory:
            raise
        except BadQuery as fault:
            return None, {"code": fault.code, "error": f"{fault.name} at {fault.place}"}
        except Refused as refused:
            return None, {"code": refused.code, "error": refused.name}
        self.write_opening(window, records)
        if window.is_too_large:
            self.pop(window.number).query.drop()
            return None, TOO_LARGE
        self.last = window.number
        return window, {"window": window.number}

    def size(self, formula):
        """How many bytes the rows of a result would have in an opening, or few where the formula is refused. The text
        of a fetch costs far less than a query, whose rows are objects."""
        self.step("the size of a result")
        reply = self.volume.answer(json.dumps({"do": "fetch", "query": formula}))
        return len(reply) - MORE * reply.count(ROW)

    def drop(self, name, cause, change, records):
        """Takes a name off its window, and ends the window where that was its last."""
        number = self.names.pop(name, None)
        if number is not None and number not in self.names.values():
            records.append(self.pop(number).end(cause, change))

    def too_large(self):
        """The names of windows that can't be served any more, and why."""
        return {name: LARGE for name, number in self.names.items() if self[number].is_too_large}


class Leases:
    """Which names have a client that is alive. A client adds to `NAME:beats` under its name; a name whose number stays
    the same for `seconds`, by the relay's clock, is taken back."""

    def __init__(self, log, seconds):
        self.log, self.seconds = log, seconds
        self.begin()

    def begin(self):
        """Gives each name a new lease."""
        self.seen, self.due = {}, time.monotonic() + self.seconds / 4

    def renew(self, requests):
        """A request is a sign of life too."""
        for _, request in requests:
            self.seen.pop(request.get(b"name", b"").decode(errors="replace"), None)

    def ended(self, names):
        """The names whose lease has ended, and why. It looks four times a lease."""
        now = time.monotonic()
        if now < self.due:
            return {}
        self.due = now + self.seconds / 4
        beats = {name.decode(errors="replace"): beat for name, beat in self.log.beats().items()}
        before, self.seen = self.seen, {}
        for name in names:
            beat, since = before.get(name, (None, now))
            self.seen[name] = (beat, since) if beat == beats.get(name) else (beats.get(name), now)
        unknown = beats.keys() - names
        if unknown:
            self.log.forget(unknown)
        return {name: LEASE for name, (_, since) in self.seen.items() if now > since + self.seconds}
