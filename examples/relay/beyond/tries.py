"""Which requests the relays were at that have ended: a request that has ended two relays isn't tried again."""
from . import reading
from .engine import order

MOST = 2  # relays that a request may end


class Tries:
    """Before a relay carries out requests, it notes itself beside each in `NAME:tries`; once all that they give is
    written, or the relay was stopped, that goes. What is there at a beginning are requests at which relays have ended.
    Then this relay takes one request at a time, so that it finds the one that ends it, and no other is refused."""

    def __init__(self, log, me):
        self.log, self.me, self.ended, self.noted = log, me, {}, []

    def begin(self, asked):
        """Finds at which requests after the last one that was taken other relays have ended."""
        found = {position: {*names.split()} - {self.me} for position, names in self.log.tries().items()}
        with reading(self.log.key("tries")):
            self.ended = {it: names for it, names in found.items() if names and order(it) > order(asked)}

    def next(self, requests):
        """Those of these requests that are taken at a time."""
        return requests[:1] if self.ended else requests

    def refused(self, requests):
        """The positions of those that have ended too many relays."""
        return [position for position, _ in requests if len(self.ended.get(position, ())) >= MOST]

    def note(self, requests):
        """This relay begins with these requests."""
        self.noted = [position for position, _ in requests]
        if self.noted:
            self.log.note_tries({it: b" ".join([*sorted(self.ended.get(it, ())), self.me]) for it in self.noted})

    def done(self):
        """It has written all that they give."""
        if self.noted:
            self.log.forget_tries(self.noted)
            self.ended = {it: names for it, names in self.ended.items() if order(it) > order(self.noted[-1])}
            self.noted = []
