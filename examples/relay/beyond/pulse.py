"""Signs of life of a relay, by a thread of their own."""
import itertools, threading, time

from . import Trouble
from .engine import Gone, Log

HUNG = 60.0  # seconds without progress, after which a relay gives no sign of life


class Pulse:
    """Gives a sign of life each sixth of `lock`, or each second, while the log is this relay's and the relay makes
    progress: `step` notes that it does, and at what it is. So no step of the relay holds the signs up, however long it
    takes up to HUNG, and a relay that hangs isn't taken for a live one.

    Its connection is its own. An engine that has gone is the relay's to find out."""

    def __init__(self, log, me):
        self.log, self.me, self.taken, self.count = Log(log.url, log.name, lock=log.lock), me, 0, itertools.count(1)
        self.every, self.is_overtaken, self.is_hung = min(log.lock / 6, 1), False, False
        self.step("the beginning")

    def step(self, name):
        """The relay makes progress."""
        self.at, self.since = name, time.monotonic()

    def start(self, warn):
        """Gives signs from now on, until the program ends."""
        threading.Thread(target=self.run, args=(warn,), daemon=True).start()

    def run(self, warn):
        while True:
            time.sleep(self.every)
            try:
                self.sign(warn)
            except (Gone, Trouble):
                pass

    def sign(self, warn):
        """Gives a sign, if one may be given. Says so where the relay begins to hang."""
        last = self.log.before("log", b"+", 1)
        is_mine = bool(last) and last[0][1].get(b"relay") == self.me
        self.is_overtaken = not is_mine
        was_hung, self.is_hung = self.is_hung, is_mine and time.monotonic() > self.since + HUNG
        if self.is_hung and not was_hung:
            warn(f"no progress for {HUNG:g} s at {self.at}: no more signs of life")
        if is_mine and not self.is_hung:
            self.log.sign(self.beat(), self.taken)

    def beat(self):
        """A word that no sign had before."""
        return f"{self.me.decode()} {next(self.count)}"
