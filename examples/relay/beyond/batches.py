"""The log of batches, and all that the relay alone writes.

A batch is one entry of `NAME:log`: up to where the relay has taken the changes and the requests. All else that the
relay writes follows from it, the changes and the requests, and is written after it: what a death leaves out, the next
beginning writes. README.md has the order. No write is a transaction of two commands, since Redis may leave half of one
in its file."""
import collections, time, uuid

import redis

from . import ENDED, UNUSABLE, Trouble, reading
from .engine import NOBODY, START, Gone, order, reaches
from .opening import parts_of
from .pulse import Pulse

ANSWERS = 10_000  # records that `replies` and `opened` keep
ENDED_WINDOW = 3600  # seconds that the stream of a window stays after its mark
NOTHING = {"taken": 0, "applied": START, "change": 0, "heard": 0, "asked": START}  # the fields before the first batch
STOPPING = 5  # seconds that a relay which is stopped waits for Redis
STANDS = "equal or smaller"  # how Redis refuses a record that it has
AT_ONCE = 500_000  # bytes that are sent before the answers are awaited
OPENINGS = 4  # openings whose parts are kept


class Overtaken(Trouble):
    """Another relay has appended to the log."""

    def __init__(self, name):
        super().__init__(f"another relay has taken over {name}", ENDED)


class Batches:
    """The log of batches as one relay knows it, up to its entry `end`. It writes only where the log ends there."""

    def __init__(self, log):
        self.log, self.key, self.me = log, log.key, uuid.uuid4().hex.encode()
        self.last = "XREVRANGE", self.key("log"), "+", "-", "COUNT", 1
        self.end, self.beaten, self.pulse = START, 0.0, Pulse(log, self.me)

    # ---- one relay at a time

    def take(self, is_standby=False):
        """Becomes the relay that serves: where none does, the one before was stopped, or it gives no sign of life for
        `lock` seconds. The batch without changes that this appends stops all other relays."""
        seen, since = None, 0.0
        while True:
            now = time.monotonic()  # before the look: where this is held up after it, there may be a newer sign
            last, beat = self.log.before("log", b"+", 1), self.last_beat()
            is_alive = seen not in (None, (last, beat))
            if seen != (last, beat):
                seen, since = (last, beat), time.monotonic()
            serves = last[0][1].get(b"relay") if last else None
            self.pulse.step("the beginning")
            if serves in (None, NOBODY, self.me) or now > since + self.log.lock:
                if self.follow(last):
                    return
            elif is_alive and not is_standby:
                raise Trouble(f"another relay serves {self.log.name}", UNUSABLE)
            time.sleep(self.log.lock / 20)

    @reaches
    def last_beat(self):
        return self.log.redis.hget(self.key("life"), "beat")

    def follow(self, last):
        """Appends a batch without changes after the last one. Returns whether no other relay was faster."""
        fields = {**NOTHING}
        if last:
            self.end, found = last[0]
            with reading(f"the last entry of {self.key('log')}"):
                fields = state_of(found)
        else:
            self.end = START
            self.check_version()
        try:
            self.append(fields)
        except Overtaken:
            return False
        self.beaten = 0.0
        return True

    @reaches
    def check_version(self):
        """Version 0.1.0 kept what was taken in `NAME:state`, and has answered the changes."""
        if self.log.redis.exists(self.key("state")):
            raise Trouble(f"{self.log.name} has keys of version 0.1.0: send its entries under another name", UNUSABLE)

    def step(self, name):
        """Notes that this relay makes progress, and at what it is; Overtaken where another one has taken over."""
        self.pulse.step(name)
        if self.pulse.is_overtaken:
            self.pulse.is_overtaken = False
            self.check_again()

    def beat(self, fields, is_due=False):
        """A sign of life between two turns, where a second or a third of `lock` has passed since the last one. `fields`
        gives what it says. An idle relay finds here that another one has taken over."""
        if not is_due and time.monotonic() < self.beaten + min(self.log.lock / 3, 1):
            return
        now = self.check_again()
        fields = {"beat": self.pulse.beat(), "at": now, **fields()}
        words = (word for field in fields.items() for word in field)
        self.accepted(self.log.send(("HSET", self.key("life"), *words)))
        self.beaten = time.monotonic()

    @reaches
    def release(self, tried=()):
        """Gives its place away: appends a batch of nobody's, after which another relay begins at once. It has a
        connection of its own, since this may come in the middle of a command. The requests that it `tried` are not what
        ends it."""
        with redis.Redis.from_url(self.log.url, socket_timeout=STOPPING).pipeline() as pipe:
            pipe.watch(self.key("log"))
            if tried:
                pipe.hdel(self.key("tries"), *tried)
            for position, fields in pipe.xrevrange(self.key("log"), count=1):
                if fields.get(b"relay") == self.me:
                    pipe.multi()
                    fields = {**state_of(fields), "relay": NOBODY}
                    pipe.xadd(self.key("log"), fields, f"{order(position)[0] + 1}-0")
                    pipe.execute()

    # ---- what it writes

    @reaches
    def accepted(self, answers):
        """The answers of Redis. A refusal is Trouble."""
        for answer in answers:
            if isinstance(answer, redis.ResponseError):
                raise answer
        return answers

    def fenced(self, command):
        """Does one command, where the log still ends as this relay knows. `command` gives it for the time by Redis.

        Redis writes a transaction of one command without MULTI, so its file has the command whole or not at all."""
        log = self.key("log")
        *_, last, now = self.log.send(("UNWATCH",), ("WATCH", log), self.last, ("TIME",))
        command = command(self.check(last, now))
        *_, done = self.accepted(self.log.send(("MULTI",), command, ("EXEC",)))
        if done is None:
            self.check_again()
            raise Gone(f"{log} was written while this relay wrote")
        return self.accepted(done)[0]

    def check(self, last, now):
        """Sees that the log ends as this relay knows. Returns the time by Redis, in milliseconds."""
        self.accepted([last, now])
        end = last[0][0] if last else START
        if order(end) > order(self.end):
            raise Overtaken(self.log.name)
        if end != self.end:
            raise Gone("the log ends earlier than before")
        return 1000 * int(now[0]) + int(now[1]) // 1000

    def check_again(self):
        return self.check(*self.log.send(self.last, ("TIME",)))

    def append(self, fields):
        """Appends a batch. Its number is the time by Redis in milliseconds: after a loss none is given again. Two
        batches are a millisecond apart."""

        def command(now):
            number = max(now, order(self.end)[0] + 1)
            words = [word for field in fields.items() for word in field]
            return "XADD", self.key("log"), f"{number}-0", "relay", self.me, *words

        since = time.monotonic()
        self.end = self.fenced(command)
        time.sleep(max(0.0, since + 0.001 - time.monotonic()))

    def derive(self, batch, records, is_again=False):
        """Appends what a batch gives, with the IDs BATCH-1, BATCH-2 .. in each stream. At a beginning it is written
        again, and Redis refuses the records that it has."""
        commands = [*self.commands(batch, records)]
        if is_again:  # a stream whose time has passed goes by a command of its own, not in a transaction with XADD
            commands = [("EXISTS", key) for key in {key for _, key, *_ in commands}] + commands
        for part in pipelines(commands):
            self.step("the writes of a batch")
            for command, answer in zip(part, self.log.send(*part)):
                if STANDS not in str(answer):
                    self.accepted([answer])
                elif not is_again:
                    self.check_again()
                    raise Trouble(f"{command[1]} has an entry that this relay hasn't written", ENDED)

    def commands(self, batch, records):
        totals, counts = collections.Counter(stream for stream, _ in records), collections.Counter()
        for stream, record in records:
            counts[stream] += 1
            keep = self.log.keep
            if stream in ("replies", "opened"):
                keep = ANSWERS
            elif "part" in record:
                keep = OPENINGS * totals[stream]
            words = [word for field in record.items() for word in field]
            yield "XADD", self.key(stream), "MAXLEN", keep, f"{order(batch)[0]}-{counts[stream]}", *words
            if "mark" in record:
                for each in stream, parts_of(stream):
                    yield "EXPIRE", self.key(each), ENDED_WINDOW

    # ---- the snapshot

    def write_snapshot(self, pieces):
        """Writes a snapshot beside the one that stands, and puts it in place."""
        new = self.key("snapshot:new")
        self.fenced(lambda _: ("DEL", new))
        for piece in pieces:
            self.step("a piece of a snapshot")
            self.fenced(lambda _, piece=piece: ("RPUSH", new, piece))
        self.fenced(lambda _: ("RENAME", new, self.key("snapshot")))

    def snapshot(self):
        """The pieces of the snapshot, one at a time."""
        at = 0
        while piece := self.piece(at):
            yield piece
            at += 1

    @reaches
    def piece(self, at):
        return self.log.redis.lindex(self.key("snapshot"), at)


def state_of(batch):
    """The fields of a batch that say up to where all was taken."""
    more = {"skipped": batch[b"skipped"]} if b"skipped" in batch else {}
    return {**{field: batch[field.encode()] for field in NOTHING}, **more}


def pipelines(commands):
    """The commands in order, AT_ONCE bytes or so at a time."""
    part, size = [], 0
    for command in commands:
        part.append(command)
        size += sum(len(word) for word in command if isinstance(word, (bytes, str)))
        if size > AT_ONCE:
            yield part
            part, size = [], 0
    if part:
        yield part
