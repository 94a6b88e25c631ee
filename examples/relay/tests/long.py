#!/usr/bin/env python3
"""The relay in use for minutes, while all its parts are killed: long.py MINUTES SEED, for `.ci/long`.

Each round draws how many entries there are, --lock, --keep, --snapshot, and the relays of one name: one serves, the
others stand by, and who has ended is started again. Clients follow small windows and one with most of the entries. Then
each reply, each message that is kept and each result that a client told of is compared with a volume that took the same
changes, and which nobody killed."""
import collections, json, os, random, signal, subprocess, sys, tempfile, threading, time

from case import HERE, RELAY, SECONDS, Redis, Reference, digest, drawn

from beyond.client import Follower
from beyond.engine import START, Gone, Log
from beyond import producer
from beyond.producer import Producer
from test_large import fill

ROUND = 40  # seconds in which changes are sent
LINES = 100  # changes whose replies are awaited at a time
NAME = "t"
TAKEN_OVER, TRIED = "has taken over", "relays have ended at this request"
ACTS = ["relay", "relay", "stop", "standby", "hang", "redis", "client", "client"]


class Wrong(Exception):
    """What the relay did wrong."""


def need(is_right, *what):
    if not is_right:
        raise Wrong(" ".join(map(str, what))[:2000])


class Program:
    """A process whose output is kept in a file."""

    def __init__(self, room, words):
        self.words, self.file = words, tempfile.TemporaryFile(dir=room)
        self.process = subprocess.Popen(words, stdout=self.file, stderr=self.file)

    def said(self):
        self.file.seek(0)
        return self.file.read().decode()

    def serves(self):
        return f"serves {NAME} from" in self.said()

    def end(self, number=signal.SIGKILL):
        """Sends a signal, and waits. Returns the status."""
        self.process.send_signal(number)
        return self.process.wait(SECONDS)


class Round:
    def __init__(self, room, draw, counts):
        self.room, self.draw, self.counts = room, draw, counts
        self.entries = draw.choice([1000, 10_000, 50_000, 150_000])
        self.lock = round(draw.uniform(0.3, 3), 2)
        words = {"lock": self.lock, "keep": draw.choice([20, 400, 4000]), "snapshot": draw.choice([200, 2000, 20_000])}
        self.words = [word for name, value in words.items() for word in (f"--{name}", str(value))]
        self.standbys = draw.randint(1, 3)
        self.formulas = ["name==*.txt&&size>500", "name==a*", "MAIL:status==New", "size>300&&size<600"]
        self.large = f"size>={draw.randint(0, self.entries // 4)}"
        small = [(f"w{it}", self.formulas[it % 4], str(it // 4 % 2)) for it in range(8)]
        self.asked = [*small, ("all", self.large, "0")]
        self.folds, self.relays, self.clients = os.path.join(room, "folds"), [], []

    # ---- who runs

    def start_relay(self):
        words = [sys.executable, RELAY, "serve", "--redis", self.redis.url, NAME, "--standby", *self.words]
        self.relays.append(Program(self.room, words))

    def start_client(self, at):
        program = [sys.executable, os.path.join(HERE, "tests/clients.py"), self.redis.url, NAME, self.folds]
        asked = range(at, len(self.asked), 3)
        words = [word for it in asked for word in (str(it), *self.asked[it])]
        return Program(self.room, program + words)

    def mend(self):
        """Starts relays and clients again that have ended by themselves. A relay may have been late, so that another
        took over, or begin while there was no Redis; a client's request may have been under way where two relays were
        killed."""
        for relay in [it for it in self.relays if it.process.poll() is not None]:
            is_early = relay.process.returncode == 2 and self.redis.url in relay.said()  # or Redis still read its file
            is_late = TAKEN_OVER in relay.said()
            need(is_late or is_early, "a relay has ended:", relay.process.returncode, relay.said())
            self.counts["relays that were late, and taken over from"] += is_late
            self.counts["relays that began while there was no Redis"] += is_early
            self.relays.remove(relay)
            self.start_relay()
        for at, client in enumerate(self.clients):
            if "Traceback" in client.said():
                need(TRIED in client.said(), "a client has ended:", client.said())
                self.counts["requests that were refused after two kills"] += 1
                client.end()
                self.clients[at] = self.start_client(at)

    # ---- what happens to them

    def kill_relay(self):
        self.end_relay([it for it in self.relays if it.serves()], signal.SIGKILL, "kills of a relay")

    def kill_standby(self):
        self.end_relay([it for it in self.relays if not it.serves()], signal.SIGKILL, "kills of a standby")

    def kill_stop(self):
        self.end_relay(self.relays, signal.SIGTERM, "SIGTERM to a relay or a standby")

    def end_relay(self, relays, number, what):
        relays = [it for it in relays if it.process.poll() is None]
        if relays:
            relay = self.draw.choice(relays)
            status = relay.end(number)
            need(status in (-number, 0, 2, 3), "status", status, relay.said())
            need("Traceback" not in relay.said(), relay.said())
            self.relays.remove(relay)
            self.start_relay()
            self.counts[what] += 1

    def kill_hang(self):
        """A relay that is held for longer than its lock."""
        relay = self.draw.choice(self.relays)
        relay.process.send_signal(signal.SIGSTOP)
        time.sleep(self.lock * self.draw.uniform(0.5, 3))
        relay.process.send_signal(signal.SIGCONT)
        self.counts["relays that were held (SIGSTOP)"] += 1

    def kill_redis(self):
        self.redis.kill()
        time.sleep(self.draw.choice([0, self.draw.uniform(0, 2)]))
        self.redis.start()
        self.counts["kills of Redis"] += 1

    def kill_client(self):
        at = self.draw.randrange(len(self.clients))
        self.clients[at].end()
        self.clients[at] = self.start_client(at)
        self.counts["kills of three clients"] += 1

    def trouble(self):
        """Kills at drawn moments, until the changes have been sent."""
        pause = 0.5 + self.entries / 30_000
        try:
            while not self.is_over.wait(self.draw.uniform(0.2, 2 * pause)):
                self.mend()
                getattr(self, f"kill_{self.draw.choice(ACTS)}")()
        except Exception as error:
            self.wrong = error

    # ---- the round

    def run(self):
        self.redis = Redis(os.path.join(self.room, "redis"))
        try:
            self.log = Log(self.redis.url, NAME, lock=0.2)
            fill(self.log, self.entries)
            for _ in range(1 + self.standbys):
                self.start_relay()
            self.clients = [self.start_client(at) for at in range(3)]
            lines, replies = self.send()
            self.verify(lines, replies)
            need(not [it for it in self.redis.files() if b"\r\nMULTI\r\n" in open(it, "rb").read()], "a MULTI")
        finally:
            for each in self.relays + self.clients:
                each.process.kill()
                each.process.wait()
            self.redis.kill()
        self.counts["rounds"] += 1

    def send(self):
        """Sends changes, and has trouble meanwhile. Returns the lines and their replies."""
        self.is_over, self.wrong = threading.Event(), None
        thread = threading.Thread(target=self.trouble)
        thread.start()
        source, sent, replies, end = drawn(1_000_000, self.draw.random()), [], [], time.monotonic() + ROUND
        producer = Producer(Log(self.redis.url, NAME))
        try:
            while time.monotonic() < end and not self.wrong:
                sent += [shifted(line, self.entries) for line, _ in zip(source, range(LINES))]
                replies += producer.send(sent[len(replies) :])
                time.sleep(self.draw.choice([0, 0, 0.1]))
        finally:
            self.is_over.set()
            thread.join()
        if self.wrong:
            raise self.wrong
        self.mend()
        return sent, replies

    # ---- what has to hold

    def verify(self, lines, replies):
        found = Log(self.redis.url, NAME)
        changes = [record[b"line"] for _, record in found.forwards("changes", START)]
        need(changes == lines, "the log has other changes than were sent")
        reference = Reference()
        for number in range(self.entries):
            reference.volume.create(f"file{number:07}", size=number)
        last = {formula: digest(reference.rows(formula)) for formula in {*self.formulas, self.large}}
        told = self.told_until(lines, replies)
        wanted = self.wanted(told)
        for at, (line, reply) in enumerate(zip([None, *lines], [None, *replies])):
            if line is not None:
                need(reference.answer(line) == reply, "change", at, line, reply)
            change = reference.volume.changes
            for formula in wanted.pop(change, ()):
                last[change, formula] = digest(reference.rows(formula)), digest(reference.values(formula))
        compared = 0
        for client, change, rows, values, has_values in told:
            formula = self.asked[client][1]
            if (change, formula) in last:
                right = last[change, formula]
                need(right[0] == rows, "client", client, "at change", change, "of", formula)
                need(not has_values or right[1] == values, "values of client", client, "at change", change)
                compared += 1
        self.count(lines, compared, found)

    def count(self, lines, compared, found):
        self.counts["changes, each with its reply compared"] += len(lines)
        self.counts["results of clients compared"] += compared
        for key in found.redis.keys(f"{NAME}:window:*"):
            key = key.decode()[len(NAME) + 1 :]
            if not key.endswith("parts"):
                seqs = [json.loads(it[b"message"])["seq"] for _, it in found.forwards(key, START) if b"message" in it]
                need(seqs == [*range(seqs[0], seqs[0] + len(seqs))] if seqs else True, key, "isn't in order")
                self.counts["messages kept, in order and each once"] += len(seqs)
        self.counts["entries at the end, at most"] = max(self.counts["entries at the end, at most"], self.entries)

    def wanted(self, told):
        """The changes whose results are compared, by their formulas: all of small windows, a few of the large one."""
        wanted = collections.defaultdict(set)
        large = [it[1] for it in told if self.asked[it[0]][1] == self.large]
        for client, change, *_ in told:
            formula = self.asked[client][1]
            if formula != self.large or change in large[-1:] or self.draw.random() < 5 / len(large):
                wanted[change].add(formula)
        return wanted

    def told_until(self, lines, replies):
        """What the clients told of, once each has what a client has that begins now."""
        end, told = time.monotonic() + 6 * SECONDS, []
        last = {}
        for name, formula, has_values in {it[1]: it for it in self.asked}.values():
            follower = Follower(Log(self.redis.url, NAME), f"last {name}", formula)
            follower.log.wait_for(follower.begin)
            while follower.turn(0.2) or follower.log.read({follower.stream: follower.position}, 1):
                pass
            last[formula] = follower.change
        while time.monotonic() < end:
            self.mend()
            told = self.told()
            newest = {client: change for client, change, *_ in told}
            if all(newest.get(it, -1) >= last[formula] for it, (_, formula, _) in enumerate(self.asked)):
                return told
            time.sleep(0.3)
        raise Wrong(f"clients are late: they have {newest} of {last}: {[it.said()[-300:] for it in self.clients]}")

    def told(self):
        with open(self.folds, "a+", encoding="ascii") as file:
            file.seek(0)
            return [tuple(map(int, line.split())) for line in file if line.endswith("\n")]


def shifted(line, count):
    """A drawn line, whose nodes come after so many entries."""
    fields = json.loads(line)
    for name in "node", "dir":
        if fields.get(name, 1) > 1:
            fields[name] += count
    return json.dumps(fields).encode()


def main(minutes, seed):
    producer.SECONDS = 4 * SECONDS  # a busy machine starts a relay late
    draw, counts, end = random.Random(int(seed)), collections.Counter(), time.monotonic() + 60 * int(minutes)
    try:
        while time.monotonic() < end:
            with tempfile.TemporaryDirectory(prefix="relay-long-", ignore_cleanup_errors=True) as room:
                Round(room, draw, counts).run()
    except (Wrong, Gone, AssertionError) as wrong:
        print(f"after {counts['rounds']} rounds: {wrong}", file=sys.stderr)
        return 1
    finally:
        for what, count in counts.items():
            print(f"| relay: {what} | {count:,} |", flush=True)
    return 0


if __name__ == "__main__":
    sys.exit(main(*sys.argv[1:]))
