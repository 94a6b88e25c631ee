"""The file of Redis ends anywhere, as a kill leaves it, and Redis begins twice with what is left."""
import contextlib, json, os, shutil, subprocess, time

from case import Case, Reference, borders, settle

from yazgoulm import Volume

from beyond.client import Follower
from beyond.server import Relay
from test_load import IS_FULL

LINES = [
    {"do": "create", "name": "a.txt", "size": 5},
    {"do": "create", "name": "b.jpg", "size": 500},
    {"do": "move", "node": 2, "name": "c.txt"},
    {"do": "write", "node": 3, "size": 3},
    {"do": "remove", "node": 77},
    {"do": "write", "node": 2, "size": 6, "time": 8},
    {"do": "set", "node": 2, "attr": "MAIL:status", "type": "CSTR", "value": "New"},
    {"do": "create", "name": "d.txt", "size": 900},
    {"do": "move", "node": 3, "name": "e.txt"},
    {"do": "remove", "node": 2},
]
LOCK, EVERY = 0.01, 3


class OtherPrograms(Case):
    """Another program's transaction is torn: what the page says to do then."""

    def check_files(self):
        """There is a transaction."""

    def test_a_start_after_a_transaction_was_torn(self):
        redis = self.log.redis
        redis.set("before", 1)
        redis.pipeline().set("one", 1).set("two", 2).execute()
        self.redis.kill()
        path, = self.redis.files()
        base, size = os.path.join(self.room, "base"), os.path.getsize(path)
        shutil.copytree(self.redis.room, base)
        for mend in self.check, self.rewrite:
            for back in 3, 20, 40, 60:
                with self.subTest(mend=mend.__name__, back=back):
                    shutil.rmtree(self.redis.room)
                    shutil.copytree(base, self.redis.room)
                    os.truncate(path, size - back)
                    with mend():
                        self.redis.start()
                    log = self.new_log()
                    places = log.append("changes", [{"line": "1"}, {"line": "2"}])
                    self.redis.kill()
                    self.redis.start()
                    self.assertEqual([position for position, _ in self.records("changes", self.new_log())], places)
                    self.assertEqual({*self.new_log().redis.keys()}, {b"before", b"t:changes"})
                    self.redis.kill()
        self.redis.start()

    @contextlib.contextmanager
    def check(self):
        """Before the start."""
        words = ["redis-check-aof", "--fix", os.path.join(self.redis.room, "appendonlydir/appendonly.aof.manifest")]
        subprocess.run(words, input="y\n", text=True, check=True, stdout=subprocess.DEVNULL)
        yield

    @contextlib.contextmanager
    def rewrite(self):
        """Right after the start."""
        yield
        redis = self.new_log().redis
        redis.bgrewriteaof()
        while {"aof_rewrite_in_progress", "aof_rewrite_scheduled"} & {
                word for word, it in redis.info("persistence").items() if it == 1}:
            time.sleep(0.01)


class Expired(Case):
    def test_a_stream_whose_time_has_passed(self):
        """The last batch is written again, into a stream that Redis hasn't deleted yet: the file has no MULTI."""
        relay = Relay(self.new_log(lock=LOCK), EVERY)
        relay.begin()
        self.log.append("windows", [{"name": "w", "query": "name==*.txt"}, {"name": "w"}])
        settle(relay)
        self.log.redis.execute_command("DEBUG", "SET-ACTIVE-EXPIRE", 0)  # it deletes a stream where it is asked for alone
        for _ in range(2):
            self.log.redis.pexpire("t:window:1", 1)
            Relay(self.new_log(lock=LOCK), EVERY).begin()
            self.assertEqual(len(self.records("window:1")), 2)


class Reader(Follower):
    """A client of a window whose number is known, so that no relay has to answer meanwhile."""

    def ask(self, **more):
        return self.name


class Torn(Case):
    def setUp(self):
        super().setUp()
        self.run_relays()
        self.redis.kill()
        self.path, = self.redis.files()
        self.base = os.path.join(self.room, "base")
        shutil.copytree(self.redis.room, self.base)

    def new_relay(self):
        relay = Relay(self.new_log(lock=LOCK), EVERY)
        relay.begin()
        return relay

    def run_relays(self):
        """Two relays, one after the other, with windows, some batches, and snapshots."""
        relay = self.new_relay()
        self.log.append("windows", [{"name": "w", "query": "name==*.txt"},
                                    {"name": "x", "query": "name==*.txt", "values": "1"}])
        for number in range(0, len(LINES), 2):
            if number == 4:
                relay = self.new_relay()
                self.log.append("windows", [{"name": "v", "query": "size<10"}, {"name": "w"}])
            self.add(*LINES[number : number + 2])
            settle(relay)

    def add(self, *lines):
        return self.log.append("changes", [{"line": json.dumps(line)} for line in lines])

    def cuts(self, size):
        """Where the file is cut: at each end of a command, a byte to each side, and within the next."""
        if IS_FULL:
            return range(size + 1)
        ends = [0, *borders(self.path)]
        near = {end + by for end in ends for by in (-1, 0, 1)} | {sum(it) // 2 for it in zip(ends, ends[1:])}
        return sorted(it for it in near if 0 <= it <= size)

    def test_the_file_ends_anywhere(self):
        size = os.path.getsize(self.path)
        cuts = self.cuts(size)
        for cut in cuts:
            shutil.rmtree(self.redis.room)
            shutil.copytree(self.base, self.redis.room)
            os.truncate(self.path, cut)
            try:
                self.start_twice()
            except Exception:
                print(f"the file of {size} bytes was cut at {cut}", flush=True)
                raise
        print(f"the file of {size} bytes was cut at {len(cuts)} places", flush=True)

    def start_twice(self):
        acknowledged = []
        for number in 1, 2:
            self.redis.start()
            try:
                self.log = self.new_log()
                there = [position for position, _ in self.records("changes")]
                self.assertEqual(there[len(there) - len(acknowledged) :], acknowledged)
                relay = self.new_relay()
                acknowledged += self.add({"do": "create", "name": f"new{number}.txt"})
                settle(relay)
                acknowledged += self.add({"do": "create", "name": f"newer{number}.txt", "size": 4})
                settle(relay)
                self.verify(relay)
                self.check_files()
            finally:
                self.redis.kill()

    def verify(self, relay):
        """Each change has one reply, each window all its messages once, and a client has what a fetch finds."""
        changes = self.records("changes")
        lines, reference = [record[b"line"] for _, record in changes], Reference()
        replies = [(record[b"of"], json.loads(record[b"reply"])) for _, record in self.records("replies")]
        self.assertEqual(replies, [(place, reference.answer(line)) for (place, _), line in zip(changes, lines)])
        requests = [position for position, _ in self.records("windows")]
        self.assertEqual([record[b"of"] for _, record in self.records("opened")], requests)
        for window in relay.windows.values():
            found = [json.loads(message) for message in self.messages(window.number)]
            expected = self.expected(lines, window.formula, window.opened, window.has_values)
            self.assertEqual([(it["seq"], it["change"], it["op"], it["name"]) for it in found], expected)
            reader = Reader(self.log, window.number, window.formula, has_values=window.has_values)
            reader.begin()
            reader.turn(0)
            self.assertEqual(reader.rows, reference.rows(window.formula))
            self.verify_values(reader, reference)

    def verify_values(self, reader, reference):
        """Sizes and times are those of the reference, and so is each attribute that was told of."""
        wanted = reference.values(reader.formula) if reader.has_values else {}
        found = {node: (row["size"], row["last_modified"]) for node, row in reader.values.items()}
        self.assertEqual(found, wanted)
        for node, row in reader.values.items():
            for attr in row.keys() - {"size", "last_modified"}:
                self.assertEqual(row[attr], reference.value(node, attr))

    def expected(self, lines, formula, opened, has_values):
        """What a query has as messages that was opened after so many lines."""
        volume = Volume()
        for line in lines[:opened]:
            volume.answer(line)
        query = volume.open(formula, backlog=100, moved=True, values=has_values)
        for line in lines[opened:]:
            volume.answer(line)
        return [(it.seq, it.change, str(it.op), it.name) for it in query]
