"""The relay in small: what it refuses, where it dies, who may write, what a restart gives, what a client is told."""
import json, os, shutil, subprocess, time

from case import EVERY, HERE, RELAY, SECONDS, Case, Reference, drawn, formulas, listing, settle

import redis

from beyond import Trouble
from beyond.client import Follower
from beyond.engine import DEBIAN, Gone
from beyond.producer import Producer
from beyond.server import Relay

MOVED = b'{"do":"create","name":"a.txt"}', b'{"do":"move","node":2,"name":"b.txt"}', b'{"do":"remove","node":2}'
LONG = 10  # seconds that a lock stands where it has to be kept, also on a busy machine


class Refusals(Case):
    def test_damaged_entries(self):
        lines = {
            b"": 33,
            b"{": 32,
            b'{"do":"create","name":"\xff"}': 31,
            b'{"do":"creat","name":"a"}': 33,
            b'{"do":"create","name":"' + b"a" * 70_000 + b'"}': 30,
            b"a" * 70_000: 30,
            b"[" * 60_000: 32,
            b'["do"]': 33,
            b'{"do":["create"]}': 33,
            b'{"do":"open","query":"size>1","port":4,"backlog":16}': 33,
            b'{"do":"fetch","query":"size>"}': 33,
            b'{"do":"create","do":"open","query":"size>1","port":4,"backlog":16,"name":"a"}': 33,
            b'{"do":"create","name":"a/b"}': 1,
            b'{"do":"remove","node":77}': 2,
            b'{"do":"create","name":"good"}': None,
        }
        relay = Relay(self.log, EVERY)
        relay.begin()
        places = self.send(lines)
        places += self.log.append("changes", [{"other": b"field"}, {"line": MOVED[0]}])
        settle(relay)
        replies = [(record[b"of"], json.loads(record[b"reply"])) for _, record in self.records("replies")]
        self.assertEqual([place for place, _ in replies], places)
        self.assertEqual([reply.get("code") for _, reply in replies], [*lines.values(), 33, None])
        self.assertEqual(replies[-1][1], {"change": 2, "node": 3})

    def test_requests(self):
        relay = Relay(self.log, EVERY)
        relay.begin()
        asks = [
            ({"name": "one", "query": "name==*.txt"}, {"window": 1}),
            ({"name": "two", "query": "name==*.txt"}, {"window": 1}),
            ({"name": "three", "query": "size>"}, {"code": 20, "error": "BadQuery at 5"}),
            ({"name": "three", "query": b"\xff"}, {"code": 33, "error": "BadLine"}),
            ({"query": "size>5"}, {"code": 33, "error": "BadLine"}),
            *(({"name": "more", "query": f"size>{size}"}, {"window": 2 + size}) for size in range(70)),
            ({"name": "one"}, {}),
            ({"name": "none"}, {}),
            ({"name": "two"}, {}),
        ]
        self.log.append("windows", [ask for ask, _ in asks])
        settle(relay)
        replies = [json.loads(record[b"reply"]) for _, record in self.records("opened")]
        self.assertEqual(replies, [reply for _, reply in asks])
        marks = [record for _, record in self.records("window:1") if b"mark" in record]
        self.assertEqual(len(marks), 1)
        self.assertEqual([it.formula for it in relay.windows.values()], ["size>69"])

    def test_there_are_64_formulas(self):
        relay = Relay(self.log, EVERY)
        relay.begin()
        self.log.append("windows", [{"name": str(size), "query": f"size>{size}"} for size in range(65)])
        settle(relay)
        self.assertEqual(json.loads(self.records("opened")[-1][1][b"reply"]), {"code": 23, "error": "NoSlot"})


class Death(BaseException):
    """Stands for a kill."""


class Deaths(Case):
    """A relay that dies at each command that it sends to the engine: before it is sent, and before its answer comes."""

    def die_at(self, number, is_sent):
        """Has this process die at the command of this number, from now on."""
        send, left = redis.connection.Connection.send_packed_command, [number]

        def send_or_die(connection, command, *words, **named):
            left[0] -= 1
            if left[0] == 0 and not is_sent:
                raise Death()
            send(connection, command, *words, **named)
            if left[0] == 0:
                connection.read_response()
                raise Death()

        redis.connection.Connection.send_packed_command = send_or_die
        return lambda: setattr(redis.connection.Connection, "send_packed_command", send)

    def run_to_death(self, name, number, is_sent):
        """Whether a relay dies at this command; without one it takes all that is there."""
        relay = Relay(self.new_log(name, lock=0.02), 2)
        restore = self.die_at(number, is_sent)
        try:
            relay.begin()
            settle(relay)
        except Death:
            return True
        finally:
            restore()
        return False

    def test_a_death_at_each_command(self):
        for is_sent in (False, True):
            number, dies = 0, True
            while dies and number < 300:
                number += 1
                name = f"{is_sent}-{number}"
                log = self.new_log(name, lock=0.02)
                log.append("windows", [{"name": "w", "query": "name==*.txt"}])
                places = log.append("changes", [{"line": line} for line in MOVED[:2]])
                dies = self.run_to_death(name, number, is_sent)
                places += log.append("changes", [{"line": MOVED[2]}])
                with self.subTest(number=number, is_sent=is_sent):
                    relay = Relay(log, 2)
                    relay.begin()
                    settle(relay)
                    self.assertEqual([record[b"of"] for _, record in self.records("replies", log)], places)
                    messages = [json.loads(message) for message in self.messages(1, log)]
                    self.assertEqual([(it["seq"], it["change"]) for it in messages], [(1, 1), (2, 2), (3, 3)])
            self.assertGreater(number, 8)
            self.assertFalse(dies)


class Locks(Case):
    def test_the_second_relay_says_so(self):
        self.serve("--lock", str(LONG))
        status, out, error = self.run_relay("serve", "t", "--lock", str(LONG))
        self.assertEqual((status, out, error), (2, "", "relay: another relay serves t\n"))

    def test_a_relay_that_was_taken_over_writes_nothing(self):
        old, new = Relay(self.new_log(lock=60), EVERY), Relay(self.new_log(), EVERY)
        old.begin()
        self.send(MOVED[:1])
        settle(old)
        new.begin()
        self.send(MOVED[1:])
        with self.assertRaisesRegex(Trouble, "another relay has taken over t"):
            settle(old)
        self.assertEqual(len(self.records("replies")), 1)
        settle(new)
        self.assertEqual(len(self.records("replies")), 3)

    def test_a_relay_that_was_taken_over_within_a_batch_doubles_nothing(self):
        """It was stopped after it had appended the batch, and before it wrote what the batch gives."""
        old, new = Relay(self.new_log(), EVERY), Relay(self.new_log(), EVERY)
        old.begin()
        self.log.append("windows", [{"name": "w", "query": "name==*.txt"}])
        self.send(MOVED[:2])
        derive = old.batches.derive

        def derive_late(*given):
            new.begin()
            self.send(MOVED[2:])
            settle(new)
            derive(*given)

        old.batches.derive = derive_late
        self.assert_trouble("another relay has taken over t", old.turn)
        self.assertEqual(len(self.records("replies")), 3)
        self.assertEqual([json.loads(it)["seq"] for it in self.messages(1)], [1, 2, 3])

    def test_two_relays_that_begin_at_once(self):
        """The slower one says that another serves, and the faster one isn't disturbed."""
        first, second = Relay(self.new_log(), EVERY), Relay(self.new_log(), EVERY)
        look = second.batches.last_beat

        def look_late():
            second.batches.last_beat = look
            first.begin()
            return look()

        second.batches.last_beat = look_late
        self.assert_trouble("another relay serves t", second.begin)
        self.send(MOVED)
        settle(first)
        self.assertEqual(len(self.records("replies")), 3)

    def test_an_idle_relay_sees_that_it_was_taken_over(self):
        old, new = Relay(self.new_log(), EVERY), Relay(self.new_log(), EVERY)
        old.begin()
        new.begin()
        with self.assertRaisesRegex(Trouble, "another relay has taken over t"):
            old.turn()

    def test_a_relay_gives_signs_of_life_while_nothing_comes(self):
        relay, other = Relay(self.new_log(lock=LONG), EVERY), self.new_log()
        relay.begin()
        for _ in range(3):
            relay.turn()
            self.assertLess(other.life()["age"], LONG * 0.7)


class Restarts(Case):
    """A relay that begins again has the same volume and windows, and writes the same."""

    def drive(self, name, parts, every, **again):
        """Takes the parts of the lines, each by a relay of its own, and windows before each. Returns the last relay."""
        log, asked = self.new_log(name, lock=0.02), formulas(len(parts) * 5)
        for part in parts:
            relay = Relay(log, every, **again)
            relay.begin()
            log.append("windows", [{"name": query, "query": query} for query, _ in zip(asked, range(5))])
            for at in range(0, len(part), 30):
                log.append("changes", [{"line": line} for line in part[at : at + 30]])
                settle(relay)
        return relay

    def test_restarts_give_the_same(self):
        lines = [*drawn(900, 1)]
        parts = [lines[:300], lines[300:600], lines[600:]]
        found = []
        for name, every, is_whole in ("start", EVERY, False), ("snapshot", 70, False), ("whole", 70, True):
            relay = self.drive(name, parts, every, is_whole=is_whole)
            windows = [(it.seq, it.change, it.query.result().entries) for it in relay.windows.values()]
            messages = [self.messages(number, relay.log) for number in relay.windows]
            replies = [record[b"reply"] for _, record in self.records("replies", relay.log)]
            found.append((listing(relay.volume), relay.change, windows, messages, replies))
        self.assertGreater(len(found[0][3][0]), 100)
        for other in found[1:]:
            for one, two in zip(found[0], other):
                self.assertEqual(one, two)

    def test_a_snapshot_of_another_version(self):
        """It is passed over, with a word on it: all changes are there."""
        relay, told = self.drive("t", [[*drawn(90, 2)]], 30), []
        self.assertTrue(self.log.redis.exists("t:snapshot"))
        self.log.redis.delete("t:snapshot")
        self.log.redis.rpush("t:snapshot", '{"batch":"0-0","nodes":1,"taken":0,"change":0}', "[]", "0")
        again = Relay(self.new_log(lock=0.02), EVERY, warn=told.append)
        again.begin()
        self.assertEqual(told, ["t:snapshot is of another version: begins at the first change"])
        self.assertEqual((listing(again.volume), again.change), (listing(relay.volume), relay.change))

    def test_a_stream_that_differs_stops_it(self):
        relay = self.drive("t", [[*drawn(60, 2)]], EVERY)
        number, seq = max((number, it.seq) for number, it in relay.windows.items() if it.seq)
        self.log.redis.xadd(f"t:window:{number}", {"message": json.dumps({"seq": seq + 1})})
        with self.assertRaisesRegex(Trouble, f"t:window:{number} differs from the changes"):
            Relay(self.new_log(), EVERY).begin()

    def test_a_relay_that_knows_another_end_writes_nothing(self):
        relay = self.drive("t", [[*drawn(60, 2)]], EVERY)
        self.log.redis.xdel("t:log", self.log.end("log"))
        self.send(MOVED)
        with self.assertRaisesRegex(Gone, "the log ends earlier"):
            settle(relay)
        self.assertEqual(len(self.records("replies")), 60)

    def test_changes_that_are_missing_stop_it(self):
        self.drive("t", [[*drawn(60, 2)]], EVERY)
        self.log.redis.xtrim("t:changes", maxlen=30, approximate=False)
        with self.assertRaisesRegex(Trouble, "the changes of t differ from its log"):
            Relay(self.new_log(), EVERY).begin()


class Clients(Case):
    def follower(self, formula, name="w"):
        follower = Follower(self.new_log(), name, formula, lambda _, why: self.told.append(why))
        self.told = []
        follower.begin()
        self.assertEqual(self.told, [None])
        return follower

    def produce(self, lines):
        """Sends lines, also to the reference, and waits for their replies."""
        self.assertEqual(self.producer.send(lines), [self.reference.answer(line) for line in lines])

    def setUp(self):
        super().setUp()
        self.producer, self.reference = Producer(self.log), Reference()

    def assert_same(self, follower):
        """The client's fold is what a fetch finds now."""
        follower.turn(0)
        self.assertTrue(follower.is_settled)
        self.assertEqual(follower.rows, self.reference.rows(follower.formula))

    def test_a_client_that_joins_late(self):
        self.serve()
        lines = [*drawn(300, 3)]
        self.produce(lines[:100])
        first = self.follower("name==*.txt")
        self.produce(lines[100:200])
        second = self.follower("name==*.txt", "w2")
        self.assert_same(second)
        self.produce(lines[200:])
        self.assert_same(first)
        self.assert_same(second)
        self.assertEqual(first.stream, second.stream)
        self.assertEqual(first.seq, second.seq)

    def test_a_slow_client_past_the_trimmed_end_is_told(self):
        self.serve("--keep", "40")
        lines = [*drawn(600, 4)]
        slow = self.follower("name==*.txt")
        quick = self.follower("name==*.txt", "w2")
        self.produce(lines[:30])
        self.assert_same(slow)
        for at in range(30, 600, 30):
            self.produce(lines[at : at + 30])
            self.assert_same(quick)
        self.assertEqual(self.told, [None])
        slow.turn(0)
        self.assertEqual(len(self.told), 2)
        self.assertIn("isn't kept", self.told[1])
        self.assert_same(slow)

    def test_a_log_that_ends_earlier(self):
        """As after a loss of the last second: the relay and a client that is ahead begin anew from what is there."""
        relay = self.serve()
        lines = [*drawn(400, 5)]
        ahead, kept = self.follower("name==*.txt"), os.path.join(self.room, "kept")
        self.produce(lines[:100])
        self.assert_same(ahead)
        shutil.copytree(self.redis.room, kept)
        self.produce(lines[100:200])
        self.assert_same(ahead)
        at = ahead.change
        self.redis.kill()
        shutil.rmtree(self.redis.room)
        shutil.move(kept, self.redis.room)
        self.redis.start()
        self.assertRegex(relay.stdout.readline(), "serves t from change [0-9]+, with 1 windows")

        self.reference = Reference()
        for line in lines[:100]:
            self.reference.answer(line)
        self.assertLess(self.reference.volume.changes, at)
        self.produce(lines[200:])
        with self.assertRaises(Gone):
            ahead.turn(0)
        ahead.resume()
        self.assertEqual(len(self.told), 2)
        self.assertIn(f"the record of change {at} isn't kept", self.told[1])
        self.assert_same(ahead)


class Values(Case):
    """Windows with values, beside windows of the same formula without."""

    def setUp(self):
        super().setUp()
        self.relay = Relay(self.log, EVERY)
        self.relay.begin()

    def done(self, *lines):
        """Lines that are taken as one batch."""
        self.send([json.dumps(line).encode() for line in lines])
        settle(self.relay)

    def test_values_beside_messages(self):
        status = {"do": "set", "node": 2, "attr": "MAIL:status", "type": "CSTR", "value": "New"}
        self.done({"do": "create", "name": "a", "size": 5}, {"do": "create", "name": "b", "size": 1})
        self.log.append("windows", [{"name": "plain", "query": "size>1"},
                                    {"name": "values", "query": "size>1", "values": "1"}])
        settle(self.relay)
        follower = Follower(self.new_log(), "values", "size>1", has_values=True)
        follower.ask = lambda **_: 2
        follower.begin()
        self.assertEqual((follower.rows, follower.values), ({2: (1, "a")}, {2: {"size": 5, "last_modified": 0}}))
        self.done({"do": "write", "node": 2, "size": 7, "time": 8}, status, {"do": "write", "node": 2, "size": 9})
        follower.turn(0)
        wanted = {2: {"size": 9, "last_modified": 0, "MAIL:status": "New"}}
        self.assertEqual((follower.values, follower.at, follower.change), (wanted, 5, 5))
        self.done({**status, "type": "ULLG", "value": 2**64 - 1}, {"do": "write", "node": 3, "size": 2})
        follower.turn(0)
        wanted[2]["MAIL:status"], wanted[3] = 2**64 - 1, {"size": 2, "last_modified": 0}
        self.assertEqual((follower.values, follower.at), (wanted, 7))
        self.done({"do": "unset", "node": 2, "attr": "MAIL:status"}, {"do": "write", "node": 3, "size": 8},
                  {"do": "remove", "node": 3})
        follower.turn(0)
        self.assertEqual(follower.values, {2: {"size": 9, "last_modified": 0}})
        found = [json.loads(record.get(b"values", b"null")) for _, record in self.records("window:2")
                 if b"message" in record]
        at_5 = {"at": 5, "size": 9, "time": 0}
        self.assertEqual(found, [
            at_5, {**at_5, "type": "CSTR", "value": "New"}, at_5,
            {"at": 7, "size": 9, "time": 0, "type": "ULLG", "value": 2**64 - 1}, {"at": 7, "size": 2, "time": 0},
            {"at": 10, "size": 9, "time": 0, "type": None, "value": None}, None, None])  # of an entry that has gone
        ops = [(it["change"], it["op"], it["node"], it.get("attr")) for it in map(json.loads, self.messages(2))]
        self.assertEqual(ops, [
            (3, "B_STAT_CHANGED", 2, None), (4, "B_ATTR_CHANGED", 2, "MAIL:status"), (5, "B_STAT_CHANGED", 2, None),
            (6, "B_ATTR_CHANGED", 2, "MAIL:status"), (7, "B_ENTRY_CREATED", 3, None),
            (8, "B_ATTR_CHANGED", 2, "MAIL:status"), (9, "B_STAT_CHANGED", 3, None), (10, "B_ENTRY_REMOVED", 3, None)])

    def test_records_without_values_are_as_they_were(self):
        self.log.append("windows", [{"name": "plain", "query": "size>1"}])
        settle(self.relay)
        self.done({"do": "create", "name": "a", "size": 5}, {"do": "write", "node": 2, "size": 7},
                  {"do": "set", "node": 2, "attr": "x", "type": "LONG", "value": 1}, {"do": "remove", "node": 2})
        place = b'"dir":1,"last":true,"name":"a","node":2'
        self.assertEqual([record for _, record in self.records("window:1")][:3], [
            {b"opening": b'{"change":0,"result":[],"seq":0}'},
            {b"message": b'{"change":1,%b,"op":"B_ENTRY_CREATED","seq":1,"what":"B_QUERY_UPDATE"}' % place},
            {b"message": b'{"change":4,%b,"op":"B_ENTRY_REMOVED","seq":2,"what":"B_QUERY_UPDATE"}' % place}])

    def test_restarts_keep_them(self):
        """From a snapshot and from the first change: the same records, and a client that goes on."""
        found = []
        for name, every, is_whole in ("s", 3, False), ("w", EVERY, True):
            log = self.new_log(name, lock=0.02)
            for number in range(12):
                relay = Relay(log, every, is_whole=is_whole)
                relay.begin()
                if number == 0:
                    log.append("windows", [{"name": "v", "query": "size>1", "values": "1"}])
                lines = [{"do": "create", "name": f"f{number}", "size": number},
                         {"do": "write", "node": 4, "size": number},
                         {"do": "set", "node": 4, "attr": "n", "type": "LLNG", "value": number}]
                log.append("changes", [{"line": json.dumps(line).encode()} for line in lines])
                settle(relay)
            records = [record for _, record in self.records("window:1", log)]
            found.append([record for record in records if b"message" in record])
            follower = Follower(log, "v", "size>1", has_values=True)
            follower.ask = lambda **_: 1
            follower.begin()
            follower.turn(0)
            wanted = {it.node: {"size": it.size, "last_modified": it.time} for it in relay.volume.fetch("size>1")}
            self.assertEqual(follower.known(), wanted)
        self.assertEqual(found[0], found[1])
        self.assertGreater(len(found[0]), 20)


class Words(Case):
    def test_follow_and_load(self):
        self.serve()
        tree = os.path.join(self.room, "tree")
        os.makedirs(os.path.join(tree, "in"))
        for name in "a.txt", "in/b.txt", "in/c":
            with open(os.path.join(tree, name), "w") as file:
                file.write(name)
        os.close(os.open(os.path.join(os.fsencode(tree), b"\xff"), os.O_CREAT))
        status, out, error = self.run_relay("load", "t", tree)
        self.assertEqual((status, out), (0, "4 entries\n"))
        self.assertEqual(error.count("left out"), 1, error)
        follow = self.start(RELAY, "follow", "--redis", self.redis.url, "t", "name==*.txt")
        self.assertEqual(follow.stdout.readline(), "= 1/a.txt\n")
        self.assertEqual(follow.stdout.readline(), "= 3/b.txt\n")
        producer = Producer(self.log)
        producer.change(do="move", node=2, dir=3, name="d.txt")
        producer.change(do="create", name="e\x1b.txt")
        producer.change(do="remove", node=2)
        for line in "> 1/a.txt > 3/d.txt\n", "+ 1/e\\x1b.txt\n", "- 3/d.txt\n":
            self.assertEqual(follow.stdout.readline(), line)

    def test_follow_values(self):
        self.serve()
        producer = Producer(self.log)
        producer.change(do="create", name="a.txt", size=5)
        words = RELAY, "follow", "--redis", self.redis.url, "t", "name==*.txt"
        plain, values = self.start(*words), self.start(*words, "--values")
        self.assertEqual(plain.stdout.readline(), "= 1/a.txt\n")
        self.assertEqual(values.stdout.readline(), "= 1/a.txt: 5 bytes, 0\n")
        producer.change(do="write", node=2, size=7, time=8)
        producer.change(do="set", node=2, attr="MAIL:status", type="CSTR", value="New")
        producer.change(do="move", node=2, name="b.txt")
        producer.change(do="remove", node=2)
        for line in "> 1/a.txt > 1/b.txt\n", "- 1/b.txt\n":
            self.assertEqual(plain.stdout.readline(), line)
        for line in ("~ 1/a.txt: 7 bytes, 8\n", '~ 1/a.txt: MAIL:status "New"\n',
                     "> 1/a.txt > 1/b.txt: 7 bytes, 8\n", "- 1/b.txt\n"):
            self.assertEqual(values.stdout.readline(), line)

    def test_what_it_cannot_use(self):
        self.serve()
        for words, line in (
            (["follow", "--redis", self.redis.url, "t", "size>"], "size>: BadQuery at 5"),
            (["follow", "--redis", "redis://127.0.0.1:1", "t", "size>1"], "redis://127.0.0.1:1: "),
            (["follow", "--redis", "nothing", "t", "size>1"], "nothing: "),
            (["serve", "--redis", self.redis.url], "the following arguments are required: NAME"),
        ):
            done = subprocess.run([RELAY, *words], capture_output=True, timeout=SECONDS, text=True)
            self.assertEqual((done.returncode, done.stdout), (2, ""), done)
            self.assertIn(line, done.stderr)

    def test_there_is_no_module(self):
        words = [DEBIAN, "-S", RELAY, "follow", "--redis", self.redis.url, "t", "size>1"]  # without site packages
        done = subprocess.run(words, capture_output=True, timeout=SECONDS, text=True)
        line = "relay: there is no Python module redis: Debian's package python3-redis has it\n"
        self.assertEqual((done.returncode, done.stdout, done.stderr), (2, "", line))

    def test_nobody_reads(self):
        self.serve()
        follow = self.start(RELAY, "follow", "--redis", self.redis.url, "t", "name==*")
        Producer(self.log).change(do="create", name="a")
        self.assertEqual(follow.stdout.readline()[2:], "1/a\n")
        follow.stdout.close()
        Producer(self.log).change(do="create", name="b")
        self.assertEqual(follow.wait(SECONDS), 141)
        follow.stdout = None

    def test_a_folder_on_disk(self):
        live = os.path.join(HERE, "../live-folder/live_folder")
        if not os.path.exists(live):
            self.skipTest("a copy of the example stands alone")
        self.serve()
        tree = os.path.join(self.room, "tree")
        os.makedirs(os.path.join(tree, "in"))
        here = self.start(live, "--redis", self.redis.url, "t", tree)
        self.assertEqual(here.stdout.readline(), f"{tree} has 1 entries\n")
        follower = Follower(self.new_log(), "w", "name==*")
        follower.begin()
        commands = "mkdir a && echo x > a/b.txt && mv a in/c && cp in/c/b.txt d.txt && mv in/c/b.txt e.txt && rm d.txt"
        subprocess.run(commands, shell=True, cwd=tree, check=True)
        end = time.monotonic() + SECONDS
        while self.paths(follower) != ["/e.txt", "/in", "/in/c"] and time.monotonic() < end:
            follower.turn(0.1)
        self.assertEqual(self.paths(follower), ["/e.txt", "/in", "/in/c"])
        words = [live, "--redis", self.redis.url, "t", tree]
        again = subprocess.run(words, capture_output=True, timeout=SECONDS, text=True)
        self.assertEqual(again.returncode, 2)
        self.assertIn("t has changes already", again.stderr)

    def paths(self, follower):
        def path(node):
            dir, name = follower.rows[node]
            return f"{path(dir) if dir != 1 else ''}/{name}"

        return sorted(map(path, follower.rows))
