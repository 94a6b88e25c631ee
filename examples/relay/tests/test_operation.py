"""A relay in use: a standby, signs of life, its status, names whose clients have gone, producers that go on, and what
it says where something was deleted or damaged."""
import contextlib, glob, json, os, signal, threading, time
from unittest import mock

from case import EVERY, SECONDS, Case, settle

from beyond import client, producer
from beyond.client import Follower
from beyond.engine import START
from beyond.producer import Producer, load
from beyond.server import Relay

LONG = 60  # seconds of silence that nobody waits for
LEASE = 3  # seconds in which a client and a relay have a turn, also on a busy machine


class Standbys(Case):
    def test_a_relay_that_is_stopped_gives_its_place_away(self):
        first = self.serve("--lock", str(LONG))
        standby = self.stand_by("--lock", str(LONG))
        self.send([b'{"do":"create","name":"a"}'])
        time.sleep(0.5)
        self.assertIsNone(standby.poll())
        since = time.monotonic()
        first.send_signal(signal.SIGTERM)
        self.assertEqual(standby.stdout.readline(), "serves t from change 1, with 0 windows\n")
        self.assertLess(time.monotonic() - since, LONG / 2)
        self.assertEqual(first.wait(SECONDS), 0)
        self.assertEqual(first.stderr.read(), "")

    def test_a_standby_takes_the_place_of_a_relay_that_was_killed(self):
        first, standbys = self.serve("--lock", "5"), [self.stand_by("--lock", "5") for _ in range(3)]
        first.kill()
        lines = [Producer(self.log).change(do="create", name="a")]
        self.assertEqual(lines, [{"change": 1, "node": 2}])
        time.sleep(0.5)
        self.assertEqual([it.poll() for it in standbys], [None] * 3)

    def test_a_standby_that_is_stopped(self):
        self.serve()
        standby = self.stand_by()
        standby.send_signal(signal.SIGTERM)
        self.assertEqual((standby.wait(SECONDS), standby.stderr.read()), (0, ""))
        self.assertEqual(Producer(self.log).change(do="create", name="a"), {"change": 1, "node": 2})

    def test_a_relay_that_is_stopped_while_redis_has_gone(self):
        relay = self.serve()
        self.redis.kill()
        time.sleep(0.5)
        relay.send_signal(signal.SIGTERM)
        self.assertEqual(relay.wait(SECONDS), 0)
        self.assertRegex(relay.stderr.read(), "^relay: begins again: [^\n]*\n$")
        self.redis.start()

    def stand_by(self, *words):
        words = [self.relay, "serve", "--redis", self.redis.url, "t", "--lock", self.lock, *words, "--standby"]
        standby = self.start(*words)
        self.assertEqual(standby.stdout.readline(), "stands by for t\n")
        return standby


class Signs(Case):
    def test_status(self):
        status, out, error = self.run_relay("status", "t")
        self.assertEqual((status, error), (3, "relay: no relay serves t\n"))
        self.assertEqual({**json.loads(out), "memory": None}, {
            "name": "t", "relay": None, "age": None, "taken": 0, "change": 0, "lag": 0, "windows": [], "memory": None,
        })  # fmt: skip
        relay = Relay(self.new_log(lock=3), EVERY)
        relay.begin()
        self.log.append("windows", [{"name": it, "query": "name==*.txt"} for it in ("w", "v")])
        self.send([b'{"do":"create","name":"a.txt"}', b'{"do":"remove","node":77}'])
        settle(relay)
        self.send([b'{"do":"create","name":"b"}'] * 3)
        status = 3
        for _ in range(5):  # on a busy machine the command may come too late
            if status:
                relay.beat(is_due=True)
                status, out, error = self.run_relay("status", "t")
        self.assertEqual((status, error), (0, ""))
        found = json.loads(out)
        fields = [found[it] for it in ("relay", "taken", "change", "lag")]
        self.assertEqual(fields, [relay.batches.me.decode(), 2, 1, 3])
        self.assertEqual(found["windows"],
                         [{"window": 1, "query": "name==*.txt", "opened": 0, "names": 2, "seq": 1, "change": 1}])
        self.assertLess(found["age"], 10)
        self.assertGreater(found["memory"]["relay"], 1_000_000)
        self.assertGreater(found["memory"]["redis"], 100_000)
        relay.batches.release()
        self.assertEqual(self.run_relay("status", "t")[0], 3)

    def test_a_client_is_told_that_no_relay_serves(self):
        relay, told = self.serve(), []
        follower = Follower(self.new_log(), "w", "name==*", told=told.append)
        with mock.patch.multiple(client, SILENT=6.0, LOOK=0.1):
            follower.begin()
            self.turn_until(follower, lambda: follower.lag == 0)
            self.assertEqual(told, [])
            relay.kill()
            self.turn_until(follower, lambda: told)
            self.assertEqual(told, ["no relay serves t: what is shown is as of change 0"])
            self.assertGreater(follower.age, 6)
            self.serve()
            self.turn_until(follower, lambda: len(told) > 1)
            self.assertEqual(told[1:], ["a relay serves t again"])

    def turn_until(self, follower, is_done):
        end = time.monotonic() + SECONDS
        while not is_done() and time.monotonic() < end:
            follower.turn(0.1)
        self.assertTrue(is_done())


class Names(Case):
    def test_the_lease_of_names(self):
        """64 formulas of clients that have gone end, and one whose client is alive doesn't."""
        relay = Relay(self.log, EVERY, lease=LEASE)
        relay.begin()
        self.log.append("windows", [{"name": f"w{size}", "query": f"size>{size}"} for size in range(65)])
        settle(relay)
        self.assertEqual(json.loads(self.records("opened")[-1][1][b"reply"]), {"code": 23, "error": "NoSlot"})
        end = time.monotonic() + SECONDS
        while len(relay.windows) > 1 and time.monotonic() < end:
            self.log.beat("w7")
            relay.turn()
        self.assertEqual([it.formula for it in relay.windows.values()], ["size>7"])
        self.log.append("windows", [{"name": "w64", "query": "size>64"}])
        settle(relay)
        self.assertEqual(json.loads(self.records("opened")[-1][1][b"reply"]), {"window": 65})
        marks = [record[b"mark"] for _, record in self.records("window:9") if b"mark" in record]
        self.assertEqual([json.loads(it)["cause"] for it in marks], ["lease"])
        again = Relay(self.new_log(), EVERY)
        again.begin()
        self.assertEqual(again.windows.names, {"w7": 8, "w64": 65})
        self.assertEqual(set(self.log.beats()), {b"w7"})

    def test_a_client_keeps_its_lease(self):
        relay = Relay(self.log, EVERY, lease=LEASE)
        relay.begin()
        follower = Follower(self.new_log(), "w", "name==*")
        with mock.patch.object(client, "BEAT", 0.1):
            self.log.append("windows", [{"name": "w", "query": "name==*"}])
            settle(relay)
            follower.stream, follower.position = "window:1", self.log.end("window:1")
            end = time.monotonic() + 1.5 * LEASE
            while time.monotonic() < end:
                follower.turn(0.1)
                relay.turn()
        self.assertEqual(relay.windows.names, {"w": 1})

    def test_a_client_whose_lease_has_ended_asks_again(self):
        self.serve()
        told = []
        follower = Follower(self.new_log(), "w", "name==*", lambda _, why: told.append(why))
        follower.begin()
        mark = {"what": "END", "cause": "lease", "change": 0, "seq": 1}
        self.log.redis.xadd("t:window:1", {"mark": json.dumps(mark)})
        follower.turn(0)
        self.assertEqual(told, [None, "the lease of the window's names has ended"])


class Producers(Case):
    LINES = [b'{"do":"create","name":"%d"}' % it for it in range(6)]

    def test_a_producer_that_goes_on(self):
        """A program that was stopped sends all again under its key: each change is done once, also by a relay that
        begins at a snapshot."""
        relay = self.serve("--snapshot", "1")
        first = Producer(self.new_log(), "import")
        replies = first.send(self.LINES[:4])
        self.assertEqual(Producer(self.new_log(), "import").send(self.LINES[:4]), replies)
        relay.kill()
        self.serve("--snapshot", "1")
        again = Producer(self.new_log(), "import").send(self.LINES)
        self.assertEqual(again[:4], replies)
        self.assertEqual(again[4:], [{"change": 5, "node": 6}, {"change": 6, "node": 7}])
        self.assertEqual(Producer(self.new_log(), "import", 6).send(self.LINES[:1])[0]["error"], "Exists")
        other = Producer(self.new_log(), "import").send(self.LINES[5:])
        self.assertEqual(other, [{"code": 33, "error": "BadLine"}])
        self.assertEqual(int(self.log.state()["change"]), 6)

    def test_how_long_a_change_is_remembered(self):
        relay = Relay(self.log, EVERY)
        relay.begin()
        lines = [{"by": f"p-{it}", "line": b'{"do":"create","name":"%d"}' % it} for it in range(10_001)]
        self.log.append("changes", lines)
        self.log.append("changes", [lines[1], lines[0]])
        settle(relay)
        replies = [json.loads(record[b"reply"]) for _, record in self.records("replies")]
        self.assertEqual([it.get("error", it.get("change")) for it in replies[-2:]], [2, "Exists"])

    def test_a_producer_that_was_paused_is_told(self):
        relay = Relay(self.log, EVERY)
        relay.begin()
        places = self.send(self.LINES)
        settle(relay)
        self.log.redis.xtrim("t:replies", maxlen=3, approximate=False)
        found = Producer(self.log).replies(START, places[3:])
        self.assertEqual(found, [{"change": it, "node": it + 1} for it in (4, 5, 6)])
        line = f"t:changes {places[0].decode()} was taken, and its reply isn't kept any more"
        with mock.patch.object(producer, "SECONDS", SECONDS):
            self.assert_trouble(line, Producer(self.log).replies, START, places)


    def test_an_empty_word_of_who_sent_it(self):
        """It is a word like any other: a snapshot has it, and a restart knows it."""
        for number in range(3):
            relay = Relay(self.new_log(lock=0.02), 1)
            relay.begin()
            self.log.append("changes", [{"by": b"", "line": self.LINES[0]}, {"line": self.LINES[1 + number]}])
            settle(relay)
        replies = [json.loads(record[b"reply"]) for _, record in self.records("replies")]
        self.assertEqual([it["change"] for it in replies], [1, 2, 1, 3, 1, 4])

    def test_a_load_that_is_sent_again(self):
        """What the relay remembers no more is found where it stands, and gone into."""
        tree, names = os.path.join(self.room, "tree"), ["plain", 'a*b?[c]"d\\e', "\u00e9 '$&|()=<>!", "[^x]", "-"]
        for name in names:
            os.makedirs(os.path.join(tree, name, "in", "deep"))
            for number in range(3):
                open(os.path.join(tree, name, "in", f"{number}"), "w").close()
        with self.relay_that_remembers(4):
            load(Stopped(self.new_log(), "key", 2), tree, lambda _: None)
            again, said = Producer(self.new_log(), "key"), []
            self.assertEqual(load(again, tree, said.append), (5 * (1 + 1 + 4), 0))
            self.assertEqual(said, [])
            self.assertEqual(load(Producer(self.new_log()), tree, said.append), (0, 5))
            self.assertEqual(len(said), 5)
        reference = sorted({os.path.relpath(path, tree) for path in glob.glob(f"{tree}/**", recursive=True)} - {"."})
        self.assertEqual(sorted(self.paths()), reference)

    def paths(self):
        """The path of each entry."""
        relay = Relay(self.new_log(lock=0.02), EVERY)
        relay.begin()
        return [relay.volume.path(it.node).lstrip("/") for it in relay.volume.fetch("name==*")]

    @contextlib.contextmanager
    def relay_that_remembers(self, count):
        """A relay on a thread, which remembers so many changes."""
        with mock.patch("beyond.changes.ANSWERED", count):
            relay, is_over = Relay(self.new_log(), EVERY), threading.Event()
            relay.begin()

            def serve():
                while not is_over.is_set():
                    relay.turn()

            thread = threading.Thread(target=serve)
            thread.start()
            try:
                yield
            finally:
                is_over.set()
                thread.join()

    def test_a_load_that_was_refused(self):
        self.serve()
        tree = os.path.join(self.room, "tree")
        os.makedirs(os.path.join(tree, "in", "deep"))
        self.assertEqual(self.run_relay("load", "t", tree), (0, "2 entries\n", ""))
        status, out, error = self.run_relay("load", "t", tree)
        self.assertEqual((status, out), (3, "0 entries\n"))
        self.assertEqual(error, f"relay: refused: '{tree}/in': Exists\nrelay: 1 entries were refused\n")


class Stopped(Producer):
    """Sends so many levels, and then nothing, as a program that was stopped."""

    def __init__(self, log, key, levels):
        super().__init__(log, key)
        self.levels = levels

    def send(self, lines):
        self.levels -= 1
        return super().send(lines) if self.levels >= 0 else [{"error": "stopped"}] * len(lines)


class Trimmed(Case):
    """Changes that are trimmed."""

    LINES = [b'{"do":"create","name":"%d"}' % it for it in range(60)]

    def new_relay(self, **words):
        relay = Relay(self.new_log(lock=0.02), EVERY, **words)
        relay.begin()
        return relay

    def test_changes_that_are_trimmed_before_they_are_taken(self):
        """The relay ends, and so does the next; one that may go on without them does, and so do those after it."""
        relay, told = self.new_relay(), []
        places = self.send(self.LINES[:10])
        settle(relay)
        self.send(self.LINES[10:50])
        self.log.redis.xtrim("t:changes", maxlen=1, approximate=False)
        line = f"39 entries of t:changes after {places[-1].decode()} have gone before they were taken: `serve --skip`"
        self.assert_trouble(line, settle, relay)
        self.assertEqual(len(self.records("replies")), 10)
        self.log.redis.xadd("t:changes", {"line": self.LINES[50]})
        relay.keep()
        again = self.new_relay()
        self.assert_trouble(line, settle, again)
        again = self.new_relay(skips=True, warn=told.append)
        settle(again)
        self.assertEqual((told, again.change), (["goes on without 39 entries of t:changes"], 12))
        again.keep()
        for skips in False, True:
            again = self.new_relay(skips=skips, warn=told.append)
            self.send(self.LINES[51:53])
            self.assertEqual(json.loads(self.run_relay("status", "t")[1])["lag"], 2)
            settle(again)
            self.assertEqual((again.life()["lag"], len(told)), (0, 1))

    def test_changes_that_are_trimmed_as_they_are_read(self):
        """What was read isn't lost, and what was taken may go."""
        relay = self.new_relay()
        self.send(self.LINES[:40])
        read = relay.log.read

        def read_and_trim(*given):
            found = read(*given)
            self.log.redis.xtrim("t:changes", maxlen=0, approximate=False)
            return found

        relay.log.read = read_and_trim
        relay.turn()
        self.assertEqual(relay.taken, 40)
        self.send(self.LINES[40:])
        relay.turn()
        self.assertEqual(relay.change, 60)

    def test_a_refusal_says_what_differs(self):
        """Two places of one change are told apart."""
        relay = self.new_relay()
        places = self.send([self.LINES[0], b"{", b"{", b"{"])
        settle(relay)
        self.log.redis.xdel("t:changes", places[2])
        self.send([b"{"])
        line = f"they give change 1 at [0-9-]* with .*, and not change 1 at {places[3].decode()} with"
        self.assert_trouble(line, self.new_relay)


class Damage(Case):
    """What an operator, another program or a full disk does, and what is said then."""

    def test_a_stream_that_has_gone(self):
        for number, (act, words) in enumerate((
            ("xtrim", ["t{}:window:1", 0, False]), ("delete", ["t{}:window:1"]), ("pexpire", ["t{}:window:1", 1]),
            ("flushall", []),
        )):  # fmt: skip
            name = f"t{number}"
            relay, told = self.serve(name=name), []
            follower = Follower(self.new_log(name), "w", "name==*", lambda _, why: told.append(why))
            follower.begin()
            sender = Producer(self.new_log(name))
            sender.change(do="create", name="a")
            follower.turn(1)
            getattr(self.log.redis, act)(*(it.format(number) if isinstance(it, str) else it for it in words))
            end = time.monotonic() + SECONDS
            with mock.patch.object(client, "LOOK", 0.1):
                while len(told) < 2 and time.monotonic() < end:
                    follower.turn(0.1)
            self.assertEqual(told, [None, "the record of change 1 isn't kept"])
            sender.change(do="create", name="b")
            follower.turn(1)
            names = {"b"} if act == "flushall" else {"a", "b"}
            self.assertEqual({name for _, name in follower.rows.values()}, names)
            relay.kill()

    def test_a_relay_that_begins_over_a_stream_that_has_gone(self):
        relay, told = Relay(self.log, EVERY), []
        relay.begin()
        self.log.append("windows", [{"name": "w", "query": "name==*"}])
        self.send([b'{"do":"create","name":"a"}'])
        settle(relay)
        self.send([b'{"do":"remove","node":77}'])
        settle(relay)
        self.log.redis.delete("t:window:1")
        Relay(self.new_log(), EVERY, warn=told.append).begin()
        self.assertEqual(told, ["t:window:1 had nothing: a new opening is written"])
        record, = (record for _, record in self.records("window:1"))
        self.assertEqual(json.loads(record[b"opening"]), {"change": 1, "seq": 1, "result": [[1, 2, "a"]]})

    def test_a_client_waits_before_it_begins_anew_again(self):
        """As where a stream has a message twice: today's client began anew 213 times a second."""
        relay, told = self.serve(), []
        follower = Follower(self.new_log(), "w", "name==*", lambda _, why: told.append(why))
        follower.begin()
        self.log.redis.xadd("t:window:1", {"message": json.dumps({"seq": 7})})
        waits = []
        with mock.patch("beyond.engine.time.sleep", waits.append):
            while len(told) < 5:
                follower.turn(0)
        self.assertEqual(waits[:4], [0, 0.1, 0.2, 0.4])
        lines = [f"the next message after 0 isn't kept{it}" for it in ("", " in 0.1 s", " in 0.2 s", " in 0.4 s")]
        self.assertEqual(told[1:], lines)
        relay.kill()

    def test_a_beginning_that_worked_ends_the_pause(self):
        """Of a client: it has read all that was there. Of a relay: a turn, also an idle one."""
        relay, told = self.serve(), []
        follower = Follower(self.new_log(), "w", "name==*", lambda _, why: told.append(why))
        follower.begin()
        for _ in range(3):
            follower.begin("something has gone")
            follower.turn(0)
        self.assertEqual(told, [None] + 3 * ["something has gone"])
        for _ in range(3):
            self.redis.kill()
            self.redis.start()
            self.assertIn("serves t from change", relay.stdout.readline())
            self.await_turns()
        relay.send_signal(signal.SIGTERM)
        relay.wait(SECONDS)
        said = [line.split(":")[1] for line in relay.stderr]
        self.assertEqual(said, [" begins again"] * len(said))

    def await_turns(self):
        """Waits until a relay has made an idle turn, and another one: each asks Redis for what is new."""
        end, first, redis = time.monotonic() + SECONDS, None, self.new_log().redis
        while time.monotonic() < end:
            asked = redis.info("commandstats").get("cmdstat_xread", {}).get("calls", 0)
            first = asked if first is None else first
            if asked > first + 2:
                return
            time.sleep(0.02)
        self.fail("the relay makes no turns")

    def test_foreign_entries(self):
        self.serve()
        follow = self.start(self.relay, "follow", "--redis", self.redis.url, "t", "name==*")
        sender = Producer(self.log)
        for stream in "opened", "replies", "windows":
            self.log.redis.xadd(f"t:{stream}", {"what": "ever"})
        sender.change(do="create", name="a")
        self.assertEqual(follow.stdout.readline()[2:], "1/a\n")
        position = self.log.redis.xadd("t:window:1", {"what": "ever"}).decode()
        self.assertEqual(follow.wait(SECONDS), 3)
        line = f"relay: t:window:1 {position} isn't what this program writes: KeyError(b'message')\n"
        self.assertEqual(follow.stderr.read(), line)

    def test_damaged_keys(self):
        keys = {
            "t:log": ("xadd", {"what": "ever"}, "the last entry of t:log isn't what this program writes"),
            "t:snapshot": ("rpush", "{", "t:snapshot isn't what this program writes"),
            "t:life": ("set", "x", "redis: WRONGTYPE"),
            "t:changes": ("set", "x", "redis: WRONGTYPE"),
            "t:tries": ("hset", ("what", "ever"), "t:tries isn't what this program writes"),
        }
        for key, (act, value, line) in keys.items():
            with self.subTest(key=key):
                self.log.redis.flushall()
                getattr(self.log.redis, act)(key, *(value if isinstance(value, tuple) else [value]))
                status, out, error = self.run_relay("serve", "t")
                self.assertEqual(status, 3, out)
                self.assertRegex(error, f"^relay: {line}[^\n]*\n$")

    def test_a_damaged_status(self):
        for field in "at", "windows":
            self.log.redis.delete("t:life")
            self.log.redis.hset("t:life", mapping={"at": 5, field: "x"})
            status, out, error = self.run_relay("status", "t")
            self.assertEqual((status, out), (3, ""))
            self.assertRegex(error, "^relay: .*t:life isn't what this program writes: [^\n]*\n$")

    def test_keys_of_an_earlier_version(self):
        self.log.redis.hset("t:state", "taken", 5)
        status, out, error = self.run_relay("serve", "t")
        line = "relay: t has keys of version 0.1.0: send its entries under another name\n"
        self.assertEqual((status, out, error), (2, "", line))

    def test_no_memory(self):
        relay = self.serve()
        self.log.redis.config_set("maxmemory", 1)
        os.makedirs(os.path.join(self.room, "tree", "in"))
        status, _, error = self.run_relay("load", "t", os.path.join(self.room, "tree"))
        self.assertEqual(status, 3)
        self.assertRegex(error, "^relay: redis: .*used memory > 'maxmemory'[^\n]*\n$")
        self.assertEqual(relay.wait(SECONDS), 3)
        self.assertRegex(relay.stderr.read(), "^relay: redis: .*used memory > 'maxmemory'[^\n]*\n$")
        self.log.redis.config_set("maxmemory", 0)
        self.serve()
        self.assertEqual(Producer(self.log).change(do="create", name="a"), {"change": 1, "node": 2})
