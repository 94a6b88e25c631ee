"""Large windows, and steps that take longer than `--lock`: a standby stands by, a relay that hangs gives its place
away, and a request that ends relays is refused."""
import concurrent.futures, json, os, select, signal, socket, sys, threading, time, unittest
from unittest import mock

from case import EVERY, HERE, SECONDS, Case, settle
from test_load import IS_FULL

import yazgoulm
from yazgoulm import Volume

from beyond import client, opening
from beyond.client import Follower
from beyond.engine import Gone
from beyond.producer import Producer
from beyond.server import Relay

SLOWED = os.path.join(HERE, "tests/slowed.py")
LOCK, SLOW = 2.0, 5.0  # seconds of silence, and of a step that takes longer than that, also on a busy machine
STEPS = "size", "open", "rows", "values", "write", "save", "snapshot", "pieces", "load", "windows", "replay", "compare"


def fill(log, count):
    """Leaves so many files, in a snapshot, as a relay would that was stopped."""
    relay = Relay(log, EVERY)
    relay.begin()
    for number in range(count):
        relay.volume.create(f"file{number:07}", size=number)
    relay.batches.append(relay.state())
    relay.keep()
    relay.batches.release()


class Large(Case):
    def setUp(self):
        super().setUp()
        self.log.redis.config_set("appendfsync", "no")  # a slow disk would hold all of them up

    def start_relay(self, name, *words, step="none", seconds="0", hung="none", backend=yazgoulm.backend):
        """A relay, its standard output with a timeout."""
        slowed = sys.executable, SLOWED, step, seconds, hung
        with mock.patch.dict(os.environ, {"YAZGOULM_BACKEND": backend}):
            return self.start(*slowed, "serve", "--redis", self.redis.url, name, *words)

    def await_line(self, relay, line, seconds=4 * SECONDS):
        """Waits for a line of a relay that begins so."""
        end = time.monotonic() + seconds
        while select.select([relay.stdout], [], [], max(0.0, end - time.monotonic()))[0]:
            found = relay.stdout.readline()
            self.assertTrue(found, f"the relay has ended: {relay.poll()}")
            if found.startswith(line):
                return
        self.fail(f"the relay hasn't said {line!r}")


class Slowed(Large):
    def test_each_step_slowed(self):
        """Each step takes longer than the silence after which the standby serves. It doesn't, until the relay is
        killed, and then it does with the same steps slowed."""
        with concurrent.futures.ThreadPoolExecutor(len(STEPS)) as threads:
            runs = {step: threads.submit(self.run_slowed, step) for step in STEPS}
        wrong = {step: str(run.exception()) for step, run in runs.items() if run.exception()}
        self.assertEqual(wrong, {})

    def run_slowed(self, step):
        log = self.new_log(step)
        fill(log, 1000)
        log.append("windows", [{"name": "old", "query": "size>500"}])
        words = step, "--lock", str(LOCK), "--keep", "20", "--snapshot", "30"
        first = self.start_relay(*words, step=step, seconds=str(SLOW))
        self.await_line(first, "serves")
        standby = self.start_relay(*words, "--standby", step=step, seconds=str(SLOW))
        self.await_line(standby, "stands by")
        self.use(log, 0)
        self.assertIsNone(first.poll(), "the relay has lost its place")
        first.kill()
        self.await_line(standby, "serves")
        self.use(log, 40)
        self.assertIsNone(standby.poll(), "the relay that stood by has lost its place")

    def use(self, log, number):
        """A new window with values, and changes that it is told of. Each quarter of --keep has an opening."""
        with mock.patch.object(client, "SECONDS", 4 * SECONDS):
            follower = Follower(log, f"w{number}", f"size>{number}", has_values=True)
            follower.begin()
        lines = [b'{"do":"create","name":"new%d","size":5000}' % it for it in range(number, number + 40)]
        replies = Producer(log).send(lines)
        self.assertEqual([it["change"] for it in replies], [*range(1001 + number, 1041 + number)])
        while follower.change < replies[-1]["change"]:
            follower.turn(1)
        self.assertEqual(len(follower.rows), 1000 - number - 1 + 40 + number)


class Hung(Large):
    def test_a_relay_that_hangs_gives_no_signs(self):
        words = "t", "--lock", "0.5"
        first = self.start_relay(*words, step="open", seconds="1000", hung="2")
        self.await_line(first, "serves")
        standby = self.start_relay(*words, "--standby")
        self.await_line(standby, "stands by")
        self.log.append("windows", [{"name": "w", "query": "name==*"}])
        self.await_line(standby, "serves", SECONDS)
        self.assertIsNone(first.poll())
        self.assertIn("no progress for 2 s at the opening of a query", first.stderr.readline())
        follower = Follower(self.new_log(), "v", "name==*")
        follower.begin()
        self.assertEqual(follower.rows, {})

    def test_a_request_that_has_ended_two_relays(self):
        """It is refused, those around it are served, and a restart gives the same."""
        asked = [{"name": str(size), "query": f"size>{size}"} for size in range(5)]
        self.log.append("windows", asked)
        open_query, ended = Volume.open, []

        def open_or_end(volume, formula, *given, **named):
            if formula == "size>2":
                raise MemoryError()
            return open_query(volume, formula, *given, **named)

        def run():
            relay = Relay(self.new_log(lock=0.02), EVERY)
            relay.begin()
            settle(relay)
            return relay

        with mock.patch.object(Volume, "open", open_or_end):
            for _ in range(4):
                try:
                    run()
                except MemoryError as error:
                    ended.append(error)
        self.assertEqual(len(ended), 2)
        wanted = [{"window": 1}, {"window": 2}, {"error": "Tried: 2 relays have ended at this request"},
                  {"window": 3}, {"window": 4}]
        self.assertEqual([json.loads(record[b"reply"]) for _, record in self.records("opened")], wanted)
        relay = run()
        self.assertEqual([it.formula for it in relay.windows.values()], [f"size>{it}" for it in (0, 1, 3, 4)])
        self.log.append("windows", asked[2:3])
        settle(relay)
        self.assertEqual(json.loads(self.records("opened")[-1][1][b"reply"]), {"window": 5})
        self.assertEqual(self.log.redis.exists("t:tries"), 0)

    def test_a_relay_that_is_stopped_has_not_ended_by_its_request(self):
        for number in range(3):
            relay = self.start_relay("t", "--lock", "0.5", step="open", seconds="1000")
            self.await_line(relay, "serves")
            if not number:
                self.log.append("windows", [{"name": "w", "query": "name==*"}])
            end = time.monotonic() + SECONDS
            while self.log.state()["relay"] not in b" ".join(self.log.tries().values()) and time.monotonic() < end:
                time.sleep(0.05)
            relay.send_signal(signal.SIGTERM)
            self.assertEqual(relay.wait(SECONDS), 0)
        self.serve()
        Follower(self.new_log(), "v", "name==*").begin()
        self.assertEqual(json.loads(self.records("opened")[0][1][b"reply"]), {"window": 1})


class Sizes(Large):
    def new_relay(self, **words):
        relay = Relay(self.new_log(lock=0.02, **words), EVERY)
        relay.begin()
        return relay

    def reader(self, window, log=None):
        """A client of a window whose number is known."""
        follower = Follower(log or self.new_log(), "w", "")
        follower.ask = lambda **_: window
        return follower

    def test_a_size_is_known_before_a_query_is_opened(self):
        """No query and no opening is made of a result that can't be served."""
        relay = self.new_relay()
        for number in range(200):
            relay.volume.create(f"{number}\x1b\"\\\u00e9", size=number)
        with mock.patch.object(opening, "LARGEST", 1000), mock.patch.object(Volume, "open", None):
            self.log.append("windows", [{"name": "all", "query": "name==*"}])
            settle(relay)
        self.assertIn("TooLarge", json.loads(self.records("opened")[0][1][b"reply"])["error"])
        size = relay.windows.size("name==*")
        self.log.append("windows", [{"name": "all", "query": "name==*"}])
        settle(relay)
        follower = self.reader(1)
        follower.begin()
        text = opening.to_json([(dir, node, name) for node, (dir, name) in sorted(follower.rows.items())])
        self.assertLess(abs(size - len(text)), 50)

    def test_the_limit_is_that_of_one_record(self):
        """However an opening is cut: so a log gives the same windows as before there were parts."""
        rows = [(1, number, f"\u00e9{number}" * (number % 7)) for number in range(3000)]
        for values in None, [(number, 0) for number in range(3000)]:
            head = {"seq": 5, "change": 6, "at": 7}
            size = len(opening.to_json({**head, "result": rows, **({"values": values} if values else {})}))
            for limit, is_served in (size, True), (size - 1, False):
                with mock.patch.object(opening, "LARGEST", limit):
                    records = opening.to_records("w", head, rows, values, bool)
                self.assertEqual(bool(records), is_served)

    def test_an_opening_in_parts(self):
        """Each command and each record of a large opening is small, whatever is kept of the stream; rows and values are
        the query's."""
        fill(self.log, 10_000)
        relay, sent = self.new_relay(keep=20), []
        send = relay.log.send

        def send_noted(*commands):
            sent.append(sum(len(word) for command in commands for word in command if isinstance(word, bytes)))
            return send(*commands)

        relay.log.send = send_noted
        with mock.patch("beyond.batches.AT_ONCE", 40_000):
            self.log.append("windows", [{"name": "w", "query": "size>9", "values": "1"}])
            settle(relay)
        self.assertLess(max(sent), 60_000)
        parts = self.records("window:1:parts")
        self.assertLess(max(len(record[b"part"]) for _, record in parts), 30_000)
        self.assertGreater(len(parts), 20)
        follower = self.reader(1)
        follower.has_values = True
        follower.begin()
        for again in range(4):
            self.send([b'{"do":"write","node":%d,"size":%d}' % (20 + it, 6000 + again) for it in range(10)])
            settle(relay)
            while follower.change < relay.change:
                follower.turn(0)
            rows = relay.volume.fetch("size>9")
            self.assertEqual(follower.rows, {it.node: (it.dir, it.name) for it in rows})
            self.assertEqual({node: row["size"] for node, row in follower.values.items()},
                             {it.node: it.size for it in rows})
            late = self.reader(1)
            late.begin()
            self.assertEqual((late.rows, late.values, late.seq), (follower.rows, follower.known(), follower.seq))
        restarted = self.new_relay(keep=20)
        self.assertEqual(restarted.windows[1].seq, relay.windows[1].seq)

    def test_an_opening_whose_parts_have_gone(self):
        """The client waits, and begins anew with the next one."""
        relay, told = self.new_relay(), []
        for number in range(2000):
            relay.volume.create(f"file{number}")
        self.log.append("windows", [{"name": "w", "query": "name==*"}])
        settle(relay)
        self.log.redis.xtrim("t:window:1:parts", maxlen=2, approximate=False)
        follower = self.reader(1)
        follower.opened = lambda _, why: told.append(why)

        def wait():
            if not follower.pause.seconds:
                return
            self.log.append("windows", [{"name": "w", "query": "name==*", "opening": "1"}])
            settle(relay)

        follower.pause.wait = lambda: (wait(), setattr(follower.pause, "seconds", 0.1))
        follower.begin()
        self.assertEqual((len(follower.rows), told), (2000, ["a part of its opening isn't kept in 0.1 s"]))

    def test_a_relay_that_begins_again_over_a_stream_that_has_gone(self):
        """The new opening stands for the messages that have gone, at each further start."""
        relay = self.new_relay()
        self.log.append("windows", [{"name": "w", "query": "name==*"}])
        self.send([b'{"do":"create","name":"a"}'])
        settle(relay)
        self.send([b'{"do":"remove","node":77}'])
        settle(relay)
        self.log.redis.delete("t:window:1")
        for _ in range(3):
            relay = self.new_relay()
        self.assertEqual(relay.windows[1].seq, 1)

    def test_a_large_window_with_a_standby(self):
        """A window of many rows, with a `--lock` that a relay keeps on a busy machine too: --full has shorter ones."""
        self.run_large(300_000, "8", "name==*", 300_000, yazgoulm.backend)

    def test_a_large_window_with_a_standby_by_ctypes(self):
        self.run_large(300_000, "8", "name==*", 300_000, "ctypes")

    @unittest.skipUnless(IS_FULL, "with --full")
    def test_larger_windows(self):
        """Three million are too large as a whole, which is known before it is made; a window of a million is served."""
        for way in {yazgoulm.backend, "ctypes"}:
            for count, lock, formula, rows in (
                (300_000, "0.3", "name==*", 300_000), (1_000_000, "1", "size>=500000", 500_000),
                (1_000_000, "3", "name==*", 1_000_000), (3_000_000, "3", "size<1000000", 1_000_000),
            ):  # fmt: skip
                with self.subTest(way=way, count=count, lock=lock):
                    begun = time.monotonic()
                    self.log.redis.flushall()
                    self.run_large(count, lock, formula, rows, way)
                    print(f"{count:,} rows, --lock {lock}, {way}: {time.monotonic() - begun:.0f} s")

    def run_large(self, count, lock, formula, rows, way):
        fill(self.log, count)
        words = "t", "--lock", lock, "--keep", "400"
        first = self.start_relay(*words, backend=way)
        self.await_line(first, "serves")
        standby = self.start_relay(*words, "--standby", backend=way)
        self.await_line(standby, "stands by")
        if count > 2_000_000:
            self.assert_trouble("TooLarge", Follower(self.new_log(), "all", "name==*").begin)
        self.use(formula, rows, count, 0)
        self.assertIsNone(first.poll(), "the relay has lost its place")
        first.kill()
        self.await_line(standby, "serves")
        self.use(formula, rows, count, 300)
        self.assertIsNone(standby.poll(), "the relay that stood by has lost its place")
        standby.kill()

    def use(self, formula, rows, count, number):
        follower = Follower(self.new_log(), f"w{number}", formula)
        follower.begin()
        grows = not formula.startswith("size<")
        while grows and follower.change < count + number:
            follower.turn(1)
        self.assertEqual(len(follower.rows), rows + number * grows)
        lines = [b'{"do":"create","name":"new%d","size":%d}' % (it, 2 * count) for it in range(number, number + 300)]
        with mock.patch("beyond.producer.SECONDS", 4 * SECONDS):
            replies = Producer(self.new_log()).send(lines)
        self.assertEqual([it["change"] for it in replies], [*range(count + number + 1, count + number + 301)])


class Line:
    """A line to Redis that carries so many bytes of answers at a time: then the connection is cut."""

    def __init__(self, port, size):
        self.port, self.size, self.cuts = port, size, 0
        self.listener = socket.create_server(("127.0.0.1", 0))
        self.url = f"redis://127.0.0.1:{self.listener.getsockname()[1]}"
        threading.Thread(target=self.accept, daemon=True).start()

    def accept(self):
        while True:
            try:
                near, _ = self.listener.accept()
            except OSError:
                return
            threading.Thread(target=self.carry, args=(near,), daemon=True).start()

    def carry(self, near):
        left = self.size
        with near, socket.create_connection(("127.0.0.1", self.port)) as far:
            while left > 0:
                for ready in select.select([near, far], [], [])[0]:
                    found = ready.recv(min(left, 16_384) if ready is far else 65_536)
                    if not found:
                        return
                    if ready is far:
                        left -= len(found)
                    (near if ready is far else far).sendall(found)
            self.cuts += 1


class Lines(Large):
    def test_a_line_that_is_cut(self):
        """A beginning, and then messages, over a line that carries 60 KB at a time."""
        relay = Relay(self.log, EVERY)
        relay.begin()
        for number in range(30_000):
            relay.volume.create(f"file{number}")
        self.log.append("windows", [{"name": "w", "query": "name==*"}])
        settle(relay)
        line = Line(self.redis.port, 60_000)
        self.addCleanup(line.listener.close)
        follower, told = Follower(self.new_log(), "w", "name==*", lambda _, why: told.append(why)), []
        follower.log = type(follower.log)(line.url, "t")
        follower.ask = lambda **_: 1
        end = time.monotonic() + SECONDS

        def begin():
            self.assertLess(time.monotonic(), end, "it never ends")
            follower.begin()

        with mock.patch("beyond.engine.SECONDS", SECONDS):
            follower.log.wait_for(begin)
        self.assertEqual(len(follower.rows), 30_000)
        self.assertGreater(line.cuts, 10)
        self.send([b'{"do":"create","name":"new%d"}' % it for it in range(3000)])
        settle(relay)

        class Done(Exception):
            pass

        end = time.monotonic() + SECONDS

        def turned():
            self.assertLess(time.monotonic(), end, "it never ends")
            if follower.change == 33_000:
                raise Done()

        with self.assertRaises(Done), mock.patch("beyond.engine.SECONDS", SECONDS):
            self.follow_on(follower, turned)
        self.assertEqual((len(follower.rows), told), (33_000, [None]))

    def follow_on(self, follower, turned):
        while True:
            try:
                while True:
                    turned()
                    follower.turn(1)
            except Gone:
                follower.log.wait_for(follower.resume)
