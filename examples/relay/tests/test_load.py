"""The relay under load: many clients, while the relay, Redis and the clients are killed at drawn moments."""
import collections, concurrent.futures, contextlib, json, os, random, subprocess, sys, threading, time, typing
from unittest import mock

from case import HERE, LOCK, RELAY, SECONDS, Case, Reference, digest, drawn, formulas, is_torn

from beyond.engine import Gone
from beyond.producer import Producer

IS_FULL = bool(os.environ.get("FULL"))
LINES = 100  # lines that are sent before their replies are awaited
KEEP = 2000  # records of a window's stream
SNAPSHOT = 0.3  # seconds that a snapshot takes
TEXTS = 4000  # files with a text, where a snapshot has to be large: it has 16 MB


class Size(typing.NamedTuple):
    """How many there are, and how often the relay, Redis and a process of ten clients are killed."""

    clients: int
    windows: int
    formulas: int
    changes: int
    relay: int = 0
    redis: int = 0
    client: int = 0
    texts: int = 0


class Load(Case):
    def setUp(self):
        super().setUp()
        self.draw = random.Random(64)
        self.relay, self.every, self.torn, self.within = None, 1500, 0, 0
        self.groups, self.file = {}, os.path.join(self.room, "folds")
        self.addCleanup(self.end)
        patient = mock.patch("beyond.producer.SECONDS", 4 * SECONDS)  # a busy machine starts a relay late
        patient.start()
        self.addCleanup(patient.stop)

    def end(self):
        for process in [self.relay, *self.groups.values()]:
            if process:
                process.kill()
                process.wait()

    # ---- who runs, and who is killed

    def start_relay(self):
        words = ["serve", "--redis", self.redis.url, "t", "--lock", str(LOCK)]
        words += ["--keep", str(KEEP), "--snapshot", str(self.every)]
        self.relay = subprocess.Popen([sys.executable, RELAY, *words], stdout=subprocess.DEVNULL)

    def start_group(self, group):
        words = [word for client in range(group * 10, min(group * 10 + 10, len(self.asked))) for word in
                 (str(client), *self.asked[client])]
        program = [sys.executable, os.path.join(HERE, "tests/clients.py")]
        self.groups[group] = subprocess.Popen([*program, self.redis.url, "t", self.file, *words])

    def start_again(self, has_ended):
        """Starts a relay again that began while there was no Redis, as who runs it would: it ends with status 2 then."""
        while not has_ended.wait(0.1):
            with self.lock:
                if self.relay.poll() == 2:
                    self.start_relay()

    def kill_relay(self):
        self.assertIn(self.relay.poll(), (None, 2), "the relay has ended by itself")
        self.relay.kill()
        self.relay.wait()
        self.start_relay()

    def kill_redis(self):
        self.redis.kill()
        self.torn += is_torn(max(self.redis.files(), key=os.path.getmtime))
        self.redis.start()
        self.within += self.new_log().redis.exists("t:snapshot:new")

    def kill_client(self):
        group = self.draw.choice([*self.groups])
        self.assertIsNone(self.groups[group].poll(), "a client has ended by itself")
        self.groups[group].kill()
        self.groups[group].wait()
        self.start_group(group)

    def kill(self, who, is_after, delay):
        """Kills one: some milliseconds from now, or after the next reply is written."""
        if is_after:
            log = self.new_log()
            with contextlib.suppress(Gone):  # Redis may be killed meanwhile
                log.read({"replies": log.end("replies")}, 1, 1)
        time.sleep(delay)
        with self.lock:
            {"relay": self.kill_relay, "redis": self.kill_redis, "client": self.kill_client}[who]()

    # ---- the run

    def run_load(self, it):
        self.lock = threading.Lock()
        asked = [*formulas(it.formulas)]
        of = [number % it.formulas for number in range(it.windows)]
        # the windows of every second formula have values
        names = [(f"w{number}", asked[formula], str(formula % 2)) for number, formula in enumerate(of)]
        self.asked = [names[number % it.windows] for number in range(it.clients)]
        self.start_relay()
        for group in range((it.clients + 9) // 10):
            self.start_group(group)
        self.wait_for_clients(dict.fromkeys(asked, 0))
        lines, first = [*drawn(it.changes, 6, it.texts)], 4 + 2 * it.texts
        replies = Producer(self.new_log()).send(lines[:first])
        if it.texts:
            self.every = 1
            self.kill_relay()
        has_ended = threading.Event()
        again = threading.Thread(target=self.start_again, args=(has_ended,))
        again.start()
        try:
            replies += self.produce(lines[first:], it)
            self.verify(lines, replies, asked)
        finally:
            has_ended.set()
            again.join()

    def produce(self, lines, it):
        """Sends lines, with the kills in between. Returns the replies."""
        kills = collections.defaultdict(list)
        for who in "relay", "redis", "client":
            for _ in range(getattr(it, who)):
                kills[self.draw.randrange(len(lines) // LINES)].append(who)
        producer, replies, done = Producer(self.new_log()), [], []
        with concurrent.futures.ThreadPoolExecutor() as threads:
            for part in range(0, len(lines), LINES):
                for who in kills[part // LINES]:
                    when = self.draw.choice([(True, 0), (False, self.draw.uniform(0, 0.03))])
                    if it.texts:  # in the snapshot that follows a reply
                        when = True, self.draw.uniform(0, SNAPSHOT)
                    done.append(threads.submit(self.kill, who, *when))
                replies += producer.send(lines[part : part + LINES])
        for kill in done:
            kill.result()
        self.assertIn(self.relay.poll(), (None, 2), "the relay has ended by itself")
        return replies

    # ---- what has to hold

    def verify(self, lines, replies, asked):
        self.assertEqual([record[b"line"] for _, record in self.records("changes")], lines)
        windows = json.loads(self.log.life("windows")["windows"])
        self.wait_for_clients({it["query"]: self.last_change(number) for number, it in windows.items()})
        told = self.told()
        wanted, beside = collections.defaultdict(set), self.values_written(windows)
        for client, change, *_ in told:
            wanted[change].add(self.asked[client][1])
        reference, found, compared = Reference(), {}, 0
        has_values = {formula: bool(number % 2) for number, formula in enumerate(asked)}
        queries = {formula: reference.volume.open(formula, backlog=3, moved=True, values=has_values[formula])
                   for formula in asked}
        written, changes = {formula: [] for formula in asked}, []
        for line, reply in zip([None, *lines], [None, *replies]):
            if line is not None:
                self.assertEqual(reference.answer(line), reply)
            changes.append(reference.volume.changes)
            for formula in wanted.pop(changes[-1], ()):
                found[changes[-1], formula] = digest(reference.rows(formula)), digest(reference.values(formula))
            for message, values in beside.pop(changes[-1], ()):
                self.assert_values(reference, message, values)
                compared += 1
            for formula, query in queries.items():
                written[formula] += [(it.change, str(it.op), it.dir, it.node, it.name) for it in query]
        wrong = [it for it in told if found[it[1], self.asked[it[0]][1]][0] != it[2]]
        self.assertEqual(wrong, [])
        with_values = [it for it in told if it[4]]
        wrong = [it for it in with_values if found[it[1], self.asked[it[0]][1]][1] != it[3]]
        self.assertEqual((wrong, dict(beside)), ([], {}))
        last = {client: it for client, *it in told}
        self.assertEqual(len(last), len(self.asked))
        for client, (_, fold, values, _) in last.items():
            _, formula, asks = self.asked[client]
            self.assertEqual(fold, digest(reference.rows(formula)))
            self.assertEqual(values, digest(reference.values(formula)) if asks == "1" else 0)
        self.compare_streams(written, changes)
        print(f"{len(lines)} changes, {len(told)} folds of {len(last)} clients, {len(with_values)} of them with values"
              f", {compared} messages with values, {len(written)} formulas"
              f", {self.within} kills of Redis within a snapshot, {self.torn} within a command", flush=True)

    def values_written(self, windows):
        """What stands beside the messages that are kept, by the number of changes at which it was read."""
        found = collections.defaultdict(list)
        for number in windows:
            for _, record in self.records(f"window:{number}"):
                if b"values" in record:
                    values = json.loads(record[b"values"])
                    found[values["at"]].append((json.loads(record[b"message"]), values))
        return found

    def assert_values(self, reference, message, values):
        """The values beside a message are those of the entry after so many changes."""
        it = reference.volume.entry(message["node"])
        wanted = {"at": reference.volume.changes, "size": it.size, "time": it.time}
        if "attr" in message:
            wanted.update(type=it.types.get(message["attr"]), value=it.attributes.get(message["attr"]))
        self.assertEqual(values, wanted)

    def compare_streams(self, written, changes):
        """The messages that each window's stream keeps are the last ones of the reference, each once and in order."""
        for number, window in json.loads(self.log.life("windows")["windows"]).items():
            messages = [json.loads(message) for message in self.messages(number)]
            expected = [it for it in written[window["query"]] if it[0] > changes[window["opened"]]]
            first = len(expected) - len(messages)
            self.assertEqual([it["seq"] for it in messages], [*range(first + 1, len(expected) + 1)])
            found = [(it["change"], it["op"], it["dir"], it["node"], it["name"]) for it in messages]
            self.assertEqual(found, expected[first:])

    def told(self):
        """What the clients wrote (see clients.py). A kill may leave a part of a line."""
        with open(self.file, "a+", encoding="ascii") as file:
            file.seek(0)
            return [tuple(map(int, line.split())) for line in file if line.endswith("\n")]

    def wait_for_clients(self, changes):
        """Waits until each client has folded the window of its formula up to a change, also on a busy machine."""
        end = time.monotonic() + 4 * SECONDS
        while time.monotonic() < end:
            last = {it: change for it, change, *_ in self.told()}
            late = [it for it, (_, formula, _) in enumerate(self.asked) if last.get(it, -1) < changes[formula]]
            if not late:
                return
            time.sleep(0.1)
        self.fail(f"clients {late} have not folded the last message")

    def last_change(self, number):
        _, record = next(self.log.backwards(f"window:{number}"))
        return json.loads(record.get(b"message") or next(iter(record.values())))["change"]

    def test_many_clients(self):
        self.run_load(Size(200, 100, 40, 20_000) if IS_FULL else Size(40, 20, 12, 6000))

    def test_the_relay_is_killed(self):
        self.run_load(Size(200, 100, 40, 20_000, relay=50) if IS_FULL else Size(20, 10, 8, 6000, relay=12))

    def test_redis_is_killed(self):
        self.run_load(Size(200, 100, 40, 20_000, redis=20) if IS_FULL else Size(20, 10, 8, 6000, redis=8))

    def test_redis_is_killed_within_a_snapshot(self):
        self.run_load(Size(20, 10, 8, 30_000, redis=300, texts=TEXTS) if IS_FULL else
                      Size(10, 5, 5, 800, redis=5, texts=TEXTS))

    def test_clients_are_killed(self):
        self.run_load(Size(200, 100, 40, 20_000, client=100) if IS_FULL else Size(20, 10, 8, 6000, client=12))

    def test_a_relay_that_dies_at_each_step_of_a_batch(self):
        """It is killed where it writes, another one stands by, takes over, and is killed where it writes next."""
        numbers = [*(range(1, 91) if IS_FULL else range(2, 40, 9))]
        deaths, self.every = len(numbers), 30
        asked = [*formulas(4)]
        self.asked = [(f"w{number}", formula, str(number % 2)) for number, formula in enumerate(asked)]
        self.start_relay()
        self.start_group(0)
        self.wait_for_clients(dict.fromkeys(asked, 0))
        is_over, wrong = threading.Event(), []
        chain = threading.Thread(target=self.die_in_turn, args=(numbers, is_over, wrong))
        chain.start()
        producer, source, lines, replies = Producer(self.new_log()), drawn(1_000_000, 7), [], []
        while not is_over.is_set():
            lines += [line for line, _ in zip(source, range(10))]
            replies += producer.send(lines[len(replies) :])
        chain.join()
        self.assertEqual(wrong, [])
        self.verify(lines, replies, asked)
        print(f"{len(lines)} changes beside {deaths} deaths where a relay writes", flush=True)

    def die_in_turn(self, numbers, is_over, wrong):
        """Has a relay die at each of the numbers, while the next stands by. The last one lives."""
        first, dying, end = self.relay, {}, time.monotonic() + 20 * SECONDS
        try:
            while numbers or dying:
                while numbers and len(dying) < 3:
                    number = numbers.pop(0)
                    dying[self.start_standby("sends", str(number))] = number
                if first is not None:
                    first.kill()
                    first.wait()
                    first = None
                for relay in [it for it in dying if it.poll() is not None]:
                    number = dying.pop(relay)
                    if relay.returncode != -9:  # it was late, and another one has taken over
                        numbers.insert(0, number)
                if time.monotonic() > end:
                    raise TimeoutError(f"the relays {[*dying.values()]} don't die")
                time.sleep(0.02)
            self.relay = self.start_standby("none", "0")
        except Exception as error:
            wrong.append(error)
        finally:
            is_over.set()
            for relay in dying:
                relay.kill()

    def start_standby(self, *how):
        words = ["serve", "--redis", self.redis.url, "t", "--lock", str(LOCK), "--keep", str(KEEP), "--standby"]
        words = [sys.executable, os.path.join(HERE, "tests/slowed.py"), *how, "none", *words, "--snapshot", str(self.every)]
        return subprocess.Popen(words, stdout=subprocess.DEVNULL, stderr=subprocess.DEVNULL)

    def test_all_are_killed(self):
        self.run_load(Size(200, 100, 40, 20_000, 50, 20, 100) if IS_FULL else Size(20, 10, 8, 6000, 6, 4, 6))
