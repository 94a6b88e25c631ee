"""What the tests of the relay share: a Redis of their own, a relay in this process or in another, and drawn changes."""
import contextlib, glob, json, os, random, shutil, socket, subprocess, sys, tempfile, time, unittest, zlib

sys.dont_write_bytecode = True
HERE = os.path.dirname(os.path.dirname(os.path.realpath(__file__)))
RELAY = os.path.join(HERE, "relay")
sys.path += [HERE, os.path.join(HERE, "../../python")]

import redis

from yazgoulm import Volume

from beyond import Trouble
from beyond.engine import START, Gone, Log

SECONDS = int(os.environ.get("TEST_SECONDS", 90))  # the longest wait for something that has to come
EVERY = 1_000_000_000  # changes between two snapshots, where none is wanted
LOCK = 0.2  # seconds of a relay's silence, after which another one may serve


class Redis:
    """A redis-server on a free port of 127.0.0.1, with a folder of its own."""

    def __init__(self, room, fsync="always"):
        self.room, self.fsync = room, fsync
        while True:
            with socket.socket() as free:
                free.bind(("127.0.0.1", 0))
                self.port = free.getsockname()[1]
            self.url = f"redis://127.0.0.1:{self.port}"
            if self.start():
                return  # else another program took the port meanwhile

    def start(self):
        os.makedirs(self.room, exist_ok=True)
        # it never rewrites its file by itself, which would take away what `check_files` reads
        words = ["--port", str(self.port), "--bind", "127.0.0.1", "--dir", self.room, "--save", "",
                 "--appendonly", "yes", "--appendfsync", self.fsync, "--auto-aof-rewrite-percentage", "0",
                 "--enable-debug-command", "local"]
        self.process = subprocess.Popen(["redis-server", *words], stdout=subprocess.DEVNULL)
        log, end = Log(self.url, "none"), time.monotonic() + SECONDS
        while self.process.poll() is None:
            try:
                log.state()
                if self.has_its_port():
                    return True
            except (Gone, redis.ConnectionError):
                if time.monotonic() > end:
                    raise
            time.sleep(0.005)
        return False

    def has_its_port(self):
        """Whether it is this server that answers there."""
        with contextlib.closing(redis.Redis(port=self.port)) as asked:
            return asked.config_get("dir")["dir"] == os.path.realpath(self.room)

    def kill(self):
        self.process.kill()
        self.process.wait()

    def files(self):
        """The files to which it appends what it did."""
        return glob.glob(os.path.join(self.room, "appendonlydir", "*.incr.aof"))


class Case(unittest.TestCase):
    relay, lock = RELAY, str(LOCK)

    def setUp(self):
        self.room = tempfile.mkdtemp(prefix="relay-")
        self.addCleanup(shutil.rmtree, self.room, True)
        self.redis = Redis(os.path.join(self.room, "redis"))
        self.addCleanup(lambda: self.redis.kill())
        self.addCleanup(lambda: self.check_files())
        self.log = self.new_log()

    def check_files(self):
        """No program of this example had Redis write a transaction, of which it could keep a half."""
        for path in self.redis.files():
            with open(path, "rb") as file:
                self.assertNotIn(b"\r\nMULTI\r\n", file.read())

    def new_log(self, name="t", **words):
        return Log(self.redis.url, name, **{"lock": LOCK, **words})

    def start(self, *words):
        """A program that is ended with the test."""
        process = subprocess.Popen(words, stdout=subprocess.PIPE, stderr=subprocess.PIPE, text=True)

        def end():
            process.kill()
            process.communicate()

        self.addCleanup(end)
        return process

    def serve(self, *words, name="t"):
        """A relay that serves."""
        relay = self.start(RELAY, "serve", "--redis", self.redis.url, name, "--lock", str(LOCK), *words)
        line = relay.stdout.readline()
        if not line:
            self.fail(f"{relay.args} ended with {relay.wait(SECONDS)}: {relay.stderr.read()}")
        self.assertIn(f"serves {name} from change", line)
        return relay

    def run_relay(self, act, *words):
        """The status of the command, its standard output and its standard error."""
        words = [RELAY, act, "--redis", self.redis.url, *words]
        try:
            done = subprocess.run(words, capture_output=True, timeout=SECONDS, text=True)
        except subprocess.TimeoutExpired as late:
            self.fail(f"{late}: {late.stdout} {late.stderr}")
        return done.returncode, done.stdout, done.stderr

    def assert_trouble(self, line, act, *given):
        """The call ends with a line that says why."""
        with self.assertRaisesRegex(Trouble, line):
            act(*given)

    def send(self, lines):
        """Appends lines, and doesn't wait. Returns their positions."""
        return self.log.append("changes", [{"line": line} for line in lines])

    def records(self, stream, log=None):
        """All records of a stream, with their positions."""
        return (log or self.log).read({stream: START}, 1_000_000).get(stream, [])

    def messages(self, window, log=None):
        return [record[b"message"] for _, record in self.records(f"window:{window}", log) if b"message" in record]


class Reference:
    """A volume that carries out the same lines, with the rows of each formula after each change that is asked for."""

    def __init__(self):
        self.volume = Volume()

    def answer(self, line):
        return json.loads(self.volume.answer(line))

    def rows(self, formula):
        return {it.node: (it.dir, it.name) for it in self.volume.fetch(formula)}

    def values(self, formula):
        return {it.node: (it.size, it.time) for it in self.volume.fetch(formula)}

    def value(self, node, attr):
        return self.volume.entry(node).attributes.get(attr)


def listing(volume):
    """Each entry with all that it has, by rising node."""
    return [volume.entry(row.node) for row in volume.fetch("name==*")]


def settle(relay):
    """Lets a relay of this process take all that is there."""
    log = relay.log
    while (log.end("changes"), log.end("windows")) != (relay.applied, relay.asked):
        relay.turn()


def digest(rows):
    return zlib.crc32(repr(sorted(rows.items())).encode())


def formulas(count):
    """Formulas of several kinds, all different."""
    kinds = ["name==*.{0}&&size>{1}", "name=={2}*", "size>{1}&&size<{3}", "MAIL:status==New&&size!={1}", "name==*{4}.*"]
    for number in range(count):
        kind, each = number % len(kinds), number // len(kinds)
        yield kinds[kind].format("txt" if each % 2 else "jpg", 100 * each, "abcdefghij"[each % 10] * (1 + each // 10),
                                 100 * each + 300, each)


def drawn(count, seed, texts=0):
    """Lines of changes on a tree that grows slowly. Some are refused. After the first four, which create folders, come
    so many files with a text of 4,000 bytes."""
    draw, created = random.Random(seed), 1
    for number in range(count):
        if number == 4:
            yield from (line for it in range(texts) for line in with_text(created + 1 + it, it))
            created += texts
        node, dir = draw.randint(max(2, created - 200), created + 1), draw.choice([1, 1, *range(2, 6)])
        name = f"{draw.choice('abcdefghij')}{draw.randrange(200)}.{draw.choice(['txt', 'jpg'])}"
        act = draw.random()
        if number < 4:
            line = {"do": "create", "name": f"d{number}", "kind": "folder"}
        elif act < 0.4:
            line = {"do": "create", "dir": dir, "name": name, "size": draw.randrange(1000)}
        elif act < 0.55:
            line = {"do": "remove", "node": node}
        elif act < 0.75:
            line = {"do": "move", "node": node, "dir": dir, "name": name, "clobber": draw.random() < 0.5}
        elif act < 0.9:
            line = {"do": "write", "node": node, "size": draw.randrange(1000)}
        else:
            status = {"attr": "MAIL:status", "type": "CSTR", "value": draw.choice(["New", "Read"])}
            line = {"do": "set", "node": node, **status}
        created += line["do"] == "create"
        yield json.dumps(line).encode()


def with_text(node, number):
    """Lines that create a file of this node, and give it a text."""
    yield json.dumps({"do": "create", "name": f"text{number}", "size": number}).encode()
    text = {"attr": "TEXT", "type": "CSTR", "value": f"{number:04}" * 1000}
    yield json.dumps({"do": "set", "node": node, **text}).encode()


def borders(path):
    """The ends of the commands in a file of Redis, and its size where it ends within one. A command is a count of words
    and the words; each has its length before it."""
    with open(path, "rb") as file:
        while line := file.readline():
            for _ in range(int(line[1:])):
                length = file.readline()
                file.seek(int(length[1:] or 0) + 2, os.SEEK_CUR)
            yield file.tell()


def is_torn(path):
    """Whether a file of Redis ends within a command."""
    try:
        return max(borders(path), default=0) != os.path.getsize(path)
    except ValueError:  # the end of a line is missing
        return True
