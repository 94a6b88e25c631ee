"""The engine: streams of records, by Redis.

`Log` is all that the other modules know of it, with `Batches`. A position names a record of a stream, and is opaque to
them. Over Kafka a stream would be a partition and a position an offset; over NATS JetStream a stream's sequence."""
import functools, os, sys, time

try:
    import redis
    from redis.backoff import NoBackoff
    from redis.retry import Retry
except ImportError:
    redis = None  # need_redis says so

from . import ENDED, UNUSABLE, Trouble, reading

DEBIAN = "/usr/bin/python3"  # the Python that Debian's package python3-redis belongs to
START = b"0-0"  # the position before a stream's first record
NOBODY = b"-"  # who serves, after a relay was stopped
SECONDS = 30  # the longest wait for an engine that has gone
SILENT = 10  # seconds without a sign of life of the relay, after which it is said that none serves
PART = 1000  # records that are read at a time
BACKWARDS = 100  # and from the end of a stream
UNBOUND = 1_000_000_000  # the pace of a line that was never cut


class Gone(Exception):
    """The engine has gone, or holds something else than before. Whether the last call was done isn't known."""


class Pause:
    """The wait before a new beginning: none before the first, then twice as long each time, until one helps."""

    FIRST, LONGEST = 0.1, 10.0

    def __init__(self):
        self.seconds = 0.0

    def wait(self):
        time.sleep(self.seconds)
        self.seconds = min(2 * self.seconds or self.FIRST, self.LONGEST)

    def words(self):
        return f" in {self.seconds:g} s" if self.seconds else ""

    def reset(self):
        self.seconds = 0.0


def need_redis():
    """Goes on in Debian's Python where this one has no module `redis`; Trouble where that one has none either."""
    if redis:
        return
    if os.path.exists(DEBIAN) and sys.executable != DEBIAN:
        os.execv(DEBIAN, [DEBIAN, *sys.argv])
    raise Trouble("there is no Python module redis: Debian's package python3-redis has it", UNUSABLE)


def reaches(call):
    """A call to the engine whose errors are Gone and Trouble."""

    @functools.wraps(call)
    def reached(*given, **named):
        try:
            return call(*given, **named)
        except (redis.ConnectionError, redis.TimeoutError, redis.WatchError) as error:
            raise Gone(str(error)) from None
        except redis.RedisError as error:
            raise Trouble(f"redis: {error}", ENDED) from None

    return reached


class Log:
    """The streams of one name. `changes`, `windows` and `log` keep all records, the stream of a window its last `keep`.
    After `lock` seconds without a sign of life of the relay another one may take its place.

    `pace` is how many records are read at a time at most: fewer where the line was cut meanwhile, and more again as it
    holds. So a line that carries little at a time is used as it is. `heard` is when records were read last."""

    def __init__(self, url, name, keep=10_000, lock=3.0):
        self.url, self.name, self.keep, self.lock = url, name, keep, lock
        try:
            self.pool = redis.ConnectionPool.from_url(url, socket_timeout=SECONDS, retry=Retry(NoBackoff(), 0))
        except ValueError as error:
            raise Trouble(f"{url}: {error}", UNUSABLE) from None
        self.connected, self.pace, self.heard = None, UNBOUND, 0.0

    @property
    def redis(self):
        """A client that holds one connection: a connection of a pool would be made again without a word."""
        if self.connected is None:
            self.connected = redis.Redis(connection_pool=self.pool).client()
        return self.connected

    def key(self, part):
        return f"{self.name}:{part}"

    def wait_for(self, act):
        """Does something, as often as the engine is gone meanwhile, and returns what it gives. Trouble: for SECONDS
        nothing was read."""
        since = time.monotonic()
        while True:
            try:
                return act()
            except Gone as gone:
                if time.monotonic() > max(since, self.heard) + SECONDS:
                    raise Trouble(f"the engine has gone: {gone}", ENDED) from None
                time.sleep(0.05)

    @reaches
    def send(self, *commands):
        """Sends commands at once, over the connection that this holds. Returns the answers, among them refusals."""
        connection = self.redis.connection
        try:
            connection.send_packed_command(connection.pack_commands(commands))
            return [answer_of(connection) for _ in commands]
        except (redis.ConnectionError, redis.TimeoutError):
            connection.disconnect()
            raise

    @reaches
    def append(self, stream, records):
        """Appends records in order, and returns their positions. Where it ends by Gone, the first few may be there."""
        with self.redis.pipeline(transaction=False) as pipe:
            for record in records:
                pipe.xadd(self.key(stream), record)
            return pipe.execute()

    @reaches
    def read(self, places, count, seconds=0.0):
        """The next records of each stream after a position, with their positions. Waits for one where none is there."""
        keys = {self.key(stream): position for stream, position in places.items()}
        found = self.paced(count, lambda count: self.redis.xread(keys, count, int(1000 * seconds) or None))
        cut = len(self.key(""))
        return {key.decode()[cut:]: records for key, records in found}

    def paced(self, count, call):
        """What a call that reads so many records gives, at this line's pace."""
        try:
            found = call(min(count, self.pace))
        except (redis.ConnectionError, redis.TimeoutError):
            self.pace = max(1, min(count, self.pace) // 4)
            raise
        if found:
            self.pace, self.heard = min(UNBOUND, self.pace + self.pace // 8 + 1), time.monotonic()
        return found

    def forwards(self, stream, position):
        """The records of a stream after a position, with their positions."""
        while found := self.read({stream: position}, PART).get(stream):
            yield from found
            position = found[-1][0]

    def backwards(self, stream):
        """The records of a stream, with their positions, the last one first."""
        top = b"+"
        while found := self.before(stream, top):
            yield from found
            top = b"(" + found[-1][0]

    @reaches
    def before(self, stream, top, count=BACKWARDS):
        return self.paced(count, lambda count: self.redis.xrevrange(self.key(stream), top, count=count))

    @reaches
    def first(self, stream):
        """The first record that a stream keeps, with its position, if there is one."""
        return self.redis.xrange(self.key(stream), count=1)

    @reaches
    def has(self, stream, position):
        """Whether a record still stands at its position."""
        return bool(self.redis.xrange(self.key(stream), position, position))

    def end(self, stream):
        """The position of a stream's last record."""
        found = self.before(stream, b"+", 1)
        return found[0][0] if found else START

    def state(self):
        """The fields of the last batch: up to where the relay has taken the changes and the requests."""
        found = self.before("log", b"+", 1)
        return {field.decode(): value for field, value in found[0][1].items()} if found else {}

    def lag(self, taken):
        """How many changes wait, where so many were taken."""
        added, _, _ = self.counts()
        return added - taken if added else 0

    @reaches
    def counts(self):
        """How many changes were ever appended, how many of them are kept, and the position of the first one kept, or
        START."""
        answer, = self.send(("XINFO", "STREAM", self.key("changes")))
        if isinstance(answer, redis.ResponseError):  # there is no such stream
            return 0, 0, START
        found = dict(zip(answer[::2], answer[1::2]))
        if b"entries-added" not in found:
            raise Trouble("redis-server 7 is needed, and this one is older", UNUSABLE)
        return found[b"entries-added"], found[b"length"], found[b"first-entry"][0] if found[b"first-entry"] else START

    @reaches
    def memory(self):
        """How many bytes the engine has, and may have; 0 stands for no limit."""
        found = self.redis.info("memory")
        return {"redis": found["used_memory"], "limit": found["maxmemory"]}

    # ---- requests that were tried

    @reaches
    def tries(self):
        """The names of the relays that have begun with each request, and haven't done it."""
        return self.redis.hgetall(self.key("tries"))

    @reaches
    def note_tries(self, names):
        self.redis.hset(self.key("tries"), mapping=names)

    @reaches
    def forget_tries(self, positions):
        self.redis.hdel(self.key("tries"), *positions)

    # ---- signs of life

    @reaches
    def sign(self, beat, taken):
        """A sign of life of the relay that has taken so many changes."""
        (seconds, micros), lag = self.redis.time(), self.lag(taken)
        self.redis.hset(self.key("life"), mapping={"beat": beat, "at": 1000 * seconds + micros // 1000, "lag": lag})

    @reaches
    def beat(self, name):
        """A sign of life of a client, for the lease of its name."""
        self.redis.hincrby(self.key("beats"), name, 1)

    @reaches
    def beats(self):
        """How many signs of life the clients of each name have given."""
        return self.redis.hgetall(self.key("beats"))

    @reaches
    def forget(self, names):
        self.redis.hdel(self.key("beats"), *names)

    @reaches
    def life(self, *more):
        """The relay's last sign of life: how many seconds ago it gave it (`age`), its `lag`, and more of its fields.
        None where no relay gave one."""
        with self.redis.pipeline(transaction=False) as pipe:
            fields = "at", "lag", *more
            (seconds, micros), found = pipe.time().hmget(self.key("life"), fields).execute()
        if not found[0]:
            return None
        with reading(self.key("life")):
            found = {field: (value or b"0").decode() for field, value in zip(fields, found)}
            return {**found, "age": max(0.0, seconds + micros / 1e6 - int(found["at"]) / 1000)}


def answer_of(connection):
    try:
        return connection.read_response()
    except redis.ResponseError as refusal:
        return refusal


def order(position):
    """Positions of a stream compare by this: their time, and their number in it."""
    return tuple(map(int, position.split(b"-")))
