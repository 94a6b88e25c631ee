"""The Python module under signals: a call that is cut by a signal's exception has happened or hasn't. No lock is kept,
and no slot is lost or freed for another query.

    tests/python/interrupts.py [--full]

Each call of the package is cut at each of its bytecodes by a trace function, and many are cut by a real timer. After
that another thread uses the volume, and its queries are read on or opened again. After each eighth cut all 64 windows are
opened, read and dropped; the cuts before it are of the same volume where they have to do with slots. By ctypes, whose
calls have some thousand bytecodes, it is one in two to seven of them, and each with --full. `.ci/python` runs it by both
ways. The last line says how many cuts there were."""
import asyncio, atexit, dis, gc, os, queue, random, shutil, signal, sys, tempfile, threading, time, unittest, warnings

TOP = os.path.dirname(os.path.dirname(os.path.dirname(os.path.realpath(__file__))))
sys.dont_write_bytecode = True
sys.path.insert(0, os.environ.get("YAZGOULM_PACKAGE") or f"{TOP}/python")

import yazgoulm
from cuts import Cuts
from yazgoulm import FILE, FOLDER, ROOT, Cause, Place, Refused, Volume
from yazgoulm.folder import Folder

IS_FULL = "--full" in sys.argv
PACKAGE = os.path.dirname(os.path.realpath(yazgoulm.__file__))
SECONDS = int(os.environ.get("TEST_SECONDS", 60))  # in which a thread that isn't held up has made a call
REAL = 60 if IS_FULL else 3  # seconds of cuts by the timer
IS_FAST = IS_FULL or yazgoulm.backend == "extension"
SELDOM = 8  # cuts for one look at all windows
ROOM = tempfile.mkdtemp()
SAVED = f"{ROOM}/saved"  # a volume of one entry, or another one, but always a whole one
atexit.register(shutil.rmtree, ROOM)
GONE = "the query was dropped or finished"


class Cut(BaseException):
    """What the handler of a signal raises."""


class Tracer(Cuts):
    """Raises Cut at a bytecode of the package, counted from 0. At those that begin and end an exception's handler,
    where no signal is handled, Python itself goes wrong where a trace function raises: the next one is taken there."""

    raises, folder = Cut, PACKAGE
    BEGIN, END = dis.opmap.get("PUSH_EXC_INFO"), dis.opmap["POP_EXCEPT"]
    codes = {}  # the bytecodes of each code, which Python makes anew each time

    def may_cut(self, frame):
        code = self.codes.get(frame.f_code)
        if code is None:
            code = self.codes[frame.f_code] = frame.f_code.co_code
        at = frame.f_lasti
        return code[at] != self.BEGIN and self.END not in code[at : at + 6 : 2]


def is_cut_at(at, call):
    """Makes a call. False: it has fewer bytecodes."""
    return Tracer(at).cuts(call)


class Beside(Tracer):
    """Has something done at a bytecode at which the lock of a volume is free, counted from 0."""

    def __init__(self, at, handle, call):
        self.left, self.handle, self.call = at, handle, call

    def step(self, frame, event, _):
        if event == "opcode" and self.left >= 0 and not self.handle.is_mine():
            self.left -= 1
            if self.left < 0:
                self.call()
        return self.step


class Kept:
    """A lock that a signal's exception keeps: it comes after the block, and before what gives the lock back."""

    def __init__(self, lock):
        self.acquire, self.release, self._is_owned = lock.acquire, lock.release, lock._is_owned

    def __enter__(self):
        self.acquire()

    def __exit__(self, *_):
        raise Cut


class Elsewhere:
    """Another thread, which makes calls."""

    def __init__(self):
        self.calls, self.given = queue.Queue(), queue.Queue()
        threading.Thread(target=self.go, daemon=True).start()

    def go(self):
        while True:
            call = self.calls.get()
            try:
                self.given.put(call())
            except ValueError as error:
                self.given.put(error)

    def __call__(self, call):
        self.calls.put(call)
        return self.given.get(timeout=SECONDS)


def places(entries):
    return [Place(*it[:3]) for it in entries]


class Scene:
    """A volume with two queries that have messages to be read, and a row."""

    def __init__(self):
        self.volume = volume = Volume()
        self.folder = volume.create("folder", kind=FOLDER).node
        self.nodes = [volume.create(f"f{number}", self.folder, size=60 * number).node for number in range(4)]
        self.query = volume.open("size>100", moved=True, values=True)
        self.other, self.more = volume.open("size>=0"), []
        self.row, _ = self.query.rows[self.nodes[3]], self.query.rows[self.nodes[2]]
        volume.set(self.nodes[3], "a", "t")
        volume.write(self.nodes[2], 0, 0)
        volume.move(self.nodes[3], ROOT, "moved")

    def close_and_read(self):
        self.query.close()
        for _ in self.query:
            pass


async def awaited(it):
    async for message in it.query:
        if message.name == "moved":
            return


def dropped_at_the_end(it):
    with it.volume.open("name==f*") as query:
        query.read()


def forked(_):
    child = os.fork()
    if child == 0:
        os._exit(0)
    os.waitpid(child, 0)


def awakened(it):
    it.volume.wake = it.volume.ready
    it.volume.write(it.nodes[0], 500, 0)


# The calls, by whether they have to do with slots.
LINE = "a line that opens"  # a query, which nobody drops
SLOTS = {
    "drop": lambda it: it.query.drop(),
    "drop another": dropped_at_the_end,
    "finish": lambda it: it.query.finish(),
    "reopen": lambda it: it.query.reopen(),
    "open": lambda it: it.more.append(it.volume.open("size>$1", [1])),
    "open pushes": lambda it: it.volume.open([yazgoulm.Attr("size"), 1, yazgoulm.Op.GT]),
    "open what is no query": lambda it: it.volume.open("size>"),
    "forget": lambda it: setattr(it, "query", it.other),
    LINE: lambda it: it.volume.answer('{"do":"open","query":"size>7","port":9,"backlog":8}'),
}
OTHERS = {
    "Volume": lambda it: Volume(),
    "close": lambda it: it.volume.close(),
    "repr": lambda it: (repr(it.volume), repr(it.query), repr(it.row), repr(it.query.rows)),
    "wake": awakened,
    "answer": lambda it: it.volume.answer('{"do":"write","node":2,"size":7}'),
    "create": lambda it: it.volume.create("new", size=200),
    "create with attributes": lambda it: it.volume.create("new", size=200, attributes={"a": "t", "b": 1}),
    "remove": lambda it: it.volume.remove(it.nodes[1]),
    "remove a tree": lambda it: it.volume.remove(it.folder, recursive=True),
    "move": lambda it: it.volume.move(it.nodes[3], it.folder, "again"),
    "rename": lambda it: it.volume.rename(it.nodes[3], "again"),
    "write": lambda it: it.volume.write(it.nodes[1], 300, 1),
    "write a part": lambda it: it.volume.write(it.nodes[1], size=300),
    "apply": lambda it: it.volume.apply([("write", it.nodes[1], 300, 1), ("create", "new", 1, FILE, 200)]),
    "set": lambda it: (it.volume.set(it.nodes[3], "b", "t"), it.volume.set(it.nodes[3], "c", 7, "ULLG")),
    "unset": lambda it: it.volume.unset(it.nodes[3], "a"),
    "ready": lambda it: it.volume.ready(),
    "fetch": lambda it: (it.volume.fetch("size>1"), it.volume.fetch("size>$1", [1])),
    "find": lambda it: (it.volume.find("moved"), it.volume.find_path("/folder/f1")),
    "entry": lambda it: (it.volume.entry(it.nodes[3]), it.volume.attribute(it.nodes[3], "a")),
    "children": lambda it: it.volume.children(it.folder),
    "path": lambda it: (it.volume.path(it.nodes[0]), it.volume.changes),
    "save": lambda it: it.volume.save(SAVED),
    "load": lambda it: Volume.load(SAVED),
    "copy": lambda it: it.volume.copy(),
    "read": lambda it: it.query.read(),
    "iteration": lambda it: [*it.query],
    "read that waits": lambda it: it.query.read(timeout=1),
    "wait": lambda it: [*it.query.wait(timeout=0.0001)],
    "async for": lambda it: asyncio.run(awaited(it)),
    "result": lambda it: it.query.result(),
    "hang_up": lambda it: it.query.hang_up(),
    "close a query": lambda it: it.query.close(),
    "row": lambda it: (it.row.name, it.row.info),
    "refresh": lambda it: it.row.refresh(),
    "rows": lambda it: (it.query.rows.get(it.nodes[3]), [*it.query.rows], [*it.query.rows.items()]),
    "fork": forked,
}
DROPS = {"drop", "finish", "reopen"}  # which may leave `query` dropped
BEFORE = {"finish": Scene.close_and_read, "fork": lambda _: gc.collect()}
cuts = {"by bytecode": 0, "by the timer": 0}


class Signals(unittest.TestCase):
    @classmethod
    def setUpClass(cls):
        cls.elsewhere = staticmethod(Elsewhere())
        hook = sys.unraisablehook
        sys.unraisablehook = lambda it: None if it.exc_type is Cut else hook(it)
        cls.addClassCleanup(setattr, sys, "unraisablehook", hook)
        warnings.simplefilter("ignore", DeprecationWarning)  # later Pythons warn of each fork beside a thread
        volume = Volume()
        volume.create("of one")
        volume.save(SAVED)

    def each_bytecode(self, calls, step=1, is_same=False):
        """Cuts each call at each `step` bytecodes. With `is_same` some cuts have the same volume, so that slots which
        are lost add up."""
        for name, call in calls.items():
            with self.subTest(name):
                count, is_over = 0, False
                while not is_over:
                    if count % SELDOM == 0 or not is_same or name == LINE:
                        it = Scene()
                    BEFORE.get(name, id)(it)
                    self.changes = it.volume.changes
                    is_over = not is_cut_at(count * step, lambda: self.once(call, it))
                    count += 1
                    self.whole(name, it, count % SELDOM == 0 or is_over)
                cuts["by bytecode"] += count - 1

    def once(self, call, it):
        try:
            call(it)
        except Refused:
            self.assertIn(call, SLOTS.values())

    def whole(self, name, it, has_all):
        """Another thread uses the volume, each query goes on, and all slots are there."""
        volume = it.volume
        try:
            count = self.elsewhere(lambda: volume.changes)
        except queue.Empty:
            self.__class__.elsewhere = staticmethod(Elsewhere())
            self.fail("the lock is kept")
        if name == "close":
            volume.close()
            self.assertEqual(repr(volume), "<Volume, closed>")
            return
        self.assertLessEqual(self.changes, count)
        if name == "save":
            self.assertIn(Volume.load(SAVED).changes, (1, count))
            self.assertEqual(os.listdir(ROOM), ["saved"])
        if name == "close a query":
            self.assertEqual(it.query.close(), count)
        queries = [*{it.query: None, it.other: None, **dict.fromkeys(it.more)}]
        for query in queries:
            self.goes_on(name, volume, query)
        if has_all:
            self.windows(name, volume, queries)

    def goes_on(self, name, volume, query):
        if query.slot is None:
            self.assertIn(name, DROPS)
            with self.assertRaisesRegex(ValueError, GONE):
                query.read()
            query.reopen()
        for _ in query:
            pass
        if query.mark is not None:
            self.assertIn((name, query.mark.cause), [
                ("close a query", Cause.CLOSED), ("finish", Cause.CLOSED), ("hang_up", Cause.HUNG_UP)
            ])  # fmt: skip
            query.reopen()
        found = volume.fetch(query.formula, query._bound[0] if query._bound else None)
        self.assertEqual(query.result().entries, places(found))
        self.assertEqual([row.place for _, row in sorted(query.rows.items())], places(found))
        if query.formula == "size>100":
            self.assertEqual([row.info.size for _, row in sorted(query.rows.items())], [it.size for it in found])

    def windows(self, name, volume, queries):
        """Each slot that no query has can be opened, and each query reads its own messages."""
        of_lines = [9] if name == LINE else []
        room, windows = 64 - len(queries), []
        try:
            for _ in range(room):
                windows.append(volume.open("size>100"))
        except Refused:
            self.assertTrue(of_lines)
        slots = [it.slot for it in queries + windows]
        self.assertEqual(len({*slots}), len(slots))
        self.assertIn(room - len(windows), [0, len(of_lines)])
        node = volume.create("of all", size=200).node
        for it in queries + windows:
            self.assertEqual([message.node for message in it], [node])
        for it in windows[::2] + windows[1::2]:
            it.drop()
        self.assertEqual(volume.ready(), [])

    def test_drops_at_each_bytecode(self):
        self.each_bytecode({name: SLOTS[name] for name in DROPS}, 1 if IS_FAST else 2, True)

    def test_openings_at_each_bytecode(self):
        calls = {name: call for name, call in SLOTS.items() if name not in DROPS}
        self.each_bytecode(calls, 1 if IS_FAST else 2, True)

    def test_other_calls_at_each_bytecode(self):
        alone = {"read", "iteration", "row", "refresh", "fork", "close a query"}  # which have a test of their own
        calls = {name: call for name, call in OTHERS.items() if name not in alone}
        self.each_bytecode(calls, 1 if IS_FAST else 7)

    def test_messages_at_each_bytecode(self):
        """The reads alone."""
        self.each_bytecode({name: OTHERS[name] for name in ("read", "iteration")})

    def test_rows_at_each_bytecode(self):
        """What a row looks up alone."""
        self.each_bytecode({name: OTHERS[name] for name in ("row", "refresh")})

    def test_a_wait_that_is_cut_keeps_no_query(self):
        """What may be left of it goes with the query, whose slot is free then."""
        count, is_over = 0, False
        while not is_over:
            volume = Volume()
            query = volume.open("size>0")
            is_over = not is_cut_at(count, lambda: query.read(timeout=0.0001))
            del query
            self.assertEqual(len([volume.open("size>0") for _ in range(64)]), 64)
            count += 1
        cuts["by bytecode"] += count - 1

    def test_a_line_beside_a_drop_that_is_cut(self):
        """Another thread's drop has freed its slot when it is cut, and hasn't forgotten it: a line has the slot now."""
        count, is_over = 0, False
        while not is_over:
            volume = Volume()
            queries = volume._queries
            query = volume.open("size>0")

            class Once(dict):
                def pop(self, *_):
                    volume._queries = queries
                    raise Cut

            def cut():
                volume._queries = Once(queries)
                turned, volume._turned = volume._turned, lambda: None  # by the next signal
                try:
                    query.drop()
                except Cut:
                    volume._turned = turned

            beside = Beside(count, volume._handle, lambda: self.elsewhere(cut))
            is_over = not beside.cuts(lambda: volume.answer('{"do":"open","query":"size>7","port":9,"backlog":8}'))
            if is_over:
                query.drop()
            windows = []
            with self.assertRaises(Refused):
                for _ in range(64):
                    windows.append(volume.open("size>0"))
            self.assertEqual(len(windows), 63)
            count += 1
        self.assertGreater(count, 3)

    def test_a_folder_that_nobody_has_at_each_bytecode(self):
        """What closes it may be cut: nobody hears of that, and the lock of its volume is free."""
        volume, count, is_over = Volume(), 0, False
        with tempfile.TemporaryDirectory() as room:
            while not is_over:
                held = [Folder(room, volume)]
                is_over = not is_cut_at(count, held.clear)
                try:
                    self.elsewhere(lambda: volume.changes)
                except queue.Empty:
                    self.__class__.elsewhere = staticmethod(Elsewhere())
                    self.fail(f"the lock is kept after {count} bytecodes")
                count += 1
        cuts["by bytecode"] += count - 1

    @unittest.skipIf(yazgoulm.backend == "extension", "its lock is given back by C")
    def test_a_second_signal_at_each_bytecode(self):
        """It comes while the lock is given back for the first one's exception."""

        def raises():
            raise Cut

        for call in (lambda it: it.locked(raises), lambda it: it.tried(raises, False)):
            count, is_over = 0, False
            while not is_over:
                handle = Volume()._handle
                handle._lock = Kept(handle._lock)
                tracer = Tracer(count)
                tracer.cuts(lambda: call(handle))
                is_over = tracer.left >= 0
                self.assertFalse(handle.is_mine(), f"after {count} bytecodes")
                count += 1
            self.assertGreater(count, 20)
            cuts["by bytecode"] += count - 1

    def test_forks_at_each_bytecode(self):
        """What is done before a fork and after it."""
        self.each_bytecode({"fork": OTHERS["fork"]}, 1 if IS_FAST else 3)

    def test_a_query_that_is_closed_at_each_bytecode(self):
        """Its close alone."""
        self.each_bytecode({"close a query": OTHERS["close a query"]})

    def test_signals_of_a_timer(self):
        """They come at any time in a call, and their handler raises."""
        draw, until, calls = random.Random(7), time.monotonic() + REAL, {**SLOTS, **OTHERS}
        del calls["async for"]  # most of which is Python's own code
        is_armed = False

        def handle(*_):
            if is_armed:
                raise Cut

        self.addCleanup(signal.signal, signal.SIGALRM, signal.signal(signal.SIGALRM, handle))
        while time.monotonic() < until + (SECONDS if cuts["by the timer"] <= 20 else 0):  # few come on a busy machine
            name = draw.choice([*calls])
            it, was_cut = Scene(), False
            BEFORE.get(name, id)(it)
            self.changes = it.volume.changes
            try:
                is_armed = True
                signal.setitimer(signal.ITIMER_REAL, draw.uniform(1e-6, 2e-4))
                self.once(calls[name], it)
            except Cut:
                was_cut = True
            finally:
                is_armed = False
                signal.setitimer(signal.ITIMER_REAL, 0)
            cuts["by the timer"] += was_cut
            with self.subTest(name):
                self.whole(name, it, draw.random() < 0.2)
        self.assertGreater(cuts["by the timer"], 20)


if __name__ == "__main__":
    sys.argv = [it for it in sys.argv if it != "--full"]
    ended = unittest.main(exit=False).result
    print(f"cuts: {cuts['by bytecode']} by bytecode, {cuts['by the timer']} by the timer")
    sys.exit(not ended.wasSuccessful())
