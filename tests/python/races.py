"""The Python module on several threads: calls come one after another, whatever thread makes them. Threads are switched
as often as Python can; names of bytes and paths have Python work within a call.

    tests/python/races.py [--full]

`.ci/python` runs it by both ways. Each pair of methods is tried by one of them, and by both with --full."""
import asyncio, itertools, os, sys, threading, time, unittest

TOP = os.path.dirname(os.path.dirname(os.path.dirname(os.path.realpath(__file__))))
sys.dont_write_bytecode = True
sys.path.insert(0, os.environ.get("YAZGOULM_PACKAGE") or f"{TOP}/python")

from yazgoulm import FILE, FOLDER, ROOT, Overrun, Place, Refused, Volume, backend

IS_FULL = "--full" in sys.argv
PAIR = 0.004  # seconds for two methods beside each other
GONE = "the query was dropped or finished"
CLOSED = "the volume is closed"
NOT_OPEN = 25  # which no method meets, since it knows its slot


class Slow(os.PathLike):
    """A name that takes a while to be said."""

    def __init__(self, name):
        self.name = name

    def __fspath__(self):
        time.sleep(0.0001)
        return self.name


def places(entries):
    return [Place(*it[:3]) for it in entries]


def change(volume, number):
    """A file comes and goes, in four changes."""
    name = b"\xff%d" % number
    node = volume.create(name, size=200).node
    volume.write(node, 50, 0)
    volume.move(node, ROOT, Slow(name) if number % 8 == 0 else name + b"\xfe")
    volume.remove(node)


class Case(unittest.TestCase):
    def setUp(self):
        interval = sys.getswitchinterval()
        self.addCleanup(sys.setswitchinterval, interval)
        sys.setswitchinterval(1e-6)
        self.caught = []

    def beside(self, *calls):
        """Threads that make calls until `done`, which is returned with them. What is raised is kept."""
        done = threading.Event()

        def again(call):
            try:
                while not done.is_set():
                    call()
            except BaseException as error:
                self.caught.append(error)

        threads = [threading.Thread(target=again, args=(call,)) for call in calls]
        for thread in threads:
            thread.start()
        return done, threads

    def ended(self, done, threads):
        done.set()
        for thread in threads:
            thread.join(60)
            self.assertFalse(thread.is_alive(), "a thread waits for ever")
        if self.caught:
            raise self.caught[0]


class Windows(Case):
    def test_a_window_is_not_read_by_who_read_the_one_before_it(self):
        """One thread reads a query that another drops; the next query has its slot, and gets all of its messages."""
        volume, shared, count = Volume(), [], itertools.count()

        def read():
            for query in shared[:]:
                try:
                    for _ in query:
                        pass
                except ValueError as error:
                    if str(error) != GONE:
                        raise

        beside = self.beside(read, read, lambda: change(volume, next(count)))
        try:
            for number in range(150):
                query = volume.open("size>100")
                shared[:] = [query]
                volume.create(b"\xee%d" % number, size=200)
                time.sleep(0.0002)
                query.drop()
                window = volume.open("size>100")
                self.assertEqual(window.slot, 1)
                node = volume.create(b"\xef%d" % number, size=200).node
                volume.remove(node)
                read = [*window]
                self.assertEqual([it.seq for it in read], [*range(1, len(read) + 1)])
                self.assertEqual([it.node for it in read if it.node == node], [node, node])
                window.drop()
        finally:
            self.ended(*beside)

    def test_reopen_beside_readers(self):
        """The rows are the result, and no reader meets anything but messages."""
        for moved in (False, True):
            volume, count = Volume(), itertools.count()
            query = volume.open("size>100", moved=moved)

            def read():
                for message in query:
                    self.assertIn(message.op, (1, 2, 3))
                for row in query.rows.values():
                    self.assertIsInstance(row.name, str)

            beside = self.beside(read, read, lambda: change(volume, next(count)))
            try:
                for number in range(100):
                    volume.create(b"\xed%d" % number, size=200)
                    query.reopen()
            finally:
                self.ended(*beside)
            self.same(volume, query)

    def same(self, volume, query):
        """What a query shows, once all is read, is what a fetch finds."""
        for _ in query:
            pass
        found = places(volume.fetch(query.formula))
        self.assertEqual(query.result().entries, found)
        self.assertEqual([row.place for _, row in sorted(query.rows.items())], found)

    def test_a_row_that_is_read_beside_its_messages(self):
        """It shows a place that its entry had, and the last one once it has left."""
        volume = Volume()
        query = volume.open("size>100", moved=True)
        node = volume.create("0", size=200).node
        [*query]
        row, seen = query.rows[node], []
        beside = self.beside(lambda: [*query], lambda: seen.append(int(row.name)), lambda: row.refresh())
        try:
            for number in range(1, 500):
                volume.move(node, ROOT, str(number))
            volume.write(node, 1, 0)
        finally:
            self.ended(*beside)
        [*query]
        self.assertEqual(seen, sorted(seen))
        row.refresh()
        self.assertEqual((row.name, row.info.name, row.info.size, len(query.rows)), ("499", "499", 1, 0))


class Methods(Case):
    """Each method beside each other one. They share a volume and a query; another query is read by neither, and its
    messages have to be whole."""

    def begin(self):
        self.volume, self.numbers = Volume(), itertools.count()
        self.folder = self.volume.create("folder", kind=FOLDER).node
        self.nodes = [self.volume.create(f"f{number}", size=50 * number).node for number in range(6)]
        self.volume.set(self.nodes[0], "a", "t")
        self.query = self.volume.open("size>100", backlog=64, moved=True)
        self.other = self.volume.open("size>=0")
        self.row = self.query.rows[self.nodes[5]]

    def node(self):
        return self.nodes[next(self.numbers) % len(self.nodes)]

    def name(self):
        return b"\xff%d" % next(self.numbers)

    def come_and_go(self):
        """Files come into the result of `query`, move within it and leave it."""
        for node in self.nodes[2:]:
            self.volume.write(node, next(self.numbers) % 2 * 200, 0)
        self.volume.move(self.nodes[5], ROOT, self.name())

    def drop_another(self):
        with self.volume.open("name==f*", backlog=3) as query:
            query.read()

    def forget_another(self):
        self.volume.open("size>1", backlog=3)

    def of_volume(self):
        volume = self.volume
        return {
            "close": volume.close,
            "repr": lambda: repr(volume),
            "wake": lambda: setattr(volume, "wake", volume.ready if volume.wake is None else None),
            "answer": lambda: volume.answer('{"do":"write","node":%d,"size":%d}' % (self.node(), next(self.numbers))),
            "changes": lambda: volume.changes,
            "create": lambda: volume.create(self.name(), size=200),
            "remove": lambda: volume.remove(volume.create(self.name(), size=200).node),
            "move": lambda: volume.move(self.node(), ROOT, self.name()),
            "apply": lambda: volume.apply([("create", self.name(), ROOT, FILE, 200)]),
            "write": lambda: volume.write(self.node(), next(self.numbers) % 2 * 200, 0),
            "set": lambda: volume.set(self.nodes[0], b"a\xff", "t"),
            "unset": lambda: volume.unset(self.nodes[0], b"a\xff"),
            "open, drop": self.drop_another,
            "open, del": self.forget_another,
            "ready": volume.ready,
            "fetch": lambda: self.assertEqual({*map(len, volume.fetch("size>100"))} - {6}, set()),
            "find": lambda: volume.find(b"\xff1"),
            "find_path": lambda: volume.find_path(Slow("/folder")),
            "entry": lambda: self.assertIn(volume.entry(self.nodes[0]).kind, (FILE, FOLDER)),
            "attribute": lambda: self.assertEqual(volume.attribute(self.nodes[0], "a").value, "t"),
            "children": lambda: volume.children(),
            "path": lambda: volume.path(self.nodes[1]),
        }

    def await_one(self):
        """Waits a moment for a message, on a loop of its own."""
        async def one():
            try:
                await asyncio.wait_for(self.query.__anext__(), 0.0005)
            except (asyncio.TimeoutError, StopAsyncIteration):
                pass

        asyncio.run(one())

    def of_query(self):
        query = self.query
        return {
            "Query.read": query.read,
            "read that waits": lambda: query.read(timeout=0.0005),
            "iteration": lambda: [*query],
            "async for": self.await_one,
            "result": query.result,
            "hang_up": query.hang_up,
            "Query.close": query.close,
            "finish": query.finish,
            "drop": query.drop,
            "reopen": query.reopen,
            "Query repr": lambda: repr(query),
            "rows": lambda: [query.rows.get(node) for node in query.rows],
            "rows items": lambda: [(node, row.name) for node, row in query.rows.items()],
            "rows values": lambda: [row.place for row in query.rows.values()],
            "row": lambda: (self.row.place, self.row.name, len(query.rows), self.row.node in query.rows),
            "row info": lambda: self.row.info,
            "refresh": lambda: self.row.refresh(),
        }

    def once(self, call):
        """A call, which may be refused where the other one of its pair gives a reason."""
        try:
            call()
        except Overrun:
            self.query.reopen()
        except Refused as refused:
            if refused.code == NOT_OPEN:
                raise
        except ValueError as error:
            if str(error) == GONE:
                self.query.reopen()
            elif str(error) != CLOSED:
                raise

    def test_each_method_beside_each_other_one(self):
        self.begin()
        names = [*self.of_volume(), *self.of_query()]
        for number, (one, other) in enumerate(itertools.combinations_with_replacement(names, 2)):
            if not IS_FULL and number % 2 != (backend == "extension"):
                continue
            with self.subTest(f"{one} beside {other}"):
                self.begin()
                calls = {**self.of_volume(), **self.of_query()}
                closes = "close" in (one, other)
                beside = self.beside(lambda: self.once(calls[one]), lambda: self.once(calls[other]))
                try:
                    until = time.monotonic() + PAIR
                    while time.monotonic() < until:
                        self.once(self.come_and_go)
                finally:
                    try:
                        self.ended(*beside)
                    except ValueError as error:
                        if not closes or str(error) != CLOSED:
                            raise
                    finally:
                        self.caught.clear()
                if not closes:
                    self.whole()
                if not closes and {one, other} & {"open, drop", "open, del", "finish", "drop", "reopen"}:
                    more = [self.volume.open("size>1") for _ in range(62)]  # a slot for each query that anybody has
                    self.assertEqual(sorted(it.slot for it in [self.query, self.other, *more]), [*range(1, 65)])

    def whole(self):
        """Both queries show what a fetch finds, and nobody waits."""
        self.assertFalse(self.volume._waiting)
        read = [*self.other]
        self.assertEqual([it.seq for it in read], [*range(1, len(read) + 1)])
        self.assertEqual(self.other.result().entries, places(self.volume.fetch("size>=0")))
        if self.query.slot is None or self.query.mark is not None:
            self.query.reopen()
        try:
            [*self.query]
        except Overrun:
            self.query.reopen()
        if self.query.mark is not None:
            self.query.reopen()
        self.assertEqual(self.query.result().entries, places(self.volume.fetch("size>100")))


if __name__ == "__main__":
    sys.argv = [it for it in sys.argv if it != "--full"]
    unittest.main()
