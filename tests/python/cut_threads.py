"""The Python module on threads, under signals, for as long as one likes: each call is compared with a model.

    tests/python/cut_threads.py SECONDS [SEED]

In each round some threads share one to three volumes. Each has a folder of a volume that it alone changes, and so a model
of it, windows, and some a folder on disk. The main thread's calls are cut, at any line, by a timer and by SIGINT from
another thread, as by Ctrl-C: the exception of the handler comes out of the call. Then the volume says whether the change
was made, the window which messages were read, and both have to be as the model before the call or after it. The other
threads go on, and what they see is the model's without a doubt. At the end of a round no thread waits, and in each volume
all slots that no window has are opened, read and dropped. It prints a table of what it did; status 0: all was right.
`.ci/long` runs it, by the extension and by ctypes, on each Python that there is."""
import asyncio, collections, faulthandler, gc, itertools, json, os, random, shutil, signal, sys, tempfile, threading, time
import warnings
from typing import NamedTuple

from interrupts import BEFORE, DROPS, GONE, OTHERS, SLOTS, Cut, places

import yazgoulm
from yazgoulm import FILE, FOLDER, Attr, Cause, Op, Overrun, Place, Query, Refused, Row, Volume
from yazgoulm._volume import Rows
from yazgoulm.folder import Folder, Window

ROUND = 1.5  # seconds in which calls are made
HELD_UP = 600  # seconds after which a thread waits for a lock that is kept, also on a busy machine
PROCESS = os.getpid()
NO_NODE, EXISTS, NOT_EMPTY, IS_FOLDER, NO_ATTR = 2, 5, 7, 9, 10
TYPES = {"CSTR": "a text", "LONG": -7, "LLNG": 1 << 40, "ULNG": 7, "ULLG": 1 << 63}
LOOP = asyncio.new_event_loop()  # of all futures; it never runs
counts = collections.Counter()
ignored = []  # exceptions of the package that Python ignored


class Wrong(Exception):
    """What differs from the model."""


def need(is_right, *what):
    if not is_right:
        raise Wrong(" ".join(map(str, what))[:3000])


# ---- calls that are cut


class Signals:
    """Cuts calls of the main thread: each at most once."""

    def __init__(self, draw):
        self.draw, self.is_armed, self.is_over = draw, False, threading.Event()
        signal.signal(signal.SIGALRM, self.handle)
        signal.signal(signal.SIGINT, self.handle)
        threading.Thread(target=self.press, args=(draw.random(),), daemon=True).start()

    def handle(self, number, _):
        if self.is_armed and os.getpid() == PROCESS:
            self.is_armed = False
            counts["cut by a timer" if number == signal.SIGALRM else "cut by SIGINT from a thread"] += 1
            raise Cut

    def press(self, seed):
        draw = random.Random(seed)
        while not self.is_over.wait(draw.uniform(0, 2e-3)):
            os.kill(PROCESS, signal.SIGINT)

    def __call__(self, call):
        """Makes a call that may be cut. Returns whether it was, what it gave, and what it raised otherwise."""
        given = error = None
        try:
            try:
                signal.setitimer(signal.ITIMER_REAL, 10 ** self.draw.uniform(-5.5, -3))
                self.is_armed = True
                given = call()
                self.is_armed = False
            finally:
                self.is_armed = False
                signal.setitimer(signal.ITIMER_REAL, 0)
        except Cut:
            return True, None, None
        except Exception as raised:
            if isinstance(raised.__cause__, Cut):  # until 3.10 os.lstat makes a SystemError of it
                return True, None, None
            error = raised
        return False, given, error


def plain(call):
    """Makes a call of a thread that no signal comes to."""
    try:
        return False, call(), None
    except Exception as error:
        return False, None, error


# ---- a folder of a volume, its model, and windows on it


class Entry(NamedTuple):
    node: int  # None: it was just made
    kind: str
    size: int
    time: int
    attributes: tuple = ()


def is_same(model, found):
    return model.keys() == found.keys() and all(
        it.node in (None, found[path].node) and it[1:] == found[path][1:] for path, it in model.items()
    )


class User:
    """Who has a folder of a volume, which nobody else changes. `state` has what is in it by path. The calls of a window
    are those of interrupts.py, for which it has the same names as a scene there."""

    CALLS = {name: {**SLOTS, **OTHERS}[name] for name in (
        "drop", "drop another", "finish", "reopen", "open", "open pushes", "open what is no query", "forget", "repr",
        "ready", "fetch", "result", "hang_up", "close a query", "row", "refresh", "rows",
    )}  # fmt: skip
    # What is called by C alone has its list, or is cut before that.
    CALLS.update({
        "read": lambda it: it.got.extend(map(it.query.read, [0])),
        "read that waits": lambda it: it.got.extend(map(it.query.read, [0.0005])),
        "iteration": lambda it: it.got.extend(it.query),
        "wait": lambda it: it.got.extend(it.query.wait(timeout=0.0001)),
        "await": lambda it: it.await_one(),
        "read the shared": lambda it: it.read_shared(),
        "reopen another": lambda it: it.other.reopen(),
        "another volume": lambda it: it.make_another(),
    })  # fmt: skip

    def __init__(self, volume, number, draw, tried=plain, is_alone=False):
        self.volume, self.draw, self.tried, self.is_alone = volume, draw, tried, is_alone
        self.name, self.state, self.shared = f"u{number}-", {}, None
        self.folder = volume.create(f"user{number}", kind=FOLDER).node
        self.nodes = [self.folder] * 4
        self.formula = f"name=={self.name}*&&size>$1"
        self.query, self.more = None, []
        self.begin()
        self.other = volume.open("size>=0", backlog=draw.choice([2, 65_536]), on_overrun=draw.choice(["raise", "mark"]))

    def begin(self):
        """Opens the window that is compared with the model."""
        self.least = self.draw.choice([0, 300, 600])
        options = {"moved": self.draw.random() < 0.5, "values": self.draw.random() < 0.5}
        self.has_values = options["values"]
        self.query = self.volume.open(self.formula, [self.least], **options)
        self.got, self.cuts, self.lost, self.row = [], 0, 0, None

    def step(self):
        act = self.draw.random()
        counts["calls"] += 1
        if act < 0.5:
            self.change()
        elif act < 0.65:
            self.look()
        else:
            self.use_window()

    # the tree

    def nodes_of(self, path):
        """The node of the folder that a path is in."""
        return self.state[path.rpartition("/")[0]].node if "/" in path else self.folder

    def place(self):
        folders = [path for path, it in self.state.items() if it.kind == FOLDER]
        parent = self.draw.choice([*folders, "", ""])
        return (parent and parent + "/") + f"{self.name}{self.draw.randrange(8)}"

    def some(self):
        """The path of an entry, seldom one that isn't there, and its node."""
        path = self.draw.choice([*self.state, "none"])
        return path, self.state[path].node if path in self.state else 1 << 50

    def change(self):
        """Draws a change. It is refused, or has gone through some of the states that it should, in their order."""
        words = "create create create remove tree move move rename write write set set unset line"
        word = self.draw.choice(words.split())
        call, code, *states = getattr(self, f"to_{word}")()
        changes = self.volume.changes if self.is_alone else 0
        was_cut, given, error = self.tried(call)
        if not was_cut:
            need(getattr(error, "code", error) == code, word, "raised", repr(error), "and not", code)
            if code is None:
                self.state = self.known(states[-1], given.node)
        if was_cut or self.draw.random() < 0.05:
            found = self.found()
            states = [self.state, *states] if was_cut and code is None else [self.state]
            right = [number for number, state in enumerate(states) if is_same(state, found)]
            need(right, word, "has left", found, "of", states)
            if was_cut and self.is_alone:
                made = self.volume.changes - changes
                need(made in right, word, "made", made, "changes of", right)
            counts["changes that were cut, and made" if right[-1] else "changes that were cut, and not made"] += was_cut
            self.state = found
        counts["changes"] += 1

    @staticmethod
    def known(state, node):
        return {path: it if it.node else it._replace(node=node) for path, it in state.items()}

    def found(self):
        """What the volume has."""
        found, left = {}, [("", self.folder)]
        while left:
            at, folder = left.pop()
            for it in self.volume.children(folder):
                info = self.volume.entry(it.node)
                attributes = tuple((name, info.types[name], value) for name, value in info.attributes.items())
                found[at + it.name] = Entry(it.node, info.kind, info.size, info.time, attributes)
                if info.kind == FOLDER:
                    left.append((f"{at}{it.name}/", it.node))
        return found

    def to_create(self):
        draw, path = self.draw, self.place()
        is_folder = draw.random() < 0.2 and "/" not in path
        made = Entry(None, FOLDER if is_folder else FILE, 0 if is_folder else draw.randrange(1000), draw.randrange(100))
        states = [{**self.state, path: made}]
        attributes = None
        if draw.random() < 0.3:
            types = draw.sample([*TYPES], draw.randrange(3))
            attributes = {f"a{number}": (TYPES[type], type) for number, type in enumerate(types)}
            for number, type in enumerate(types):
                made = made._replace(attributes=(*made.attributes, (f"a{number}", type, TYPES[type])))
                states.append({**self.state, path: made})
        given = path.rpartition("/")[2], self.nodes_of(path), made.kind, made.size, made.time, attributes
        return lambda: self.volume.create(*given), EXISTS if path in self.state else None, *states

    def to_line(self):
        """A change by a line, whose reply is taken for what a call gives or raises."""
        path, made = self.place(), Entry(None, FILE, self.draw.randrange(1000), 0)
        fields = {"do": "create", "name": path.rpartition("/")[2], "dir": self.nodes_of(path), "size": made.size}

        def call():
            reply = json.loads(self.volume.answer(json.dumps(fields)))
            if "code" in reply:
                raise Refused(reply["code"], reply["error"])
            return yazgoulm.Applied(reply["change"], reply["node"])

        return call, EXISTS if path in self.state else None, {**self.state, path: made}

    def below(self, path):
        return [it for it in self.state if it.startswith(path + "/")]

    def to_remove(self):
        path, node = self.some()
        code = NO_NODE if path == "none" else NOT_EMPTY if self.below(path) else None
        return lambda: self.volume.remove(node), code, self.without(path)

    def to_tree(self):
        """What is in a folder goes first, the last one by its name first."""
        path, node = self.some()
        states = [self.state]
        for each in [*sorted(self.below(path), reverse=True), path]:
            states.append({it: states[-1][it] for it in states[-1] if it != each})
        return lambda: self.volume.remove(node, recursive=True), NO_NODE if path == "none" else None, *states[1:]

    def without(self, path):
        return {it: entry for it, entry in self.state.items() if it != path}

    def to_move(self, parent=None):
        (path, node), to = self.some(), self.place()
        if parent is not None and path != "none":
            to = path[: -len(path.rpartition("/")[2])] + to.rpartition("/")[2]
        entry, there = self.state.get(path), self.state.get(to)
        if entry is None or to == path or (entry.kind == FOLDER and "/" in to):
            return self.to_write()
        clobber = self.draw.random() < 0.5 and not (there and FOLDER in (there.kind, entry.kind))
        state = {
            to if it == path else to + it[len(path) :] if it.startswith(path + "/") else it: entry
            for it, entry in self.state.items() if it != to
        }  # fmt: skip
        name, code = to.rpartition("/")[2], EXISTS if there and not clobber else None
        if parent is None:
            return lambda: self.volume.move(node, self.nodes_of(to), name, clobber), code, state
        return lambda: self.volume.rename(node, name, clobber), code, state

    def to_rename(self):
        return self.to_move("")

    def to_write(self):
        path, node = self.some()
        size, time = self.draw.randrange(1000), self.draw.randrange(100)
        given = self.draw.choice([{"size": size}, {"time": time}, {"size": size, "time": time}])
        entry = self.state.get(path)
        code = NO_NODE if entry is None else IS_FOLDER if entry.kind == FOLDER else None
        return lambda: self.volume.write(node, **given), code, {**self.state, path: entry and entry._replace(**given)}

    def to_set(self):
        (path, node), attr, type = self.some(), f"a{self.draw.randrange(3)}", self.draw.choice([*TYPES])
        value, entry = TYPES[type], self.state.get(path)
        attributes = {it[0]: it for it in entry.attributes} if entry else {}
        attributes[attr] = attr, type, value
        state = {**self.state, path: entry and entry._replace(attributes=tuple(attributes.values()))}
        return lambda: self.volume.set(node, attr, value, type), None if entry else NO_NODE, state

    def to_unset(self):
        (path, node), attr = self.some(), f"a{self.draw.randrange(3)}"
        entry = self.state.get(path)
        left = tuple(it for it in entry.attributes if it[0] != attr) if entry else ()
        code = NO_NODE if entry is None else NO_ATTR if left == entry.attributes else None
        state = {**self.state, path: entry and entry._replace(attributes=left)}
        return lambda: self.volume.unset(node, attr), code, state

    def look(self):
        """A call that changes nothing, and gives what the model has."""
        volume, (path, node) = self.volume, self.some()
        entry = self.state.get(path)
        if entry is None:
            call, wanted = lambda: sorted(it.name for it in volume.children(self.folder)), sorted(
                it for it in self.state if "/" not in it
            )
        else:
            dir, name = self.nodes_of(path), path.rpartition("/")[2]
            mine = sorted(it.node for it in self.state.values())
            pushes = [Attr("name"), name, Op.EQ, Attr("size"), entry.size, Op.EQ, Op.AND]
            looks = [
                (lambda: volume.find(name, dir), node),
                (lambda: volume.find_path(path, self.folder), node),
                (lambda: volume.path(node), f"/user{self.name[1:-1]}/{path}"),
                (lambda: volume.entry(node).size, entry.size),
                (lambda: node in [it.node for it in volume.fetch(pushes)], True),
                (lambda: [it.node for it in volume.fetch(self.formula, [-1])], mine),
            ]
            looks += [(lambda: volume.attribute(node, it[0]).value, it[2]) for it in entry.attributes[:1]]
            call, wanted = self.draw.choice(looks)
        was_cut, given, error = self.tried(call)
        need(was_cut or (error is None and given == wanted), "a look gave", given, repr(error), "and not", wanted)

    # the windows

    def use_window(self):
        name = self.draw.choice([*self.CALLS])
        self.row = self.query.rows.get(self.draw.choice([*self.query.rows, None]))
        if name in ("row", "refresh") and self.row is None or len(self.more) > 2:
            name = "iteration"
        BEFORE.get(name, id)(self) if name != "finish" else self.close_and_read()
        was_cut, _, error = self.tried(lambda: self.CALLS[name](self))
        self.cuts += was_cut
        refused = {"open what is no query": yazgoulm.BadQuery, "read the shared": Overrun}
        need(error is None or type(error) is refused.get(name), name, "raised", repr(error))
        counts["calls of windows"] += 1
        self.goes_on(name)

    def close_and_read(self):
        self.query.close()
        self.got.extend(self.query)

    def await_one(self):
        """A step of a task, which asyncio itself wouldn't survive where it is cut. A task that waits is cancelled."""
        asyncio._set_running_loop(LOOP)
        task = self.query.__anext__()
        try:
            task.send(None)
            task.throw(asyncio.CancelledError)
        except StopIteration as given:
            self.got.append(given.value)
        except (StopAsyncIteration, asyncio.CancelledError):
            pass
        finally:
            asyncio._set_running_loop(None)

    def make_another(self):
        """A volume of its own, whose queries go with it."""
        with Volume() as volume, volume.open("size>0") as query:
            volume.wake = lambda: None
            volume.create("new", size=1)
            need([it.name for it in query] == ["new"] and volume.changes == 1 and volume.wake, "another volume")

    def read_shared(self):
        shared = self.shared
        if shared is not None:
            shared.seen.extend(map(shared.query.read, [0] * 5))

    def goes_on(self, name):
        """The window's rows are the model's, once it was opened again where a call has ended it."""
        while len(self.more) > 2:
            self.more.pop().drop()
        if self.query is self.other:
            need(name == "forget", name, "has forgotten a window")
            return self.begin()
        if self.query.slot is None:
            need(name in DROPS, name, "has dropped a window")
            try:
                self.query.read()
                need(False, "a window was read that was dropped")
            except ValueError as error:
                need(str(error) == GONE, error)
            self.query.reopen()
            self.got = []
        if name == "reopen":
            self.got = []
        self.got.extend(self.query)
        mark = self.query.mark
        if mark is not None:
            causes = {"close a query": Cause.CLOSED, "finish": Cause.CLOSED, "hang_up": Cause.HUNG_UP}
            need(causes.get(name) is mark.cause, name, "has ended a window by", mark)
        elif name == "close a query":  # it was cut before it was made
            self.query.close()
            self.got.extend(self.query)
        self.compare()
        if self.query.mark is not None:
            self.begin()

    def compare(self):
        """The rows are the model's. Messages came in order, and only cuts have kept some from the caller."""
        query, rows = self.query, self.query.rows
        wanted = [
            Place(self.nodes_of(path), it.node, path.rpartition("/")[2])
            for path, it in sorted(self.state.items(), key=lambda it: it[1].node) if it.size > self.least
        ]  # fmt: skip
        if query.mark is None or query.mark.cause is Cause.CLOSED:
            found, shown = query.result().entries, [row.place for _, row in sorted(rows.items())]
            need(found == wanted, query.formula, self.least, "has", found, "and not", wanted)
            need(shown == wanted, "the rows are", shown, "and not", wanted)
            if self.has_values:
                sizes = [it.size for it in sorted(self.state.values()) if it.size > self.least]
                need([row.info.size for _, row in sorted(rows.items())] == sizes, "the sizes of rows are not", sizes)
        seqs = [it.seq for it in self.got if it is not None]
        need(seqs == sorted({*seqs}), "messages came as", seqs)
        self.lost += seqs[-1] - seqs[0] + 1 - len(seqs) if seqs else 0
        need(self.lost <= self.cuts, self.lost, "messages are missing after", self.cuts, "cuts:", seqs)
        counts["messages"] += len(seqs)
        self.got = [it for it in self.got if it is not None][-1:]

    def end(self):
        """Compares all at rest. Returns the queries that have a slot."""
        need(is_same(self.state, self.found()), "at rest the volume has", self.found(), "and not", self.state)
        self.goes_on("")
        for query in [self.other, *self.more]:
            at_rest(self.volume, query)
        return [self.query, self.other, *self.more]


def at_rest(volume, query):
    """A query that nobody else reads shows what a fetch finds."""
    if query.slot is None:
        query.reopen()
    try:
        for _ in query:
            pass
    except Overrun:
        query.reopen()
    if query.mark is not None:
        query.reopen()
    found = places(volume.fetch(query.formula, *query._bound))
    need(query.result().entries == found, query.formula, "has", query.result().entries, "and not", found)


class Shared:
    """A window that all threads read. What each message gave is kept in `seen`, which has no order."""

    def __init__(self, volume):
        self.query, self.seen = volume.open("size>400", moved=True), []

    def end(self, volume):
        seqs = [it.seq for it in self.seen if it is not None]
        need(len({*seqs}) == len(seqs), "a message came twice")
        counts["messages of a window that all threads read"] += len(seqs)
        at_rest(volume, self.query)


# ---- a folder on disk


class Disk:
    """A folder on disk that one thread follows, with windows whose lines make a mirror."""

    FORMULAS = {
        "kind==file": lambda path, size: True,
        "name==*.txt": lambda path, size: path.endswith(".txt"),
        "size>2": lambda path, size: size > 2,
    }
    CALLS = {
        "turn": lambda it: it.folder.turn(),
        "read": lambda it: it.got.extend(map(it.folder.read, [0])),
        "read that waits": lambda it: it.got.extend(map(it.folder.read, [0.002])),
        "lines": lambda it: it.got.extend(itertools.chain.from_iterable(map(Folder.lines, [it.folder]))),
        "iteration": lambda it: it.got.extend(itertools.islice(it.folder, it.touch())),
        "open": lambda it: it.opened.extend(map(it.folder.open, [it.formula])),
        "close a window": lambda it: it.close_one(),
        "rows": lambda it: [(window.rows(), window.paths()) for window in it.windows.values()],
        "paths": lambda it: it.look(),
        "repr": lambda it: (repr(it.folder), [repr(window) for window in it.windows.values()]),
        "another folder": lambda it: it.make_another(),
    }

    def __init__(self, volume, number, draw, tried=plain):
        self.volume, self.draw, self.tried = volume, draw, tried
        self.path = tempfile.mkdtemp(prefix="cut-threads-")
        node = volume.create(f"disk{number}", kind=FOLDER).node
        self.folder = Folder(self.path, volume, node=node, tell=lambda line: need(False, line))
        self.windows, self.mirrors, self.got, self.opened, self.closed = {}, {}, [], [], None
        self.last = 0  # the number of the last line

    def file(self):
        return os.path.join(self.path, f"{self.draw.randrange(12)}{self.draw.choice(['', '.txt'])}")

    def touch(self):
        """Something happens on disk, so that lines come. Returns how many to wait for."""
        with open(self.file(), "ab") as file:
            file.write(b"a" * self.draw.randrange(3))
        return 1 if self.got else 0

    def step(self):
        counts["calls"] += 1
        act = self.draw.random()
        try:
            if act < 0.2:
                os.replace(self.file(), self.file())
            elif act < 0.3:
                os.unlink(self.file())
            elif act < 0.5:
                self.touch()
        except FileNotFoundError:
            pass
        if act >= 0.3:
            self.call()

    def call(self):
        name, self.formula = self.draw.choice([*self.CALLS]), self.draw.choice([*self.FORMULAS])
        if name == "open" and len(self.windows) > 2 or name == "close a window" and not self.windows:
            name = "turn"
        self.take()
        was_cut, _, error = self.tried(lambda: self.CALLS[name](self))
        need(error is None, name, "of a folder raised", repr(error))
        counts["calls of folders"] += 1
        for window in self.opened:
            self.windows[window.number], self.mirrors[window.number] = window, set()
        self.opened = []
        if self.closed is not None:
            self.closed.close()
            self.got = [it for it in self.got if it.window != self.closed.number]
            del self.windows[self.closed.number], self.mirrors[self.closed.number]
            self.closed = None
        self.take()

    def close_one(self):
        self.closed = self.draw.choice([*self.windows.values()])
        self.closed.close()

    def look(self):
        folder = self.folder
        for window in self.windows.values():
            for node in window.rows():
                path = folder.path(node)
                need(folder.node(path) == node and folder.entry(node).kind == "file", "a node's path is another's")
        need(folder.fileno() >= 0, "no descriptor")

    def make_another(self):
        with Folder(self.path, once=True, attributes=False, skip=["*"]) as folder, folder.open("name==*") as window:
            folder.begin(lambda _: None)
            need(window.paths() == [], "what is skipped isn't there")

    def take(self):
        """Makes the mirrors of the lines."""
        for line in self.got:
            if line is None:
                continue
            need(line.number > self.last, "line", line.number, "came after", self.last)
            self.last = line.number
            need(line.window in self.mirrors, "a line of no window:", line)
            mirror = self.mirrors[line.window]
            if line.what == "anew":
                mirror.clear()
            elif line.what in ("left", "moved"):
                mirror.discard(line.old_path or line.path)
            if line.what not in ("left", "anew"):
                mirror.add(line.path)
            counts["lines of folders"] += 1
        self.got = []

    def end(self):
        """Compares all at rest. Returns the slots that its windows have."""
        end, self.got = time.monotonic() + HELD_UP, [None]
        while self.folder.turn().settled + (not self.got) < 2:
            self.take()
            self.got = self.folder.lines()
            need(time.monotonic() < end, "the folder doesn't come to rest")
        for window in self.windows.values():
            is_of = self.FORMULAS[window.formula]
            found = sorted(it.path for it in os.scandir(self.path) if is_of(it.path, it.stat().st_size))
            need(sorted(window.paths()) == found, window, "has", window.paths(), "and not", found)
            mirror = sorted(self.mirrors[window.number])
            need(mirror == found, "lines made", mirror, "and not", found)
        counts["mirrors of folders compared"] += len(self.windows)
        return [*self.windows]

    def close(self):
        was_cut, _, error = self.tried(self.folder.close)
        need(error is None, repr(error))
        self.folder.close()
        need(repr(self.folder).endswith("closed>"), self.folder)
        shutil.rmtree(self.path)


# ---- rounds


def ignore(it):
    """What Python ignores, as in a `__del__`. Its own objects may be half made where they were cut, but not ours."""
    at = it.exc_traceback
    while at is not None and at.tb_next is not None:
        at = at.tb_next
    if it.exc_type is not Cut and at is not None and "yazgoulm" in at.tb_frame.f_code.co_filename:
        ignored.append(it.exc_value)


def forked(volume):
    """In the child of a fork each lock is free, and the volume whole."""
    child = os.fork()
    if child == 0:
        try:
            volume.create("of the child")
            os._exit(0 if volume.find("of the child") else 4)
        except Cut:
            os._exit(0)
        except BaseException:
            os._exit(5)
    return child


def is_ended(thread):
    thread.join(HELD_UP)
    if thread.is_alive():
        faulthandler.dump_traceback()
        raise Wrong("a thread waits for ever")


class Round:
    def __init__(self, draw, signals):
        self.draw, self.signals, self.wrong, self.is_over = draw, signals, [], threading.Event()
        self.volumes = [Volume() for _ in range(draw.randint(1, 3))]
        self.shared = [Shared(it) for it in self.volumes]
        numbers = itertools.count()
        alone = Volume()  # which the main thread alone uses
        mine = [User(it, next(numbers), draw, signals) for it in self.volumes]
        mine.append(User(alone, next(numbers), draw, signals, True))
        mine.append(Disk(draw.choice(self.volumes), next(numbers), draw, signals))
        self.mine, self.others = mine, []
        for _ in range(draw.randint(2, 5)):
            kind, its = (Disk if draw.random() < 0.2 else User), random.Random(draw.random())
            self.others.append(kind(draw.choice(self.volumes), next(numbers), its))
        for it in mine + self.others:
            if isinstance(it, User) and it.volume in self.volumes:
                it.shared = self.shared[self.volumes.index(it.volume)]
        self.volumes.append(alone)

    def work(self, user):
        try:
            while not self.is_over.is_set() and not self.wrong:
                user.step()
        except BaseException as error:
            self.wrong.append(error)

    def run(self):
        threads = [threading.Thread(target=self.work, args=(it,), daemon=True) for it in self.others]
        for thread in threads:
            thread.start()
        end = time.monotonic() + ROUND
        try:
            while time.monotonic() < end and not self.wrong:
                self.draw.choice(self.mine).step()
                if self.draw.random() < 0.002:
                    self.fork()
        finally:
            self.is_over.set()
        for thread in threads:
            is_ended(thread)
        if self.wrong:
            raise self.wrong[0]
        # what is at rest is looked at by another thread
        thread = threading.Thread(target=self.end)
        thread.start()
        is_ended(thread)
        if self.wrong:
            raise self.wrong[0]
        self.close()
        need(not ignored, "Python ignored", ignored)
        LOOP._ready.clear()
        counts["rounds"] += 1

    def fork(self):
        was_cut, child, error = self.signals(lambda: forked(self.draw.choice(self.volumes)))
        need(error is None, repr(error))
        while True:
            try:
                child, status = os.waitpid(-1, 0)
            except ChildProcessError:
                return
            need(status == 0, "a child has ended with", status)
            counts["forks beside threads"] += 1

    def end(self):
        try:
            for at, volume in enumerate(self.volumes):
                slots = []
                for it in self.mine + self.others:
                    if it.volume is volume:
                        slots += [query if isinstance(query, int) else query.slot for query in it.end()]
                if at < len(self.shared):
                    self.shared[at].end(volume)
                    slots.append(self.shared[at].query.slot)
                self.windows(volume, slots)
        except BaseException as error:
            self.wrong.append(error)

    def windows(self, volume, slots):
        """All slots that no query has are opened, read and dropped."""
        gc.collect()  # an exception of a task may have a query
        windows = [volume.open("name==of-all") for _ in range(64 - len(slots))]
        slots = slots + [it.slot for it in windows]
        need(sorted(slots) == [*range(1, 65)], "the slots are", sorted(slots))
        node = volume.create("of-all", size=500).node
        for it in windows:
            need([message.node for message in it] == [node], "a window of its own")
            it.drop()
        counts["windows at the end of a round"] += len(windows)

    def close(self):
        for it in self.mine + self.others:
            if isinstance(it, Disk):
                it.close()
        for volume in self.volumes:
            self.signals(volume.close)
            volume.close()
            need(repr(volume) == "<Volume, closed>", volume)


def main(seconds, seed="0"):
    draw, end = random.Random(int(seed)), time.monotonic() + float(seconds)
    with open(__file__, encoding="utf-8") as mine, open(BEFORE["finish"].__code__.co_filename, encoding="utf-8") as other:
        text = mine.read() + other.read()
    public = [name for each in (Volume, Query, Row, Rows, Folder, Window) for name in dir(each) if name[0] != "_"]
    missing = {name for name in public if f".{name}" not in text} - {"kept", "sync"}  # of a volume that is kept on disk
    need(not missing, "nobody calls", missing)
    sys.setswitchinterval(1e-4)
    warnings.simplefilter("ignore")  # of forks beside threads, and of tasks that were cut before they began
    sys.unraisablehook = ignore
    signals = Signals(draw)
    try:
        while time.monotonic() < end:
            faulthandler.dump_traceback_later(2 * HELD_UP, exit=True)
            Round(draw, signals).run()
    except (Wrong, Exception) as wrong:
        import traceback

        traceback.print_exc()
        print(f"after {counts['rounds']} rounds: {wrong!r}", file=sys.stderr)
        return 1
    finally:
        signals.is_over.set()
        faulthandler.cancel_dump_traceback_later()
        for what, count in counts.items():
            print(f"| package: {what} | {count:,} |", flush=True)
    return 0


if __name__ == "__main__":
    sys.exit(main(*sys.argv[1:]))
