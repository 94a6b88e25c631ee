"""A program as people write it, on four threads over one volume; each of its windows is compared with a fetch.

    natural.py WINDOWS

A mirror follows a disk, whose files come, grow, are renamed and go, under names of bytes. Two workers read all windows
that are open and keep a table of each. A user opens windows, looks at them and closes them, and opens the next ones,
while the workers read. Before a window is closed it has to show what a fetch finds: by its result, by its rows, by the
workers' table, and where it is opened with `values` by the sizes that its rows have. The last line counts the windows;
status 0 where all were right. `.ci/python` runs it."""
import os, random, sys, threading

TOP = os.path.dirname(os.path.dirname(os.path.dirname(os.path.realpath(__file__))))
sys.dont_write_bytecode = True
sys.path.insert(0, os.environ.get("YAZGOULM_PACKAGE") or f"{TOP}/python")

from yazgoulm import B_ENTRY_REMOVED, ROOT, Overrun, Place, Volume

FORMULAS = "size>100", "size<=100", "name==*a*", "name==*.txt && size>50", "size>=0", "!(name==b*)", "size>300"
OPEN, FILES = 30, 40  # windows at a time, files of the disk


class Mirror:
    """A disk that changes, and the volume after it."""

    def __init__(self, volume, draw):
        self.volume, self.draw, self.nodes = volume, draw, {}
        self.pause = threading.Lock()  # held over each change

    def name(self):
        return bytes(self.draw.choice(b"ab\xe4\xff") for _ in range(5)) + self.draw.choice([b"", b".txt"])

    def change(self):
        with self.pause:
            name, size = self.name(), self.draw.choice([0, 60, 200, 400])
            old = self.draw.choice([*self.nodes]) if self.nodes else None
            act = self.draw.random()
            if len(self.nodes) < FILES and name not in self.nodes and act < 0.5:
                self.nodes[name] = self.volume.create(name, size=size).node
            elif old is not None and act < 0.7:
                self.volume.write(self.nodes[old], size, 0)
            elif old is not None and act < 0.85 and name not in self.nodes:
                self.nodes[name] = self.nodes.pop(old)
                self.volume.move(self.nodes[name], ROOT, name)
            elif old is not None:
                self.volume.remove(self.nodes.pop(old))


class Window:
    """A window: its query, and a table that whoever reads a message keeps."""

    def __init__(self, volume, draw):
        self.lock = threading.Lock()  # of the table: messages come into it in the order in which they are read
        formula, backlog, moved = draw.choice(FORMULAS), draw.choice([1, 5, 65_536]), draw.random() < 0.5
        self.values = draw.random() < 0.5
        self.query = volume.open(formula, backlog=backlog, moved=moved, values=self.values)
        self.table = {it.node: Place(*it[:3]) for it in self.query.entries}

    def read(self):
        """Reads what waits, and goes on after an overrun."""
        while True:
            with self.lock:
                try:
                    message = self.query.read()
                except Overrun:
                    found = self.query.reopen()
                    for it in found.removed:
                        del self.table[it.node]
                    self.table.update((it.node, it) for it in found.created)
                    self.table.update((it.node, it) for _, it in found.moved)
                    return
                if message is None:
                    return
                if message.op == B_ENTRY_REMOVED:
                    del self.table[message.node]
                else:
                    self.table[message.node] = Place(message.dir, message.node, message.name)
                    self.look(message.node)

    def look(self, node):
        """Has a row look its entry up, so that it is old after the next change of it."""
        row = self.query.rows.get(node)
        if row is not None:
            row.info


def main(count):
    volume, draw, done = Volume(), random.Random(7), threading.Event()
    mirror, windows, faults, wrong = Mirror(volume, random.Random(8)), [], [], 0

    def again(call):
        try:
            while not done.is_set():
                call()
        except BaseException as error:
            faults.append(error)
            done.set()

    def work():
        for window in windows[:]:
            try:
                window.read()
            except ValueError as error:
                if str(error) != "the query was dropped or finished":
                    raise

    threads = [threading.Thread(target=again, args=(call,)) for call in (mirror.change, work, work)]
    for thread in threads:
        thread.start()
    compared = 0
    try:
        while compared < count and not done.is_set():
            while len(windows) < OPEN:
                windows.append(Window(volume, draw))
            window = windows.pop(draw.randrange(len(windows)))
            with mirror.pause:
                window.read()
                entries = volume.fetch(window.query.formula)
                found = [Place(*it[:3]) for it in entries]
                sizes = {row.node: row.info.size for row in window.query.rows.values()} if window.values else None
                shown = [
                    window.query.result().entries,
                    sorted((row.place for row in window.query.rows.values()), key=lambda it: it.node),
                    sorted(window.table.values(), key=lambda it: it.node),
                ]
            if shown != [found] * 3 or sizes not in (None, {it.node: it.size for it in entries}):
                wrong += 1
            window.query.drop()
            compared += 1
    finally:
        done.set()
        for thread in threads:
            thread.join()
    for fault in faults:
        print(f"a thread ended with {fault!r}")
    print(f"{compared} windows compared with fetches over {volume.changes} changes, {wrong} wrong")
    return 1 if wrong or faults or compared < count else 0


if __name__ == "__main__":
    sys.exit(main(int(sys.argv[1])))
