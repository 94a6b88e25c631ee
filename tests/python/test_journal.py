"""Volumes that are kept in a folder. A program of its own is killed at drawn moments; a signal raises in the middle of
calls; the journal is read by what docs/SPECIFICATION.md says alone."""
import errno, itertools, json, os, pickle, random, shutil, signal, subprocess, sys, tempfile, threading, time, unittest, warnings

TOP = os.path.dirname(os.path.dirname(os.path.dirname(os.path.realpath(__file__))))
sys.dont_write_bytecode = True
PACKAGE = os.environ.get("YAZGOULM_PACKAGE") or f"{TOP}/python"
sys.path.insert(0, PACKAGE)

from yazgoulm import BadSave, Kept, Locked, NotKept, Refused, Volume
from yazgoulm.folder import Folder
from saved_format import checksum

KILLED = """
import random, sys
sys.path.insert(0, sys.argv[1])
from yazgoulm import Refused, Volume
volume, draw = Volume(sys.argv[2], sync=sys.argv[3] if sys.argv[3].isalpha() else int(sys.argv[3])), random.Random(sys.argv[4])
while True:
    try:
        act = draw.random()
        if act < 0.6:
            applied = volume.create(f"n{draw.random()}", size=draw.randrange(9), attributes={"a": "\\n", "b": 4})
        elif act < 0.8:
            applied = volume.write(draw.randint(2, 40), 7, 9)
        else:
            volume.answer('{"do":"set","node":%d,"attr":"l","type":"ULNG","value":5}' % draw.randint(2, 40))
    except Refused:
        pass
    print(volume.changes, flush=True)
"""

BATCHES = """
import sys
sys.path.insert(0, sys.argv[1])
from yazgoulm import Volume
volume = Volume(sys.argv[2])
change = eval(sys.argv[3])
while True:
    print(volume.changes, flush=True)
    volume.apply([change(number) for number in range(volume.changes, volume.changes + 2000)])
"""
CHANGE = "lambda number: ('write', number // 2 + 2, number) if number % 2 else ('create', f'n{number}')"


def records_of(path):
    """The changes of a journal, as the specification says: their numbers, nodes and lines."""
    with open(f"{path}/journal", "rb") as file:
        head, *rows = file.read().split(b"\n")
    word, version, salt, first, crc = head.split(b" ")
    assert (word, version) == (b"yazgoulm-journal", b"1") and int(crc, 16) == checksum(head[:-8])
    assert rows.pop() == b"", "a record that isn't whole"
    for number, row in enumerate(rows, int(first)):
        crc, rest = row.split(b" ", 1)
        size, change, node, behind, line = rest.split(b" ", 4)
        assert int(crc, 16) == checksum(salt + rest + b"\n") and int(size) == len(line) and int(change) == number
        assert int(behind) < number
        yield number, int(node), line


def state_of(volume):
    return volume.changes, [(it, volume.entry(it.node)) for it in volume.fetch("name==*")]


class Kepts(unittest.TestCase):
    def setUp(self):
        above = tempfile.mkdtemp()
        self.addCleanup(shutil.rmtree, above)
        self.path = f"{above}/kept \udcff"

    def test_changes_are_there_again(self):
        for sync in ("always", 5, "never"):
            with Volume(self.path, sync=sync) as volume:
                node = volume.create(f"é\n\"{sync}", size=3, attributes={"a": "\0", "b": (-5, "LONG")}).node
                folder = volume.create(f"f{sync}", kind="folder").node
                volume.move(node, folder, "x")
                volume.remove(folder, recursive=True)
                volume.answer(b'{"do":"create",\n"name":"%s"}' % sync.__repr__().encode())
                was = state_of(volume)
            with Volume(os.fsencode(self.path)) as volume:
                self.assertEqual((state_of(volume), volume.dropped), (was, 0))
                self.assertEqual(volume.replayed, volume.changes)
        lines = [*records_of(self.path)]
        self.assertEqual(len(lines), was[0])
        with Volume() as other:
            for number, node, line in lines:
                self.assertEqual(json.loads(other.answer(line)), {"change": number, "node": node})
            self.assertEqual(state_of(other), was)

    def behind(self):
        """Of each record of the journal, how many changes before it weren't synced when it was written."""
        with open(f"{self.path}/journal", "rb") as file:
            return [int(row.split(b" ", 5)[4]) for row in file.read().split(b"\n")[1:-1]]

    def test_a_batch(self):
        """Its changes are synced together: a record says how many before it weren't synced. It is as calls one by one."""
        changes = [
            ("create", "d", 1, "folder"), ("create", "f", 2, "file", 3, 4, {"a": 5}), ("write", 3, 9), ("move", 3, 1, "g"),
            ("rename", 3, "h"), ["set", 3, "t", "x", "CSTR"], ("unset", 3, "a"), ("remove", 2, True),
        ]  # fmt: skip
        with Volume() as other:
            wanted = [getattr(other, name)(*given) for name, *given in changes]
            self.assertEqual(other.apply([]), [])
            was = state_of(other)
        for sync in ("always", 3_600_000, "never"):
            shutil.rmtree(self.path, True)
            with Volume(self.path, sync=sync) as volume:
                self.assertEqual(volume.apply(iter(changes)), wanted)
                self.assertEqual(state_of(volume), was)
                volume.create("single")
                volume.create("another")
                alone = {"always": [0, 0], 3_600_000: [0, 1], "never": [9, 10]}[sync]
                self.assertEqual(self.behind(), [*range(9), *alone])
            with Volume(self.path) as volume:
                self.assertEqual(volume.changes, was[0] + 2)

    def test_a_batch_that_is_refused(self):
        """What comes before stands, and is synced; what comes after isn't made."""
        with Volume(self.path) as volume:
            for wrong, error in (
                (("remove", 99), KeyError), (("create", "a/b"), ValueError), (("write", "x"), TypeError),
                (("open", "size>0"), TypeError), ("create", TypeError), ((), TypeError), (7, TypeError),
            ):  # fmt: skip
                at = volume.changes
                with self.assertRaises(error) as caught:
                    volume.apply([("create", f"n{at}"), ("create", f"m{at}"), wrong, ("create", "after")])
                self.assertEqual((caught.exception.at, [it.change for it in caught.exception.applied]), (2, [at + 1, at + 2]))
                self.assertEqual(volume.changes, at + 2)
            refused = pickle.loads(pickle.dumps(self.refused(volume)))
            self.assertEqual((refused.at, refused.applied, refused.name), (0, (), "Exists"))
            with self.assertRaises(ZeroDivisionError):
                volume.apply(1 // 0 for _ in "x")
            volume.create("single")
            self.assertEqual(self.behind(), [0, 1] * 7 + [0])
            thread = threading.Thread(target=lambda: volume.create("of another thread"))
            thread.start()
            thread.join(60)
            self.assertFalse(thread.is_alive())

    def refused(self, volume):
        with self.assertRaises(Refused) as caught:
            volume.apply([("create", "n0")])
        return caught.exception

    def test_a_batch_wakes_at_its_end(self):
        with Volume(self.path) as volume, volume.open("size>0") as query:
            woken, free = [], []

            def wake():
                woken.append(volume.changes)
                thread = threading.Thread(target=lambda: free.append(volume.changes))
                thread.start()
                thread.join(60)

            volume.wake = wake
            volume.apply([("create", f"n{number}", 1, "file", 1) for number in range(5)])
            self.assertEqual((woken, free, len([*query])), ([5], [5], 5))

    def test_what_is_told(self):
        with Volume() as volume:
            self.assertIsNone(volume.kept())
            volume.sync()
        with Volume(self.path, sync="never") as volume:
            volume.create("a")
            kept = volume.kept()
            self.assertIsInstance(kept, Kept)
            self.assertEqual(kept[1:], (1, False, False, None))
            volume.sync()
            self.assertEqual(volume.kept().unsynced, 0)
            with self.assertRaises(Locked) as caught:
                Volume(self.path)
            self.assertEqual((caught.exception.code, caught.exception.errno), (49, errno.EAGAIN))
            with self.assertRaisesRegex(ValueError, "kept in a folder"):
                Folder(os.path.dirname(self.path), volume)
            copy = volume.copy()
        self.assertRaises(ValueError, volume.kept)
        self.assertRaises(ValueError, volume.sync)
        self.assertIsNone(copy.kept())
        for wrong, error in (("often", TypeError), (True, TypeError), (0, ValueError), (1 << 31, ValueError)):
            self.assertRaises(error, Volume, self.path, sync=wrong)
        self.assertRaises(TypeError, Volume, 5)
        self.assertRaises(ValueError, Volume, "a\0b")
        self.assertRaises(FileNotFoundError, Volume, "/proc/no/such")

    def test_a_timer_syncs(self):
        with Volume(self.path, sync=1) as volume:
            volume.create("a")
            turns = volume._turns
            end = time.monotonic() + 60
            while volume._handle.keep_turn()[4] and time.monotonic() < end:
                pass
            self.assertEqual(volume.kept().unsynced, 0)
        turns._thread.join(60)
        self.assertFalse(turns._thread.is_alive())
        volume = Volume(self.path)
        thread = volume._turns._thread
        del volume  # which nobody has any more
        thread.join(60)
        self.assertFalse(thread.is_alive())
        Volume(self.path).close()

    def test_damage(self):
        with Volume(self.path) as volume:
            for name in "abc":
                volume.create(name)
        with open(f"{self.path}/journal", "r+b") as file:
            whole = file.read()
            file.seek(whole.index(b'"b"'))
            file.write(b'"B"')
        with self.assertRaises(BadSave) as caught:
            Volume(self.path)
        self.assertEqual(caught.exception.place, whole.index(b"\n", whole.index(b'"a"')) + 1)
        self.assertEqual(caught.exception.fault, "Checksum")
        with Volume(self.path, damaged=True) as volume:
            self.assertEqual([it.name for it in volume.children()], ["a"])

    def test_a_full_disk(self):
        """A limit of the file's size stands for it: what can't be written is said, and is there once it can be."""
        code = """
import resource, signal, sys
sys.path.insert(0, sys.argv[1])
from yazgoulm import NotKept, Volume
signal.signal(signal.SIGXFSZ, signal.SIG_IGN)
volume = Volume(sys.argv[2], sync="never")
resource.setrlimit(resource.RLIMIT_FSIZE, (1000, resource.RLIM_INFINITY))
try:
    for number in range(100): volume.create(f"n{number}")
    sys.exit("nothing was refused")
except NotKept as refused:
    assert refused.name == "Unkept" and volume.changes == number + 1
try:
    volume.create("more")
    sys.exit("nothing was refused")
except NotKept as refused:
    assert refused.name == "Halted" and volume.changes == number + 1
assert volume.kept().halted
resource.setrlimit(resource.RLIMIT_FSIZE, (resource.RLIM_INFINITY,) * 2)
while volume.kept().halted: pass
volume.create("more")
volume.close()
print(number + 2)
"""
        run = subprocess.run([sys.executable, "-W", "ignore", "-c", code, PACKAGE, self.path], capture_output=True, text=True)
        self.assertEqual((run.returncode, run.stderr), (0, ""))
        with Volume(self.path) as volume:
            self.assertEqual(volume.changes, int(run.stdout))

    def test_kills(self):
        draw = random.Random(7)
        changes = 0
        for number, sync in enumerate(("always", "20", "never", "1")):
            program = subprocess.Popen([sys.executable, "-c", KILLED, PACKAGE, self.path, sync, str(number)],
                                       stdout=subprocess.PIPE, text=True)  # fmt: skip
            for _ in range(draw.randint(1, 200)):
                changes = max(changes, int(program.stdout.readline()))
            program.kill()
            rest = program.stdout.read().split("\n")[:-1]  # what isn't a whole line was no answer
            changes = max([changes, *map(int, rest)])
            program.wait()
            program.stdout.close()
            with Volume(self.path) as volume:
                self.assertIn(volume.changes - changes, range(4))  # a create of two attributes, that wasn't answered
                changes = volume.changes

    def test_kills_in_batches(self):
        """A volume has a prefix of the accepted changes, with all of the batches that were answered."""
        draw, change = random.Random(9), eval(CHANGE)
        for _ in range(6):
            program = subprocess.Popen([sys.executable, "-c", BATCHES, PACKAGE, self.path, CHANGE],
                                       stdout=subprocess.PIPE, text=True)  # fmt: skip
            answered = int(program.stdout.readline())
            time.sleep(draw.uniform(0, 0.02))
            program.kill()
            answered = max([answered, *map(int, program.stdout.read().split("\n")[:-1])])
            program.wait()
            program.stdout.close()
            with Volume(self.path) as volume, Volume() as model:
                self.assertIn(volume.changes - answered, range(2001))
                model.apply([change(number) for number in range(volume.changes)])
                self.assertEqual(state_of(volume), state_of(model))

    def test_a_fork(self):
        with Volume(self.path, sync="never") as volume:
            volume.create("a")
            child = os.fork()
            if child == 0:
                try:
                    volume.create("of the child")
                    is_well = volume.kept() is None and volume.changes == 2
                    volume.close()
                    os._exit(0 if is_well else 1)
                finally:
                    os._exit(2)
            self.assertEqual(os.waitpid(child, 0)[1], 0)
            volume.create("b")
        with Volume(self.path) as volume:
            self.assertEqual([it.name for it in volume.children()], ["a", "b"])

    def test_signals(self):
        """What a handler raises cuts calls anywhere: the changes are those of the journal, and no lock stays."""

        def raised(*_):
            raise InterruptedError

        before = signal.signal(signal.SIGALRM, raised)
        self.addCleanup(signal.signal, signal.SIGALRM, before)
        with Volume(self.path, sync=1) as volume:
            names, draw = itertools.count(), random.Random(3)
            for _ in range(30):
                try:
                    signal.setitimer(signal.ITIMER_REAL, draw.uniform(0.0005, 0.004))
                    while True:
                        volume.create(f"n{next(names)}")
                except InterruptedError:
                    pass
            seen = []
            thread = threading.Thread(target=lambda: seen.append(volume.changes))
            thread.start()
            thread.join(60)
            was = state_of(volume)
            self.assertEqual(seen, [was[0]])
        with Volume(self.path) as volume:
            self.assertEqual(state_of(volume), was)

    def test_signals_in_batches(self):
        """A batch that is cut leaves no other change without its sync: none of a later call is behind."""

        def raised(*_):
            raise InterruptedError

        before = signal.signal(signal.SIGALRM, raised)
        self.addCleanup(signal.signal, signal.SIGALRM, before)
        with Volume(self.path) as volume:
            names, draw, single = itertools.count(), random.Random(5), []
            for _ in range(30):
                try:
                    signal.setitimer(signal.ITIMER_REAL, draw.uniform(0.0002, 0.004))
                    while True:
                        volume.apply([("create", f"n{next(names)}"), ("create", f"n{next(names)}")])
                except InterruptedError:
                    pass
                volume.create(f"n{next(names)}")
                single.append(volume.create(f"n{next(names)}").change)
            behind = self.behind()
            self.assertEqual({behind[change - 1] for change in single}, {0})
            self.assertGreater(max(behind), 0)
            was = state_of(volume)
        with Volume(self.path) as volume:
            self.assertEqual(state_of(volume), was)

    def test_many_threads(self):
        with Volume(self.path, sync=2) as volume:

            def work(number):
                for at in range(50):
                    volume.create(f"{number} {at}")

            threads = [threading.Thread(target=work, args=(it,)) for it in range(4)]
            for each in threads:
                each.start()
            for each in threads:
                each.join()
            was = state_of(volume)
        with Volume(self.path) as volume:
            self.assertEqual((state_of(volume), volume.changes), (was, 200))

    def test_nothing_is_warned_of(self):
        with warnings.catch_warnings():
            warnings.simplefilter("error")
            with Volume(self.path) as volume:
                volume.create("a")
                self.assertRaises(NotKept, lambda: (_ for _ in ()).throw(NotKept(50, "Unkept")))


if __name__ == "__main__":
    unittest.main()
