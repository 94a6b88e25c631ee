"""Volumes that are saved, loaded and copied. saved_format.py reads and writes the format by the specification alone: what
it finds in a file, its faults too, is what the library has to find."""
import errno, glob, os, pathlib, pickle, random, resource, shutil, signal, stat, sys, tempfile, threading, unittest
from unittest import mock

TOP = os.path.dirname(os.path.dirname(os.path.dirname(os.path.realpath(__file__))))
sys.dont_write_bytecode = True
sys.path.insert(0, os.environ.get("YAZGOULM_PACKAGE") or f"{TOP}/python")
sys.path.insert(0, os.path.dirname(os.path.realpath(__file__)))

import saved_format
from saved_format import Fault
from yazgoulm import FILE, FOLDER, BadSave, Error, Refused, Volume

LIMIT = 1_000_000_000_000
NAMES = ["a", "b", "ö" * 20, "x" * 255, "a.txt", "\U0001f372", "-", "name"]
ATTRS = ["t", "n", "ö", "y" * 255, "MAIL:status", "kind"]
VALUES = [
    ("LONG", [-(1 << 31), 0, (1 << 31) - 1]), ("LLNG", [-(1 << 63), 5, (1 << 63) - 1]), ("ULNG", [0, (1 << 32) - 1]),
    ("ULLG", [0, (1 << 64) - 1]), ("CSTR", ["", "New", "a\0b", "ö" * 2048]),
]  # fmt: skip


def change(volume, draw, top):
    """Makes a drawn change, if it isn't refused: the reply, or the refusal's name."""
    node, dir, name = draw.randint(1, top), draw.choice([1, 1, draw.randint(1, top)]), draw.choice(NAMES)
    act, size, time = draw.random(), draw.choice([0, 3, 200, (1 << 63) - 1]), draw.choice([0, -(1 << 63), 9])
    attr, (type, values), clobber = draw.choice(ATTRS), draw.choice(VALUES), draw.random() < 0.5
    value = draw.choice(values)
    try:
        if act < 0.4:
            kind = draw.choice([FILE, FILE, FOLDER])
            return volume.create(name, dir, kind, size if kind == FILE else 0, time)
        if act < 0.5:
            return volume.remove(node)
        if act < 0.7:
            return volume.move(node, dir, name, clobber)
        if act < 0.75:
            return volume.write(node, size, time)
        return volume.set(node, attr, value, type) if act < 0.95 else volume.unset(node, attr)
    except Refused as refused:
        return refused.name


def drawn(seed, count):
    """A volume of drawn changes."""
    volume, draw = Volume(), random.Random(seed)
    for number in range(count):
        change(volume, draw, 2 + number // 2)
    return volume


def entry_of(info):
    kind = int(info.kind == FOLDER)
    raw = [(it.encode(), str(info.types[it]), info.attributes[it]) for it in info.attributes]
    attributes = [(name, type, value.encode() if type == "CSTR" else value) for name, type, value in raw]
    return info.node, info.dir, info.name.encode(), kind, info.size, info.time, attributes


def state_of(volume):
    """The whole state of a volume by its calls. A copy says which node is the next."""
    entries = [entry_of(volume.entry(it.node)) for it in volume.fetch("size>=0")]
    return LIMIT, volume.changes, volume.copy().create("no such name yet").node, entries


class Kept(unittest.TestCase):
    def setUp(self):
        self.room = tempfile.mkdtemp()
        self.addCleanup(shutil.rmtree, self.room)
        self.path = f"{self.room}/volume"

    def saved(self, volume):
        volume.save(self.path)
        return pathlib.Path(self.path).read_bytes()

    def loaded(self, raw):
        pathlib.Path(self.path).write_bytes(raw)
        return Volume.load(self.path)

    def refused(self, raw, *fault):
        """Bytes that are refused by a fault: by that of the reference, which is the given one, if one is given."""
        with self.assertRaises(Fault) as wanted:
            saved_format.read(raw)
        if fault:
            self.assertEqual(wanted.exception.args[: len(fault)], fault)
        with self.assertRaises(BadSave) as raised:
            self.loaded(raw)
        bad, (word, place, node) = raised.exception, wanted.exception.args
        self.assertEqual((bad.fault, bad.place, bad.node), (word, place, node or None))
        self.assertEqual((bad.code, bad.name), (48, "OtherVersion") if word == "OtherVersion" else (47, "BadSave"))

    def test_a_file_has_what_the_specification_says(self):
        for seed in range(40):
            volume = drawn(seed, 3 * seed)
            state, raw = state_of(volume), self.saved(volume)
            self.assertEqual(saved_format.read(raw), state)
            self.assertEqual(saved_format.write(state), raw)
            most = random.Random(seed).choice([1, 50, 500, 65_536])
            again = self.loaded(saved_format.write(state, most))
            self.assertEqual(state_of(again), state)
            self.assertEqual(self.saved(again), raw)

    def test_a_loaded_volume_and_a_copy_go_on_as_the_one_that_was_saved(self):
        for seed in range(25):
            one = drawn(seed, 60)
            one.save(self.path)
            volumes = one, Volume.load(self.path), one.copy()
            queries = [[it.open("size>=0", values=True), it.open("name==*a*", moved=True)] for it in volumes]
            for query in zip(*queries):
                self.assertEqual(len({(it.slot, it.at, tuple(it.entries)) for it in query}), 1)
            draws = [random.Random(seed + 1000) for _ in volumes]
            for _ in range(60):
                self.assertEqual(len({repr(change(it, draw, 40)) for it, draw in zip(volumes, draws)}), 1)
            for query in zip(*queries):
                self.assertEqual(len({tuple(it) for it in query}), 1)
            self.assertEqual(state_of(volumes[0]), state_of(volumes[1]))
            self.assertEqual(state_of(volumes[0]), state_of(volumes[2]))

    def test_a_copy_has_no_queries_and_leaves_the_other(self):
        volume = drawn(3, 50)
        query, state = volume.open("size>=0"), state_of(volume)
        copy = volume.copy()
        self.assertEqual((copy.ready(), repr(copy)), ([], f"<Volume with {volume.changes} changes and 0 queries>"))
        copy.create("of the copy")
        self.assertEqual((state_of(volume), [*query]), (state, []))
        volume.close()
        self.assertEqual(copy.find("of the copy") + 1, copy.create("more").node)
        with self.assertRaisesRegex(ValueError, "the volume is closed"):
            volume.copy()

    SMALL = LIMIT, 9, 6, [
        (2, 4, b"low", 0, 3, -5, [(b"t", "CSTR", b"text"), (b"n", "LONG", -7)]), (4, 1, b"high", 1, 0, 0, []),
    ]  # fmt: skip

    def test_each_cut_and_each_byte_that_is_turned_is_found(self):
        raw = saved_format.write(self.SMALL, 60)
        self.assertEqual(state_of(self.loaded(raw)), self.SMALL)
        for at in range(len(raw)):
            self.refused(raw[:at], "Cut", at)
        for at in range(len(raw)):
            for turn in (1, 2, 4, 8, 16, 32, 64, 128, 255):
                self.refused(raw[:at] + bytes([raw[at] ^ turn]) + raw[at + 1 :])
        for more in (b"\0", b"lqvolume", saved_format.piece(b"x")):
            self.refused(raw + more, "BytesAfter", len(raw))

    def test_each_fault_has_its_word_its_place_and_its_node(self):
        a, first, tag = (2, 1, b"a", 0, 0, 0, []), 16 + 8 + 32 + 8, (b"t", "LONG", 1)
        of = lambda *entries: (LIMIT, 9, 9, [*entries])
        for state, fault in [
            ((LIMIT, LIMIT + 1, 2, []), ("NumberOutOfRange", 24, 0)), ((LIMIT + 1, 9, 2, []), ("NumberOutOfRange", 24, 0)),
            ((8, 9, 2, []), ("NumberOutOfRange", 24, 0)), ((LIMIT, 9, 1, []), ("NodeOutOfRange", 24, 0)),
            ((LIMIT, 9, 12, []), ("NodeOutOfRange", 24, 0)),
            (of((1, 1, b"a", 1, 0, 0, [])), ("OutOfOrder", first, 1)),
            (of(a, (2, 1, b"b", 0, 0, 0, [])), ("OutOfOrder", first + 43, 2)),
            (of((9, 1, b"a", 0, 0, 0, [])), ("NodeOutOfRange", first, 9)),
            (of(a, (3, 1, b"a", 0, 0, 0, [])), ("NameTaken", first + 43, 3)),
            (of((2, 1, b"a", 1, 1, 0, [])), ("SizeOfFolder", first, 2)),
            (of((2, 1, b"a", 0, 1 << 63, 0, [])), ("TooLong", first, 2)),
            (of((2, 1, b"a", 2, 0, 0, [])), ("NoKind", first, 2)),
            (of((2, 1, b"", 0, 0, 0, [])), ("BadName", first, 2)), (of((2, 1, b"..", 0, 0, 0, [])), ("BadName", first, 2)),
            (of((2, 1, b"a/b", 0, 0, 0, [])), ("BadName", first, 2)), (of((2, 1, b"\xff", 0, 0, 0, [])), ("NotUtf8", first, 2)),
            (of((2, 1, b"a", 0, 0, 0, [(b"size", "LONG", 1)])), ("Reserved", first, 2)),
            (of((2, 1, b"a", 0, 0, 0, [tag, (b"u", "ULLG", 1), tag])), ("NameTwice", first, 2)),
            (of((2, 1, b"a", 0, 0, 0, [(b"", "LONG", 1)])), ("BadName", first + 43, 2)),
            (of((2, 1, b"a", 0, 0, 0, [tag, (b"\xc3", "ULNG", 1)])), ("NotUtf8", first + 43 + 10, 2)),
            (of((2, 1, b"a", 0, 0, 0, [(b"t", "CSTR", b"\xc3")])), ("NotUtf8", first + 43, 2)),
            (of((2, 1, b"a", 0, 0, 0, [(b"t", "CSTR", b"x" * 4097)])), ("TooLong", first + 43, 2)),
            (of((2, 1, b"a", 0, 0, 0, [(b"t", "else", b"1234")])), ("NoType", first + 43, 2)),
            (of((2, 5, b"a", 0, 0, 0, [])), ("NoFolder", first + 43, 0)),
            (of(a, (3, 2, b"a", 0, 0, 0, [])), ("NotFolder", first + 86, 0)),
            (of((2, 3, b"a", 1, 0, 0, []), (3, 2, b"a", 1, 0, 0, [])), ("Ring", first + 86, 0)),
            (of((2, 2, b"a", 1, 0, 0, [])), ("Ring", first + 43, 0)),
        ]:  # fmt: skip
            with self.subTest(fault):
                self.refused(saved_format.write(state), *fault)
        head, piece, numbers = saved_format.head, saved_format.piece, saved_format.write((LIMIT, 9, 9, []), count=1)[24:]
        whole = saved_format.write(of(a))[first:]
        for raw, fault in [
            (head(2), ("OtherVersion", 8, 0)), (head(0), ("OtherVersion", 8, 0)), (b"x" * 16, ("NoHead", 0, 0)),
            (head() + piece(numbers[:31]), ("NotWhole", 24, 0)), (head() + piece(numbers + b"x"), ("NotWhole", 24, 0)),
            (head() + bytes(8), ("PieceSize", 16, 0)), (head() + b"\1\0\1\0" + bytes(70_000), ("PieceSize", 16, 0)),
            (head() + piece(numbers) + piece(whole[:41]), ("NotWhole", first, 0)),
            (head() + piece(numbers) + piece(whole[:42]), ("NotWhole", first, 2)),
            (head() + piece(numbers) + piece(whole + b"\0"), ("BytesAfter", first + 43, 0)),
            (saved_format.write(of(a), count=2), ("Cut", first + 43, 0)),
        ]:  # fmt: skip
            with self.subTest(fault):
                self.refused(raw, *fault)
        attribute = saved_format.attribute_of(*tag)
        parent = piece(saved_format.entry_of(2, 1, b"a", 0, 0, 0, [tag]))
        for size in range(1, len(attribute)):
            raw = head() + piece(numbers) + parent + piece(attribute[:size])
            self.refused(raw, "NotWhole", first + 43 + 8, 2)

    def test_what_a_refusal_says(self):
        with self.assertRaises(BadSave) as raised:
            self.loaded(saved_format.write((LIMIT, 9, 9, [(2, 1, b"", 0, 0, 0, [])])))
        bad = raised.exception
        self.assertEqual(str(bad), f"BadSave: load({self.path!r}): BadName at byte 64, node 2")
        for it in (bad, pickle.loads(pickle.dumps(bad))):
            self.assertEqual((it.place, it.node, it.fault, it.call, it.arguments), (64, 2, "BadName", "load", (self.path,)))
        self.assertIsInstance(bad, (Refused, ValueError, Error))
        with self.assertRaisesRegex(BadSave, "^BadSave: .*: Cut at byte 0$"):
            self.loaded(b"")

    def test_paths(self):
        volume = drawn(5, 30)
        state = state_of(volume)
        others = [f"{self.room}/{'n' * 255}", f"{self.room}/\udcff"]
        for path in (self.path, os.fsencode(self.path), pathlib.Path(self.path), *others):
            volume.save(path)
            self.assertEqual(state_of(Volume.load(path)), state)
        os.symlink("volume", f"{self.room}/link")
        os.chmod(self.path, 0o640)
        volume.create("more")
        volume.save(f"{self.room}/link")
        self.assertTrue(os.path.islink(f"{self.room}/link"))
        self.assertEqual(stat.S_IMODE(os.stat(self.path).st_mode), 0o640)
        self.assertEqual(state_of(Volume.load(self.path)), state_of(volume))
        self.addCleanup(os.chdir, os.getcwd())
        os.chdir(self.room)
        volume.save("relative")
        self.assertEqual(state_of(Volume.load(f"{self.room}/relative")), state_of(volume))
        for wrong, error in [
            (7.5, TypeError), (True, TypeError), (None, TypeError), ("a\0b", ValueError), (b"\0", ValueError),
            (-1, ValueError), (1 << 32, ValueError),
        ]:
            for call in (volume.save, Volume.load):
                with self.assertRaisesRegex(error, "^path "):
                    call(wrong)
        self.assertEqual(glob.glob(f"{self.room}/.*"), [])

    def test_files_that_are_open(self):
        """A file that is given by its number is written and read where it stands, and stays open."""
        volume = drawn(6, 300)
        whole, state = self.saved(volume), state_of(volume)
        with tempfile.TemporaryFile(buffering=0) as file:
            file.write(b"before")
            volume.save(file.fileno())
            file.seek(6)
            self.assertEqual(state_of(Volume.load(file.fileno())), state)
            with self.assertRaisesRegex(BadSave, "Cut at byte 0"):
                Volume.load(file.fileno())
            file.seek(0)
            self.assertEqual(file.read(), b"before" + whole)
        out, into = os.pipe()
        thread = threading.Thread(target=lambda: (volume.save(into), os.close(into)))
        thread.start()
        self.assertEqual(state_of(Volume.load(out)), state)
        thread.join()
        with self.assertRaises(OSError) as raised:
            volume.save(out)  # which can't be written
        self.assertEqual(raised.exception.errno, errno.EBADF)
        os.close(out)

    def fails(self, number, **patched):
        """A save that fails leaves the file that was there, and nothing beside it."""
        old, volume = pathlib.Path(self.path).read_bytes(), drawn(9, 90)
        with self.assertRaises(OSError) as raised:
            if not patched:
                volume.save(self.path)
            else:
                with mock.patch.multiple("os", **patched):
                    volume.save(self.path)
        self.assertEqual((raised.exception.errno, raised.exception.filename), (number, self.path))
        self.assertEqual((pathlib.Path(self.path).read_bytes(), os.listdir(self.room)), (old, ["volume"]))
        self.assertEqual(self.saved(volume), saved_format.write(state_of(volume)))

    def test_whatever_fails_the_old_file_stays(self):
        def fault(*_):
            raise OSError(errno.EIO, "of the test")

        volume = drawn(7, 40)
        for patched in ({"fsync": fault}, {"replace": fault}, {"chmod": fault}):
            volume.save(self.path)
            self.fails(errno.EIO, **patched)

    def test_a_full_device_and_folders_that_can_not_be_written(self):
        volume, limits = drawn(7, 40), resource.getrlimit(resource.RLIMIT_FSIZE)
        volume.save(self.path)
        self.addCleanup(signal.signal, signal.SIGXFSZ, signal.signal(signal.SIGXFSZ, signal.SIG_IGN))
        for size in (0, 10, 100, 1000):
            old = pathlib.Path(self.path).read_bytes()
            resource.setrlimit(resource.RLIMIT_FSIZE, (size, limits[1]))
            try:
                with self.assertRaises(OSError) as raised:
                    volume.save(self.path)
            finally:
                resource.setrlimit(resource.RLIMIT_FSIZE, limits)
            self.assertEqual(raised.exception.errno, errno.EFBIG)
            self.assertEqual((pathlib.Path(self.path).read_bytes(), os.listdir(self.room)), (old, ["volume"]))
        if os.path.exists("/dev/full"):
            with open("/dev/full", "wb", buffering=0) as file, self.assertRaises(OSError) as raised:
                volume._handle.save(file.fileno())
            self.assertEqual(raised.exception.errno, errno.ENOSPC)
        wrong = [(f"{self.room}/no/volume", errno.ENOENT), (f"{self.path}/in", errno.ENOTDIR), (self.room, errno.EISDIR)]
        for path, number in wrong:
            with self.assertRaises(OSError) as raised:
                volume.save(path)
            self.assertEqual(raised.exception.errno, number)
        self.assertEqual(os.listdir(self.room), ["volume"])
        for path, number in [(f"{self.room}/no", errno.ENOENT), (self.room, errno.EISDIR)]:
            with self.assertRaises(OSError) as raised:
                Volume.load(path)
            self.assertEqual((raised.exception.errno, raised.exception.filename or path), (number, path))

    def test_classes_and_volumes_that_are_closed(self):
        class Own(Volume):
            pass

        volume = Own()
        volume.create("a")
        volume.save(self.path)
        self.assertIs(type(Own.load(self.path)), Own)
        self.assertIs(type(volume.copy()), Own)
        self.assertIs(type(Volume.load(self.path)), Volume)
        volume.close()
        for call in (lambda: volume.save(self.path), volume.copy):
            with self.assertRaisesRegex(ValueError, "the volume is closed"):
                call()
        self.assertEqual(Volume.load(self.path).find("a"), 2)

    def test_descriptors_and_locks_are_given_back(self):
        volume, count = drawn(1, 30), len(os.listdir("/proc/self/fd"))
        for _ in range(50):
            volume.save(self.path)
            Volume.load(self.path)
            with self.assertRaises(BadSave):
                self.loaded(b"lq")
            with self.assertRaises(OSError):
                Volume.load(f"{self.room}/no")
        self.assertEqual(len(os.listdir("/proc/self/fd")), count)
        seen = []
        thread = threading.Thread(target=lambda: seen.append(volume.copy().changes))
        thread.start()
        thread.join()
        self.assertEqual(seen, [volume.changes])


if __name__ == "__main__":
    unittest.main()
