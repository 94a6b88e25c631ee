"""yazgoulm.folder, and the commands yazgoulm-folder and yazgoulm-mail, as their users see them."""
import asyncio, dis, errno, gc, http.client, inspect, json, os, pty, random, re, resource, shutil, signal, subprocess
import sys, textwrap, threading, time, unittest, warnings
from unittest import mock

TOP = os.path.dirname(os.path.dirname(os.path.dirname(os.path.realpath(__file__))))
PACKAGE = os.environ.get("YAZGOULM_PACKAGE") or f"{TOP}/python"
sys.dont_write_bytecode = True
sys.path[:0] = PACKAGE, os.path.dirname(os.path.realpath(__file__))

import on_disk
import yazgoulm.folder
from cuts import Cuts
from on_disk import OnDisk
from yazgoulm import BadQuery, NotEmpty, NotFolder, NotFound, Refused, Volume, _volume, to_name
from yazgoulm._formulas import folded
from yazgoulm.folder import Change, Folder, FolderGone, Line, watch
from yazgoulm.folder._calls import fold

load_tests = on_disk.load_tests
SECONDS = int(os.environ.get("TEST_SECONDS", 60))  # the longest wait for something that has to come
QUIET = 0.4  # seconds after which nothing more comes
LONG = b"\xff" * 200  # a name that is refused: as a text it is too long


class Case(OnDisk):
    def replace(self, name, size=0):
        """Writes a file as many editors do: another file takes its place."""
        self.write(f"{name}.new", size)
        os.replace(self.path(f"{name}.new"), self.path(name))

    def set_attribute(self, name, attr, value):
        try:
            os.setxattr(self.path(name), attr, value)
        except OSError:
            self.skipTest("the file system has no extended attributes")

    def below(self, change):
        """A change with its paths from the folder on, in short."""
        paths = [os.path.relpath(it, self.folder) for it in (change.old_path, change.path) if it is not None]
        return " ".join([change.sign, *paths])


class Watches(Case):
    poll = None
    more = ""  # signs of lines that may come beside those that have to

    def watch(self, formula="name==*", **more):
        changes = watch(self.folder, formula, poll=self.poll, **more)
        self.addCleanup(changes.close)
        changes.begin()
        return changes

    def taken(self, changes, quiet=QUIET):
        """What comes until it is quiet."""
        told = [self.below(it) for it in iter(lambda: changes.read(quiet), None)]
        return [it for it in told if it[0] not in self.more]

    def assert_told(self, changes, *lines):
        """These come next, and nothing else yet."""
        told = []
        while len(told) < len(lines):
            change = changes.read(SECONDS)
            self.assertIsNotNone(change, told)
            if change.sign not in self.more or self.below(change) in lines:
                told.append(self.below(change))
        self.assertEqual(sorted(told + self.taken(changes, 0)), sorted(lines))


class Changes(Watches):
    def test_what_matches_comes_moves_and_leaves(self):
        os.mkdir(self.path("in"))
        self.write("b.txt", 200)
        self.write("a.txt", 200)
        self.write("small.txt", 100)
        changes = self.watch("name==*.txt && size>100")
        first, second = changes.read(), changes.read()
        self.assertEqual(first, Change("there", self.path("a.txt"), None))
        self.assertEqual(second, Change("there", self.path("b.txt")))
        self.assertFalse(changes.waits())
        os.rename(self.path("a.txt"), self.path("in", "c.txt"))
        self.assertEqual(changes.read(SECONDS), Change("moved", self.path("in", "c.txt"), self.path("a.txt")))
        os.rename(self.path("b.txt"), self.path("b.old"))
        self.assert_told(changes, "- b.txt")
        self.write("small.txt", 101)
        self.assert_told(changes, "+ small.txt")
        os.remove(self.path("in", "c.txt"))
        self.assert_told(changes, "- in/c.txt")
        self.assertEqual(self.taken(changes), [])

    def test_a_file_that_is_written_is_told_once(self):
        self.write("a.txt", 5)
        changes = self.watch("name==*.txt")
        changes.read()
        self.write("a.txt", 5)  # within the same second, and of the same size
        self.assert_told(changes, "~ a.txt")
        self.replace("a.txt", 5)
        self.assert_told(changes, "~ a.txt")
        os.chmod(self.path("a.txt"), 0o600)
        with open(self.path("a.txt"), "rb") as file:
            file.read()
        self.assertEqual(self.taken(changes), [])

    def test_a_move_onto_a_file_that_matches(self):
        self.write("a.txt")
        self.write("b.txt")
        changes = self.watch("name==*.txt")
        self.assertEqual(self.taken(changes, 0), ["= a.txt", "= b.txt"])
        os.replace(self.path("a.txt"), self.path("b.txt"))
        self.assert_told(changes, "> a.txt b.txt")
        self.assertEqual(self.taken(changes), [])

    def test_what_is_in_a_folder_moves_with_it(self):
        os.makedirs(self.path("in", "deep"))
        self.write("in/a.txt")
        self.write("in/deep/b.txt")
        changes = self.watch("name==*.txt")
        self.taken(changes, 0)
        os.rename(self.path("in"), self.path("out"))
        self.assert_told(changes, "> in/a.txt out/a.txt", "> in/deep/b.txt out/deep/b.txt")
        shutil.rmtree(self.path("out"))
        self.assert_told(changes, "- out/a.txt", "- out/deep/b.txt")

    def test_an_attribute_that_comes_after_the_entry_makes_no_noise(self):
        changes = self.watch("!(kind==link) && name==a*")
        os.symlink("nowhere", self.path("a1"))
        self.write("a2")
        self.assert_told(changes, "+ a2")

    def test_names_of_any_bytes(self):
        names = [b"sch\xf6n.txt", "schön.txt".encode(), "\uf7f6.txt".encode(), b"two\nlines.txt"]
        for name in names:
            self.write_raw(name)
        changes = self.watch("name==*.txt")
        seen = [os.fsencode(os.path.basename(it.path)) for it in iter(lambda: changes.read(0), None)]
        self.assertEqual(sorted(seen), sorted(names))
        one = self.watch(f"name=={to_name(names[0])}")
        self.assertEqual(self.taken(one, 0), ["= " + os.fsdecode(names[0])])

    def test_entries_that_are_skipped(self):
        for folder in ".git", "build-1", "src":
            os.mkdir(self.path(folder))
            self.write(f"{folder}/a.txt")
        changes = self.watch("name==*.txt", skip=[".git", "build-*"])
        self.assertEqual(self.taken(changes, 0), ["= src/a.txt"])
        self.write(".git/b.txt")
        self.write("src/b.txt")
        self.assert_told(changes, "+ src/b.txt")

    def test_a_name_that_is_too_long_is_told(self):
        self.write_raw(LONG)
        told = []
        changes = self.watch(tell=told.append)
        self.assertEqual(self.taken(changes, 0), [])
        wrong = r"/\\xff\\xff.*: the name has more than 255 bytes as a text, so it is passed over$"
        self.assertEqual([bool(re.search(wrong, it)) for it in told], [True], told)
        with self.assertLogs("yazgoulm.folder", "WARNING") as logs:
            self.watch()
        self.assertEqual(len(logs.output), 1)

    def test_a_set_of_paths_stays_right(self):
        """After random acts a set of paths that follows the changes is what os.walk finds."""
        chance, paths = random.Random(self.id()), set()
        for name in "a", "b", "c":
            os.mkdir(self.path(name))
        changes = self.watch("name==*.txt && size>1")
        for step in range(12):
            for _ in range(chance.choice([1, 5, 40])):
                self.act(chance)
            wanted = {
                path for at, _, names in os.walk(self.folder) for path in (os.path.join(at, name) for name in names)
                if path.endswith(".txt") and os.path.getsize(path) > 1
            }  # fmt: skip
            end = time.monotonic() + SECONDS
            while paths != wanted and time.monotonic() < end:
                change = changes.read(0.1)
                if change:
                    self.follow(paths, change)
            self.assertEqual(paths, wanted, step)

    def follow(self, paths, change):
        """Does to a set of paths what a change says, which has to fit it."""
        if change.old_path is None:
            self.assertEqual(change.path in paths, change.what in ("left", "changed"), change)
        if change.what == "left":
            paths.remove(change.path)
        elif change.old_path is not None:
            paths.remove(change.old_path)
        paths.update([change.path] if change.what != "left" else [])

    def act(self, chance):
        """Writes, moves or removes something."""
        folders = [it for it, _, _ in os.walk(self.folder)]
        files = [os.path.join(at, name) for at, _, names in os.walk(self.folder) for name in names]
        new = os.path.join(chance.choice(folders), chance.choice("12345") + chance.choice([".txt", ".txt", ".c"]))
        what = chance.choice(["write", "write", "write", "move", "move", "remove", "folder"])
        if what == "write" or not files:
            self.write(new, chance.choice([0, 3]))
        elif what == "move":
            os.replace(chance.choice(files), new)
        elif what == "remove":
            os.remove(chance.choice(files))
        else:
            old, to = chance.choice(folders[1:]), os.path.join(chance.choice(folders), chance.choice("abcde"))
            if not os.path.exists(to) and not to.startswith(f"{old}/"):
                os.rename(old, to)


class ByPolling(Changes):
    """The same, where everything is looked at again and again. Then a new mode, or a rename, is a change too: the times
    alone don't tell it from a write."""

    poll = 0.05
    more = "~"


class Cutter(Cuts):
    """Raises InterruptedError at a bytecode of the package, counted from 0. At those that begin and end an exception's
    handler, and from what takes an item of an iterator to what gives it back, no signal is handled."""

    raises, folder, asks_always = InterruptedError, os.path.dirname(yazgoulm.__file__), True
    NEVER = {dis.opmap.get(it) for it in ("PUSH_EXC_INFO", "POP_EXCEPT", "RERAISE", "COPY", "RETURN_VALUE")}
    TAKES = dis.opmap["FOR_ITER"]
    GIVES = {dis.opmap.get(it) for it in ("STORE_FAST", "LOAD_FAST", "STORE_FAST_LOAD_FAST", "SWAP", "ROT_TWO", "POP_TOP")}

    taking = None

    def may_cut(self, frame):
        code = frame.f_code.co_code[frame.f_lasti]
        if self.taking is not frame or code not in self.GIVES:
            self.taking = frame if code == self.TAKES else None
        return code not in self.NEVER and (self.taking is None or code == self.TAKES)


class Told(Watches):
    """What was told wrongly by the mirror that the package had before the library kept folders."""

    def test_a_new_file_at_the_inode_of_one_that_went(self):
        self.write("m.txt")
        changes = self.watch("name==*.txt")
        self.taken(changes, 0)
        for _ in range(100):
            os.remove(self.path("m.txt"))
            self.write("n.txt")
            self.assert_told(changes, "+ n.txt", "- m.txt")
            os.remove(self.path("n.txt"))
            self.write("m.txt")
            self.assert_told(changes, "+ m.txt", "- n.txt")

    def test_a_new_folder_at_the_inode_of_one_that_went(self):
        """No path is told that never was on disk."""
        for number in range(20):
            os.makedirs(self.path("a", "deep"))
            self.write("a/deep/x.txt")
            changes = self.watch()
            self.taken(changes, 0)
            shutil.rmtree(self.path("a"))
            os.mkdir(self.path("b"))
            self.assert_told(changes, "- a", "- a/deep", "- a/deep/x.txt", "+ b")
            changes.close()
            os.rmdir(self.path("b"))

    def test_a_write_after_a_rename(self):
        self.write("a.txt", 5)
        changes = self.watch("name==*.txt")
        self.taken(changes, 0)
        for number in range(50):
            old, new = ("a.txt", "b.txt")[:: 1 - number % 2 * 2]
            os.rename(self.path(old), self.path(new))
            with open(self.path(new), "ab") as file:
                file.write(b"x")
            self.assertEqual(self.below(changes.read(SECONDS)), f"> {old} {new}")
            self.assertEqual(self.below(changes.read(SECONDS)), f"~ {new}")
            self.taken(changes, 0)

    def test_a_file_that_is_written_by_a_name_that_goes(self):
        for _ in range(20):
            self.write("a.txt", 5)
            os.link(self.path("a.txt"), self.path("b.txt"))
            changes = self.watch("name==a.txt && size<=7")
            self.taken(changes, 0)
            with open(self.path("b.txt"), "ab") as file:
                file.write(b"xxx")
            os.remove(self.path("b.txt"))
            self.assertEqual(self.below(changes.read(SECONDS)), "- a.txt")
            changes.close()

    @unittest.skipIf(os.getuid() != 0, "only root can be another user")
    def test_permissions_that_come_back(self):
        os.chmod(self.room, 0o755)
        os.chown(self.folder, 65534, 65534)
        script = """
            import json, os, sys
            from yazgoulm.folder import watch
            os.setgid(65534), os.setuid(65534), os.chdir(sys.argv[1]), os.mkdir("in")
            open("in/a.txt", "w").close()
            changes = watch(".", "name==*.txt", tell=lambda line: None)
            changes.begin()
            told = [changes.read(0)]
            for taken in 0, 0o444, 0o111:
                os.chmod("in", taken)
                told += iter(lambda: changes.read(0.3), None)
                os.chmod("in", 0o755)
                told += iter(lambda: changes.read(0.3), None)
            print(json.dumps([it.sign + it.path for it in told]))
        """
        words = [sys.executable, "-c", textwrap.dedent(script), self.folder]
        env = {**os.environ, "PYTHONPATH": PACKAGE, "PYTHONDONTWRITEBYTECODE": "1"}
        done = subprocess.run(words, capture_output=True, env=env, timeout=SECONDS)
        self.assertEqual(done.stderr.decode(), "")
        told = json.loads(done.stdout)
        self.assertEqual(told[:3], ["=./in/a.txt", "-./in/a.txt", "+./in/a.txt"])
        self.assertEqual(told[3:5], ["-./in/a.txt", "+./in/a.txt"])
        self.assertIn(told[5:], ([], ["-./in/a.txt", "+./in/a.txt"]))

    def test_attributes_are_texts(self):
        for name, year, rating in (("a", b"2024", b"10"), ("b", b"2024a", b"4"), ("c", b"1999", b"10.5")):
            self.write(name)
            self.set_attribute(name, "user.year", year)
            self.set_attribute(name, "user.rating", rating)
        self.write("d")
        self.set_attribute("d", "user.long", b"x" * 3000 + b"end")
        for formula, wanted in (
            ("user.year==20*", ["= a", "= b"]), ("user.year==2024", ["= a"]), ("user.rating:number>3", ["= a", "= b"]),
            ("user.rating>3", ["= b"]), ("user.long==*end", ["= d"]),
        ):  # fmt: skip
            changes = self.watch(formula)
            self.assertEqual(self.taken(changes, 0), wanted, formula)
        self.set_attribute("c", "user.rating", b"-7")
        self.assert_told(self.watch("user.rating:number<0"), "= c")

    def test_the_first_look_can_be_interrupted(self):
        for number in range(20):
            os.makedirs(self.path(f"{number}/deep"))
            for each in range(98):
                self.write(f"{number}/{each}")
        changes = watch(self.folder)
        self.addCleanup(changes.close)
        until = time.monotonic() + SECONDS
        count = 0
        while count == 0 and time.monotonic() < until:  # that it is over before the signal comes may be
            changes.close()
            changes = watch(self.folder)
            count += self.is_interrupted(changes, 0.001)
        self.assertGreater(count, 0)
        self.assertEqual(changes.begin(), (2000, 2000))
        self.assertEqual(len(self.taken(changes, 0)), 2000)

    def is_interrupted(self, changes, seconds):
        def raises(*_):
            raise InterruptedError

        old = signal.signal(signal.SIGALRM, raises)
        try:
            signal.setitimer(signal.ITIMER_REAL, seconds)
            changes.begin()
            time.sleep(0.01)
        except InterruptedError:
            return changes._folder.window is None
        finally:
            signal.setitimer(signal.ITIMER_REAL, 0)
            signal.signal(signal.SIGALRM, old)
        return False


class Folders(Case):
    def open_folder(self, *words, **more):
        folder = Folder(self.folder, *words, **more)
        self.addCleanup(folder.close)
        folder.begin()
        return folder

    def told(self, folder):
        """What comes until nothing has come by four reads in a row: through one of them this may have had no time."""
        lines = [folder.read(0.02) for _ in range(4)]
        while any(lines[-4:]):
            lines.append(folder.read(0.02))
        return [f"{it.window}{self.below(it)}" for it in lines if it]

    def test_windows(self):
        """Each formula has its lines, and what is opened later reads no file again."""
        self.write("a.txt", 5)
        self.write("b", 500)
        folder = self.open_folder()
        texts = folder.open("name==*.txt")
        self.assertEqual(self.told(folder), ["1= a.txt"])
        large = folder.open("size>100")
        self.assertEqual((texts.number, large.number), (1, 2))
        self.assertEqual(self.told(folder), ["2= b"])
        self.write("c.txt", 200)
        self.assertEqual(self.told(folder), ["1+ c.txt", "2+ c.txt"])
        self.assertEqual([os.path.basename(it) for it in large.paths()], ["b", "c.txt"])
        self.assertEqual(large.rows(), [it.node for it in folder.volume.fetch("size>100")])
        texts.close()
        texts.close()
        self.write("d.txt", 200)
        self.assertEqual(self.told(folder), ["2+ d.txt"])
        silent = folder.open("name==*.txt", values=False, there=False)
        self.write("d.txt", 300)
        self.assertEqual(self.told(folder), ["2~ d.txt"])
        with self.assertRaisesRegex(ValueError, "the window is closed"):
            texts.rows()
        self.assertEqual(silent.number, texts.number)

    def test_a_line_has_what_was_read(self):
        self.write("a.txt", 5)
        folder = self.open_folder()
        folder.open("name==*")
        line, found = folder.read(0), os.stat(self.path("a.txt"))
        self.assertEqual(line, Line(
            1, "there", self.path("a.txt"), None, 1, line.node, 5, int(found.st_mtime), "file", found.st_ino,
            found.st_ctime_ns, found.st_mtime_ns,
        ))
        self.assertEqual((folder.path(line.node), folder.node(line.path)), (line.path, line.node))
        its = folder.entry(line.node)
        self.assertEqual((its.kind, its.inode, its.ctime, its.mtime), ("file", *line[9:12]))
        self.assertEqual(its.device, os.major(found.st_dev) << 32 | os.minor(found.st_dev))
        os.remove(self.path("a.txt"))
        left = folder.read(SECONDS)
        self.assertEqual(left[1:], ("left", self.path("a.txt"), None, 1, line.node, 0, 0, None, 0, 0, 0, 0))
        for call in folder.path, folder.entry:
            with self.assertRaises(NotFound):
                call(line.node)
        with self.assertRaises(NotFound):
            folder.node(line.path)
        with self.assertRaises(ValueError):
            folder.node("elsewhere")

    def test_two_folders_in_one_volume(self):
        volume = Volume()
        first, second = (volume.create(it, kind="folder").node for it in ("first", "second"))
        os.mkdir(self.path("a"))
        os.mkdir(self.path("b"))
        self.write("a/x.txt")
        with Folder(self.path("a"), volume, node=first) as a, Folder(self.path("b"), volume, node=second) as b:
            a.begin()
            b.begin()
            self.write("b/y.txt")
            while len(volume.fetch("name==*.txt")) < 2:
                a.turn()
                b.turn()
            self.assertEqual(volume.path(volume.find_path("second/y.txt")), "/second/y.txt")
            with volume.open("name==*.txt") as query:
                os.remove(self.path("a", "x.txt"))
                while not query.read():
                    a.turn()
            for node, error in ((first, NotEmpty), (99, NotFound), (volume.find_path("second/y.txt"), NotFolder)):
                self.write("a/x.txt")
                a.read(0.1)
                a.turn()
                with self.assertRaises(error):
                    Folder(self.path("a"), volume, node=node)
        self.assertEqual(len(volume.fetch("name==*.txt")), 2)
        volume.close()
        with self.assertRaisesRegex(ValueError, "the folder is closed"):
            a.turn()

    def test_a_volume_that_is_closed(self):
        volume = Volume()
        folder = self.open_folder(volume)
        volume.close()
        with self.assertRaisesRegex(ValueError, "the volume is closed"):
            folder.turn()

    def test_once(self):
        self.write("a")
        folder = Folder(self.folder, once=True)
        folder.open("name==*")
        self.assertEqual(folder.fileno(), -1)
        begun = time.monotonic()
        self.assertEqual([it.path for it in iter(lambda: folder.read(SECONDS), None)], [self.path("a")])
        self.assertLess(time.monotonic(), begun + SECONDS)
        folder.close()
        self.assertEqual([*folder], [])

    def test_a_loop_of_its_own(self):
        folder = self.open_folder()
        folder.open("name==*")
        self.assertEqual(folder.lines(), [])
        for number in range(1000):
            self.write(str(number))
        told = []
        while len(told) < 1000:
            folder.turn()
            told += folder.lines()
        self.assertEqual({it.path for it in told}, {self.path(str(it)) for it in range(1000)})

    def test_lines_are_awaited(self):
        async def main():
            told = []
            with Folder(self.folder) as folder:
                folder.open("name==*")
                async for line in folder:
                    told.append(self.below(line))
                    if len(told) == 2:
                        return told
                    self.write("b")

        self.write("a")
        self.assertEqual(asyncio.run(asyncio.wait_for(main(), SECONDS))[1], "+ b")

    def test_refusals(self):
        folder = self.open_folder()
        with self.assertRaises(BadQuery) as raised:
            folder.open("name==*&&size>")
        self.assertEqual((raised.exception.place, raised.exception.arguments), (14, ("name==*&&size>",)))
        for wrong in (1, ["name"], None):
            with self.assertRaises(TypeError):
                folder.open(wrong)
        for _ in range(64):
            folder.open("name==*")
        with self.assertRaisesRegex(Refused, "NoSlot: .*: all 64 slots of the volume are taken: close a window"):
            folder.open("name==*")
        wrongs = {"volume": 1}, {"node": -1}, {"poll": 0}, {"skip": ["a\0"]}, {"tell": 1}, {"path": "\0"}, {"path": 1}
        for wrong in wrongs:
            with self.assertRaises((TypeError, ValueError), msg=wrong):
                Folder(**{"path": self.folder, **wrong})
        for path, error in (("", FileNotFoundError), ("/x" * 40_000, OSError)):
            with self.assertRaises(error) as raised:
                Folder(path)
            self.assertEqual(raised.exception.filename, path)

    def test_what_a_turn_raises(self):
        folder = self.open_folder()
        calls, statuses = folder._calls, iter([(15, 0), (45, errno.EIO), (46, 0), (45, errno.EMFILE)])

        class Answers:
            read, close = calls.read, calls.close

            def turn(self):
                return (*next(statuses), 0, 0, 0, False, True, False)

        folder._calls = Answers()
        self.addCleanup(setattr, folder, "_calls", calls)
        with self.assertRaises(MemoryError):
            folder.turn()
        for error, number in ((OSError, errno.EIO), (FolderGone, errno.ENOENT), (OSError, errno.EMFILE)):
            with self.assertRaises(error) as raised:
                folder.turn()
            self.assertEqual((raised.exception.errno, raised.exception.filename), (number, self.folder))
        self.assertIn("see `ulimit -n`", str(raised.exception))

    def test_notices_without_a_window(self):
        told = []
        self.write_raw(LONG)
        folder = self.open_folder(tell=told.append)
        for _ in range(3):
            folder.turn()
        self.assertEqual(len(told), 1)

    def test_a_thread_that_uses_the_volume_during_turns(self):
        """The interpreter's lock is let go in turns, and the volume's isn't."""
        folder = self.open_folder()
        folder.open("size>0")
        stops, counts = threading.Event(), []

        def looks():
            count = 0
            while not stops.is_set():
                count += len(folder.volume.fetch("name==1")) >= 0
            counts.append(count)

        thread = threading.Thread(target=looks)
        thread.start()
        for number in range(500):
            self.write(str(number), 1)
        names = set()
        while len(names) < 500:
            names.add(folder.read(SECONDS).path)
        stops.set()
        thread.join()
        self.assertGreater(counts[0], 0)

    def test_threads_share_the_lines(self):
        folder, got = self.open_folder(), []
        folder.open("name==*")

        def reads():
            for line in folder:
                got.append(line.number)

        threads = [threading.Thread(target=reads) for _ in range(4)]
        for thread in threads:
            thread.start()
        for number in range(1000):
            self.write(str(number))
        until = time.monotonic() + SECONDS
        while len(got) < 1000 and time.monotonic() < until:
            time.sleep(0.01)
        folder.close()
        for thread in threads:
            thread.join()
        self.assertEqual(sorted(got)[:1000], [*range(1, 1001)])

    def test_signals_lose_no_line(self):
        """Whatever a signal interrupts, each line comes once."""
        folder, got, count, made = self.open_folder(), [], 0, 0
        folder.open("name==*", values=False)

        def raises(*_):
            raise InterruptedError

        old = signal.signal(signal.SIGALRM, raises)
        draw, ends = random.Random(3), time.monotonic() + SECONDS
        try:
            while count < 30 and time.monotonic() < ends:
                signal.setitimer(signal.ITIMER_REAL, 0)
                for made in range(made + 1, made + 301):
                    self.write(str(made))
                while len(got) < made and time.monotonic() < ends:
                    try:
                        signal.setitimer(signal.ITIMER_REAL, 10 ** draw.uniform(-3.7, -2.3))
                        got.extend(folder)  # which loses nothing that it was given
                    except InterruptedError:
                        count += 1
        finally:
            signal.setitimer(signal.ITIMER_REAL, 0)
            signal.signal(signal.SIGALRM, old)
        got += iter(lambda: folder.read(QUIET), None)
        self.assertEqual([it.number for it in got], [*range(1, made + 1)])
        self.assertGreater(count, 0)

    def test_the_volume_is_what_the_old_mirror_sees(self):
        """After bursts of acts the entries are those of the mirror that the package had before, looking afresh."""
        from old_mirror.disk import look_below

        draw, folder = random.Random(11), self.open_folder()
        for burst in range(8):
            for _ in range(60):
                self.act_deep(draw)
            while not folder.turn().settled:
                time.sleep(0.005)
            held = {}
            for it in folder.volume.fetch("name==*"):
                kind = folder.entry(it.node).kind
                held[os.fsencode(folder.volume.path(it.node))] = it.size, it.time, kind
            seen = look_below(os.fsencode(self.folder))
            self.assertEqual(held, {path: (it.size, it.time, it.kind) for path, it in seen.items()}, burst)

    def act_deep(self, draw):
        """Makes, writes, moves or removes a file or a folder."""
        old, new = (self.path(*draw.choices("ab", k=draw.randrange(1, 4))) for _ in range(2))
        try:
            what = draw.choice(["folder", "write", "write", "move", "move", "link", "remove", "tree"])
            if what == "folder":
                os.mkdir(old)
            elif what == "write":
                with open(old, "ab") as file:
                    file.write(b"x" * draw.randrange(1, 9))
            elif what == "move":
                os.rename(old, new)
            elif what == "link":
                os.symlink("nowhere", old)
            elif what == "remove":
                os.remove(old)
            elif draw.random() < 0.3:
                shutil.rmtree(old)
        except OSError:
            pass  # it can't be done just now

    def test_a_call_that_is_cut_at_each_bytecode(self):
        """No lock is kept, no slot is lost, and each line comes once."""
        calls = {
            "open": lambda it: it.open("name==z*"), "turn": Folder.turn, "lines": lambda it: given.extend(it.lines()),
            "read": lambda it: given.append(it.read(0)), "next": lambda it: given.append(next(it)),
            "close": lambda it: it.open("name==z*").close(), "rows": lambda it: it.open("name==z*").paths(),
        }  # fmt: skip
        for number in range(4):
            self.write(str(number))
        for name, call in calls.items():
            at, is_cut = random.randrange(3), True
            while is_cut:
                folder, given = self.open_folder(), []
                folder.open("name==?")
                if name in ("lines", "read", "next"):
                    folder.turn()
                is_cut = Cutter(at).cuts(lambda: call(folder))
                thread = threading.Thread(target=lambda: given.extend(iter(lambda: folder.read(0), None)))
                thread.start()
                thread.join(SECONDS)
                self.assertFalse(thread.is_alive(), f"{name} at {at}: the lock is kept")
                self.assertEqual([it.number for it in given], [1, 2, 3, 4], f"{name} at {at}")
                if at % 5 == 0 or not is_cut:
                    windows = [folder.open("name==z*") for _ in range(64 - len(folder._windows))]
                    self.assertEqual(len({it.number for it in windows}), len(windows))
                folder.close()
                at += 3 if yazgoulm.backend == "extension" else 9
            self.assertGreater(at, 0, name)

    def test_a_close_that_is_cut_at_each_bytecode(self):
        """The window is open with all of its lines, or closed without one, also if its number is given again."""
        for number in range(4):
            self.write(str(number))
        at, is_cut = 0, True
        while is_cut:
            folder = self.open_folder()
            window, other = folder.open("name==?"), folder.open("name==?")
            first = folder.read(0)  # the others were taken with it
            self.assertEqual(first.window, window.number)
            is_cut = Cutter(at).cuts(window.close)
            left, again = 3, None
            try:
                self.assertEqual(len(window.rows()), 4)
            except ValueError as error:
                self.assertEqual(str(error), "the window is closed")
                left = 0
                if at % 2:
                    again = folder.open("name==?", there=False)
                    self.assertEqual(again.number, window.number)
            told = [it.window for it in iter(lambda: folder.read(0), None)]
            self.assertEqual(sorted(told), left * [window.number] + 4 * [other.number], f"at {at}")
            folder.close()
            at += 1 if yazgoulm.backend == "extension" else 5
        self.assertGreater(at, 10)

    def test_a_window_beside_an_opening_that_is_cut(self):
        """The slot of a query that nobody has any more is freed once, and not again when a window has it."""
        self.write("a")
        at, is_cut = 0, True
        while is_cut:
            folder = self.open_folder()
            volume = folder.volume
            volume.open("size>1")  # which nobody has
            is_cut = Cutter(at).cuts(lambda: volume.open("size>2").drop())
            window = folder.open("name==a")
            query = volume.open("size>3")
            self.assertNotEqual(query.slot, window.number, f"at {at}")
            self.assertEqual(len(window.rows()), 1, f"at {at}")
            folder.close()
            at += 1 if yazgoulm.backend == "extension" else 3
        self.assertGreater(at, 10)

    def test_a_beginning_that_is_cut_at_each_bytecode(self):
        """Nothing is left of it that goes wrong later."""
        hook, wrong, begun, at = sys.unraisablehook, [], [], 0
        self.addCleanup(setattr, sys, "unraisablehook", hook)
        sys.unraisablehook = lambda it: wrong.append((at, repr(it.exc_value)))
        while Cutter(at).cuts(lambda: begun.append(Folder(self.folder))):
            at += 1
        for folder in begun:
            folder.close()
        self.assertEqual(wrong, [])

    def test_a_fork(self):
        """The child has the volume, and the parent the folder."""
        self.write("a")
        folder = self.open_folder()
        folder.open("name==*")
        self.assertEqual(self.told(folder), ["1= a"])
        self.write("b")
        child = os.fork()
        if child == 0:
            try:
                folder.turn()
                os._exit(1)
            except ValueError as error:
                is_said = "the process that this one was forked from" in str(error)
            os._exit(0 if is_said and len(folder.volume.fetch("name==a")) == 1 and folder.fileno() == -1 else 2)
        self.assertEqual(os.waitpid(child, 0)[1], 0)
        self.write("c")
        self.assertEqual(self.told(folder), ["1+ b", "1+ c"])

    def test_a_fork_beside_a_thread_that_begins(self):
        """A volume that came after a fork has taken all locks may be within a call: the child doesn't wait for it."""
        folder, held, done = self.open_folder(), threading.Event(), threading.Event()
        handle = folder.volume._handle

        def hold():
            handle.acquire(True)
            held.set()
            done.wait(SECONDS)
            handle.release()

        thread = threading.Thread(target=hold)
        thread.start()
        self.assertTrue(held.wait(SECONDS))
        with mock.patch.object(_volume._Forks, "handles", lambda _: []), warnings.catch_warnings():
            warnings.simplefilter("ignore", DeprecationWarning)
            child = os.fork()
        if child == 0:
            os._exit(0)
        done.set()
        thread.join()
        until = time.monotonic() + SECONDS
        while os.waitpid(child, os.WNOHANG) == (0, 0):
            if time.monotonic() > until:
                os.kill(child, signal.SIGKILL)
                os.waitpid(child, 0)
                self.fail("the child waits for ever")
            time.sleep(0.01)

    def test_a_folder_that_nobody_has_is_closed(self):
        def opened():
            return [it for it in map(read_link, os.listdir("/proc/self/fd")) if it and "inotify" in it]

        def read_link(number):
            try:
                return os.readlink(f"/proc/self/fd/{number}")
            except OSError:
                return None

        volume = Volume()
        folder = Folder(self.folder, volume)
        self.assertEqual(len(opened()), 1)
        del folder
        gc.collect()
        self.assertEqual(opened(), [])
        Folder(self.folder, volume).close()

    def test_no_copies(self):
        import copy, pickle

        folder = self.open_folder()
        for call in copy.copy, copy.deepcopy, pickle.dumps:
            with self.assertRaisesRegex(TypeError, "a Folder can be neither copied nor pickled"):
                call(folder)

    def test_texts(self):
        self.assertEqual(fold("Stra\u00dfe \u0130 \u1e9e A\udc80"), "stra\u00dfe \u0130 \u00df a\udc80")
        for formula, wanted in (
            ("name==*.TXT", "iname==*.txt"), ("'name'=X", "iname=x"), ("user.name==X", "user.name==X"),
            ("size>3&&(name=='A B'||!name!=\u00c4)", "size>3&&(iname=='a b'||!iname!=\u00e4)"),
            ("name==name", "iname==name"), ("iname==X", "iname==x"),
        ):  # fmt: skip
            self.assertEqual(folded(formula, fold), wanted)

    def test_the_mirror_of_the_page(self):
        """The program of the module's docstring has what is on disk, whatever comes and goes."""
        text = inspect.getdoc(yazgoulm.folder)
        program = text[text.index("    contents, unread =") :].replace('"docs"', "docs")
        program = textwrap.dedent(program).replace("while True:", "while not is_done():")
        draw, acts = random.Random(5), iter(range(400))

        def is_done():
            if next(acts, None) is None:
                time.sleep(0.02)
                is_same = not given["unread"] and given["contents_seen"]() == self.contents()
                return time.monotonic() > ends[0] and (is_same or time.monotonic() > last)
            ends[0] = time.monotonic() + 0.5
            self.act(draw)
            return time.monotonic() > last

        last, ends = time.monotonic() + 3 * SECONDS, [0]
        given = {"os": os, "docs": self.folder, "Folder": Folder, "is_done": is_done, "unread": {}}
        given["contents_seen"] = lambda: {path: it[2] for path, it in given["contents"].items()}
        exec(program, given)
        self.assertEqual(given["contents_seen"](), self.contents())

    def contents(self):
        found = {}
        for name in os.listdir(self.folder):
            with open(self.path(name), "rb") as file:
                found[self.path(name)] = file.read()
        return found

    def act(self, draw):
        old, new = self.path(draw.choice("abcd")), self.path(draw.choice("abcd"))
        if draw.random() < 0.4 or not os.path.exists(old):
            with open(old, draw.choice(["ab", "wb"])) as file:
                file.write(str(draw.random()).encode())
        elif draw.random() < 0.7:
            os.rename(old, new)
        else:
            os.remove(old)


class Ends(Watches):
    def test_what_cannot_be_watched(self):
        self.write("file")
        for path, error in ((self.path("none"), FileNotFoundError), (self.path("file"), NotADirectoryError)):
            with self.assertRaises(error) as raised:
                watch(path)
            self.assertEqual(raised.exception.filename, path)
        with self.assertRaises(BadQuery) as raised:
            watch(self.folder, "name==*&&size>")
        self.assertEqual(raised.exception.place, 14)
        for wrong in ({"poll": 0}, {"poll": -1}, {"poll": "1"}, {"formula": 1}, {"path": 1}, {"skip": [1]}):
            with self.assertRaises((TypeError, ValueError), msg=wrong):
                watch(**{"path": self.folder, **wrong})

    def test_the_folder_goes(self):
        for command in 'rm -r "$1"', 'mv "$1" "$1-moved"':
            os.makedirs(self.path("it", "deep"))
            changes = watch(self.path("it"), "name==*.txt")
            self.assertIsNone(changes.read(0))
            subprocess.run(["sh", "-c", command, "sh", self.path("it")], check=True)
            for _ in range(2):
                with self.assertRaisesRegex(FolderGone, "it was moved or removed"):
                    changes.read(SECONDS)
            changes.close()
            self.assertIsNone(changes.read(SECONDS))

    def test_more_changes_than_inotify_holds(self):
        with open("/proc/sys/fs/inotify/max_queued_events", encoding="ascii") as file:
            most = int(file.read())
        if most > 100_000:
            self.skipTest(f"the queue holds {most} events")
        told = []
        changes = self.watch("name==*.txt", tell=told.append)
        self.write("first.txt")
        for _ in range(most // 4 + 10):  # four events each
            os.rename(self.path("first.txt"), self.path("x"))
            os.rename(self.path("x"), self.path("first.txt"))
        self.write("after.txt")
        os.mkdir(self.path("in"))
        self.write("in/after.txt")
        self.more = "~"  # nobody knows whether what was there is as it was
        self.assert_told(changes, "+ first.txt", "+ after.txt", "+ in/after.txt")
        self.assertEqual([it for it in told if "queue" not in it], [])
        self.assertGreater(len(told), 0)
        self.write("in/more.txt")
        self.assert_told(changes, "+ in/more.txt")

    def test_it_is_closed_on_another_thread(self):
        changes = self.watch()
        timer = threading.Timer(0.1, changes.close)
        timer.start()
        self.assertEqual(list(changes), [])
        timer.join()
        changes.close()
        with self.watch() as changes:
            pass
        self.assertEqual(list(changes), [])

    def test_nothing_stays_open(self):
        def opened():
            gc.collect()
            return len(os.listdir("/proc/self/fd"))

        before = opened()
        for number in range(5):
            changes = watch(self.folder)
            changes.read(0)
            if number % 2:
                changes.close()
            del changes
        self.assertEqual(opened(), before)

    def test_a_file_that_is_written_for_long(self):
        changes = self.watch("name==*.txt")
        with open(self.path("a.txt"), "wb", buffering=0) as file:
            self.assert_told(changes, "+ a.txt")
            count, begun = 0, time.monotonic()
            while time.monotonic() < begun + (1 if count else SECONDS):
                file.write(b"x")
                count += changes.read(0.01) is not None
            self.assertIn(count, range(1, 5 + 5 * int(time.monotonic() - begun)))
        self.taken(changes)


class Asynchronous(Watches):
    def run_async(self, main):
        return asyncio.run(asyncio.wait_for(main, 3 * SECONDS))

    def test_changes_are_awaited(self):
        async def main():
            told = []
            with watch(self.folder, "name==*.txt") as changes:
                async for change in changes:
                    told.append(self.below(change))
                    if len(told) == 1:
                        os.rename(self.path("a.txt"), self.path("b.txt"))
                    elif len(told) == 2:
                        asyncio.get_running_loop().call_later(0.1, self.write, "c.txt")
                    else:
                        return told

        self.write("a.txt")
        self.assertEqual(self.run_async(main()), ["= a.txt", "> a.txt b.txt", "+ c.txt"])

    def test_waits_that_time_out_lose_nothing(self):
        async def main():
            told = []
            with watch(self.folder, "name==*.txt") as changes:
                for number in range(60):
                    self.write(f"{number}.txt")
                    try:
                        told.append(self.below(await asyncio.wait_for(changes.__anext__(), 0.001)))
                    except asyncio.TimeoutError:
                        pass
                while len(told) < 60:
                    told.append(self.below(await changes.__anext__()))
            return told

        self.assertEqual({it[2:] for it in self.run_async(main())}, {f"{number}.txt" for number in range(60)})

    def test_other_tasks_get_their_turn(self):
        async def main():
            others = []
            with watch(self.folder) as changes:
                await changes.__anext__()
                asyncio.get_running_loop().call_soon(others.append, 1)
                for _ in range(200):
                    await changes.__anext__()
                return others

        for number in range(300):
            self.write(str(number))
        self.assertEqual(self.run_async(main()), [1])

    def test_two_at_a_time_and_a_close(self):
        told = []

        async def all_of(changes):
            mine = []
            async for change in changes:
                mine.append(self.below(change))
                told.append(change)
            return mine

        async def main():
            with watch(self.folder, "name==*.txt") as texts, watch(self.folder, "name==*.c") as sources:
                tasks = [asyncio.create_task(all_of(it)) for it in (texts, sources, sources)]
                await asyncio.sleep(0.1)
                self.write("a.txt")
                self.write("a.c")
                while len(told) < 2:  # `run_async` has a limit
                    await asyncio.sleep(0.01)
                await asyncio.sleep(QUIET)
                texts.close()
                sources.close()
                return await asyncio.gather(*tasks)

        first, *more = self.run_async(main())
        self.assertEqual((first, sorted(more)), (["+ a.txt"], [[], ["+ a.c"]]))

    def test_the_folder_goes(self):
        async def main():
            async for _ in watch(self.folder, "name==*.txt"):
                shutil.rmtree(self.folder, ignore_errors=True)

        self.write("a.txt")
        with self.assertRaises(FolderGone):
            self.run_async(main())


def command(name, *words):
    """A command's words, as pip installed it or else by its module."""
    installed = f"{PACKAGE}/bin/{name}"
    module = {"yazgoulm-folder": "yazgoulm.folder", "yazgoulm-mail": "yazgoulm._mail"}[name]
    return [*([sys.executable, installed] if os.path.exists(installed) else [sys.executable, "-m", module]), *words]


class Commands(Case):
    name = "yazgoulm-folder"
    env = {**os.environ, "PYTHONPATH": PACKAGE, "PYTHONDONTWRITEBYTECODE": "1"}

    def run_it(self, *words, **more):
        """Its status, its output and its errors."""
        done = subprocess.run(command(self.name, *words), capture_output=True, timeout=SECONDS, env=self.env, **more)
        return done.returncode, done.stdout.decode(), done.stderr.decode()

    def start(self, *words, stdout=subprocess.PIPE, **more):
        """One that goes on until the test has ended."""
        live = subprocess.Popen(command(self.name, *words), stdout=stdout, stderr=subprocess.PIPE, env=self.env, **more)

        timer = threading.Timer(2 * SECONDS, live.kill)  # so that no test waits for ever for a line
        timer.start()

        def end():
            timer.cancel()
            live.kill()
            live.communicate()

        self.addCleanup(end)
        return live

    def begun(self, *words):
        """A yazgoulm-folder that has read its folder."""
        live = self.start(*words)
        for said in "follows", "match":
            self.assertIn(said, live.stderr.readline().decode())
        return live

    def assert_line(self, live, line):
        self.assertEqual(live.stdout.readline().decode(), f"{line}\n")

    def assert_ends(self, live, status, error):
        live.wait(SECONDS)
        self.assertEqual((live.returncode, live.stderr.read().decode()), (status, error))


class FolderCommand(Commands):
    def test_lines(self):
        self.write("a.txt", 9)
        live = self.start(self.folder + "/", "name==*.txt")
        for line in f"follows {self.folder}/: name==*.txt (Ctrl-C ends)", "1 of 1 entries match":
            self.assertEqual(live.stderr.readline().decode(), f"yazgoulm-folder: {line}\n")
        self.assert_line(live, f"= {self.folder}/a.txt")
        os.rename(self.path("a.txt"), self.path("b.txt"))
        self.assert_line(live, f"> {self.folder}/a.txt > {self.folder}/b.txt")
        self.write("b.txt", 3)
        self.assert_line(live, f"~ {self.folder}/b.txt")
        self.write_raw(b"sch\xf6n\x1b[1m.txt")
        self.assert_line(live, rf"+ {self.folder}/sch\xf6n\x1b[1m.txt")
        os.remove(self.path("b.txt"))
        self.assert_line(live, f"- {self.folder}/b.txt")
        live.send_signal(signal.SIGINT)
        self.assert_ends(live, -signal.SIGINT, "")

    def test_the_folder_alone(self):
        self.write("a")
        os.mkdir(self.path("b"))
        status, out, error = self.run_it(".", "--once", cwd=self.folder)
        self.assertEqual((status, out, error), (0, "= ./a\n= ./b\n", ""))

    def test_json_and_paths_alone(self):
        self.write_raw(b"\xf6.txt")
        self.write("b.txt")
        status, out, _ = self.run_it(self.folder, "--json", "name==*.txt", "--once")
        found = [json.loads(line) for line in out.splitlines()]
        self.assertEqual([it["change"] for it in found], ["there", "there"])
        self.assertEqual({it["path"] for it in found}, {f"{self.folder}/b.txt", f"{self.folder}/\uf7f6.txt"})
        done = subprocess.run(command(self.name, "-0q", self.folder, "--once"), capture_output=True, env=self.env)
        wanted = {os.fsencode(self.path("b.txt")), os.fsencode(self.folder) + b"/\xf6.txt", b""}
        self.assertEqual({*done.stdout.split(b"\0")}, wanted)
        live = self.begun(self.folder, "name==b*", "--new", "--json")
        os.rename(self.path("b.txt"), self.path("b.c"))
        moved = json.loads(live.stdout.readline())
        wanted = {"change": "moved", "path": self.path("b.c"), "old_path": self.path("b.txt")}
        self.assertEqual({it: moved[it] for it in wanted}, wanted)
        os.remove(self.path("b.c"))
        self.assertEqual(json.loads(live.stdout.readline()), {"change": "left", "path": self.path("b.c")})

    def test_json_has_what_was_read(self):
        self.write("a.txt", 7)
        self.set_attribute("a.txt", "user.rating", b"10")
        found = os.stat(self.path("a.txt"))
        _, out, _ = self.run_it(self.folder, "--json", "--once", "user.rating:number>3")
        self.assertEqual(json.loads(out), {
            "change": "there", "path": self.path("a.txt"), "size": 7, "time": int(found.st_mtime), "kind": "file",
            "attributes": {"user.rating": "10"}, "inode": found.st_ino, "ctime": found.st_ctime_ns,
            "mtime": found.st_mtime_ns,
        })

    def test_columns(self):
        self.write("a\t.txt", 7)
        os.mkdir(self.path("in"))
        self.set_attribute("in", "user.rating", b"1\t0")
        words = self.folder, "--columns", "size,kind,user.rating"
        _, out, _ = self.run_it(*words, "--once")
        self.assertEqual(out, f"= 7\tfile\t\t{self.folder}/a\\t.txt\n= 0\tfolder\t1\\t0\t{self.folder}/in\n")
        live = self.begun(*words, "--new")
        os.rename(self.path("in"), self.path("out"))
        self.assert_line(live, f"> 0\tfolder\t1\\t0\t{self.folder}/in > {self.folder}/out")
        os.rmdir(self.path("out"))
        self.assert_line(live, f"- \t\t\t{self.folder}/out")

    def test_count(self):
        for number in range(3):
            self.write(f"{number}.txt", number)
        self.assertEqual(self.run_it(self.folder, "--count", "size>0"), (0, "2\n", ""))

    def test_attributes_are_read_where_what_is_printed_depends_on_them(self):
        from yazgoulm.folder import _command

        self.write("a.txt")
        self.set_attribute("a.txt", "user.rating", b"10")
        formulas = "user.rating==10", "'user\\.rating'!=5", 'name==b||"user.rating:number">3', "!(user.rating=='11')"
        for formula in formulas:
            self.assertEqual(self.run_it(self.folder, "--count", formula), (0, "1\n", ""), formula)
        needed = [["--once", it] for it in formulas] + [
            ["name==*"], ["--once", "--json"], ["--once", "--columns", "size,user.rating"], ["--new", "size>3"],
        ]
        for words in needed + [["--once", "name==*.txt && size>3"], ["--count"], ["--once", "--columns", "size"]]:
            given = _command.parser().parse_intermixed_args([self.folder, *words])
            formula = given.formulas[0] if given.formulas else "name==*"
            self.assertEqual(_command.needs_attributes(given, formula), words in needed, words)

    def test_either_case(self):
        self.write("A.TXT")
        self.write_raw("STRASSE \u00c4.txt".encode())
        counts = ("name==*.txt", 2), ("name=='strasse \u00e4.TXT'", 1), ("name==[A-B].*", 1), ("size==0", 2)
        for formula, count in counts:
            self.assertEqual(self.run_it(self.folder, "--count", "-i", formula), (0, f"{count}\n", ""), formula)

    def test_formulas_that_find_nothing_are_warned_of(self):
        self.write("a.txt")
        for formula, said in (
            ("size>10k", 'size is a number, of bytes, and "10k" is none'),
            ("last_modified>2026-01-01", 'last_modified is a number, of seconds since 1970, and "2026-01-01" is none'),
            ("nmae==x", 'no entry has an attribute nmae: did you mean "name"?'),
            ("kind==dir", 'kind is file, folder, link or other, and never "dir": did you mean "folder"?'),
            ("user.rating>3", "texts compare by bytes: for numbers write user.rating:number"),
            ("user.rating:number>x", 'user.rating:number is a number and "x" is none'),
            ("user.nothing==x", "no entry has an attribute user.nothing\n    user.nothing==x\n    ^\n"),
            ("iname==*.TXT", 'iname has names with their case folded: did you mean "*.txt"?'),
        ):
            status, out, error = self.run_it(self.folder, "--once", formula)
            self.assertEqual((status, out), (0, ""), formula)
            self.assertIn("yazgoulm-folder: warning: ", error)
            self.assertIn(said, error)
        for formula in "size>10", "kind==f*", "kind!=dir", "name==x", "iname==*.txt", "last_modified>5", "!size<3":
            self.assertEqual(self.run_it(self.folder, "--count", formula)[::2], (0, ""), formula)
        live = self.start(self.folder, "user.nothing==x")
        lines = [live.stderr.readline().decode() for _ in range(5)]
        self.assertIn("no entry has an attribute user.nothing", lines[1])
        self.assertIn("0 of 1 entries match", lines[4])

    def test_once_needs_no_watch(self):
        os.mkdir(self.path("in"))
        with Folder(self.folder, once=True) as folder:
            folder.begin()
            held = [os.readlink(f"/proc/self/fd/{it}") for it in os.listdir("/proc/self/fd") if it != "."
                    and os.path.exists(f"/proc/self/fd/{it}")]
            self.assertNotIn("anon_inode:inotify", [it for it in held if "inotify" in it])

    def test_without_an_output(self):
        for words in (["--once"], []):
            line = " ".join(command(self.name, self.folder, "-q", *words)) + " >&-"
            done = subprocess.run(["sh", "-c", line], stderr=subprocess.PIPE, timeout=SECONDS, env=self.env)
            wrong = b"yazgoulm-folder: standard output: Bad file descriptor\n"
            self.assertEqual((done.returncode, done.stderr), (3, wrong))

    def test_few_descriptors(self):
        def few():
            resource.setrlimit(resource.RLIMIT_NOFILE, (6, 6))

        status, out, error = self.run_it(self.folder, "-q", preexec_fn=few)
        self.assertEqual((status, out), (2, ""))
        self.assertRegex(error, "^yazgoulm-folder: .*: Too many open files; see .*\n$")

    def test_a_listing_that_takes_long(self):
        """A terminal is shown how far it is, and nobody else."""
        slow = "from yazgoulm.folder import _terminal, _command; _terminal.Progress.AFTER = 0; _command.main()"
        for number in range(2000):
            self.write(str(number))
        for words, is_shown in (([], True), (["-q"], False)):
            leader, follower = pty.openpty()
            words = [sys.executable, "-c", slow, self.folder, "--once", "size>0", *words]
            subprocess.run(words, stdout=subprocess.PIPE, stderr=follower, env=self.env, timeout=SECONDS)
            os.close(follower)
            try:
                said = os.read(leader, 1 << 16).decode()
            except OSError:  # nothing was said
                said = ""
            os.close(leader)
            self.assertEqual("entries so far" in said, is_shown, said)
            self.assertEqual(said.endswith("\r\x1b[K"), is_shown)

    def test_a_command_for_each_change(self):
        self.write("a.txt")
        live = self.start(self.folder, "name==*.txt", "--exec", 'echo "did $1 $2 $3"; exit 3', "-q")
        self.assert_line(live, f"= {self.folder}/a.txt")
        os.rename(self.path("a.txt"), self.path("b.txt"))
        self.assert_line(live, f"> {self.folder}/a.txt > {self.folder}/b.txt")
        self.assert_line(live, f"did > {self.folder}/b.txt {self.folder}/a.txt")
        self.assertEqual(live.stderr.readline(), b"yazgoulm-folder: the command failed with status 3\n")

    def test_a_command_for_all_changes(self):
        live = self.begun(self.folder, "name==*.txt", "--batch", "sed 's/^/did /'; sleep 0.5", "--new")
        told = []
        for name in "a.txt", "b.txt", "c.txt":
            self.write(name)
        while sum(it.startswith("did") for it in told) < 3:
            told.append(live.stdout.readline().decode().rstrip())
        self.assertEqual({it for it in told if it[:3] == "did"}, {f"did + {self.path(it)}.txt" for it in "abc"})
        self.assertLess(len([1 for at in range(1, 6) if (told[at][:3], told[at - 1][:3]) == ("did", "+ /")]), 3)

    def test_what_it_cannot_use(self):
        self.write("file")
        for words, status, said in (
            ([], 2, "error: which folder? For example: yazgoulm-folder . 'name==*.txt'"),
            ([self.path("none")], 2, f"yazgoulm-folder: {self.folder}/none: No such file or directory\n"),
            ([self.path("file")], 2, "file: Not a directory\n"),
            (["", "name==*"], 2, ": No such file"),
            ([self.path("\x1b[1m")], 2, "\\x1b[1m: No such file"),
            ([self.folder, "name==*&&size>"], 2, "BadQuery at byte 14\n    name==*&&size>\n                  ^\n"),
            ([self.folder, "name==\u00e4 |"], 2, "BadQuery at byte 9\n    name==\u00e4 |\n            ^\n"),
            ([self.folder, "*.txt"], 2, "names are asked for by 'name==*.txt'"),
            ([self.folder, "a.txt", "b.txt"], 2, "here are 2 formulas, and only --page takes more than one"),
            ([self.folder, "--page", "--once"], 2, "--page goes with none of"),
            ([self.folder, "--port", "70000"], 2, "'70000' is no port"),
            ([self.folder, "--poll", "0"], 2, "no number of seconds above 0"),
            ([self.folder, "--json", "-0"], 2, "not allowed with"),
        ):
            seen, out, error = self.run_it(*words)
            self.assertEqual((seen, out), (status, ""), error)
            self.assertIn(said, error)
            self.assertNotIn("Traceback", error)
        status, out, error = self.run_it("--help")
        self.assertEqual((status, error), (0, ""))
        self.assertIn("yazgoulm-folder . 'name==*.txt'", out)

    @unittest.skipIf(os.getuid() != 0, "only root can be another user")
    def test_folders_that_cannot_be_read(self):
        os.chmod(self.room, 0o755)
        os.mkdir(self.path("secret"), 0o700)
        self.write("a.txt")
        script = "import os, sys; os.setgid(65534); os.setuid(65534); sys.exit(yazgoulm.folder._command.main())"
        for words, wanted in (
            ([self.path("secret")], (2, "", f"yazgoulm-folder: {self.folder}/secret: Permission denied\n")),
            ([self.folder, "--once", "kind==file"], (
                0, f"= {self.folder}/a.txt\n",
                f"yazgoulm-folder: {self.folder}/secret: Permission denied, so what is in it isn't seen\n")),
        ):
            import_first = f"import locale, yazgoulm.folder._command; {script}"
            done = subprocess.run([sys.executable, "-c", import_first, *words], capture_output=True, env=self.env)
            self.assertEqual((done.returncode, done.stdout.decode(), done.stderr.decode()), wanted)

    def test_nobody_reads_it(self):
        self.write("a")
        for lines in 0, 1:
            live = self.start(self.folder, "-q")
            for _ in range(lines):
                live.stdout.readline()
            live.stdout.close()
            self.assert_ends(live, 141, "")
            live.stdout = open(os.devnull, "rb")
        with open("/dev/full", "wb") as full:
            live = self.start(self.folder, "-q", stdout=full)
        self.assert_ends(live, 3, "yazgoulm-folder: standard output: No space left on device\n")

    def test_the_folder_goes(self):
        self.write("a")
        live = self.begun(self.folder, "name==none")
        shutil.rmtree(self.folder)
        said = f"yazgoulm-folder: {self.folder} was moved or removed, so it isn't followed any more\n"
        self.assert_ends(live, 3, said)

    def test_more_changes_than_inotify_holds(self):
        with open("/proc/sys/fs/inotify/max_queued_events", encoding="ascii") as file:
            most = int(file.read())
        if most > 100_000:
            self.skipTest(f"the queue holds {most} events")
        live = self.begun(self.folder, "name==*.txt")
        live.send_signal(signal.SIGSTOP)
        self.write("x")
        for _ in range(most // 4 + 10):  # four events each
            os.rename(self.path("x"), self.path("y"))
            os.rename(self.path("y"), self.path("x"))
        self.write("after.txt")
        live.send_signal(signal.SIGCONT)
        said = "more changed at once than inotify's queue holds, so everything is looked at again"
        self.assertEqual(live.stderr.readline().decode(), f"yazgoulm-folder: {said}\n")
        self.assert_line(live, f"+ {self.folder}/after.txt")

    def test_without_inotify(self):
        live = self.begun(self.folder, "name==*.txt", "--poll", "0.1")
        self.write("a.txt")
        self.assert_line(live, f"+ {self.folder}/a.txt")

    def test_a_page(self):
        self.write("a.txt")
        live = self.start(self.folder, "--page", "name==*.txt", "size>5")
        url = live.stdout.readline().decode()
        self.assertRegex(url, r"^http://127\.0\.0\.1:[0-9]+/\n$")
        connection = http.client.HTTPConnection("127.0.0.1", int(url.rstrip("/\n").rpartition(":")[2]), timeout=SECONDS)
        self.addCleanup(connection.close)
        connection.request("GET", "/events")
        reply = connection.getresponse()
        self.addCleanup(reply.close)
        self.assertEqual(reply.readline(), b"event: hello\n")
        windows = json.loads(reply.readline()[len("data: ") :])["windows"]
        self.assertEqual([it["formula"] for it in windows], ["name==*.txt", "size>5"])


class MailCommand(Commands):
    name = "yazgoulm-mail"

    def setUp(self):
        super().setUp()
        for name in "tmp", "new", "cur":
            os.mkdir(self.path(name))

    def deliver(self, key, subject, sender="Ann <ann@example.org>"):
        with open(self.path("tmp", key), "w", encoding="ascii") as file:
            file.write(f"From: {sender}\nSubject: {subject}\n\nHello.\n")
        os.rename(self.path("tmp", key), self.path("new", key))

    def test_new_mail(self):
        self.deliver("1", "=?utf-8?q?Caf=C3=A9_=1B[31m?=")
        live = self.start(self.folder)
        said = f"yazgoulm-mail: follows {self.folder}: MAIL:status==New (Ctrl-C ends)\n"
        self.assertEqual(live.stderr.readline().decode(), said)
        self.assert_line(live, "= Café \\x1b[31m")
        self.deliver("2", "Lunch")
        self.assert_line(live, "+ Lunch")
        os.rename(self.path("new", "2"), self.path("cur", "2:2,S"))
        self.assert_line(live, "- Lunch")
        live.send_signal(signal.SIGINT)
        self.assert_ends(live, -signal.SIGINT, "")

    def test_json(self):
        self.deliver("1", "Lunch")
        live = self.start("--json", "-q", self.folder, 'MAIL:from=="*<ann@*"')
        row = {"formula": 'MAIL:from=="*<ann@*"', "key": "1", "from": "Ann <ann@example.org>", "subject": "Lunch"}
        self.assertEqual(json.loads(live.stdout.readline()), {"change": "there", **row, "status": "New"})
        os.rename(self.path("new", "1"), self.path("cur", "1:2,S"))
        self.assertEqual(json.loads(live.stdout.readline()), {"change": "changed", **row, "status": "Read"})
        os.remove(self.path("cur", "1:2,S"))
        self.assertEqual(json.loads(live.stdout.readline()), {"change": "left", **row, "status": "Read"})

    def test_a_status_that_changes(self):
        """It is told where the message stays, once; other flags aren't told."""
        self.deliver("1", "Lunch")
        live = self.start("-q", self.folder, "name==*")
        self.assert_line(live, "= Lunch")
        os.rename(self.path("new", "1"), self.path("cur", "1:2,S"))
        self.assert_line(live, "~ Lunch (Read)")
        os.rename(self.path("cur", "1:2,S"), self.path("cur", "1:2,RS"))
        self.deliver("2", "Photos")
        self.assert_line(live, "+ Photos")
        os.rename(self.path("cur", "1:2,RS"), self.path("cur", "1:2,R"))
        self.assert_line(live, "~ Lunch (New)")

    def test_what_it_cannot_use(self):
        for words, said in (
            ([self.path("none")], f"yazgoulm-mail: {self.folder}/none: No such file or directory\n"),
            ([self.path("new")], f"yazgoulm-mail: {self.folder}/new is no Maildir: it has no folder new\n"),
            ([self.folder, "MAIL:status="], "BadQuery at byte 12\n    MAIL:status=\n                ^\n"),
            ([], "error: which Maildir? For example: yazgoulm-mail ~/Mail"),
        ):
            status, out, error = self.run_it(*words)
            self.assertEqual((status, out), (2, ""), error)
            self.assertIn(said, error)

    def test_it_goes_or_nobody_reads_it(self):
        live = self.start(self.folder, "-q")
        live.stdout.close()
        self.assert_ends(live, 141, "")
        live.stdout = open(os.devnull, "rb")
        self.deliver("1", "Lunch")
        live = self.start(self.folder, "-q")
        self.assert_line(live, "= Lunch")
        shutil.rmtree(self.folder)
        live.wait(SECONDS)
        self.assertEqual(live.returncode, 3)
        self.assertRegex(live.stderr.read().decode(), "^yazgoulm-mail: .*/(new|cur): No such file or directory\n$")


del Watches, Case, Commands  # they have no tests of their own

if __name__ == "__main__":
    unittest.main()
