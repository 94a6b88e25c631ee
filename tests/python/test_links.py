"""Folders of symbolic links, by yazgoulm.folder.Links and by yazgoulm-folder --links, as their users see them."""
import contextlib, errno, itertools, json, os, random, shutil, signal, stat, subprocess, sys, tempfile, time, traceback, unittest

TOP = os.path.dirname(os.path.dirname(os.path.dirname(os.path.realpath(__file__))))
PACKAGE = os.environ.get("YAZGOULM_PACKAGE") or f"{TOP}/python"
sys.dont_write_bytecode = True
sys.path[:0] = PACKAGE, os.path.dirname(os.path.realpath(__file__))

import on_disk
from yazgoulm import BadQuery, Error
from yazgoulm.folder import Folder, Links, _own

load_tests = on_disk.load_tests
SECONDS = int(os.environ.get("TEST_SECONDS", 60))  # the longest wait for something that has to come
ACTS = int(os.environ.get("TEST_ACTS", 400))  # of the hostile test
LARGE = "\u00e9" * 126 + ".x"  # a name of 254 bytes
HIDDEN = ".yazgoulm"


def expected_names(entry):
    """A name of an entry with the number 2, 3 and so on, as it has to be: before the extension, at most 255 bytes."""
    stem, extension = os.path.splitext(entry)
    yield entry
    for number in range(2, 5000):
        tail = f" ({number}){extension}"
        raw = os.fsencode(stem)[: 255 - len(tail.encode("utf-8", "surrogateescape"))]
        yield raw.decode("utf-8", "ignore") + tail if len(raw) < len(os.fsencode(stem)) else stem + tail


class Case(unittest.TestCase):
    def setUp(self):
        self.room = os.path.realpath(tempfile.mkdtemp(prefix="links-"))
        self.addCleanup(subprocess.run, ["rm", "-rf", self.room])
        self.folder, self.out = os.path.join(self.room, "folder"), os.path.join(self.room, "out")
        os.mkdir(self.folder)

    def path(self, *names):
        return os.path.join(self.folder, *names)

    def write(self, name, size=0):
        os.makedirs(os.path.dirname(self.path(name)), exist_ok=True)
        with open(self.path(name), "wb") as file:
            file.write(b"x" * size)

    def links(self, out=None):
        """The links of the kept folder, by their names from it on: where each leads, from the folder on."""
        found, top = {}, out or self.out
        for at, folders, files in os.walk(top):
            for name in [*folders, *files]:
                place = os.path.join(at, name)
                if os.path.islink(place) and not name.startswith(HIDDEN):
                    target = os.path.join(at, os.readlink(place))
                    found[os.path.relpath(place, top)] = os.path.relpath(os.path.normpath(target), self.folder)
        return found

    def assert_links(self, *entries, **named):
        """There is a link of its own name to each of these, and of the others' names to them."""
        self.assertEqual(self.links(), {**{it: it for it in entries}, **named})

    def hidden(self):
        return sorted(it for it in os.listdir(self.out) if it.startswith(HIDDEN))


class Calls(Case):
    """Links in a program."""

    def keep(self, formula="name==*.txt", **more):
        self.told = []
        folder = self.enter(Folder(self.folder))
        links = self.enter(Links(folder, formula, self.out, tell=self.told.append, **more))
        folder.begin()
        links.begin()
        self.rest(folder, links)
        return folder, links

    def enter(self, it):
        self.addCleanup(it.close)
        return it

    def rest(self, folder, links):
        """Makes turns until all that was done is seen."""
        self.assertTrue(self.turns(folder, links, 0.1))

    def turns(self, folder, links, quiet):
        end = time.monotonic() + SECONDS
        seen = time.monotonic()
        while time.monotonic() < end:
            turned = folder.turn()
            lines = [line for some in iter(folder.lines, []) for line in some]
            for line in lines:
                links.hear(line)
            if not turned.more:
                links.mend()
            if lines or turned.more or not turned.settled:
                seen = time.monotonic()
            if time.monotonic() > seen + quiet:
                return True
            time.sleep(0.002)
        return False

    def restart(self, folder, links, formula="name==*.txt", **more):
        links.close()
        folder.close()
        return self.keep(formula, **more)

    def test_what_matches_has_a_link(self):
        self.write("a.txt")
        self.write("b.old")
        folder, links = self.keep()
        self.assert_links("a.txt")
        self.assertEqual(os.readlink(f"{self.out}/a.txt"), self.path("a.txt"))
        self.write("c.txt")
        os.rename(self.path("b.old"), self.path("b.txt"))
        os.remove(self.path("a.txt"))
        self.rest(folder, links)
        self.assert_links("b.txt", "c.txt")
        self.assertEqual((len(links), self.told), (2, []))

    def test_a_second_one_of_a_name_has_the_lowest_free_number(self):
        for name in ("a.txt", "one/a.txt", "two/a.txt", "two/a (2).txt"):
            self.write(name)
        folder, links = self.keep()
        self.assertEqual(sorted(self.links()), ["a (2) (2).txt", "a (2).txt", "a (3).txt", "a.txt"])
        before = self.links()
        gone = next(name for name, entry in before.items() if name == "a (2).txt")
        os.remove(self.path(before[gone]))
        self.rest(folder, links)
        self.assertEqual(self.links(), {name: entry for name, entry in before.items() if name != gone})
        self.write("three/a.txt")
        self.rest(folder, links)
        self.assertEqual(self.links()[gone], "three/a.txt")

    def test_a_name_is_kept_while_it_stays(self):
        self.write("one/a.txt")
        self.write("two/a.txt")
        folder, links = self.keep()
        second = self.links()["a (2).txt"]
        first = self.links()["a.txt"]
        os.remove(self.path(first))
        self.rest(folder, links)
        self.assertEqual(self.links(), {"a (2).txt": second})
        folder, links = self.restart(folder, links)
        self.assertEqual(self.links(), {"a (2).txt": second})
        self.write(first)
        self.rest(folder, links)
        self.assertEqual(self.links(), {"a (2).txt": second, "a.txt": first})

    def test_a_name_is_cut_at_a_character(self):
        for name in ("one", "two", "three"):
            self.write(f"{name}/{LARGE}")
        self.keep("name==*.x")
        names = expected_names(LARGE)
        expected = [next(names) for _ in range(3)]
        self.assertEqual(sorted(self.links()), sorted(expected))
        self.assertEqual([len(os.fsencode(it)) for it in expected], [254, 254, 254])

    def test_names_that_are_no_utf_8(self):
        name = os.fsdecode(b"\xff\xf6.txt")
        self.write(f"one/{name}")
        self.write(f"two/{name}")
        self.keep()
        self.assertEqual(sorted(self.links()), sorted([name, os.fsdecode(b"\xff\xf6 (2).txt")]))

    def test_a_rename_renames_the_link(self):
        self.write("a.txt")
        folder, links = self.keep()
        seen = []
        os.rename(self.path("a.txt"), self.path("b.txt"))
        kept = links._kept
        rename, relink = kept._rename, kept._relink
        kept._rename = lambda *words: (rename(*words), seen.append(self.links()))[0]
        kept._relink = lambda *words: (relink(*words), seen.append(self.links()))[0]
        self.rest(folder, links)
        self.assertEqual(seen, [{"b.txt": "a.txt"}, {"b.txt": "b.txt"}])
        self.assertEqual(self.hidden(), [HIDDEN])

    def test_a_kill_within_a_rename(self):
        """After each call of the system that a rename makes: in one folder of links, and from one to a deeper one."""
        for names, how in (("a.txt", "b.txt"), {}), (("in/a.txt", "on/deep/a.txt"), {"tree": True, "relative": True}):
            status = 9
            for calls in itertools.takewhile(lambda _: status == 9, itertools.count(1)):
                with self.subTest(names=names, calls=calls):
                    self.setUp()
                    self.write(names[0], 1)
                    os.makedirs(os.path.dirname(self.path(names[1])), exist_ok=True)
                    child = os.fork()
                    if child == 0:
                        self.rename_and_die(names, calls, how)
                    status = os.waitstatus_to_exitcode(os.waitpid(child, 0)[1])
                    self.assertIn(status, (0, 9))
                    self.keep(**how)
                    self.assert_links(names[1])
                    others = [HIDDEN, f"{HIDDEN}-place"] if how else [HIDDEN]
                    self.assertEqual((self.hidden(), self.told), (others, []))
                    self.doCleanups()

    def rename_and_die(self, names, calls, how):
        """Has the links right, renames a file, and dies with 9 after so many calls of the system that make them right."""
        left = [calls]

        def counted(call):
            def it(*words, **more):
                done = call(*words, **more)
                left[0] -= 1
                if not left[0]:
                    os._exit(9)
                return done

            return it

        try:
            folder, links = self.keep(**how)
            os.rename(self.path(names[0]), self.path(names[1]))
            end = time.monotonic() + SECONDS
            while self.path(names[1]) not in (line.path for line in self.heard(folder, links)):
                if time.monotonic() > end:
                    os._exit(1)
            for name in ("symlink", "unlink", "readlink", "rename", "replace", "mkdir", "rmdir"):
                setattr(os, name, counted(getattr(os, name)))
            _own._rename = counted(_own._rename)
            links.mend()
            os._exit(0)
        except BaseException:
            traceback.print_exc()
            os._exit(1)

    def heard(self, folder, links):
        """The lines of a turn, which the links have heard."""
        folder.turn()
        lines = [line for some in iter(folder.lines, []) for line in some]
        for line in lines:
            links.hear(line)
        return lines

    def test_a_folder_that_moves(self):
        for number in range(20):
            self.write(f"in/deep/{number}.txt")
        folder, links = self.keep()
        os.rename(self.path("in"), self.path("out"))
        self.rest(folder, links)
        self.assertEqual(self.links(), {f"{it}.txt": f"out/deep/{it}.txt" for it in range(20)})

    def test_two_files_that_change_their_names(self):
        self.write("a.txt", 1)
        self.write("b.txt", 2)
        folder, links = self.keep()
        for one, other in (("a.txt", "c"), ("b.txt", "a.txt"), ("c", "b.txt")):
            os.rename(self.path(one), self.path(other))
        self.rest(folder, links)
        self.assert_links("a.txt", "b.txt")

    def test_a_file_that_is_replaced(self):
        self.write("a.txt", 1)
        folder, links = self.keep()
        inode = os.lstat(f"{self.out}/a.txt").st_ino
        self.write("new", 3)
        os.replace(self.path("new"), self.path("a.txt"))
        self.rest(folder, links)
        self.assert_links("a.txt")
        self.assertEqual(os.lstat(f"{self.out}/a.txt").st_ino, inode)

    def test_links_in_folders(self):
        self.write("a.txt")
        self.write("in/deep/a.txt")
        folder, links = self.keep("name==*.txt || kind==folder", tree=True)
        self.assert_links("a.txt", "in/deep/a.txt")
        os.rename(self.path("in"), self.path("on"))
        self.rest(folder, links)
        self.assert_links("a.txt", "on/deep/a.txt")
        self.assertEqual(sorted(os.listdir(self.out)), [HIDDEN, "a.txt", "on"])
        os.remove(self.path("on/deep/a.txt"))
        self.rest(folder, links)
        self.assertEqual(sorted(os.listdir(self.out)), [HIDDEN, "a.txt"])

    def test_folders_of_another_stay(self):
        self.write("in/deep/a.txt")
        self.write("on/a.txt")
        os.mkdir(self.out)
        folder, links = self.keep("name==*.txt", tree=True)
        with open(f"{self.out}/in/mine", "w"):
            pass
        shutil.rmtree(self.path("in"))
        os.remove(self.path("on/a.txt"))
        self.rest(folder, links)
        self.assertEqual(sorted(os.listdir(self.out)), [HIDDEN, "in"])
        self.assertEqual(sorted(os.listdir(f"{self.out}/in")), [HIDDEN, "mine"])
        os.mkdir(f"{self.out}/on")
        self.write("on/b.txt")
        self.rest(folder, links)
        self.assertEqual(os.listdir(f"{self.out}/on"), [])
        self.assertEqual(self.told, [f"{self.out}/on: it isn't a link that was made here, so it stays as it is"])

    def test_a_link_in_the_place_of_a_folder_is_not_followed(self):
        self.write("in/a.txt")
        folder, links = self.keep(tree=True)
        elsewhere = f"{self.room}/elsewhere"
        os.rename(f"{self.out}/in", elsewhere)
        os.symlink(elsewhere, f"{self.out}/in")
        os.remove(self.path("in/a.txt"))
        self.write("in/b.txt")
        self.rest(folder, links)
        self.assertEqual(sorted(os.listdir(elsewhere)), [HIDDEN, "a.txt"])

    def test_relative_links_and_the_other_layout(self):
        self.write("a.txt")
        self.write("in/b.txt")
        folder, links = self.keep(relative=True, tree=True)
        self.assertEqual(os.readlink(f"{self.out}/in/b.txt"), "../../folder/in/b.txt")
        folder, links = self.restart(folder, links)
        self.assertEqual(os.readlink(f"{self.out}/b.txt"), self.path("in/b.txt"))
        self.assertEqual(sorted(os.listdir(self.out)), [HIDDEN, f"{HIDDEN}-place", "a.txt", "b.txt"])

    def test_relative_links_in_a_folder_that_has_moved(self):
        self.write("a.txt")
        folder, links = self.keep(relative=True)
        links.close()
        folder.close()
        os.makedirs(f"{self.room}/one/two")
        os.rename(self.out, f"{self.room}/one/two/out")
        self.out = f"{self.room}/one/two/out"
        self.keep(relative=True)
        self.assertEqual(os.readlink(f"{self.out}/a.txt"), "../../../folder/a.txt")
        self.assertEqual((sorted(self.links()), self.told), (["a.txt"], []))

    def test_what_a_person_put_there_stays(self):
        self.write("a.txt")
        folder, links = self.keep()
        for name in ("b.txt", "c.txt"):
            with open(f"{self.out}/{name}", "w") as file:
                file.write(name)
        os.mkdir(f"{self.out}/d.txt")
        os.symlink("/nowhere", f"{self.out}/e.txt")
        os.remove(f"{self.out}/a.txt")
        with open(f"{self.out}/a.txt", "w") as file:
            file.write("mine")
        for name in ("b.txt", "c.txt", "d.txt", "e.txt"):
            self.write(name)
        os.remove(self.path("a.txt"))
        self.rest(folder, links)
        links_there = {f"{it} (2).txt": f"{it}.txt" for it in "bcde"}
        self.assertEqual({name: it for name, it in self.links().items() if name != "e.txt"}, links_there)
        self.assertEqual(os.readlink(f"{self.out}/e.txt"), "/nowhere")
        for name, text in (("b.txt", "b.txt"), ("a.txt", "mine")):
            with open(f"{self.out}/{name}") as file:
                self.assertEqual(file.read(), text)
        stays = "it isn't a link that was made here, so it stays as it is"
        self.assertEqual(sorted(self.told), [f"{self.out}/{it}.txt: {stays}" for it in "abcde"])
        self.restart(folder, links)
        self.assertEqual({name: it for name, it in self.links().items() if name != "e.txt"}, links_there)

    def test_a_link_that_a_person_made_to_an_entry_stays(self):
        self.write("a.txt")
        folder, links = self.keep("name==*.txt && size>100")
        os.symlink(self.path("a.txt"), f"{self.out}/mine")
        self.restart(folder, links, "name==*.txt && size>100")
        self.assertEqual(self.links(), {"mine": "a.txt"})

    def test_a_kept_folder_below_the_folder(self):
        self.out = self.path("in", "out")
        self.write("in/a.txt")
        os.symlink("in/out", self.path("back.txt"))
        os.symlink(self.path("in/out/a.txt"), self.path("deep.txt"))
        os.symlink("in", self.path("other.txt"))
        folder, links = self.keep("name==*")
        for _ in range(2):
            self.assertEqual(self.links(), {"in": "in", "a.txt": "in/a.txt", "other.txt": "other.txt"})
            self.write("in/b.txt")
            os.remove(self.path("in/b.txt"))
            self.rest(folder, links)
        links.close()
        self.assertIn(self.path("in/out/a.txt"), self.paths(folder))

    def paths(self, folder):
        """What the folder has, once it is at rest."""
        while not folder.turn().settled:
            folder.lines()
            time.sleep(0.001)
        with folder.open("name==*") as window:
            return sorted(window.paths())

    def test_a_kept_folder_is_left_out_of_the_folder(self):
        """No window has it, nor what is in it: as it is found, is made, and moves with a folder above it."""
        self.write("in/a.txt")
        os.mkdir(self.path("in/out"))
        self.out = self.path("in", "out")
        folder = self.enter(Folder(self.folder))
        folder.begin()
        self.assertEqual(len(self.paths(folder)), 3)
        links = self.enter(Links(folder, "name==*.txt", self.out))
        other = self.enter(Links(folder, "name==*.txt", self.path("other")))
        links.begin()
        other.begin()
        self.rest(folder, links)
        self.assertEqual(self.paths(folder), [self.path("in"), self.path("in/a.txt")])
        self.assertEqual(self.links(), {"a.txt": "in/a.txt"})
        self.write("in/out/mine.txt")
        os.rename(self.path("in"), self.path("on"))
        self.assertEqual(self.paths(folder), [self.path("on"), self.path("on/a.txt")])
        links.close()
        found = [self.path("on"), *(self.path("on", it) for it in ("a.txt", "out", f"out/{HIDDEN}", "out/a.txt", "out/mine.txt"))]
        self.assertEqual(self.paths(folder), sorted(found))

    def test_a_start_makes_the_difference_alone(self):
        for number in range(50):
            self.write(f"{number}.txt")
        folder, links = self.keep()
        before = {it: os.lstat(f"{self.out}/{it}").st_ino for it in self.links()}
        links.close()
        folder.close()
        os.remove(self.path("7.txt"))
        os.rename(self.path("8.txt"), self.path("new.txt"))
        self.keep()
        after = {it: os.lstat(f"{self.out}/{it}").st_ino for it in self.links()}
        expected = {**before, "new.txt": after["new.txt"]}
        del expected["7.txt"], expected["8.txt"]
        self.assertEqual(after, expected)

    def test_refusals(self):
        self.write("a.txt")
        os.mkdir(self.out)
        os.mkdir(f"{self.out}/mine")
        with Folder(self.folder) as folder:
            for out, formula, error in (
                (self.out, "name==*", Error), (self.folder, "name==*", Error), (self.room, "name==*", Error),
                (f"{self.room}/no/out", "name==*", FileNotFoundError), (self.path("a.txt"), "name==*", OSError),
                (f"{self.room}/new", "name=", BadQuery),
            ):  # fmt: skip
                with self.assertRaises(error):
                    Links(folder, formula, out)
            self.assertFalse(os.path.exists(f"{self.room}/new"))
            with Links(folder, "name==*", f"{self.room}/new"):
                with self.assertRaises(Error) as refused:
                    Links(folder, "name==*", f"{self.room}/new")
            self.assertEqual(str(refused.exception), f"{self.room}/new: another process keeps it")
            with Folder(self.out) as other, self.assertRaises(Error):
                Links(other, "name==*", f"{self.room}/new")
        self.assertEqual(os.listdir(self.out), ["mine"])

    def test_a_folder_that_is_moved_or_replaced_meanwhile(self):
        self.write("a.txt")
        folder, links = self.keep()
        os.rename(self.out, f"{self.out}.old")
        with self.assertRaises(Error) as gone:
            links.mend()
        wanted = f"{self.out} was moved, removed or replaced, so no links are kept in it any more"
        self.assertEqual(str(gone.exception), wanted)
        os.mkdir(self.out)
        with self.assertRaises(Error):
            links.mend()
        self.write("b.txt")
        folder, links = self.restart(folder, links)
        self.assert_links("a.txt", "b.txt")
        self.assertEqual(self.links(f"{self.out}.old"), {"a.txt": "a.txt"})

    def test_a_call_of_the_system_that_fails_is_tried_again(self):
        self.write("a.txt")
        folder, links = self.keep()
        for code in (errno.ENOSPC, errno.EROFS, errno.EDQUOT):
            symlink = os.symlink

            def fails(*_words, code=code, **_more):
                raise OSError(code, os.strerror(code))

            os.symlink = fails
            try:
                self.write("b.txt")
                os.rename(self.path("a.txt"), self.path("c.txt"))
                self.rest(folder, links)
            finally:
                os.symlink = symlink
            self.assertEqual(self.told, [f"{self.out}: {os.strerror(code)}; it is tried again"])
            end = time.monotonic() + SECONDS
            while links.failed and time.monotonic() < end:
                links.mend()
                time.sleep(0.05)
            self.assert_links("b.txt", "c.txt")
            os.rename(self.path("c.txt"), self.path("a.txt"))
            os.remove(self.path("b.txt"))
            self.rest(folder, links)
            del self.told[:]

    def test_many_of_one_name(self):
        for number in range(1500):
            self.write(f"{number}/a.txt")
        folder, links = self.keep()
        self.assertEqual(set(self.links()), {"a.txt", *(f"a ({it}).txt" for it in range(2, 1501))})
        self.assertEqual(len(set(self.links().values())), 1500)


class Command(Case):
    """yazgoulm-folder --links."""

    def start(self, *words, formula="name==*.txt", out=None, ready=True):
        out = out or self.out
        command = [sys.executable, "-B", "-m", "yazgoulm.folder", self.folder, formula, "--links", out, *words]
        environment = {**os.environ, "PYTHONPATH": PACKAGE}
        process = subprocess.Popen(
            command, stderr=subprocess.PIPE, stdout=subprocess.PIPE, text=True, env=environment
        )  # fmt: skip
        self.addCleanup(self.end, process)
        if ready:
            self.assertEqual(process.stderr.readline(), f"yazgoulm-folder: keeps {out}: {formula} (Ctrl-C ends)\n")
            self.has = process.stderr.readline()
        return process

    def end(self, process):
        process.kill()
        process.communicate()

    def run_it(self, *words, **more):
        process = self.start(*words, ready=False, **more)
        out, err = process.communicate(timeout=SECONDS)
        self.assertEqual(out, "")
        return process.returncode, err

    def wait_for(self, call):
        end = time.monotonic() + SECONDS
        while not call() and time.monotonic() < end:
            time.sleep(0.01)
        self.assertTrue(call(), self.links())

    def test_links_follow_and_stay(self):
        self.write("a.txt")
        process = self.start()
        self.assertEqual(self.has, f"yazgoulm-folder: {self.out} has 1 of 1 entries\n")
        self.write("b.txt")
        self.wait_for(lambda: self.links() == {"a.txt": "a.txt", "b.txt": "b.txt"})
        os.rename(self.path("b.txt"), self.path("c.txt"))
        self.wait_for(lambda: self.links() == {"a.txt": "a.txt", "c.txt": "c.txt"})
        process.send_signal(signal.SIGINT)
        self.assertEqual(process.communicate()[0], "")
        self.assert_links("a.txt", "c.txt")
        with open(f"{self.out}/{HIDDEN}") as file:
            mark = json.load(file)
        self.assertEqual((mark["of"], mark["formula"]), (self.folder, "name==*.txt"))

    def test_a_second_process_is_refused(self):
        self.start()
        self.assertEqual(self.run_it(), (2, f"yazgoulm-folder: {self.out}: another process keeps it\n"))

    def test_once_and_clear(self):
        self.write("a.txt")
        self.write("in/a.txt")
        self.assertEqual(self.run_it("--once", "--tree")[0], 0)
        self.assert_links("a.txt", "in/a.txt")
        with open(f"{self.out}/mine", "w"):
            pass
        self.assertEqual(self.run_it("--clear"), (0, f"yazgoulm-folder: took 2 links out of {self.out}\n"))
        self.assertEqual(os.listdir(self.out), ["mine"])
        status, said = self.run_it("--clear")
        self.assertEqual((status, said), (2, f"yazgoulm-folder: {self.out} has no mark, so no links were made there\n"))

    def test_the_kept_folder_goes(self):
        process = self.start()
        os.rename(self.out, f"{self.out}.old")
        wanted = f"{self.out} was moved, removed or replaced, so no links are kept in it any more"
        self.assertEqual(process.communicate(timeout=SECONDS)[1], f"yazgoulm-folder: {wanted}\n")
        self.assertEqual(process.returncode, 3)

    def test_words_that_do_not_go_together(self):
        for words in (["--json"], ["--count"], ["--new"], ["--exec", "true"], ["--page"]):
            self.assertEqual(self.run_it(*words)[0], 2)
        command = [sys.executable, "-B", "-m", "yazgoulm.folder", self.folder, "--tree"]
        done = subprocess.run(command, capture_output=True, env={**os.environ, "PYTHONPATH": PACKAGE}, check=False)
        self.assertEqual(done.returncode, 2)

    def small(self, *words):
        """A file system in memory, of its own."""
        at = f"{self.room}/small"
        os.mkdir(at)
        made = subprocess.run(["mount", "-t", "tmpfs", *words, "none", at], capture_output=True, check=False)
        if made.returncode:
            self.skipTest("a file system in memory can't be mounted")
        self.addCleanup(subprocess.run, ["umount", "-l", at])
        return at

    def test_a_disk_without_room(self):
        """A file system in memory of 20 inodes: the lack is said, and once there is room, all is linked."""
        small = self.small("-o", "nr_inodes=20")
        for number in range(30):
            self.write(f"{number}.txt")
        self.out = f"{small}/out"
        process = self.start(ready=False)
        for line in process.stderr:
            if "No space" in line:
                self.assertEqual(line, f"yazgoulm-folder: {self.out}: No space left on device; it is tried again\n")
                break
        subprocess.run(["mount", "-o", "remount,nr_inodes=100", small], check=True)
        self.wait_for(lambda: len(self.links()) == 30)

    def test_a_disk_that_is_read_only(self):
        small = self.small()
        self.out = f"{small}/out"
        self.assertEqual(self.run_it("--once")[0], 0)
        subprocess.run(["mount", "-o", "remount,ro", small], check=True)
        self.write("a.txt")
        status, said = self.run_it("--once")
        self.assertEqual((status, "Read-only file system" in said), (3, True), said)
        subprocess.run(["mount", "-o", "remount,rw", small], check=True)
        self.assertEqual(self.run_it("--once")[0], 0)
        self.assert_links("a.txt")


class QueriesCommand(Case):
    """Files of queries, by yazgoulm-folder and yazgoulm-queries."""

    def setUp(self):
        super().setUp()
        self.files = os.path.join(self.room, "files")
        os.mkdir(self.files)
        self.environment = {**os.environ, "PYTHONPATH": PACKAGE, "XDG_CONFIG_HOME": os.path.join(self.room, "config")}

    def ask(self, name, **keys):
        """Writes a file as editors do."""
        at = os.path.join(self.files, f"{name}.query")
        with open(f"{at}.new", "w") as file:
            file.write("[query]\n" + "".join(f"{key} = {value}\n" for key, value in keys.items()))
        os.replace(f"{at}.new", at)
        return at

    def command(self, module, *words):
        return [sys.executable, "-B", "-m", module, *words]

    def run_it(self, *words, module="yazgoulm.folder"):
        more = {"capture_output": True, "text": True, "env": self.environment, "timeout": SECONDS}
        done = subprocess.run(self.command(module, *words), check=False, **more)
        return done.returncode, done.stdout, done.stderr

    def start(self, *words):
        said = open(f"{self.room}/said", "wb")
        self.addCleanup(said.close)
        process = subprocess.Popen(
            self.command("yazgoulm.folder._queries", *words), stderr=said, env=self.environment
        )  # fmt: skip
        self.addCleanup(lambda: (process.kill(), process.wait()))
        return process

    def said(self):
        with open(f"{self.room}/said") as file:
            return [line.split(": ", 1)[1] for line in file.read().splitlines()]

    def wait_for(self, call):
        end = time.monotonic() + SECONDS
        while not call() and time.monotonic() < end:
            time.sleep(0.02)
        self.assertTrue(call(), (self.links(f"{self.room}/one"), self.said()))

    def has(self, out, *entries):
        place = f"{self.room}/{out}"
        return os.path.isdir(place) and self.links(place) == {it: it for it in entries}

    def test_a_file_in_the_place_of_a_folder(self):
        self.write("a.txt", 3)
        self.write("b.jpg")
        at = self.ask("texts", folder="../folder", formula="name==*.txt")
        where = f"{self.files}/../folder/a.txt"
        self.assertEqual(self.run_it(at, "--once"), (0, f"= {where}\n", ""))
        at = self.ask("texts", folder="../folder", formula="name==*.txt", columns="size")
        self.assertEqual(self.run_it(at, "--once"), (0, f"= 3\t{where}\n", ""))
        at = self.ask("texts", folder="../folder", formula="name==*.txt", links="../out")
        self.assertEqual(self.run_it(at, "--once", "--quiet"), (0, "", ""))
        self.assert_links("a.txt")
        os.mkdir(self.path("in.query"))
        self.assertEqual(self.run_it(self.path("in.query"), "--once"), (0, "", ""))

    def test_files_that_are_no_queries(self):
        for text, wrong in (
            ("folder = x\n", "is no query: "), ("[other]\n", "is no query: it has to have one part, [query]"),
            ("[query]\nformula = size>1\n", ": it doesn't say which folder"),
            ("[query]\nfolder = .\nform = 1\n", ": a query has no form,"),
            ("[query]\nfolder = .\ntree = maybe\n", ": tree has to be yes or no"),
            ("[query]\nfolder = .\nlinks = a\nmaildir = b\n", ": it has both links and maildir"),
            ("[query]\nfolder = .\nfolder = .\n", "is no query: "),
            ("[query]\nfolder = a\0b\n", "is no query: it has a NUL"),
            ("[query]\nfolder = .\nmaildir = b\n", "is a query of a Maildir"),
            ("x" * 70000, "bytes, so it is no query"),
        ):  # fmt: skip
            at = f"{self.files}/a.query"
            with open(at, "w") as file:
                file.write(text)
            status, out, said = self.run_it(at)
            self.assertEqual((status, out), (2, ""), text)
            self.assertIn(wrong, said)
            self.assertEqual(said.count("\n"), 1, said)

    def test_files_are_followed_and_a_fault_stops_no_other(self):
        self.write("a.txt")
        self.write("b.jpg")
        self.ask("one", folder="../folder", formula="name==*.txt", links="../one")
        bad = self.ask("bad", folder="../folder", formula="name=", links="../bad")
        gone = self.ask("gone", folder="../nowhere", links="../gone")
        self.start(self.files)
        self.wait_for(lambda: self.has("one", "a.txt"))
        self.assertIn(f"{bad}: the formula can't be read: BadQuery at byte 5\\n    name=\\n         ^", self.said())
        self.assertIn(f"{gone}: {self.files}/../nowhere: No such file or directory", self.said())
        self.ask("two", folder="../folder", formula="name==*.jpg", links="../two")
        self.ask("bad", folder="../folder", formula="name==b*", links="../bad")
        self.wait_for(lambda: self.has("two", "b.jpg") and self.has("bad", "b.jpg"))
        self.ask("one", folder="../folder", formula="name==*.jpg", links="../one")
        self.wait_for(lambda: self.has("one", "b.jpg"))
        os.remove(f"{self.files}/two.query")
        self.wait_for(lambda: f"{self.files}/two.query: it is gone, and its links stay" in self.said())
        os.rename(self.path("b.jpg"), self.path("c.jpg"))
        self.wait_for(lambda: self.has("one", "c.jpg"))
        self.assertTrue(self.has("two", "b.jpg"))
        os.rename(f"{self.room}/one", f"{self.room}/moved")
        self.wait_for(lambda: any("was moved, removed or replaced" in it for it in self.said()))
        self.write("b.jpg")
        self.wait_for(lambda: self.has("bad", "b.jpg"))

    def test_queries_of_a_folder_share_what_was_read_of_it(self):
        watches = [self.watches(count) for count in (1, 12)]
        self.assertEqual(watches[0], watches[1])

    def watches(self, count):
        """How many watches of inotify a process has with so many queries of one folder."""
        for number in range(count):
            self.ask(f"{number}", folder="../folder", links=f"../{count} {number}")
        self.write("in/a.txt")
        process = self.start(self.files)
        self.wait_for(lambda: all(self.has_both(f"{count} {it}") for it in range(count)))
        found = 0
        for fd in os.listdir(f"/proc/{process.pid}/fdinfo"):
            with contextlib.suppress(OSError):  # one that was closed meanwhile
                with open(f"/proc/{process.pid}/fdinfo/{fd}") as file:
                    found += file.read().count("inotify wd:")
        process.kill()
        process.wait()
        return found

    def has_both(self, out):
        place = f"{self.room}/{out}"
        return os.path.isdir(place) and self.links(place) == {"in": "in", "a.txt": "in/a.txt"}

    def test_a_unit_is_written_and_said(self):
        status, _, said = self.run_it(self.files, "--install", module="yazgoulm.folder._queries")
        at = f"{self.room}/config/systemd/user/yazgoulm-queries.service"
        self.assertEqual(status, 0, said)
        self.assertIn(f"wrote {at}; ", said)
        with open(at) as file:
            unit = file.read()
        self.assertIn(f'"{self.files}"\n', unit)
        if shutil.which("systemd-analyze"):
            words = ["systemd-analyze", "verify", "--user", at]
            done = subprocess.run(words, capture_output=True, text=True, check=False)
            self.assertNotIn("Unknown", done.stderr)


class HostileCommand(Command):
    """Random acts on the folder and on the kept one, with kills; at rest all is compared."""

    def act(self):
        drawn = self.drawn
        entries = [os.path.relpath(os.path.join(at, name), self.folder)
                   for at, inner, names in os.walk(self.folder) for name in [*inner, *names]]
        folders = [it for it in entries if os.path.isdir(self.path(it)) and not os.path.islink(self.path(it))] + [""]
        name = drawn.choice(["a.txt", "b.txt", "c", "a (2).txt", LARGE, "d.txt.x", "\u00fc.txt"])
        new = self.path(drawn.choice(folders), name)
        kind = drawn.randrange(10)
        try:
            if kind < 3 or not entries:
                if not os.path.islink(new):
                    with open(new, "ab") as file:
                        file.write(b"x" * drawn.randrange(3))
            elif kind == 3:
                os.mkdir(new)
            elif kind < 7:
                os.rename(self.path(drawn.choice(entries)), new)
            elif kind == 7 and len(entries) > 12:
                at = self.path(drawn.choice(entries))
                (shutil.rmtree if os.path.isdir(at) and not os.path.islink(at) else os.remove)(at)
            elif kind == 8:
                os.remove(self.path(drawn.choice(entries)))
            else:
                os.symlink(drawn.choice(["nowhere", self.out, f"{self.out}/a.txt"]), new)
        except OSError:
            pass

    def put(self):
        """A person puts something into the kept folder."""
        name = self.drawn.choice(["a.txt", "b.txt", "a (2).txt", "a (3).txt", "mine", LARGE])
        at = os.path.join(self.out, name)
        kind = self.drawn.randrange(4)
        try:
            if kind == 0 and name not in self.foreign:
                os.mkdir(at)
                self.foreign[name] = os.lstat(at).st_ino
            elif kind == 1:
                os.close(os.open(at, os.O_CREAT | os.O_EXCL | os.O_WRONLY))
                self.foreign[name] = os.lstat(at).st_ino
            elif kind == 2:
                os.symlink("/nowhere", at)
                self.foreign[name] = os.lstat(at).st_ino
            elif name in self.foreign:
                (os.rmdir if stat.S_ISDIR(os.lstat(at).st_mode) else os.remove)(at)
                del self.foreign[name]
            elif os.path.islink(at):
                os.remove(at)  # one of the program's, which a later start makes anew
                self.is_lacking = True
        except OSError:
            pass

    def matching(self, tree):
        wanted = set()
        for at, inner, names in os.walk(self.folder):
            for name in [*inner, *names]:
                place = os.path.join(at, name)
                is_back = os.path.islink(place) and os.readlink(place).startswith(self.out)
                is_folder = stat.S_ISDIR(os.lstat(place).st_mode)
                if not (name.startswith("c") or is_back or (tree and is_folder)):
                    wanted.add(os.path.relpath(place, self.folder))
        return wanted

    def differ(self, tree):
        """What is wrong in the kept folder, or None."""
        found = {name: entry for name, entry in self.links().items() if name not in self.foreign}
        wanted = self.matching(tree)
        if sorted(found.values()) != sorted(wanted):
            return {"lacks": wanted - set(found.values()), "more": set(found.values()) - wanted, "links": found}
        for name, entry in found.items():
            if os.path.dirname(name) != (os.path.dirname(entry) if tree else ""):
                return {"place": name, "of": entry}
            names = expected_names(os.path.basename(entry))
            if not any(it == os.path.basename(name) for it, _ in zip(names, range(500))):
                return {"name": name, "of": entry}
        for name, inode in self.foreign.items():
            if os.lstat(os.path.join(self.out, name)).st_ino != inode:
                return {"foreign": name}
        return None

    def assert_right(self, process, tree):
        end = time.monotonic() + SECONDS
        while self.differ(tree) and time.monotonic() < end and process.poll() is None:
            time.sleep(0.02)
        differ = self.differ(tree)
        if differ or process.poll() is not None:
            process.kill()
            self.fail(f"seed {self.seed}: {process.communicate()[1]}{differ}")

    def hostile(self, tree, acts):
        self.seed = int(os.environ.get("TEST_SEED", 7))
        self.drawn, self.foreign, self.is_lacking = random.Random(self.seed), {}, False
        words = ["--quiet", *(["--tree"] if tree else [])]
        formula = "name!=c*"
        process = self.start(*words, formula=formula, ready=False)
        done = 0
        while done < acts:
            for _ in range(self.drawn.randrange(1, 60)):
                self.act()
                done += 1
                if not tree and os.path.exists(f"{self.out}/{HIDDEN}") and self.drawn.random() < 0.1:
                    self.put()
            if self.drawn.random() < 0.7 or self.is_lacking:
                time.sleep(self.drawn.random() * 0.05)
                process.kill()
                said = process.communicate()[1]
                self.assertNotIn("Traceback", said)
                self.assertEqual(process.returncode, -signal.SIGKILL, said)
                self.is_lacking = False
                process = self.start(*words, formula=formula, ready=False)
            self.assert_right(process, tree)
        left = [it for it in self.hidden() if it != HIDDEN]
        self.assertEqual(left, [], f"seed {self.seed}")

    def test_random_acts_and_kills(self):
        self.hostile(False, ACTS)

    def test_random_acts_and_kills_with_folders(self):
        self.hostile(True, ACTS // 2)


for name in [it for it in dir(Command) if it.startswith("test_")]:
    setattr(HostileCommand, name, None)  # they are the other class's

if __name__ == "__main__":
    unittest.main()
