"""Live Maildirs: links to the mail that matches, which a mail reader uses as any Maildir."""
import json, os, signal, time, unittest

from case import SECONDS, Case, watches_of

FLAGGED = "MAIL:flags==*F*"


class Kept(Case):
    def setUp(self):
        super().setUp()
        self.out = f"{self.room}/Out"

    def keep(self, formula="name==*", out=None, **more):
        """The program once it has made its live Maildir."""
        live = self.start(self.maildir, formula, "--maildir", out or self.out, **more)
        self.assertEqual(live.error(), f"yazgoulm-mail: keeps {out or self.out}: {formula} (Ctrl-C ends)")
        self.assertRegex(live.error(), r" has [0-9,]+ of [0-9,]+ mails$")
        return live

    def found(self, maildir=None):
        """The places of a Maildir, below it."""
        parts = [part for part in ("new", "cur") if os.path.isdir(f"{maildir or self.out}/{part}")]
        return {f"{part}/{name}" for part in parts for name in os.listdir(f"{maildir or self.out}/{part}")}

    def links(self, out=None):
        """Of each place of a live Maildir where its link leads, below the Maildir; None: it is no link."""
        out, begin = out or self.out, f"{os.path.realpath(self.maildir)}/"
        found = {}
        for it in self.found(out):
            try:
                target = os.readlink(f"{out}/{it}")
            except OSError:
                target = ""
            found[it] = target[len(begin):] if target.startswith(begin) else None
        return found

    def assert_has(self, *places, out=None):
        """In the end there are links at these places, and each leads to the mail of its name."""
        wanted = {it: it for it in places}
        try:
            self.wait_for(lambda: self.links(out) == wanted)
        except AssertionError:
            self.assertEqual(self.links(out), wanted)

    def rename(self, old, new, out=None):
        """What a mail reader does in a live Maildir."""
        os.rename(f"{out or self.out}/{old}", f"{out or self.out}/{new}")

    def assert_mail(self, *places):
        wanted = {*places}
        try:
            self.wait_for(lambda: self.found(self.maildir) == wanted)
        except AssertionError:
            self.assertEqual(self.found(self.maildir), wanted)


class Reading(Kept):
    def test_mail_comes_and_goes(self):
        self.deliver("1", "one", "cur", ":2,FS")
        self.deliver("2", "two")
        self.keep(FLAGGED)
        self.assert_has("cur/1:2,FS")
        self.deliver("3", "three", "cur", ":2,F")
        self.assert_has("cur/1:2,FS", "cur/3:2,F")
        os.rename(self.path("new", "2"), self.path("cur", "2:2,F"))
        self.assert_has("cur/1:2,FS", "cur/2:2,F", "cur/3:2,F")
        os.rename(self.path("cur", "1:2,FS"), self.path("cur", "1:2,S"))
        os.remove(self.path("cur", "3:2,F"))
        self.assert_has("cur/2:2,F")
        with open(f"{self.out}/cur/2:2,F", encoding="ascii") as file:
            self.assertIn("Subject: two", file.read())
        self.assertEqual(sorted(os.listdir(self.out)), [".yazgoulm", "cur", "new", "tmp"])

    def test_a_live_maildir_below_the_mail_is_left_out_of_it(self):
        """Its folders are watched once, as those of one beside the mail are."""
        self.deliver("1", "one")
        watches = []
        for out in self.out, self.path("Out"):
            live = self.keep(out=out)
            self.assert_has("new/1", out=out)
            watches.append(watches_of(live.process.pid))
            live.end()
        self.assertEqual(watches, [6, 6])

    def test_a_flag_of_the_mail_shows(self):
        self.deliver("1", "one")
        self.keep()
        self.assert_has("new/1")
        os.rename(self.path("new", "1"), self.path("cur", "1:2,S"))
        self.assert_has("cur/1:2,S")

    def test_a_reader_reads_and_flags(self):
        self.deliver("1", "one")
        self.deliver("2", "two")
        self.keep("MAIL:status==New || MAIL:flags==*F*")
        self.assert_has("new/1", "new/2")
        self.rename("new/1", "cur/1:2,FS")
        self.assert_has("cur/1:2,FS", "new/2")
        self.assert_mail("cur/1:2,FS", "new/2")
        self.rename("new/2", "new/2:2,F")  # as neomutt does
        self.assert_has("cur/1:2,FS", "new/2:2,F")
        self.assert_mail("cur/1:2,FS", "new/2:2,F")
        self.rename("cur/1:2,FS", "cur/1:2,S")
        self.assert_mail("cur/1:2,S", "new/2:2,F")
        self.assert_has("new/2:2,F")

    def test_a_removed_link_comes_back(self):
        self.deliver("1", "one")
        self.keep()
        self.assert_has("new/1")
        os.remove(f"{self.out}/new/1")
        self.assert_has("new/1")
        self.assert_mail("new/1")

    def test_a_link_that_replaces_another(self):
        self.deliver("1", "one")
        self.deliver("2", "two")
        self.keep()
        self.assert_has("new/1", "new/2")
        self.rename("new/2", "new/1")
        self.assert_has("new/1", "new/2")
        self.assert_mail("new/1", "new/2")

    def test_two_flags_at_once(self):
        """The program sleeps while a reader and another program each set a flag."""
        self.deliver("1", "one", "cur", ":2,P")
        live = self.keep()
        self.assert_has("cur/1:2,P")
        live.process.send_signal(signal.SIGSTOP)
        self.rename("cur/1:2,P", "cur/1:2,FP")
        os.rename(self.path("cur", "1:2,P"), self.path("cur", "1:2,S"))
        live.process.send_signal(signal.SIGCONT)
        self.assert_has("cur/1:2,FS")
        self.assert_mail("cur/1:2,FS")

    def test_two_live_maildirs_have_one_mail(self):
        self.deliver("1", "one")
        other = f"{self.room}/Other"
        live = self.start("-q", self.maildir, "name==*", "MAIL:status==New", "--maildir", self.out, "--maildir", other)
        self.wait_for(lambda: os.path.exists(f"{other}/new/1") and os.path.exists(f"{self.out}/new/1"))
        self.rename("new/1", "cur/1:2,S")
        self.assert_has("cur/1:2,S")
        self.assert_has(out=other)
        self.assertTrue(live.errors.empty())

    def test_names_of_any_bytes(self):
        with open(os.fsencode(self.maildir) + b"/new/\xf6 \n", "w", encoding="ascii") as file:
            file.write("Subject: odd\n\n")
        self.keep()
        name = os.fsdecode(b"\xf6 \n")
        self.assert_has(f"new/{name}")
        self.rename(f"new/{name}", f"cur/{name}:2,S")
        self.assert_has(f"cur/{name}:2,S")
        self.assert_mail(f"cur/{name}:2,S")


class Starts(Kept):
    def test_what_happened_meanwhile(self):
        """Between two runs a reader and other programs go on: what each did is done to the other side."""
        for number in range(1, 7):
            self.deliver(f"{number}", "x", "cur", ":2,F")
        live = self.keep(FLAGGED)
        self.assert_has(*(f"cur/{number}:2,F" for number in range(1, 7)))
        live.end()
        self.rename("cur/1:2,F", "cur/1:2,FS")  # the reader reads one
        self.rename("cur/2:2,F", "cur/2:2,")  # and takes a flag away
        os.rename(self.path("cur", "3:2,F"), self.path("cur", "3:2,FR"))  # another program
        self.rename("cur/4:2,F", "cur/4:2,FS")  # both
        os.rename(self.path("cur", "4:2,F"), self.path("cur", "4:2,FR"))
        os.remove(f"{self.out}/cur/5:2,F")
        os.remove(self.path("cur", "6:2,F"))
        self.deliver("7", "x", "cur", ":2,F")
        self.keep(FLAGGED)
        self.assert_has("cur/1:2,FS", "cur/3:2,FR", "cur/4:2,FRS", "cur/5:2,F", "cur/7:2,F")
        self.assert_mail("cur/1:2,FS", "cur/2:2,", "cur/3:2,FR", "cur/4:2,FRS", "cur/5:2,F", "cur/7:2,F")

    def test_each_step_that_a_kill_leaves(self):
        """A link is renamed before it leads to the new name; and the mail before its link."""
        for number in "1", "2", "3":
            self.deliver(number, "x", "cur", ":2,F")
        self.keep().end()
        os.rename(self.path("cur", "1:2,F"), self.path("cur", "1:2,FS"))
        self.rename("cur/1:2,F", "cur/1:2,FS")
        os.symlink(self.path("cur", "1:2,FS"), f"{self.out}/tmp/.yazgoulm-0")
        os.symlink("/elsewhere", f"{self.out}/tmp/.yazgoulm-1")
        os.remove(f"{self.out}/cur/2:2,F")
        os.rmdir(f"{self.out}/new")
        self.keep()
        self.assert_has("cur/1:2,FS", "cur/2:2,F", "cur/3:2,F")
        self.assertEqual(os.listdir(f"{self.out}/tmp"), [".yazgoulm-1"])
        self.assert_mail("cur/1:2,FS", "cur/2:2,F", "cur/3:2,F")

    def test_another_formula(self):
        self.deliver("1", "one", "cur", ":2,F")
        self.deliver("2", "two", "cur", ":2,S")
        self.keep(FLAGGED).end()
        self.assert_has("cur/1:2,F")
        self.keep("MAIL:status==Read")
        self.assert_has("cur/2:2,S")
        with open(f"{self.out}/.yazgoulm", encoding="ascii") as file:
            mark = json.load(file)
        wanted = {"keeps": "maildir", "of": os.path.realpath(self.maildir), "formula": "MAIL:status==Read"}
        self.assertEqual({it: mark[it] for it in wanted}, wanted)

    def test_a_start_that_finds_all_right_changes_nothing(self):
        for number in range(20):
            self.deliver(f"{number}", "x")
        self.keep().end()
        before = {it: os.lstat(f"{self.out}/{it}").st_ino for it in self.found()}
        self.assertEqual(len(before), 20)
        self.keep()
        time.sleep(0.5)
        self.assertEqual({it: os.lstat(f"{self.out}/{it}").st_ino for it in self.found()}, before)


class Foreign(Kept):
    """It never removes or replaces what it didn't make."""

    def test_what_a_person_puts_there_stays(self):
        self.deliver("1", "one")
        self.deliver("2", "two")
        live = self.keep("MAIL:status==New")
        self.assert_has("new/1", "new/2")
        with open(f"{self.out}/cur/mine:2,S", "w", encoding="ascii") as file:
            file.write("Subject: mine\n\n")
        os.symlink("/elsewhere", f"{self.out}/new/link")
        os.mkdir(f"{self.out}/cur/folder")
        with open(f"{self.out}/cur/1:2,R", "w", encoding="ascii") as file:
            file.write("in the way")
        os.rename(self.path("new", "1"), self.path("cur", "1:2,R"))
        self.assertEqual(live.error(), f"yazgoulm-mail: {self.out}/cur/1:2,R is something else, so a mail isn't shown")
        foreign = {"cur/mine:2,S": None, "new/link": None, "cur/folder": None, "cur/1:2,R": None}
        self.wait_for(lambda: self.links() == {**foreign, "new/2": "new/2"})
        with open(f"{self.out}/cur/1:2,R", encoding="ascii") as file:
            self.assertEqual(file.read(), "in the way")
        os.remove(f"{self.out}/cur/1:2,R")
        del foreign["cur/1:2,R"]
        self.wait_for(lambda: self.links() == {**foreign, "new/2": "new/2", "cur/1:2,R": "cur/1:2,R"})
        live.end()
        self.keep(FLAGGED)
        self.wait_for(lambda: self.links() == foreign)

    def test_folders_that_it_does_not_take(self):
        os.mkdir(self.out)
        with open(f"{self.out}/file", "w", encoding="ascii") as file:
            file.write("mine")
        os.mkdir(f"{self.room}/marked")
        with open(f"{self.room}/marked/.yazgoulm", "w", encoding="ascii") as file:
            file.write("{}")
        other = f"{self.room}/Other"
        for part in "new", "cur", "tmp":
            os.makedirs(f"{other}/{part}")
        live = self.start("-q", other, "name==*", "--maildir", f"{self.room}/of-other")
        self.wait_for(lambda: os.path.exists(f"{self.room}/of-other/cur"))
        live.end()
        for out, said in (
            (self.out, f"{self.out} isn't empty, and has no mark: name another folder, or a new one"),
            (self.maildir, f"{self.maildir} isn't empty, and has no mark: name another folder, or a new one"),
            (f"{self.out}/file", f"{self.out}/file: Not a directory"),
            (f"{self.room}/none/none", f"{self.room}/none/none: No such file or directory"),
            (f"{self.room}/marked", f"{self.room}/marked/.yazgoulm is no mark: name another folder, or a new one"),
            (self.path("cur", "live"), f"{self.path('cur', 'live')} is in {os.path.realpath(self.maildir)}/cur, which "
                                       "is for mail alone: name another folder"),
            (f"{self.room}/of-other", f"{self.room}/of-other has what is kept of {os.path.realpath(other)}: remove it, "
                                      "or name another folder"),
        ):
            live = self.start("-q", self.maildir, "name==*", "--maildir", out)
            self.assert_ends(live, 2, f"yazgoulm-mail: {said}")
        self.assertEqual(os.listdir(self.out), ["file"])
        self.assertFalse(os.path.exists(self.path("cur", "live")))

    def test_a_second_process_is_refused(self):
        self.keep()
        live = self.start("-q", self.maildir, "name==*", "--maildir", self.out)
        self.assert_ends(live, 2, f"yazgoulm-mail: {self.out}: another process keeps it")

    def ask(self, name, **keys):
        """Writes the file of a query as editors do."""
        at = f"{self.room}/{name}.query"
        with open(f"{at}.new", "w", encoding="utf-8") as file:
            file.write("[query]\n" + "".join(f"{key} = {value}\n" for key, value in keys.items()))
        os.replace(f"{at}.new", at)
        return at

    def test_files_of_queries(self):
        """One process keeps live Maildirs and links, and a fault in one stops no other."""
        self.deliver("1", "one", "cur", ":2,F")
        self.deliver("2", "two")
        self.ask("flagged", folder="Mail", formula=FLAGGED, maildir="Out")
        self.ask("all", folder="Mail", maildir="All")
        self.ask("bad", folder="Mail", formula="MAIL:flags=", maildir="Bad")
        self.ask("none", folder=".", maildir="None")
        self.ask("links", folder="Mail", formula="name==*F", links="Links")
        live = self.start(self.room, module="yazgoulm.folder._queries")
        said = [live.error() for _ in range(3 + 2)]  # those that are kept, and the faults
        self.assertIn(f"yazgoulm-queries: {self.room}/none.query: {self.room}/. is no Maildir: it has no folder new", said)
        self.assertEqual(sum("can't be read" in it for it in said), 1, said)
        self.assert_has("cur/1:2,F")
        self.assert_has("cur/1:2,F", "new/2", out=f"{self.room}/All")
        self.wait_for(lambda: os.path.lexists(f"{self.room}/Links/1:2,F"))
        self.rename("new/2", "cur/2:2,F", out=f"{self.room}/All")  # as a mail reader does
        self.assert_mail("cur/1:2,F", "cur/2:2,F")
        self.assert_has("cur/1:2,F", "cur/2:2,F")
        self.ask("flagged", folder="Mail", formula="MAIL:subject==two", maildir="Out")
        self.assert_has("cur/2:2,F")
        os.rename(f"{self.room}/All", f"{self.room}/Elsewhere")
        self.deliver("3", "two")
        self.assert_has("cur/2:2,F", "new/3")
        self.assertIsNone(live.process.poll())

    def test_a_file_in_the_place_of_a_maildir(self):
        self.deliver("1", "one", "cur", ":2,F")
        self.deliver("2", "two")
        live = self.start("-q", self.ask("shown", folder="Mail", formula="MAIL:subject==two"))
        self.assertEqual(live.line(), "= two")
        self.start("-q", self.ask("kept", folder="Mail", formula=FLAGGED, maildir="Out"))
        self.assert_has("cur/1:2,F")
        links = self.ask("links", folder="Mail", links="Out")
        live = self.start(links)
        self.assert_ends(live, 2, f"yazgoulm-mail: {links} is a query of links: yazgoulm-folder takes it")
        self.assertEqual(self.start(links, "name==*").process.wait(SECONDS), 2)

    def test_words(self):
        for words, said in (
            ((FLAGGED, "name==*", "--maildir", self.out), "here are 2 formulas and --maildir 1 times"),
            ((FLAGGED, "name==*", "--maildir", self.out, "--maildir", f"{self.out}/"),
             "one folder is given to --maildir twice"),
            ((FLAGGED, "--json", "--maildir", self.out), "--json goes with no --maildir"),
        ):
            live = self.start(self.maildir, *words)
            self.assertEqual(live.process.wait(SECONDS), 2)
            self.assertIn(said, "\n".join(iter(live.error, None)))
        self.assertFalse(os.path.exists(self.out))

    def test_a_live_maildir_that_goes(self):
        """The others are kept; once the last one goes the program ends."""
        self.deliver("1", "one")
        other = f"{self.room}/Other"
        live = self.start("-q", self.maildir, "name==*", "name==*", "--maildir", self.out, "--maildir", other)
        self.assert_has("new/1")
        self.assert_has("new/1", out=other)
        os.rename(self.out, f"{self.room}/away")
        self.assertIn(f"{self.out} was moved or removed", live.error())
        self.deliver("2", "two")
        self.assert_has("new/1", "new/2", out=other)
        self.assertEqual(self.found(f"{self.room}/away"), {"new/1"})
        os.rename(f"{other}/cur", f"{other}/cur2")
        self.assertEqual(live.process.wait(SECONDS), 3)
        self.assertIn(f"{other}/cur: it was moved or removed", live.error())
        os.rename(f"{self.room}/away", self.out)
        self.keep()
        self.assert_has("new/1", "new/2")

    def test_a_mail_that_cannot_be_renamed(self):
        self.deliver("1", "one", "cur", ":2,")
        live = self.keep()
        self.assert_has("cur/1:2,")
        live.process.send_signal(signal.SIGSTOP)
        with open(self.path("cur", "1:2,F"), "w", encoding="ascii") as file:  # another one of this key
            file.write("Subject: other\n\n")
        self.rename("cur/1:2,", "cur/1:2,F")
        live.process.send_signal(signal.SIGCONT)
        self.assertRegex(live.error(), "it can't be cur/1:2,F: File exists$")
        self.assert_mail("cur/1:2,", "cur/1:2,F")


if __name__ == "__main__":
    unittest.main()
