"""What the program makes of all that a Maildir has beside mail, and of a Maildir that changes under it."""
import os, shutil, signal, unittest

from case import Case


class WhatIsNoMail(Case):
    def test_a_folder_made_in_cur(self):
        live = self.begun("name==*")
        os.makedirs(self.path("cur", "folder", "cur"))
        for place in "folder", "folder/cur":
            with open(self.path("cur", place, "1"), "w", encoding="ascii") as file:
                file.write("Subject: inside\n\n")
        self.deliver("2", "second")
        self.assertEqual(live.line(), "+ second")

    def test_a_fifo(self):
        os.mkfifo(self.path("new", "there"))
        live = self.begun("name==*")
        os.mkfifo(self.path("new", "fifo"))
        os.symlink("fifo", self.path("new", "link"))
        self.deliver("1", "second")
        self.assertEqual(live.line(), "+ second")

    def test_an_empty_file(self):
        """It is mail once something is written into it."""
        live = self.begun("name==*")
        with open(self.path("new", "1"), "w", encoding="ascii") as file:
            self.deliver("2", "second")
            self.assertEqual(live.line(), "+ second")
            file.write("Subject: late\n\n")
        self.assertEqual(live.line(), "+ late")

    def test_names_that_begin_with_a_dot(self):
        live = self.begun("name==*")
        with open(self.path("cur", ".uidvalidity"), "w", encoding="ascii") as file:
            file.write("1\n2\n")
        self.deliver("1", "second")
        self.assertEqual(live.line(), "+ second")

    def test_links_to_mail(self):
        """They are mail, as those of a live folder are."""
        with open(f"{self.room}/elsewhere", "w", encoding="ascii") as file:
            file.write("Subject: far away\n\n")
        live = self.begun("name==*")
        os.symlink(f"{self.room}/elsewhere", self.path("cur", "1:2,S"))
        self.assertEqual(live.line(), "+ far away")

    def test_mail_that_cannot_be_read(self):
        """It is said, and the mail is seen once it can be read, of which no event tells."""
        os.chmod(self.room, 0o755)
        self.deliver("0", "first")
        self.deliver("1", "secret")
        os.chmod(self.path("new", "1"), 0)
        live = self.start("-q", self.maildir, "name==*", user=65534 if os.getuid() == 0 else None)
        self.assertEqual(live.line(), "= first")
        self.assertEqual(live.error(), f"yazgoulm-mail: {self.path('new', '1')}: Permission denied, so it is passed over")
        os.chmod(self.path("new", "1"), 0o644)
        self.assertEqual(live.line(), "+ secret")


class WhatChanges(Case):
    def test_a_maildir_that_is_moved(self):
        live = self.begun("name==*")
        os.rename(self.maildir, f"{self.room}/Moved")
        self.assert_ends(live, 3, f"yazgoulm-mail: {self.path('new')}: No such file or directory")

    def test_a_maildir_that_is_replaced(self):
        live = self.begun("name==*")
        shutil.copytree(self.maildir, f"{self.room}/Copy")
        live.process.send_signal(signal.SIGSTOP)
        os.rename(self.maildir, f"{self.room}/Moved")
        os.rename(f"{self.room}/Copy", self.maildir)
        live.process.send_signal(signal.SIGCONT)
        said = f"yazgoulm-mail: {self.maildir} was moved or removed, so it isn't followed any more"
        self.assert_ends(live, 3, said)

    def test_cur_is_removed(self):
        live = self.begun("name==*")
        os.rmdir(self.path("cur"))
        self.assert_ends(live, 3, f"yazgoulm-mail: {self.path('cur')}: No such file or directory")

    def test_cur_is_a_link(self):
        os.rename(self.path("cur"), f"{self.room}/cur")
        os.symlink(f"{self.room}/cur", self.path("cur"))
        self.deliver("1", "there", "cur", ":2,S")
        live = self.begun("MAIL:flags!=*F*")
        self.assertEqual(live.line(), "= there")
        os.rename(self.path("cur", "1:2,S"), self.path("cur", "1:2,FS"))
        self.assertEqual(live.line(), "- there")

    def test_a_second_link_and_then_the_first_goes(self):
        """So some programs move a message; for a moment it has two places."""
        live = self.begun("name==*")
        self.deliver("1", "second")
        self.assertEqual(live.line(), "+ second")
        os.link(self.path("new", "1"), self.path("cur", "1:2,S"))
        self.assertEqual(live.line(), "~ second (Read)")
        os.remove(self.path("new", "1"))
        self.deliver("2", "third")
        self.assertEqual(live.line(), "+ third")

    def test_a_message_that_is_written_anew(self):
        live = self.begun("name==*")
        self.deliver("0", "first, again")
        self.assertEqual(live.line(), "~ first, again (New)")
        os.rename(self.path("new", "0"), self.path("cur", "0:2,S"))
        self.assertEqual(live.line(), "~ first, again (Read)")
        os.remove(self.path("cur", "0:2,S"))
        self.assertEqual(live.line(), "- first, again")

    def test_what_stays_as_it_was_in_the_end_is_not_told(self):
        live = self.begun("MAIL:status==New")
        live.process.send_signal(signal.SIGSTOP)
        self.deliver("1", "comes and goes")
        os.remove(self.path("new", "1"))
        os.rename(self.path("new", "0"), self.path("cur", "0:2,S"))
        os.rename(self.path("cur", "0:2,S"), self.path("cur", "0:2,"))
        self.deliver("2", "last")
        live.process.send_signal(signal.SIGCONT)
        self.assertEqual(live.line(), "+ last")


class WhatItCosts(Case):
    FEW, MANY, COMING = 100, 3_000, 100

    def cost(self, messages, coming):
        """Milliseconds of a processor for a new mail among so many."""
        for number in range(messages):
            with open(self.path("cur", f"m{number}:2,S"), "w", encoding="ascii") as file:
                file.write(f"From: Bob <bob@example.org>\nSubject: {number}\n\n")
        live = self.begun("MAIL:status==New")
        begin = live.processor()
        for number in range(coming):
            self.deliver(f"n{number}", f"new {number}")
            self.assertEqual(live.line(), f"+ new {number}")
        return 1000 * (live.processor() - begin) / coming

    def test_all_mail_is_there_at_the_start(self):
        """More than the lines that a folder has wait at a time."""
        for number in range(12_000):
            with open(self.path("cur", f"m{number}:2,S"), "w", encoding="ascii") as file:
                file.write(f"Subject: {number}\n\n")
        live = self.start("-q", self.maildir, "name==*")
        self.assertEqual({live.line() for _ in range(12_000)}, {f"= {number}" for number in range(12_000)})

    def test_a_new_mail_costs_the_same_among_many(self):
        few = self.cost(self.FEW, self.COMING)
        self.doCleanups()
        self.setUp()
        many = self.cost(self.MANY, self.COMING)
        self.assertLess(many, 2 * few + 0.5, (few, many))


class Formulas(Case):
    def test_flags(self):
        live = self.begun("MAIL:flags!=*F*")
        os.rename(self.path("new", "0"), self.path("cur", "0:2,FS"))
        self.assertEqual(live.line(), "- first")
        os.rename(self.path("cur", "0:2,FS"), self.path("cur", "0:2,S"))
        self.assertEqual(live.line(), "+ first")

    def test_other_flags_are_not_told(self):
        live = self.begun("MAIL:status==New")
        os.rename(self.path("new", "0"), self.path("cur", "0:2,R"))
        self.deliver("1", "second")
        self.assertEqual(live.line(), "+ second")

    def test_what_surely_finds_nothing_is_warned_of(self):
        for formula, said in (
            ("size>10k", 'size is a number, of bytes, and "10k" is none, so this comparison is always false'),
            ("MAIL:sender==*ann*", "no entry has an attribute MAIL:sender"),
            ("MAIL:statu==New", 'no entry has an attribute MAIL:statu: did you mean "MAIL:status"?'),
            ("MAIL:status==new", 'MAIL:status is New or Read, and never "new": did you mean "New"?'),
            ("kind==file", "no entry has an attribute kind"),
        ):
            live = self.start("-q", self.maildir, formula)
            self.assertEqual(live.error(), f"yazgoulm-mail: warning: {said}")
            self.assertEqual(live.error(), f"    {formula}")
            live.end()
        live = self.begun('MAIL:status==New && MAIL:flags==* && size>0 && last_modified>0 && MAIL:from=="*" && name==*')
        self.assertTrue(live.errors.empty())


if __name__ == "__main__":
    unittest.main()
