"""Live mail folders over a Maildir in which mail comes and goes: what they show is what Python's mailbox finds. So do
the tutorial's folders, over the program's volume."""
import json, mailbox, os, re, shutil, subprocess, sys, tempfile, threading, time, unittest

sys.dont_write_bytecode = True
HERE = os.path.dirname(os.path.dirname(os.path.realpath(__file__)))
sys.path[:0] = [HERE, f"{HERE}/../../python"]

from maildir import Mail
from yazgoulm._mail import Window
from yazgoulm._mails import Mails

TUTORIAL = f"{HERE}/../../docs/TUTORIAL.md"
MESSAGES, ACTS, SECONDS = 3000, 600, 120
LAST = "name==the-last-*"
FORMULAS = {  # what each folder has, by the flags, the sender and the size of a message
    "MAIL:status==New": lambda flags, sender, size: "S" not in flags,
    'MAIL:from=="*<ann@*"': lambda flags, sender, size: "<ann@" in sender,
    "size>20000 && MAIL:status==New": lambda flags, sender, size: size > 20000 and "S" not in flags,
}


def messages(maildir):
    """Of each message its flags, its sender, its size and its subject, by the standard library's mailbox."""
    box = mailbox.Maildir(maildir, create=False)
    for key in box.keys():
        message = box[key]
        size = os.path.getsize(os.path.join(maildir, box._lookup(key)))
        yield message.get_flags(), message["from"], size, message["subject"]


class LiveMail(unittest.TestCase):
    def setUp(self):
        room = tempfile.TemporaryDirectory(prefix="live-mail-")
        self.addCleanup(room.cleanup)
        self.mail = Mail(f"{room.name}/mail", seed=7)
        for _ in range(MESSAGES):
            self.mail.deliver()

    def assert_shows(self, shown):
        found = [*messages(self.mail.maildir)]
        for formula, test in FORMULAS.items():
            wanted = [subject for *facts, subject in found if test(*facts)]
            self.assertEqual(sorted(shown[formula]), sorted(wanted), formula)

    def acts(self):
        for _ in range(ACTS):
            self.mail.act()
            time.sleep(0.001)
        self.last(1)

    def last(self, number):
        with open(f"{self.mail.maildir}/new/the-last-{number}", "w", encoding="ascii") as file:
            file.write(f"From: x <x@example.org>\nSubject: the last {number}\n\n")

    def test_folders_follow_while_mail_comes_and_goes(self):
        """The program runs beside the acts, and its lines alone make what it shows. The last message but one comes
        after all acts, and the last one after that was shown, so the look that finds it has seen every act."""
        words = [f"{HERE}/live_mail.py", "-q", self.mail.maildir, *FORMULAS, LAST]
        shown = {formula: [] for formula in words[3:]}
        acts = threading.Thread(target=self.acts)
        with subprocess.Popen(words, stdout=subprocess.PIPE, text=True) as live:
            timer = threading.Timer(SECONDS, live.kill)
            timer.start()
            for line in live.stdout:
                formula, told = line.rstrip("\n").split("\t")
                if not acts.ident:
                    acts.start()
                if told.startswith("-"):
                    shown[formula].remove(told[2:])
                elif not told.startswith("~"):  # which says a status alone
                    shown[formula].append(told[2:])
                if (formula, told) == (LAST, "+ the last 1"):
                    self.last(2)
                if (formula, told) == (LAST, "+ the last 2"):
                    break
            timer.cancel()
            live.kill()
        acts.join()
        self.assert_shows(shown)

    def test_statuses_follow(self):
        """Ann's folder shows the status of each message, by its lines alone: also of those that stay in it."""
        words = [f"{HERE}/live_mail.py", "-q", "--json", self.mail.maildir, [*FORMULAS][1], LAST]
        shown, changed = {}, 0
        acts = threading.Thread(target=self.acts)
        with subprocess.Popen(words, stdout=subprocess.PIPE, text=True) as live:
            timer = threading.Timer(SECONDS, live.kill)
            timer.start()
            for line in live.stdout:
                row = json.loads(line)
                if not acts.ident:
                    acts.start()
                if row["formula"] == LAST:
                    if row["key"] == "the-last-2":
                        break
                    self.last(2)
                elif row["change"] == "left":
                    del shown[row["key"]]
                else:
                    shown[row["key"]] = row["status"]
                    changed += row["change"] == "changed"
            timer.cancel()
            live.kill()
        acts.join()
        box = mailbox.Maildir(self.mail.maildir, create=False)
        wanted = {key: "Read" if "S" in box[key].get_flags() else "New" for key in box.keys()
                  if "<ann@" in box[key]["from"]}
        self.assertEqual(shown, wanted)
        self.assertGreater(changed, 10)

    def turn(self, mails):
        """Has the volume be what is on disk."""
        is_settled = False
        while not is_settled:
            for folder in mails.folders:
                is_settled = folder.turn().settled
                mails.hear(folder)

    def begun(self):
        mails = Mails(self.mail.maildir, self.fail)
        self.addCleanup(mails.close)
        mails.begin()
        return mails

    def test_a_window_is_rebuilt_after_an_overrun(self):
        mails = self.begun()
        windows = {formula: Window(mails.volume, formula, backlog=8) for formula in FORMULAS}
        rows = {formula: [row["subject"] for row in window.shown.values()] for formula, window in windows.items()}
        ends = 0
        for number in range(ACTS):
            self.mail.act()
            if number % 200 == 199:
                self.turn(mails)
                for formula, window in windows.items():
                    opened = window.query.at
                    for sign, row in window.follow():
                        if sign == "-":
                            rows[formula].remove(row["subject"])
                        elif sign == "+":
                            rows[formula].append(row["subject"])
                    ends += window.query.at != opened
                self.assert_shows(rows)
        self.assertGreater(ends, 0)

    def test_the_tutorial_s_folder_is_rebuilt_after_an_overrun(self):
        with open(TUTORIAL, encoding="utf-8") as file:
            source = re.search(r"(?ms)^class Folder:.*?(?=^\S)", file.read())[0]
        names = {}
        exec(f"from yazgoulm import *\n{source}", names)
        mails = self.begun()
        folders = {formula: names["Folder"](mails.volume, formula, backlog=8) for formula in FORMULAS}
        ends = 0
        for number in range(ACTS):
            self.mail.act()
            if number % 200 == 199:
                self.turn(mails)
                opened = {formula: folder.query.at for formula, folder in folders.items()}
                for formula, folder in folders.items():
                    folder.follow()
                    ends += folder.query.at != opened[formula]
                self.assert_shows({formula: [*folder.rows.values()] for formula, folder in folders.items()})
        self.assertGreater(ends, 0)

    def test_a_formula_that_cannot_be_read_is_said(self):
        words = [f"{HERE}/live_mail.py", self.mail.maildir, "MAIL:status="]
        done = subprocess.run(words, capture_output=True, text=True, timeout=SECONDS)
        self.assertEqual((done.returncode, done.stdout), (2, ""))
        self.assertIn("BadQuery at byte 12\n    MAIL:status=\n", done.stderr)

    def test_too_few_words_are_said(self):
        done = subprocess.run([f"{HERE}/live_mail.py"], capture_output=True, text=True)
        self.assertEqual((done.returncode, done.stdout), (2, ""))
        self.assertIn("MAILDIR", done.stderr)

    def test_a_maildir_that_goes_away_is_said(self):
        words = [f"{HERE}/live_mail.py", "-q", self.mail.maildir, "name==*"]
        with subprocess.Popen(words, stdout=subprocess.PIPE, stderr=subprocess.PIPE, text=True) as live:
            timer = threading.Timer(SECONDS, live.kill)
            timer.start()
            live.stdout.readline()
            shutil.rmtree(self.mail.maildir)
            _, said = live.communicate()
            timer.cancel()
        self.assertEqual(live.returncode, 3)
        self.assertRegex(said, "^yazgoulm-mail: .*/(new|cur): No such file or directory\n$")


if __name__ == "__main__":
    unittest.main()
