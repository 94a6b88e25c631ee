"""Live Maildirs in mail readers: neomutt in a terminal, mbsync, and Python's mailbox. What isn't installed is skipped."""
import mailbox, os, shutil, subprocess, time, unittest

from test_live_maildirs import Kept

MUTTRC = """
set mbox_type=Maildir mail_check=1 timeout=1 beep=no delete=yes mark_old=no sort=date index_format="[%Z] %s"
set folder={room} from="me@example.org" pager_stop=yes wait_key=no
"""
MBSYNCRC = """
MaildirStore live
Path {room}/
Inbox {out}
AltMap yes

MaildirStore copy
Path {room}/copy/
Inbox {room}/copy/INBOX
AltMap yes

Channel both
Far :live:
Near :copy:
Sync All
Create Near
SyncState {room}/state-
"""


class Terminal:
    """A terminal by tmux, with a program in it."""

    def __init__(self, room, *words):
        self.room, self.words = room, ["tmux", "-S", f"{room}/tmux", "-f", "/dev/null"]
        subprocess.run([*self.words, "new-session", "-d", "-x", "80", "-y", "24", *words], check=True)

    def press(self, *keys):
        subprocess.run([*self.words, "send-keys", *keys], check=True)

    def screen(self):
        done = subprocess.run([*self.words, "capture-pane", "-p"], capture_output=True, text=True)
        return done.stdout

    def end(self):
        subprocess.run([*self.words, "kill-server"], stderr=subprocess.DEVNULL)


class Readers(Kept):
    @unittest.skipUnless(shutil.which("neomutt") and shutil.which("tmux"), "there is no neomutt, or no tmux")
    def test_neomutt(self):
        """A new mail comes into the open folder, is read and flagged, and leaves it."""
        self.deliver("1", "Lunch", more="Date: Tue, 1 Dec 2026 20:00:00 +0000\n")
        self.keep("MAIL:flags!=*F*")
        with open(f"{self.room}/muttrc", "w", encoding="ascii") as file:
            file.write(MUTTRC.format(room=self.room))
        words = "env", "TERM=screen", f"HOME={self.room}", "neomutt", "-n", "-F", f"{self.room}/muttrc", "-f", self.out
        terminal = Terminal(self.room, *words)
        self.addCleanup(terminal.end)
        self.assert_shows(terminal, "Lunch")
        time.sleep(1.5)  # neomutt doesn't see what comes in the second in which it opens a folder
        self.deliver("2", "Photos", more="Date: Tue, 1 Dec 2026 20:00:01 +0000\n")
        self.assert_has("new/1", "new/2")
        self.assert_shows(terminal, "Lunch", "Photos")
        terminal.press("*", "Enter")
        self.assert_shows(terminal, "Subject: Photos", "Hello.")
        terminal.press("i")
        self.assert_shows(terminal, "Lunch", "Photos")
        terminal.press("*", "F", "$")
        self.assert_mail("new/1", "cur/2:2,FS")
        self.assert_has("new/1")
        self.assert_shows(terminal, "Photos", "Del:1")  # so it shows mail that has gone, until it is told to sync
        terminal.press("$")
        self.wait_for(lambda: "Photos" not in terminal.screen() and "Lunch" in terminal.screen())
        terminal.press("q")
        self.wait_for(lambda: not terminal.screen())
        self.assert_mail("new/1", "cur/2:2,FS")

    def assert_shows(self, terminal, *texts):
        """In the end all these are on the screen at once."""
        try:
            self.wait_for(lambda: all(text in terminal.screen() for text in texts))
        except AssertionError:
            self.fail(f"{texts} aren't shown:\n{terminal.screen()}")

    @unittest.skipUnless(shutil.which("mbsync"), "there is no mbsync")
    def test_mbsync(self):
        """Its copy has what the live Maildir has, and flags go both ways."""
        self.deliver("1", "Lunch")
        self.deliver("2", "Photos", "cur", ":2,F")
        self.keep()
        self.assert_has("new/1", "cur/2:2,F")
        os.makedirs(f"{self.room}/copy")
        with open(f"{self.room}/mbsyncrc", "w", encoding="ascii") as file:
            file.write(MBSYNCRC.format(room=self.room, out=self.out))
        self.sync()
        copy = f"{self.room}/copy/INBOX"
        found = self.found(copy)
        self.assertEqual(len(found), 2)
        lunch = next(it for it in found if "F" not in it.partition(":2,")[2])
        os.rename(f"{copy}/{lunch}", f"{copy}/cur/{lunch[4:].partition(':2,')[0]}:2,S")
        os.rename(self.path("cur", "2:2,F"), self.path("cur", "2:2,"))
        self.assert_has("new/1", "cur/2:2,")
        self.sync()
        self.assert_mail("cur/1:2,S", "cur/2:2,")
        self.assert_has("cur/1:2,S", "cur/2:2,")
        self.assertEqual(sorted(it.partition(":2,")[2] for it in self.found(copy)), ["", "S"])

    def sync(self):
        subprocess.run(["mbsync", "-c", f"{self.room}/mbsyncrc", "both"], check=True, capture_output=True)

    def test_mailbox(self):
        self.deliver("1", "Lunch")
        self.deliver("2", "Photos", "cur", ":2,FS")
        self.keep()
        self.assert_has("new/1", "cur/2:2,FS")
        box = mailbox.Maildir(self.out, create=False)
        found = {key: (box[key]["subject"], box[key].get_subdir(), box[key].get_flags()) for key in box.keys()}
        self.assertEqual(found, {"1": ("Lunch", "new", ""), "2": ("Photos", "cur", "FS")})


del Kept  # its tests are in its own module

if __name__ == "__main__":
    unittest.main()
