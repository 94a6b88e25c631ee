#!/usr/bin/env python3
"""Lets programs, mail readers and a person act at random on a Maildir and its live Maildirs, while the program that
keeps these runs, is stopped and is killed. At each rest every live Maildir has one link for each mail that matches, with its
name; all mail is there, and so is all that a person put into a live Maildir.

    hostile.py [ACTS [SEED]]    1,000 acts, and a seed that is drawn and printed
"""
import os, random, signal, subprocess, sys, tempfile, time

HERE = os.path.dirname(os.path.dirname(os.path.realpath(__file__)))
FORMULAS = {
    "name==*": lambda flags: True,
    "MAIL:flags==*F*": lambda flags: "F" in flags,
    "MAIL:status==New && MAIL:flags!=*T*": lambda flags: "S" not in flags and "T" not in flags,
}
BURST = 100  # acts from one rest to the next
REST = 60  # seconds in which all has to be right


class Driver:
    def __init__(self, room, seed):
        self.random = random.Random(seed)
        self.maildir, self.outs = f"{room}/Mail", [f"{room}/Out{number}" for number in range(len(FORMULAS))]
        for part in "tmp", "new", "cur":
            os.makedirs(f"{self.maildir}/{part}")
        self.made, self.kept, self.mails, self.foreign, self.process = 0, {}, {}, {}, None

    def start(self):
        words = [it for pair in zip(FORMULAS, self.outs) for it in (pair[0], "--maildir", pair[1])]
        self.process = subprocess.Popen([f"{HERE}/live_mail.py", "-q", self.maildir, *words], stderr=subprocess.PIPE)

    def kill(self):
        self.process.kill()
        error = self.process.communicate()[1].decode()
        errors = [it for it in error.splitlines() if "is something else" not in it and "it can't be" not in it]
        assert not errors, errors

    def paths(self, folder):
        """The files and links of a Maildir."""
        parts = [part for part in ("new", "cur") if os.path.isdir(f"{folder}/{part}")]
        return [f"{folder}/{part}/{name}" for part in parts for name in os.listdir(f"{folder}/{part}")]

    def flagged(self, path):
        """Another name for a message, with other flags, as a mail reader gives it."""
        folder, part, name = path.rsplit("/", 2)
        key = name.partition(":2,")[0]
        flags = "".join(sorted(it for it in "FRST" if self.random.random() < 0.4))
        part = self.random.choice([part, "cur", "cur"])
        return f"{folder}/{part}/{key}:2,{flags}" if flags or part == "cur" else f"{folder}/{part}/{key}"

    def deliver(self):
        self.made += 1
        key = f"{self.made:06}.P1.host"
        with open(f"{self.maildir}/tmp/{key}", "w", encoding="ascii") as file:
            file.write(f"From: a@example.org\nSubject: message {self.made}\n\n")
        os.rename(f"{self.maildir}/tmp/{key}", f"{self.maildir}/new/{key}")
        self.mails[key] = self.made

    def put(self):
        """A person puts a thing of their own into a live Maildir."""
        out = self.random.choice(self.outs)
        part = self.random.choice(["new", "cur"])
        mail = self.random.choice([*self.mails, "mine"])
        name = self.random.choice([f"mine-{self.made}-{self.random.random()}", f"{mail}:2,F", f"{mail}:2,S", mail])
        path = f"{out}/{part}/{name}"
        if not os.path.isdir(f"{out}/{part}"):
            return
        kind = self.random.choice(["file", "link", "folder"])
        if kind == "file":
            os.close(os.open(path, os.O_CREAT | os.O_EXCL | os.O_WRONLY))
        elif kind == "link":
            os.symlink("/elsewhere", path)
        else:
            os.mkdir(path)
        self.foreign[path] = os.lstat(path).st_ino

    def act(self):
        chance = self.random.random()
        path = self.random.choice(self.paths(self.maildir) or [None])
        links = [it for it in self.paths(self.random.choice(self.outs)) if it not in self.foreign]
        link = self.random.choice(links or [None])
        if chance < 0.2 or path is None:
            self.deliver()
        elif chance < 0.4:
            self.move(path, self.flagged(path))
        elif chance < 0.45:
            os.remove(path)
            del self.mails[path.rsplit("/", 1)[1].partition(":2,")[0]]
        elif chance < 0.5:
            self.put()
        elif chance < 0.53 and self.foreign:
            self.take()
        elif chance < 0.58 and link:
            os.remove(link)
        elif chance < 0.6 and link:  # to another key, as nobody should
            self.move(link, f"{os.path.dirname(link)}/other-{self.made}:2,F")
        elif chance < 0.62:
            self.kill()
            self.start()
        elif chance < 0.65:
            self.process.send_signal(self.random.choice([signal.SIGSTOP, signal.SIGCONT]))
        elif link:
            self.move(link, self.flagged(link))

    def move(self, old, new):
        if not os.path.lexists(new):
            os.rename(old, new)

    def take(self):
        """A person takes away what they have put there."""
        path = self.random.choice([*self.foreign])
        assert os.lstat(path).st_ino == self.foreign.pop(path), path
        (os.rmdir if os.path.isdir(path) and not os.path.islink(path) else os.remove)(path)

    def wrong(self):
        """What isn't as it should be: nothing, in the end."""
        mails = {}
        for path in self.paths(self.maildir):
            place = path[len(self.maildir) + 1 :]
            key, _, flags = place[4:].partition(":2,")
            mails[place] = flags
            with open(path, encoding="ascii") as file:
                if file.read().splitlines()[1] != f"Subject: message {self.mails.get(key)}":
                    yield "mail", path
        if len(mails) != len(self.mails):
            yield "mails", len(mails), len(self.mails)
        real = os.path.realpath(self.maildir)
        for out, test in zip(self.outs, FORMULAS.values()):
            foreign = {it[len(out) + 1 :] for it in self.foreign if it.startswith(f"{out}/")}
            places = [place for place, flags in mails.items() if test(flags) and place not in foreign]
            wanted = {place: f"{real}/{place}" for place in places}
            found = {}
            for path in self.paths(out):
                if path not in self.foreign:
                    found[path[len(out) + 1 :]] = os.readlink(path) if os.path.islink(path) else None
            for place in wanted.keys() | found.keys():
                if wanted.get(place) != found.get(place):
                    yield out, place, wanted.get(place), found.get(place)
        for path, inode in self.foreign.items():
            if os.lstat(path).st_ino != inode:
                yield "foreign", path

    def rest(self):
        self.process.send_signal(signal.SIGCONT)
        end = time.monotonic() + REST
        while True:
            try:
                wrong = [*self.wrong()]
            except FileNotFoundError as error:
                wrong = [error]
            if not wrong:
                return
            assert self.process.poll() is None, self.process.communicate()
            assert time.monotonic() < end, wrong
            time.sleep(0.05)

    def run(self, acts):
        self.start()
        try:
            for number in range(1, acts + 1):
                try:
                    self.act()
                except (FileNotFoundError, FileExistsError):
                    pass  # the program was there before
                if self.random.random() < 0.1:
                    time.sleep(self.random.choice([0.001, 0.01, 0.05]))
                if number % BURST == 0:
                    self.rest()
            self.rest()
            self.kill()
        finally:
            self.process.kill()
            self.process.wait()


def main(words):
    acts = int(words[0]) if words else 1000
    seed = int(words[1]) if len(words) > 1 else random.randrange(1_000_000)
    print(f"seed {seed}", flush=True)
    with tempfile.TemporaryDirectory(prefix="live-mail-") as room:
        driver = Driver(room, seed)
        driver.run(acts)
        print(f"{acts} acts, {len(driver.mails)} mails and {len(driver.foreign)} foreign things are right in the end")


if __name__ == "__main__":
    main(sys.argv[1:])
