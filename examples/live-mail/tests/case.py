"""A Maildir in a folder of its own, and the program over it."""
import contextlib, os, queue, subprocess, sys, tempfile, threading, time, unittest

sys.dont_write_bytecode = True
HERE = os.path.dirname(os.path.dirname(os.path.realpath(__file__)))
PACKAGE = os.path.realpath(f"{HERE}/../../python")
sys.path[:0] = [HERE, PACKAGE]

SECONDS = float(os.environ.get("TEST_SECONDS", "60"))


def watches_of(process):
    """How many watches of inotify a process has."""
    found = 0
    for fd in os.listdir(f"/proc/{process}/fdinfo"):
        with contextlib.suppress(OSError):  # one that was closed meanwhile
            with open(f"/proc/{process}/fdinfo/{fd}", encoding="ascii") as file:
                found += file.read().count("inotify wd:")
    return found


class Live:
    """The program, whose lines are read by threads. It becomes a user, if one is given, once it is loaded."""

    def __init__(self, *words, user=None, module="yazgoulm._mail"):
        become = "" if user is None else f"import os; os.setgid({user}); os.setuid({user}); "
        load = f"import locale, sys; sys.path.insert(0, {PACKAGE!r}); from {module} import main"
        program = f"{load}; {become}sys.exit(main())"
        self.process = subprocess.Popen(
            [sys.executable, "-c", program, *words], stdout=subprocess.PIPE, stderr=subprocess.PIPE, text=True
        )
        self.lines, self.errors = queue.Queue(), queue.Queue()
        for file, lines in (self.process.stdout, self.lines), (self.process.stderr, self.errors):
            threading.Thread(target=self.read, args=(file, lines), daemon=True).start()

    def read(self, file, lines):
        for line in file:
            lines.put(line.rstrip("\n"))
        lines.put(None)

    def line(self):
        return self.lines.get(timeout=SECONDS)

    def error(self):
        return self.errors.get(timeout=SECONDS)

    def processor(self):
        """Seconds of a processor that it took."""
        with open(f"/proc/{self.process.pid}/stat", encoding="ascii") as file:
            fields = file.read().rpartition(")")[2].split()
        return (int(fields[11]) + int(fields[12])) / os.sysconf("SC_CLK_TCK")

    def end(self):
        self.process.kill()
        self.process.wait()
        self.process.stdout.close()
        self.process.stderr.close()


class Case(unittest.TestCase):
    def setUp(self):
        room = tempfile.TemporaryDirectory(prefix="live-mail-")
        self.addCleanup(room.cleanup)
        self.room, self.maildir = room.name, f"{room.name}/Mail"
        for name in "tmp", "new", "cur":
            os.makedirs(self.path(name))

    def path(self, *names):
        return os.path.join(self.maildir, *names)

    def deliver(self, key, subject, place="new", flags="", more=""):
        """A message comes, as a mail server has it come."""
        with open(self.path("tmp", key), "w", encoding="utf-8") as file:
            file.write(f"From: Ann <ann@example.org>\nSubject: {subject}\n{more}\nHello.\n")
        os.rename(self.path("tmp", key), self.path(place, key + flags))

    def start(self, *words, **more):
        live = Live(*words, **more)
        self.addCleanup(live.end)
        return live

    def begun(self, *words):
        """The program once it has printed the message `first`, which is there."""
        self.deliver("0", "first")
        live = self.start("-q", self.maildir, *words)
        self.assertEqual(live.line(), "= first")
        return live

    def assert_ends(self, live, status, error):
        self.assertEqual((live.process.wait(SECONDS), live.error(), live.line()), (status, error, None))

    def wait_for(self, test):
        """Waits until something is so."""
        end = time.monotonic() + SECONDS
        while not test():
            self.assertLess(time.monotonic(), end)
            time.sleep(0.01)
