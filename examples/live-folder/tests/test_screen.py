"""yazgoulm-folder --screen, in a pseudo-terminal whose screen is made of what comes."""
import codecs, contextlib, fcntl, os, pty, re, select, signal, struct, subprocess, sys, termios, time, unittest

from case import HERE, SECONDS, Case

PACKAGE = os.environ.get("YAZGOULM_PACKAGE") or os.path.join(HERE, "../../python")
COMMAND = [sys.executable, "-B", "-m", "yazgoulm.folder", "--screen"]
# The same, where a row shows for so many seconds what happened to it.
SHOWN_FOR = "import sys; from yazgoulm.folder import _command, _screen; _screen.SHOWN = {}; sys.exit(_command.main())"
SEQUENCE = re.compile(r"\x1b(?:\[(?P<words>[?0-9;]*)(?P<what>[A-Za-z])|(?P<short>[()].|[=>A-Z78]))|\$<[0-9*/]+>")
UP, DOWN, PAGE_DOWN, HOME, END = "\x1bOA", "\x1bOB", "\x1b[6~", "\x1bOH", "\x1bOF"
UTF_8 = "C.UTF-8"


def width_of(char):
    import unicodedata

    if unicodedata.category(char) in ("Mn", "Me"):
        return 0
    return 2 if unicodedata.east_asian_width(char) in "WF" else 1


class Cells:
    """The cells of a terminal of the kind xterm, as what a program writes makes them."""

    def __init__(self, width, height):
        self.size(width, height)
        self.is_reverse, self.left, self.modes = False, "", {}

    def size(self, width, height):
        self.width, self.height = width, height
        self.lines = [[" "] * width for _ in range(height)]
        self.reversed = [[False] * width for _ in range(height)]
        self.x = self.y = self.top = 0
        self.low = height

    def take(self, text):
        text, self.left = self.left + text, ""
        while text:
            found = SEQUENCE.match(text)
            if found:
                self.do(found)
                text = text[found.end() :]
            elif text[0] == "\x1b" and len(text) < 12:
                self.left, text = text, ""
            else:
                self.put(text[0])
                text = text[1:]

    def do(self, found):
        words, what = found["words"] or "", found["what"] or ""
        numbers = [int(it or 0) for it in words.lstrip("?").split(";")]
        first, line = max(1, numbers[0]), self.lines[min(self.y, self.height - 1)]
        if what == "H":
            self.go(max(1, (numbers + [1])[1]) - 1, first - 1)
        elif what == "d":
            self.go(self.x, first - 1)
        elif what == "G":
            self.go(first - 1, self.y)
        elif what and what in "AB":
            self.go(self.x, self.y + (first if what == "B" else -first))
        elif what and what in "CD":
            self.x += first if what == "C" else -first
        elif what == "J":
            self.clear(self.y, self.x if numbers[0] == 0 else 0, self.width)
            for y in range(self.y + 1 if numbers[0] == 0 else 0, self.height):
                self.clear(y, 0, self.width)
        elif what == "K":
            self.clear(self.y, 0 if numbers[0] else self.x, self.x + 1 if numbers[0] == 1 else self.width)
        elif what == "X":
            self.clear(self.y, self.x, self.x + first)
        elif what == "P":
            line[self.x :] = (line[self.x + first :] + [" "] * self.width)[: self.width - self.x]
        elif what == "@":
            line[self.x :] = ([" "] * first + line[self.x :])[: self.width - self.x]
        elif what == "b":
            for _ in range(first):
                self.put(self.last)
        elif what == "m":
            for number in numbers:
                self.is_reverse = number == 7 or (self.is_reverse and number not in (0, 27))
        elif what and what in "hl":
            self.modes[words] = what == "h"
        elif what == "r":
            self.top, self.low = (numbers[0] - 1, numbers[1]) if len(numbers) > 1 else (0, self.height)
            self.x = self.y = 0
        elif what and what in "LM":
            self.scroll(self.y, first if what == "M" else -first)
        elif what and what in "ST":
            self.scroll(self.top, first if what == "S" else -first)
        elif found["short"] == "M":
            self.y -= 1
            if self.y < self.top:
                self.y = self.top
                self.scroll(self.top, -1)
        elif what not in ("", "t"):
            raise AssertionError(f"this terminal has no {found[0]!r}")

    def go(self, x, y):
        """As far as there are cells: a program may write for a size that the terminal had."""
        self.x, self.y = min(x, self.width), max(0, min(y, self.height - 1))

    def clear(self, y, begin, end):
        for x in range(begin, min(end, self.width)):
            self.lines[y][x], self.reversed[y][x] = " ", False

    def scroll(self, top, count):
        """Lines go up from below, or down."""
        for lines, blank in (self.lines, " "), (self.reversed, False):
            for _ in range(abs(count)):
                lines.insert(self.low if count > 0 else top, [blank] * self.width)
                del lines[top if count > 0 else self.low]

    def put(self, char):
        if char == "\r":
            self.x = 0
        elif char == "\n":
            self.y += 1
            if self.y == self.low:
                self.y -= 1
                self.scroll(self.top, 1)
        elif char == "\b":
            self.x -= 1
        elif char >= " ":
            width = width_of(char)
            if width == 0:
                self.lines[self.y][self.x - 1] += char
                return
            if self.x >= self.width:
                self.go(0, self.y + 1)
            self.lines[self.y][self.x] = self.last = char
            self.reversed[self.y][self.x] = self.is_reverse
            for x in range(self.x + 1, self.x + width):
                self.lines[self.y][x] = ""
            self.x += width

    def text(self):
        return ["".join(line).rstrip() for line in self.lines]


def close(*fds):
    """Closes descriptors that may be closed already: nothing else is opened after them."""
    for fd in fds:
        with contextlib.suppress(OSError):
            os.close(fd)


class Screens(Case):
    def show(self, formula="name==*", *words, width=80, height=20, ready=True, command=COMMAND, **environment):
        """Starts the command in a terminal of that size."""
        self.ours, theirs = pty.openpty()
        self.addCleanup(close, self.ours, theirs)
        self.errors = open(f"{self.folder}.errors", "w+")
        self.cells = Cells(width, height)
        self.decoder = codecs.getincrementaldecoder("utf-8")()
        self.size(width, height, ready=False)
        self.before = termios.tcgetattr(theirs)
        env = {**os.environ, "PYTHONPATH": PACKAGE, "TERM": "xterm", "LC_ALL": UTF_8, "ESCDELAY": "25", **environment}
        for name in ("LINES", "COLUMNS"):
            env.pop(name, None)
        self.live = subprocess.Popen(
            [*command, self.folder, formula, *words], stdin=theirs, stdout=theirs, stderr=self.errors, env=env,
            start_new_session=True, preexec_fn=lambda: fcntl.ioctl(0, termios.TIOCSCTTY, 0),
        )  # fmt: skip
        self.theirs = theirs
        self.addCleanup(self.end, self.live, self.errors)
        if ready:
            self.wait_for(lambda: "Quit" in self.lines()[-1] and "so far, by" in self.lines()[0])

    def end(self, live, errors):
        live.kill()
        live.wait()
        errors.close()

    def said(self):
        """What it has written on standard error."""
        self.errors.seek(0)
        return self.errors.read()

    def size(self, width, height, ready=True):
        fcntl.ioctl(self.ours, termios.TIOCSWINSZ, struct.pack("HHHH", height, width, 0, 0))
        if ready:
            self.cells.size(width, height)

    def take(self, seconds=0.0):
        """Takes what the command has written. False: there was nothing."""
        if not select.select([self.ours], [], [], seconds)[0]:
            return False
        try:
            self.cells.take(self.decoder.decode(os.read(self.ours, 65536)))
        except OSError:
            return False
        return True

    def lines(self):
        return self.cells.text()

    def wait_for(self, call):
        end = time.monotonic() + SECONDS
        while time.monotonic() < end:
            if call():
                return
            if not self.take(0.05) and self.live.poll() is not None:
                break
        self.fail("\n".join(self.lines()) + self.why())

    def why(self):
        return f"\nit ended: {self.said()}" if self.live.poll() is not None else ""

    def press(self, *keys):
        for key in keys:
            os.write(self.ours, key.encode())

    def rows(self):
        """The words of what happened, and the names, of the rows."""
        lines = self.lines()
        at = next((at for at, line in enumerate(lines) if line[8:].startswith("name")), None)
        if at is None:
            return []
        end = max(at + 1, self.cells.height - 2 - (0 if self.cells.height < 10 else min(6, (self.cells.height - 4) // 4)))
        return [(line[:8].strip(), line[8:].split("  ")[0].strip()) for line in lines[at + 1 : end] if line.strip()]

    def names(self):
        return [name for _, name in self.rows()]

    def chosen(self):
        """The name of the row that the keys are at."""
        found = [y for y in range(2, self.cells.height - 2) if self.cells.reversed[y][8]]
        return self.lines()[found[0]][8:].split("  ")[0].strip() if found else None

    def assert_restored(self, status):
        """It has ended, and the terminal is as it was."""
        end = time.monotonic() + SECONDS
        while self.live.poll() is None and time.monotonic() < end:
            self.take(0.05)
        while self.take(0.05):
            pass
        self.assertEqual(self.live.poll(), status, self.why())
        self.assertEqual(termios.tcgetattr(self.theirs), self.before)
        self.assertFalse(self.cells.modes.get("?1049"))
        self.assertTrue(self.cells.modes["?25"])

    def test_rows_come_move_change_and_go(self):
        os.mkdir(self.path("in"))
        self.write("a.txt", 1840)
        self.show("name==*.txt", command=[sys.executable, "-B", "-c", SHOWN_FOR.format(60), "--screen"])
        self.wait_for(lambda: self.rows() == [("", "a.txt")])
        self.assertIn("1.8 kB", self.lines()[2])
        self.assertTrue(self.lines()[0].startswith(f"{self.folder}"[:20]), self.lines()[0])
        for act, row, says in (
            (lambda: self.write("b.txt"), ("new", "b.txt"), "b.txt came"),
            (lambda: os.rename(self.path("b.txt"), self.path("in/c.txt")), ("moved", "c.txt"), "b.txt is now in/c.txt"),
            (lambda: self.write("in/c.txt", 5), ("changed", "c.txt"), "in/c.txt was changed: 5 bytes"),
            (lambda: os.remove(self.path("a.txt")), ("gone", "a.txt"), "a.txt is gone"),
        ):
            act()
            self.wait_for(lambda: row in self.rows())
            self.wait_for(lambda: any(re.fullmatch(f"[0-9:]{{8}}  {re.escape(says)}", it) for it in self.lines()))
        self.assertEqual(self.rows(), [("gone", "a.txt"), ("changed", "c.txt")])
        self.press("q")
        self.assert_restored(0)

    def test_words_go_again(self):
        self.write("a.txt")
        self.write("b.txt")
        self.show(command=[sys.executable, "-B", "-c", SHOWN_FOR.format(0.3), "--screen"])
        self.write("c.txt")
        self.write("a.txt", 5)
        os.remove(self.path("b.txt"))
        self.wait_for(lambda: any(it.endswith("b.txt is gone") for it in self.lines()))
        self.wait_for(lambda: self.rows() == [("", "a.txt"), ("", "c.txt")])

    def test_orders_and_keys(self):
        for name, size in ("b", 1), ("A", 30), ("c", 200):
            self.write(name, size)
        self.show()
        self.wait_for(lambda: self.names() == ["A", "b", "c"] and self.chosen() == "A")
        self.press(DOWN, DOWN, DOWN, UP)
        self.wait_for(lambda: self.chosen() == "b")
        self.press(">", ">")
        self.wait_for(lambda: self.names() == ["b", "A", "c"] and self.chosen() == "b")
        self.assertIn("size ^", self.lines()[1])
        self.press("r")
        self.wait_for(lambda: self.names() == ["c", "A", "b"])
        self.wait_for(lambda: any(f"c: 200 bytes, {time.strftime('%Y-')}" in it for it in self.lines()))
        self.press("<", "<", "<")
        self.wait_for(lambda: "kind ^" in self.lines()[1])

    def test_sizes(self):
        self.write("a.txt")
        self.write("b.txt")
        self.show()
        for width, height in (120, 40), (60, 12), (40, 9), (24, 5), (200, 50), (80, 24):
            self.size(width, height)
            self.wait_for(lambda: " q Quit" in self.lines()[-1] and self.names()[:1] == ["a.txt"])
        for width, height in (23, 5), (24, 4), (3, 1), (1, 1):
            self.size(width, height)
            self.wait_for(lambda: self.lines()[0].startswith("to") or width < 3)
        self.size(80, 24)
        self.wait_for(lambda: self.names() == ["a.txt", "b.txt"])
        self.press("q")
        self.assert_restored(0)

    def test_names_that_are_hostile(self):
        """Nothing of a name controls the terminal, and each line stays a line."""
        names = {
            b"\x1b]0;x\x07\x1b[2J": "\\x1b]0;x\\x07\\x1b[2J", b"two\nlines": "two\\nlines", b"sch\xf6n": "sch\\xf6n",
            "\u202edlo".encode(): "\\u202edlo", "\u0301acute".encode(): "\\u0301acute",
            ("e" + "\u0301" * 9).encode(): "e" + "\u0301" * 3 + "\\u0301" * 6,
            "\u6f22\u5b57" * 40: None, "\U0001f468\u200d\U0001f469".encode(): "\U0001f468\\u200d\U0001f469",
            "x\ufe0f": "x\\ufe0f",
        }  # fmt: skip
        for name in names:
            self.write_raw(name.encode() if isinstance(name, str) else name)
        self.show(width=120, height=30)
        self.wait_for(lambda: len(self.rows()) == len(names))
        wanted = [it for it in names.values() if it is not None]
        shown = self.names()
        for it in wanted:
            self.assertIn(it, shown)
        long = next(it for it in shown if it.startswith("\u6f22\u5b57\u6f22"))
        self.assertTrue(long.endswith("\u2026"), long)
        self.assertTrue(all(line.endswith("file") for line in self.lines()[2 : 2 + len(names)]), self.lines())

    def test_a_terminal_without_utf_8(self):
        self.write("\u00e9\u6f22.txt")
        self.show(LC_ALL="POSIX", PYTHONUTF8="0", PYTHONCOERCECLOCALE="0")
        self.wait_for(lambda: self.names() == ["\\xe9\\u6f22.txt"])

    def test_many_rows(self):
        count = int(os.environ.get("SCREEN_ROWS", 4000))
        for folder in range(count // 200):
            os.mkdir(self.path(f"{folder:04}"))
            for number in range(200):
                os.close(os.open(self.path(f"{folder:04}", f"{folder * 200 + number:06}.txt"), os.O_CREAT))
        self.show("name==*.txt", ready=False)
        self.wait_for(lambda: f"{count:,} entries, 0 changes" in self.lines()[0])
        self.wait_for(lambda: self.names()[:2] == ["000000.txt", "000001.txt"])
        begun = time.monotonic()
        for _ in range(200):
            self.press(PAGE_DOWN)
        self.press(END)
        self.wait_for(lambda: self.chosen() == f"{count - 1:06}.txt")
        if count > 4000:
            sys.stderr.write(f"{count:,} rows: 201 keys after {1000 * (time.monotonic() - begun):.0f} ms\n")
        self.press(UP)
        self.wait_for(lambda: self.chosen() == f"{count - 2:06}.txt")
        os.remove(self.path(f"{count // 200 - 1:04}", f"{count - 1:06}.txt"))
        self.wait_for(lambda: ("gone", f"{count - 1:06}.txt") in self.rows())
        self.wait_for(lambda: self.names()[-1] == f"{count - 2:06}.txt")
        self.press(HOME)
        self.wait_for(lambda: self.chosen() == "000000.txt")

    def test_signals(self):
        """The terminal is as it was, and the status is the signal's."""
        for number in signal.SIGINT, signal.SIGTERM, signal.SIGHUP:
            with self.subTest(number):
                self.show()
                if number == signal.SIGINT:
                    self.press("\x03")
                else:
                    self.live.send_signal(number)
                self.assert_restored(-number)
                self.assertEqual(self.said(), "")

    def test_the_folder_goes(self):
        self.show()
        subprocess.run(["rm", "-r", self.folder], check=True)
        self.assert_restored(3)
        self.assertIn("was moved or removed", self.said())

    def test_the_terminal_goes(self):
        self.show()
        close(self.ours, self.theirs)
        self.assertIn(self.live.wait(SECONDS), (-signal.SIGHUP, 3), self.said())

    def test_no_screen(self):
        """What can't show one is said, before anything is written."""
        for term, says in ("dumb", "has no screen"), ("nosuch", "doesn't know the terminal 'nosuch'"), ("", "TERM"):
            self.show(ready=False, TERM=term)
            status, said = self.live.wait(SECONDS), self.said()
            self.assert_said(status, said, 2, says)
            self.assertFalse(self.take(0))
        env = {**os.environ, "PYTHONPATH": PACKAGE, "TERM": "xterm"}
        for words in [], ["--page"], ["--json"], ["--once"]:
            done = subprocess.run([*COMMAND, self.folder, *words], stdin=subprocess.DEVNULL, capture_output=True,
                                  text=True, env=env, timeout=SECONDS, check=False)  # fmt: skip
            self.assertEqual(done.returncode, 2, done.stderr)
        done = subprocess.run([*COMMAND, self.folder, "size>"], stdin=subprocess.DEVNULL, capture_output=True, text=True,
                              env=env, timeout=SECONDS, check=False)  # fmt: skip
        self.assertIn("standard input is none", done.stderr)


if __name__ == "__main__":
    unittest.main()
