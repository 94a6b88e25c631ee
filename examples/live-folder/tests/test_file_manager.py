"""A folder of links in a real file manager: pcmanfm on a screen by Xvfb, which has no window but its. What it shows is
read from the pixels: each name is known by how it looked in another folder. FILE_MANAGER_PICTURE names a file that the
screen is drawn into."""
import os, shutil, struct, subprocess, sys, time, unittest, zlib

from case import HERE, SECONDS, Case

PACKAGE = os.environ.get("YAZGOULM_PACKAGE") or os.path.join(HERE, "../../python")
NAMES = "draft.txt", "draft (2).txt", "letter.txt", "notes.txt", "plan.txt"  # in the order in which they are shown
LEFT, RIGHT = 30, 250  # between which names are shown, after their icons
DARK = 110  # of 255: ink is darker
LIKE = 0.06  # texts that differ less are one: of these names the nearest two differ by a fifth
WIDTH, HEIGHT = 640, 300
SETTINGS = f"""[ui]
win_width={WIDTH}
win_height={HEIGHT}
view_mode=list
sort=name;ascending;
show_statusbar=0
side_pane_mode=hidden;places
"""


class Screen:
    """A screen without a monitor. Its file has a head of big-endian words, a table of colours and the pixels."""

    def __init__(self, room):
        self.room, (self.told, tells) = room, os.pipe()
        words = ["-displayfd", str(tells), "-screen", "0", f"{WIDTH}x{HEIGHT}x24", "-fbdir", room, "-wr", "-nolisten", "tcp"]
        self.server = subprocess.Popen(["Xvfb", *words], pass_fds=[tells], stderr=subprocess.DEVNULL)
        os.close(tells)
        self.display = f":{os.read(self.told, 20).decode().strip()}"

    def rows(self):
        """The rows of pixels, each with 4 bytes: blue, green, red and nothing."""
        with open(f"{self.room}/Xvfb_screen0", "rb") as file:
            raw = file.read()
        head = struct.unpack(">25I", raw[:100])
        begin, line = head[0] + 12 * head[19], head[12]
        return [raw[at : at + 4 * WIDTH] for at in range(begin, begin + HEIGHT * line, line)]

    def texts(self):
        """The lines of text in the names' column, from above: each as the ink of its rows, without what is around."""
        lines, blank = [[]], 0
        for row in self.rows():
            ink = tuple(max(row[4 * x : 4 * x + 3]) < DARK for x in range(LEFT, RIGHT))
            if any(ink):
                lines[-1].append(ink)
                blank = 0
            elif lines[-1]:
                blank += 1
                if blank == 3:
                    lines.append([])
        return [cut(line) for line in lines if len(line) > 3]  # and not the line around what has the focus

    def draw(self, path):
        lines = b"".join(b"\0" + b"".join(row[at : at + 3][::-1] for at in range(0, len(row), 4)) for row in self.rows())
        with open(path, "wb") as file:
            file.write(b"\x89PNG\r\n\x1a\n")
            head = struct.pack(">IIBBBBB", WIDTH, HEIGHT, 8, 2, 0, 0, 0)
            for kind, data in (b"IHDR", head), (b"IDAT", zlib.compress(lines, 9)), (b"IEND", b""):
                file.write(struct.pack(">I", len(data)) + kind + data + struct.pack(">I", zlib.crc32(kind + data)))

    def close(self):
        self.server.kill()
        self.server.wait()
        os.close(self.told)


def cut(line):
    """Ink without the blank columns at its sides."""
    columns = [x for x in range(RIGHT - LEFT) if any(row[x] for row in line)]
    return tuple(row[columns[0] : columns[-1] + 1] for row in line)


def difference(one, other):
    """Which share of the pixels is ink in one of two texts alone: what is behind a text makes some lighter or darker."""
    height, width = max(len(one), len(other)), max(len(one[0]), len(other[0]))
    return sum(pixel(one, x, y) != pixel(other, x, y) for y in range(height) for x in range(width)) / (height * width)


def pixel(line, x, y):
    return y < len(line) and x < len(line[0]) and line[y][x]


@unittest.skipUnless(shutil.which("pcmanfm") and shutil.which("Xvfb"), "there is no pcmanfm, or no Xvfb")
class FileManager(Case):
    def setUp(self):
        super().setUp()
        self.room = os.path.dirname(self.folder)
        os.makedirs(f"{self.room}/home/.config/pcmanfm/default")
        with open(f"{self.room}/home/.config/pcmanfm/default/pcmanfm.conf", "w") as file:
            file.write(SETTINGS)
        self.screen = Screen(self.room)
        self.addCleanup(self.screen.close)

    def show(self, folder):
        """pcmanfm on a folder."""
        home = f"{self.room}/home"
        env = {**os.environ, "DISPLAY": self.screen.display, "HOME": home, "XDG_RUNTIME_DIR": home, "LC_ALL": "C.UTF-8"}
        env.update(XDG_CONFIG_HOME=f"{home}/.config", XDG_CACHE_HOME=f"{home}/.cache", XDG_DATA_HOME=f"{home}/.data")
        env.update(GIO_USE_VFS="local", GIO_USE_VOLUME_MONITOR="unix", NO_AT_BRIDGE="1")
        quiet = {"stdout": subprocess.DEVNULL, "stderr": subprocess.DEVNULL}
        process = subprocess.Popen(["pcmanfm", "--no-desktop", folder], env=env, **quiet)
        self.addCleanup(lambda: (process.kill(), process.wait()))
        return process

    def wait_for(self, call):
        end = time.monotonic() + SECONDS
        while not call() and time.monotonic() < end:
            time.sleep(0.1)
        return call()

    def learn(self):
        """Learns how each name looks, and what is above the names."""
        known = f"{self.room}/known"
        os.mkdir(known)
        for name in NAMES:
            shutil.copy(f"{self.room}/home/.config/pcmanfm/default/pcmanfm.conf", f"{known}/{name}")
        process = self.show(known)
        seen = [[]]

        def is_still():
            seen.append(self.screen.texts())
            lines = seen[-1][-len(NAMES) :]
            return len(seen) > 8 and seen[-1] == seen[-8] and len({*lines}) == len(NAMES) < len(seen[-1])

        is_read = self.wait_for(is_still)
        process.kill()
        process.wait()
        if not is_read or not self.wait_for(lambda: not self.screen.texts()):
            self.skipTest("pcmanfm shows nothing that can be read here")
        self.known = dict(zip(seen[-1][-len(NAMES) :], NAMES))
        self.above = len(seen[-1]) - len(NAMES)  # lines of text: the path, and the head of the names

    def shown(self):
        """The names that are shown, and `?` for another one."""
        return [self.name(it) for it in self.screen.texts()[self.above :]]

    def name(self, line):
        known = min(self.known, key=lambda it: difference(it, line))
        return self.known[known] if difference(known, line) < LIKE else "?"

    def assert_shown(self, *names):
        self.wait_for(lambda: self.shown() == [*names])
        self.assertEqual(self.shown(), [*names])

    def test_a_live_query_in_pcmanfm(self):
        self.learn()
        out = f"{self.room}/texts"
        self.write("letter.txt", 10)
        self.write("notes.txt", 200)
        self.write("plan.txt", 300)
        command = [sys.executable, "-B", "-m", "yazgoulm.folder", self.folder, "name==*.txt && size>100", "--links", out, "-q"]
        live = subprocess.Popen(command, env={**os.environ, "PYTHONPATH": PACKAGE})
        self.addCleanup(lambda: (live.kill(), live.wait()))
        self.assertTrue(self.wait_for(lambda: os.path.lexists(f"{out}/plan.txt")))
        self.show(out)
        self.assert_shown("notes.txt", "plan.txt")
        self.write("letter.txt", 1840)  # it grows, so it comes
        self.assert_shown("letter.txt", "notes.txt", "plan.txt")
        os.rename(self.path("plan.txt"), self.path("draft.txt"))
        self.assert_shown("draft.txt", "letter.txt", "notes.txt")
        os.mkdir(self.path("old"))
        self.write("old/draft.txt", 2210)
        self.assert_shown("draft.txt", "draft (2).txt", "letter.txt", "notes.txt")
        if os.environ.get("FILE_MANAGER_PICTURE"):
            self.screen.draw(os.environ["FILE_MANAGER_PICTURE"])
        self.write("notes.txt", 0)  # it is emptied, so it goes
        os.remove(self.path("letter.txt"))
        self.assert_shown("draft.txt", "draft (2).txt")


if __name__ == "__main__":
    unittest.main()
