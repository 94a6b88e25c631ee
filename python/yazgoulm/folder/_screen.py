"""A window on a folder as a table in a terminal: sorted, with what came and went, as long as a person looks at it.

Curses draws it, and this keeps the terminal: the command's signals end it only once the terminal is as it was."""
import curses, itertools, locale, math, os, select, signal, sys, time
from typing import Any, Dict, List, NamedTuple, Optional, Sequence, Tuple

from ._cells import Cells, size_for_people, time_for_people
from ._folder import PACE, SECONDS, Folder, Turned
from ._pane import Pane, Row, counted, for_people
from ._terminal import ENDED, UNUSABLE, Trouble

PAUSE = 0.05  # seconds from one drawing to the next, unless a key was pressed
SHOWN = 1.0  # seconds that a row shows what happened to it
LEAST_WIDTH, LEAST_HEIGHT = 24, 5  # of a terminal that the table fits into
NAME_WIDTH = 16  # that a name has at least while other columns are shown
WIDTHS = {"size": 9, "modified": 16, "kind": 6}
OTHER_WIDTH = 14
WORDS = {"came": "new", "moved": "moved", "changed": "changed", "left": "gone"}
COLOURS = {"new": "GREEN", "moved": "YELLOW", "changed": "CYAN", "gone": "RED"}
WORD_WIDTH = 8
KEYS = ("q", "Quit"), ("Up Down PgUp PgDn Home End", "Go"), ("< >", "Sort by"), ("r", "Reverse")
ENDS = signal.SIGINT, signal.SIGTERM, signal.SIGHUP, signal.SIGQUIT
LOG = 200  # lines of what happened that are kept


class Terminal:
    """The terminal while it shows a table. At the end it is as it was, also after a signal, which ends the command
    then."""

    def __init__(self) -> None:
        for stream, what in ((sys.stdin, "input"), (sys.stdout, "output")):
            if stream is None or not stream.isatty():
                raise Trouble(f"--screen needs a terminal, and standard {what} is none", UNUSABLE)
        name = os.environ.get("TERM", "")
        try:
            curses.setupterm(fd=sys.__stdout__.fileno() if sys.__stdout__ else 1)
        except curses.error:
            raise Trouble(f"--screen doesn't know the terminal {name!r}, which TERM names", UNUSABLE) from None
        if not curses.tigetstr("cup"):
            raise Trouble(f"the terminal {name!r}, which TERM names, has no screen, only lines", UNUSABLE)
        try:
            locale.setlocale(locale.LC_ALL, "")
        except locale.Error:
            pass
        self.cells = Cells(locale.nl_langinfo(locale.CODESET).upper().replace("-", "") == "UTF8")
        self.signal: Optional[int] = None  # that ends it
        self.is_resized = self.has_gone = False

    def __enter__(self) -> "Terminal":
        self.woken, waker = os.pipe()
        os.set_blocking(waker, False)
        os.set_blocking(self.woken, False)
        self.waker = waker
        signal.set_wakeup_fd(waker, warn_on_full_buffer=False)
        self.handlers = {it: signal.signal(it, self._note) for it in (*ENDS, signal.SIGWINCH)}
        try:
            self.screen = curses.initscr()
            curses.noecho()
            curses.cbreak()
            self.screen.keypad(True)
            self.screen.nodelay(True)
            curses.set_escdelay(25)
            self._dress()
            self._resize()
        except BaseException:
            self.__exit__()
            raise
        return self

    def __exit__(self, *_: Any) -> None:
        try:
            curses.endwin()
        except curses.error:
            pass  # the terminal has gone
        signal.set_wakeup_fd(-1)
        for number, handler in self.handlers.items():
            signal.signal(number, handler)
        os.close(self.woken)
        os.close(self.waker)

    def _note(self, number: int, _frame: Any) -> None:
        if number == signal.SIGWINCH:
            self.is_resized = True
        else:
            self.signal = number

    def _dress(self) -> None:
        """No cursor, and the colours of words, where the terminal can have that."""
        self.looks = {word: curses.A_BOLD for word in COLOURS}
        try:
            curses.curs_set(0)
        except curses.error:
            pass
        try:
            curses.start_color()
            curses.use_default_colors()
            for number, (word, colour) in enumerate(COLOURS.items(), 1):
                curses.init_pair(number, getattr(curses, f"COLOR_{colour}"), -1)
                self.looks[word] = curses.color_pair(number) | curses.A_BOLD
        except curses.error:
            pass  # without colours there are the words

    def _resize(self) -> None:
        self.is_resized = False
        try:
            width, height = os.get_terminal_size(1)
        except OSError:
            width = height = 0
        if width > 0 and height > 0:
            curses.resizeterm(height, width)
        self.height, self.width = self.screen.getmaxyx()
        self.screen.clear()

    @property
    def is_over(self) -> bool:
        return self.signal is not None or self.has_gone

    def keys(self) -> List[int]:
        """The keys that were pressed, after it has taken the size that the terminal has now."""
        if self.is_resized:
            self._resize()
        return [*iter(self.screen.getch, -1)]

    def wait(self, seconds: float, fd: int) -> None:
        """Waits for a key, a signal, or until a descriptor can be read."""
        waiting = select.poll()
        for each in (0, self.woken, fd):
            if each >= 0:
                waiting.register(each, select.POLLIN)
        for ready, event in waiting.poll(math.ceil(1000 * max(0.0, seconds))):
            if ready == self.woken:
                os.read(self.woken, 4096)
            elif ready == 0 and event & (select.POLLHUP | select.POLLERR | select.POLLNVAL):
                self.has_gone = True

    def line(self, at: int, text: str, look: int = 0, is_right: bool = False) -> None:
        """Writes a line of the screen, from its first cell to its last."""
        try:
            self.screen.addstr(at, 0, self.cells.fitted(text, self.width, is_right), look)
        except curses.error:
            pass  # the cursor has no place after the last cell


class Gone(NamedTuple):
    """A row that has gone, and keeps its line until a time."""

    text: str
    until: float


class Screen:
    """The table of a window, in a terminal."""

    def __init__(self, terminal: Terminal, formula: str, columns: Sequence[str]) -> None:
        self.terminal, self.formula, self.asked = terminal, formula, columns
        self.pane: Optional[Pane] = None
        self.columns = ["name"]
        self.by, self.is_down = "name", False
        self.first = self.current = 0  # the row on the first line, and the one that the keys are at
        self.words: Dict[int, Tuple[str, float]] = {}  # of rows, by their nodes, and until when each is shown
        self.going: Dict[int, Gone] = {}  # rows that have gone, by the lines that they had
        self.drawn: Dict[int, Tuple[int, str]] = {}  # the line and the text of each row that is seen, by its node
        self.log: List[str] = []
        self.is_old = True  # whether the screen shows less than is known
        self.drawn_at = -math.inf

    def tell(self, line: str) -> None:
        """Notes a line among those of what happened."""
        self.log.append(f"{time.strftime('%H:%M:%S')}  {line}")
        del self.log[:-LOG]
        self.is_old = True

    # ---- what happens

    def show(self, folder: Folder) -> None:
        """Shows the table of a folder until a key ends it. A signal ends the command, once the terminal is as it was."""
        with self.terminal as terminal:
            self.title = f"{for_people(folder.given)}: {for_people(self.formula)}"
            self.run(folder)
        if terminal.signal is not None:
            signal.signal(terminal.signal, signal.SIG_DFL)
            os.kill(os.getpid(), terminal.signal)
        if terminal.has_gone:
            raise Trouble("the terminal has gone", ENDED)

    def run(self, folder: Folder) -> None:
        entries = 0
        while not self.terminal.is_over:
            turned = folder.turn()
            if turned.listed and self.pane is None:
                self.begin(folder)
                turned = folder.turn()
            self.hear(folder)
            self.is_old = self.is_old or (self.pane is None and turned.entries != entries)
            entries = turned.entries
            keys = self.terminal.keys()
            if not all([self.press(key) for key in keys]):
                return
            now = time.monotonic()
            self.expire(now)
            if keys or (self.is_old and now >= self.drawn_at + PAUSE):
                self.draw(entries)
                self.drawn_at, self.is_old = now, False
            self.wait(folder, turned)

    def begin(self, folder: Folder) -> None:
        self.pane = Pane(folder, self.formula, self.asked, itertools.count(1))
        self.columns = self.pane.columns
        for warned in self.pane.warnings:
            self.tell(f"warning: {warned['says']}")

    def hear(self, folder: Folder) -> None:
        for lines in iter(folder.lines, []):
            for line in lines:
                if self.pane is not None:
                    self.pane.hear(line)
                    self.is_old = True

    def take_update(self) -> None:
        """Takes what has happened since the last drawing: the words of rows, and lines."""
        if self.pane is None or not self.pane.is_fresh:
            return
        update, until = self.pane.update(), time.monotonic() + SHOWN
        for line in update["lines"]:
            self.log.append(f"{time.strftime('%H:%M:%S', time.localtime(line['at']))}  {line['says']}")
        del self.log[:-LOG]
        for node, what in update["marks"].items():
            if what in WORDS and what != "left":
                self.words[node] = WORDS[what], until
            elif what == "left":
                self.words.pop(node, None)
                if node in self.drawn:
                    at, text = self.drawn[node]
                    self.going[at] = Gone(text, until)

    def expire(self, now: float) -> None:
        """Forgets the words that were shown long enough."""
        words = {node: it for node, it in self.words.items() if it[1] > now}
        going = {at: it for at, it in self.going.items() if it.until > now}
        self.is_old = self.is_old or (len(words), len(going)) != (len(self.words), len(self.going))
        self.words, self.going = words, going

    def wait(self, folder: Folder, turned: Turned) -> None:
        now = time.monotonic()
        seconds = 0.0 if turned.more else SECONDS if turned.due is None else min(SECONDS, turned.due)
        if self.is_old:
            seconds = min(seconds, self.drawn_at + PAUSE - now)
        for until in [*(it[1] for it in self.words.values()), *(it.until for it in self.going.values())]:
            seconds = min(seconds, until - now)
        self.terminal.wait(seconds, folder.fileno())
        if not turned.more:
            time.sleep(PACE)  # fewer turns cost less, where much happens

    # ---- keys

    def press(self, key: int) -> bool:
        """Does what a key says. False: it ends the table."""
        count = len(self.pane.rows) if self.pane is not None else 0
        room = max(1, self.room() - 1)
        goes = {
            curses.KEY_DOWN: self.current + 1, ord("j"): self.current + 1, curses.KEY_UP: self.current - 1,
            ord("k"): self.current - 1, curses.KEY_NPAGE: self.current + room, ord(" "): self.current + room,
            curses.KEY_PPAGE: self.current - room, curses.KEY_HOME: 0, ord("g"): 0, curses.KEY_END: count - 1,
            ord("G"): count - 1,
        }  # fmt: skip
        if key in goes:
            self.current = max(0, min(goes[key], count - 1))
        elif key in (ord("<"), curses.KEY_LEFT, ord(">"), curses.KEY_RIGHT):
            step = 1 if key in (ord(">"), curses.KEY_RIGHT) else -1
            self.sort(self.columns[(self.columns.index(self.by) + step) % len(self.columns)], False)
        elif key in (ord("r"), ord("I")):
            self.sort(self.by, not self.is_down)
        elif key == 12:  # Ctrl-L
            self.terminal.screen.clear()
        return key not in (ord("q"), ord("Q"), curses.KEY_F10)

    def sort(self, by: str, is_down: bool) -> None:
        self.by, self.is_down = by, is_down
        self.first = self.current = 0
        self.going.clear()

    # ---- the table

    def log_room(self) -> int:
        height = self.terminal.height
        return 0 if height < 10 else min(6, (height - 4) // 4)

    def room(self) -> int:
        """How many lines the rows have."""
        return self.terminal.height - self.log_room() - 4

    def draw(self, entries: int) -> None:
        terminal = self.terminal
        terminal.screen.erase()
        if terminal.width < LEAST_WIDTH or terminal.height < LEAST_HEIGHT:
            terminal.line(0, f"too small: {LEAST_WIDTH} by {LEAST_HEIGHT} are needed")
        elif self.pane is None:
            terminal.line(0, self.title, curses.A_BOLD)
            terminal.line(1, f"looks at everything: {counted_entries(entries)} so far")
            self.draw_keys()
        else:
            self.take_update()
            self.draw_table(self.pane)
        terminal.screen.refresh()

    def draw_table(self, pane: Pane) -> None:
        terminal, height = self.terminal, self.terminal.height
        self.draw_title(pane)
        widths = self.widths()
        heads = {it: f"{it} {'v' if self.is_down else '^'}" if it == self.by else it for it in widths}
        terminal.line(1, " " * WORD_WIDTH + self.fitted(heads, widths), curses.A_REVERSE)
        rows = self.seen(pane)
        self.draw_rows(pane, rows, widths)
        log_room = self.log_room()
        facts = self.facts(rows[self.current - self.first]) if rows else ""
        terminal.line(height - 2 - log_room, facts, curses.A_UNDERLINE)
        for at, line in enumerate(self.log[-log_room:] if log_room else []):
            terminal.line(height - 1 - log_room + at, line)
        self.draw_keys()

    def draw_title(self, pane: Pane) -> None:
        terminal = self.terminal
        order = f"by {self.by}, {'falling' if self.is_down else 'rising'}"
        counts = f"{counted_entries(len(pane.rows))}, {counted(pane.told, 'change')} so far, {order}"
        if len(counts) > terminal.width - 12:
            counts = counted_entries(len(pane.rows))
        left = terminal.cells.fitted(self.title, max(0, terminal.width - len(counts) - 2))
        terminal.line(0, f"{left}  {counts}", curses.A_BOLD)

    def seen(self, pane: Pane) -> List[Row]:
        """The rows that there is room for, from the first one on."""
        room, count = self.room(), len(pane.rows)
        self.current = max(0, min(self.current, count - 1))
        low = max(0, count + len(self.going) - room)
        first = min(max(self.first, self.current - room + 1), self.current, low)
        if first != self.first:
            self.first = first
            self.going.clear()
        return [pane.rows[node] for node in pane.order(self.by).piece(self.first, room, self.is_down)]

    def draw_rows(self, pane: Pane, rows: List[Row], widths: Dict[str, int]) -> None:
        self.drawn = {}
        left = [*enumerate(rows, self.first)]
        for line in range(self.room()):
            gone = self.going.get(line)
            if gone is not None:
                self.draw_row(line, WORDS["left"], gone.text)
            elif left:
                at, row = left.pop(0)
                word, _ = self.words.get(row.node, ("", 0.0))
                text = self.fitted(self.texts(pane, row), widths)
                self.drawn[row.node] = line, text
                self.draw_row(line, word, text, curses.A_REVERSE if at == self.current else 0)

    def draw_row(self, line: int, word: str, text: str, look: int = 0) -> None:
        self.terminal.line(2 + line, word.ljust(WORD_WIDTH) + text, look | self.terminal.looks.get(word, 0))

    def fitted(self, texts: Dict[str, str], widths: Dict[str, int]) -> str:
        fitted = self.terminal.cells.fitted
        return "  ".join(fitted(texts[it], widths[it], it == "size") for it in widths)

    def texts(self, pane: Pane, row: Row) -> Dict[str, str]:
        shown = pane.shown(row)
        is_folder = row.kind == "folder"  # has no size and time of its own
        made = {
            "name": shown["name"], "folder": shown["folder"], "kind": row.kind,
            "size": "" if is_folder else size_for_people(row.size),
            "modified": "" if is_folder else time_for_people(row.time),
        }  # fmt: skip
        made.update((it, "" if value is None else str(value)) for it, value in zip(pane.more, shown["more"]))
        return made

    def widths(self) -> Dict[str, int]:
        """The columns that there is room for, and the cells of each."""
        columns, fixed = [*self.columns], {**{it: OTHER_WIDTH for it in self.columns}, **WIDTHS}
        last = ["size", "folder", *self.columns[5:], "modified", "kind"]
        while True:
            widths = {it: fixed[it] for it in columns if it not in ("name", "folder")}
            left = self.terminal.width - WORD_WIDTH - sum(widths.values()) - 2 * (len(columns) - 1)
            folder = left // 3 if "folder" in columns else 0
            if left - folder >= NAME_WIDTH or len(columns) == 1:
                return {it: {"name": left - folder, "folder": folder, **widths}[it] for it in columns}
            columns.remove(next(it for it in reversed(last) if it in columns))

    def facts(self, row: Optional[Row]) -> str:
        """The row that the keys are at, whole."""
        if row is None:
            return ""
        path = for_people(f"{row.folder}/{row.name}" if row.folder else row.name)
        if row.kind == "folder":
            return path
        return f"{path}: {counted(row.size, 'byte')}, {time_for_people(row.time, is_whole=True)}"

    def draw_keys(self) -> None:
        """What the keys do, as far as there is room."""
        screen, width, at = self.terminal.screen, self.terminal.width, 0
        for key, does in KEYS:
            if at + len(key) + len(does) + 3 > width - 1:
                return
            screen.addstr(self.terminal.height - 1, at, f" {key} ")
            screen.addstr(self.terminal.height - 1, at + len(key) + 2, does, curses.A_REVERSE)
            at += len(key) + len(does) + 3


def counted_entries(count: int) -> str:
    return f"{count:,} {'entry' if count == 1 else 'entries'}"

