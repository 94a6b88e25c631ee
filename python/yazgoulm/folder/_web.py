"""Shows windows on a folder as a page, to the browsers of this machine alone.

All open pages share the windows. A page reads its events from /events: `hello` has all windows; `open`, `update` and
`close` have one window; `end` says why no more will come. It asks /rows for the rows that it shows. It sends a formula
to /explain while that is written, then to /open, and the number of a window to /close.
"""
import contextlib, http.server, itertools, json, math, os, queue, re, select, socket, sys, threading, time
from typing import Any, Dict, Iterable, Iterator, List, Optional, Sequence

from .. import BadQuery, Error, Refused, Volume
from .._formulas import warnings
from ._folder import PACE, SECONDS as LONGEST, Folder, Turned
from ._pane import Pane, for_people
from ._terminal import reason
from ._words import WORDS, missing

ADDRESS = "127.0.0.1"
ROWS = 1000  # rows that a page is sent at a time
PAGES = 32  # open pages
WAITING = 60  # events that wait for a page; a slower page begins anew
ROOM = 65536  # bytes that the system keeps of what was sent to a page
PAUSE = 0.05  # seconds from one update of the pages to the next
BODY = 16384  # bytes in a request's body
SECONDS = 10  # how long a browser may take to send or to receive

FOLDER = os.path.join(os.path.dirname(os.path.realpath(__file__)), "page")
FILES = {
    "/": ("page.html", "text/html"),
    "/page.css": ("page.css", "text/css"),
    "/page.js": ("page.js", "text/javascript"),
    "/table.js": ("table.js", "text/javascript"),
    "/words.js": ("words.js", "text/javascript"),
}
POLICY = (
    "default-src 'none'; script-src 'self'; style-src 'self'; connect-src 'self'; img-src data:; "
    "base-uri 'none'; form-action 'none'; frame-ancestors 'none'"
)
HEADERS = {
    "Cache-Control": "no-store",
    "Content-Security-Policy": POLICY,
    "Cross-Origin-Resource-Policy": "same-origin",
    "Referrer-Policy": "no-referrer",
    "X-Content-Type-Options": "nosniff",
}


# What the acts of a page have to be given.
ACTS: Dict[str, Dict[str, type]] = {
    "/open": {"formula": str},
    "/close": {"window": int},
    "/explain": {"formula": str},
    "/rows": {"window": int, "by": str, "down": bool, "first": int, "count": int},
}
Events = queue.SimpleQueue[Optional[bytes]]  # of a page: None ends it


class Site:
    """The windows, and the pages that show them. Who talks to the folder holds the lock."""

    def __init__(self, http: "Http", folder: Folder, formulas: Iterable[str], columns: Sequence[str] = ()) -> None:
        self.folder, self.lock, self.columns = folder, threading.Lock(), columns
        self.empty = Volume()  # in which formulas are tried
        self.panes: Dict[int, Pane] = {}
        self.pages: Dict[Events, threading.Thread] = {}
        self.numbers = itertools.count(1)
        self.told_at = -math.inf
        self.woken, self.waker = os.pipe()
        self.files = {path: (read_file(name), kind) for path, (name, kind) in FILES.items()}
        for formula in formulas:
            self.open(formula)
        self.hosts = {f"{name}:{http.server_port}" for name in (ADDRESS, "localhost")}
        http.site = self
        threading.Thread(target=http.serve_forever, daemon=True).start()

    def __enter__(self) -> "Site":
        return self

    def __exit__(self, kind: Any, error: Any, trace: Any) -> None:
        """Tells the pages why this ends, and gives them a second to receive it."""
        with self.lock:
            self.tell("end", error=getattr(error, "strerror", None) or str(error))
            for events in self.pages:
                events.put(None)
            threads = [*self.pages.values()]
        for thread in threads:
            thread.join(1)

    def wait(self, turned: Turned) -> None:
        """Waits until something has happened on disk, a window was opened, or the pages are due to be told."""
        seconds = 0.0 if turned.more else LONGEST if turned.due is None else min(LONGEST, turned.due)
        if any(pane.is_fresh for pane in self.panes.copy().values()):
            seconds = min(seconds, max(0.0, self.told_at + PAUSE - time.monotonic()))
        waiting = select.poll()
        for fd in (self.folder.fileno(), self.woken):
            if fd >= 0:
                waiting.register(fd, select.POLLIN)
        ready = [fd for fd, _ in waiting.poll(math.ceil(1000 * seconds))]
        if self.woken in ready:
            os.read(self.woken, 4096)
        time.sleep(PACE)  # for the threads that wait for the lock, too

    def turn(self) -> Turned:
        """Carries out what has changed on disk, and tells the pages where that is due."""
        with self.lock:
            turned = self.folder.turn()
            panes = {pane.window.number: pane for pane in self.panes.values()}
            for lines in iter(self.folder.lines, []):
                for line in lines:
                    panes[line.window].hear(line)
            if time.monotonic() >= self.told_at + PAUSE:
                self.tell_updates()
            return turned

    def tell_updates(self) -> None:
        for pane in self.panes.values():
            if pane.is_fresh:
                self.tell("update", **pane.update())
                self.told_at = time.monotonic()

    def open(self, formula: str) -> Dict[str, Any]:
        """Opens a window, whose rows come by the next turns. What its formula is warned of comes with its number."""
        with self.lock:
            pane = Pane(self.folder, formula, self.columns, self.numbers)
            self.panes[pane.number] = pane
            self.tell("open", **pane.whole())
        os.write(self.waker, b"o")
        return {"window": pane.number, **({"warnings": pane.warnings} if pane.warnings else {})}

    def close(self, window: int) -> Optional[Dict[str, Any]]:
        """Closes a window and frees its slot. Returns None where no window has the number."""
        with self.lock:
            pane = self.panes.pop(window, None)
            if not pane:
                return None
            pane.window.close()
            self.tell("close", window=window)
            return {"window": window}

    def explain(self, formula: str) -> Dict[str, Any]:
        """What is wrong with a formula, and what it is warned of."""
        with self.lock:
            self.empty.fetch(formula)
            found = [*warnings(formula, WORDS), *missing(self.folder, formula)]
            return {"warnings": [it._asdict() for it in found]}

    def rows(self, window: int, by: str, down: bool, first: int, count: int) -> Optional[Dict[str, Any]]:
        """Some rows of a window. None where no window has the number."""
        with self.lock:
            pane = self.panes.get(window)
            if not pane:
                return None
            if by not in pane.columns or first < 0 or not 0 <= count <= ROWS:
                raise ValueError(f"a column and at most {ROWS} rows are wanted")
            return pane.piece(by, down, first, count)

    def tell(self, event: str, **data: Any) -> None:
        """Sends an event to every page. Where too many wait for one, it begins anew in place of these."""
        text = as_event(event, data)
        for events in self.pages:
            if events.qsize() < WAITING:
                events.put(text)
            else:
                drop_all(events)
                events.put(self.hello(is_late=True))
                if event == "end":
                    events.put(text)

    def hello(self, is_late: bool) -> bytes:
        """What a page is told first. `late`: it was too slow for what it was told before."""
        windows = [pane.whole() for pane in self.panes.values()]
        return as_event("hello", {"folder": for_people(self.folder.given), "windows": windows, "late": is_late})

    @contextlib.contextmanager
    def page(self) -> Iterator[Optional[Events]]:
        """The queue of a page's events, from `hello` to None. None if too many pages are open."""
        events: Events = queue.SimpleQueue()
        with self.lock:
            has_room = len(self.pages) < PAGES
            if has_room:
                events.put(self.hello(is_late=False))
                self.pages[events] = threading.current_thread()
        try:
            yield events if has_room else None
        finally:
            with self.lock:
                self.pages.pop(events, None)


class Http(http.server.ThreadingHTTPServer):
    """Listens at a port of this machine, and has a thread for each request."""

    site: Site

    def __init__(self, port: int) -> None:
        try:
            super().__init__((ADDRESS, port), Request)
        except OSError as error:
            raise OSError(error.errno, error.strerror, f"port {port}") from None

    def handle_error(self, request: Any, client_address: Any) -> None:
        """Passes over a browser that goes away during a reply."""
        if not isinstance(sys.exc_info()[1], OSError):
            super().handle_error(request, client_address)


class Request(http.server.BaseHTTPRequestHandler):
    timeout, server_version, sys_version = SECONDS, "yazgoulm-folder", ""
    server: Http

    def parse_request(self) -> bool:
        if not super().parse_request():
            return False
        if not self.is_ours():
            self.answer(403, {"error": "only for this machine's own page"})
            return False
        return True

    def is_ours(self) -> bool:
        """Whether the request names this site, and doesn't come from a page of another site.

        Another site can let its own name lead to this machine: then Host has that name. Where it
        uses this site's name, the browser sends its Origin or says that it is another site.
        """
        hosts: List[str] = self.headers.get_all("Host", [])
        if len(hosts) != 1 or hosts[0].lower() not in self.server.site.hosts:
            return False
        origins: List[str] = self.headers.get_all("Origin", [])
        site = self.headers.get("Sec-Fetch-Site", "none")
        is_own = all(origin == f"http://{hosts[0].lower()}" for origin in origins)
        return is_own and (site in ("none", "same-origin") or self.path == "/")

    def do_GET(self) -> None:
        if self.path == "/events":
            self.send_events()
        elif self.path in self.server.site.files:
            body, kind = self.server.site.files[self.path]
            self.send(200, kind, body)
        else:
            self.answer(404, {"error": "no such page"})

    def do_POST(self) -> None:
        site = self.server.site
        if self.path not in ACTS:
            return self.answer(404, {"error": "no such page"})
        body, fields = self.body(), ACTS[self.path]
        for field, kind in fields.items():
            if type(body.get(field)) is not kind:
                return self.answer(400, {"error": f"a {field} is wanted"})
        try:
            reply = getattr(site, self.path[1:])(**{field: body[field] for field in fields})
        except BadQuery as bad:
            says = {"code": bad.code, "error": "the formula can't be read", "place": bad.place}
            return self.answer(200 if self.path == "/explain" else 400, says)
        except Refused as refused:
            return self.answer(400, {"code": refused.code, "error": reason(refused)[0]})
        except (Error, ValueError) as error:
            return self.answer(503 if isinstance(error, Error) else 400, {"error": str(error)})
        self.answer(200 if reply else 404, reply or {"error": "no such window"})

    def body(self) -> Dict[str, Any]:
        """The JSON object of the request, or an empty one."""
        kind, size = self.headers.get_content_type(), self.headers.get("Content-Length", "")
        if kind != "application/json" or not re.fullmatch("[0-9]{1,9}", size) or int(size) > BODY:
            return {}
        try:
            body = json.loads(self.rfile.read(int(size)))
        except (ValueError, RecursionError):
            return {}
        return body if isinstance(body, dict) else {}

    def send_events(self) -> None:
        with self.server.site.page() as events:
            if not events:
                return self.answer(503, {"error": "too many pages are open"})
            self.connection.setsockopt(socket.SOL_SOCKET, socket.SO_SNDBUF, ROOM)
            self.send_head(200, "text/event-stream")
            while True:
                try:
                    event = events.get(timeout=SECONDS)
                except queue.Empty:
                    event = b": nothing new\n\n"  # fails if the page has gone
                if event is None:
                    return None
                self.wfile.write(event)

    def answer(self, status: int, reply: Dict[str, Any]) -> None:
        self.send(status, "application/json", json.dumps(reply).encode())

    def send(self, status: int, kind: str, body: bytes) -> None:
        self.send_head(status, kind, len(body))
        self.wfile.write(body)

    def send_head(self, status: int, kind: str, size: Optional[int] = None) -> None:
        self.send_response(status)
        self.send_header("Content-Type", f"{kind}; charset=utf-8")
        if size is not None:
            self.send_header("Content-Length", str(size))
        for name, value in HEADERS.items():
            self.send_header(name, value)
        self.end_headers()

    def log_message(self, *_: Any) -> None:
        """Writes no log."""


def as_event(event: str, data: Dict[str, Any]) -> bytes:
    return f"event: {event}\ndata: {json.dumps(data)}\n\n".encode()


def drop_all(events: Events) -> None:
    """Forgets what waits for a page."""
    with contextlib.suppress(queue.Empty):
        while True:
            events.get_nowait()


def read_file(name: str) -> bytes:
    with open(os.path.join(FOLDER, name), "rb") as file:
        return file.read()
