"""The page of yazgoulm-folder over HTTP, and in a browser where there is one."""
import contextlib, glob, http.client, json, os, shutil, socket, struct, subprocess, sys, time, unittest

from case import HERE, SECONDS, Case

sys.path.insert(0, HERE)
import browser


COMMAND = [sys.executable, "-B", "-m", "yazgoulm.folder", "--page", "--quiet"]
# The same, where few events may wait for a page, which may take long to receive them.
FEW_WAIT = "import sys; from yazgoulm.folder import _command, _web; _web.WAITING = 8; _web.Request.timeout = 600; " \
    "sys.exit(_command.main())"
PACKAGE = os.environ.get("YAZGOULM_PACKAGE") or os.path.join(HERE, "../../python")
ENVIRONMENT = {**os.environ, "PYTHONPATH": PACKAGE}


class Page:
    """A page without a browser: the windows as the events make them."""

    def __init__(self, port, room=None):
        """`room`: the bytes that the system keeps for a page that doesn't read."""
        self.port = port
        self.connection = http.client.HTTPConnection("127.0.0.1", port, timeout=SECONDS)
        if room:
            self.connection.sock = socket.socket()
            self.connection.sock.setsockopt(socket.SOL_SOCKET, socket.SO_RCVBUF, room)
            self.connection.sock.settimeout(SECONDS)
            self.connection.sock.connect(("127.0.0.1", port))
        self.connection.request("GET", "/events")
        self.response = self.connection.getresponse()
        self.windows, self.error = {}, None
        self.take()

    def fields(self):
        """The fields of the next event, each with its value; none where the site only says that
        there is nothing new, which it does after 10 seconds."""
        for line in iter(self.response.readline, b"\n"):
            if not line:
                raise EOFError("the site has ended")
            if not line.startswith(b":"):
                yield line.decode().rstrip("\n").split(": ", 1)

    def take(self):
        """Carries out the next event."""
        fields = dict(self.fields()) or dict(self.fields()) or dict(self.fields())
        event, data = fields["event"], json.loads(fields["data"])
        if event == "hello":
            self.windows, self.is_late = {it["window"]: it for it in data["windows"]}, data["late"]
        elif event == "open":
            self.windows[data["window"]] = data
        elif event == "close":
            del self.windows[data["window"]]
        elif event == "end":
            self.error = data["error"]
        else:
            window = self.windows[data["window"]]
            self.windows[data["window"]] = {**window, **data, "lines": window["lines"] + data["lines"]}

    def piece(self, number=1, by="name", down=False, first=0, count=1000):
        """Some rows as the site has them now."""
        asked = {"window": number, "by": by, "down": down, "first": first, "count": count}
        connection = http.client.HTTPConnection("127.0.0.1", self.port, timeout=SECONDS)
        with contextlib.closing(connection):
            connection.request("POST", "/rows", json.dumps(asked), {"Content-Type": "application/json"})
            return json.loads(connection.getresponse().read())["rows"]

    def rows(self, number=1):
        return sorted(os.path.join(it["folder"], it["name"]) for it in self.piece(number))

    def says(self, number=1):
        return [it["says"] for it in self.windows[number]["lines"]]

    def close(self):
        self.response.close()
        self.connection.close()


class Web(Case):
    """A site, and what asks it."""

    def begin(self, *formulas, inside=None, command=COMMAND):
        """Starts the site on a free port, and returns a page. `inside` is what the folder is given as, if not whole."""
        pipe, at = subprocess.PIPE, os.path.dirname(self.folder)
        words = [*command, inside or self.folder, *formulas]
        self.live = subprocess.Popen(words, stdout=pipe, stderr=pipe, env=ENVIRONMENT, text=True, cwd=at)
        self.addCleanup(self.end)
        url = self.live.stdout.readline()
        self.assertRegex(url, r"^http://127\.0\.0\.1:[0-9]+/\n$", url or self.live.stderr.read())
        self.port = int(url.rstrip("/\n").rpartition(":")[2])
        return self.page()

    def begin_at(self, port):
        """The same at a port, which another program may have for a while."""
        end = time.monotonic() + SECONDS
        while True:
            try:
                return self.begin("--port", str(port), "name==*")
            except AssertionError as error:
                if "already in use" not in str(error) or time.monotonic() > end:
                    raise
                time.sleep(0.1)

    def end(self):
        self.live.kill()
        self.live.communicate()

    def page(self):
        page = Page(self.port)
        self.addCleanup(page.close)
        return page

    def ask(self, method, path, body=None, **headers):
        """Status and body of a reply. Events have no length, and aren't read here."""
        connection = http.client.HTTPConnection("127.0.0.1", self.port, timeout=SECONDS)
        with contextlib.closing(connection):
            kind = {"Content-Type": "application/json"} if body is not None else {}
            headers = {name.replace("_", "-"): value for name, value in headers.items()}
            connection.request(method, path, body, {**kind, **headers})
            reply = connection.getresponse()
            return reply.status, "" if reply.length is None else reply.read().decode()

    def post(self, path, **body):
        status, reply = self.ask("POST", path, json.dumps(body))
        return status, json.loads(reply)

    def rename(self, old, new):
        os.rename(self.path(old), self.path(new))

    def put(self, name, size):
        """A file that comes with its bytes: one that is written where it is can be seen before."""
        with open(f"{self.folder}-{name}", "wb") as file:
            file.write(b"x" * size)
        os.rename(f"{self.folder}-{name}", self.path(name))

    def assert_silent(self):
        """It still runs, and has written nothing on standard error."""
        self.assertIsNone(self.live.poll())
        self.live.kill()
        self.assertEqual(self.live.stderr.read(), "")

    def assert_rows(self, page, rows, number=1):
        while page.rows(number) != sorted(rows):
            page.take()


class Http(Web):
    """The site over HTTP, without a browser."""

    def test_rows_come_move_and_go(self):
        os.mkdir(self.path("in"))
        self.write("a.txt", 9)
        page = self.begin("name==*.txt", "size>5")
        self.assert_rows(page, ["a.txt"], 1)
        self.assert_rows(page, ["a.txt"], 2)
        self.write("new")
        os.rename(self.path("new"), self.path("new.txt"))
        self.assert_rows(page, ["a.txt", "new.txt"])
        os.rename(self.path("new.txt"), self.path("in", "b.txt"))
        self.assert_rows(page, ["a.txt", "in/b.txt"])
        os.rename(self.path("in"), self.path("out"))
        self.assert_rows(page, ["a.txt", "out/b.txt"])
        self.write("a.txt", 2)
        self.assert_rows(page, [], 2)
        os.remove(self.path("a.txt"))
        self.assert_rows(page, ["out/b.txt"])

        while "a.txt is gone" not in page.says():
            page.take()
        says = [it for it in page.says() if "changed" not in it]
        moves = ["new.txt is now in/b.txt", "in/b.txt is now out/b.txt"]
        self.assertEqual(says, ["new.txt came", *moves, "a.txt is gone"])
        lines = page.windows[1]["lines"]
        self.assertEqual(page.windows[1]["told"], len(lines))
        come = next(it["json"] for it in lines if it["says"] == "new.txt came")
        self.assertEqual((come["change"], come["path"], come["size"]), ("came", self.path("new.txt"), 0))
        again = self.page()
        self.assertEqual(again.windows[1]["lines"], lines)
        self.assertEqual(again.rows(), ["out/b.txt"])

    def test_what_happened_in_words(self):
        os.mkdir(self.path("in"))
        self.write("in/a.txt", 9)
        self.write("plan.txt", 9)
        page = self.begin("name==*.txt")
        for act, says in (
            (lambda: self.write("in/a.txt", 4000), "in/a.txt was changed: 4,000 bytes"),
            (lambda: self.rename("in/a.txt", "in/b.txt"), "in/a.txt is now in/b.txt"),
            (lambda: self.rename("in/b.txt", "b.old"), "in/b.txt is now b.old, and matches no more"),
            (lambda: os.remove(self.path("plan.txt")), "plan.txt is gone"),
            (lambda: self.write_raw(b"sch\xf6n\x1b.txt"), "sch\\xf6n\\x1b.txt came"),
        ):
            act()
            while says not in page.says():
                page.take()

    def test_orders(self):
        os.mkdir(self.path("in"))
        for name, size, seconds in ("B.txt", 9, 300), ("a.txt", 1000, 100), ("in/a.txt", 50, 200):
            self.write(name, size)
            os.utime(self.path(name), (seconds, seconds))
        page = self.begin("name==*.txt")
        while len(page.rows()) < 3:
            page.take()

        def names(**asked):
            return [os.path.join(it["folder"], it["name"]) for it in page.piece(**asked)]

        self.assertEqual(names(), ["a.txt", "in/a.txt", "B.txt"])
        self.assertEqual(names(down=True), ["B.txt", "in/a.txt", "a.txt"])
        self.assertEqual(names(by="folder"), ["a.txt", "B.txt", "in/a.txt"])
        self.assertEqual(names(by="size"), ["B.txt", "in/a.txt", "a.txt"])
        self.assertEqual(names(by="modified"), ["a.txt", "in/a.txt", "B.txt"])
        self.assertEqual(names(by="size", down=True, first=1, count=1), ["in/a.txt"])
        os.utime(self.path("B.txt"), (150, 150))
        while names(by="modified") != ["a.txt", "B.txt", "in/a.txt"]:
            page.take()
        row = page.piece(by="size")[0]
        self.assertEqual((row["size"], row["time"], row["kind"], row["more"]), (9, 150, "file", []))
        asked = {"window": 1, "by": "name", "down": False, "first": 0, "count": 1}
        for wrong in {"by": "user.x"}, {"first": -1}, {"count": 1001}, {"count": "1"}, {"down": 0}, {"window": True}:
            self.assertEqual(self.post("/rows", **{**asked, **wrong})[0], 400, wrong)
        self.assertEqual(self.post("/rows", **{**asked, "window": 2})[0], 404)

    def test_columns_of_attributes(self):
        for name, rating in ("a.txt", b"10"), ("b.txt", b"9"), ("c.txt", b"none"):
            self.write(name)
            try:
                os.setxattr(self.path(name), "user.rating", rating)
            except OSError:
                self.skipTest("this file system has no extended attributes")
        self.write("d.txt")
        page = self.begin("user.rating:number>0 || name==*.txt", "--columns", "size,user.rating,user.page,inode")
        columns = ["name", "folder", "size", "modified", "kind", "user.rating", "user.page", "inode"]
        self.assertEqual(page.windows[1]["columns"], columns)
        while len(page.rows()) < 4:
            page.take()
        rows = page.piece(by="user.rating")
        self.assertEqual([it["more"][0] for it in rows], ["9", "10", "none", None])
        self.assertEqual(rows[0]["more"][1:], [None, os.stat(self.path("b.txt")).st_ino])

    def test_a_window_whose_lines_begin_anew(self):
        sys.path.insert(0, PACKAGE)
        from yazgoulm.folder import Folder
        from yazgoulm.folder._pane import Pane

        for name in "a.txt", "b.txt":
            self.write(name)
        with Folder(self.folder) as folder:
            folder.begin()
            pane = Pane(folder, "name==*.txt", [], iter([1]))
            folder.turn()
            first, second = folder.lines()
            for line in first, second, first._replace(what="anew", path=""), second:
                pane.hear(line)
            self.assertEqual([it["name"] for it in pane.piece("name", False, 0, 9)["rows"]], ["b.txt"])
            says = [it["says"] for it in pane.update()["lines"]]
            self.assertEqual(says, ["memory ran out, so the window was opened anew"])

    def test_formulas_are_explained(self):
        self.begin("name==*")
        bad = {"code": 20, "error": "the formula can't be read", "place": 18}
        self.assertEqual(self.post("/explain", formula="name==*.txt&&size>"), (200, bad))
        self.assertEqual(self.post("/explain", formula="size>1"), (200, {"warnings": []}))
        warnings = self.post("/explain", formula="size>10k || user.x==1")[1]["warnings"]
        self.assertEqual([it["place"] for it in warnings], [5, 12])
        self.assertIn("size is a number", warnings[0]["says"])
        self.assertIn("no entry has an attribute user.x", warnings[1]["says"])
        self.assertEqual(self.post("/open", formula="nmae==x")[1]["warnings"][0]["place"], 0)

    def test_a_page_that_is_too_slow_begins_anew(self):
        other = self.begin("name==*", command=[sys.executable, "-B", "-c", FEW_WAIT, "--page", "--quiet"])
        page = Page(self.port, room=4096)
        self.addCleanup(page.close)
        for size in range(30):  # updates of some 40 kB: the system keeps at most four, and the site 8
            for number in range(60):
                self.write(f"{'n' * 200}{number}", size)
            other.take()
        while not page.is_late:
            page.take()
        self.write("last")
        while "last" not in page.rows():
            page.take()

    def test_a_file_replaces_another(self):
        self.write("old.txt", 9)
        self.write("new.txt")
        page = self.begin("name==*.txt", "size>5")
        os.replace(self.path("new.txt"), self.path("old.txt"))
        self.assert_rows(page, ["old.txt"])
        self.assert_rows(page, [], 2)
        while not page.says():
            page.take()
        self.assertEqual(page.says(), ["new.txt is now old.txt"])
        self.assert_silent()

    def test_names_that_are_no_html_and_no_utf_8(self):
        page = self.begin("name==*")
        self.write("<b>&.txt")
        self.write_raw(b"sch\xf6n\x1b")
        self.assert_rows(page, ["<b>&.txt", "sch\\xf6n\\x1b"])

    def test_a_formula_is_opened_or_refused_and_a_window_closed(self):
        self.write("a.txt")
        page = self.begin("name==*")
        self.assertEqual(self.post("/open", formula="name==*.txt&&size>"),
                         (400, {"code": 20, "error": "the formula can't be read", "place": 18}))
        self.assertEqual(self.post("/open", formula="name==ö&&=")[1]["place"], 10)
        refused = "formula has a surrogate that stands for no byte: '\\ud800'"
        self.assertEqual(self.post("/open", formula="\ud800")[1]["error"], refused)
        self.assertEqual(self.post("/open", formula="name==*.txt"), (200, {"window": 2}))
        while 2 not in page.windows:
            page.take()
        self.assertEqual(page.windows[2]["formula"], "name==*.txt")
        self.assert_rows(page, ["a.txt"], 2)
        self.assertEqual(self.post("/close", window=1), (200, {"window": 1}))
        while 1 in page.windows:
            page.take()
        self.assertEqual([*page.windows], [2])
        self.assertEqual(self.post("/close", window=1)[0], 404)

    def test_a_closed_window_gives_its_slot_back(self):
        page = self.begin(*["name==*"] * 63)
        for number in range(64, 68):
            self.assertEqual(self.post("/open", formula="size>1"), (200, {"window": number}))
            refused = self.post("/open", formula="size>2")[1]["error"]
            self.assertEqual(refused, "64 windows are open, and no more can be: close one")
            self.write(f"{number}.txt", 9)
            while number not in page.windows or not page.says(number):
                page.take()
            self.assertEqual(self.post("/close", window=number)[0], 200)
        self.assertEqual(page.rows(63), [f"{number}.txt" for number in range(64, 68)])

    def test_many_changes_at_once(self):
        page = self.begin("name==*", "name==110*")
        names = [str(number) for number in range(10000, 13300)]  # more than a window's backlog
        os.mkdir(self.folder + "-new")
        for name in names:
            open(os.path.join(self.folder + "-new", name), "w").close()
        os.rename(self.folder + "-new", self.path("d"))
        self.assert_rows(page, [f"d/{name}" for name in names if name.startswith("110")], 2)
        while page.windows[1]["count"] != len(names) + 1:
            page.take()
        self.assertEqual(page.windows[1]["told"], len(names) + 1)
        self.assertEqual(len(page.piece()), 1000)
        os.rename(self.path("d"), self.path("e"))
        self.assert_rows(page, [f"e/{name}" for name in names if name.startswith("110")], 2)

    def test_only_the_pages_own_origin_is_served(self):
        self.begin("name==*")
        own = f"127.0.0.1:{self.port}"
        body = json.dumps({"formula": "size>1"})

        def status(method, path, **headers):
            return self.ask(method, path, body, **headers)[0]

        for host in own, f"localhost:{self.port}", f"LOCALHOST:{self.port}":
            self.assertEqual(status("GET", "/", Host=host), 200, host)
        evil = "evil.example", f"evil.example:{self.port}", f"{own}.evil.example"
        for host in (*evil, "127.0.0.1", "localhost:1", ""):
            for method, path in ("GET", "/"), ("GET", "/events"), ("POST", "/open"), ("PUT", "/"):
                self.assertEqual(status(method, path, Host=host), 403, host)
        evil = "http://evil.example", "http://127.0.0.1:1", f"https://{own}", f"http://{own}.evil"
        for origin in (*evil, "null"):
            for method, path in ("GET", "/"), ("GET", "/events"), ("POST", "/open"):
                self.assertEqual(status(method, path, Origin=origin), 403, origin)
        for site in "cross-site", "same-site":
            self.assertEqual(status("GET", "/events", Sec_Fetch_Site=site), 403)
        self.assertEqual(status("POST", "/open", Content_Type="text/plain"), 400)
        self.assertEqual([*self.page().windows], [1])  # no window was opened
        ours = {"Origin": f"http://{own}", "Sec_Fetch_Site": "same-origin"}
        self.assertEqual(status("POST", "/open", **ours), 200)

    def test_two_hosts_or_none(self):
        self.begin("name==*")
        own = f"Host: 127.0.0.1:{self.port}\r\n"
        for heads, status in (own, b"200"), (own + own, b"403"), ("", b"403"):
            with socket.create_connection(("127.0.0.1", self.port), SECONDS) as raw:
                raw.sendall(f"GET / HTTP/1.0\r\n{heads}\r\n".encode())
                self.assertEqual(raw.makefile("rb").readline().split()[1], status, heads)

    def test_no_path_leads_to_a_file(self):
        self.write("a.txt")
        self.begin("name==*")
        for path in (
            "/../../etc/passwd", "/..%2f..%2fetc/passwd", "//etc/passwd", "/etc/passwd", "/a.txt",
            "/page.html", "/live/web.py", "/.", "/?", "/page.js/..", "http://127.0.0.1/", "/open",
        ):
            self.assertIn(self.ask("GET", path)[0], (403, 404), path)
        self.assertEqual(self.ask("POST", "/", "{}")[0], 404)

    def test_bodies_that_are_not_understood(self):
        self.begin("name==*")
        large = json.dumps({"formula": "a" * 20000})
        for body in "", "{", "[]", "null", '{"formula":1}', "[" * 9000, "\x00", large:
            reply = self.ask("POST", "/open", body)
            self.assertEqual(reply, (400, '{"error": "a formula is wanted"}'), body[:9])
        for number in "true", "null", '"1"', "1.0", "{}":
            self.assertEqual(self.ask("POST", "/close", f'{{"window":{number}}}')[0], 400, number)
        self.assertEqual(self.ask("DELETE", "/")[0], 501)
        self.assertEqual([*self.page().windows], [1])

    def test_the_page_is_served_whole(self):
        self.begin("name==*")
        page = self.ask("GET", "/")[1]
        for name in "page.css", "page.js", "table.js", "words.js":
            self.assertIn(name, page)
            status, text = self.ask("GET", f"/{name}")
            self.assertEqual(status, 200)
            for word in "innerHTML", "outerHTML", "insertAdjacentHTML", "document.write", "eval(", "http:", "https:":
                self.assertNotIn(word, text)

    def test_pages_are_told_why_it_ends(self):
        page = self.begin("name==*")
        subprocess.run(["rm", "-r", self.folder])
        while not page.error:
            page.take()
        self.assertIn("moved or removed", page.error)
        self.assert_ends(self.live, 3, "moved or removed")

    def test_a_page_that_goes_and_one_that_does_not_read(self):
        page = self.begin("name==*")
        request = f"GET /events HTTP/1.0\r\nHost: 127.0.0.1:{self.port}\r\n\r\n".encode()
        with socket.create_connection(("127.0.0.1", self.port)) as gone:
            gone.sendall(request)
            gone.recv(1)
            gone.setsockopt(socket.SOL_SOCKET, socket.SO_LINGER, struct.pack("ii", 1, 0))  # reset
        with socket.create_connection(("127.0.0.1", self.port)) as idle:
            idle.sendall(request)
            for count in 1, 2, 3:
                self.write(str(count))
                self.assert_rows(page, ["1", "2", "3"][:count])
        self.assert_silent()

    def test_too_many_pages(self):
        self.begin("name==*")
        pages = [self.page() for _ in range(31)]
        self.assertEqual(self.ask("GET", "/events")[0], 503)
        self.assertEqual(self.ask("GET", "/")[0], 200)
        self.write("a")
        for page in pages:
            self.assert_rows(page, ["a"])

    def test_a_port_that_is_taken(self):
        self.begin("name==*")
        words = [*COMMAND, "--port", str(self.port), self.folder, "name==*"]
        done = subprocess.run(words, capture_output=True, timeout=60, env=ENVIRONMENT, text=True)
        self.assert_said(done.returncode, done.stderr, 2, f"port {self.port}: Address already in use")

    def test_only_this_machine_is_listened_to(self):
        self.begin("name==*")
        with open("/proc/net/tcp") as file:
            own = [line.split()[1] for line in file if f":{self.port:04X} 00000000:0000 0A" in line]
        self.assertEqual(own, [f"0100007F:{self.port:04X}"])


@unittest.skipUnless(browser.find(), "no Chromium is here")
class Browsers(Web):
    """The page in a browser."""

    ROWS = "[...document.querySelectorAll('.row:not([data-what=left])')].sort((a, b) => a.dataset.at - b.dataset.at)"
    NAMES = f"{ROWS}.map(it => it.querySelector('.text').textContent)"

    @classmethod
    def setUpClass(cls):
        cls.chromium = browser.Chromium()
        cls.addClassCleanup(cls.chromium.close)
        try:
            cls.chromium.ask("Browser.getVersion")
        except (OSError, ValueError) as error:
            raise unittest.SkipTest(f"Chromium doesn't start: {error}") from error

    def show(self, *formulas, width=1000, height=700, inside=None):
        self.begin(*formulas, inside=inside)
        page = browser.Browser(self.chromium, f"http://localhost:{self.port}/", width, height)
        self.addCleanup(page.close)
        page.wait(f"document.querySelectorAll('section').length == {len(formulas)}")
        return page

    def wait_for_names(self, page, *names):
        page.wait(f"{self.NAMES}.join() == {json.dumps(','.join(names))}")

    def test_rows_come_move_change_and_go(self):
        os.mkdir(self.path("in"))
        self.write("<b>&.txt", 5)
        page = self.show("name==*.txt")
        self.wait_for_names(page, "<b>&.txt")
        page.value("Table.SHOWN = 60000")
        self.assertEqual(page.value("document.querySelectorAll('b').length"), 1)  # in the heading
        said = "document.querySelector('.row[data-what=%s] .what').textContent"
        for act, what, word, names in (
            (lambda: self.put("a.txt", 1840), "came", "new", ["<b>&.txt", "a.txt"]),
            (lambda: os.rename(self.path("a.txt"), self.path("in/z.txt")), "moved", "moved", ["<b>&.txt", "z.txt"]),
            (lambda: self.write("<b>&.txt", 70), "changed", "changed", ["<b>&.txt", "z.txt"]),
            (lambda: os.remove(self.path("<b>&.txt")), "left", "gone", ["z.txt"]),
        ):
            act()
            page.wait(f"document.querySelector('.row[data-what={what}]')")
            self.assertEqual(page.value(said % what), word)
            colour = f"getComputedStyle(document.querySelector('.row[data-what={what}]')).backgroundColor"
            self.assertNotEqual(page.value(colour), "rgba(0, 0, 0, 0)", what)
            self.wait_for_names(page, *names)
        row = "document.querySelector('.row:not([data-what=left])')"
        texts = "[...it.querySelectorAll('.text')].map(it => it.innerText)"
        name, folder, size, _, kind = page.value(f"(it => {texts})({row})")
        self.assertEqual((name, folder, size, kind), ("z.txt", "in", "1.8 kB", "file"))
        self.assertEqual(page.value(f"{row}.querySelector('.size').title"), "1,840 bytes")
        lines = "[...document.querySelectorAll('.lines li')].map(it => it.innerText)"
        newest = page.value(lines)[0]
        self.assertRegex(newest, r"^[0-9]{2}:[0-9]{2}:[0-9]{2}  <b>&\.txt is gone$")
        page.value("document.querySelector('.json').click()")
        self.assertEqual(json.loads(page.value(lines)[0]), {"change": "left", "path": self.path("<b>&.txt")})

    def test_what_happened_is_shown_for_a_while(self):
        self.write("a.txt")
        page = self.show("name==*")
        self.wait_for_names(page, "a.txt")
        self.write("b.txt")
        os.remove(self.path("a.txt"))
        self.wait_for_names(page, "b.txt")
        page.wait("document.querySelectorAll('.row').length == 1")
        page.wait("document.querySelectorAll('.what:not(:empty)').length == 0")

    def test_a_picture(self):
        """What README.md shows of its first lines, on a copy of docs. PAGE_PICTURE names a file that it is drawn into."""
        self.folder = os.path.join(os.path.dirname(self.folder), "docs")
        os.mkdir(self.folder)
        for at, name in enumerate(sorted(glob.glob(os.path.join(HERE, "../../docs/*.md")))):
            copy = shutil.copy(name, self.folder)
            os.utime(copy, (1792000000 - 100000 * at,) * 2)
        page = self.show("name==*.md && size>20000", width=840, height=600, inside="docs")
        page.wait(f"{self.NAMES}.length > 5")
        page.value("Table.SHOWN = 60000")
        says = "document.querySelector('.lines').innerText.includes({})"
        shutil.copy(self.path("TESTING.md"), self.path("draft.md"))
        page.wait(says.format("'draft.md came'"))
        self.rename("draft.md", "plan.md")
        page.wait(says.format("'draft.md is now plan.md'"))
        page.value("document.querySelector('.table').scrollTop = 1e6")
        page.wait("document.querySelector('.row[data-what=moved] .text')?.innerText == 'plan.md'")
        picture = page.png()
        self.assertEqual(struct.unpack(">II", picture[16:24]), (840, 600))
        if os.environ.get("PAGE_PICTURE"):
            with open(os.environ["PAGE_PICTURE"], "wb") as file:
                file.write(picture)

    def test_an_order_by_a_click(self):
        for name, size in ("b", 1), ("A", 30), ("c", 200):
            self.write(name, size)
        page = self.show("name==*")
        self.wait_for_names(page, "A", "b", "c")
        head = "document.querySelector('[role=columnheader].size')"
        for names, order in ("bAc", "ascending"), ("cAb", "descending"):
            page.value(f"{head}.querySelector('button').click()")
            self.wait_for_names(page, *names)
            self.assertEqual(page.value(f"{head}.getAttribute('aria-sort')"), order)

    def test_the_keyboard(self):
        names = [f"{number:03}" for number in range(300)]
        for name in names:
            self.write(name)
        page = self.show("name==*")
        page.wait("document.querySelectorAll('.row').length > 5")
        page.value("byId('formula').focus()")
        focused = "document.activeElement"
        seen = []
        for _ in range(12):
            page.press("Tab")
            seen.append(page.value(f"{focused}.getAttribute('role') || {focused}.className || {focused}.innerText"))
        for wanted in "close", "grid", "name", "json", "log":
            self.assertIn(wanted, seen)
        page.value("document.querySelector('.table').focus()")
        current = f"{focused}.getAttribute('aria-activedescendant')"
        at = f"document.getElementById({current})?.querySelector('.text').textContent"
        for key, name in ("ArrowDown", "001"), ("End", "299"), ("ArrowUp", "298"), ("Home", "000"), ("ArrowUp", "000"):
            page.press(key)
            page.wait(f"{at} == '{name}'")
        page.press("PageDown")
        page.wait(f"Number({at}) > 5")
        self.assertEqual(page.value(f"{focused}.getAttribute('aria-rowcount')"), "301")

    def test_a_formula_while_it_is_written(self):
        page = self.show("name==*")
        page.write("name==ö && (size>")
        page.wait("byId('fault').textContent == \"name==ö && (size> the formula can't be read at byte 18\"")
        self.assertEqual(page.value("document.querySelector('mark').textContent"), " ")
        page.write("name==ö | size>1")
        page.wait("byId('fault').textContent.includes('byte 9')")
        self.assertEqual(page.value("document.querySelector('mark').textContent"), "|")
        page.write("size>10k")
        page.wait("byId('fault').textContent.includes('size is a number')")
        self.assertEqual(page.value("document.querySelector('mark').textContent"), "1")
        page.type("<i>")
        page.wait("byId('fault').textContent.includes(\"<i>the formula can't be read\")")
        example = "const it = byId('examples'); it.selectedIndex = 1; it.onchange(); byId('formula').value"
        self.assertEqual(page.value(example), "name==*.txt")
        page.type("name==b*")
        page.wait("document.querySelectorAll('section').length == 2")
        page.wait("byId('fault').textContent == ''")
        page.value("document.querySelector('section:first-child .close').click()")
        page.wait("document.querySelectorAll('section').length == 1")

    def test_a_site_that_goes_and_comes_again(self):
        self.write("a.txt")
        page = self.show("name==*")
        self.wait_for_names(page, "a.txt")
        self.live.kill()
        page.wait("document.body.className == 'ended'")
        page.wait("byId('state').textContent.includes('tried again')")
        self.live.communicate()
        self.write("b.txt")
        self.begin_at(self.port)
        page.wait("document.body.className == ''")
        self.wait_for_names(page, "a.txt", "b.txt")

    def test_widths_and_schemes(self):
        self.write("a.txt")
        page = self.show("name==*")
        self.wait_for_names(page, "a.txt")
        back = "getComputedStyle(document.body).backgroundColor"
        colours = set()
        for scheme in "light", "dark":
            page.ask("Emulation.setEmulatedMedia", features=[{"name": "prefers-color-scheme", "value": scheme}])
            colours.add(page.value(back))
            for width in 400, 800, 2000:
                page.resize(width, 700)
                self.assertLessEqual(page.value("document.documentElement.scrollWidth"), width, scheme)
        self.assertEqual(len(colours), 2)

    def test_nothing_comes_from_elsewhere(self):
        page = self.show("name==*")
        found = page.value("performance.getEntriesByType('resource').map(it => new URL(it.name).origin)")
        self.assertEqual({*found}, {f"http://localhost:{self.port}"})

    def test_many_rows(self):
        count = int(os.environ.get("PAGE_ROWS", 4000))
        for folder in range(count // 200):
            os.mkdir(self.path(f"{folder:04}"))
            for number in range(200):
                os.close(os.open(self.path(f"{folder:04}", f"{folder * 200 + number:06}.txt"), os.O_CREAT))
        page = self.show("name==*.txt")
        page.wait(f"document.querySelector('.counts').textContent.startsWith('{count:,} entries')")
        page.ask("Page.reload")
        page.wait(f"{self.NAMES}[0] == '000000.txt'")
        timing = "performance.getEntriesByName(`http://localhost:${location.port}/rows`)[0].responseEnd"
        first = page.value(timing)
        self.assertLess(page.value("document.querySelectorAll('.row').length"), 100)
        page.value(f"document.querySelector('.table').scrollTop = {24 * (count // 2)}")
        page.wait(f"{self.NAMES}.includes('{count // 2 + 3:06}.txt')")
        before, messages = page.work(), 20 if count < 200000 else 100
        for number in range(messages):
            self.write("0000/000000.txt", number)
            time.sleep(0.06)
        each = (page.work() - before) / messages
        sys.stderr.write(f"{count:,} rows: the first screen's after {first:.0f} ms, a message {1000 * each:.1f} ms\n")
