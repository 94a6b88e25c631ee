"""Leads a Chromium without a window: for the screenshot, and for a test of the page."""
import base64, json, os, shutil, subprocess, tempfile, time

PROGRAMS = "chromium", "chromium-browser", "google-chrome"
SECONDS = int(os.environ.get("TEST_SECONDS", 60))  # the longest wait for something that has to come


def find():
    """The path of a Chromium, or None."""
    return next(filter(None, map(shutil.which, PROGRAMS)), None)


class Chromium:
    """A Chromium. Its protocol is JSON over two pipes, with a NUL after each message."""

    def __init__(self):
        commands, self.commands = os.pipe()
        replies, told = os.pipe()
        self.replies, self.sent = open(replies, "rb"), 0
        self.profile = tempfile.mkdtemp(prefix="chromium-")
        words = [
            find(), "--headless", "--no-sandbox", "--disable-gpu", "--disable-dev-shm-usage",
            "--hide-scrollbars", "--remote-debugging-pipe", f"--user-data-dir={self.profile}",
        ]
        shell = f'exec "$0" "$@" 3<&{commands} 4>&{told}'
        self.process = subprocess.Popen(["bash", "-c", shell, *words], pass_fds=(commands, told),
                                        stdout=subprocess.DEVNULL, stderr=subprocess.DEVNULL)
        os.close(commands)
        os.close(told)

    def ask(self, method, session=None, **params):
        """Sends a command and returns its result. It passes over all other messages."""
        self.sent += 1
        command = {"id": self.sent, "method": method, "params": params, **({"sessionId": session} if session else {})}
        os.write(self.commands, json.dumps(command).encode() + b"\0")
        while (message := self.message()).get("id") != self.sent:
            pass
        if "error" in message:
            raise RuntimeError(f"{method}: {message['error']}")
        return message["result"]

    def message(self):
        data = bytearray()
        while (byte := self.replies.read(1)) not in (b"\0", b""):
            data += byte
        return json.loads(data)

    def close(self):
        try:
            self.ask("Browser.close")
            self.process.wait(SECONDS)
        finally:
            self.process.kill()
            self.process.wait()
            os.close(self.commands)
            self.replies.close()
            shutil.rmtree(self.profile, ignore_errors=True)


class Browser:
    """A page in a Chromium."""

    def __init__(self, chromium, url, width=1000, height=700):
        self.chromium = chromium
        self.target = chromium.ask("Target.createTarget", url=url)["targetId"]
        self.session = chromium.ask("Target.attachToTarget", targetId=self.target, flatten=True)["sessionId"]
        self.resize(width, height)

    def resize(self, width, height):
        size = {"width": width, "height": height, "deviceScaleFactor": 1, "mobile": False}
        self.ask("Emulation.setDeviceMetricsOverride", **size)

    def ask(self, method, **params):
        return self.chromium.ask(method, self.session, **params)

    def value(self, expression):
        """The value of a JavaScript expression in the page."""
        result = self.ask("Runtime.evaluate", expression=expression, returnByValue=True)
        if "exceptionDetails" in result:
            raise RuntimeError(f"{expression}: {result['exceptionDetails']}")
        return result["result"].get("value")

    def wait(self, expression):
        """Waits until an expression is true."""
        end = time.time() + SECONDS
        while not self.value(f"Boolean({expression})"):
            if time.time() > end:
                raise TimeoutError(expression)
            time.sleep(0.02)

    def write(self, formula):
        """Fills the box for a formula."""
        self.value(f"byId('formula').value = {json.dumps(formula)}; byId('formula').dispatchEvent(new Event('input'))")

    def type(self, formula):
        """Fills the box for a formula and sends it."""
        self.value(f"byId('formula').value = {json.dumps(formula)}; byId('open').requestSubmit()")

    def press(self, key):
        """Presses a key and lets it go."""
        code = {"Tab": 9, "End": 35, "Home": 36, "ArrowUp": 38, "ArrowDown": 40, "PageDown": 34}[key]
        for kind in "rawKeyDown", "keyUp":
            self.ask("Input.dispatchKeyEvent", type=kind, key=key, code=key, windowsVirtualKeyCode=code)

    def work(self):
        """The seconds of processor that the page's thread has worked so far."""
        self.ask("Performance.enable", timeDomain="threadTicks")
        found = {it["name"]: it["value"] for it in self.ask("Performance.getMetrics")["metrics"]}
        return found["TaskDuration"]

    def png(self):
        return base64.b64decode(self.ask("Page.captureScreenshot", format="png")["data"])

    def close(self):
        self.chromium.ask("Target.closeTarget", targetId=self.target)
