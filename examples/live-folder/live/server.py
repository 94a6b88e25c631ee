"""`lq run` as a process, in place of the package's library: a line, then its reply."""
import io, json, subprocess

from old_mirror.server import BACKLOG, Server, Window
from yazgoulm import BadQuery, Message, Opcode, Refused

from .command import ENDED, UNUSABLE, Trouble

PORT = 4  # places in a window's port


class Process:
    """One `lq run` over pipes. `pipe` reports when it has ended."""

    def __init__(self, program):
        try:
            pipe = subprocess.PIPE
            self.lq = subprocess.Popen([program, "run"], stdin=pipe, stdout=pipe, bufsize=0)
        except OSError as error:
            raise Trouble(f"{program} can't be run: {error.strerror}", UNUSABLE) from None
        self.name, self.pipe, self.replies = program, self.lq.stdout, io.BufferedReader(self.lq.stdout)

    def answer(self, line):
        try:
            self.lq.stdin.write(line + b"\n")
            reply = self.replies.readline()
        except BrokenPipeError:
            reply = b""
        if not reply.endswith(b"\n"):
            raise self.ended()
        return reply

    def ended(self):
        """Why nothing can be sent any more."""
        status = self.lq.wait()
        how = f"by signal {-status}" if status < 0 else f"with status {status}"
        return Trouble(f"{self.name} ended {how}, so nothing is followed any more", ENDED)


class Lines(Server):
    """The package's server, but with a process that answers lines."""

    def __init__(self, lq, tell, patience):
        self.lq, self.pipe = lq, lq.pipe
        super().__init__(tell, patience)

    def begin(self):
        if self.ask("fetch", query="name==*") != {"at": 0, "result": []}:
            raise Trouble(f"{self.lq.name} isn't lq: it doesn't answer as lq does", UNUSABLE)

    def ask(self, do, **fields):
        line = self.lq.answer(json.dumps({"do": do, **fields}).encode())
        try:
            return json.loads(line)
        except ValueError:
            raise Trouble(f"{self.lq.name} answered with a line that isn't JSON", ENDED) from None

    def asked(self, do, fields):
        """A reply that is no refusal; else the refusal is raised as the package raises it."""
        reply = self.ask(do, **fields)
        if "place" in reply:
            raise BadQuery(reply["code"], reply["error"], do, tuple(fields.values()), reply["place"])
        if "error" in reply:
            raise Refused(reply["code"], reply["error"], do, tuple(fields.values()))
        return reply

    def test(self, formula):
        self.asked("fetch", {"query": formula})

    def act(self, do, fields):
        return self.asked(do, fields)["node"]

    def new_window(self, formula, values):
        fields = {"query": formula, "port": PORT, "backlog": BACKLOG, "moved": True}
        reply = self.asked("open", {**fields, "values": True} if values else fields)
        return LinesWindow(self, formula, reply["slot"], reply["result"])

    def close(self, window):
        """Closes a window, reads up to its mark, and gives its slot back."""
        self.windows.remove(window)
        self.ask("close", slot=window.slot)
        while self.ask("read", slot=window.slot)["what"] != "END":
            pass
        self.ask("finish", slot=window.slot)


class LinesWindow(Window):
    """A window whose messages are read by lines."""

    def __init__(self, server, formula, slot, result):
        super().__init__(formula, [], [])
        self.server, self.slot = server, slot
        self.rows = {row["node"]: (row["dir"], row["name"]) for row in result}

    def read(self):
        self.messages = self.new_messages()
        super().read()

    def new_messages(self):
        while True:
            reply = self.server.ask("read", slot=self.slot)
            what = reply.pop("what")
            if what == "EMPTY":
                return
            if what != "B_QUERY_UPDATE":
                raise Trouble(f"a window of {self.formula} has ended: {reply}", ENDED)
            others = {"from_dir": None, "from_name": None, "attribute": reply.pop("attr", None)}
            yield Message(**{**others, **reply, "op": Opcode[reply["op"]]})
