"""The programs that follow a folder: how each is started, and what it tells."""
import fcntl, json, os, random, select, signal, subprocess, time
from typing import Any, Dict, List, NamedTuple, Optional, Tuple

from looks import Entry, as_bytes
from mirror import Line


class Ended(Exception):
    """The follower isn't there any more."""


class Volume(NamedTuple):
    """What a follower says of its volume: the entries, and for each window its rows and what a fetch answers."""

    entries: Dict[bytes, Entry]
    rows: List[Dict[str, set]]
    own: Dict[bytes, Dict[str, Any]]  # the attributes that aren't on disk


class Follower:
    """One that runs. `several`: it takes several formulas. `dumps`: SIGUSR1 has it write its volume to a file."""

    several = False
    dumps = True
    kinds = {"f": "file", "d": "folder", "l": "link", "o": "other", "-": None}

    def __init__(
        self, command: List[str], more: List[str], tree: bytes, formulas: List[str], room: str,
        environment: Dict[str, str], drawn: random.Random,
    ) -> None:
        """`more`: words after the command and its own."""
        self.drawn = drawn
        self.tree = tree
        self.formulas = formulas
        self.dump_file = os.path.join(room, "dump")
        self.errors = os.path.join(room, "errors")
        self.part = b""
        self.raw: List[Tuple[float, bytes]] = []
        with open(self.errors, "wb") as errors:
            self.process = subprocess.Popen(
                [*command, *self.words(), *more], stdout=subprocess.PIPE, stderr=errors, env={**os.environ, **environment})
        assert self.process.stdout
        self.out = self.process.stdout.fileno()
        fcntl.fcntl(self.out, fcntl.F_SETFL, os.O_NONBLOCK)
        fcntl.fcntl(self.out, fcntl.F_SETPIPE_SZ, 1 << 20)

    def words(self) -> List[str]:
        return [os.fsdecode(self.tree), self.formulas[0], "--json", "--dump", self.dump_file]

    def lines(self, seconds: float) -> List[Line]:
        """The lines that come within some time: as soon as there is one, those that are there."""
        if not select.select([self.out], [], [], seconds)[0]:
            if self.process.poll() is not None:
                raise Ended(self.ended())
            return []
        got = os.read(self.out, 1 << 20)
        if not got:
            self.process.wait()
            raise Ended(self.ended())
        now = time.monotonic()
        *whole, self.part = (self.part + got).split(b"\n")
        self.raw += [(now, it) for it in whole]
        return [line for it in whole for line in [self.line(json.loads(it))] if line]

    def line(self, it: Dict[str, Any]) -> Optional[Line]:
        old = it.get("old_path")
        return Line(it["change"], self.below(it["path"]), None if old is None else self.below(old), it.get("kind"),
                    it.get("size"), it.get("time"), it.get("inode"), it.get("ctime"), it.get("mtime"),
                    it.get("window", 0), it.get("attributes"))

    def below(self, path: str) -> bytes:
        return os.path.relpath(as_bytes(path), self.tree)

    def volume(self, seconds: float) -> Optional[Volume]:
        """What it has, or None if it doesn't say so in time."""
        if os.path.exists(self.dump_file):
            os.unlink(self.dump_file)
        self.signal(signal.SIGUSR1)
        end = time.monotonic() + seconds
        while not os.path.exists(self.dump_file):
            if time.monotonic() > end:
                return None
            if self.process.poll() is not None:
                raise Ended(self.ended())
            time.sleep(0.002)
        with open(self.dump_file, "rb") as file:
            return self.read_volume([json.loads(it) for it in file])

    def read_volume(self, rows: List[Dict[str, Any]]) -> Volume:
        entries, told, own = {}, set(), {}
        for it in rows:
            attributes = it["attrs"]
            kind = attributes.pop("kind", None)
            if not any("kind" in it for it in self.formulas):  # which alone sets the attribute
                kind = self.kinds.get(it["kind"], it["kind"])
            path = self.below(it["path"])
            names = [name for name in attributes if name == "iname" or name.endswith(":number")]
            own[path] = {name: attributes.pop(name) for name in names}
            entries[path] = Entry(kind, it["size"], it["time"], attributes, it.get("inode"), 0, it.get("mtime"))
            if it["row"]:
                told.add(path)
        return Volume(entries, [{"rows": told}], own)

    def signal(self, number: int) -> None:
        self.process.send_signal(number)

    def processor_seconds(self) -> float:
        with open(f"/proc/{self.process.pid}/schedstat", encoding="ascii") as file:
            return int(file.read().split()[0]) / 1e9

    def memory(self) -> int:
        """Resident memory in kilobytes."""
        with open(f"/proc/{self.process.pid}/statm", encoding="ascii") as file:
            return int(file.read().split()[1]) * 4

    def said(self) -> str:
        with open(self.errors, encoding="utf-8", errors="replace") as file:
            return file.read()[-3000:]

    def ended(self) -> str:
        return f"it ended with {self.process.returncode}: {self.said()}"

    def stop(self, number: int) -> int:
        """Ends it by a signal, and answers its status."""
        self.signal(signal.SIGCONT)
        self.signal(number)
        try:
            self.process.wait(60)
        except subprocess.TimeoutExpired:
            self.process.kill()
            self.process.wait()
        self.process.stdout.close()
        return self.process.returncode


class Follow(Follower):
    """tests/c/folder_follow.c."""

    def words(self) -> List[str]:
        draw = self.drawn
        return [*super().words(), *draw.choice([[], ["--early"]]), "--pause", draw.choice(["0", "1000", "5000"])]

    def line(self, it: Dict[str, Any]) -> Optional[Line]:
        return super().line({**it, "kind": self.kinds[it["kind"]]})


class Command(Follower):
    """yazgoulm-folder --json."""

    dumps = False

    def words(self) -> List[str]:
        return ["-q", "--json", os.fsdecode(self.tree), self.formulas[0]]


class Windows(Follower):
    """windows.py."""

    several = True

    def words(self) -> List[str]:
        return [str(self.drawn.randrange(1 << 32)), os.fsdecode(self.tree), self.dump_file, *self.formulas]

    def read_volume(self, rows: List[Dict[str, Any]]) -> Volume:
        count = len(self.formulas)
        volume = super().read_volume([{**it, "row": False} for it in rows[count:]])
        named = [{name: {self.below(path) for path in it[name]} for name in it} for it in rows[:count]]
        return Volume(volume.entries, named, volume.own)


FOLLOWERS = {"follow": Follow, "command": Command, "windows": Windows, "trial": Follower}
