"""Bursts of acts on a folder that is followed; after each, at rest, what the follower says is compared with the disk.

It is started by driver.py with the words of a run as JSON, and prints what it found as lines of JSON. While there is a
file FOLDER_PAUSE it waits between two bursts, as beside measurements."""
import codecs, contextlib, ctypes, json, os, random, signal, subprocess, sys, time
from typing import Any, Dict, List, Optional, Set

import looks
from followers import FOLLOWERS, Ended, Follower
from looks import EVERYTHING, FORMULAS, Entry
from mirror import Mirror

QUIET = 0.06  # seconds without a line, after which it may be at rest
DETACH = 2  # MNT_DETACH
SHOWN = 8  # differences that are printed of a burst
LEAST_FULL = 5700  # files that come and go while the follower stands still
DEEP, DEEP_NAME = 20, b"L" * 200  # folders in one another: what is below them has paths beyond PATH_MAX
TOLD = 20  # seconds from one word on how far it is to the next


class Run:
    mirror_kind = Mirror

    def __init__(self, given: Dict[str, Any]) -> None:
        self.given = given
        self.tree = os.fsencode(given["tree"])
        os.makedirs(self.tree, exist_ok=True)
        self.acts_in = os.fsdecode(self.tree)
        if given["is_deep"]:
            self.make_deep()
        self.room: str = given["room"]
        self.drawn = random.Random(given["seed"])
        self.patience: float = given["patience"]
        self.follower: Optional[Follower] = None
        self.mirrors: List[Mirror] = []
        self.acts = self.bursts = self.failed = self.starts = self.doubtful = self.overflows = 0
        self.names: Dict[str, int] = {}
        self.rest = self.longest = 0.0
        self.is_over = False
        self.events = f"{self.room}/events" if given["preload"] else ""
        if self.events:
            with open(self.events, "wb") as file:
                file.write(bytes(8))  # as false_events.c has it
            self.set_events(b"0")
        self.is_false = given["is_false"]
        with open("/proc/sys/fs/inotify/max_queued_events", encoding="ascii") as file:
            self.full = max(LEAST_FULL, int(file.read()) // 3 + 300)

    def make_deep(self) -> None:
        """The acts are done below many folders, which stay."""
        path = b""
        for _ in range(DEEP):
            path = os.path.join(path, DEEP_NAME)
            with contextlib.suppress(FileExistsError):
                os.mkdir(looks.at(self.tree, path))
        self.deep = os.open(looks.at(self.tree, path), os.O_RDONLY | os.O_DIRECTORY)
        os.set_inheritable(self.deep, True)
        self.acts_in = f"/proc/self/fd/{self.deep}"

    # ---- the follower

    def start(self) -> None:
        kind = FOLLOWERS[self.given["follower"]]
        others = self.drawn.sample([it for it in FORMULAS if it != EVERYTHING], 2)
        if self.given["formula"]:
            others[0] = self.given["formula"]
        formulas = [EVERYTHING, *others]
        if not kind.several:
            formulas = [others[0] if self.given["formula"] or self.drawn.random() >= 0.8 else EVERYTHING]
        environment = dict(self.given["environment"])
        if self.events:
            environment.update(LD_PRELOAD=self.given["preload"], FALSE_EVENTS=self.events)
        self.mirrors = [self.mirror_kind(self.tree, self.given["carries"]) for _ in formulas]
        words = self.given["command"], self.given["more"], self.tree, formulas, self.room, environment
        self.follower = kind(*words, random.Random(self.drawn.randrange(1 << 32)))
        self.starts += 1

    def end(self, number: int) -> None:
        """Ends the follower. One that is asked to has nothing to complain of."""
        follower, self.follower = self.follower, None
        if not follower:
            return
        status = follower.stop(number)
        said = follower.said()
        if number == signal.SIGTERM and status not in (0, -number):
            self.fail(0, [f"follower: it ended with {status}: {said}"])
        elif "Sanitizer" in said or "runtime error" in said:
            self.fail(0, [f"follower: it said: {said}"])

    def take(self, seconds: float) -> bool:
        """Whether there were lines. They are taken by the mirrors."""
        lines = self.follower.lines(seconds)
        for line in lines:
            self.mirrors[line.window].take(line)
        self.mirrors[0].turn()
        return bool(lines)

    def set_events(self, state: bytes) -> None:
        """What false_events.c does from now on."""
        file = os.open(self.events, os.O_RDWR)  # it is mapped, so it keeps its size
        os.pwrite(file, state, 0)
        os.close(file)

    def ask_for_overflow(self) -> None:
        """Has the follower read that its queue overflowed."""
        self.set_events(b"!")
        wake = os.path.join(self.tree, b"wake")
        for _ in range(2):
            os.close(os.open(wake, os.O_CREAT | os.O_WRONLY))
            os.unlink(wake)

    def count_overflows(self) -> int:
        """How often the follower has read that the system's queue overflowed."""
        with open(self.events, "rb") as file:
            return int.from_bytes(file.read()[4:8], sys.byteorder)

    def fill_queue(self) -> None:
        for number in range(self.full):
            path = os.path.join(self.tree, b"full%d" % number)
            with contextlib.suppress(OSError):  # the acts may move it away, or make another
                os.close(os.open(path, os.O_CREAT | os.O_WRONLY | os.O_NONBLOCK))
                os.unlink(path)

    # ---- a burst

    def words(self, seed: int, acts: int) -> List[str]:
        """The command of a burst."""
        draw = self.drawn
        pause, limit, processes = draw.choice([0, 100, 1000, 4000]), draw.choice([40, 150]), draw.choice([1, 2, 3, 4])
        return [self.given["acts"], self.acts_in, str(seed), str(processes), str(acts), f"{self.room}/acts",
                f"pause={pause}", f"limit={limit}", *self.given["options"]]

    def burst(self) -> None:
        draw = self.drawn
        seed, acts, stops = draw.randrange(1 << 32), int(20 * 100 ** draw.random()) * self.given["larger"], draw.random() < 0.05
        overflows = self.given["overflow"] and self.bursts % 3 == 1
        words = self.words(seed, acts)
        if draw.random() < 0.06:
            self.end(draw.choice([signal.SIGKILL, signal.SIGTERM]))
        if not self.follower and (draw.random() < 0.5 or overflows):
            self.start()
            if overflows:
                self.at_rest()
        self.before_burst()
        if self.follower:
            self.follower.raw.clear()
            if stops or overflows:
                self.follower.signal(signal.SIGSTOP)
        before = self.count_overflows() if overflows else 0
        found = self.carry_out(words, overflows)
        self.bursts += 1
        if overflows:
            seen = self.count_overflows() - before
            self.overflows += seen
            found += [] if seen or found else ["driver: the queue didn't overflow"]
        if found:
            self.fail(seed, found, words)

    def carry_out(self, words: List[str], overflows: bool) -> List[str]:
        """The differences after a burst. A follower that isn't there is started in its midst."""
        events = self.drawn.choice([b"+", b"-"])
        if self.is_false:
            self.set_events(events)
        kept = [self.deep] if self.given["is_deep"] else []
        acting = subprocess.Popen(words, stdout=subprocess.PIPE, pass_fds=kept)
        if overflows:
            self.fill_queue()
        try:
            while acting.poll() is None:
                if not self.follower:
                    time.sleep(0.03 * self.drawn.random())
                    self.start()
                self.take(0.01)
            if not self.follower:
                self.start()
            self.follower.signal(signal.SIGCONT)
            if self.is_false:
                self.set_events(b"0") if events == b"+" else self.ask_for_overflow()
            return self.at_rest()
        except Ended as ended:
            return [f"follower: {ended}"]
        finally:
            self.acts += int(acting.communicate()[0])

    def before_burst(self) -> None:
        """Gives permissions back and unmounts, but not always."""
        if "permissions" in self.given["options"] and self.drawn.random() < 0.3:
            subprocess.run(["chmod", "-R", "u+rwX", self.tree], check=False)
        if "mounts" in self.given["options"]:
            with open("/proc/self/mountinfo", "rb") as file:
                places = [it.split()[4].decode("unicode_escape").encode("latin-1") for it in file]
            for place in reversed([it for it in places if it.startswith(self.tree + b"/")]):
                if self.drawn.random() < 0.6:
                    ctypes.CDLL(None).umount2(place, DETACH)

    def at_rest(self) -> List[str]:
        """The differences that stay."""
        begun = time.monotonic()
        while True:
            last = time.monotonic()
            while time.monotonic() - last < QUIET:
                if self.take(QUIET / 3):
                    last = time.monotonic()
                if time.monotonic() - begun > 20 * self.patience:
                    return ["follower: its lines don't end"]
            found = self.differences()
            spent = time.monotonic() - begun
            if not found or spent > self.patience:
                self.rest += spent
                self.longest = max(self.longest, spent)
                return found

    # ---- comparing

    def differences(self) -> List[str]:
        found: List[str] = []
        disk = looks.look(self.tree, self.given["skip"])
        for formula, mirror in zip(self.follower.formulas, self.mirrors):
            wanted = matching(formula, disk)
            compare_paths(f"lines of {formula}", set(mirror.lines), set(wanted), found)
            found += mirror.wrong
            compare_lines(mirror, wanted, found)
        if self.mirror_kind is Mirror:
            found += [f"mirror: {words}: {path!r}" for path, words in self.mirrors[0].stale()]
        if not found and self.follower.dumps:
            self.compare_volume(disk, found)
        self.doubtful += self.mirrors[0].doubtful
        self.mirrors[0].doubtful = 0
        return found

    def compare_volume(self, disk: Dict[bytes, Entry], found: List[str]) -> None:
        volume = self.follower.volume(self.patience)
        if not volume:
            found.append("follower: it doesn't answer")
            return
        compare_paths("volume", set(volume.entries), set(disk), found)
        for path in set(volume.entries) & set(disk):
            fields = ("kind", "size", "time", "attributes", "inode", "mtime")
            compare_fields("volume", fields, path, volume.entries[path], disk[path], found)
        formulas = " ".join(self.follower.formulas)
        if not found:
            compare_own(volume.own, disk, "iname" in formulas, ":number" in formulas, found)
        for formula, rows in zip(self.follower.formulas, volume.rows):
            for name, paths in rows.items():
                compare_paths(f"{name} of {formula}", paths, set(matching(formula, disk)), found)

    # ---- what was found

    def fail(self, seed: int, found: List[str], words: Optional[List[str]] = None) -> None:
        """Tells a burst that failed, keeps what may explain it, and begins anew."""
        self.failed += 1
        until = self.given["until"]
        self.is_over |= until is not None and any(until in it for it in found)
        for name in {": ".join(it.split(": ")[:2]) for it in found}:
            self.names[name] = self.names.get(name, 0) + 1
        kept = f"{self.given['kept']}/{self.given['name']}-{self.given['seed']}-{self.bursts}"
        self.keep(kept, [f"{self.given}", f"seed {seed}, burst {self.bursts}: {words}", *found])
        tell(failed=self.bursts, name=self.given["name"], seed=seed, run=self.given["seed"], words=words or [],
             found=[it[:300] for it in found[:SHOWN]], count=len(found), kept=kept)
        if self.follower:
            self.follower.stop(signal.SIGKILL)
            self.follower = None

    def keep(self, kept: str, said: List[str]) -> None:
        """What is kept of a failure: the acts, the lines, the volume, and the follower's trace if it has one."""
        os.makedirs(kept, exist_ok=True)
        try:
            if self.follower and self.follower.dumps:
                self.follower.volume(1)
        except (Ended, ValueError, KeyError):
            pass
        subprocess.run(f"cp {self.room}/acts.* {self.room}/dump* {self.room}/errors {kept}/ 2> /dev/null", shell=True,
                       check=False)
        with open(f"{kept}/differences", "w", encoding="utf-8", errors="surrogateescape") as file:
            file.write("\n".join(said) + "\n")
        if self.follower:
            with open(f"{kept}/lines", "wb") as lines:
                lines.writelines(b"%.6f %s\n" % it for it in self.follower.raw)

    def result(self) -> Dict[str, Any]:
        mean = round(self.rest / max(1, self.bursts), 3)
        return dict(name=self.given["name"], acts=self.acts, bursts=self.bursts, failed=self.failed, starts=self.starts,
                    names=self.names, doubtful=self.doubtful, rest=mean, longest=round(self.longest, 2),
                    overflows=self.overflows)


def matching(formula: str, disk: Dict[bytes, Entry]) -> Dict[bytes, Entry]:
    return {path: it for path, it in disk.items() if FORMULAS[formula](path, it)}


def compare_paths(name: str, has: Set[bytes], wanted: Set[bytes], found: List[str]) -> None:
    found += [f"{name}: missing: {it!r}" for it in sorted(wanted - has)]
    found += [f"{name}: not on disk: {it!r}" for it in sorted(has - wanted)]


def compare_own(own: Dict[bytes, Dict[str, Any]], disk: Dict[bytes, Entry], names: bool, numbers: bool,
                found: List[str]) -> None:
    """The attributes that aren't on disk are there once a formula has named them, and stay."""
    names |= any("iname" in it for it in own.values())
    numbers |= any(name.endswith(":number") for it in own.values() for name in it)
    for path, it in own.items():
        wanted: Dict[str, Any] = looks.numbers_of(disk[path].attributes) if numbers else {}
        if names:
            wanted["iname"] = looks.folded(path)
        if it != wanted:
            found.append(f"volume: own attributes: {it!r}, not {wanted!r}: {path!r}")


def compare_fields(name: str, fields: Any, path: bytes, has: Any, wanted: Any, found: List[str]) -> None:
    """Fields that the follower tells are what the disk has."""
    for field in fields:
        told, is_there = getattr(has, field), getattr(wanted, field)
        if told is not None and told != is_there:
            found.append(f"{name}: stale {field}: {told!r}, the disk {is_there!r}: {path!r}")


def compare_lines(mirror: Mirror, wanted: Dict[bytes, Entry], found: List[str]) -> None:
    """What the last line of a path says is what the entry has."""
    for path in set(wanted) & set(mirror.lines):
        fields = ["kind", "size", "time", "inode", "attributes"] + (["mtime"] if wanted[path].kind != "folder" else [])
        compare_fields("lines", fields, path, mirror.lines[path], wanted[path], found)


def tell(**words: Any) -> None:
    print(json.dumps(words), flush=True)


def become(user: int) -> None:
    """Goes on as another user, who maybe can't read Python's modules: so all that is used has to be there."""
    for encoding in ("ascii", "latin-1", "unicode_escape"):
        codecs.lookup(encoding)
    os.setgroups([])
    os.setgid(user)
    os.setuid(user)


def main() -> None:
    given = json.loads(sys.argv[1])
    if given["user"]:
        become(given["user"])
    run = Run(given)
    end = time.monotonic() + given["seconds"]
    told = time.monotonic()
    try:
        while time.monotonic() < end and run.acts < given["acts_wanted"] and run.failed < given["most_failed"] \
                and run.bursts < given["most_bursts"]:
            while os.path.exists(os.environ.get("FOLDER_PAUSE", "")):
                time.sleep(1)
            run.burst()
            if run.is_over:
                break
            if time.monotonic() > told + TOLD:
                told = time.monotonic()
                tell(so_far=run.result())
        run.end(signal.SIGTERM)
    finally:
        if run.follower:
            run.follower.process.kill()
    tell(result=run.result())


if __name__ == "__main__":
    main()
