"""The hostile driver's acts on a folder of which yazgoulm-folder keeps links, while a person puts things among the links
and the command is killed; after each burst, at rest, what is in the kept folder is compared with the disk.

    links.py --room FOLDER --acts PROGRAM [--most-acts N] [--seconds N] [--seed N] [--patience SECONDS] [--kept FOLDER]

The targets of the links are the entries that match, one each; each link has the name of its entry, or that with a
number; what the person put there is as it was put. A burst that fails is told with its seed. The last line counts; the
status is 1 if one failed."""
import argparse, os, random, signal, stat, subprocess, sys, time
from typing import Dict, List, Optional

import looks
from looks import FORMULAS

TOP = os.path.dirname(os.path.dirname(os.path.dirname(os.path.realpath(__file__))))
sys.path[:0] = [f"{TOP}/tests/python", f"{TOP}/python"]
from test_links import HIDDEN, expected_names  # noqa: E402

COMMAND = [sys.executable, "-B", "-m", "yazgoulm.folder"]
LAYOUTS = [], ["--tree"], ["--relative"], ["--tree", "--relative"]
NUMBERS = 3000  # up to which a name with a number is known
SHOWN = 6  # differences that are printed of a burst


class Run:
    """One kept folder after the other, each with a formula and a layout, for some bursts."""

    def __init__(self, given: argparse.Namespace) -> None:
        self.given, self.drawn = given, random.Random(given.seed)
        self.acts = self.bursts = self.failed = self.kills = self.foreign_acts = 0
        self.begin()

    def begin(self) -> None:
        """Draws another folder of links on what the acts have left."""
        self.tree, self.out = f"{self.given.room}/tree", f"{self.given.room}/out{self.bursts}"
        self.formula, self.layout = self.drawn.choice([*FORMULAS]), self.drawn.choice(LAYOUTS)
        self.foreign: Dict[str, int] = {}  # the inodes of what the person put there, by their names
        self.is_lacking = False  # a link of the command was removed, which its next start makes anew
        self.process: Optional[subprocess.Popen[bytes]] = None
        self.has: Dict[str, str] = {}  # the links that were seen last, by what they lead to
        os.makedirs(self.tree, exist_ok=True)

    def start(self) -> None:
        words = [*COMMAND, self.tree, self.formula, "--links", self.out, "--quiet", *self.layout]
        with open(f"{self.given.room}/said", "wb") as said:
            environment = {**os.environ, "PYTHONPATH": f"{TOP}/python"}
            self.process = subprocess.Popen(words, stdout=subprocess.DEVNULL, stderr=said, env=environment)
        self.is_lacking = False

    def kill(self) -> None:
        if self.process:
            self.process.send_signal(self.drawn.choice([signal.SIGKILL, signal.SIGKILL, signal.SIGTERM]))
            self.process.wait()
            self.process = None
            self.kills += 1

    def said(self) -> str:
        with open(f"{self.given.room}/said", errors="replace") as file:
            return file.read()

    # ---- the person

    def put(self) -> None:
        """The person puts something into the kept folder, or takes it away again."""
        draw = self.drawn
        try:
            found = os.listdir(self.out)
        except FileNotFoundError:
            return
        if HIDDEN not in found:  # which is the name of the mark
            return  # what is put there before, where the command is then killed, is refused by its next start
        links = [it for it in found if not it.startswith(HIDDEN)]
        name = draw.choice([*links, "mine", "a (2)"]) if draw.random() < 0.7 else f"{draw.choice([*links, 'x'])} (2)"
        path, kind = os.path.join(self.out, name), draw.randrange(5)
        try:
            if name in self.foreign:
                if kind == 0:
                    (os.rmdir if stat.S_ISDIR(os.lstat(path).st_mode) else os.unlink)(path)
                    del self.foreign[name]
                return
            if kind == 4 and os.path.islink(path):
                os.unlink(path)
                self.is_lacking = True
            elif kind == 1:
                os.mkdir(path)
                self.foreign[name] = os.lstat(path).st_ino
            elif kind == 2:
                os.symlink("/nowhere", path)
                self.foreign[name] = os.lstat(path).st_ino
            elif kind == 3:
                os.close(os.open(path, os.O_CREAT | os.O_EXCL | os.O_WRONLY))
                self.foreign[name] = os.lstat(path).st_ino
            self.foreign_acts += 1
        except OSError:
            pass  # the command was faster, or its link is there

    # ---- comparing

    def differences(self) -> List[str]:
        found: List[str] = []
        disk = {os.fsdecode(path): it for path, it in looks.look(os.fsencode(self.tree)).items()}
        is_in = FORMULAS[self.formula]
        wanted = {path for path, it in disk.items() if is_in(os.fsencode(path), it)}
        if "--tree" in self.layout:
            wanted = {path for path in wanted if disk[path].kind != "folder"}
        has = self.has = {}
        for at, folders, files in os.walk(self.out):
            for name in [*folders, *files]:
                place = os.path.relpath(os.path.join(at, name), self.out)
                path = os.path.join(at, name)
                if name.startswith(HIDDEN) or place in self.foreign or not os.path.islink(path):
                    continue
                try:
                    target = os.path.normpath(os.path.join(os.path.realpath(at), os.readlink(path)))
                except FileNotFoundError:
                    return [f"{place!a} has just gone"]
                entry = os.path.relpath(target, self.tree)
                if entry in has:
                    found.append(f"two links to {entry!a}: {has[entry]!a}, {place!a}")
                has[entry] = place
                self.compare_name(place, entry, found)
        found += [f"there is no link to {it!a}" for it in sorted(wanted - {*has})]
        found += [f"a link to {it!a}: {has[it]!a}" for it in sorted({*has} - wanted)]
        for name, inode in self.foreign.items():
            path = os.path.join(self.out, name)
            if not os.path.lexists(path) or os.lstat(path).st_ino != inode:
                found.append(f"{name!a} isn't as it was put there")
        return found

    def compare_name(self, place: str, entry: str, found: List[str]) -> None:
        folder = os.path.dirname(entry) if "--tree" in self.layout else ""
        names = expected_names(os.path.basename(entry))
        if os.path.dirname(place) != folder or os.path.basename(place) not in (it for it, _ in zip(names, range(NUMBERS))):
            found.append(f"{place!a} is a link to {entry!a}")

    def at_rest(self) -> List[str]:
        """The differences that stay."""
        end, since = time.monotonic() + self.given.patience, 0.0
        while True:
            found = self.differences()
            assert self.process
            if self.process.poll() is not None:
                return [f"it ended with {self.process.returncode}: {self.said()}"]
            if time.monotonic() > end:
                return found
            since = 0.0 if found else since or time.monotonic()
            if since and time.monotonic() > since + 0.1:
                return []
            time.sleep(0.02)

    # ---- bursts

    def burst(self) -> None:
        draw = self.drawn
        seed, acts = draw.randrange(1 << 32), int(20 * 100 ** draw.random())
        words = [self.given.acts, self.tree, str(seed), str(draw.choice([1, 2, 3, 4])), str(acts),
                 f"{self.given.room}/acts", f"pause={draw.choice([0, 100, 1000])}", f"limit={draw.choice([40, 150])}",
                 "links=kept"]  # fmt: skip
        if not self.process and draw.random() < 0.5:
            self.start()
        with subprocess.Popen(words, stdout=subprocess.PIPE) as acting:
            while acting.poll() is None:
                if draw.random() < 0.03:
                    self.kill()
                if not self.process and draw.random() < 0.5:
                    self.start()
                if "--tree" not in self.layout:
                    self.put()
                time.sleep(0.02 * draw.random())
            assert acting.stdout
            self.acts += int(acting.stdout.read())
        if self.is_lacking:
            self.kill()
        if not self.process:
            self.start()
        found = self.at_rest()
        self.bursts += 1
        if found:
            self.failed += 1
            print(f"FAILED: burst {self.bursts} of seed {self.given.seed}, {self.formula} {self.layout}: {len(found)} "
                  f"differences, {len(self.has)} links: {' '.join(words)}\n    {self.said()}", flush=True)  # fmt: skip
            for line in found[:SHOWN]:
                print(f"    {line[:300]}", flush=True)
        if found or draw.random() < 0.2:
            self.kill()
            subprocess.run(["rm", "-rf", self.out], check=False)
            self.begin()


def main() -> int:
    it = argparse.ArgumentParser(allow_abbrev=False)
    it.add_argument("--room", required=True)
    it.add_argument("--acts", required=True)
    it.add_argument("--most-acts", type=int, default=10**12)
    it.add_argument("--seconds", type=float, default=10**9)
    it.add_argument("--patience", type=float, default=300)
    it.add_argument("--seed", type=int, default=random.SystemRandom().randrange(1 << 32))
    given = it.parse_args()
    given.room = os.path.realpath(given.room)
    os.makedirs(given.room, exist_ok=True)
    run, begun = Run(given), time.monotonic()
    try:
        while run.acts < given.most_acts and time.monotonic() < begun + given.seconds and run.failed < 5:
            run.burst()
    finally:
        run.kill()
    print(f"{run.acts} acts in {run.bursts} bursts, {run.failed} failed; {run.kills} kills of the command, "
          f"{run.foreign_acts} acts of a person among the links; seed {given.seed}")  # fmt: skip
    return 1 if run.failed else 0


if __name__ == "__main__":
    sys.exit(main())
