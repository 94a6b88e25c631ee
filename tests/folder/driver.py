"""The hostile driver of a folder: bursts of acts by several processes on several file systems, and after each, at rest,
a comparison of all that a follower says with what is on disk (bursts.py).

    driver.py --room FOLDER --acts PROGRAM --follower KIND --seconds N [..] -- COMMAND [WORD..]

As root it mounts the file systems in a namespace of its own, so that nothing of them is left. What this machine can't
do is named and counted as skipped. A burst that fails is told with its seed, and all that may explain it is kept. The
status is 1 if one failed, and 77 if nothing could be tried."""
import argparse, concurrent.futures, json, os, random, subprocess, sys, threading
from typing import Any, Dict, Iterator, List, NamedTuple, Optional

HERE = os.path.dirname(os.path.realpath(__file__))
NOBODY = 65534
UNREAD_ACTS = 400000  # while nobody reads the lines
FEW_WATCHES = 'echo "$1" > /proc/sys/user/max_inotify_watches && shift && exec "$@"'


class Kind(NamedTuple):
    """What is done in a run: options of acts.c, and whether root is needed, or another user."""

    options: List[str]
    needs_root: bool = False
    is_nobody: bool = False
    overflow: bool = False
    watches: Optional[int] = None
    false_events: bool = False
    script: str = "bursts.py"
    reads: bool = True
    more: List[str] = []  # of the follower folder_follow
    skip: List[str] = []
    formula: str = ""
    is_deep: bool = False


KINDS = {
    "plain": Kind([]),
    "links": Kind(["links=kept"]),
    "permissions": Kind(["permissions"], is_nobody=True),
    "permissions-links": Kind(["permissions", "links=kept"], is_nobody=True),
    "mounts": Kind(["mounts"], needs_root=True),
    "overflow": Kind([], overflow=True),
    "watches": Kind([], watches=4),
    "false-events": Kind(["no-times-back"], false_events=True),
    "memory": Kind([], script="bounds.py"),
    "stopped-reader": Kind([], script="bounds.py", reads=False),
    "any-links": Kind(["links=any"]),
    "mounts-links": Kind(["mounts", "links=kept"], needs_root=True),
    "attributes": Kind(["attributes"]),
    "iname": Kind([], formula="iname==g || iname==*éé"),
    "numbers": Kind(["attributes"], formula="user.rating:number>3"),
    "skip": Kind([], skip=["*.x", "s?b", "[!a-z]"]),
    "poll": Kind([], more=["--poll", "50"]),
    "deep": Kind([], is_deep=True),
}

# Each file system: what makes it at a place, as commands of a shell, where $1 is the place and $2 room for more.
LOOP = 'truncate -s 400M "$2/image" && {} "$2/image" > /dev/null && mount -o loop "$2/image" "$1"'
BELOW = 'for i in $(seq 0 60); do mkdir -p "$2/lower/tree$i/l/m" && echo l > "$2/lower/tree$i/l/m/l"; done && ' \
    'chmod -R a+rwX "$2/lower"'
OVER = f'mkdir "$2/lower" "$2/upper" "$2/work" && {BELOW} && ' \
    'mount -t overlay none -o "lowerdir=$2/lower,upperdir=$2/upper,workdir=$2/work" "$1"'
FILE_SYSTEMS = {
    "here": ":",
    "ext4": LOOP.format("mkfs.ext4 -q -F"),
    "ext4-128": LOOP.format("mkfs.ext4 -q -F -I 128"),
    "xfs": LOOP.format("mkfs.xfs -q -f"),
    "btrfs": LOOP.format("mkfs.btrfs -q -f"),
    "tmpfs": 'mount -t tmpfs none "$1"',
    "overlay": OVER,
    "overlay-tmpfs": f'mount -t tmpfs none "$2" && {OVER}',
}


# what a run has done
NOTHING = dict(acts=0, bursts=0, failed=0, starts=0, names={}, doubtful=0, rest=0, longest=0, overflows=0)


class Place:
    """A file system that was made, or why it couldn't be."""

    def __init__(self, name: str, room: str) -> None:
        self.path, more = f"{room}/{name}", f"{room}/{name}.more"
        os.mkdir(self.path)
        os.mkdir(more)
        words = ["sh", "-c", FILE_SYSTEMS[name], "sh", self.path, more]
        made = subprocess.run(words, capture_output=True, text=True, check=False)
        said = made.stderr.strip() or f"status {made.returncode}"
        self.lacks = said.splitlines()[0] if made.returncode else ""
        os.chmod(self.path, 0o777)


class Driver:
    def __init__(self, given: argparse.Namespace) -> None:
        self.given = given
        self.results: List[Dict[str, Any]] = []
        self.skipped: List[str] = []
        self.lock = threading.Lock()
        self.is_root = os.geteuid() == 0

    def runs(self) -> Iterator[Dict[str, Any]]:
        """What each lane takes in turn."""
        places: Dict[str, Place] = {}
        for number, run in enumerate(self.given.runs):
            system, name = run.split("/")
            if system not in places:
                places[system] = Place(system, self.given.room)
            place, kind = places[system], KINDS[name]
            if place.lacks:
                self.skip(f"{run}: {place.lacks}")
            elif kind.needs_root and not self.is_root:
                self.skip(f"{run}: needs root")
            elif kind.is_nobody and self.is_root and not can_run(self.given.command[0]):
                self.skip(f"{run}: another user can't run the follower")
            elif (kind.false_events or kind.overflow) and not self.given.false_events:
                self.skip(f"{run}: without --false-events")
            elif (kind.more or kind.skip) and self.given.follower != "follow":
                self.skip(f"{run}: by the follower follow alone")
            elif kind.watches and not succeeds(few_watches(kind, ["true"])):
                self.skip(f"{run}: a namespace of users can't be made")
            else:
                yield self.words(run, number, place, kind)

    def skip(self, words: str) -> None:
        self.skipped.append(words)
        print(f"skipped: {words}", flush=True)

    def words(self, run: str, number: int, place: Place, kind: Kind) -> Dict[str, Any]:
        given = self.given
        drawn = random.Random(f"{given.seed} {run} {number}")
        preload = given.false_events if kind.false_events or kind.overflow else None
        return dict(
            name=run.replace("/", "-"), tree=f"{place.path}/tree{number}", room=f"{given.room}/run{number}",
            kept=given.kept, seed=given.run_seed or drawn.randrange(1 << 32), follower=given.follower, acts=given.acts,
            options=[*kind.options, *given.option],
            command=few_watches(kind, given.command) if kind.watches else given.command,
            environment=dict(it.split("=", 1) for it in given.environment), seconds=given.seconds,
            acts_wanted=given.most_acts if kind.reads else min(given.most_acts, UNREAD_ACTS),
            most_failed=given.most_failed, most_bursts=given.most_bursts, larger=given.larger, overflow=kind.overflow,
            more=[*kind.more, *(word for it in kind.skip for word in ("--skip", it))], skip=kind.skip,
            formula=kind.formula, is_deep=kind.is_deep, until=given.until, patience=given.patience * (5 if kind.watches else 1), carries=given.carries,
            script=kind.script, reads=kind.reads, preload=preload, is_false=kind.false_events,
            user=NOBODY if kind.is_nobody and self.is_root else None)

    def carry_out(self, words: Dict[str, Any]) -> None:
        os.makedirs(words["room"])
        os.chmod(words["room"], 0o777)
        with subprocess.Popen([sys.executable, "-B", f"{HERE}/{words['script']}", json.dumps(words)],
                              stdout=subprocess.PIPE) as process:
            assert process.stdout
            for line in process.stdout:
                it = json.loads(line)
                with self.lock:
                    if "result" in it:
                        self.results.append(it["result"])
                        if self.given.verbose:
                            print(row_of(it["result"]), flush=True)
                    elif "failed" in it:
                        tell_failure(it)
                    elif "note" in it:
                        print(it["note"], flush=True)
        if process.returncode:
            with self.lock:
                self.results.append({**NOTHING, "name": words["name"], "failed": 1, "names": {"driver": 1}})
                print(f"the driver itself ended with {process.returncode}: {words}", flush=True)

    def drive(self) -> int:
        runs = self.runs()

        def lane() -> None:
            while True:
                with self.lock:
                    words = next(runs, None)
                if not words:
                    return
                self.carry_out(words)

        with concurrent.futures.ThreadPoolExecutor(self.given.lanes) as lanes:
            for it in [lanes.submit(lane) for _ in range(self.given.lanes)]:
                it.result()
        return self.table()

    def table(self) -> int:
        print(f"{'run':32s}{'acts':>10s}{'bursts':>8s}{'starts':>8s}{'failed':>8s}   at rest after (mean, longest)")
        for it in self.results:
            print(row_of(it))
        acts, bursts, failed = (sum(it[word] for it in self.results) for word in ("acts", "bursts", "failed"))
        skipped = f"{len(self.skipped)} runs were skipped; seed {self.given.seed}"
        print(f"{acts} acts in {bursts} bursts, {failed} failed; {skipped}", flush=True)
        return 77 if not self.results else 1 if failed else 0


def row_of(it: Dict[str, Any]) -> str:
    names = "".join(f"; {name[:60]} {count}" for name, count in it["names"].items())
    names += f"; overflows {it['overflows']}" if it["overflows"] else ""
    doubtful = f"; doubtful moves {it['doubtful']}" if it["doubtful"] else ""
    return f"{it['name']:32s}{it['acts']:10d}{it['bursts']:8d}{it['starts']:8d}{it['failed']:8d}   " \
        f"{it['rest']:.3f}, {it['longest']:.2f}{names}{doubtful}"


def few_watches(kind: Kind, command: List[str]) -> List[str]:
    return ["unshare", "--user", "--map-root-user", "sh", "-c", FEW_WATCHES, "sh", str(kind.watches), *command]


def succeeds(command: List[str]) -> bool:
    try:
        return subprocess.run(command, capture_output=True, check=False).returncode == 0
    except OSError:
        return False


def can_run(program: str) -> bool:
    """Whether another user can start a program."""
    def become() -> None:
        os.setgroups([])
        os.setuid(NOBODY)

    try:
        return subprocess.run([program, "--version"], preexec_fn=become, capture_output=True, check=False) is not None
    except OSError:
        return False


def tell_failure(it: Dict[str, Any]) -> None:
    burst = f"burst {it['failed']}, seed {it['seed']}, of the run {it['run']}"
    print(f"FAILED: {it['name']}: {burst}: {it['count']} differences; kept in {it['kept']}")
    print(f"    {' '.join(it['words'])}")
    for words in it["found"]:
        print(f"    {words}", flush=True)


def parse() -> argparse.Namespace:
    it = argparse.ArgumentParser(allow_abbrev=False)
    it.add_argument("--room", required=True, help="a folder to work in")
    it.add_argument("--kept", help="where failures are kept")
    it.add_argument("--acts", required=True, help="the program made of acts.c")
    it.add_argument("--false-events", help="the library made of false_events.c")
    it.add_argument("--follower", default="follow", help="a name of FOLLOWERS")
    it.add_argument("--seconds", type=float, default=10, help="how long each run takes at most")
    it.add_argument("--most-acts", type=int, default=10**12)
    it.add_argument("--most-bursts", type=int, default=10**12)
    it.add_argument("--larger", type=int, default=1, help="bursts have so many times as many acts")
    it.add_argument("--most-failed", type=int, default=5, help="after so many failures a run ends")
    it.add_argument("--lanes", type=int, default=1)
    it.add_argument("--patience", type=float, default=10, help="seconds until it has to be right")
    it.add_argument("--seed", default=str(random.randrange(1 << 32)))
    it.add_argument("--run-seed", type=int, help="of each run, as it was told of a failure")
    it.add_argument("--runs", nargs="*", default=["here/plain"], help="FILE-SYSTEM/KIND")
    it.add_argument("--option", action="append", default=[], help="one more option of acts.c")
    it.add_argument("--until", help="all ends once a difference has this in it")
    it.add_argument("--environment", action="append", default=[], help="NAME=VALUE for the follower")
    it.add_argument("--carries", action="store_true", help="the mirror doesn't read at >")
    it.add_argument("--verbose", action="store_true", help="each run's line as it ends")
    it.add_argument("command", nargs="+")
    return it.parse_args()


def main() -> int:
    given = parse()
    if os.geteuid() == 0 and os.environ.get("FOLDER_NAMESPACE") != "own":
        os.environ["FOLDER_NAMESPACE"] = "own"
        if succeeds(["unshare", "--mount", "true"]):
            os.execvp("unshare", ["unshare", "--mount", "--propagation", "private", sys.executable, *sys.argv])
    given.room = os.path.realpath(given.room)
    given.kept = os.path.realpath(given.kept or f"{given.room}/kept")
    for folder in (given.room, given.kept):
        os.makedirs(folder, exist_ok=True)
        os.chmod(folder, 0o777)
    return Driver(given).drive()


if __name__ == "__main__":
    sys.exit(main())
