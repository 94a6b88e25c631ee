"""`yazgoulm-queries FILE..|DIR` keeps the smart folders and mail folders that files of queries ask for, by one process.

    $ cat ~/Queries/texts.query
    [query]
    folder = ~/Documents
    formula = name==*.txt && size>100
    links = ~/Smart/texts
    $ yazgoulm-queries ~/Queries

A file is in the form of INI, with one part `[query]`, and its name ends in `.query`:

- `folder`: the folder that is looked at, and all below it; or a Maildir, if `maildir` is given;
- `formula`: what to look for; without it, everything;
- `skip`: names that are passed over, with blanks between;
- `links`: the folder that gets a symbolic link to each entry that matches, and `tree = yes` and `relative = yes` as the
  options of `yazgoulm-folder`;
- `maildir`: the folder that is kept a Maildir of the mail that matches, as by `yazgoulm-mail`;
- `columns`: what `yazgoulm-folder FILE` prints.

Paths begin at the folder of the file, and `~` is the user's. A file of a folder DIR that is added, changed or removed
is followed, and the links of one that was removed stay. A file without `links` and `maildir` is passed over. A fault in
one is said, and stops no other. Queries with the same `folder` and `skip` share what was read of it.

`--install` writes a unit for `systemd --user`, says where, and ends. `--quiet` leaves out what is kept."""
import argparse, os, shutil, sys, time
from typing import TYPE_CHECKING, Any, Dict, List, Optional, Protocol, Tuple

from .. import Error, __version__
from . import _terminal
from ._folder import SECONDS, Folder, FolderGone
from ._links import Links
from ._query_file import SUFFIX, QueryFile, read
from ._terminal import UNUSABLE, Trouble, carried_out, reason
from ._together import Together

if TYPE_CHECKING:
    from .._live_maildir import LiveMaildir

NAME = "yazgoulm-queries"
AGAIN = 10.0  # seconds until what failed is tried again
Stamp = Tuple[int, int, int]  # of a file: another one where it was changed
SOON = 0.02  # seconds until what couldn't be done for a mail is tried again
FAULTS = FolderGone, Error, OSError, ValueError, MemoryError
Disk = Tuple[str, Tuple[str, ...], bool]  # a folder, the names that are passed over in it, and whether it is a Maildir
UNIT = """[Unit]
Description=Smart folders of {words}

[Service]
ExecStart={command}
Restart=on-failure
RestartSec=10

[Install]
WantedBy=default.target
"""


def tell(line: str) -> None:
    _terminal.tell(NAME, line)


class Mirror(Protocol):
    """What queries of one folder share. `out_of` has what is kept for each, by the paths of their files."""

    out_of: Dict[str, Any]

    def keep(self, query: QueryFile, out: str) -> None:
        """Keeps a query more."""

    def forget(self, path: str) -> None:
        """Keeps the query of a file no more."""

    def turn(self, due: List[Folder]) -> None:
        """Takes what has happened in those folders whose turn is due."""

    def settle(self, path: str) -> None:
        """Does for a query what is to be done after that."""

    def is_waiting(self) -> bool:
        """Whether something is to be tried again soon."""

    def close(self) -> None:
        """Ends it."""


class FolderMirror:
    """A folder, with the folders of links that are kept of it. Links are made once it was looked at."""

    def __init__(self, disk: Disk, together: Together) -> None:
        self.folder, self.together = Folder(disk[0], skip=disk[1], tell=tell), together
        self.out_of: Dict[str, Links] = {}
        self.is_listed = self.has_more = False
        together.enter(self.folder)

    def keep(self, query: QueryFile, out: str) -> None:
        how = {"tree": query.tree, "relative": query.relative}
        self.out_of[query.path] = Links(self.folder, query.formula, out, tell=tell, **how)
        self.together.wake(self.folder)

    def forget(self, path: str) -> None:
        self.out_of.pop(path).close()

    def turn(self, due: List[Folder]) -> None:
        if self.folder not in due:
            return
        turned = self.together.turn(self.folder)
        self.is_listed, self.has_more = self.is_listed or turned.listed, turned.more
        for lines in iter(self.folder.lines, []):
            for line in lines:
                for it in self.out_of.values():
                    it.hear(line)

    def settle(self, path: str) -> None:
        links = self.out_of[path]
        if links.window is not None:
            if not self.has_more:
                links.mend()
        elif self.is_listed:
            links.begin()
            self.together.wake(self.folder)  # the lines of its opening come by the next turn

    def is_waiting(self) -> bool:
        return False

    def close(self) -> None:
        self.together.leave(self.folder)
        self.folder.close()


class MailMirror:
    """A Maildir, with the live Maildirs that are kept of it."""

    def __init__(self, path: str, together: Together) -> None:
        from .._mails import Mails, need  # which few need

        need(path)
        self.mails, self.together = Mails(path, tell), together
        self.out_of: Dict[str, LiveMaildir] = {}
        self.due: List[Folder] = []
        self.keys: List[str] = []  # of mails to which something has happened in this turn
        try:
            self.mails.begin()
        except BaseException:
            self.mails.close()
            raise
        for folder in self.mails.folders:
            together.enter(folder)

    def keep(self, query: QueryFile, out: str) -> None:
        from .._live_maildir import LiveMaildir

        self.mails.volume.fetch(query.formula)
        live = LiveMaildir(out, self.mails, query.formula, tell)
        try:
            live.begin()
        except BaseException:
            live.close()
            raise
        self.out_of[query.path] = live
        self.together.enter(live.folder)

    def forget(self, path: str) -> None:
        live = self.out_of.pop(path)
        self.together.leave(live.folder)
        live.close()

    def turn(self, due: List[Folder]) -> None:
        self.due, self.keys = due, []
        for folder in self.mails.folders:
            if folder in due:
                self.together.turn(folder)
                self.keys += self.mails.hear(folder)

    def settle(self, path: str) -> None:
        live = self.out_of[path]
        if live.folder in self.due:
            live.hear(self.together.turn(live.folder))
        live.follow(self.keys)
        live.settle()

    def is_waiting(self) -> bool:
        return any(live.keys for live in self.out_of.values())

    def close(self) -> None:
        for folder in self.mails.folders:
            self.together.leave(folder)
        self.mails.close()


class Queries:
    """All queries of some files."""

    def __init__(self, given: argparse.Namespace) -> None:
        self.given = given
        self.stamps: Dict[str, Stamp] = {}
        self.mirrors: Dict[Disk, Mirror] = {}
        self.mirror_of: Dict[str, Mirror] = {}  # that of each query that is kept, by the path of its file
        self.again: Dict[str, float] = {}
        self.told: Dict[str, str] = {}
        self.together = Together([])

    def files(self) -> List[str]:
        found: List[str] = []
        for path in self.given.paths:
            if not os.path.isdir(path):
                found.append(path)
                continue
            try:
                found += [os.path.join(path, it) for it in sorted(os.listdir(path)) if it.endswith(SUFFIX)]
            except OSError as error:
                self.fault(path, f"{path}: {error.strerror}")
        return found

    def look(self) -> None:
        """Follows what became of the files."""
        stamps: Dict[str, Stamp] = {}
        for path in self.files():
            try:
                found = os.stat(path)
                stamps[path] = found.st_ino, found.st_size, found.st_mtime_ns
            except OSError as error:
                if path in self.given.paths:
                    self.fault(path, f"{path}: {error.strerror}")
        for path in [it for it in self.stamps if it not in stamps]:
            if path in self.mirror_of:
                self.say(f"{path}: it is gone, and its links stay")
            self.forget(path)
            self.told.pop(path, None)
        now = time.monotonic()
        for path, stamp in stamps.items():
            is_new = self.stamps.get(path) != stamp
            if is_new or (path in self.again and now >= self.again[path]):
                self.forget(path)
                if is_new:
                    self.told.pop(path, None)
                self.take(path)
        self.stamps = stamps

    def take(self, path: str) -> None:
        """Keeps the query of a file, or says why not."""
        try:
            query = read(path)
            out = query.links or query.maildir
            if out is not None:
                self.keep(query, out)
        except FAULTS as error:
            self.fault(path, self.reason(path, error))
            self.again[path] = time.monotonic() + AGAIN

    @staticmethod
    def reason(path: str, error: BaseException) -> str:
        line = reason(error)[0]
        return line if line.startswith(path) else f"{path}: {line}"

    def keep(self, query: QueryFile, out: str) -> None:
        disk = query.folder, tuple(query.skip), query.maildir is not None
        mirror = self.mirrors.get(disk)
        try:
            if mirror is None:
                mirror = MailMirror(query.folder, self.together) if disk[2] else FolderMirror(disk, self.together)
                self.mirrors[disk] = mirror
            mirror.keep(query, out)
        except BaseException:
            self.drop_unused()
            raise
        self.mirror_of[query.path] = mirror
        self.say(f"{query.path}: keeps {out}: {query.formula}")

    def forget(self, path: str) -> None:
        """Keeps the query of a file no more."""
        self.again.pop(path, None)
        mirror = self.mirror_of.pop(path, None)
        if mirror is not None:
            mirror.forget(path)
            self.drop_unused()

    def drop_unused(self) -> None:
        for disk in [it for it, mirror in self.mirrors.items() if not mirror.out_of]:
            self.mirrors.pop(disk).close()

    def fault(self, path: str, line: str) -> None:
        """Says a fault once, until there is another one."""
        if self.told.get(path) != line:
            self.told[path] = line
            tell(line)

    def say(self, line: str) -> None:
        if not self.given.quiet:
            tell(line)

    def fail(self, paths: List[str], error: BaseException) -> None:
        """What some queries need has gone; they are tried again."""
        for path in paths:
            self.fault(path, self.reason(path, error))
            self.forget(path)
            self.again[path] = time.monotonic() + AGAIN

    def turn(self, seconds: float) -> None:
        """Follows the folders for a while."""
        is_waiting = any(it.is_waiting() for it in self.mirrors.values())
        due = self.together.due(min(seconds, SOON) if is_waiting else seconds)
        for mirror in [*self.mirrors.values()]:
            try:
                mirror.turn(due)
            except FAULTS as error:
                self.fail([*mirror.out_of], error)
                continue
            for path in [*mirror.out_of]:
                try:
                    mirror.settle(path)
                except FAULTS as error:
                    self.fail([path], error)


def follow(given: argparse.Namespace) -> None:
    queries = Queries(given)
    look_at = 0.0
    while True:
        if time.monotonic() >= look_at:
            queries.look()
            look_at = time.monotonic() + 1
        queries.turn(SECONDS)


def install(given: argparse.Namespace) -> int:
    """Writes a unit for systemd, and says what it wrote."""
    command = shutil.which(NAME) or os.path.abspath(sys.argv[0])
    words = [os.path.abspath(it) for it in given.paths]
    home = os.environ.get("XDG_CONFIG_HOME") or os.path.join(os.path.expanduser("~"), ".config")
    path = os.path.join(home, "systemd", "user", f"{NAME}.service")
    text = UNIT.format(words=_escaped(" ".join(words)), command=" ".join(_quoted(it) for it in [command, *words]))
    os.makedirs(os.path.dirname(path), exist_ok=True)
    with open(f"{path}.new", "w", encoding="utf-8", errors="surrogateescape") as file:
        file.write(text)
    os.replace(f"{path}.new", path)
    tell(f"wrote {path}; this starts it now and at each login: systemctl --user enable --now {NAME}")
    return 0


def _escaped(word: str) -> str:
    return word.replace("\\", "\\\\").replace("%", "%%").replace("\n", "\\n")


def _quoted(word: str) -> str:
    """A word of a command as systemd reads it."""
    word = _escaped(word).replace('"', '\\"').replace("$", "$$")
    return f'"{word}"'


def parser() -> argparse.ArgumentParser:
    it = argparse.ArgumentParser(
        prog=NAME, usage="%(prog)s [OPTION ..] FILE ..|DIR",
        description="Keeps the smart folders and mail folders that files of queries ask for, by one process.",
        allow_abbrev=False,
    )  # fmt: skip
    it.add_argument("paths", metavar="FILE", nargs="+", help=f"a file of a query, or a folder of files *{SUFFIX}")
    it.add_argument("--install", action="store_true", help="write a unit for systemd --user, and end")
    it.add_argument("-q", "--quiet", action="store_true", help="don't say what is kept")
    it.add_argument("--version", action="version", version=f"%(prog)s {__version__}")
    return it


def run(words: Optional[List[str]]) -> int:
    given = parser().parse_args(words)
    for path in given.paths:
        if not os.path.exists(path):
            raise Trouble(f"{path}: there is no such file or folder", UNUSABLE)
    if given.install:
        return install(given)
    follow(given)
    return 0


def main(words: Optional[List[str]] = None) -> int:
    """The command."""
    return carried_out(NAME, lambda: run(words))


if __name__ == "__main__":
    sys.exit(main())
