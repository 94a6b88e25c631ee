"""A folder's files that match a formula, as an iterator of what happens to them."""
from typing import Any, Callable, Iterable, NamedTuple, Optional, Tuple

from ._folder import Folder, Path, Turned, Window
from ._lines import SIGNS, Line


class Change(NamedTuple):
    """What happened to a file that matches. `what` is:

    - "there": it matches at the start;
    - "came": it matches from now on;
    - "left": it matches no longer, or it has gone;
    - "moved": it matches at another path, and `old_path` is the one before;
    - "changed": it was written, replaced, or given other attributes, and matches as before.

    `path` begins with the path that `watch` was given. `os.fsencode` gets the bytes of a name that is no UTF-8."""

    what: str
    path: str
    old_path: Optional[str] = None

    @property
    def sign(self) -> str:
        """One character for `what`: = + - > ~."""
        return SIGNS[self.what]


class Watched(Folder):
    """A folder with one window, which is opened once everything was looked at."""

    def __init__(self, path: Path, formula: str, **more: Any) -> None:
        self.formula = formula
        self.window: Optional[Window] = None
        self.entries = 0
        super().__init__(path, **more)
        try:
            self.volume.fetch(formula)
        except BaseException:
            self.close()
            raise

    def turn(self) -> Turned:
        turned = super().turn()
        self.entries = turned.entries
        if turned.listed and self.window is None:
            self._locked(self._open_once)
        return turned

    def _open_once(self) -> None:
        if self.window is None and not self._is_closed:
            self.window = self.open(self.formula)

    def counts(self) -> Tuple[int, int]:
        """How many entries match, and how many there are."""
        if self.window is None or self._is_closed:
            return 0, 0
        return len(self.window.rows()), self.entries


class Watch:
    """What happens to the files of a folder that match a formula: see `watch`.

    It is an iterator, whose steps wait for the next change, and an asynchronous one. It ends once it is closed, and as
    a context manager it is closed at the end. FolderGone is raised by each step after the folder has gone."""

    def __init__(
        self, path: Path, formula: str, skip: Iterable[str], poll: Optional[float], tell: Optional[Callable[[str], Any]]
    ) -> None:
        self._folder = Watched(path, formula, skip=skip, poll=poll, tell=tell)

    def close(self) -> None:
        """Ends the watch. It may be called again, and on any thread."""
        self._folder.close()

    def __enter__(self) -> "Watch":
        return self

    def __exit__(self, *_: Any) -> None:
        self.close()

    def begin(self) -> Tuple[int, int]:
        """Reads the folder, if that wasn't done: else the first step does it, and it may take long.

        Returns how many entries match, and how many there are."""
        folder = self._folder
        if folder.window is None and not folder._is_closed:
            try:
                folder.begin()
            except ValueError:
                if not folder._is_closed:  # by another thread
                    raise
        counts: Tuple[int, int] = folder._locked(folder.counts)
        return counts

    def waits(self) -> bool:
        """Whether a change is there, so that `read` gives it at once."""
        folder = self._folder
        while not folder._waits():
            if folder.window is None or folder._is_closed or not folder._has_more:
                return False
            folder._turn_if_open()
        return True

    def read(self, timeout: Optional[float] = None) -> Optional[Change]:
        """The next change, which it waits for: at most `timeout` seconds, if one is given. None: none came, or the
        watch is closed."""
        if self._folder.window is None:
            self.begin()
        line = self._folder.read(timeout)
        return None if line is None else _change(line)

    def __iter__(self) -> "Watch":
        return self

    def __next__(self) -> Change:
        change = self.read()
        if change is None:
            raise StopIteration
        return change

    def __aiter__(self) -> "Watch":
        return self

    async def __anext__(self) -> Change:
        return _change(await self._folder.__anext__())


def _change(line: Line) -> Change:
    if line.what == "anew":
        raise MemoryError("what was told holds no more, since memory ran out: watch the folder anew")
    return Change(line.what, line.path, line.old_path)


def watch(
    path: Path,
    formula: str = "name==*",
    *,
    skip: Iterable[str] = (),
    poll: Optional[float] = None,
    tell: Optional[Callable[[str], Any]] = None,
) -> Watch:
    """Follows the files and folders below a folder, and gives what happens to those that match a formula.

    First it gives each path that matches, as "there"; then each change. A set to which each `path` is added, and from
    which each `old_path` and each `path` that left is taken, is right after each look at the disk.

    A formula can ask for `name`, `iname`, `size`, `last_modified`, `kind`, and extended attributes: see `Folder.open`.
    A folder's size and time are 0. The path is a str, bytes or a path of pathlib.

    - `skip` has patterns of names that aren't looked at, as [".git"], nor what is in such a folder.
    - With `poll`, everything is looked at after so many seconds. Without it that is so only where the system tells
      nothing, as of a network's file system, or has no watches left.
    - `tell` is given a line for what goes wrong and doesn't end the watch, as `Folder` has it. If it isn't given, the
      logger "yazgoulm.folder" warns.

    BadQuery: the formula can't be read. FileNotFoundError, NotADirectoryError, PermissionError: nor can the folder."""
    return Watch(path, formula, skip, poll, tell)
