"""Several folders that one thread follows."""
import math, select, time
from typing import Dict, Iterable, List

from ._folder import PACE, Folder, Turned


class Together:
    """Folders that one thread follows: it waits until a turn of one of them is due."""

    def __init__(self, folders: Iterable[Folder]) -> None:
        self._due: Dict[Folder, float] = {it: -math.inf for it in folders}
        self._turned_at = -math.inf
        self._waiting = select.poll()
        for folder in [*self._due]:
            self.enter(folder)

    def enter(self, folder: Folder) -> None:
        """Follows a folder too, whose turn is due at once."""
        self._due[folder] = -math.inf
        if folder.fileno() >= 0:
            self._waiting.register(folder.fileno(), select.POLLIN)

    def wake(self, folder: Folder) -> None:
        """The turn of a folder is due at once, as after a window was opened."""
        self._due[folder] = -math.inf

    def due(self, seconds: float) -> List[Folder]:
        """The folders whose turn is due. Where none is, it waits for one, at most so many seconds."""
        next_due = min(self._due.values(), default=math.inf) - time.monotonic()
        ready = {fd for fd, _ in self._waiting.poll(math.ceil(1000 * max(0.0, min(seconds, next_due))))}
        early = self._turned_at + PACE - time.monotonic()
        if early > 0:  # fewer turns cost less, where much happens
            time.sleep(early)
        now = time.monotonic()
        return [it for it, due in self._due.items() if due <= now or it.fileno() in ready]

    def turn(self, folder: Folder) -> Turned:
        """Makes a turn of a folder."""
        turned = folder.turn()
        self._turned_at = time.monotonic()
        pause = math.inf if turned.due is None else turned.due
        self._due[folder] = self._turned_at + (0 if turned.more else pause)
        return turned

    def leave(self, folder: Folder) -> None:
        """Follows a folder no more, which is open still."""
        del self._due[folder]
        if folder.fileno() >= 0:
            self._waiting.unregister(folder.fileno())
