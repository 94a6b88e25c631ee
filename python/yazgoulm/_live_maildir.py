"""A Maildir of links to the messages of another one that match a formula."""
import errno, itertools, os, time
from typing import Any, Callable, Dict, List, Optional, Set

from . import Overrun, to_bytes, to_name
from ._maildir import FLAGS, FOLDERS, SKIPPED, File, Files, Place, place_in
from ._mails import Mails
from .folder import Folder, Turned
from .folder._own import Links, Own, rename_new, target_of
from .folder._terminal import UNUSABLE, Trouble
from .folder._text import shown

# How long a link stays, in seconds, whose mail doesn't match any more by what a reader did to the link: a reader that goes
# by the time of a folder doesn't see what happens in the second of its own act.
STAY = 2.0
AT_ONCE = 1_000  # links that are looked at from one turn to the next
ABOUT = "yazgoulm-mail keeps links to mail here. It leaves alone what it didn't make."


def merged(key: str, base: Place, one: Place, other: Place) -> Place:
    """The place that a message gets which was at `base`, and to which two programs gave places since: what either has
    changed. Of two that differ in a flag, one has changed it."""
    if one == base:
        return other
    if other in (base, one):
        return one
    folder = one.folder if one.folder != base.folder else other.folder
    before, first, second = {*base.flags}, {*one.flags}, {*other.flags}
    flags = "".join(sorted((first & second) | ((first ^ second) - before)))
    return Place(folder, f"{key}{FLAGS}{flags}" if flags or folder == "cur" else key)


class LiveMaildir:
    """A Maildir, made at a path or taken there, whose messages are links to the mails that match a formula, each with
    the name that its mail has.

    A link leads to the place that its mail had when the two were last alike. So what a mail reader did to the link, and
    what was done to the mail, is known by the two names, after a restart too, and is done to the other one. A link that
    was removed is made again. What the folders tell may be old: each act is made only where the link, and the mail, are
    where they were told to be, and else waits for the next turn."""

    def __init__(self, path: str, mails: Mails, formula: str, tell: Callable[[str], Any]) -> None:
        self.path, self.mails, self.formula, self.tell = path, mails, formula, tell
        self.real = os.path.join(os.path.realpath(mails.path), "")
        _test_place(path, self.real)
        self.own = Own(path, "maildir", self.real.rstrip("/"), formula, ABOUT, 0o700)
        self.fds: Dict[str, int] = {}
        try:
            for name in (*FOLDERS, "tmp"):
                self.fds[name] = self._opened(name)
            self.maker = Links(self.fds["tmp"], lambda target: place_in(target, self.real) is not None)
            self.folder = Folder(path, skip=SKIPPED, attributes=False, tell=tell)
            self._leave_out(True)
            self.query = mails.volume.open(formula)
        except BaseException:
            self._let_go()
            raise
        self.files = Files(path, self._mail_at, self._part_left)
        self.keys: Dict[str, None] = {}  # of what is to be looked at
        self.made: Dict[str, None] = {}  # the keys of links that were made, and that the folder hasn't told yet
        self.later: Dict[str, float] = {}  # until when a link stays at least, by the keys, in the order of time
        self.told: Set[Place] = set()  # places that something else has, as was told

    def _opened(self, name: str) -> int:
        try:
            os.mkdir(name, 0o700, dir_fd=self.own.fd)
        except FileExistsError:
            pass
        try:
            return os.open(name, os.O_RDONLY | os.O_DIRECTORY | os.O_NOFOLLOW, dir_fd=self.own.fd)
        except OSError as error:
            raise Trouble(f"{self.path}/{name}: {error.strerror}", UNUSABLE) from None

    def _let_go(self) -> None:
        for fd in self.fds.values():
            os.close(fd)
        self.fds.clear()
        self.own.close()

    def close(self) -> None:
        """Leaves the folder as it is."""
        self.query.drop()
        self.folder.close()
        self._leave_out(False)
        self._let_go()

    def _leave_out(self, is_out: bool) -> None:
        """Has the folders of the mail leave this one out, where it is below them, or no longer."""
        if os.path.join(os.path.realpath(self.path), "").startswith(self.real):
            for folder in self.mails.folders:
                folder._leave_out(self.own.fd, is_out)

    # ---- what has happened

    def begin(self) -> None:
        """Looks at all that is there, and at all that matches."""
        self.query.reopen()
        self.keys.update(self.files.begin(self.folder))
        self.keys.update(dict.fromkeys(os.fsdecode(to_bytes(row.name)) for row in self.query.entries))

    def hear(self, turned: Turned) -> None:
        """Takes what the folder tells after a turn."""
        keys = self.files.hear(self.folder)
        self.keys.update(keys)
        for key in keys:
            self.made.pop(key, None)
        if turned.settled and not turned.more:  # a link that was made, and isn't told now, has gone again
            self.keys.update(self.made)
            self.made.clear()

    def follow(self, keys: List[str]) -> None:
        """Takes what has happened to mails of these keys."""
        self.keys.update(dict.fromkeys(keys))
        try:
            for _ in self.query:
                pass
        except Overrun:
            self.query.reopen()

    def _mail_at(self, place: Place) -> Optional[Place]:
        """Where the link at a place leads. None: it is something else."""
        target = target_of(place.name, self.fds[place.folder])
        return None if target is None else place_in(target, self.real)

    def _part_left(self, path: str) -> None:
        raise FileNotFoundError(errno.ENOENT, "it was moved or removed, so the mail isn't kept there any more", path)

    # ---- what is done

    def settle(self) -> None:
        """Makes links right whose mail or which were told of: some of them, so that the folder has a turn before too much
        has happened in it. What can't be done yet is tried again by a later call."""
        now = time.monotonic()
        for key in [*itertools.takewhile(lambda key: self.later[key] <= now, self.later)]:
            del self.later[key]
            self.keys[key] = None
        for key in [*itertools.islice(self.keys, AT_ONCE)]:
            del self.keys[key]
            if not self._settle(key):
                self.keys[key] = None

    def _settle(self, key: str) -> bool:
        """Makes a mail's link right. False: what was told is old."""
        message = self.mails.messages.get(key)
        mail = message.place if message else None
        is_in = message is not None and message.node is not None and message.node in self.query.rows
        is_in = is_in or (mail is not None and key in self.later)
        files = self.files.by_key.get(key)
        if not files:
            return mail is None or not is_in or key in self.made or self._make(key, mail)
        # a link that a mail reader has renamed counts, beside others
        link = min(files.values(), key=lambda it: (it.place == it.of, it.place != mail, it.place))
        if is_in and link.place == link.of == mail:
            return all([self._remove(it) for it in files.values() if it is not link])
        if target_of(link.place.name, self.fds[link.place.folder]) != self._target(link.of):
            return False
        if mail is None or not os.path.lexists(self._target(mail)):
            return mail is None and self._remove(link)
        goal = self._agreed(key, link, mail)
        if goal is None:
            return False
        return self._bring(link, goal) if is_in or key in self.later else self._remove(link)

    def _agreed(self, key: str, link: File, mail: Place) -> Optional[Place]:
        """The place that a link and its mail get, where the mail is then. None: what was told is old."""
        wanted = Place(link.place.folder, key + link.place.name[len(link.place.key) :])
        goal = merged(key, link.of, wanted, mail)
        if goal != mail:
            try:
                rename_new(self._target(mail), None, self._target(goal), None)
            except FileNotFoundError:
                return None
            except OSError as error:
                self.tell(f"{self._shown(mail)}: it can't be {shown(to_name(goal.path))}: {error.strerror}")
                return mail
            self.later.pop(key, None)
            self.later[key] = time.monotonic() + STAY
        return goal

    def _bring(self, link: File, goal: Place) -> bool:
        """Brings a link to a place, and has it lead there. False: what was told is old, or the place is taken. Then the
        link goes, and is made once it is free."""
        place, fd = link.place, self.fds[goal.folder]
        try:
            if place != goal:
                rename_new(place.name, self.fds[place.folder], goal.name, fd)
        except FileExistsError:
            self._remove(link)
            return False
        except FileNotFoundError:
            return False
        return link.of == goal or self.maker.relink(goal.name, fd, self._target(link.of), self._target(goal))

    def _remove(self, link: File) -> bool:
        return self.maker.remove(link.place.name, self.fds[link.place.folder], self._target(link.of))

    def _make(self, key: str, mail: Place) -> bool:
        """Makes a mail's link."""
        try:
            os.symlink(self._target(mail), mail.name, dir_fd=self.fds[mail.folder])
        except FileExistsError:
            if target_of(mail.name, self.fds[mail.folder]) != self._target(mail) and mail not in self.told:
                self.told.add(mail)
                self.tell(f"{shown(to_name(f'{self.path}/{mail.path}'))} is something else, so a mail isn't shown")
            return True
        self.told.discard(mail)
        self.made[key] = None
        return True

    def _target(self, place: Place) -> str:
        return self.real + place.path

    def _shown(self, place: Place) -> str:
        return shown(to_name(self.real + place.path))


def _test_place(path: str, maildir: str) -> None:
    """A live Maildir isn't within the folders of the mail."""
    real = os.path.join(os.path.realpath(path), "")
    for name in (*FOLDERS, "tmp"):
        if real.startswith(f"{maildir}{name}/"):
            raise Trouble(f"{path} is in {maildir}{name}, which is for mail alone: name another folder", UNUSABLE)
