"""`yazgoulm-mail MAILDIR [FORMULA..]` prints the mail of a Maildir that matches a formula, and what happens to it.

    $ yazgoulm-mail Mail 'size>500'
    yazgoulm-mail: follows Mail: size>500 (Ctrl-C ends)
    = Lunch
    + Photos
    ~ Photos (Read)
    - Lunch

A line has a sign and a subject: `=` it is there at the start, `+` it has come, `-` it has left. `~`: it matches as
before, and was written anew or has another status. That status comes last. Without a formula it shows the new mail.
With several, each line begins with its formula and a tab. A formula can ask for:

- `MAIL:status`, `New` or `Read`; `MAIL:from` and `MAIL:subject`;
- `MAIL:flags`, the letters after `:2,` in the name of the message's file, as `FS`;
- `size`, and `last_modified`, when the message's file was written.

The flags are:

- `--json` prints an object in each line, with `change` ("there", "came", "left" or "changed"), `formula`, `key` (the
  name of the message's file without its flags), `from`, `subject` and `status`. Of one that has left these are as
  printed before.
- `--quiet` leaves out the lines that say what is followed or kept, which go to standard error.
- A file in MAILDIR's place is a query as for `yazgoulm-queries`, and what it says is done.
- `--maildir OUT` prints no lines, and keeps OUT a Maildir whose messages are links to the mail that matches, with the
  names that the mail has. It is given once for each formula, in their order.

A mail reader uses OUT as any Maildir. A flag that it sets, or a message that it takes from `new` to `cur`, is done to
the mail itself; and what is done to the mail shows in OUT. Where both have changed a message, it gets what either has
changed. A mail that no longer matches goes, two seconds later where the reader's own act has done it. A removal in OUT
isn't carried over: the link comes back. A reader that names messages anew gets the old names back, so mbsync needs
`AltMap yes`.

OUT is made, or taken if it is empty or has a mark of this Maildir, the file `.yazgoulm`. What the command didn't make
there it never removes or replaces; a name that is taken is said, and its mail isn't shown. The links stay at the end,
and the next start mends what has changed. An OUT that is moved or removed is said, and the others are kept.

A formula that surely finds nothing is carried out, and warned of on standard error. Names that begin with a dot, what
is in folders of `cur` and `new`, empty files, and what is no file aren't mail. A file that can't be read is said, and
read once it can be.

The status is 2 if it can't begin, as with a formula that can't be read, whose fault is marked, or without such a
Maildir or OUT. It is 3 if the Maildir, or the last OUT, has gone, and 141 if nobody reads its output any more."""
import argparse, json, os, sys, time
from typing import Any, Callable, Dict, Iterator, List, NoReturn, Optional, Tuple

from . import Overrun, Volume, __version__
from ._formulas import Words, said, warnings
from ._live_maildir import AT_ONCE, LiveMaildir
from ._maildir import FOLDERS
from ._mails import Mails, need, need_folder
from ._text import printable
from .folder import Folder, FolderGone, _terminal
from .folder._folder import SECONDS
from .folder._query_file import read as read_query
from .folder._terminal import ENDED, UNUSABLE, Progress, Trouble, Unread, carried_out, is_read, need_output, say
from .folder._together import Together

NAME = "yazgoulm-mail"
SOON = 0.02  # seconds until what couldn't be done is tried again
CHANGES = {"=": "there", "+": "came", "-": "left", "~": "changed"}
# What the entries of a Maildir have.
WORDS = Words(
    ("name", "size", "last_modified", "MAIL:status", "MAIL:flags", "MAIL:from", "MAIL:subject"),
    lambda attr: False,
    few={"MAIL:status": ("New", "Read")},
)
EXAMPLES = """
A line has a sign and a subject: = it is there at the start, + it has come, - it has left, ~ it has another status.

  %(prog)s ~/Mail
  %(prog)s ~/Mail 'MAIL:flags==*F*' --maildir ~/Flagged
  %(prog)s ~/Mail 'MAIL:from=="*<ann@*"' 'size>1000000' 'MAIL:subject=="*[Ll]unch*" && MAIL:status==New'

Put each formula in quotes. It can ask for MAIL:status (New or Read), MAIL:flags (the letters of Maildir), MAIL:from,
MAIL:subject, size and last_modified.
"""
Row = Dict[str, object]  # what is printed of a message


class Window:
    """The messages that match a formula, by what the query sends and nothing else. Of what has happened between two
    looks it tells what is left of it: nothing of a message that has come and gone."""

    def __init__(self, volume: Volume, formula: str, backlog: int = 65_536) -> None:
        self.volume, self.formula = volume, formula
        self.query = volume.open(formula, values=True, backlog=backlog)
        self.shown = {node: self._row(node) for node in self.query.rows}  # as they were told, by their nodes

    def _row(self, node: int) -> Row:
        entry = self.volume.entry(node)
        return {"key": entry.name, **{it: entry.attributes[f"MAIL:{it}"] for it in ("from", "subject", "status")}}

    def follow(self) -> List[Tuple[str, Row]]:
        """Applies the messages that wait. Returns what has happened: a sign, and what is printed."""
        nodes: Dict[int, object] = {}
        try:
            for message in self.query:
                nodes[message.node] = None
        except Overrun:  # more messages than the backlog has room for: the query is opened again
            self.query.reopen()
            nodes = {**self.shown, **dict.fromkeys(self.query.rows)}
        return [it for node in nodes for it in self._told(node)]

    def _told(self, node: int) -> Iterator[Tuple[str, Row]]:
        old = self.shown.pop(node, None)
        if node in self.query.rows:
            new = self.shown[node] = self._row(node)
            if new != old:
                yield "+" if old is None else "~", new
        elif old is not None:
            yield "-", old


def tell(line: str) -> None:
    _terminal.tell(NAME, line)


def line(given: argparse.Namespace, formula: str, sign: str, row: Row) -> str:
    """What is printed of a message that is there, has come, has left or has another status."""
    if given.json:
        return json.dumps({"change": CHANGES[sign], "formula": formula, **row})
    said = f"{sign} {printable(str(row['subject']))}"
    if sign == "~":
        said += f" ({row['status']})"
    return f"{printable(formula)}\t{said}" if len(given.formulas) > 1 else said


def begin(given: argparse.Namespace, mails: Mails) -> None:
    """Looks at all mail, and shows how far that is where it takes long."""
    progress = Progress(NAME, given.quiet)
    try:
        mails.begin(lambda number: progress.show(f"{number:,} mails so far"))
    except OSError as error:
        gone(given, error)
    finally:
        progress.end()


def show(given: argparse.Namespace) -> None:
    """Prints what each folder has, and then what happens to it, without end."""
    if not given.quiet:
        tell(f"follows {given.maildir}: {', '.join(given.formulas)} (Ctrl-C ends)")
    mails = Mails(given.maildir, tell)
    begin(given, mails)
    windows = [Window(mails.volume, formula) for formula in given.formulas]
    for window in windows:
        for row in window.shown.values():
            say(line(given, window.formula, "=", row))
    together, test_at = Together(mails.folders), 0.0
    while True:
        due = together.due(SECONDS)
        if time.monotonic() >= test_at:
            test_at = time.monotonic() + SECONDS
            if not is_read():
                raise Unread()
        try:
            for folder in due:
                together.turn(folder)
                mails.hear(folder)
        except OSError as error:
            gone(given, error)
        for window in windows:
            for sign, row in window.follow():
                say(line(given, window.formula, sign, row))


class Keeper:
    """Keeps live Maildirs, without end."""

    def __init__(self, given: argparse.Namespace) -> None:
        self.given, self.mails = given, Mails(given.maildir, tell)
        self.lives = [LiveMaildir(out, self.mails, it, tell) for out, it in zip(given.outs, given.formulas)]
        self.together = Together([*self.mails.folders, *(live.folder for live in self.lives)])

    def keep(self) -> NoReturn:
        if not self.given.quiet:
            for live in self.lives:
                tell(f"keeps {live.path}: {live.formula} (Ctrl-C ends)")
        begin(self.given, self.mails)
        for live in [*self.lives]:
            self._carry_out(live, self._begin)
        while True:
            is_waiting = any(live.keys for live in self.lives)
            due = self.together.due(SOON if is_waiting else SECONDS)
            keys = self._hear_mails(due)
            for live in [*self.lives]:
                self._carry_out(live, self._turn, live.folder in due, keys)

    def _hear_mails(self, due: List[Folder]) -> List[str]:
        """Has what happened to the mail in the volume. Returns the keys of the mails."""
        keys = []
        try:
            for folder in self.mails.folders:
                if folder in due:
                    self.together.turn(folder)
                    keys += self.mails.hear(folder)
        except OSError as error:
            gone(self.given, error)
        return keys

    def _begin(self, live: LiveMaildir) -> None:
        live.begin()
        for _ in range(len(live.keys) // AT_ONCE + 1):
            live.settle()
            live.hear(self.together.turn(live.folder))
        if not self.given.quiet:
            tell(f"{live.path} has {len(live.query.rows):,} of {len(self.mails.messages):,} mails")

    def _turn(self, live: LiveMaildir, is_due: bool, keys: List[str]) -> None:
        if is_due:
            live.hear(self.together.turn(live.folder))
        live.follow(keys)
        live.settle()

    def _carry_out(self, live: LiveMaildir, act: Callable[..., None], *words: Any) -> None:
        """Does something for a live Maildir. One that can't be kept any more is said, and the others are kept."""
        try:
            act(live, *words)
        except (OSError, Trouble) as error:
            line, _ = _terminal.reason(error)
            self.lives.remove(live)
            self.together.leave(live.folder)
            live.close()
            if not self.lives:
                raise Trouble(line, ENDED) from None
            tell(line)


def gone(given: argparse.Namespace, error: OSError) -> NoReturn:
    """Ends the command, as the Maildir can't be followed any more."""
    for part in FOLDERS:
        need_folder(os.path.join(given.maildir, part), ENDED)
    raise Trouble(error.strerror if isinstance(error, FolderGone) else f"{error.filename}: {error.strerror}", ENDED)


def parser() -> argparse.ArgumentParser:
    it = argparse.ArgumentParser(
        prog=NAME, usage="%(prog)s [OPTION ..] MAILDIR [FORMULA ..]",
        description="Prints the mail of a Maildir that matches a formula, and then what happens to it.",
        epilog=EXAMPLES, formatter_class=argparse.RawDescriptionHelpFormatter, allow_abbrev=False,
    )  # fmt: skip
    it.add_argument("maildir", metavar="MAILDIR", nargs="?", help="a folder with the folders new and cur")
    it.add_argument("formulas", metavar="FORMULA", nargs="*", help="what to look for; without one, new mail")
    it.add_argument(
        "--maildir", metavar="OUT", dest="outs", action="append", default=[],
        help="keep OUT a Maildir of links to the mail that matches, and print no lines; once for each FORMULA, in order",
    )  # fmt: skip
    it.add_argument("--json", action="store_true", help="print an object in each line")
    it.add_argument("-q", "--quiet", action="store_true", help="don't say what is followed")
    it.add_argument("--version", action="version", version=f"%(prog)s {__version__}")
    return it


def test_outs(it: argparse.ArgumentParser, given: argparse.Namespace) -> None:
    """There is one live Maildir for each formula, or none at all."""
    if given.outs and len(given.outs) != len(given.formulas):
        it.error(
            f"here are {len(given.formulas)} formulas and --maildir {len(given.outs)} times: give one for each formula, "
            "in their order, and put each formula in quotes"
        )
    if len({os.path.realpath(out) for out in given.outs}) < len(given.outs):
        it.error("one folder is given to --maildir twice")
    if given.outs and given.json:
        it.error("--json goes with no --maildir, since nothing is printed then")


def take_query(given: argparse.Namespace) -> None:
    """Takes what the file of a query asks for. A --maildir that was given goes before."""
    query = read_query(given.maildir)
    if query.links:
        raise Trouble(f"{query.path} is a query of links: yazgoulm-folder takes it", UNUSABLE)
    given.maildir, given.formulas = query.folder, [query.formula]
    if query.maildir and not given.outs and not given.json:
        given.outs = [query.maildir]


def run(words: Optional[List[str]]) -> None:
    it = parser()
    given = it.parse_intermixed_args(words)
    if given.maildir is None:
        it.error(f"which Maildir? For example: {NAME} ~/Mail")
    if os.path.isfile(given.maildir):
        if given.formulas:
            it.error(f"{given.maildir} is a file of a query, which has its formula")
        take_query(given)
    if not given.outs:
        need_output()
    given.formulas = given.formulas or ["MAIL:status==New"]
    test_outs(it, given)
    need(given.maildir)
    with Volume() as volume:
        for formula in given.formulas:
            volume.fetch(formula)
    for formula in given.formulas:
        for warned in warnings(formula, WORDS):
            _terminal.warn(NAME, said(formula, warned))
    if given.outs:
        Keeper(given).keep()
    show(given)


def main(words: Optional[List[str]] = None) -> int:
    """The command."""
    return carried_out(NAME, lambda: run(words))


if __name__ == "__main__":
    sys.exit(main())
