"""`yazgoulm-folder DIR [FORMULA]` prints the files of a folder that match a formula, and then what happens to them.

    $ yazgoulm-folder docs 'name==*.txt && size>100'
    yazgoulm-folder: follows docs: name==*.txt && size>100 (Ctrl-C ends)
    = docs/plan.txt
    yazgoulm-folder: 1 of 31 entries match
    + docs/notes/draft.txt
    > docs/notes/draft.txt > docs/draft.txt
    ~ docs/draft.txt
    - docs/draft.txt

A line has a sign and a path:

- `=`: it matches at the start;
- `+`: it matches from now on;
- `-`: it matches no longer, or it has gone;
- `>`: it has moved, from the first path to the second;
- `~`: it was written, and matches as before;
- `!`: memory ran out: what was printed holds no more, and `=` lines with all that matches follow.

Lines that begin with the command's name go to standard error; `--quiet` leaves out those two. A byte of a name that is
no UTF-8 is printed as `\\xf6`, and a backslash as two. A character that could control a terminal or be invisible is
printed as `\\x1b` or `\\u202e`.

- `--json` prints an object in each line, with `change` ("there", "came", "left", "moved" or "changed"), `path` and
  `old_path`. What hasn't left has `size`, `time` (seconds since 1970), `kind`, `attributes`, and as they were read
  `inode`, `ctime` and `mtime` (nanoseconds since 1970). Names are as `to_name` gives them, and `to_bytes` gets the
  bytes back.
- `--columns size,time,user.rating` prints after the sign what the entry has of these, with a tab after each: `size`,
  `time`, `kind`, `inode`, `ctime`, `mtime` or an extended attribute.
- `--print0`, or `-0`, prints paths alone, as they are, each with a NUL after it, as for `xargs -0`; none for what left.
- `--count` prints how many match, and ends. `--new` leaves out what matches at the start, and `--once` all else.
- `-i` asks for names in either case: it writes `iname` for `name`, and folds the case of what that is compared with.
- `--exec COMMAND` has `sh` run COMMAND for each change after the start, one after the other. `$1` is the sign, `$2` the
  path, and `$3` the old path of a move. `--batch COMMAND` runs it once for all changes that have come, and gives it
  their lines as its input. What happens meanwhile comes next.
- `--page` shows windows as a page to this machine's browsers, one for each formula, and prints its address; in a box on
  it more windows can be opened. A window is a table of name, folder, size, time and kind, and of the attributes that
  its formula or `--columns` names. `--port PORT` chooses the port. Other programs of this machine can connect too.
- `--screen` shows the window as a table in the terminal, sorted, as `htop` does. Its last line names the keys.
- `--links OUT` keeps in the folder OUT a symbolic link to each entry that matches, and prints no lines: see `Links`.
  With `--tree` they are in folders, as their entries are. With `--relative` they lead from their own place. At the end
  they stay, and the next start makes the difference alone. `--clear` takes them away, and with `--once` they are made
  right one time.
- A file in DIR's place is a query as for `yazgoulm-queries`, and what it says is done.
- `--skip NAME` passes over entries of this name, which may have `*`, `?` and `[..]`, and what is inside. It may be
  given again.
- `--poll SECONDS` looks at everything after so many seconds, as for a network's file system that doesn't tell.

A formula that surely finds nothing is carried out, and warned of on standard error: a number that is compared with a
word, a `kind` that there isn't, an attribute that no entry has. On a terminal a listing of over a second shows how far
it is.

The status is:

- 0: `--once` has printed what matches, or `--count` how many;
- 2: it can't begin, as without such a folder, or with a formula that can't be read, whose fault is marked;
- 3: something that it needs has gone: the folder, or room for its output;
- 141: nobody reads its output any more.

Each folder takes a watch of inotify (`/proc/sys/fs/inotify/max_user_watches`), but with `--once`, `--count` and
`--poll`; where no watches are left, folders are looked at again and again. A name that has over 255 bytes as a text,
which one that is no UTF-8 may have, is told and passed over."""
import argparse, os, re, sys
from typing import Any, List, Optional

from .. import __version__, to_name
from .._formulas import folded, others, said, warnings
from . import _terminal
from ._calls import fold
from ._folder import SECONDS, Folder, FolderGone, Turned
from ._lines import Line, as_object
from ._query_file import SUFFIX, QueryFile
from ._query_file import read as read_query
from ._terminal import ENDED, UNUSABLE, Progress, Trouble, Unread, carried_out, is_read, need_output, say, write
from ._text import shown
from ._words import WORDS, attributes, missing

NAME = "yazgoulm-folder"
EXAMPLES = """
A line has a sign and a path:
  =  it matches at the start      >  it has moved, from the first path to the second
  +  it matches from now on       ~  it was written, and matches as before
  -  it matches no longer, or has gone

  %(prog)s . 'name==*.txt'
  %(prog)s . 'name==*.py' --skip .git --batch 'make test'
  %(prog)s photos '(name==*.jpg || name==*.png) && size>1000000' --new -0 | xargs -0 -n 1 ls -l
  %(prog)s . 'last_modified>1700000000 && kind==file' --json
  %(prog)s music 'name==*.ogg && user.rating:number>3' -i --once --columns size,user.rating
  %(prog)s . 'name==*.txt' 'size>1000' --page

Put the formula in quotes. It can ask for name, iname (the name with its case folded), size, last_modified (seconds
since 1970), kind (file, folder, link or other), extended attributes as user.rating, and user.rating:number, by == != <
<= > >= and && || ! ( ).
"""
COLUMNS = "size", "time", "kind", "inode", "ctime", "mtime"


def parser() -> argparse.ArgumentParser:
    it = argparse.ArgumentParser(
        prog=NAME, usage="%(prog)s [OPTION ..] DIR [FORMULA ..]",
        description="Prints the files of a folder that match a formula, and then what happens to them.",
        epilog=EXAMPLES, formatter_class=argparse.RawDescriptionHelpFormatter, allow_abbrev=False,
    )  # fmt: skip
    it.add_argument("dir", metavar="DIR", nargs="?", help="the folder; all below it is looked at")
    it.add_argument("formulas", metavar="FORMULA", nargs="*", help="what to look for; without one, everything")
    how = it.add_mutually_exclusive_group()
    how.add_argument("--json", action="store_true", help="print an object in each line")
    how.add_argument("--columns", metavar="NAMES", type=_columns, help="print these too, as size,time,user.rating")
    how.add_argument("-0", "--print0", action="store_true", help="print paths alone, with a NUL after each")
    how.add_argument("--links", metavar="OUT", help="keep in the folder OUT a link to each that matches")
    it.add_argument("--page", action="store_true", help="show windows as a page, and print its address")
    it.add_argument("--screen", action="store_true", help="show the window as a table in this terminal")
    run = it.add_mutually_exclusive_group()
    words = "$1 is the sign, $2 the path, $3 the old path"
    run.add_argument("--exec", metavar="COMMAND", help=f"run COMMAND by sh for each change: {words}")
    run.add_argument("--batch", metavar="COMMAND", help="run COMMAND by sh for all changes that have come")
    run.add_argument("--once", action="store_true", help="print what matches at the start, and end")
    run.add_argument("--count", action="store_true", help="print how many match, and end")
    it.add_argument("--tree", action="store_true", help="keep links in folders, as their entries are")
    it.add_argument("--relative", action="store_true", help="have links lead from their own place")
    it.add_argument("--clear", action="store_true", help="take the links away, and end")
    it.add_argument("-i", "--ignore-case", action="store_true", help="ask for names in either case")
    it.add_argument("--new", action="store_true", help="leave out what matches at the start")
    it.add_argument("--skip", metavar="NAME", action="append", default=[], help="pass over entries of this name")
    it.add_argument("--poll", metavar="SECONDS", type=_seconds, help="look at everything after so many seconds")
    it.add_argument("--port", type=_port, default=0, help="the port of --page; if 0, the system chooses one")
    it.add_argument("-q", "--quiet", action="store_true", help="don't say what is followed")
    it.add_argument("--version", action="version", version=f"%(prog)s {__version__}")
    return it


def _port(word: str) -> int:
    if not re.fullmatch("[0-9]{1,5}", word) or int(word) > 65535:
        raise argparse.ArgumentTypeError(f"{word!r} is no port from 0 to 65535")
    return int(word)


def _seconds(word: str) -> float:
    if not re.fullmatch(r"[0-9]{1,6}(\.[0-9]{1,6})?", word) or float(word) == 0:
        raise argparse.ArgumentTypeError(f"{word!r} is no number of seconds above 0")
    return float(word)


def _columns(word: str) -> List[str]:
    names = word.split(",")
    for name in names:
        if name not in COLUMNS and "." not in name:
            known = ", ".join(COLUMNS)
            raise argparse.ArgumentTypeError(f"{name!r} is none of {known}, nor an attribute as user.rating")
    return names


def tell(line: str) -> None:
    _terminal.tell(NAME, line)


def warn(formula: str) -> None:
    """Says what is wrong with a formula that can be read."""
    for it in warnings(formula, WORDS):
        _terminal.warn(NAME, said(formula, it))


def warn_of_others(folder: Folder, formula: str) -> None:
    """Says which attributes of a formula no entry has, once all were looked at."""
    for it in missing(folder, formula):
        _terminal.warn(NAME, said(formula, it))


class Printer:
    """Writes lines, and runs what is to be run for them."""

    def __init__(self, given: argparse.Namespace, folder: Folder) -> None:
        self.given, self.folder = given, folder
        self.command = given.exec or given.batch
        self.encoding = sys.stdout.encoding or "utf-8"
        self.is_plain = not (given.json or given.print0 or given.columns or self.command)

    def text(self, line: Line, encoding: str = "utf-8") -> bytes:
        """What is written for a line."""
        if self.given.print0:
            return b"" if line.what in ("left", "anew") else os.fsencode(line.path) + b"\0"
        if self.given.json:
            return self.object(line)
        return f"{self.words(line)}\n".encode(encoding, "backslashreplace")

    def words(self, line: Line) -> str:
        old = "" if line.old_path is None else f"{_shown(line.old_path)} > "
        return f"{line.sign} {self.columns(line) if self.given.columns else ''}{old}{_shown(line.path)}"

    def columns(self, line: Line) -> str:
        has = attributes(self.folder, line) if any("." in it for it in self.given.columns) else {}
        if line.what != "left":
            has.update({it: getattr(line, it) for it in COLUMNS})
        return "".join(f"{shown(str(has.get(it, '')))}\t" for it in self.given.columns)

    def object(self, line: Line) -> bytes:
        import json  # which few need

        return json.dumps(as_object(line, attributes(self.folder, line))).encode() + b"\n"

    def take_all(self) -> None:
        """Takes the lines that wait: all at once for `--batch`, and else some at a time."""
        if self.given.batch:
            return self.take([it for more in iter(self.folder.lines, []) for it in more])
        while True:
            text = self.folder._printed() if self.is_plain else b""
            found = [] if text else self.folder.lines()
            if text:
                write(text)
            if found:
                self.take(found)
            if not (found or self.folder._has_lines):
                return

    def take(self, lines: List[Line]) -> None:
        if self.given.exec:
            for line in lines:
                write(self.text(line, self.encoding))
                self.run_for(line)
        else:
            write(b"".join([self.text(line, self.encoding) for line in lines]))
        if self.given.batch:
            changes = b"".join([self.text(line) for line in lines if line.what != "there"])
            if changes:
                self.run([], input=changes)

    def run_for(self, line: Line) -> None:
        if line.what not in ("there", "anew"):
            self.run([os.fsencode(it) for it in (line.sign, line.path, line.old_path or "")])

    def run(self, words: List[bytes], **more: Any) -> None:
        import subprocess  # which few need

        done = subprocess.run(["/bin/sh", "-c", self.command, "sh", *words], **more)
        if done.returncode:
            how = f"status {done.returncode}" if done.returncode > 0 else f"signal {-done.returncode}"
            tell(f"the command failed with {how}")


def _shown(path: str) -> str:
    """A path for people."""
    if path.isascii() and path.isprintable() and "\\" not in path:
        return path
    return shown(to_name(path))


def needs_attributes(given: argparse.Namespace, formula: str) -> bool:
    """Whether anything that is printed may depend on extended attributes. To read them takes a fifth of a look."""
    if not (given.once or given.count) or given.json:
        return True
    return any("." in it for it in given.columns or ()) or bool(others(formula, WORDS))


def follow(given: argparse.Namespace, formula: str) -> Optional[int]:
    is_once = given.once or given.count
    how = {"once": is_once, "attributes": needs_attributes(given, formula)}
    with Folder(given.dir, skip=given.skip, poll=given.poll, tell=tell, **how) as folder:
        folder.volume.fetch(formula)
        warn(formula)
        if not given.quiet and not is_once:
            tell(f"follows {shown(to_name(given.dir))}: {formula} (Ctrl-C ends)")
        turned = listed(folder, given.quiet)
        window = folder.open(formula, there=not (given.new or given.count))
        match = len(window.rows()) if given.count or not (given.quiet or is_once) else 0
        if given.count:
            say(str(match))
        printer = Printer(given, folder)
        printer.take_all()
        while folder.turn().more:  # lines of the opening, which come by many turns
            printer.take_all()
        printer.take_all()
        warn_of_others(folder, formula)
        if is_once:
            return 0
        if not given.quiet:
            tell(f"{match:,} of {turned.entries:,} entries match")
        follow_on(folder, printer)
    return None


def listed(folder: Folder, is_quiet: bool) -> Turned:
    """Looks at everything, and shows how far that is where it takes long."""
    progress = Progress(NAME, is_quiet)
    try:
        return folder.begin(lambda turned: progress.show(f"{turned.entries:,} entries so far"))
    except FolderGone as gone:
        raise Trouble(gone.strerror, ENDED) from None
    finally:
        progress.end()


def follow_on(folder: Folder, printer: Printer) -> None:
    """Prints what happens, without end."""
    try:
        while True:
            if folder._comes(SECONDS):
                printer.take_all()
            elif not is_read():
                raise Unread()
    except OSError as error:
        raise Trouble(error.strerror or str(error), ENDED) from None


def show_page(given: argparse.Namespace) -> None:
    from ._web import ADDRESS, Http, Site

    with Folder(given.dir, skip=given.skip, poll=given.poll, tell=tell) as folder:
        for formula in given.formulas:
            folder.volume.fetch(formula)
            warn(formula)
        http = Http(given.port)
        if not given.quiet:
            tell(f"follows {shown(to_name(given.dir))}, as a page (Ctrl-C ends)")
        turned = listed(folder, given.quiet)
        with Site(http, folder, given.formulas, given.columns or ()) as site:
            for formula in given.formulas:
                warn_of_others(folder, formula)
            say(f"http://{ADDRESS}:{http.server_port}/")
            try:
                while True:
                    site.wait(turned)
                    turned = site.turn()
            except OSError as error:
                raise Trouble(error.strerror or str(error), ENDED) from None


def show_screen(given: argparse.Namespace, formula: str) -> None:
    from ._screen import Screen, Terminal

    screen = Screen(Terminal(), formula, given.columns or ())
    with Folder(given.dir, skip=given.skip, poll=given.poll, tell=screen.tell) as folder:
        folder.volume.fetch(formula)
        try:
            screen.show(folder)
        except OSError as error:
            raise Trouble(error.strerror or str(error), ENDED) from None


def keep_links(given: argparse.Namespace, formula: str) -> int:
    from ._links import Links, clear, following

    out = shown(to_name(given.links))
    if given.clear:
        count = clear(given.dir, given.links, tell)
        if not given.quiet:
            tell(f"took {count:,} links out of {out}")
        return 0
    with Folder(given.dir, skip=given.skip, poll=given.poll, once=given.once, tell=tell) as folder:
        how = {"tree": given.tree, "relative": given.relative}
        with Links(folder, formula, given.links, tell=tell, **how) as links:
            warn(formula)
            if not given.quiet and not given.once:
                tell(f"keeps {out}: {formula} (Ctrl-C ends)")
            listed(folder, given.quiet)
            links.begin()
            is_said = given.quiet
            try:
                for turned in following(folder, lambda: [links]):
                    if not (turned.more or is_said):
                        tell(f"{out} has {len(links):,} of {turned.entries:,} entries")
                        is_said = True
                    if given.once and not turned.more:
                        return 0 if links.failed is None else ENDED
            except OSError as error:
                raise Trouble(error.strerror or str(error), ENDED) from None
    return 0


def _query_of(path: str) -> Optional[QueryFile]:
    """What a file in a folder's place asks for. None: a folder is there, or a file that isn't of a query."""
    if not os.path.isfile(path):
        return None
    try:
        return read_query(path)
    except Trouble:
        if path.endswith(SUFFIX):
            raise
        return None


def _take(query: QueryFile, given: argparse.Namespace) -> None:
    """Takes what a file of a query asks for. Options that were given beside it go before."""
    if query.maildir:
        raise Trouble(f"{query.path} is a query of a Maildir: yazgoulm-mail takes it", UNUSABLE)
    given.dir, given.formulas, given.skip = query.folder, [query.formula], [*query.skip, *given.skip]
    prints = given.json or given.print0 or given.columns or given.exec or given.batch or given.count or given.new
    if query.links is not None and not (prints or given.page or given.screen):
        given.links = given.links or query.links
        given.tree, given.relative = given.tree or query.tree, given.relative or query.relative
    elif query.columns and given.links is None and not (given.json or given.print0 or given.columns):
        try:
            given.columns = _columns(query.columns)
        except argparse.ArgumentTypeError as error:
            raise Trouble(f"{query.path}: columns: {error}", UNUSABLE) from None


def run(words: Optional[List[str]]) -> Optional[int]:
    it = parser()
    given = it.parse_intermixed_args(words)
    if given.dir is None:
        it.error(f"which folder? For example: {NAME} . 'name==*.txt'")
    need_output()
    query = _query_of(given.dir)
    if query is not None:
        if given.formulas:
            it.error(f"{given.dir} is a file of a query, which has its formula")
        _take(query, given)
    if given.ignore_case:
        given.formulas = [folded(formula, fold) for formula in given.formulas]
    if given.page or given.screen:
        others = given.exec, given.batch, given.once, given.new, given.count, given.json, given.print0, given.links
        if any(others) or (given.page and given.screen):
            which, also = ("page", "screen") if given.page else ("screen", "page")
            none = f"--exec, --batch, --once, --count, --new, --json, --print0, --links and --{also}"
            it.error(f"--{which} goes with none of {none}")
    if given.page:
        show_page(given)
        return 0
    if given.links is None and (given.tree or given.relative or given.clear):
        it.error("--tree, --relative and --clear go with --links OUT")
    if given.links is not None and (given.exec or given.batch or given.new or given.count):
        it.error("--links goes with none of --exec, --batch, --count and --new")
    if len(given.formulas) > 1:
        it.error(
            f"here are {len(given.formulas)} formulas, and only --page takes more than one: put a formula in quotes, "
            "so that the shell leaves it alone, and join two by || in one"
        )
    formula = given.formulas[0] if given.formulas else "name==*"
    if given.screen:
        show_screen(given, formula)
        return 0
    return follow(given, formula) if given.links is None else keep_links(given, formula)


def main(words: Optional[List[str]] = None) -> int:
    """The command."""
    return carried_out(NAME, lambda: run(words))
