"""Appends changes to the log, each once, and has their replies. `load` sends a tree of files."""
import json, os, stat, time, uuid

from . import ENDED, Trouble, reading
from .client import Follower
from .engine import SECONDS, Gone, order

LINES = 1000  # lines that are sent before their replies are awaited
ROOT = 1
NAMES = 30  # names that are looked up at a time, at most
FORMULA = 3000  # bytes of their formula or so


class Producer:
    """An entry of the log has its line, and `by`: a word of this producer's alone, and the line's number.

    A program that was stopped goes on with the `key` of before, and with the number of the first line whose reply it
    hasn't: the relay does each number of a key once, and remembers the last 10,000 changes. Two programs that run at
    once need two keys."""

    def __init__(self, log, key=None, sent=0):
        self.log, self.me, self.sent, self.goes_on = log, key or uuid.uuid4().hex[:12], sent, bool(key)

    def change(self, **fields):
        """Sends one change. Returns its reply."""
        return self.send([json.dumps(fields).encode()])[0]

    def send(self, lines):
        """Sends lines in order, and waits for their replies. Each is appended once, also where the engine goes away and
        nobody knows what it has: then this looks which of them stand in the log."""
        replies = []
        for at in range(0, len(lines), LINES):
            part = lines[at : at + LINES]
            records = {f"{self.me}-{self.sent + number}".encode(): line for number, line in enumerate(part)}
            self.sent += len(part)
            replies += self.sent_once(records)
        return replies

    def sent_once(self, records):
        """Appends these records, by their `by`, and returns their replies."""
        start = self.log.wait_for(lambda: (self.log.end("changes"), self.log.end("replies")))
        places = {}
        while True:
            try:
                missing = [by for by in records if by not in places]
                found = self.log.append("changes", [{"by": by, "line": records[by]} for by in missing])
                places.update(zip(missing, found))
                return self.replies(start[1], [places[by] for by in records])
            except Gone:
                places = self.log.wait_for(lambda: self.places(start[0], records))

    def places(self, position, records):
        """The positions of those of these records that stand in the log after a position."""
        places = {}
        while found := self.log.read({"changes": position}, LINES):
            for position, record in found["changes"]:
                if record.get(b"by") in records:
                    places[record[b"by"]] = position
        return places

    def replies(self, position, places):
        """The replies to the entries at these places, in their order."""
        wanted, replies, end = {*places}, {}, time.monotonic() + SECONDS
        while len(replies) < len(wanted):
            records = self.log.read({"replies": position}, LINES, 1).get("replies", [])
            for position, record in records:
                if record.get(b"of") in wanted:
                    with reading(f"{self.log.key('replies')} {position.decode()}"):
                        replies[record[b"of"]] = json.loads(record[b"reply"])
                    end = time.monotonic() + SECONDS
            self.check_kept([it for it in places if it not in replies], records[-1:] or self.log.first("replies"))
            if time.monotonic() > end:
                raise Trouble(f"no relay answers for {self.log.name}", ENDED)
        return [replies[place] for place in places]

    def check_kept(self, missing, found):
        """Trouble where a reply is missing, and one to a later change stands there: replies come in order."""
        for position, record in found:
            with reading(f"{self.log.key('replies')} {position.decode()}"):
                is_past = missing and order(record[b"of"]) > order(missing[0])
            if is_past:
                where = f"{self.log.key('changes')} {missing[0].decode()}"
                raise Trouble(f"{where} was taken, and its reply isn't kept any more", ENDED)


def load(producer, folder, say):
    """Sends all that is in a folder, level by level, since an entry needs the node of its folder. Returns how many
    entries stand then, and how many were refused. Under a key an entry may stand from before, and the relay doesn't
    remember that: then it is looked up, and gone into."""
    level, count, refused = [(folder, ROOT)], 0, 0
    while level:
        found = [(path, line) for folder, dir in level for path, line in lines_of(folder, dir, say)]
        replies = producer.send([json.dumps(line).encode() for _, line in found])
        there = [line for (_, line), reply in zip(found, replies) if reply.get("error") == "Exists"]
        nodes, level = standing(producer.log, there) if producer.goes_on else {}, []
        for (path, line), reply in zip(found, replies):
            node = reply.get("node") or nodes.get((line["dir"], line["name"]))
            if node is None:
                say(f"refused: {path!r}: {reply['error']}")
                refused += 1
                continue
            count += 1
            if line.get("kind") == "folder":
                level.append((path, node))
    return count, refused


def standing(log, lines):
    """The nodes of the entries that stand where these lines would create some, by their folders and names."""
    wanted, nodes = {(line["dir"], line["name"]) for line in lines}, {}
    for formula in formulas(sorted({name for _, name in wanted})):
        follower = Follower(log, f"load {uuid.uuid4().hex}", formula)
        log.wait_for(follower.begin)
        nodes.update((place, node) for node, place in follower.rows.items() if place in wanted)
        log.wait_for(lambda: log.append("windows", [{"name": follower.name}]))
    return nodes


def formulas(names):
    """Formulas that find the entries of these names, some at a time."""
    parts, size = [], 0
    for name in names:
        quoted = "".join(f"\\{it}" if it in '*?[\\"' else it for it in name)
        parts.append(f'name=="{quoted}"')
        size += len(parts[-1].encode())
        if len(parts) == NAMES or size > FORMULA:
            yield "||".join(parts)
            parts, size = [], 0
    if parts:
        yield "||".join(parts)


def lines_of(folder, dir, say):
    """The path of each entry of a folder, and the line that creates it under the folder's node."""
    try:
        entries = sorted(os.scandir(folder), key=lambda it: it.name)
    except OSError as error:
        return say(f"not read: {folder!r}: {error.strerror}") or []
    lines = []
    for it in entries:
        try:
            lines.append((it.path, line_of(it, dir)))
        except (OSError, UnicodeEncodeError) as error:
            say(f"left out: {it.path!r}: {error}")
    return lines


def line_of(entry, dir):
    entry.name.encode()  # a name that is not UTF-8 has none
    found = entry.stat(follow_symlinks=False)
    fields = {"do": "create", "dir": dir, "name": entry.name}
    if stat.S_ISDIR(found.st_mode):
        return {**fields, "kind": "folder"}
    return {**fields, "size": found.st_size, "time": int(found.st_mtime)}
