"""Which lines are changes, and which were answered before. All other lines are refused, as lq refuses them, and never
reach the volume."""
import json, zlib

from yazgoulm import Volume

WORDS = {"create", "remove", "move", "write", "set", "unset"}
BAD_LINE = {"code": 33, "error": "BadLine"}
ANSWERED = 10_000  # changes whose replies are remembered


def is_change(line):
    """Whether a line asks for a change, if lq accepts it. One with two fields of a name doesn't."""
    try:
        asked = json.loads(line, object_pairs_hook=fields)
    except (ValueError, RecursionError):
        return False
    return isinstance(asked, dict) and isinstance(asked.get("do"), str) and asked["do"] in WORDS


def fields(pairs):
    found = dict(pairs)
    if len(found) < len(pairs):
        raise ValueError("two fields of a name")
    return found


def refusal(line):
    """The reply to a line that is no change: what a volume of its own answers, or BadLine where that one accepts it."""
    with Volume() as volume:
        reply = json.loads(volume.answer(line) or "{}")
    return reply if reply.get("code", 0) in range(30, 34) else BAD_LINE


class Answered:
    """The replies to the last changes that say who sent them (`by`). One that is sent again gets the reply of the
    first, and isn't done again; another line under the same `by` is refused."""

    def __init__(self, items=()):
        self.replies = {by: (line, reply) for by, line, reply in items}

    def find(self, by, line):
        """The reply to a change that was answered, or None."""
        found = self.replies.get(name(by))
        if found is None:
            return None
        return found[1] if found[0] == zlib.crc32(line) else BAD_LINE

    def add(self, by, line, reply):
        if by is not None:
            self.replies.setdefault(name(by), (zlib.crc32(line), reply))
        if len(self.replies) > ANSWERED:
            del self.replies[next(iter(self.replies))]

    def items(self):
        return [(by, *it) for by, it in self.replies.items()]


def name(by):
    """What a change says of who sent it, as a text of any bytes."""
    return None if by is None else by.decode("latin-1")
