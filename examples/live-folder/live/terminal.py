"""Shows one window as lines of text: the rows that are there, and then each message but those of attributes."""
import time

from yazgoulm import B_ATTR_CHANGED, B_STAT_CHANGED

from .command import say

SIGNS = {"B_ENTRY_CREATED": "+", "B_ENTRY_REMOVED": "-", "B_ENTRY_MOVED": ">", "B_STAT_CHANGED": "~"}


def show(mirror, formula):
    """Opens a window and writes its rows; from then on each message is written once it is read."""

    def heard(_, message):
        if message.op == B_ATTR_CHANGED:
            return
        places = [mirror.shown(message.dir, message.name)]
        if message.from_dir is not None:
            places.insert(0, mirror.shown(message.from_dir, message.from_name))
        values = values_of(mirror.server, message.node) if message.op == B_STAT_CHANGED else ""
        say(f"{SIGNS[message.op.name]} {' > '.join(places)}{values}")

    window = mirror.server.open(formula, values=True)
    window.heard = heard
    for path in sorted(mirror.shown(*row) for row in window.rows.values()):
        say(f"= {path}")
    return window


def values_of(server, node):
    """The size and the date of an entry as lq has them now. Nothing where it has gone meanwhile: a later message says
    so."""
    entry = server.ask("entry", node=node)
    return "" if "error" in entry else f": {entry['size']} bytes, {date(entry['time'])}"


def date(seconds):
    """A time in seconds since 1970, as this machine's clock would show it."""
    try:
        return time.strftime("%Y-%m-%d %H:%M:%S", time.localtime(seconds))
    except (OverflowError, OSError, ValueError):  # a file may have a time that no calendar has
        return str(seconds)
