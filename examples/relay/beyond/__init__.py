"""A relay over a log that an engine keeps, in order from the engine to the user.

    engine    streams of records, by Redis
    pulse     signs of life of a relay, by a thread of their own
    batches   the log of what the relay took, and what it alone writes
    changes   which lines are changes, what the others are answered, and which were answered before
    snapshot  a saved volume in pieces, and what a relay knows beside it
    opening   a result in parts, as it is written and read
    window    a live query, and the records that its clients read
    windows   the table of windows, their names, and the answers to requests
    tries     which requests the relays were at that have ended
    server    takes changes and requests in order, and writes what they give
    serving   serves until it is stopped, and begins again where the engine had gone
    status    what the relay is doing, for whoever watches over it
    producer  sends changes, each once
    client    asks for a window, and folds what comes
"""
import contextlib


class Trouble(Exception):
    """Why the command can't go on, in one line, and its exit status."""

    def __init__(self, line, status):
        super().__init__(line)
        self.status = status


UNUSABLE = 2  # the command can't begin with its arguments, or another relay is at work
ENDED = 3  # something that it needs has gone, or the log isn't what this program would write
UNREAD = 141  # nobody reads standard output, as after SIGPIPE


@contextlib.contextmanager
def reading(what):
    """Trouble where something that is stored can't be read: another program, or a hand, has written it."""
    try:
        yield
    except (ValueError, LookupError, TypeError, AttributeError, RecursionError) as error:
        raise Trouble(f"{what} isn't what this program writes: {error!r}", ENDED) from None
