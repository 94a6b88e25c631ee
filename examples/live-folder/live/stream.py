"""Sends the changes to a relay, in place of lq: examples/relay carries them out, and has the windows."""
import contextlib, json, os, sys

from .command import UNUSABLE, Trouble

sys.path.append(os.path.join(os.path.dirname(os.path.realpath(__file__)), "../../relay"))

import beyond
from beyond.engine import Gone, Log, need_redis
from beyond.producer import Producer


@contextlib.contextmanager
def as_ours():
    try:
        yield
    except beyond.Trouble as trouble:
        raise Trouble(str(trouble), trouble.status) from None


class Stream:
    """Makes changes as Server does. It has no windows, and no pipe that reports an end."""

    pipe = None

    def __init__(self, url, name, tell):
        self.tell = tell
        with as_ours():
            need_redis()
            log = Log(url, name)
            self.producer = Producer(log)
            try:
                taken = int(log.state().get("taken", 0))
            except Gone as gone:
                raise Trouble(f"{url}: {gone}", UNUSABLE) from None
        if taken:
            raise Trouble(f"{name} has changes already, and a folder needs a volume that has none", UNUSABLE)

    def change(self, do, **fields):
        """Makes a change. Returns its node, or None where the relay refuses it."""
        with as_ours():
            reply = self.producer.change(do=do, **fields)
        if "error" in reply:
            self.tell(f"the relay refused {do} {json.dumps(fields)}: {reply['error']}")
        return reply.get("node")
