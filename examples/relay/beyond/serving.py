"""Serves until it is stopped, and begins again where the engine had gone."""
import contextlib, signal

from yazgoulm import NoMemory

from . import ENDED, Trouble
from .engine import Gone, Pause


class Stopped(BaseException):
    """SIGTERM has come, at any place: whatever a relay leaves half written, the next one writes."""


def stop(*_):
    raise Stopped()


def serve(relay, say, warn, is_standby=False):
    """Serves a relay's name. A standby waits until no other relay does."""
    signal.signal(signal.SIGTERM, stop)
    relay.batches.pulse.start(warn)
    try:
        if is_standby:
            say(f"stands by for {relay.log.name}")
        serve_always(relay, say, warn, is_standby)
    except Stopped:
        signal.signal(signal.SIGTERM, signal.SIG_IGN)
        with contextlib.suppress(Gone):
            relay.batches.release(relay.tries.noted)
    except NoMemory:
        raise Trouble("there is no memory for the next change", ENDED) from None


def serve_always(relay, say, warn, is_standby):
    pause = Pause()
    while True:
        try:
            relay.begin(is_standby)
            say(f"serves {relay.log.name} from change {relay.change}, with {len(relay.windows)} windows")
            while True:
                relay.turn()
                pause.reset()
        except Gone as gone:
            warn(f"begins again{pause.words()}: {gone}")
            pause.wait()
            relay.log.wait_for(relay.log.state)
