#!/usr/bin/env python3
"""The relay with a step that takes longer: slowed.py STEP SECONDS HUNG WORDS.. sleeps so long before STEP the first
TIMES times, and holds the relay for hung after HUNG seconds without progress. Where SECONDS is `dies` it is killed at
that step. Without a step, STEP is `none`. Where STEP is `sends`, it is killed where it writes for the SECONDS-th time:
the first three stand for the first time, before what it writes is sent, after a half, and after all of it."""
import os, runpy, signal, sys, threading, time

from case import RELAY

import yazgoulm

from beyond import batches, engine, server, windows

TIMES = 2
STEPS = {
    "size": (yazgoulm.Volume, "answer"),  # of a result, and each change
    "open": (yazgoulm.Volume, "open"),
    "rows": (yazgoulm.Query, "result"),
    "values": (yazgoulm.Volume, "fetch"),
    "write": (batches.Batches, "derive"),
    "save": (yazgoulm.Volume, "save"),
    "snapshot": (batches.Batches, "write_snapshot"),
    "pieces": (batches.Batches, "piece"),
    "load": (yazgoulm.Volume, "load"),
    "windows": (windows.Windows, "restore"),
    "replay": (server.Relay, "carry_out"),
    "compare": (server.Relay, "compare"),
}


def slow(step, seconds):
    """Has a step take longer, or end the program."""
    holder, name = STEPS[step]
    act, left = getattr(holder, name), [TIMES]

    def slowed(*given, **named):
        if left[0]:
            left[0] -= 1
            if seconds == "dies":
                os.kill(os.getpid(), signal.SIGKILL)
            time.sleep(float(seconds))
        return act(*given, **named)

    setattr(holder, name, slowed)


def die_at(number):
    """Ends the program where it writes."""
    send, (left, part) = engine.Log.send, divmod(number - 1, 3)
    count = iter(range(left, -1, -1))

    def send_or_die(log, *commands):
        if threading.current_thread() is threading.main_thread() and next(count) == 0:  # no sign of life
            sent = commands[: len(commands) * part // 2]
            if sent:
                connection = log.redis.connection
                connection.send_packed_command(connection.pack_commands(sent))
            os.kill(os.getpid(), signal.SIGKILL)
        return send(log, *commands)

    engine.Log.send = send_or_die


def main(step, seconds, hung, *words):
    if step == "sends":
        die_at(int(seconds))
    elif step != "none":
        slow(step, seconds)
    if hung != "none":
        from beyond import pulse

        pulse.HUNG = float(hung)
    sys.argv = [RELAY, *words]
    runpy.run_path(RELAY, run_name="__main__")


main(*sys.argv[1:])
