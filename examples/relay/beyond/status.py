"""What the relay is doing, for whoever watches over it."""
import json

from . import reading
from .engine import NOBODY, SILENT


def status(log):
    """What the log and the relay's last sign of life say. `relay` is None where no relay serves."""
    life, state = log.life("memory", "windows") or {}, log.state()
    age, serves = life.get("age"), state.get("relay", NOBODY)
    with reading(f"{log.key('log')} or {log.key('life')}"):
        taken, windows = int(state.get("taken", 0)), json.loads(life.get("windows", "{}"))
        return {
            "name": log.name,
            "relay": serves.decode() if life and age < SILENT and serves != NOBODY else None,
            "age": age and round(age, 3),
            "taken": taken,
            "change": int(state.get("change", 0)),
            "lag": log.lag(taken + int(state.get("skipped", 0))),
            "windows": [{"window": int(number), **it} for number, it in windows.items()],
            "memory": {"relay": int(life.get("memory", 0)), **log.memory()},
        }
