"""A user's file that touches each public name of the package, for a type checker: see .ci/static. It isn't run."""
import pathlib
from typing import Dict, List, Optional, Tuple, Union

import yazgoulm

text: str = yazgoulm.__version__ + yazgoulm.backend + yazgoulm.quote("a*") + yazgoulm.to_name(b"a")
raw: bytes = yazgoulm.to_bytes(text)
kinds: Tuple[yazgoulm.Kind, yazgoulm.Kind] = (yazgoulm.FILE, yazgoulm.FOLDER)
opcodes: List[yazgoulm.Opcode] = [
    yazgoulm.B_ENTRY_CREATED, yazgoulm.B_ENTRY_REMOVED, yazgoulm.B_ENTRY_MOVED, yazgoulm.B_STAT_CHANGED,
    yazgoulm.B_ATTR_CHANGED,
]  # fmt: skip


def changes(volume: yazgoulm.Volume) -> int:
    applied: yazgoulm.Applied = volume.create("a", yazgoulm.ROOT, size=200, attributes={"author": "ann", "year": 2024})
    volume.set(applied.node, "rating", 5, yazgoulm.Type.LONG)
    batch: List[yazgoulm.Applied] = volume.apply([("create", "b"), ("write", applied.node, 300)])
    print(batch)
    attribute: yazgoulm.Attribute = volume.attribute(applied.node, "rating")
    value: Union[str, int] = attribute.value
    info: yazgoulm.Info = volume.entry(applied.node)
    kind: yazgoulm.Kind = info.kind
    types: Dict[str, yazgoulm.Type] = info.types
    entries: List[yazgoulm.Entry] = volume.fetch("size>$1", [100])
    print(value, kind, types, entries, volume.children(), volume.path(applied.node), volume.find("a"))
    return volume.changes


class Own(yazgoulm.Volume):
    pass


def saved(own: Own) -> Tuple[Own, Own]:
    own.save(b"saved")
    own.save(pathlib.Path("saved"))
    own.save(1)
    return Own.load("saved"), own.copy()


def in_folder(path: str) -> Optional[yazgoulm.Kept]:
    try:
        with yazgoulm.Volume(path, sync=100) as volume:
            print(volume.replayed, volume.dropped)
            volume.sync()
            return volume.kept()
    except (yazgoulm.BadSave, yazgoulm.Locked, yazgoulm.NotKept) as refused:
        print(refused.code)
    return None


def refusals(volume: yazgoulm.Volume) -> Optional[str]:
    try:
        volume.fetch("size>")
    except yazgoulm.BadQuery as bad:
        return f"{bad.place} {bad.text}"
    except yazgoulm.BadSave as bad:
        return f"{bad.fault} {bad.place} {bad.node}"
    except (yazgoulm.BadName, yazgoulm.BadValues, yazgoulm.Exists, yazgoulm.NoMemory, yazgoulm.NotEmpty) as refused:
        return refused.name
    except (yazgoulm.NotFolder, yazgoulm.NotFound, yazgoulm.Refused) as refused:
        return f"{refused.code} {refused.call} {refused.reason}"
    except yazgoulm.Error:
        return None
    return ""


def windows(volume: yazgoulm.Volume, formula: yazgoulm.Formula) -> Optional[int]:
    pushes: yazgoulm.Formula = [yazgoulm.Attr("size"), 100, yazgoulm.Op.GT]
    with volume.open(formula, values=True) as window, volume.open(pushes, moved=True) as other:
        slot: Optional[int] = window.slot
        for message in window:
            op: yazgoulm.Opcode = message.op
            if op == yazgoulm.B_ENTRY_CREATED:
                print(message.name, message.from_dir, op.name)
        latest: Optional[yazgoulm.Message] = other.read(timeout=0.1)
        mark: Optional[yazgoulm.Mark] = other.mark
        cause: Optional[yazgoulm.Cause] = mark.cause if mark else None
        rows: yazgoulm.Rows = window.rows
        row: Optional[yazgoulm.Row] = rows.get(2)
        place: Optional[yazgoulm.Place] = row.place if row else None
        result: yazgoulm.Result = window.result()
        try:
            difference: yazgoulm.Difference = window.reopen()
        except yazgoulm.Overrun as overrun:
            return overrun.change
        query: yazgoulm.Query = window
        print(latest, cause, place, result.entries, difference.moved, query.formula)
    return slot


async def awaited(window: yazgoulm.Query) -> str:
    async for message in window:
        return message.name
    return ""
