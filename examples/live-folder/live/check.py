"""Compares the entries of lq with the disk, and a window with the entries of lq."""
from old_mirror.disk import look_below
from old_mirror.mirror import ROOT
from yazgoulm import Query, to_name

from .command import printable


def is_same(mirror, window, say):
    """Compares each entry, by `entry` alone, and the window, with `fetch` and `result`."""
    server = mirror.server
    held = entries_of(server)
    below = look_below(mirror.root.name)
    disk = {to_name(path): seen and (seen.size, seen.time, seen.attrs) for path, seen in below.items()}
    wrong = [path for path in sorted({*held, *disk}) if held.get(path) != disk.get(path)]

    fetched = server.ask("fetch", query=window.formula)["result"]
    result = result_of(server, window)
    rows = {row["node"]: (row["dir"], row["name"]) for row in fetched}
    is_same_window = fetched == result and window.rows == rows

    say(f"{len(disk)} entries on disk, {len(wrong)} differ; "
        f"window of {len(fetched)} entries after {window.told} messages: "
        f"{'the same' if is_same_window else 'DIFFERS'}; {server.refused} lines refused")
    for path in wrong[:9]:
        say(printable(f"{path}: lq has {held.get(path)}, on disk {disk.get(path)}"))
    return is_same_window and not wrong


def result_of(server, window):
    """The result of a window by its messages: of a query of the package, or of a slot of `lq run`."""
    if isinstance(window.messages, Query):
        return [place._asdict() for place in window.messages.result().entries]
    return server.ask("result", slot=window.slot)["result"]


def entries_of(server):
    """Size, time and attributes of each entry of lq, by its path from the root."""
    nodes = [row["node"] for row in server.ask("fetch", query="name==*")["result"]]
    entries = {node: server.ask("entry", node=node) for node in nodes}

    def path(entry):
        names = [entry["name"]]
        while entry["dir"] != ROOT:
            entry = entries[entry["dir"]]
            names.append(entry["name"])
        return "/" + "/".join(reversed(names))

    def attrs(entry):
        return {attr["name"]: (attr["type"], attr["value"]) for attr in entry["attrs"]}

    return {path(it): (it["size"], it["time"], attrs(it)) for it in entries.values()}
