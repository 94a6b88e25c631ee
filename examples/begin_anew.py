#!/usr/bin/env python3
"""A client of `lq run` that begins anew: it makes the same tree in a new process, before the lines of a run are used up.
docs/GUIDE.md says when. LQ in the environment names another program than ./lq."""
import json, os, subprocess, threading

LQ = os.environ.get("LQ") or os.path.join(os.path.dirname(os.path.realpath(__file__)), "../lq")


class Server:
    def __init__(self):
        self.lq = subprocess.Popen([LQ, "run"], stdin=subprocess.PIPE, stdout=subprocess.PIPE, text=True)

    def ask_all(self, lines):
        """The replies to many lines. A thread writes them, so that no pipe stays full."""
        text = "".join(json.dumps(line) + "\n" for line in lines)
        writer = threading.Thread(target=lambda: print(text, end="", file=self.lq.stdin, flush=True))
        writer.start()
        replies = [json.loads(self.lq.stdout.readline()) for _ in lines]
        writer.join()
        return replies

    def ask(self, do, **fields):
        return self.ask_all([{"do": do, **fields}])[0]

    def end(self):
        self.lq.stdin.close()
        self.lq.wait()


def anew(old):
    """A new server with the tree of an old one, and its nodes by the old nodes. In a new volume the first create gives
    node 2, the next one node 3, and so on."""
    inside = {}
    found = old.ask("fetch", query="name==*")["result"]
    for entry in old.ask_all([{"do": "entry", "node": it["node"]} for it in found]):
        inside.setdefault(entry["dir"], []).append(entry)
    new, nodes, folders, lines = Server(), {1: 1}, [1], []
    for folder in folders:
        for it in inside.get(folder, []):
            node = nodes[it["node"]] = len(nodes) + 1
            fields = {field: it[field] for field in ("name", "kind", "size", "time")}
            lines.append({"do": "create", "dir": nodes[folder], **fields})
            for attr in it["attrs"]:
                fields = {"attr": attr["name"], "type": attr["type"], "value": attr["value"]}
                lines.append({"do": "set", "node": node, **fields})
            folders.append(it["node"])
    assert all("change" in reply for reply in new.ask_all(lines))
    return new, nodes


def main():
    """A tree with a gap in its nodes, and a window on it before and after."""
    old = Server()
    old.ask("create", name="folder", kind="folder")
    old.ask("create", name="gone", size=300)
    old.ask("create", name="a", size=200, dir=2)
    old.ask("set", node=4, attr="status", type="CSTR", value="New")
    old.ask("remove", node=3)
    print(old.ask("open", query="status==New", port=4, backlog=16))
    new, nodes = anew(old)
    print(nodes)
    print(new.ask("open", query="status==New", port=4, backlog=16))
    old.end()
    new.end()


if __name__ == "__main__":
    main()
