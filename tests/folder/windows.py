"""A follower made of the Python package, with several windows: windows.py SEED FOLDER DUMP FORMULA.. prints their lines.

Some windows are opened before the first look and some after it. Now and then one is closed and opened again, which is
told as "anew". At SIGUSR1 the volume is written to DUMP, with each window's rows and what a fetch of its formula
answers."""
import json, os, random, signal, sys
from typing import Any, Dict, List

from yazgoulm import to_name
from yazgoulm.folder import Folder, Line, Window


class Follower:
    def __init__(self, tree: str, dump: str, formulas: List[str]) -> None:
        self.folder = Folder(tree, tell=lambda words: print(words, file=sys.stderr, flush=True))
        self.dump_file, self.formulas = dump, formulas
        self.windows: Dict[int, Window] = {}
        self.wants_dump = False

    def open(self, place: int) -> None:
        self.windows[place] = self.folder.open(self.formulas[place])

    def put(self, **words: Any) -> None:
        sys.stdout.write(json.dumps(words) + "\n")

    def line(self, line: Line) -> None:
        place = next(place for place, it in self.windows.items() if it.number == line.window)
        old = {} if line.old_path is None else {"old_path": to_name(line.old_path)}
        self.put(change=line.what, path=to_name(line.path), **old, window=place, size=line.size, time=line.time,
                 kind=line.kind, inode=line.inode, ctime=line.ctime, mtime=line.mtime)

    def renew(self) -> None:
        place = random.randrange(len(self.formulas))
        self.windows.pop(place).close()
        self.put(change="anew", path=to_name(self.folder.given), window=place)
        self.open(place)

    def names(self, nodes: List[int]) -> List[str]:
        return [to_name(self.folder.path(it)) for it in nodes]

    def dump(self) -> None:
        self.wants_dump = False
        volume = self.folder.volume
        with open(f"{self.dump_file}.part", "w", encoding="utf-8") as file:
            for place in range(len(self.formulas)):
                rows = self.names(self.windows[place].rows())
                fetched = self.names([it.node for it in volume.fetch(self.formulas[place])])
                file.write(json.dumps({"rows": rows, "fetch": fetched}) + "\n")
            for it in volume.fetch("name==*"):
                info, stat = volume.entry(it.node), self.folder.entry(it.node)
                entry = {"path": to_name(self.folder.path(it.node)), "kind": stat.kind, "size": info.size,
                         "time": info.time, "inode": stat.inode, "mtime": stat.mtime, "attrs": info.attributes}
                file.write(json.dumps(entry) + "\n")
        os.rename(f"{self.dump_file}.part", self.dump_file)

    def ask(self, *_: Any) -> None:
        self.wants_dump = True

    def run(self) -> None:
        signal.signal(signal.SIGUSR1, self.ask)
        early = random.randrange(len(self.formulas) + 1)
        for place in range(early):
            self.open(place)
        self.folder.begin()
        for place in range(early, len(self.formulas)):
            self.open(place)
        while True:
            line = self.folder.read(0.02)
            if line:
                self.line(line)
                if random.random() < 0.0005:
                    self.renew()
                continue
            sys.stdout.flush()
            if self.wants_dump:
                self.dump()


if __name__ == "__main__":
    try:
        random.seed(sys.argv[1])
        Follower(sys.argv[2], sys.argv[3], sys.argv[4:]).run()
    except BrokenPipeError:
        sys.exit(141)
