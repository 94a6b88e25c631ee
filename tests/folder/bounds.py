"""The memory of a follower: after very many acts it is what it was, and while nobody reads its lines it stays bounded.

It is started by driver.py as bursts.py is."""
import json, os, signal, subprocess, sys, time
from typing import List, Optional

from bursts import Run, become, tell
from mirror import Line, Mirror

ENTRIES = 1000
MORE = 4096  # kilobytes that the memory may be above that of the start, for buffers that grow and stay
HELD = 6144  # while lines wait: a full queue of them, and the names that are looked at


class Fold(Mirror):
    """Takes the lines, and reads no file."""

    def read(self, line: Line, before: object = None) -> None:
        pass


class Bounds(Run):
    mirror_kind = Fold

    def begin(self) -> None:
        self.storm(10 * ENTRIES, None)
        self.start()
        assert not self.at_rest()

    def storm(self, acts: int, reads: Optional[bool]) -> List[int]:
        """Acts; and the follower's memory meanwhile. `reads`: whether its lines are taken, None without a follower."""
        seed = str(self.drawn.randrange(1 << 32))
        words = [self.given["acts"], os.fsdecode(self.tree), seed, "3", str(acts), f"{self.room}/acts"]
        acting = subprocess.Popen([*words, f"limit={ENTRIES}"], stdout=subprocess.PIPE)
        found, next_look = [], time.monotonic()
        while acting.poll() is None:
            if reads:
                self.take(0.05)
            else:
                time.sleep(0.05)
            if reads is not None and time.monotonic() > next_look:
                next_look = time.monotonic() + 0.5
                found.append(self.follower.memory())
        self.acts += int(acting.communicate()[0])
        self.bursts += 1
        return found

    def try_memory(self, reads: bool) -> None:
        self.begin()
        first = self.follower.memory()
        found = self.storm(self.given["acts_wanted"], reads)
        differences = self.at_rest()
        last = self.follower.memory()
        lines = f"{first} KB at the start, {max(found)} at most, {last} at the end"
        tell(note=f"{self.given['name']}: {self.acts} acts: {lines}")
        if reads and last > first + MORE:
            differences.append(f"memory: it grows: {lines}")
        if not reads and max(found) > first + HELD:
            differences.append(f"memory: it grows while nobody reads: {lines}")
        if differences:
            self.fail(self.given["seed"], differences)


def main() -> None:
    given = json.loads(sys.argv[1])
    if given["user"]:
        become(given["user"])
    run = Bounds(given)
    run.try_memory(given["reads"])
    run.end(signal.SIGTERM)
    tell(result=run.result())


if __name__ == "__main__":
    main()
