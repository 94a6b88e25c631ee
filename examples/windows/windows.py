#!/usr/bin/env python3
"""Three windows over a stream of changes, as windows.c has them, with a size beside each name. The second has a small
backlog and is read late, so it overruns once and is opened anew. At the end each window shows what a fetch gives."""
import os, sys

sys.path.append(os.path.join(os.path.dirname(os.path.realpath(__file__)), "../../python"))
from yazgoulm import Overrun, Volume

FILES, CHANGES = 300, 1500


class Window:
    """What a window draws: the size of each entry of a query's result, by its node."""

    def __init__(self, volume, formula, **options):
        self.query, self.sizes = volume.open(formula, **options), {}
        self.begin(self.query.entries)

    def begin(self, places):
        query = self.query
        print(f"{query.formula}: slot {query.slot} at change {query.at}, {len(query.entries)} entries")
        self.draw(places)

    def draw(self, places):
        """Draws the rows of these entries, or takes them away."""
        for place in places:
            row = self.query.rows.get(place.node)
            if row is None:
                self.sizes.pop(place.node, None)
            else:
                row.refresh()
                self.sizes[row.node] = row.info.size

    def follow(self):
        """Draws what the messages say; after an overrun, what differs in the new opening."""
        try:
            for message in self.query:
                self.draw([message])
        except Overrun as overrun:
            print(f"{overrun.formula}: overrun, covered to change {overrun.change}")
            found = self.query.reopen()
            self.begin([*found.removed, *found.created, *(new for _, new in found.moved)])


with Volume() as volume:
    large, small = Window(volume, "size>500"), Window(volume, "size<=500", backlog=150)
    windows = [large, small, Window(volume, "name==*7.txt", moved=True)]
    for number in range(CHANGES):
        if number < FILES:
            applied = volume.create(f"{number}.txt", size=number)
        else:
            applied = volume.write(2 + number * 7 % FILES, number * 13 % 1000, 0)
        ready = volume.ready()
        for window in windows:
            if window.query in ready and (window is not small or number % 250 == 249):
                window.follow()
            if applied.node in window.query.rows:  # which has no message here, without `values`
                window.draw([applied])
    for window in windows:
        found = {it.node: it.size for it in volume.fetch(window.query.formula)}
        same = len(found.items() & window.sizes.items())
        print(f"{window.query.formula}: {len(window.sizes)} shown, {len(found)} fetched, {same} in both")
