"""The events of a folder, where they come one at a time."""
import os, sys

from case import HERE, Case

sys.path += [os.path.join(HERE, "../../python"), os.path.join(HERE, "../../tests/python")]
from old_mirror.inotify import MOVED_FROM, MOVED_TO, Inotify


class Halves(Case):
    def events(self, rename_to):
        """The kinds of the first call's events after a rename, where each read gives one event."""
        self.write("a.txt")
        inotify = Inotify()
        inotify.watch(os.fsencode(self.folder))
        os.rename(self.path("a.txt"), rename_to)
        one_each = iter([[event] for event in inotify.read()])
        inotify.read = lambda: next(one_each, [])
        return [kind for _, kind, _ in inotify.events()]

    def test_both_halves_of_a_rename_come_together(self):
        self.assertEqual(self.events(self.path("b.txt")), [MOVED_FROM, MOVED_TO])

    def test_what_leaves_the_folder_is_one_event(self):
        self.assertEqual(self.events(self.folder + "-left"), [MOVED_FROM])
