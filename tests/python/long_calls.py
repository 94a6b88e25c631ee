"""The Python module in calls that take long: other threads run meanwhile, also in this process's other volumes, and the
call's own volume makes them wait.

    tests/python/long_calls.py [COUNT]

A volume has COUNT entries (200,000). Through each quarter of an opening, a fetch, a listing, a save, a load and a copy
another thread has to have run; on a busy machine it has ten tries."""
import os, sys, tempfile, threading, time, unittest

TOP = os.path.dirname(os.path.dirname(os.path.dirname(os.path.realpath(__file__))))
sys.dont_write_bytecode = True
sys.path.insert(0, os.environ.get("YAZGOULM_PACKAGE") or f"{TOP}/python")

from yazgoulm import Place, Volume

COUNT = int(sys.argv.pop(1)) if sys.argv[1:2] and sys.argv[1].isdigit() else 200_000
TRIES = 10
FORMULA = "size>=0"


class LongCalls(unittest.TestCase):
    @classmethod
    def setUpClass(cls):
        cls.volume = Volume()
        for number in range(COUNT):
            cls.volume.create(f"f{number}")

    def beside(self, call, other):
        """Makes a call, and another one all the while on another thread. Returns what the first gave, the seconds that
        it took, and after how many of them the other one was made each time."""
        times, done = [], threading.Event()

        def again():
            while not done.is_set():
                other()
                times.append(time.monotonic())

        thread = threading.Thread(target=again)
        thread.start()
        begun = time.monotonic()
        try:
            given = call()
            ended = time.monotonic()
        finally:
            done.set()
            thread.join()
        return given, ended - begun, [it - begun for it in times]

    def runs_through(self, call):
        small = Volume()

        def other():
            small.create(str(small.changes))
            time.sleep(0.0002)

        for _ in range(TRIES):
            _, whole, times = self.beside(call, other)
            if {int(4 * it / whole) for it in times} >= {0, 1, 2, 3}:
                return
        self.fail(f"in {whole} s another thread ran at {times}")

    def test_an_opening(self):
        self.runs_through(lambda: self.volume.open(FORMULA).drop())

    def test_a_fetch(self):
        self.runs_through(lambda: self.volume.fetch(FORMULA))

    def test_a_listing(self):
        self.runs_through(self.volume.children)

    def test_a_save_a_load_and_a_copy(self):
        with tempfile.TemporaryDirectory() as room:
            self.runs_through(lambda: self.volume.save(f"{room}/saved"))
            self.runs_through(lambda: Volume.load(f"{room}/saved").close())
        self.runs_through(lambda: self.volume.copy().close())

    def test_changes_beside_an_opening(self):
        """They come before it or after it: its result with its messages is the result."""
        node = self.volume.find("f0")
        query, _, times = self.beside(
            lambda: self.volume.open(FORMULA, moved=True), lambda: self.volume.rename(node, f"g{self.volume.changes}")
        )  # fmt: skip
        self.assertTrue(times)
        for _ in query:
            pass
        found = self.volume.fetch(FORMULA)
        self.assertEqual(query.result().entries, [Place(*it[:3]) for it in found])
        self.assertEqual(len(found), COUNT)
        query.drop()


if __name__ == "__main__":
    unittest.main()
