"""What has a limit says so: snapshots and openings of any size, and the arguments of the commands."""
import json
from unittest import mock

from case import EVERY, Case, Reference, drawn, listing, settle, with_text

from beyond import opening, snapshot
from beyond.client import Follower
from beyond.server import Relay


class Sizes(Case):
    def new_relay(self, every=EVERY, **words):
        relay = Relay(self.new_log(**words), every)
        relay.begin()
        return relay

    def test_a_snapshot_larger_than_a_value_of_redis(self):
        self.log.redis.config_set("proto-max-bulk-len", 2_000_000)
        relay = self.new_relay(every=1000)
        self.send(line for it in range(1000) for line in with_text(2 + it, it))
        settle(relay)
        pieces = [self.log.redis.lindex("t:snapshot", at) for at in range(self.log.redis.llen("t:snapshot"))]
        self.assertGreater(sum(map(len, pieces)), 4_000_000)
        self.assertLess(max(map(len, pieces)), 2_000_000)
        self.log.redis.xtrim("t:changes", maxlen=0, approximate=False)  # so the snapshot has to have all
        again = self.new_relay()
        self.assertEqual(listing(again.volume), listing(relay.volume))

    def test_a_snapshot_without_a_piece_is_refused(self):
        relay = self.new_relay(every=5)
        with mock.patch.object(snapshot, "PIECE", 100):
            self.send(drawn(30, 1))
            settle(relay)
        self.assertGreater(self.log.redis.llen("t:snapshot"), 5)
        self.log.redis.lrem("t:snapshot", 1, self.log.redis.lindex("t:snapshot", 2))
        self.assert_trouble("t:snapshot isn't what this program writes: .*bytes of the volume are there", self.new_relay)

    def test_an_opening_that_is_too_large(self):
        """The client that asks for it is told so, and all others are served."""
        relay = self.new_relay()
        self.send(b'{"do":"create","name":"file%d"}' % it for it in range(100))
        settle(relay)
        with mock.patch.object(opening, "LARGEST", 1000):
            self.log.append("windows", [{"name": "all", "query": "name==*"}, {"name": "one", "query": "name==file7"}])
            settle(relay)
            relay = self.new_relay()
            self.send([b'{"do":"remove","node":9}'])
            settle(relay)
        all, one = (json.loads(record[b"reply"]) for _, record in self.records("opened"))
        self.assertIn("TooLarge", all["error"])
        self.assertEqual(one, {"window": 1})
        self.assertEqual(len(self.messages(1)), 1)

    def test_a_result_that_grows_too_large(self):
        relay = self.new_relay(keep=20)
        with mock.patch.object(opening, "LARGEST", 1000):
            self.log.append("windows", [{"name": "all", "query": "name==*"}, {"name": "one", "query": "name==file7"}])
            settle(relay)
            self.send(b'{"do":"create","name":"file%d"}' % it for it in range(100))
            settle(relay)
            relay.turn()
            again = self.new_relay(keep=20)
        for it in relay, again:
            self.assertEqual([it.formula for it in it.windows.values()], ["name==file7"])
        mark = json.loads(self.records("window:1")[-1][1][b"mark"])
        self.assertEqual((mark["cause"], mark["change"]), ("too large", 100))
        follower = Follower(self.log, "all", "name==*")
        follower.stream, follower.position, follower.seq, follower.rows = "window:1", self.before_mark(), 100, {}
        self.assert_trouble(r"the window of name==\* has ended: too large", follower.turn, 0)

    def before_mark(self):
        return self.records("window:1")[-2][0]

    def test_few_records_are_kept(self):
        """The smallest --keep: a relay begins again, and a client has the result."""
        lines, reference = [*drawn(300, 3)], Reference()
        for line in lines:
            reference.answer(line)
        for at in range(0, 300, 60):
            relay = self.new_relay(keep=20)
            self.log.append("windows", [{"name": "w", "query": "name==*.txt"}])
            self.send(lines[at : at + 60])
            settle(relay)
        self.assertLessEqual(len(self.records("window:1")), 20)
        self.assertEqual(relay.windows[1].seq, json.loads(self.messages(1)[-1])["seq"])


class Words(Case):
    def test_arguments_out_of_range(self):
        for words in (
            ["--keep", "0"], ["--keep", "-1"], ["--keep", "1"], ["--keep", "nan"], ["--snapshot", "0"],
            ["--snapshot", "-5"], ["--lock", "0"], ["--lock", "-1"], ["--lock", "nan"], ["--lock", "inf"],
            ["--lock", "200"], ["--lease", "0"], ["--lease", "nan"],
        ):  # fmt: skip
            status, out, error = self.run_relay("serve", "t", *words)
            self.assertEqual((status, out), (2, ""))
            self.assertRegex(error, f"argument {words[0]}: invalid number from .* to .* value: '{words[1]}'")
