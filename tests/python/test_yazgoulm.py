"""The Python module: scenarios by lines and by methods, and what a method gives, refuses and wants."""
import asyncio, code as interpreter, contextlib, copy, errno, gc, glob, inspect, io, itertools, json, operator, os, pathlib
import pickle, re, resource, shutil, signal, subprocess, sys, tempfile, threading, time, typing, unittest, warnings

TOP = os.path.dirname(os.path.dirname(os.path.dirname(os.path.realpath(__file__))))
sys.dont_write_bytecode = True
sys.path.insert(0, os.environ.get("YAZGOULM_PACKAGE") or f"{TOP}/python")

import yazgoulm
from yazgoulm import (
    B_ATTR_CHANGED, B_ENTRY_CREATED, B_ENTRY_MOVED, B_ENTRY_REMOVED, B_STAT_CHANGED, FILE, FOLDER, ROOT, Applied, Attr,
    Attribute, BadQuery, Cause, Difference, Entry, Kind, Mark, Message, NoMemory, NotFound, Op, Opcode, Overrun,
    Place, Refused, Type, Volume, quote, to_bytes, to_name,
)

SECONDS = int(os.environ.get("TEST_SECONDS", 60))  # the longest wait for something that has to come


def scenarios():
    """Each scenario of `lq run`: its name, its lines, and its replies."""
    for path in sorted(glob.glob(f"{TOP}/scenarios/*.in")):
        name = path[: -len(".in")]
        if not os.path.exists(f"{name}.args") and not os.path.exists(f"{name}.status"):
            with open(path, "rb") as script, open(f"{name}.out", "rb") as replies:
                yield os.path.basename(name), script.read().split(b"\n"), replies.read().splitlines(keepends=True)


def memory():
    """The bytes that this process has in memory."""
    gc.collect()
    with open("/proc/self/statm", encoding="ascii") as file:
        return 4096 * int(file.read().split()[1])


class ByMethods:
    """A script by methods: each line's reply, made of what the method gives.

    A query has no port of its own in Python. So an opening with a port of other than one place, or without a backlog,
    is given as a line to the same volume, and so is what is done in its slot."""

    CHANGES = {"create", "remove", "move", "write", "set", "unset"}

    def __init__(self, volume):
        self.volume, self.queries, self.count = volume, {}, 0

    def reply(self, line):
        """The reply to a line, by a method where one stands for it."""
        fields = json.loads(line)
        do, slot = fields.pop("do"), fields.get("slot")
        if do == "open" and (fields["port"] != 1 or not 1 <= fields["backlog"] <= 65_536):
            return self.volume.answer(line)
        if slot is not None and slot not in self.queries:
            return self.volume.answer(line)
        self.count += 1
        try:
            reply = getattr(self, do)(**fields)
        except Refused as refused:
            reply = {"code": refused.code, "error": refused.name}
            if isinstance(refused, BadQuery):
                reply["place"] = refused.place
        return json.dumps(reply, ensure_ascii=False, sort_keys=True, separators=(",", ":")).encode() + b"\n"

    @staticmethod
    def places(them):
        return [{"dir": it.dir, "name": it.name, "node": it.node} for it in them]

    def create(self, name, dir=ROOT, kind="file", size=0, time=0, **_):
        return self.volume.create(name, dir, kind, size, time)._asdict()

    def remove(self, node, **_):
        return self.volume.remove(node)._asdict()

    def move(self, node, name, dir=ROOT, clobber=False, **_):
        return self.volume.move(node, dir, name, clobber)._asdict()

    def write(self, node, size, time=0, **_):
        return self.volume.write(node, size, time)._asdict()

    def set(self, node, attr, type, value, **_):
        return self.volume.set(node, attr, value, type)._asdict()

    def unset(self, node, attr, **_):
        return self.volume.unset(node, attr)._asdict()

    def open(self, query, port, backlog, moved=False, values=False, **_):
        made = self.volume.open(query, backlog=backlog, moved=moved, values=values, on_overrun="mark")
        self.queries[made.slot] = made
        return {"at": made.at, "result": self.places(made.entries), "slot": made.slot}

    def read(self, slot, **_):
        query = self.queries[slot]
        had_ended = query.mark is not None
        message = query.read()
        if message is not None:
            told = {key: value for key, value in message._asdict().items() if value is not None}
            if message.attribute is not None:
                told["attr"] = told.pop("attribute")
            return {**told, "op": str(message.op), "what": "B_QUERY_UPDATE"}
        if had_ended or query.mark is None:
            return {"what": "ENDED" if had_ended else "EMPTY"}
        return {**query.mark._asdict(), "cause": str(query.mark.cause), "what": "END"}

    def hang_up(self, slot, **_):
        self.queries[slot].hang_up()
        return {"slot": slot}

    def close(self, slot, **_):
        """Query.close may be called again, and a line may not: so this is its call of the library."""
        return {"change": self.volume._handle.close(slot), "slot": slot}

    def finish(self, slot, **_):
        self.queries[slot].finish()
        del self.queries[slot]
        return {"slot": slot}

    def result(self, slot, **_):
        result = self.queries[slot].result()
        return {"change": result.change, "result": self.places(result.entries), "settled": result.settled}

    def find(self, name, dir=ROOT, **_):
        return {"node": self.volume.find(name, dir)}

    def entry(self, node, **_):
        info = self.volume.entry(node)._asdict()
        attributes, types = info.pop("attributes"), info.pop("types")
        assert [*attributes] == [*types]
        return {**info, "attrs": [{"name": it, "type": types[it], "value": attributes[it]} for it in attributes]}

    def fetch(self, query, **_):
        return {"result": self.places(self.volume.fetch(query)), "at": self.volume.changes}


class Scenarios(unittest.TestCase):
    def test_by_lines(self):
        for name, lines, replies in scenarios():
            with self.subTest(name), Volume() as volume:
                self.assertEqual(b"".join(map(volume.answer, lines)), b"".join(replies))

    def by_methods(self, has_one_place):
        """How many lines went by methods. A line that asks nothing, as 30 to 33 say, is given to the same volume."""
        count = 0
        for name, lines, replies in scenarios():
            with self.subTest(name), Volume() as volume:
                script, wanted = ByMethods(volume), iter(replies)
                if has_one_place:
                    lines = [re.sub(rb'"port":[1-9]\d*', b'"port":1', line) for line in lines]
                    replies = [*map(volume.answer, lines)]
                    wanted = iter([reply for reply in replies if reply])
                    volume = Volume()
                    script.volume = volume
                for line in (line for line in lines if line not in (b"", b"\r")):
                    reply = next(wanted)
                    asks_nothing = re.match(rb'{"code":3[0-3],', reply)
                    by = volume.answer if asks_nothing else script.reply
                    self.assertEqual(by(line), reply, line[:200])
                count += script.count
        return count

    def test_by_methods(self):
        self.assertGreater(self.by_methods(False), 400)

    def test_by_methods_with_ports_of_one_place(self):
        """Each scenario with such ports, as lines have it."""
        self.assertGreater(self.by_methods(True), 700)


class Case(unittest.TestCase):
    def setUp(self):
        self.volume = Volume()
        self.addCleanup(self.volume.close)

    def refused(self, code, name, call, *given, **named):
        with self.assertRaises(Refused) as caught:
            call(*given, **named)
        self.assertEqual((caught.exception.code, caught.exception.name), (code, name))
        return caught.exception

    def says(self, error, said, call, /, *given, **named):
        with self.assertRaises(error) as caught:
            call(*given, **named)
        self.assertEqual(str(caught.exception), said)


class Volumes(Case):
    def test_changes_and_looks(self):
        volume, smile = self.volume, "sch\u00f6n \U0001f600"
        folder = volume.create("in", kind=FOLDER, time=3).node
        self.assertEqual(volume.create("b", folder, size=5, time=-7), Applied(2, 3))
        self.assertEqual(volume.create("a", folder), Applied(change=3, node=4))
        self.assertEqual(volume.children(folder), [(folder, 4, "a", FILE, 0, 0), (folder, 3, "b", FILE, 5, -7)])
        self.assertEqual(volume.children(), [Entry(ROOT, folder, "in", FOLDER, 0, 3)])
        self.assertEqual([volume.path(node) for node in (ROOT, folder, 3)], ["/", "/in", "/in/b"])
        self.assertEqual(volume.find("a", folder), 4)
        self.assertEqual([volume.find_path("/in/a"), volume.find_path("a", folder), volume.find_path("")], [4, 4, ROOT])
        self.refused(4, "NoEntry", volume.find_path, "in/c")
        self.assertEqual(volume.move(3, ROOT, smile), (4, 3))
        self.assertEqual(volume.path(3), f"/{smile}")
        self.assertEqual(volume.write(3, 2**63 - 1, -(2**63)), (5, 3))
        self.assertEqual(volume.entry(3), (ROOT, 3, smile, "file", 2**63 - 1, -(2**63), {}, {}))
        self.assertEqual(volume.remove(4), (6, 4))
        self.assertEqual(volume.changes, 6)
        found = [Entry(ROOT, folder, "in", FOLDER, 0, 3), Entry(ROOT, 3, smile, FILE, 2**63 - 1, -(2**63))]
        self.assertEqual(volume.fetch("name==*"), found)

    def test_rename(self):
        volume = self.volume
        folder = volume.create("in", kind=FOLDER).node
        node, other = volume.create("a", folder).node, volume.create("b", folder).node
        self.assertEqual(volume.rename(node, b"\xff"), (4, node))
        self.assertEqual(volume.path(node), "/in/\uf7ff")
        self.assertEqual(self.refused(5, "Exists", volume.rename, node, "b").arguments, (node, "b", False))
        self.assertEqual(volume.rename(node, "b", clobber=True), (5, node))
        self.assertEqual((volume.path(node), volume.children(folder)), ("/in/b", [(folder, node, "b", FILE, 0, 0)]))
        self.assertEqual(volume.rename(folder, "out").node, folder)
        for code, name, arguments in ((2, "NoNode", (other, "c", False)), (11, "Reserved", (ROOT, "c", False)),
                                      (1, "BadName", (node, "c/d", False))):
            refused = self.refused(code, name, volume.rename, *arguments[:2])
            self.assertEqual((refused.call, refused.arguments), ("rename", arguments))
            self.assertEqual(pickle.loads(pickle.dumps(refused)).arguments, arguments)
        self.says(TypeError, "name must be a str, bytes or a path, not int", volume.rename, node, 5)
        self.assertEqual(volume.changes, 6)

    def test_remove_recursive(self):
        volume = self.volume
        top = volume.create("top", kind=FOLDER).node
        stays, deep = volume.create("stays").node, top
        for number in range(50):
            volume.create("file", deep)
            volume.create(f"other{number}", deep, kind=FOLDER)
            deep = volume.create("deep", deep, kind=FOLDER).node
        query = volume.open("name==*")
        before = volume.changes
        self.refused(7, "NotEmpty", volume.remove, top)
        self.assertEqual(volume.remove(top, recursive=True), (before + 151, top))
        self.assertEqual((len([*query]), [*query.rows]), (151, [stays]))
        self.assertEqual(volume.children(), [(ROOT, stays, "stays", FILE, 0, 0)])
        self.assertEqual(volume.remove(stays, recursive=True), (before + 152, stays))
        for code, name, node in (2, "NoNode", stays), (11, "Reserved", ROOT):
            refused = self.refused(code, name, volume.remove, node, recursive=True)
            self.assertEqual((refused.call, refused.arguments), ("remove", (node, True)))

    def test_write_keeps_what_is_not_given(self):
        volume = self.volume
        node, folder = volume.create("a", size=5, time=-7).node, volume.create("in", kind=FOLDER).node
        for given, found in (({"size": 6}, (6, -7)), ({"time": 8}, (6, 8)), ({}, (6, 8)), ({"size": 0}, (0, 8)),
                             ({"size": 1, "time": 2}, (1, 2)), ({"time": 0}, (1, 0))):
            self.assertEqual(volume.write(node, **given).node, node)
            self.assertEqual((volume.entry(node).size, volume.entry(node).time), found)
        self.assertEqual(volume.changes, 8)
        for code, name, it in (2, "NoNode", 9), (9, "IsFolder", folder), (11, "Reserved", ROOT):
            refused = self.refused(code, name, volume.write, it, 5)
            self.assertEqual((refused.call, refused.arguments), ("write", (it, 5, None)))
        self.says(TypeError, "time must be a whole number, not 0.5", volume.write, node, time=0.5)
        self.says(ValueError, f"size must be from 0 to {2**64 - 1}, not -1", volume.write, node, -1)

    def test_many_entries(self):
        names = [f"file {number} \u00e4" for number in range(1000)]
        for number, name in enumerate(names):
            self.volume.create(name, size=number)
        found = self.volume.fetch("size>=0")
        self.assertEqual([(it.name, it.size, it.node) for it in found],
                         [(name, number, number + 2) for number, name in enumerate(names)])
        self.assertEqual(len(self.volume.children()), 1000)
        self.assertEqual(self.volume.open("size>=900").entries, found[900:])

    def test_words_are_texts_with_numbers(self):
        """Causes, kinds and types: each is equal to its word, and goes wherever a text does."""
        volume = self.volume
        node = volume.create("a", kind=Kind.FILE).node
        for type in Type:
            volume.set(node, type, "t" if type == "CSTR" else 1, type)
        query = volume.open("size>=0")
        query.close()
        [*query]
        found = [(volume.entry(node).kind, Kind.FILE, "file", 0), (query.mark.cause, Cause.CLOSED, "closed", 1)]
        found += [(volume.children()[0].kind, FILE, "file", 0), (volume.entry(node).kind, FILE, "file", 0)]
        for name, type in volume.entry(node).types.items():
            found.append((type, Type[name], name, int.from_bytes(name.encode(), "big")))
        for is_it, member, said, number in found:
            self.assertIs(is_it, member)
            self.assertEqual((is_it, str(is_it), f"{is_it:>8}", repr(is_it), json.loads(json.dumps(is_it)), is_it.code),
                             (said, said, f"{said:>8}", repr(said), said, number))
            self.assertIs(pickle.loads(pickle.dumps(is_it)), member)
            self.assertEqual({said: 1}[is_it], 1)
        self.assertEqual([cause.code for cause in Cause], [1, 2, 3])
        self.assertEqual((Kind("folder"), Cause("overrun"), Type("LLNG")), ("folder", "overrun", "LLNG"))
        self.assertEqual(volume.entry(volume.create("in", kind="folder").node).kind.code, 1)

    def test_attributes(self):
        volume, node = self.volume, self.volume.create("a").node
        values = [("t", "CSTR", "a\0b"), ("e", "CSTR", ""), ("l", "LONG", -(2**31)), ("ll", "LLNG", -(2**63))]
        values += [("ul", "ULNG", 2**32 - 1), ("ull", "ULLG", 2**64 - 1)]
        for name, type, value in values:
            volume.set(node, name, value, type)
        info = volume.entry(node)
        self.assertEqual([*info.attributes.items()], [(name, value) for name, _, value in values])
        self.assertEqual([*info.types.items()], [(name, type) for name, type, _ in values])
        self.assertEqual((info.attributes["l"], info.types["l"]), (-(2**31), Type.LONG))
        for each in values:
            self.assertEqual(volume.attribute(node, each[0]), each)
        row = volume.open("t==*").rows[node]
        self.assertEqual(row.info, info)
        volume.set(node, "ul", 2**32 - 1, "ULLG")  # another type, and the same value
        self.assertEqual((row.refresh(), row.info.types["ul"], row.info.attributes), (True, "ULLG", info.attributes))
        volume.set(node, "t", "text")
        volume.set(node, "l", 7)
        self.assertEqual(volume.attribute(node, "t"), Attribute("t", "CSTR", "text"))
        self.assertEqual(volume.attribute(node, "l"), Attribute("l", "LLNG", 7))
        volume.unset(node, "t")
        self.assertEqual([*volume.entry(node).attributes], ["e", "l", "ll", "ul", "ull"])
        self.refused(10, "NoAttr", volume.attribute, node, "t")
        bad = [("LONG", 2**31), ("LLNG", 2**63), ("ULNG", -1), ("ULLG", 2**64), ("CSTR", 1), ("LONG", "1"), ("what", 1)]
        for type, value in bad:
            with self.assertRaises(ValueError):
                volume.set(node, "x", value, type)
        self.assertEqual(len(volume.entry(node).attributes), 5)

    def test_create_with_attributes(self):
        """They are set in their order, after the entry is made; what is wrong with one is said before."""
        from unittest import mock

        volume, query = self.volume, self.volume.open("status==New")
        given = {"from": "Ann", "count": 5, b"\xff": (2**32 - 1, "ULNG"), "big": (2**64 - 1, "ULLG"), "status": "New"}
        applied = volume.create("a", size=7, attributes=given)
        self.assertEqual((applied, volume.changes), (Applied(6, 2), 6))
        info = volume.entry(2)
        self.assertEqual([(name, info.types[name], value) for name, value in info.attributes.items()], [
            ("from", "CSTR", "Ann"), ("count", "LLNG", 5), ("\uf7ff", "ULNG", 2**32 - 1), ("big", "ULLG", 2**64 - 1),
            ("status", "CSTR", "New")])
        self.assertEqual([(it.change, it.name) for it in query], [(6, "a")])
        self.assertEqual(volume.create("b", attributes={}), (7, 3))
        for code, name, bad in ((1, "BadName", {"": 1}), (12, "TooLong", {"t": "x" * 4097}),
                                (11, "Reserved", {"size": 1})):
            refused = self.refused(code, name, volume.create, "c", attributes={"well": 1, **bad})
            self.assertEqual((refused.call, refused.arguments), ("create", ("c", ROOT, FILE, 0, 0, {"well": 1, **bad})))
        self.says(TypeError, "attributes['b'] must be a str or a whole number, not 1.5", volume.create, "c",
                  attributes={"a": 1, "b": 1.5})
        self.refused(5, "Exists", volume.create, "a", attributes=given)
        self.assertEqual(volume.changes, 7)
        handle = mock.Mock(wraps=volume._handle)
        handle.set.side_effect = [NotFound(2, "NoNode")] * 2 + [Applied(9, 4), NoMemory(15, "NoMemory")]
        with mock.patch.object(volume, "_handle", handle), self.assertRaises(NoMemory) as caught:
            volume.create("c", attributes={"one": 1, "two": 2})
        for error in caught.exception, pickle.loads(pickle.dumps(caught.exception)):
            self.assertEqual((error.call, error.node, error.attributes), ("create", 4, ("one",)))

    def test_names_of_files(self):
        """A byte that is no UTF-8 becomes U+F700 and the byte; so do the bytes of U+F780 to U+F7FF themselves."""
        volume = self.volume
        for raw, name in ((b"a", "a"), (b"\xe4.txt", "\uf7e4.txt"), ("\u00e4".encode(), "\u00e4"),
                          ("\uf7e4".encode(), "\uf7ef\uf79f\uf7a4"), (b"\xff\xc3", "\uf7ff\uf7c3")):
            self.assertEqual((to_name(raw), to_bytes(name)), (name, raw))
            node = volume.create(raw).node
            self.assertEqual(volume.entry(node).name, name)
            self.assertEqual([volume.find(it) for it in (raw, name, pathlib.Path(os.fsdecode(raw)))], [node] * 3)
        escaped = os.fsdecode(b"\xfe")
        node = volume.create(escaped).node
        self.assertEqual((volume.entry(node).name, volume.find(b"\xfe")), ("\uf7fe", node))
        volume.set(node, "a", escaped)
        self.assertEqual(volume.attribute(node, "a").value, "\uf7fe")
        self.assertEqual([it.node for it in volume.fetch(f'name=="{escaped}"')], [node])

    def test_refusals(self):
        volume = self.volume
        self.refused(2, "NoNode", volume.remove, 9)
        self.refused(1, "BadName", volume.create, "")
        self.refused(12, "TooLong", volume.set, 2, "a", "x" * 4097)
        self.refused(11, "Reserved", volume.remove, ROOT)
        refused = self.refused(20, "BadQuery", volume.fetch, "size>")
        self.assertEqual((refused.place, str(refused)), (5, "BadQuery at 5: fetch('size>')\n    size>\n         ^"))
        self.assertEqual(volume.changes, 0)

    def test_exceptions_have_all_arguments(self):
        """What was given, with the defaults, whichever way calls the library."""
        volume, pushes = self.volume, (Attr("size"), 1, Op.GT)
        volume.create("a")
        query = volume.open("size>=0", backlog=7, moved=True)
        slots = [volume.open("size>1") for _ in range(63)]
        for arguments, call in (
            (("a", ROOT, FILE, 0, 0), lambda: volume.create("a")),
            ((9,), lambda: volume.remove(9)),
            ((9, ROOT, "b", False), lambda: volume.move(9, ROOT, "b")),
            ((9, 1, 2), lambda: volume.write(9, 1, 2)),
            ((9, "x", "t", None), lambda: volume.set(9, "x", "t")),
            ((9, "x", 1, "LONG"), lambda: volume.set(9, "x", 1, "LONG")),
            ((9, "x"), lambda: volume.unset(9, "x")),
            (("size>1", 65_536, False, False), lambda: volume.open("size>1")),
            (("size>", 3, True, False), lambda: volume.open("size>", backlog=3, moved=True)),
            (("size>", 3, False, True), lambda: volume.open("size>", backlog=3, values=True)),
            ((pushes, 65_536, False, False), lambda: volume.open([*pushes])),
            ((pushes[:2], 5, 1, False), lambda: volume.open(pushes[:2], backlog=5, moved=1, values=False)),
            (((Op.GT,), 5, False, False), lambda: volume.open([Op.GT], backlog=5)),
            (("size>",), lambda: volume.fetch("size>")),
            ((pushes[:2],), lambda: volume.fetch([*pushes[:2]])),
            (((Op.GT,),), lambda: volume.fetch([Op.GT])),
            (("b", ROOT), lambda: volume.find("b")),
            (("/b", ROOT), lambda: volume.find_path("/b")),
            ((9,), lambda: volume.entry(9)),
            ((2, "x"), lambda: volume.attribute(2, "x")),
            ((2,), lambda: volume.children(2)),
            ((9,), lambda: volume.path(9)),
            ((1,), query.finish),
        ):
            with self.assertRaises(Refused) as caught:
                call()
            self.assertEqual(caught.exception.arguments, arguments, caught.exception.call)
        volume.answer('{"do":"close","slot":1}')
        volume.answer('{"do":"read","slot":1}')
        volume.answer('{"do":"finish","slot":1}')
        for call in query.read, query.hang_up, query.drop:
            self.assertEqual(self.refused(25, "NotOpen", call).arguments, (1,))
        self.assertEqual(len(slots), 63)

    def test_exceptions_have_the_call_and_are_pickled(self):
        volume = self.volume
        volume.create("a")
        no_node = self.refused(2, "NoNode", volume.write, 9, 1, 2)
        self.assertEqual((no_node.call, no_node.arguments), ("write", (9, 1, 2)))
        self.assertEqual(str(no_node), "NoNode: write(9, 1, 2)")
        exists = self.refused(5, "Exists", volume.create, "a")
        self.assertIsInstance(exists, FileExistsError)
        self.assertEqual(exists.arguments, ("a", ROOT, "file", 0, 0))
        volume.create("in", volume.create("folder", kind=FOLDER).node)
        with self.assertRaises(NotADirectoryError) as not_folder:
            volume.children(2)
        with self.assertRaises(OSError) as not_empty:
            volume.remove(3)
        for error, number in (exists, errno.EEXIST), (not_folder.exception, errno.ENOTDIR), \
                (not_empty.exception, errno.ENOTEMPTY):
            self.assertIsInstance(error, Refused)
            self.assertEqual((error.errno, error.strerror), (number, error.name))
        self.assertEqual(str(not_empty.exception), "NotEmpty: remove(3)")
        with self.assertRaises(KeyError):
            volume.find("b")
        with self.assertRaises(ValueError) as caught:
            volume.fetch([Attr("size"), Op.GT])
        query = volume.open("size>=0", backlog=1)
        for number in range(3):
            volume.create(f"f{number}")
        with self.assertRaises(Overrun) as overrun:
            list(query)
        for error in no_node, exists, caught.exception, overrun.exception, not_folder.exception, not_empty.exception:
            again = pickle.loads(pickle.dumps(error))
            self.assertEqual((type(again), str(again), vars(again)), (type(error), str(error), vars(error)))
            self.assertEqual(str(copy.copy(error)), str(error))

    def test_no_copies(self):
        query = self.volume.open("size>=0")
        self.volume.create("a")
        next(query)
        for it in self.volume, query, query.rows, query.rows[2]:
            said = f"a {type(it).__name__} can be neither copied nor pickled"
            for way in copy.copy, copy.deepcopy, pickle.dumps:
                self.says(TypeError, said, way, it)

    def test_texts_of_objects(self):
        volume, query = self.volume, self.volume.open("size>=0")
        volume.create("a")
        message = next(query)
        self.assertEqual(repr(volume), "<Volume with 1 changes and 1 queries>")
        self.assertEqual(repr(query), "<Query 'size>=0', slot 1>")
        self.assertEqual((repr(query.rows), repr(query.rows[2])), ("<Rows of 1 entries>", "<Row 2 'a'>"))
        self.assertEqual((repr(message.op), f"{message.op}"), ("B_ENTRY_CREATED", "B_ENTRY_CREATED"))
        self.assertIs(message.op, Opcode(1))
        query.close()
        query.read()
        self.assertEqual((repr(query), repr(query.mark)), ("<Query 'size>=0', slot 1, closed>",
                                                           "Mark(seq=2, change=1, cause='closed')"))
        query.drop()
        volume.close()
        self.assertEqual((repr(query), repr(volume)), ("<Query 'size>=0', dropped>", "<Volume, closed>"))

    def test_a_closed_volume(self):
        query = self.volume.open("size>1")
        self.volume.close()
        self.volume.close()
        query.drop()
        query.drop()
        for call in (lambda: self.volume.changes, lambda: self.volume.create("a"), lambda: self.volume.open("size>1")):
            self.says(ValueError, "the volume is closed", call)
        for call in query.read, query.result, query.hang_up, query.close, query.finish:
            self.says(ValueError, "the query was dropped or finished", call)

    def test_each_call_on_another_thread(self):
        query, caught = self.volume.open("size>1"), []

        def elsewhere():
            try:
                self.volume.create("a", size=2)
                caught.extend([next(query).name, self.volume.changes])
                query.drop()
                self.volume.close()
            except BaseException as error:
                caught.append(error)

        thread = threading.Thread(target=elsewhere)
        thread.start()
        thread.join()
        self.assertEqual(caught, ["a", 1])
        self.assertRaises(ValueError, self.volume.create, "a")

    def test_threads_side_by_side(self):
        """Four threads create, and two read one query: each message comes once, and the rows are the result."""
        query, seen = self.volume.open("size>=0"), [[], []]
        done = threading.Event()

        def create(first):
            for number in range(first, 4000, 4):
                self.volume.create(f"f{number}")

        def read(into):
            while not done.is_set():
                into.extend(it.node for it in query)
            into.extend(it.node for it in query)

        creators = [threading.Thread(target=create, args=(first,)) for first in range(4)]
        readers = [threading.Thread(target=read, args=(into,)) for into in seen]
        for thread in creators + readers:
            thread.start()
        for thread in creators:
            thread.join()
        done.set()
        for thread in readers:
            thread.join()
        self.assertEqual(sorted(seen[0] + seen[1]), [*range(2, 4002)])
        self.assertEqual(sorted(query.rows), [*range(2, 4002)])

    def test_volumes_that_nobody_closes(self):
        """They are freed on the thread that has them last: what 60 of them take isn't taken 60 times."""
        def made():
            volume = Volume()
            for number in range(2000):
                volume.create(f"f{number}")
            return [volume]

        def dropped(volumes):
            thread = threading.Thread(target=volumes.clear)
            thread.start()
            thread.join()

        for _ in range(2):
            dropped(made())
        before = memory()
        for _ in range(60):
            dropped(made())
        self.assertLess(memory() - before, 2_000_000)  # 60 times 2,000 entries take some 15 MB, beside what was free

    def test_nothing_is_left_of_a_call(self):
        volume, name = self.volume, 80 * b"\xff"
        volume.create("a")
        for count in 1000, 20_000:
            before = memory()
            for _ in range(count):
                for call in (lambda: volume.find(name), lambda: volume.set(2, name, "t" * 100),
                             lambda: volume.fetch([Attr(80 * "\udcff"), 1.5]), lambda: volume.answer("{}")):
                    try:
                        call()
                    except (Refused, TypeError):
                        pass
        self.assertLess(memory() - before, 1_000_000)  # each name takes 300 bytes

    def test_a_thread_that_may_go_on_beside_a_fork(self):
        """A thread that waited for the volume is told that it may go on, and hasn't, when another one forks. In the child
        threads wait for each other as they do elsewhere."""
        interval = sys.getswitchinterval()
        self.addCleanup(sys.setswitchinterval, interval)
        for _ in range(3):
            volume = Volume()
            handle = volume._handle
            handle.acquire(True)
            thread = threading.Thread(target=lambda: volume.changes)
            thread.start()
            time.sleep(0.05)  # until it waits, as it nearly always does
            sys.setswitchinterval(100)
            handle.release()
            until = time.monotonic() + 0.02
            while time.monotonic() < until:
                pass  # the thread wakes up, and can't run before this one waits
            with warnings.catch_warnings():
                warnings.simplefilter("ignore", DeprecationWarning)
                child = os.fork()
            sys.setswitchinterval(interval)
            if child == 0:
                handle.acquire(True)
                other = threading.Thread(target=lambda: volume.changes, daemon=True)
                other.start()
                time.sleep(0.05)
                handle.release()
                other.join(SECONDS)
                os._exit(other.is_alive())
            thread.join()
            self.assertEqual(os.waitpid(child, 0)[1], 0)
            volume.close()

    def test_a_fork_beside_a_thread(self):
        """A child has a volume of its own, whatever another thread was doing, and ends; nobody waits in it."""
        volume, done, warned = self.volume, threading.Event(), warnings.catch_warnings()
        self.enterContext(warned) if hasattr(self, "enterContext") else warned.__enter__()
        warnings.simplefilter("ignore", DeprecationWarning)  # later Pythons warn of each fork beside a thread
        self.addCleanup(sys.setswitchinterval, sys.getswitchinterval())
        sys.setswitchinterval(1e-6)
        query, others = volume.open("size>=0", on_overrun="mark"), [Volume() for _ in range(3)]
        for number in range(300):
            volume.create(f"f{number}")

        class Size:
            """A size that isn't known at once."""

            def __index__(self):
                time.sleep(0.001)
                return 7

        def change():
            while not done.is_set():
                for it in volume, *others:
                    it.remove(it.create(b"\xff%d" % threading.get_ident(), size=Size()).node)
                volume.fetch("size>=0")
                query.reopen()
                query.read()

        def within():
            """What the child finds: its volume, and its query. The parent's don't change."""
            before = volume.changes
            node = volume.create("of the child", size=5).node
            query.reopen()
            again = volume.create("again", size=5).node
            return ([it.node for it in query], volume.changes - before, query.rows[node].info.size) == ([again], 2, 5)

        threads = [threading.Thread(target=change) for _ in range(2)]
        for thread in threads:
            thread.start()
        try:
            for _ in range(25):
                child = os.fork()
                if child == 0:
                    status = 1
                    try:
                        status = 0 if within() else 2
                    finally:
                        os._exit(status)
                self.assertEqual(self.status(child), 0)
        finally:
            done.set()
            for thread in threads:
                thread.join()
        self.assertEqual([it for it in volume.children() if it.name == "of the child"], [])

    def status(self, child):
        """The status of a child process that ends within some seconds; None for one that doesn't."""
        until = time.monotonic() + SECONDS
        while time.monotonic() < until:
            ended, status = os.waitpid(child, os.WNOHANG)
            if ended:
                return status
            time.sleep(0.001)
        os.kill(child, signal.SIGKILL)
        os.waitpid(child, 0)
        return None

    def test_a_call_within_a_call(self):
        volume, sizes = Volume(), []

        class Size:
            def __index__(self):
                volume.create("inner")
                return 7

        def create():
            sizes.append(volume.entry(volume.create("outer", size=Size()).node).size)

        thread = threading.Thread(target=create, daemon=True)
        thread.start()
        thread.join(SECONDS)
        self.assertEqual(sizes, [7])
        self.assertEqual([it.name for it in volume.children()], ["inner", "outer"])


class Queries(Case):
    def test_an_iterator_that_goes_on(self):
        with self.volume.open("size>100", moved=True) as query:
            self.assertEqual((query.slot, query.at, query.entries, list(query)), (1, 0, [], []))
            self.volume.create("a", size=200)
            self.assertEqual(list(query), [Message(1, 1, True, B_ENTRY_CREATED, 1, 2, "a", None, None)])
            self.assertEqual(list(query), [])
            self.volume.move(2, ROOT, "b")
            self.volume.write(2, 1, 0)
            self.assertEqual(next(query), Message(2, 2, True, B_ENTRY_MOVED, 1, 2, "b", 1, "a"))
            self.assertEqual(query.result(), (2, True, [Place(1, 2, "b")]))
            self.assertEqual(next(query), Message(3, 3, True, B_ENTRY_REMOVED, 1, 2, "b", None, None))
            self.assertRaises(StopIteration, next, query)
            self.assertIsNone(query.mark)
        self.assertIsNone(query.slot)
        self.assertRaises(ValueError, query.read)

    def test_ends(self):
        volume = self.volume
        ended, hung_up = volume.open("size>1"), volume.open("size>1")
        overrun = volume.open("size>1", backlog=1, on_overrun="mark")
        volume.create("a", size=2)
        self.assertEqual(ended.close(), 1)
        hung_up.hang_up()
        for name in "bcd":
            volume.create(name, size=2)
        marks = Mark(2, 1, Cause.CLOSED), Mark(2, 1, Cause.HUNG_UP), Mark(3, 2, Cause.OVERRUN)
        for query, mark in zip((ended, hung_up, overrun), marks):
            messages = list(query)
            self.assertEqual((len(messages), query.mark), (mark.seq - 1, mark))
            self.assertIsNone(query.read())
            self.assertEqual(query.close(), mark.change)
            query.finish()
            query.drop()
        self.assertEqual(volume.open("size>1").slot, 1)
        live = volume.open("size>1")
        self.refused(26, "StillOpen", live.finish)

    def test_close_may_be_repeated(self):
        """It says the last change that is covered, where that is known: it closed the query, or its mark was read."""
        volume = self.volume
        query, overrun = volume.open("size>=0"), volume.open("size>=0", backlog=1)
        volume.create("a")
        self.assertEqual([query.close(), query.close()], [1, 1])
        volume.create("b")
        volume.create("c")
        self.assertEqual([query.close(), overrun.close()], [1, None])
        self.assertEqual([it.name for it in query], ["a"])
        self.assertEqual([it.name for it in itertools.islice(overrun, 2)], ["a", "b"])
        self.assertRaises(Overrun, overrun.read)
        self.assertEqual([query.close(), overrun.close(), overrun.close()], [1, 2, 2])
        self.assertEqual((query.mark, overrun.mark), (Mark(2, 1, Cause.CLOSED), Mark(3, 2, Cause.OVERRUN)))
        overrun.reopen()
        self.assertEqual([overrun.close(), overrun.close()], [3, 3])

    def test_an_opening_makes_no_difference(self):
        """Nobody gets one of it."""
        from unittest import mock

        self.volume.create("a")
        with mock.patch("yazgoulm._volume.Difference", wraps=Difference) as made:
            query = self.volume.open("size>=0")
            self.assertEqual((made.call_count, sorted(query.rows)), (0, [2]))
            self.volume.create("b")
            self.assertEqual((query.reopen(), made.call_count), (Difference([], [Place(1, 3, "b")], []), 1))

    def test_overrun_is_raised_until_it_is_opened_again(self):
        volume = self.volume
        volume.create("old")
        volume.create("moves")
        query = volume.open("size>=0", backlog=2, moved=True)
        rows, stays = query.rows, query.rows[3]
        for number in range(4):
            volume.create(f"f{number}")
        volume.remove(2)
        volume.move(3, ROOT, "moved")
        names = []
        with self.assertRaises(Overrun) as caught:
            for message in query:
                names.append(message.name)
        self.assertEqual((names, caught.exception.change, caught.exception.formula), (["f0", "f1", "f2"], 5, "size>=0"))
        for call in query.read, lambda: next(query), lambda: list(query):
            self.assertRaises(Overrun, call)
        self.assertEqual(query.mark, Mark(4, 5, Cause.OVERRUN))
        self.assertEqual(sorted(rows), [2, 3, 4, 5, 6])
        difference = query.reopen()
        self.assertEqual(difference, Difference([Place(1, 2, "old")], [Place(1, 7, "f3")],
                                                [(Place(1, 3, "moves"), Place(1, 3, "moved"))]))
        self.assertEqual((query.slot, query.at, query.mark, list(query)), (1, 8, None, []))
        self.assertIs(query.rows, rows)
        self.assertIs(rows[3], stays)
        self.assertEqual((sorted(rows), stays.name), ([3, 4, 5, 6, 7], "moved"))
        volume.create("after")
        self.assertEqual([it.name for it in query], ["after"])
        self.assertEqual(query.reopen(), Difference([], [], []))

    def test_a_query_that_cannot_be_opened_again_stays_dropped(self):
        query = self.volume.open("size>=0")
        self.volume.create("a")
        next(query)
        others = [self.volume.open("size>1") for _ in range(63)]
        query.drop()
        others.append(self.volume.open("size>1"))
        self.refused(23, "NoSlot", query.reopen)
        self.assertEqual((query.slot, sorted(query.rows)), (None, [2]))
        others.pop().drop()
        self.assertEqual((query.reopen(), query.slot), (Difference([], [], []), 1))

    def test_rows(self):
        volume = self.volume
        folder, node = volume.create("in", kind=FOLDER).node, volume.create("a", size=1).node
        query = volume.open("name==a || name==b", moved=True)
        row = query.rows[node]
        self.assertEqual((row.node, row.name, row.place, row.info.size), (node, "a", (ROOT, node, "a"), 1))
        self.assertEqual((len(query.rows), node in query.rows, folder in query.rows), (1, True, False))
        self.assertIsNone(query.rows.get(folder))
        applied = volume.write(node, 7, 8)
        self.assertEqual((list(query), row.info.size), ([], 1))
        self.assertTrue(query.rows[applied.node].refresh())
        self.assertEqual((row.info.size, row.info.time, row.refresh()), (7, 8, False))
        volume.move(node, folder, "b")
        self.assertEqual(row.name, "a")
        list(query)
        self.assertEqual((row.place, query.rows[node] is row), ((folder, node, "b"), True))
        volume.remove(node)
        self.assertEqual((row.refresh(), row.info.size), (False, 7))
        list(query)
        self.assertEqual(len(query.rows), 0)
        self.assertRaises(KeyError, operator.getitem, query.rows, node)
        other = volume.create("a").node
        list(query)
        volume.remove(other)
        self.assertIsNone(query.rows[other].info)

    def test_values(self):
        """A change of a value has one message where the entry is in the result before and after, if that is asked for:
        at its place, and without a look at what the value was."""
        volume = self.volume
        node, other = volume.create("a", size=200).node, volume.create("b", size=50).node
        plain = volume.open("size>100")
        queries = [volume.open("size>100", values=True, moved=moved) for moved in (False, True)]
        self.assertEqual([it.entries for it in queries], [plain.entries] * 2)
        volume.write(node, 300, 8)  # change 3
        volume.write(node, 300, 8)  # nothing is another than before
        volume.set(node, "status", "New")
        volume.set(node, "status", "New")
        volume.set(node, b"\xff", 2**64 - 1, "ULLG")
        volume.unset(node, "status")
        volume.set(other, "status", "New")  # 9, outside
        volume.write(other, 99, 0)
        volume.write(other, 101, 0)  # 11, into it
        volume.write(other, 101, 0)
        volume.write(node, 100, 0)  # 13, out of it
        volume.set(node, "status", "New")
        volume.move(other, ROOT, "c")  # 15
        volume.set(other, "status", "Read")
        self.refused(10, "NoAttr", volume.unset, other, "none")
        self.refused(12, "TooLong", volume.write, other, 2**63, 0)
        volume.remove(other)  # 17
        a, b, c = (ROOT, node, "a"), (ROOT, other, "b"), (ROOT, other, "c")
        values = [
            (3, B_STAT_CHANGED, *a, None), (4, B_STAT_CHANGED, *a, None), (5, B_ATTR_CHANGED, *a, "status"),
            (6, B_ATTR_CHANGED, *a, "status"), (7, B_ATTR_CHANGED, *a, "\uf7ff"), (8, B_ATTR_CHANGED, *a, "status"),
            (12, B_STAT_CHANGED, *b, None), (16, B_ATTR_CHANGED, *c, "status"),
        ]
        places = [(11, B_ENTRY_CREATED, *b, None), (13, B_ENTRY_REMOVED, *a, None), (17, B_ENTRY_REMOVED, *c, None)]
        moved = [(15, B_ENTRY_MOVED, *c, None)]
        unmoved = [(15, B_ENTRY_REMOVED, *b, None), (15, B_ENTRY_CREATED, *c, None)]

        def by_change(rows):
            return sorted(rows, key=lambda it: it[0])

        for query, wanted in (
            (plain, by_change(places + unmoved)), (queries[0], by_change(places + unmoved + values)),
            (queries[1], by_change(places + moved + values)),
        ):
            found = []
            for message in query:
                found.append((message.change, message.op, message.dir, message.node, message.name, message.attribute))
                result = query.result()
                self.assertEqual((result.change, result.settled), (message.change, message.last))
                if message.op in (B_STAT_CHANGED, B_ATTR_CHANGED):
                    self.assertTrue(message.last)
                    self.assertIsNone(message.from_name)
                    self.assertIn(Place(message.dir, message.node, message.name), result.entries)
            self.assertEqual((found, len(query.rows)), (wanted, 0))

    def test_rows_look_their_values_up_again(self):
        """With `values` a row's `info` is right after the message of a value, and no call refreshes it."""
        volume = self.volume
        node, other = volume.create("a", size=1).node, volume.create("b", size=2).node
        query = volume.open("size>=0", values=True, backlog=4)
        row, unseen = query.rows[node], query.rows[other]
        self.assertEqual((row.info.size, row.info.attributes), (1, {}))
        volume.write(node, 7, 8)
        volume.set(node, "status", "New")
        volume.write(other, 9, 0)
        self.assertEqual(row.info.size, 1)  # no message was read
        self.assertEqual([(it.op, it.attribute, it.node) for it in query], [
            (B_STAT_CHANGED, None, node), (B_ATTR_CHANGED, "status", node), (B_STAT_CHANGED, None, other)])
        self.assertEqual((row.info.size, row.info.time, row.info.attributes), (7, 8, {"status": "New"}))
        self.assertIs(row.info, row.info)  # it is looked up once
        self.assertEqual((unseen.info.size, query.rows[node] is row, row.refresh()), (9, True, False))
        volume.unset(node, "status")
        [*query]
        self.assertTrue(row.refresh())
        self.assertEqual(row.info.attributes, {})
        # an entry that has gone keeps its last one
        volume.write(node, 5, 5)
        volume.remove(node)
        self.assertEqual((query.read().op, row.info.size), (B_STAT_CHANGED, 7))
        [*query]
        self.assertEqual((row.info.size, [*query.rows]), (7, [other]))
        # after an overrun there are no messages, and the rows that stay are right all the same once it is opened again
        for size in range(20, 30):
            volume.write(other, size, 0)
        self.assertEqual(sum(1 for _ in itertools.islice(query, 5)), 5)
        self.assertRaises(Overrun, query.read)
        self.assertEqual(unseen.info.size, 29)
        volume.write(other, 40, 0)
        self.assertEqual((query.reopen(), query.rows[other] is unseen), (Difference([], [], []), True))
        self.assertEqual(unseen.info.size, 40)

    def test_values_beside_bound_ones(self):
        """The option, and what stands for `$1`: also by the name that this had before."""
        volume = self.volume
        node = volume.create("a", size=200).node
        queries = [volume.open("size>$1", [100], values=True), volume.open("size>$1", bound=[100], values=True),
                   volume.open("size>$1", values=[100]), volume.open("size>100", values=None)]
        self.assertEqual([[it.node for it in query.entries] for query in queries], [[node]] * 4)
        volume.write(node, 300, 0)
        self.assertEqual([[it.op for it in query] for query in queries], [[B_STAT_CHANGED]] * 2 + [[]] * 2)
        for wrong in [1], 1, None:
            said = f"values must be True or False beside bound, not {wrong}"
            self.says(TypeError, said, volume.open, "size>$1", [1], values=wrong)
        self.says(TypeError, "values must be a list of texts and whole numbers, not 1", volume.open, "size>1", values=1)

    def test_a_query_without_values_leaves_the_rows(self):
        volume = self.volume
        node = volume.create("a", size=1).node
        query = volume.open("size>=0", values=False)
        row = query.rows[node]
        self.assertEqual(row.info.size, 1)
        volume.write(node, 7, 8)
        volume.set(node, "status", "New")
        self.assertEqual(([*query], row.info.size), ([], 1))
        query.reopen()
        self.assertEqual((query.rows[node] is row, row.info.size), (True, 1))

    def test_rows_are_iterated_while_messages_are_read(self):
        """An iteration goes over the rows that are there when it begins."""
        volume, query = self.volume, self.volume.open("size>100")
        for way in (lambda: query.rows, lambda: query.rows.items(), lambda: query.rows.values()):
            nodes = [volume.create(f"f{number}", size=200).node for number in range(3)]
            [*query]
            volume.create("more", size=200)
            volume.remove(nodes[2])
            seen = []
            for it in way():
                query.read()
                seen.append(it if isinstance(it, int) else it[0] if isinstance(it, tuple) else it.node)
            self.assertEqual(seen, nodes)
            self.assertEqual([row.name for row in query.rows.values()], ["f0", "f1", "more"])
            for node in query.rows:
                volume.remove(node)
            [*query]

    def test_rows_after_each_message_are_the_result(self):
        """Random changes: after each message with `last` the rows are what a fetch gave after its change."""
        import random

        draw, volume = random.Random(5), self.volume
        for moved, values in itertools.product((False, True), repeat=2):
            with volume.open("size>100", moved=moved, values=values) as query:
                found, nodes = {}, []
                for number in range(500):
                    act = draw.choice("cwwmr") if nodes else "c"
                    if act == "c":
                        nodes.append(volume.create(f"{moved}{values}{number}", size=draw.choice([50, 200])).node)
                    elif act == "w":
                        volume.write(draw.choice(nodes), draw.choice([50, 200]), 0)
                    elif act == "m":
                        volume.move(draw.choice(nodes), ROOT, f"{moved}{values}{number}")
                    else:
                        volume.remove(nodes.pop(draw.randrange(len(nodes))))
                    found[volume.changes] = [Place(*it[:3]) for it in volume.fetch("size>100")]
                for message in query:
                    if message.last:
                        self.assertEqual(query.result(), (message.change, True, found[message.change]))
                self.assertEqual(query.result().entries, found[volume.changes])
                for node in nodes:
                    volume.remove(node)

    def test_what_was_not_read_is_dropped_at_the_end(self):
        with self.volume.open("name==*", backlog=100) as query:
            for number in range(50):
                self.volume.create(f"f{number}")
            self.assertEqual(next(query).name, "f0")
        again = self.volume.open("name==*")
        self.assertEqual((again.slot, again.entries), (1, self.volume.fetch("name==*")))

    def test_slots(self):
        queries = [self.volume.open("size>1") for _ in range(64)]
        self.assertEqual([query.slot for query in queries], [*range(1, 65)])
        self.refused(23, "NoSlot", self.volume.open, "size>1")
        queries[6].drop()
        self.assertEqual(self.volume.open("size>1").slot, 7)

    def test_a_query_that_nobody_has_frees_its_slot(self):
        for _ in range(200):
            self.volume.open("size>=0")
        kept = [self.volume.open("size>=0") for _ in range(63)]
        self.assertEqual(self.volume.open("size>=0").slot, 64)
        self.volume.create("a")
        self.assertEqual(len(self.volume.ready()), len(kept))

    def elsewhere(self, *calls):
        """Makes calls on another thread, one after another, a moment apart. The thread is returned."""
        def go():
            for call in calls:
                time.sleep(0.01)
                call()

        thread = threading.Thread(target=go)
        thread.start()
        self.addCleanup(thread.join)
        return thread

    def test_a_read_that_waits(self):
        volume, query = self.volume, self.volume.open("size>=0", backlog=3)
        since = time.monotonic()
        self.assertIsNone(query.read(timeout=0.03))
        self.assertGreaterEqual(time.monotonic() - since, 0.03)
        self.elsewhere(lambda: volume.create("a"), lambda: volume.create("b"))
        since = time.monotonic()
        self.assertEqual(query.read(timeout=SECONDS).name, "a")
        self.assertLess(time.monotonic() - since, SECONDS)
        self.assertEqual(query.read(timeout=None).name, "b")
        volume.create("c")
        self.assertEqual([query.read(0).name, query.read(0), query.read(-1)], ["c", None, None])
        self.elsewhere(query.close)
        self.assertEqual((query.read(timeout=None), query.mark.cause), (None, Cause.CLOSED))
        self.assertIsNone(query.read(timeout=None))
        query.reopen()
        self.elsewhere(lambda: [volume.create(f"f{number}") for number in range(9)]).join()
        with self.assertRaises(Overrun):
            for number in range(9):
                self.assertEqual(query.read(timeout=None).name, f"f{number}")
        self.assertRaises(Overrun, query.read, None)
        query.reopen()
        self.elsewhere(query.drop)
        self.says(ValueError, "the query was dropped or finished", query.read, None)
        query.reopen()
        self.elsewhere(volume.close)
        self.says(ValueError, "the volume is closed", query.read, None)
        self.assertFalse(volume._waiting)

    def test_messages_that_are_waited_for(self):
        volume, query = self.volume, self.volume.open("size>=0")
        self.assertEqual([*query.wait(timeout=0.01)], [])
        volume.create("first")
        self.assertEqual([it.name for it in query.wait(timeout=0.01)], ["first"])
        self.elsewhere(lambda: [volume.create(f"f{number}") for number in range(500)], query.close)
        self.assertEqual([it.name for it in query.wait()], [f"f{number}" for number in range(500)])
        self.assertEqual((query.mark.cause, [*query.wait()]), (Cause.CLOSED, []))
        query.reopen()
        names, threads = [], []
        for _ in range(3):
            threads.append(threading.Thread(target=lambda: names.extend(it.name for it in query.wait())))
            threads[-1].start()
        for number in range(300):
            volume.create(f"g{number}")
        query.hang_up()
        for thread in threads:
            thread.join(SECONDS)
            self.assertFalse(thread.is_alive())
        self.assertEqual(sorted(names), sorted(f"g{number}" for number in range(300)))
        self.assertFalse(volume._waiting)

    def test_ready(self):
        volume = self.volume
        large, small, all_of_them = volume.open("size>100"), volume.open("size<10"), volume.open("size>=0")
        self.assertEqual(volume.ready(), [])
        volume.create("a", size=200)
        self.assertEqual(volume.ready(), [large, all_of_them])
        self.assertEqual(len(list(large)), 1)
        self.assertEqual(volume.ready(), [all_of_them])
        small.close()
        self.assertEqual(volume.ready(), [small, all_of_them])
        list(small)
        list(all_of_them)
        self.assertEqual(volume.ready(), [])
        large.hang_up()
        volume.create("b")
        self.assertEqual(volume.ready(), [large, all_of_them])

    def test_ready_is_just_where_a_read_gives_something(self):
        queries = [self.volume.open(f"size>{10 * number}", backlog=3, on_overrun="mark") for number in range(20)]
        for number in range(60):
            self.volume.create(f"f{number}", size=7 * number % 200)
            ready = self.volume.ready()
            for query in queries[number % 3 :: 3]:
                had_ended = query.mark is not None
                gave = query.read() is not None or (query.mark is not None and not had_ended)
                self.assertEqual(gave, query in ready)

    def test_wake(self):
        woken, query = [], self.volume.open("size>100")
        self.volume.wake = lambda: woken.append(len(self.volume.ready()))
        self.volume.create("a", size=1)
        self.assertEqual(woken, [])
        self.volume.create("b", size=200)
        self.volume.answer('{"do":"create","name":"c","size":200}')
        self.assertEqual(woken, [1, 1])
        self.assertEqual(len(list(query)), 2)
        query.close()
        self.assertEqual(woken, [1, 1, 1])
        self.volume.wake = None
        self.volume.create("d", size=200)
        self.assertEqual(len(woken), 3)

    def test_pushes(self):
        for name, size in (("a.txt", 200), ("b.txt", 50), ("c", 300)):
            self.volume.create(name, size=size)
        numbers = -(2**31), 2**32 - 1, 2**40, -(2**63), 2**63 - 1, 2**64 - 1
        for pushes, formula in (
            ([Attr("name"), "*.txt", Op.EQ, Attr("size"), 100, Op.GT, Op.AND], "name==*.txt&&size>100"),
            ([Attr("name"), ".txt", Op.ENDS_WITH, Attr("name"), "c", Op.BEGINS_WITH, Op.OR, Op.NOT],
             "!(name==*.txt||name==c*)"),
            *(([Attr("size"), each, Op.GT], f"size>'{each}'") for each in numbers),
        ):
            self.assertEqual(self.volume.fetch(pushes), self.volume.fetch(formula))
        with self.volume.open(iter([Attr("size"), 100, Op.GT])) as query:
            self.assertEqual([it.name for it in query.entries], ["a.txt", "c"])
            self.assertEqual((query.reopen(), query.formula), (Difference([], [], []), (Attr("size"), 100, Op.GT)))
        bad = [([Attr("")], 0), ([Attr("a"), Op.NOT], 1), ([Attr("a"), "b"], 2), ([], 0), ([Attr("a"), "[", Op.EQ], 2)]
        for pushes, place in bad:
            with self.assertRaises(BadQuery) as caught:
                self.volume.fetch(pushes)
            self.assertEqual(caught.exception.place, place)
        with self.assertRaises(ValueError):
            self.volume.fetch([Attr("a"), 2**64, Op.EQ])
        self.assertEqual(len(self.volume.fetch([Attr("size"), 0, Op.GE])), 3)


class Values(Case):
    """Texts and numbers that stand in a formula as they are: by `quote`, and as the values of its parameters."""

    TEXTS = ["", "*", "a*b", "axb", "a?b", "[a-b]", "[", "]", "\\", "a\\", "\\*", '"', "'", "a b", "(a)", "a&&b", "$1"]
    TEXTS += ["$2", "!a", "\n", "a\0b", "\u00e4\U0001f600", "\uf7ff", "5", "-5", "x" * 1900]

    def test_quote(self):
        """A `\\` stands before each `*`, `?`, `[`, `\\` and `"`, and `"` around it all."""
        for text, literal in (
            ("", '""'), ("a b", '"a b"'), ("a*b", r'"a\*b"'), ("?[x]", r'"\?\[x]"'), ("\\", r'"\\"'), ('"', r'"\""'),
            ("'^-$1", "\"'^-$1\""), ("\u00e4\0", '"\u00e4\0"'), (os.fsdecode(b"\xff"), '"\uf7ff"'),
            ("*" * 4096, '"' + r"\*" * 4096 + '"'),
        ):  # fmt: skip
            self.assertEqual(quote(text), literal)

    def names(self, *given):
        return [it.name for it in self.volume.fetch(*given)]

    def test_texts_as_they_are(self):
        """Each of the texts is found alone; by `quote`, and by a value after each operator."""
        volume, nodes = self.volume, {}
        for number, text in enumerate(self.TEXTS):
            nodes[text] = volume.create(str(number), attributes={"t": text}).node
        for text, node in nodes.items():
            others = sorted({*nodes.values()} - {node})
            wanted = {it: [node] for it in ("t==$1", "t=$1", "!(t!=$1)", "t>=$1 && t<=$1", "!(t<$1||t>$1)")}
            for formula, found in {**wanted, "t!=$1": others}.items():
                self.assertEqual([it.node for it in volume.fetch(formula, [text])], found, (formula, text))
            for sign, found in ("==", [node]), ("=", [node]), ("!=", others):
                self.assertEqual([it.node for it in volume.fetch(f"t{sign}{quote(text)}")], found, text)
            with volume.open("t==$1", [text]) as query:
                self.assertEqual(([it.node for it in query.entries], query.reopen()), ([node], Difference([], [], [])))

    def test_numbers(self):
        volume = self.volume
        numbers = [0, 5, 2**31, 2**63 - 1]
        for number in numbers:
            volume.create(f"f{number}", size=number)
        volume.create("below", attributes={"n": -(2**63)})
        volume.create("above", attributes={"n": (2**64 - 1, "ULLG")})
        for number in numbers:
            self.assertEqual([it.name for it in volume.fetch("size==$1 && name==f*", [number])], [f"f{number}"])
        self.assertEqual([it.name for it in volume.fetch("n==$1", iter([-(2**63)]))], ["below"])
        self.assertEqual([it.name for it in volume.fetch("n==$2||n>$1", [5, 2**64 - 1])], ["above"])
        self.assertEqual(len(volume.fetch("size==$1 && size<=$1", [True])), 0)  # a bool is a whole number

    def test_many_values(self):
        """A formula may name a value more than once, and in any order; 256 are the most."""
        names = [f"f{number}" for number in range(300)]
        for name in names:
            self.volume.create(name)
        formula = "||".join(f"name==${number}" for number in range(256, 0, -1))
        self.assertEqual(self.names(formula, names[:256]), names[:256])
        self.assertEqual(self.names("name==$1 || name==$2 || (name!=$1 && name==$2)", ["f1", "f2"]), ["f1", "f2"])

    def test_what_is_no_parameter(self):
        """One in quotes, or with a `\\`; another number; an attribute; and any without values."""
        for name in "$1", "$0", "$01", "$257", "$1x", "x$1":
            self.volume.create(name, attributes={"$1": name})
        for literal, name in ('"$1"', "$1"), (r"\$1", "$1"), ("'$1'", "$1"):
            self.assertEqual(self.names(f"name=={literal}"), [name])
        for name in "$0", "$01", "$257", "$1x", "x$1":
            self.assertEqual(self.names(f"name=={name}"), [name])
        self.assertEqual(self.names("$1==$1", ["$1x"]), ["$1x"])
        self.assertEqual(self.names("name==$1"), ["$1"])
        with self.volume.open("name==$1") as query:
            self.assertEqual(([it.name for it in query.entries], query.reopen().created), (["$1"], []))

    def test_refusals_of_values(self):
        """The exception has the number of the parameter, or of the value that no parameter names; nothing is left."""
        volume = self.volume
        for formula, values, code, name, place in (
            ("name==$1", (), 43, "NoValue", 1), ("name==$3||name==$2", ("a",), 43, "NoValue", 3),
            ("name==a", ("a",), 44, "UnusedValue", 1), ("name==$3||name==$1", (*"abcd",), 44, "UnusedValue", 2),
        ):  # fmt: skip
            opened = formula, 65_536, False, False, values
            for call, arguments in (volume.fetch, (formula, values)), (volume.open, opened):
                refused = self.refused(code, name, call, formula, values)
                self.assertEqual((refused.place, refused.arguments), (place, arguments))
                self.assertIsInstance(refused, ValueError)
                again = pickle.loads(pickle.dumps(refused))
                self.assertIs(type(again), yazgoulm.BadValues)
                self.assertEqual((str(again), vars(again)), (str(refused), vars(refused)))
        refused = self.refused(20, "BadQuery", volume.fetch, "name==$1 && size>>1", ["a*"])
        self.assertEqual((refused.place, refused.text), (20, r'name=="a\*" && size>>1'))
        self.assertEqual(str(pickle.loads(pickle.dumps(refused))), str(refused))
        refused = self.refused(20, "BadQuery", volume.fetch, "name==$1 & size>1", ["a*"])
        self.assertEqual((refused.place, refused.text), (9, None))
        self.assertEqual(self.refused(12, "TooLong", volume.fetch, "t==$1", ["x" * 4097]).reason[:9], "values[0]")
        self.assertEqual(volume.fetch("name==a"), [])


class EventLoops(Case):
    def run_until(self, what):
        asyncio.run(asyncio.wait_for(what, SECONDS))

    def test_messages_are_awaited(self):
        volume, told = self.volume, []

        async def show(query):
            async for message in query:
                told.append((query.slot, message.name))

        async def change():
            with volume.open("size>100") as large, volume.open("size>=0") as every:
                shown = [asyncio.create_task(show(query)) for query in (large, every)]
                for number in range(5):
                    volume.create(f"f{number}", size=100 * number)
                    await asyncio.sleep(0)
                while len(told) < 8:
                    await asyncio.sleep(0)
                large.hang_up()
                every.close()
                await asyncio.gather(*shown)
                self.assertEqual((large.mark.cause, every.mark.cause), (Cause.HUNG_UP, Cause.CLOSED))

        self.run_until(change())
        self.assertEqual([name for slot, name in told if slot == 1], ["f2", "f3", "f4"])
        self.assertEqual([name for slot, name in told if slot == 2], ["f0", "f1", "f2", "f3", "f4"])
        self.assertFalse(volume._waiting)

    def test_changes_come_from_another_thread(self):
        volume, count = self.volume, 2000

        async def show():
            names = []
            async for message in query:
                names.append(message.name)
                if len(names) == count:
                    return names

        def change():
            for number in range(count):
                volume.create(f"f{number}")

        query, names = volume.open("size>=0"), []

        async def both():
            thread = threading.Thread(target=change)
            thread.start()
            names.extend(await show())
            thread.join()

        self.run_until(both())
        self.assertEqual(names, [f"f{number}" for number in range(count)])

    def test_waits_that_are_left_leave_nothing(self):
        """By a time-out, or cancelled: neither the one who waits nor, once nobody has it, the query."""
        volume = self.volume

        async def go():
            query = volume.open("size>=0")
            for number in range(20):
                with self.assertRaises(asyncio.TimeoutError):
                    await asyncio.wait_for(query.__anext__(), 0.0001)
                shown = asyncio.create_task(query.__anext__())
                await asyncio.sleep(0)
                self.assertEqual(len(volume._waiting), 1)
                shown.cancel()
                await asyncio.wait([shown])
            self.assertFalse(volume._waiting)
            del query, shown
            for number in range(130):
                query = volume.open("size>=0")
                with self.assertRaises(asyncio.TimeoutError):
                    await asyncio.wait_for(query.__anext__(), 0.0001)
                del query
            self.assertFalse(volume._waiting)

        self.run_until(go())

    def test_a_message_that_comes_with_a_time_out_is_not_lost(self):
        volume, names = self.volume, []

        async def go():
            query, thread = volume.open("size>=0"), threading.Thread(target=change)
            thread.start()
            while len(names) < 200:
                try:
                    names.append((await asyncio.wait_for(query.__anext__(), 0.001)).name)
                except asyncio.TimeoutError:
                    pass
            thread.join()

        def change():
            for number in range(200):
                time.sleep(0.001)
                volume.create(f"f{number}")

        self.run_until(go())
        self.assertEqual(names, [f"f{number}" for number in range(200)])

    def test_messages_in_a_row_leave_turns_to_others(self):
        volume, count = self.volume, 5000
        query, turns = volume.open("size>=0"), []
        for number in range(count):
            volume.create(f"f{number}")

        async def other():
            while True:
                turns.append(volume.changes)
                await asyncio.sleep(0)

        async def go():
            beside, names = asyncio.create_task(other()), []
            async for message in query:
                names.append(message.name)
                if len(names) == count:
                    break
            beside.cancel()
            return names

        self.run_until(self.equal(go(), [f"f{number}" for number in range(count)]))
        self.assertGreaterEqual(len(turns), count // 100 - 1)

    async def equal(self, what, wanted):
        self.assertEqual(await what, wanted)

    def test_who_waits_beside_another_is_told_of_the_end(self):
        """Both tasks get it, whichever reads the mark."""
        async def show(query):
            return [message.name async for message in query]

        async def go():
            query = self.volume.open("size>=0", backlog=1)
            shown = [asyncio.create_task(show(query)) for _ in range(2)]
            await asyncio.sleep(0)
            self.volume.create("a")
            query.close()
            names = await asyncio.gather(*shown)
            self.assertEqual(sorted(names), [[], ["a"]])
            query.reopen()
            shown = [asyncio.create_task(show(query)) for _ in range(2)]
            await asyncio.sleep(0)
            for number in range(3):
                self.volume.create(f"f{number}")
            for told in await asyncio.gather(*shown, return_exceptions=True):
                self.assertIsInstance(told, Overrun)

        self.run_until(go())

    def test_a_loop_that_was_closed_while_it_waited(self):
        query, loop = self.volume.open("size>=0"), asyncio.new_event_loop()
        shown = loop.create_task(query.__anext__())
        loop.run_until_complete(asyncio.sleep(0))
        loop.close()
        self.volume.create("a")
        self.assertEqual(query.read().name, "a")
        shown._log_destroy_pending = False

    def test_an_overrun_is_raised_and_gone_on_from(self):
        volume = self.volume

        async def show():
            query, names = volume.open("size>=0", backlog=1), []
            while len(names) < 8:
                try:
                    async for message in query:
                        names.append(message.name)
                        if len(names) == 8:
                            break
                except Overrun:
                    names += [it.name for it in query.reopen().created]
            return names

        async def both():
            shown = asyncio.create_task(show())
            await asyncio.sleep(0)
            for number in range(7):
                volume.create(f"f{number}")
            await asyncio.sleep(0.01)
            volume.create("f7")
            self.assertEqual(await shown, [f"f{number}" for number in range(8)])

        self.run_until(both())

    def test_a_query_that_is_opened_again_while_it_is_awaited(self):
        async def show(query):
            async for message in query:
                return message.name

        async def go():
            query = self.volume.open("size>=0")
            shown = asyncio.create_task(show(query))
            await asyncio.sleep(0)
            query.reopen()
            await asyncio.sleep(0)
            self.assertFalse(shown.done())
            self.volume.create("a")
            self.assertEqual(await shown, "a")

        self.run_until(go())

    def test_a_query_or_a_volume_that_goes_while_it_is_awaited(self):
        async def show(query):
            async for _ in query:
                pass

        async def go(leave):
            query = self.volume.open("size>1")
            shown = asyncio.create_task(show(query))
            await asyncio.sleep(0)
            leave(query)
            with self.assertRaises(ValueError):
                await shown

        self.run_until(go(lambda query: query.drop()))
        self.run_until(go(lambda _: self.volume.close()))


# What an import says in a clone where it may start no program.
CANNOT_RUN = "tools/take finds the library, and can't be run: subprocess not supported for isolated subinterpreters" \
    "; set YAZGOULM_LIBRARY\n"


class Libraries(unittest.TestCase):
    """Which shared library is taken, and which is refused."""

    def imports(self, script, **variables):
        """What another Python writes that imports the package in the same way, or its last line of error."""
        environment = {**os.environ, "PYTHONPATH": os.path.dirname(os.path.dirname(yazgoulm.__file__)),
                       "YAZGOULM_BACKEND": yazgoulm.backend, **variables}
        ran = subprocess.run([sys.executable, "-B", "-c", script], env=environment, stdout=subprocess.PIPE,
                             stderr=subprocess.PIPE, encoding="utf-8")
        return ran.stdout or ran.stderr.strip().rpartition("\n")[2]

    def test_the_library_of_this_minor_version_comes_first(self):
        """It stands beside the package, or above it as `make install` has it. The link may be of another version."""
        own = "liblq.so." + yazgoulm.__version__.rpartition(".")[0]
        with tempfile.TemporaryDirectory() as room:
            above, package = os.path.realpath(room), os.path.realpath(f"{room}/yazgoulm/yazgoulm")
            shutil.copytree(os.path.dirname(yazgoulm.__file__), package, ignore=shutil.ignore_patterns("*.so*", "*.c"))
            for path in f"{above}/liblq.so", f"{package}/liblq.so", f"{above}/{own}", f"{package}/{own}":
                with open(path, "wb"):
                    pass  # which is no library, and is found before all those that stand already
                said = self.imports("import yazgoulm", PYTHONPATH=os.path.dirname(package), YAZGOULM_LIBRARY="",
                                    YAZGOULM_BACKEND="ctypes")
                error, _, found = said.partition(" is not the library")[0].partition(": ")
                self.assertEqual((error, os.path.realpath(found)), ("ImportError", path))

    def test_an_empty_choice_of_the_way_is_none(self):
        self.assertIn(self.imports("import yazgoulm; print(yazgoulm.backend)", YAZGOULM_BACKEND="").strip(),
                      ("extension", "ctypes"))
        self.assertEqual(self.imports("import yazgoulm", YAZGOULM_BACKEND="c"),
                         "ImportError: YAZGOULM_BACKEND is 'c', and can be \"extension\" or \"ctypes\"")

    @unittest.skipUnless(yazgoulm.backend == "extension", "it is of the extension")
    def test_an_extension_of_other_sources(self):
        """A source that is touched is the same, and one that is another has ctypes taken, with a warning."""
        script = "import yazgoulm; print(yazgoulm.backend)"
        given = os.path.dirname(yazgoulm.__file__)
        headers = f"{given}/../../include"
        if not os.path.exists(headers):
            self.skipTest("the package is no clone's")
        with tempfile.TemporaryDirectory() as room:
            shutil.copytree(given, f"{room}/python/yazgoulm", ignore=shutil.ignore_patterns("liblq*"))
            shutil.copytree(headers, f"{room}/include")
            how = {"PYTHONPATH": f"{room}/python", "YAZGOULM_BACKEND": "",
                   "YAZGOULM_LIBRARY": yazgoulm._library._found()}
            os.utime(f"{room}/include/lq.h")
            self.assertEqual(self.imports(script, **how), "extension\n")
            with open(f"{room}/include/lq.h", "a") as file:
                file.write("\n")
            self.assertEqual(self.imports(script, **how), "ctypes\n")
            self.assertIn("is of other sources than those beside it: make library builds it",
                          self.imports(f"import warnings; warnings.simplefilter('error'); {script}", **how))
            self.assertIn("is of other sources", self.imports(script, **{**how, "YAZGOULM_BACKEND": "extension"}))

    def test_a_second_import(self):
        """What came of the first goes on beside what comes of the second, with classes of its own."""
        script = """if True:
            import gc, importlib, sys
            def imported():
                for name in [name for name in sys.modules if name.partition(".")[0] == "yazgoulm"]:
                    del sys.modules[name]
                return importlib.import_module("yazgoulm")
            def opened(package):
                volume = package.Volume()
                query, other = volume.open("size>=0", backlog=2), volume.open("size>=0", backlog=1, on_overrun="mark")
                return package, volume, query, other
            def used(package, volume, query, other):
                for name in "ab":
                    volume.create(name + str(volume.changes))
                read = [*query]
                assert {type(it) for it in read} == {package.Message} and len(read) == 2, read
                assert type(volume.fetch("size>=0")[0]) is package.Entry
                assert type(volume.entry(2)) is package.Info and query in volume.ready() + [query]
                assert repr(query).endswith("slot 1>") and repr(volume), query
                assert query.result().entries == [it[:3] for it in volume.fetch("size>=0")]
                try:
                    volume.remove(99)
                except package.NotFound as refused:
                    assert type(refused) is package.NotFound
                for number in range(4):
                    volume.create("o" + str(volume.changes))
                try:
                    [*query]
                    assert False
                except package.Overrun:
                    query.reopen()
                [*other]
                assert other.mark.cause is package.Cause.OVERRUN
                other.reopen()
            first = opened(imported())
            used(*first)
            second = opened(imported())
            assert first[0].Message is not second[0].Message
            for _ in range(3):
                used(*first)
                used(*second)
            for _ in range(20):
                used(*opened(imported()))
            gc.collect()
            used(*first)
            print("well")
        """
        self.assertEqual(self.imports(script), "well\n")

    def test_an_import_in_another_interpreter(self):
        """It is done beside the first, in one that shares the lock of the first where there are such."""
        script = """if True:
            import sys
            import _xxsubinterpreters as interpreters
            from yazgoulm import Message, Volume
            volume = Volume()
            query = volume.open("size>=0")
            other = interpreters.create(isolated=False)
            for _ in range(2):
                interpreters.run_string(other, 'import yazgoulm; it = yazgoulm.Volume(); q = it.open("size>=0");'
                    'it.create("a"); assert [type(m) for m in q] == [yazgoulm.Message]')
                volume.create("b" + str(volume.changes))
                assert [type(it) for it in query] == [Message]
            interpreters.destroy(other)
            volume.create("c")
            assert query.read().name == "c"
            print("well")
        """
        if not (3, 9) <= sys.version_info < (3, 13):
            self.skipTest("this Python has other interpreters under another name")
        self.assertEqual(self.imports(script), "well\n")

    def test_an_import_in_an_interpreter_of_its_own(self):
        """In one that shares nothing with the first it is done, or its error says why not. Python 3.12 has no `ctypes`
        there, and what would start a program, as in a clone, may not."""
        script = """if True:
            import sys
            try:
                import _interpreters as interpreters
            except ImportError:
                import _xxsubinterpreters as interpreters
            text = '''
            try:
                import yazgoulm
                volume = yazgoulm.Volume()
                query = volume.open("size>=0")
                volume.create("a")
                said = str([it.name for it in query])
            except ImportError as error:
                said = str(error)
            print(said, flush=True)
            '''
            text = "import sys; sys.path[:] = " + repr(sys.path) + chr(10) + __import__("textwrap").dedent(text)
            (getattr(interpreters, "exec", None) or interpreters.run_string)(interpreters.create(), text)
        """
        is_lacking = sys.version_info[:2] == (3, 12) and yazgoulm.backend == "ctypes"
        lacks = "module _ctypes does not support loading in subinterpreters\n"
        said = self.imports(script)
        self.assertIn(said, [lacks] if is_lacking else ["['a']\n", CANNOT_RUN])

    def test_few_descriptors(self):
        """Where a command can't find its library for want of them it says so in a line."""
        environment = {**os.environ, "PYTHONPATH": os.path.dirname(os.path.dirname(yazgoulm.__file__)),
                       "YAZGOULM_LIBRARY": "", "YAZGOULM_BACKEND": yazgoulm.backend}
        ran = subprocess.run([sys.executable, "-B", "-m", "yazgoulm._mail", "none"], env=environment, encoding="utf-8",
                             stdout=subprocess.PIPE, stderr=subprocess.PIPE,
                             preexec_fn=lambda: resource.setrlimit(resource.RLIMIT_NOFILE, (8, 8)))
        self.assertNotEqual(ran.returncode, 0)
        self.assertEqual(len(ran.stderr.splitlines()), 1, ran.stderr)

    @unittest.skipUnless(shutil.which(os.environ.get("CC") or "cc"), "there is no C compiler")
    def test_a_library_of_another_minor_version_is_refused(self):
        """Each stands for one that has all calls and another version."""
        from yazgoulm import _header

        own = _header.VERSION
        self.assertEqual("{}.{}.{}".format(own // 1000000, own // 1000 % 1000, own % 1000), yazgoulm.__version__)
        calls = {*_header.CALLS} - {"lq_version"}
        with tempfile.TemporaryDirectory() as room:
            for version in own - 1000, own + 1000, own + 1000000:
                path = f"{room}/{version}.so"
                text = "".join(f"void {call}(void) {{}}\n" for call in calls)
                text += f"unsigned lq_version(void) {{ return {version}; }}\n"
                words = [os.environ.get("CC") or "cc", "-shared", "-fPIC", "-x", "c", "-", "-o", path]
                subprocess.run(words, input=text.encode(), check=True)
                self.assertEqual(self.imports("import yazgoulm", YAZGOULM_LIBRARY=path),
                                 f"ImportError: {path} has version {version}, and this module is for {own}")


class Documents(unittest.TestCase):
    def test_each_public_name_has_a_docstring_and_hints(self):
        count = 0
        self.assertEqual(sorted(yazgoulm.__all__), sorted(set(yazgoulm.__all__)))
        for name in yazgoulm.__all__:
            item = getattr(yazgoulm, name)
            if not inspect.isclass(item):
                continue
            self.assertTrue(item.__doc__, name)
            for member, call in vars(item).items():
                call = call.fget if isinstance(call, property) else call
                if not member.startswith("_") and inspect.isfunction(call) and call.__module__.startswith("yazgoulm"):
                    count += 1
                    hints = typing.get_type_hints(call)
                    wanted = {*inspect.signature(call).parameters, "return"} - {"self"}
                    self.assertTrue(call.__doc__, f"{name}.{member}")
                    self.assertEqual(wanted - {*hints}, set(), f"{name}.{member}")
        self.assertGreater(count, 25)

    def test_pieces_of_documents_can_be_pasted_into_the_prompt(self):
        """Each Python piece, line by line, as the prompt takes it: no line is an error, and what is printed is what
        stands below the piece."""
        piece = re.compile(r"(?ms)^```python( more)?\n(.*?)^```\n(?:\n?^```text\n(.*?)^```\n)?")
        count, sys_hook = 0, sys.displayhook
        for name in "README.md", "docs/EMBEDDING.md", "docs/TUTORIAL.md":
            with open(f"{TOP}/{name}", encoding="utf-8") as file:
                text = file.read()
            for more, body, told in piece.findall(text):
                if not more:
                    prompt = interpreter.InteractiveConsole({"__name__": "__main__"})
                out, errors = io.StringIO(), []
                prompt.write = errors.append
                sys.displayhook = lambda _: None  # the prompt shows the value of an expression too
                with contextlib.redirect_stdout(out):
                    for line in [*body.splitlines(), ""]:
                        prompt.push(line)
                sys.displayhook = sys_hook
                if "room" in prompt.locals:
                    self.addCleanup(prompt.locals["room"].cleanup)
                self.assertEqual(("".join(errors), out.getvalue()), ("", told), f"{name}: {body[:60]!r}")
                count += 1
        self.assertGreater(count, 8)

    def test_the_backend_is_the_one_that_was_asked_for(self):
        self.assertEqual(yazgoulm.backend, os.environ.get("YAZGOULM_BACKEND") or yazgoulm.backend)


if __name__ == "__main__":
    unittest.main()
