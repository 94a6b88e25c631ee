"""Wrong calls: which exception each raises, and what its sentence has to name. None of them changes the volume."""
import os, pickle, sys, unittest

TOP = os.path.dirname(os.path.dirname(os.path.dirname(os.path.realpath(__file__))))
sys.dont_write_bytecode = True
sys.path.insert(0, os.environ.get("YAZGOULM_PACKAGE") or f"{TOP}/python")

import yazgoulm
from yazgoulm import FOLDER, ROOT, Volume

MOST, LEAST = 2**63 - 1, -(2**63)
TYPES = '"CSTR", "LONG", "LLNG", "ULNG" or "ULLG"'
WHOLE = f"must be from {LEAST} to {MOST}"
NATURAL = f"must be from 0 to {2**64 - 1}"


def every(calls, wrong):
    """Each call with each wrong argument in the place of `@`: the name of the argument comes first in the sentence."""
    for call, argument in calls:
        for given, error, said in wrong:
            yield call.replace("@", given), error, argument + (said if said[0] in "[:" else f" {said}")


# Calls with two wrong arguments or more, and the first of them.
TWO_WRONG = [
    ("volume.create([], 'x')", "name"), ("volume.create('c', 'x', 0)", "dir"),
    ("volume.create('c', 1, 0, 'x')", "kind"),
    ("volume.create('c', 1, 'file', 'x', 'y')", "size"), ("volume.create([], 'x', attributes={'x': 1.5})", "name"),
    ("volume.create('c', 'x', attributes=[])", "dir"), ("volume.create('c', time='x', attributes=[])", "time"),
    ("volume.move('x', 'y', [])", "node"), ("volume.move(4, 'y', [])", "dir"), ("volume.rename('x', [])", "node"),
    ("volume.write('x', 'y', 'z')", "node"), ("volume.write(4, 'y', 'z')", "size"), ("volume.write('x', 'y')", "node"),
    ("volume.write('x', time='y')", "node"), ("volume.set('x', [], 1.5)", "node"), ("volume.set(4, [], 1.5)", "attr"),
    ("volume.set('x', 'a', 1.5, 'LONG')", "node"), ("volume.unset('x', [])", "node"),
    ("volume.attribute('x', [])", "node"), ("volume.find([], 'x')", "name"), ("volume.find_path([], 'x')", "path"),
]  # fmt: skip

# In each row: a call, the class of its exception, and what the sentence has to say.
NUMBERS = [
    *every([
        ("volume.remove(@)", "node"), ("volume.remove(@, recursive=True)", "node"), ("volume.move(@, 1, 'c')", "node"),
        ("volume.rename(@, 'c')", "node"), ("volume.write(@, 1, 1)", "node"), ("volume.write(@, 1)", "node"),
        ("volume.set(@, 'x', 1)", "node"), ("volume.set(@, 'x', 't')", "node"), ("volume.unset(@, 'x')", "node"),
        ("volume.entry(@)", "node"), ("volume.attribute(@, 'x')", "node"), ("volume.path(@)", "node"),
        ("volume.create('c', @)", "dir"), ("volume.create('c', @, attributes={'x': 1})", "dir"),
        ("volume.move(4, @, 'c')", "dir"), ("volume.find('c', @)", "dir"), ("volume.find_path('c', @)", "dir"),
        ("volume.children(@)", "dir"), ("volume.create('c', size=@)", "size"),
        ("volume.create('c', size=@, attributes={'x': 1})", "size"), ("volume.write(4, @, 1)", "size"),
    ], [
        ("'2'", TypeError, "must be a whole number, not '2'"),
        ("1.5", TypeError, "must be a whole number, not 1.5"),
        ("-1", ValueError, f"{NATURAL}, not -1"),
        ("2**64", ValueError, f"{NATURAL}, not {2**64}"),
    ]),
    *every([
        ("volume.create('c', time=@)", "time"), ("volume.create('c', time=@, attributes={'x': 1})", "time"),
        ("volume.write(4, 1, @)", "time"), ("volume.write(4, time=@)", "time"),
    ], [
        ("'2'", TypeError, "must be a whole number, not '2'"),
        ("1e9", TypeError, "must be a whole number, not 1000000000.0"),
        ("2**63", ValueError, f"{WHOLE}, not {2**63}"),
        ("-2**63 - 1", ValueError, f"{WHOLE}, not {LEAST - 1}"),
    ]),
    ("volume.children(None)", TypeError, "dir must be a whole number, not None"),
    ("volume.remove([])", TypeError, "node must be a whole number, not []"),
    ("volume.remove(Unwritten())", TypeError, "node must be a whole number, not <Unwritten instance at"),
    ("volume.create('c', size=10**5000)", ValueError, f"size {NATURAL}, not this int"),
    ("volume.remove('2' * 1000)", TypeError, "node must be a whole number, not '222222222222..."),
    ("volume.open('size>1', backlog=0)", ValueError, "backlog must be from 1 to 65536, not 0"),
    ("volume.open('size>1', backlog=65537)", ValueError, "backlog must be from 1 to 65536, not 65537"),
    ("volume.open('size>1', backlog='all')", TypeError, "backlog must be a whole number, not 'all'"),
    ("volume.open('size>1', backlog=None)", TypeError, "backlog must be a whole number, not None"),
    ("query.read('1')", TypeError, "timeout must be a number of seconds or None, not '1'"),
    ("query.read([])", TypeError, "timeout must be a number of seconds or None, not []"),
    ("query.read(b'1')", TypeError, "timeout must be a number of seconds or None, not b'1'"),
    ("query.read(float('nan'))", ValueError, "timeout must be a number of seconds or None, not nan"),
    ("next(query.wait('1'))", TypeError, "timeout must be a number of seconds or None, not '1'"),
]

WORDS = [
    *every([("volume.create('c', kind=@)", "kind"), ("volume.create('c', kind=@, attributes={'x': 1})", "kind")], [
        ("'link'", ValueError, "must be \"file\" or \"folder\", not 'link'"),
        ("1", ValueError, 'must be "file" or "folder", not 1'),
        ("None", ValueError, 'must be "file" or "folder", not None'),
        ("[]", ValueError, 'must be "file" or "folder", not []'),
    ]),
    ("volume.open('size>1', on_overrun='end')", ValueError, "on_overrun must be \"raise\" or \"mark\", not 'end'"),
    ("volume.open('size>1', on_overrun=None)", ValueError, 'on_overrun must be "raise" or "mark", not None'),
    ("volume.open('size>1', on_overrun=[])", ValueError, 'on_overrun must be "raise" or "mark", not []'),
    ("setattr(volume, 'wake', 5)", TypeError, "wake must be callable or None, not 5"),
    ("setattr(volume, 'wake', 'print')", TypeError, "wake must be callable or None, not 'print'"),
]

NAMES = [
    *every([
        ("volume.create(@)", "name"), ("volume.create(@, attributes={'x': 1})", "name"),
        ("volume.move(4, 1, @)", "name"), ("volume.rename(4, @)", "name"), ("volume.find(@)", "name"),
        ("volume.find_path(@)", "path"),
        ("volume.set(4, @, 1)", "attr"), ("volume.set(4, @, 't')", "attr"), ("volume.unset(4, @)", "attr"),
        ("volume.attribute(4, @)", "name"), ("volume.create('c', attributes={@: 1})", "a name in attributes"),
    ], [
        ("5", TypeError, "must be a str, bytes or a path, not int"),
        ("None", TypeError, "must be a str, bytes or a path, not NoneType"),
        (r"'\ud800'", ValueError, r"has a surrogate that stands for no byte: '\ud800'"),
    ]),
    *every([
        ("volume.create(@)", "name"), ("volume.create(@, attributes={'x': 1})", "name"),
        ("volume.move(4, 1, @)", "name"), ("volume.rename(4, @)", "name"), ("volume.find(@)", "name"),
    ], [
        ("''", "BadName", "is empty"),
        ("'x' * 256", "BadName", "has 256 bytes, and may have 255"),
        ("'\u00e4' * 128", "BadName", "has 256 bytes, and may have 255"),
        (r"b'\xff' * 86", "BadName", "has 258 bytes, and may have 255"),
        ("'a/b'", "BadName", "has a /"),
        (r"'a\0b'", "BadName", "has a NUL"),
        ("'.'", "BadName", "is '.'"),
        ("b'..'", "BadName", "is '..'"),
    ]),
    *every([
        ("volume.set(4, @, 1)", "attr"), ("volume.set(4, @, 't')", "attr"), ("volume.unset(4, @)", "attr"),
        ("volume.attribute(4, @)", "name"), ("volume.create('c', attributes={'y': 1, @: 1})", "a name in attributes"),
    ], [
        ("''", "BadName", "is empty"),
        ("'x' * 256", "BadName", "has 256 bytes, and may have 255"),
        (r"'a\0b'", "BadName", "has a NUL"),
    ]),
    *every([
        ("volume.set(4, @, 1)", "attr"), ("volume.unset(4, @)", "attr"),
        ("volume.create('c', attributes={@: 1})", "a name in attributes"),
    ], [
        ("'name'", "Refused", "is 'name', which no attribute can have as its name"),
        ("'size'", "Refused", "is 'size', which no attribute can have as its name"),
        ("b'last_modified'", "Refused", "is b'last_modified', which no attribute can have as its name"),
    ]),
    ("volume.find_path('in/..')", "BadName", "a name in path is '..'"),
    ("volume.find_path('x' * 256)", "BadName", "a name in path has 256 bytes, and may have 255"),
    ("volume.find_path('in/' * 21846)", "BadName", "path has 65538 bytes, and may have 65536"),
    ("to_name(5)", TypeError, "raw must be a str, bytes or a path, not int"),
    (r"to_name('\ud800')", ValueError, r"raw has a surrogate that stands for no byte: '\ud800'"),
    ("to_bytes(b'a')", TypeError, "name must be a str, not bytes"),
    (r"to_bytes('\ud800')", ValueError, r"name has a surrogate that stands for no byte: '\ud800'"),
    ("volume.answer(5)", TypeError, "line must be a str or bytes, not int"),
    ("volume.answer(None)", TypeError, "line must be a str or bytes, not NoneType"),
    (r"volume.answer('\ud800')", ValueError, r"line has a surrogate that stands for no byte: '\ud800'"),
]

VALUES = [
    ("volume.set(4, 'y', None)", TypeError, "value must be a str or a whole number, not None"),
    ("volume.set(4, 'y', 1.5)", TypeError, "value must be a str or a whole number, not 1.5"),
    ("volume.set(4, 'y', b't')", TypeError, "value must be a str or a whole number, not b't'"),
    ("volume.set(4, 'y', int)", TypeError, "value must be a str or a whole number, not <class 'int'>"),
    ("volume.set(4, 'y', None, 'LONG')", TypeError, "value must be a whole number, not None"),
    ("volume.set(4, 'y', None, 'CSTR')", TypeError, "value must be a str, not None"),
    ("volume.set(4, 'y', 1, 'CSTR')", ValueError, 'value must be a str where type is "CSTR", not 1'),
    ("volume.set(4, 'y', '1', 'LONG')", ValueError, "value must be a whole number where type is \"LONG\", not '1'"),
    ("volume.set(4, 'y', '1', 'ULLG')", ValueError, "value must be a whole number where type is \"ULLG\", not '1'"),
    ("volume.set(4, 'y', 1, 'what')", ValueError, f"type must be {TYPES}, not 'what'"),
    ("volume.set(4, 'y', 't', 'what')", ValueError, f"type must be {TYPES}, not 'what'"),
    ("volume.set(4, 'y', None, 'what')", ValueError, f"type must be {TYPES}, not 'what'"),
    ("volume.set(4, 'y', 1, 'long')", ValueError, f"type must be {TYPES}, not 'long'"),
    ("volume.set(4, 'y', 1, 5)", ValueError, f"type must be {TYPES}, not 5"),
    ("volume.set(4, 'y', 't', [])", ValueError, f"type must be {TYPES}, not []"),
    (r"volume.set(4, 'y', 1, '\ud800')", ValueError, rf"type must be {TYPES}, not '\ud800'"),
    ("volume.set(4, 'y', 2**63)", ValueError, f"value {WHOLE}, not {2**63}"),
    ("volume.set(4, 'y', 2**31, 'LONG')", ValueError, f"value must be from {-(2**31)} to {2**31 - 1}, not {2**31}"),
    ("volume.set(4, 'y', 2**63, 'LLNG')", ValueError, f"value {WHOLE}, not {2**63}"),
    ("volume.set(4, 'y', 2**32, 'ULNG')", ValueError, f"value must be from 0 to {2**32 - 1}, not {2**32}"),
    ("volume.set(4, 'y', -1, 'ULLG')", ValueError, f"value {NATURAL}, not -1"),
    (r"volume.set(4, 'y', '\ud800')", ValueError, r"value has a surrogate that stands for no byte: '\ud800'"),
    ("volume.set(4, 'y', 'x' * 4097)", "Refused", "value has 4097 bytes, and may have 4096"),
    ("volume.set(4, 'y', '\u00e4' * 2049)", "Refused", "value has 4098 bytes, and may have 4096"),
    ("volume.create('c', size=2**63)", "Refused", f"size may be {MOST} at most"),
    ("volume.write(4, 2**63, 1)", "Refused", f"size may be {MOST} at most"),
    ("volume.write(4, 2**63)", "Refused", f"size may be {MOST} at most"),
    *every([("volume.create('c', attributes=@)", "attributes")], [
        ("5", TypeError, "must be a dict of names and values, not 5"),
        ("[]", TypeError, "must be a dict of names and values, not []"),
        ("[('x', 1)]", TypeError, "must be a dict of names and values, not [("),
        ("{'y': None}", TypeError, "['y'] must be a str or a whole number, not None"),
        ("{'x': 1, 'y': 1.5}", TypeError, "['y'] must be a str or a whole number, not 1.5"),
        ("{'y': (1, 2, 3)}", TypeError, "['y'] must be a str or a whole number, not (1, 2, 3)"),
        ("{'y': (1, 'what')}", ValueError, f"['y'] must be {TYPES}, not 'what'"),
        ("{'y': ('1', 'LONG')}", ValueError, "['y'] must be a whole number where its type is \"LONG\", not '1'"),
        ("{'y': (1, 'CSTR')}", ValueError, "['y'] must be a str where its type is \"CSTR\", not 1"),
        ("{'y': 2**63}", ValueError, f"['y'] {WHOLE}, not {2**63}"),
        ("{'y': (-1, 'ULNG')}", ValueError, f"['y'] must be from 0 to {2**32 - 1}, not -1"),
        (r"{'y': '\ud800'}", ValueError, r"['y'] has a surrogate that stands for no byte: '\ud800'"),
        ("{'y': 'x' * 4097}", "Refused", "['y'] has 4097 bytes, and may have 4096"),
    ]),
]

FORMULAS = [
    *every([("volume.fetch(@)", "formula"), ("volume.open(@)", "formula")], [
        ("5", TypeError, "must be a str or a list of pushes, not 5"),
        ("None", TypeError, "must be a str or a list of pushes, not None"),
        ("b'size>1'", TypeError, "must be a str or a list of pushes, not b'size>1'"),
        (r"'name==\ud800'", ValueError, r"has a surrogate that stands for no byte: 'name==\ud800'"),
        ("[Attr('size'), 1.5, Op.GT]", TypeError, "[1] must be an Attr, a str, a whole number or an Op, not 1.5"),
        ("[None]", TypeError, "[0] must be an Attr, a str, a whole number or an Op, not None"),
        ("[Attr('size'), 2**64, Op.GT]", ValueError, f"[1] must be from {LEAST} to {2**64 - 1}, not {2**64}"),
        ("[Attr('size'), 1, Op.GT, Attr(5)]", TypeError, "[3] must be a str, bytes or a path, not int"),
        (r"[Attr('size'), '\ud800', Op.EQ]", ValueError, r"[1] has a surrogate that stands for no byte: '\ud800'"),
        ("[Attr('size')] * 4097", "Refused", "has 4097 pushes, and may have 4096"),
    ]),
    *every([("volume.fetch(@)", "BadQuery at"), ("volume.open(@)", "BadQuery at")], [
        ("'size>'", "BadQuery", "5: "),
        ("'size>>1'", "BadQuery", "5: "),
        ("''", "BadQuery", "0: "),
        ("'name==[z-a]'", "BadQuery", "6: "),
        ("'size>1 & name==a'", "BadQuery", "7: "),
        ("'\u00e4==\u00f6 &'", "BadQuery", "7: "),
        ("'x' * 4097", "BadQuery", "4096: "),
        ("'a==b||' * 256 + 'c==d'", "BadQuery", "1536: "),
        ("[Attr('size'), Op.GT]", "BadQuery", "1: "),
        ("[Attr('')]", "BadQuery", "0: "),
        ("[]", "BadQuery", "0: "),
    ]),
]

PARAMETERS = [
    *every([("volume.fetch('name==$1', @)", "values"), ("volume.open('name==$1', @)", "values")], [
        ("5", TypeError, "must be a list of texts and whole numbers, not 5"),
        ("'x'", TypeError, "must be a list of texts and whole numbers, not 'x'"),
        ("b'x'", TypeError, "must be a list of texts and whole numbers, not b'x'"),
        ("[1.5]", TypeError, "[0] must be a str or a whole number, not 1.5"),
        ("['x', None]", TypeError, "[1] must be a str or a whole number, not None"),
        ("[2**64]", ValueError, f"[0] must be from {LEAST} to {2**64 - 1}, not {2**64}"),
        (r"['\ud800']", ValueError, r"[0] has a surrogate that stands for no byte: '\ud800'"),
        ("['x'] * 257", ValueError, "has 257 items, and may have 256"),
        ("['x', 'x' * 4097]", "Refused", "[1] has 4097 bytes, and may have 4096"),
        ("[]", "BadValues", "has no item for $1"),
        ("()", "BadValues", "has no item for $1"),
    ]),
    ("volume.fetch('name==$1', ())", "BadValues", "values has no item for $1"),
    ("volume.fetch('name==$2', ['x'])", "BadValues", "values has no item for $2"),
    ("volume.fetch('name==$1', ['x', 'y'])", "BadValues", "the formula has no $2, so values[1] isn't used"),
    ("volume.open('name==x', ['x'])", "BadValues", "the formula has no $1, so values[0] isn't used"),
    ("volume.fetch([Attr('size'), 1, Op.GT], [1])", TypeError, "values must be empty where formula is a list of"),
    ("volume.open('size>1', 16)", TypeError, "values must be a list of texts and whole numbers, not 16"),
    ("volume.open('size>1', (), 16)", TypeError, "positional argument"),
    ("quote(5)", TypeError, "text must be a str, not int"),
    ("quote(None)", TypeError, "text must be a str, not NoneType"),
    (r"quote('\ud800')", ValueError, r"text has a surrogate that stands for no byte: '\ud800'"),
    ("quote('x' * 4097)", ValueError, "text must have at most 4096 bytes in UTF-8, not 4097"),
]

STATES = [
    ("volume.remove(9)", "NotFound", "NoNode: remove(9)"),
    ("volume.move(9, 1, 'c')", "NotFound", "NoNode: move(9, 1, 'c', False)"),
    ("volume.create('c', 9)", "NotFound", "NoNode: create('c', 9, 'file', 0, 0)"),
    ("volume.create('c', 4)", "NotFolder", "NotFolder: create('c', 4, 'file', 0, 0)"),
    ("volume.create('b')", "Exists", "Exists: create('b', 1, 'file', 0, 0)"),
    ("volume.move(2, 2, 'c')", "Refused", "WouldLoop: move(2, 2, 'c', False)"),
    ("volume.remove(2)", "NotEmpty", "NotEmpty: remove(2)"),
    ("volume.move(4, 1, 'in', clobber=True)", "Refused", "KindClash: move(4, 1, 'in', True)"),
    ("volume.write(2, 5)", "Refused", "IsFolder: write(2, 5, None)"),
    ("volume.unset(4, 'y')", "NotFound", "NoAttr: unset(4, 'y')"),
    ("volume.attribute(4, 'y')", "NotFound", "NoAttr: attribute(4, 'y')"),
    ("volume.find('c')", "NotFound", "NoEntry: find('c', 1)"),
    ("volume.find_path('in/c')", "NotFound", "NoEntry: find_path('in/c', 1)"),
    ("volume.children(4)", "NotFolder", "NotFolder: children(4)"),
    ("volume.entry(1)", "NotFound", "NoEntry: entry(1)"),
    ("volume.path(9)", "NotFound", "NoNode: path(9)"),
    *every([("volume.remove(1)", "remove(1)"), ("volume.rename(1, 'c')", "rename(1, 'c', False)"),
            ("volume.write(1, 1, 1)", "write(1, 1, 1)"), ("volume.set(1, 'x', 1)", "set(1, 'x', 1, None)"),
            ("volume.unset(1, 'x')", "unset(1, 'x')"), ("volume.move(1, 1, 'c')", "move(1, 1, 'c', False)")],
           [("", "Refused", ": the root can't be changed")]),
    ("query.finish()", "Refused", "StillOpen: finish(1)"),
    ("query.rows[9]", KeyError, "9"),
    ("query.rows['b']", KeyError, "'b'"),
    *((f"dropped.{call}", ValueError, "the query was dropped or finished")
      for call in ("read()", "__next__()", "close()", "hang_up()", "finish()", "result()")),
    *((f"closed.{call}", ValueError, "the volume is closed")
      for call in ("create('c')", "open('size>1')", "fetch('size>1')", "answer('{}')", "changes", "ready()", "path(1)",
                   "entry(2)", "set(2, 'x', 1)", "remove(2, recursive=True)")),
]

# What Python itself says of a call with too few arguments, too many, or one of another name.
SIGNATURES = [
    ("volume.create()", TypeError, "'name'"), ("volume.create('c', sise=1)", TypeError, "'sise'"),
    ("volume.move(4, 'c')", TypeError, "'name'"), ("volume.set(4, 'x')", TypeError, "'value'"),
    ("volume.open()", TypeError, "'formula'"), ("volume.open('size>1', limit=5)", TypeError, "'limit'"),
    ("volume.fetch()", TypeError, "'formula'"), ("volume.attribute(4)", TypeError, "'name'"),
    ("Volume(5)", TypeError, "path must be a str, bytes or a path, not 5"), ("volume.remove()", TypeError, "'node'"),
]

GROUPS = NUMBERS, WORDS, NAMES, VALUES, FORMULAS, PARAMETERS, STATES, SIGNATURES


class Unwritten:
    """What can't be written."""

    def __repr__(self):
        raise RuntimeError("it can't be written")


class WrongCalls(unittest.TestCase):
    def setUp(self):
        volume, closed = Volume(), Volume()
        self.addCleanup(volume.close)
        folder = volume.create("in", kind=FOLDER).node
        volume.create("a", folder)
        volume.set(volume.create("b").node, "x", 1)
        closed.close()
        dropped = volume.open("size>=0")
        dropped.drop()
        query = volume.open("size>=0")
        self.volume = volume
        self.known = {**vars(yazgoulm), "volume": volume, "query": query, "dropped": dropped, "closed": closed,
                      "Unwritten": Unwritten}

    def error_of(self, call):
        try:
            eval(call, self.known)
        except Exception as error:
            return error
        return None

    def test_wrong_calls(self):
        """Each row of the tables: the class, and the words of the sentence."""
        count = 0
        for row in (row for group in GROUPS for row in group):
            call, wanted, said = row
            with self.subTest(call):
                error = self.error_of(call)
                self.assertEqual(type(error).__name__, wanted if isinstance(wanted, str) else wanted.__name__, error)
                self.assertIn(said, str(error))
                self.assertLess(max(map(len, str(error).split("\n"))), 300)
                self.assertEqual(str(pickle.loads(pickle.dumps(error))), str(error))
            count += 1
        self.assertGreaterEqual(count, 245)
        self.assertEqual((self.volume.changes, [it.node for it in self.volume.children(ROOT)]), (4, [4, 2]))

    def test_the_first_of_two_wrong_arguments_is_named(self):
        """By both ways to call it is the first of the call's signature."""
        for call, first in TWO_WRONG:
            with self.subTest(call), self.assertRaises((TypeError, ValueError)) as caught:
                eval(call, {"volume": Volume()})
            self.assertEqual(str(caught.exception).split()[0], first, call)

    def test_a_reason_is_of_its_class(self):
        """A BadName is a ValueError; `reason` is the last part of the sentence, and empty where there is none."""
        error = self.error_of("volume.create('a/b')")
        self.assertIsInstance(error, ValueError)
        self.assertEqual((error.code, error.name, error.reason), (1, "BadName", "name has a /"))
        self.assertEqual(str(error), "BadName: create('a/b', 1, 'file', 0, 0): name has a /")
        for call in "volume.remove(9)", "volume.fetch('size>')":
            self.assertEqual(self.error_of(call).reason, "")

    def test_carets(self):
        """The text of a BadQuery has the formula on one line, and below it a caret under its leftmost fault."""
        long = "name==" + "x" * 200
        for formula, line, column in (
            ("size>", "size>", 5),
            ("size>>1", "size>>1", 5),
            ("", "", 0),
            ("n\u00e4me==\u00f6 & size>1", "n\u00e4me==\u00f6 & size>1", 8),
            ("\u65e5\u672c==\u8a9e &", "\u65e5\u672c==\u8a9e &", 9),  # each of the three takes two columns
            ("e\u0301==x &", "e\u0301==x &", 5),  # an accent takes none
            ("a==b\n&& &", "a==b\\n&& &", 9),
            ("a==\x1b[m &", "a==\\x1b[m &", 7),
            (f"{long} & y==1", f"...{'x' * 65} & y==1", 3 + 66),  # the last 72 columns
            (f"size>>1 || {long}", f"size>>1 || name=={'x' * 55}...", 5),  # the first 72 columns
            # 48 columns before the fault, and 24 from it on
            (f"name=={'x' * 94} & {long}", f"...{'x' * 47} & name=={'x' * 16}...", 3 + 48),
            ("x" * 4097, "..." + "x" * 72, 3 + 71),
        ):
            first, *shown = str(self.error_of(f"volume.fetch({formula!r})")).split("\n")
            self.assertEqual(shown, [f"    {line}".rstrip(), " " * (4 + column) + "^"], first)
        for pushes, line, column in (
            ("Attr('size'), 1, Op.GT, Op.AND", "Attr('size'), 1, Op.GT, Op.AND", 24),
            ("Attr('size')", "Attr('size'),", 14),
            ("", "", 0),
        ):
            first, *shown = str(self.error_of(f"volume.open([{pushes}])")).split("\n")
            self.assertEqual(shown, [f"    {line}".rstrip(), " " * (4 + column) + "^"], first)


if __name__ == "__main__":
    unittest.main()
