"""The command yazgoulm-explain: what it says of each line, and that it refuses what the program refuses."""
import glob, io, json, os, random, re, subprocess, sys, tempfile, unittest

TOP = os.path.dirname(os.path.dirname(os.path.dirname(os.path.realpath(__file__))))
PACKAGE = os.environ.get("YAZGOULM_PACKAGE") or f"{TOP}/python"
sys.dont_write_bytecode = True
sys.path.insert(0, PACKAGE)

from yazgoulm import Volume, _explain

NATURAL = "must be a whole number from 0 to 18446744073709551615, not"
WHOLE = "must be a whole number from -9223372036854775808 to 9223372036854775807, not"
DEEP = "[" * 128 + "]" * 128

# What comes first in a script: node 2 is a folder, 3 a file in it, 4 a file with an attribute; slot 1 has a query.
FIRST = b"""{"do":"create","name":"in","kind":"folder"}
{"do":"create","name":"a","dir":2}
{"do":"create","name":"b"}
{"do":"set","node":4,"attr":"x","type":"LONG","value":1}
{"do":"open","query":"size>=0","port":1,"backlog":9}
"""

# A line that is refused; its code; the fields that are at fault, or None; and what is said of the first.
REFUSED = [
    ('{"do":"create"}', 33, ["name"], 'create needs the field "name"'),
    ('{"do":"remove"}', 33, ["node"], 'remove needs the field "node"'),
    ('{"do":"move","dir":2}', 33, ["node", "name"], 'move needs the field "node"'),
    ('{"do":"write"}', 33, ["node", "size"], 'write needs the field "node"'),
    ('{"do":"set"}', 33, ["node", "attr", "type", "value"], 'set needs the field "node"'),
    ('{"do":"unset","node":4}', 33, ["attr"], 'unset needs the field "attr"'),
    ('{"do":"open","query":"size>1"}', 33, ["port", "backlog"], 'open needs the field "port"'),
    *((f'{{"do":"{do}"}}', 33, ["slot"], f'{do} needs the field "slot"')
      for do in ("read", "hang_up", "close", "finish", "result")),
    ('{"do":"find"}', 33, ["name"], 'find needs the field "name"'),
    ('{"do":"entry","nodes":4}', 33, ["node"], 'entry needs the field "node"'),
    ('{"do":"fetch","formula":"size>1"}', 33, ["query"], 'fetch needs the field "query"'),
    ('{"name":"c"}', 33, ["do"], '"do" is missing, and may be create, remove, move'),
    ('{"do":"creat","name":"c"}', 33, ["do"], 'find, entry, fetch: did you mean "create"?'),
    ('{"do":7}', 33, ["do"], '"do" is 7, and may be'),
    ('{"do":null}', 33, ["do"], '"do" is null, and may be'),
    ('{"do":["create"]}', 33, ["do"], '"do" is ["create"], and may be'),
    ("[]", 33, [None], "a line has an object, {..}, and this is []"),
    ("5", 33, [None], "a line has an object, {..}, and this is 5"),
    ("1e2", 33, [None], "a line has an object, {..}, and this is 1e2"),
    ('"create"', 33, [None], 'a line has an object, {..}, and this is "create"'),
    ('{"do":"create","name":5}', 33, ["name"], '"name" must be a text, not 5'),
    ('{"do":"create","name":1e2}', 33, ["name"], '"name" must be a text, not 1e2'),
    ('{"do":"create","name":"c","name":null}', 33, ["name"], '"name" must be a text, not null'),
    ('{"do":"create","name":"c","dir":"2"}', 33, ["dir"], f'"dir" {NATURAL} "2"'),
    ('{"do":"create","name":"c","dir":null}', 33, ["dir"], f'"dir" {NATURAL} null'),
    ('{"do":"create","name":"c","size":-1}', 33, ["size"], f'"size" {NATURAL} -1'),
    ('{"do":"create","name":"c","size":1.0}', 33, ["size"], f'"size" {NATURAL} 1.0'),
    ('{"do":"create","name":"c","size":1e2}', 33, ["size"], f'"size" {NATURAL} 1e2'),
    ('{"do":"create","name":"c","size":-0}', 33, ["size"], f'"size" {NATURAL} -0'),
    ('{"do":"create","name":"c","size":true}', 33, ["size"], f'"size" {NATURAL} true'),
    ('{"do":"create","name":"c","size":18446744073709551616}', 33, ["size"], f'"size" {NATURAL} 18446744073709551616'),
    ('{"do":"create","name":"c","time":9223372036854775808}', 33, ["time"], f'"time" {WHOLE} 9223372036854775808'),
    ('{"do":"create","name":"c","kind":"link"}', 33, ["kind"], '"kind" must be "file" or "folder", not "link"'),
    ('{"do":"create","name":"c","kind":1}', 33, ["kind"], '"kind" must be "file" or "folder", not 1'),
    ('{"do":"move","node":4,"name":"c","clobber":1}', 33, ["clobber"], '"clobber" must be true or false, not 1'),
    ('{"do":"open","query":"a==b","port":1,"backlog":9,"moved":"yes"}', 33, ["moved"], "must be true or false, not"),
    ('{"do":"open","query":"a==b","port":1,"backlog":9,"values":1}', 33, ["values"], "must be true or false, not 1"),
    ('{"do":"set","node":4,"attr":"x","type":"INT","value":1}', 33, ["type"],
     '"type" must be "CSTR", "LONG", "LLNG", "ULNG", "ULLG", not "INT"'),
    ('{"do":"set","node":4,"attr":"x","type":5,"value":1}', 33, ["type"], '"type" must be "CSTR"'),
    ('{"do":"set","node":4,"attr":"x","value":1}', 33, ["type"], 'set needs the field "type"'),
    ('{"do":"set","node":4,"attr":"x","type":"CSTR","value":1}', 33, ["value"],
     '"value" must be a text where "type" is "CSTR", not 1'),
    ('{"do":"set","node":4,"attr":"x","type":"LONG","value":2147483648}', 33, ["value"],
     '"value" must be a whole number from -2147483648 to 2147483647 where "type" is "LONG", not 2147483648'),
    ('{"do":"set","node":4,"attr":"x","type":"ULNG","value":"1"}', 33, ["value"],
     '"value" must be a whole number from 0 to 4294967295 where "type" is "ULNG", not "1"'),
    ('{"do":"set","node":"4","attr":5,"type":"ULLG","value":-1}', 33, ["node", "attr", "value"],
     f'"node" {NATURAL} "4"'),
    ("{a}", 32, [None], "no JSON: Expecting property name"),
    ("{'do':'create'}", 32, [None], "no JSON: Expecting property name"),
    ('{"do":"create","name":"c"', 32, [None], "no JSON: "),
    ('{"do":"create","name":"c"} x', 32, [None], "no JSON: Extra data"),
    ('{"do":"create","name":"c\t"}', 32, [None], "no JSON: Invalid control character"),
    (DEEP, 32, [None], "it is nested more than 127 deep"),
    ("[" * 5000, 32, [None], "it is nested more than 127 deep"),
    ('{"do":1e999}', 32, [None], "the number 1e999 is beyond the doubles"),
    ('{"do":-1%s}' % ("0" * 400), 32, [None], "is beyond the doubles"),
    ('{"do":NaN}', 32, [None], "NaN is no JSON"),
    ('{"do":-Infinity}', 32, [None], "-Infinity is no JSON"),
    (r'{"do":"\ud800"}', 32, [None], "a text has half of a surrogate pair"),
    (b'{"do":"\xff"}', 31, [None], "byte 7 of the line is no UTF-8"),
    ("x" * 65_537, 30, [None], "the line has 65537 bytes, and may have 65536"),
    ("x" * 200_000, 30, [None], "the line has 200000 bytes, and may have 65536"),
    ('{"do":"create","name":""}', 1, ["name"], '"name" is empty'),
    ('{"do":"create","name":"%s"}' % ("\u00e4" * 128), 1, ["name"], '"name" has 256 bytes, and may have 255'),
    ('{"do":"move","node":4,"name":"c/d"}', 1, ["name"], '"name" has a /'),
    (r'{"do":"create","name":"c\u0000"}', 1, ["name"], '"name" has a NUL'),
    ('{"do":"find","name":".."}', 1, ["name"], "\"name\" is '..'"),
    ('{"do":"set","node":4,"attr":"","type":"CSTR","value":"t","name":"c"}', 1, ["attr"], '"attr" is empty'),
    ('{"do":"remove","node":9}', 2, ["node"], "no entry has node 9: it was never given"),
    ('{"do":"create","name":"c","dir":9}', 2, ["dir"], "no entry has node 9"),
    ('{"do":"move","node":4,"name":"c","dir":9}', 2, ["dir"], "no entry has node 9"),
    ('{"do":"move","node":8,"name":"c","dir":9}', 2, ["node"], "no entry has node 8"),
    ('{"do":"create","name":"c","dir":4}', 3, ["dir"], "node 4 is a file, and no folder"),
    ('{"do":"find","name":"c","dir":2}', 4, ["name"], "folder 2 has no entry of this name"),
    ('{"do":"find","name":"c"}', 4, ["name"], "folder 1 has no entry of this name"),
    ('{"do":"entry","node":1}', 4, ["node"], "the root is no entry"),
    ('{"do":"create","name":"b"}', 5, ["name"], "the folder has an entry of this name"),
    ('{"do":"move","node":2,"name":"c","dir":2}', 6, ["dir"], "folder 2 is the node that would move, or below it"),
    ('{"do":"remove","node":2}', 7, ["node"], "the folder has entries"),
    ('{"do":"move","node":4,"name":"in","clobber":true}', 8, ["name"], "a file can't take the place of a folder"),
    ('{"do":"write","node":2,"size":1}', 9, ["size"], "a folder has no size"),
    ('{"do":"unset","node":4,"attr":"y"}', 10, ["attr"], "the entry has no such attribute"),
    ('{"do":"remove","node":1}', 11, ["node"], "the root can't be changed"),
    ('{"do":"set","node":4,"attr":"size","type":"LONG","value":1}', 11, ["attr"], "no attribute can have this name"),
    ('{"do":"write","node":4,"size":9223372036854775808}', 12, ["size"], '"size" may be 9223372036854775807 at most'),
    ('{"do":"set","node":4,"attr":"y","type":"CSTR","value":"%s"}' % ("\u00e4" * 2049), 12, ["value"],
     '"value" has 4098 bytes, and may have 4096'),
    ('{"do":"fetch","query":"size>"}', 20, ["query"], "\"query\" can't be read"),
    ('{"do":"open","query":"a==b","port":0,"backlog":9}', 21, ["port"], '"port" must be from 1 to 1024'),
    ('{"do":"open","query":"a==b","port":1,"backlog":65537}', 22, ["backlog"], '"backlog" may be 65536 at most'),
    ('{"do":"read","slot":2}', 25, ["slot"], "slot 2 is free"),
    ('{"do":"close","slot":2}', 25, ["slot"], "slot 2 is free, or its query has ended"),
    ('{"do":"read","slot":65}', 25, ["slot"], "slots are from 1 to 64"),
    ('{"do":"finish","slot":1}', 26, ["slot"], "the mark of slot 1 wasn't read"),
]

# A line that is carried out; the fields of its warnings; and what they say, or mark by a literal.
WARNED = [
    ('{"do":"fetch","query":"size>1M"}', ["query"], ['size is a number, of bytes, and "1M" is none']),
    ('{"do":"open","query":"last_modified>yesterday","port":1,"backlog":1}', ["query"],
     ['last_modified is a number, of seconds since 1970, and "yesterday" is none']),
    ('{"do":"fetch","query":"name==*.txt && !(size!=1* || size<=5)"}', ["query"], ['"1*"']),
    (r'{"do":"fetch","query":"\"si\\ze\"==\"a b\"||size>'"''"r'"}', ["query", "query"], ['"a b"', '""']),
    ('{"do":"fetch","query":"size>123456789012345678901"}', ["query"], ["123456789012345678901"]),
    ('{"do":"fetch","query":"size>1.5&&size<1_000"}', ["query", "query"], ['"1.5"', '"1_000"']),
    ('{"do":"fetch","query":"x>big"}', ["query"], ['x is a number and "big" is none']),
    ('{"do":"fetch","query":"size>1 && size>-1 && size!=\\"007\\" && last_modified>=\'5\'"}', [], []),
    ('{"do":"fetch","query":"name==5M && t==5M && size>12345678901234567890"}', [], []),
    ('{"do":"create","name":"c","sise":5}', ["sise"], ['create ignores the field "sise": did you mean "size"?']),
    ('{"do":"create","name":"d","size":5,"sizes":5,"comment":"x"}', [], []),
    ('{"do":"write","node":4,"size":5,"tiem":7}', ["tiem"], ['did you mean "time"?']),
]


def findings(script):
    with Volume() as volume:
        return [*_explain.Explainer(volume).findings(io.BytesIO(script))]


class Lines(unittest.TestCase):
    def test_refused_lines(self):
        """Each line is refused with the code that the specification has; each field at fault is named."""
        for line, code, fields, said in REFUSED:
            with self.subTest(line[:100]):
                raw = line if isinstance(line, bytes) else line.encode()
                found = findings(FIRST + raw)
                self.assertEqual([(it.line, it.what, it.code) for it in found], [(6, "refused", code)] * len(fields))
                self.assertEqual([it.field for it in found], fields)
                self.assertIn(said, found[0].says)
        self.assertEqual({code for _, code, *_ in REFUSED} ^ {*range(1, 13), 20, 21, 22, 25, 26, *range(30, 34)}, set())

    def test_places(self):
        """The fault of a formula, and of JSON, is marked at its byte."""
        for line, text, place in (
            ('{"do":"fetch","query":"\u00e4==\u00f6 & size>1"}', "\u00e4==\u00f6 & size>1", 7),
            ('{"do":"fetch","query":"size>"}', "size>", 5),
            ('{"\u00e4":}', '{"\u00e4":}', 6),
            ('{"do":"fetch","query":"\u00e4==b && size>=1k"}', "\u00e4==b && size>=1k", 15),
        ):
            found, = findings(line.encode())
            self.assertEqual((found.text, found.place), (text, place))
            self.assertIn(f"\n    {text}\n", _explain.shown("script", found))

    def test_all_slots_are_taken(self):
        opening = b'{"do":"open","query":"a==b","port":1,"backlog":1}\n'
        found, = findings(opening * 65)
        self.assertEqual((found.line, found.code, found.says), (65, 23, "all 64 slots are taken: finish one"))

    def test_warnings(self):
        for line, fields, said in WARNED:
            with self.subTest(line):
                found = findings(FIRST + line.encode())
                self.assertEqual([(it.line, it.what, it.field) for it in found], [(6, "warning", it) for it in fields])
                for it, part in zip(found, said):
                    self.assertIn(part, it.says)

    def test_attributes_that_a_script_sets_to_numbers(self):
        """Their comparisons are looked at once the script has ended: before that nobody knows what it sets."""
        opening = b'{"do":"open","query":"n>5M && t>5M && both>5M && none>5M","port":1,"backlog":1}\n'
        script = opening + b'{"do":"create","name":"a"}\n'
        for attr, type, value in ("n", "LLNG", 1), ("t", "CSTR", "5M"), ("both", "LONG", 1), ("both", "CSTR", ""):
            line = {"do": "set", "node": 2, "attr": attr, "type": type, "value": value}
            script += json.dumps(line).encode() + b"\n"
        found, = findings(script)
        self.assertEqual((found.line, found.says[:34], found.place), (1, 'n is a number and "5M" is none, so', 2))

    def test_limits_of_a_script(self):
        """What the program says of one that is too long is said of the line in which it ends."""
        most = _explain.MOST_LINES, _explain.MOST_BYTES
        self.addCleanup(lambda: vars(_explain).update(MOST_LINES=most[0], MOST_BYTES=most[1]))
        self.assertEqual(most, (10_000_000, 1_073_741_824))
        _explain.MOST_LINES, _explain.MOST_BYTES = 3, 10
        spaces = b"\r\n\n" + b" " * 7
        for script, ends in (b"\n\n\n", []), (b"\n\n\n\n", [4]), (spaces, []), (spaces + b"\r", [3]):
            self.assertEqual([it.line for it in findings(script) if it.what == "end"], ends)

    def test_scenarios(self):
        """Just the lines are refused that the program refuses, with its codes; no reason is missing."""
        count = 0
        for path in sorted(glob.glob(f"{TOP}/scenarios/*.in")):
            name = path[: -len(".in")]
            if os.path.exists(f"{name}.args") or os.path.exists(f"{name}.status"):
                continue
            with open(path, "rb") as script, open(f"{name}.out", "rb") as replies:
                lines = [number for number, line in enumerate(script, 1) if line not in (b"\n", b"\r\n")]
                codes = [re.match(rb'{"code":(\d+),', reply) for reply in replies]
                wanted = [(line, int(code[1])) for line, code in zip(lines, codes) if code]
                script.seek(0)
                found = [it for it in findings(script.read()) if it.what == "refused"]
            self.assertEqual([*dict.fromkeys((it.line, it.code) for it in found)], wanted, name)
            self.assertEqual([it for it in found if "SPECIFICATION" in it.says], [], name)
            count += len(wanted)
        self.assertGreater(count, 100)

    def test_random_lines(self):
        """A line is a BadLine just where a field is found at fault, and NotJson just where it can't be parsed."""
        draw = random.Random(7)
        values = ["a", "file", "CSTR", "LONG", "ULLG", "size>1", "", 0, 1, -1, 2**31, 2**32, 2**63, 2**64, True, False]
        values += [None, [], {}, 1.5, *map(_explain.Number, ("1.0", "-0", "1e2"))]
        names = sorted({it.strip("[]") for text in _explain.FIELDS.values() for it in text.split()})
        pieces = ['"', "{", "}", "\\", ",", "0", "-", "e9", "1e400", "\\u"]
        seen = {}
        with Volume() as volume:
            for _ in range(4000):
                it = {"do": draw.choice([*_explain.FIELDS])}
                for name, has_default in _explain._fields(it["do"]):
                    if draw.random() < (0.5 if has_default else 0.9):
                        it[name] = draw.choice(values)
                it.update({draw.choice(names): draw.choice(values) for _ in range(draw.choice([0, 0, 1]))})
                if it["do"] == "set" and draw.random() < 0.7:
                    it["node"], it["attr"], it["type"] = 1, "x", draw.choice(["CSTR", "LONG", "LLNG", "ULNG", "ULLG"])
                text = "{%s}" % ",".join(f'"{name}":{self.written(value)}' for name, value in it.items())
                if draw.random() < 0.2:
                    at = draw.randrange(len(text))
                    text = text[:at] + draw.choice(pieces) + text[at + 1 :]
                reply = volume.answer(text)
                code = json.loads(reply)["code"] if reply.startswith(b'{"code"') else 0
                try:
                    expected = 33 if [*_explain.faults(_explain.parsed(text))] else 0
                except ValueError:
                    expected = 32
                self.assertEqual(code if code in (32, 33) else 0, expected, text)
                seen[expected] = seen.get(expected, 0) + 1
        self.assertGreater(min(seen[it] for it in (0, 32, 33)), 200)

    @staticmethod
    def written(value):
        return value if isinstance(value, _explain.Number) else json.dumps(value)


class Command(unittest.TestCase):
    name = "yazgoulm-explain"
    env = {**os.environ, "PYTHONPATH": PACKAGE, "PYTHONDONTWRITEBYTECODE": "1"}
    script = FIRST + b'{"do":"fetch","query":"size>1M"}\n{"do":"create","name":"c/d"}\n{"do":"fetch","query":"size>"}'

    def run_it(self, *words, script=b""):
        """Its status, its output and its errors; as pip installed it, or else by its module."""
        installed = f"{PACKAGE}/bin/{self.name}"
        how = [installed] if os.path.exists(installed) else ["-m", "yazgoulm._explain"]
        words = [sys.executable, *how, *words]
        done = subprocess.run(words, input=script, capture_output=True, timeout=60, env=self.env)
        return done.returncode, done.stdout.decode(), done.stderr.decode()

    def test_text(self):
        with tempfile.TemporaryDirectory() as room:
            with open(f"{room}/s.jsonl", "wb") as file:
                file.write(self.script)
            found = self.run_it(f"{room}/s.jsonl")
            says = 'warning: size is a number, of bytes, and "1M" is none, so this comparison is always false'
            self.assertEqual(found, (1, (
                f"{room}/s.jsonl:6: {says}\n    size>1M\n         ^\n"
                f'{room}/s.jsonl:7: 1 BadName: "name" has a /\n'
                f"{room}/s.jsonl:8: 20 BadQuery: \"query\" can't be read\n    size>\n         ^\n"
            ), "yazgoulm-explain: 2 of 8 lines are refused, with 1 warning\n"))
            said = f"{self.name}: {room}/none: No such file or directory\n"
            self.assertEqual(self.run_it("-q", f"{room}/none"), (2, "", said))

    def test_json(self):
        status, out, error = self.run_it("--json", "-q", "-", script=self.script)
        self.assertEqual((status, error), (1, ""))
        found = [json.loads(line) for line in out.splitlines()]
        self.assertEqual(found[1], {"line": 7, "what": "refused", "code": 1, "error": "BadName", "field": "name",
                                    "says": '"name" has a /', "text": None, "place": None})
        self.assertEqual([(it["line"], it["what"], it["text"], it["place"]) for it in found],
                         [(6, "warning", "size>1M", 5), (7, "refused", None, None), (8, "refused", "size>", 5)])

    def test_a_script_without_refusals(self):
        self.assertEqual(self.run_it("-", script=FIRST), (0, "", f"{self.name}: none of 5 lines are refused\n"))

    def test_words(self):
        self.assertEqual(self.run_it("--version")[1].split()[0], self.name)
        for words in ["--help"], ["-h"]:
            status, out, _ = self.run_it(*words)
            self.assertEqual((status, bool(re.search("(?s)SCRIPT.*--json.*--quiet", out))), (0, True))
        for words in [], ["--jso", "-"], ["a", "b"]:
            self.assertEqual(self.run_it(*words)[0], 2)


if __name__ == "__main__":
    unittest.main()
