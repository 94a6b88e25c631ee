"""`yazgoulm-explain SCRIPT` says why lines of a script are refused, and which comparisons of a number are always false.

    $ yazgoulm-explain window.jsonl
    window.jsonl:2: 33 BadLine: open needs the field "backlog"
    window.jsonl:4: 33 BadLine: "size" must be a whole number from 0 to 18446744073709551615, not "200"
    window.jsonl:5: 20 BadQuery: "query" can't be read
        size>
             ^
    window.jsonl:7: warning: size is a number, of bytes, and "1M" is none, so this comparison is always false
        size>1M
             ^
    yazgoulm-explain: 3 of 9 lines are refused, with 1 warning

The lines are carried out by the library, in a volume of their own. So a line is refused here just where `lq run`
refuses it. SCRIPT may be `-`, for standard input. The last line goes to standard error; `--quiet` leaves it out.

A warning is given for two kinds of lines that are carried out:

- a field is ignored, and its name is like one that the line can have;
- a number is compared with a literal that is none. Numbers are `size`, `last_modified`, and each attribute that the
  script sets to numbers and never to a text; for these the warnings come last.

- `--json` prints an object in each line: `line`, `what` ("refused", "warning", or "end" where the script is too long),
  `code`, `error`, `field`, `says`, and of a text that is marked `text` and its byte `place`. What isn't known is null.

The status is 0 if no line is refused, 1 if one is, 2 if the script can't be read, 141 if nobody reads its output."""
import argparse, json, math, re, sys
from typing import Any, BinaryIO, Dict, Iterator, List, NamedTuple, Optional, Set, Tuple

from . import ROOT, NotFound, Volume, __version__
from ._formulas import UNITS, comparisons, cut, is_number, like, no_number
from ._names import fault
from ._text import marked, printable
from .folder._terminal import carried_out, say, tell

NAME = "yazgoulm-explain"
MOST_LINES, MOST_BYTES, MOST_OF_LINE = 10_000_000, 1 << 30, 65_536
MOST_DEEP, MOST_TEXT = 127, 4096
REFUSED = 1  # the status if a line is refused
EXAMPLES = """
  %(prog)s script.jsonl
  %(prog)s --json - < script.jsonl
"""

# What each `do` takes; the fields in brackets have a default.
FIELDS = {
    "create": "name [dir] [kind] [size] [time]", "remove": "node", "move": "node name [dir] [clobber]",
    "write": "node size [time]", "set": "node attr type value", "unset": "node attr",
    "open": "query port backlog [moved] [values]", "read": "slot", "hang_up": "slot", "close": "slot", "finish": "slot",
    "result": "slot", "find": "name [dir]", "entry": "node", "fetch": "query",
}  # fmt: skip
NATURAL, WHOLE = (0, (1 << 64) - 1), (-(1 << 63), (1 << 63) - 1)
NUMBERS = {**dict.fromkeys(("node", "dir", "slot", "size", "port", "backlog"), NATURAL), "time": WHOLE}
TYPES = {"LONG": (-(1 << 31), (1 << 31) - 1), "LLNG": WHOLE, "ULNG": (0, (1 << 32) - 1), "ULLG": NATURAL}


class Finding(NamedTuple):
    """What is said of a line. `text` is marked at the byte `place`, where there is one."""

    line: int
    what: str
    code: Optional[int]
    error: Optional[str]
    field: Optional[str]
    says: str
    text: Optional[str] = None
    place: Optional[int] = None


class Said(NamedTuple):
    """Why a line is refused, or what it is warned of."""

    field: Optional[str]
    says: str
    text: Optional[str] = None
    place: Optional[int] = None


# ---- JSON


class Number(str):
    """A number of JSON that isn't written as a whole number."""


class NotJson(ValueError):
    """A text is no JSON for the library, though it is for Python."""


def _whole(text: str) -> Any:
    number = _double(text)
    return number if text == "-0" else int(text)


def _double(text: str) -> Number:
    if math.isinf(float(text)):
        raise NotJson(f"the number {cut(text)} is beyond the doubles")
    return Number(text)


def _no_constant(word: str) -> None:
    raise NotJson(f"{word} is no JSON")


def parsed(text: str) -> Any:
    """What a line says. ValueError: it is no JSON for the library."""
    if _depth(text) > MOST_DEEP:
        raise NotJson(f"it is nested more than {MOST_DEEP} deep")
    value = json.loads(text, parse_int=_whole, parse_float=_double, parse_constant=_no_constant)
    try:
        json.dumps(value, ensure_ascii=False).encode()
    except UnicodeEncodeError:
        raise NotJson("a text has half of a surrogate pair") from None
    return value


def _depth(text: str) -> int:
    """How deep the brackets outside of texts are nested."""
    depth = most = 0
    for mark in re.findall(r'"(?:[^"\\]|\\.)*"?|[\[\]{}]', text, re.S):
        depth += (mark in "[{") - (mark in "]}")
        most = max(most, depth)
    return most


def _written(value: Any) -> str:
    """A value as JSON."""
    return cut(value if isinstance(value, Number) else json.dumps(value, ensure_ascii=False))


# ---- refusals


def faults(value: Any) -> Iterator[Said]:
    """Why what a line says is a BadLine."""
    if not isinstance(value, dict):
        yield Said(None, f"a line has an object, {{..}}, and this is {_written(value)}")
        return
    do = value.get("do")
    if "do" not in value or do not in [*FIELDS]:
        wrong = f"is {_written(do)}" if "do" in value else "is missing"
        yield Said("do", f'"do" {wrong}, and may be {", ".join(FIELDS)}{like(do, FIELDS)}')
        return
    for name, has_default in _fields(do):
        if name in value:
            says = _wrong(name, value[name], value.get("type"))
            if says:
                yield Said(name, f'"{name}" must be {says}, not {_written(value[name])}')
        elif not has_default:
            yield Said(name, f'{do} needs the field "{name}"')


def _fields(do: str) -> List[Tuple[str, bool]]:
    """The fields of a `do`, each with whether it has a default."""
    return [(it.strip("[]"), it[0] == "[") for it in FIELDS[do].split()]


def _wrong(name: str, value: Any, type: Any) -> str:
    """What a field must be, if it isn't."""
    is_text = isinstance(value, str) and not isinstance(value, Number)
    if name in ("clobber", "moved", "values"):
        return "" if isinstance(value, bool) else "true or false"
    if name == "kind":
        return "" if is_text and value in ("file", "folder") else '"file" or "folder"'
    if name == "type":
        return "" if is_text and value in ("CSTR", *TYPES) else f'"CSTR", {", ".join(map(json.dumps, TYPES))}'
    if name == "value" and type == "CSTR":
        return "" if is_text else 'a text where "type" is "CSTR"'
    if name == "value" and (not isinstance(type, str) or type not in TYPES):
        return ""  # which the type says
    if name not in NUMBERS and name != "value":
        return "" if is_text else "a text"
    least, most = NUMBERS[name] if name in NUMBERS else TYPES[type]
    where = f' where "type" is "{type}"' if name == "value" else ""
    is_it = isinstance(value, int) and not isinstance(value, bool) and least <= value <= most
    return "" if is_it else f"a whole number from {least} to {most}{where}"


def _bad_name(it: Dict[str, Any]) -> Said:
    field = "attr" if it["do"] in ("set", "unset") else "name"
    return Said(field, fault(f'"{field}"', it[field], field == "name"))


def _too_long(it: Dict[str, Any]) -> Said:
    if it["do"] == "set":
        return Said("value", f'"value" has {len(it["value"].encode())} bytes, and may have {MOST_TEXT}')
    return Said("size", f'"size" may be {WHOLE[1]} at most')


def _not_open(it: Dict[str, Any]) -> Said:
    ended = ", or its query has ended" if it["do"] == "close" else ""
    return Said("slot", f"slot {it['slot']} is free{ended}" if 1 <= it["slot"] <= 64 else "slots are from 1 to 64")


# Why each other refusal comes: the field, and what is said. `{dir}` is the folder, and `{slot}` the slot.
REASONS = {
    3: ("dir", "node {dir} is a file, and no folder"),
    5: ("name", "the folder has an entry of this name"),
    6: ("dir", "folder {dir} is the node that would move, or below it"),
    8: ("name", "a file can't take the place of a folder, nor a folder that of a file"),
    9: ("size", "a folder has no size"),
    10: ("attr", "the entry has no such attribute"),
    13: (None, "the volume's limit of changes, or of openings, is reached"),
    21: ("port", '"port" must be from 1 to 1024'),
    22: ("backlog", '"backlog" may be 65536 at most'),
    23: (None, "all 64 slots are taken: finish one"),
    26: ("slot", "the mark of slot {slot} wasn't read: close it, and read it to the end"),
}


# ---- a script


class Explainer:
    """A script that is carried out line by line. `count` lines were read, of which `refused` were refused."""

    def __init__(self, volume: Volume) -> None:
        self.volume, self.count, self.refused, self.warned = volume, 0, 0, 0
        self.texts: Set[str] = set()  # names of the attributes that are set to a text,
        self.numbers: Set[str] = set()  # and of those that are set to a number
        self.compared: List[Tuple[str, Finding]] = []  # comparisons of attributes of which the rest will tell

    def findings(self, script: BinaryIO) -> Iterator[Finding]:
        """What is to be said of a script, line by line; comparisons of its own attributes come last."""
        read = 0
        for line, size, taken in lines(script):
            self.count, read = self.count + 1, read + taken
            if self.count > MOST_LINES or read > MOST_BYTES:
                most = f"{MOST_LINES} lines and {MOST_BYTES} bytes"
                yield Finding(self.count, "end", None, None, None, f"input too long: a script has at most {most}")
                self.refused += 1
                return
            yield from self.of_line(line, size)
        for attr, finding in self.compared:
            if attr in self.numbers - self.texts:
                self.warned += 1
                yield finding

    def of_line(self, line: bytes, size: int) -> Iterator[Finding]:
        """What is to be said of a line, after the volume has carried it out."""
        reply = self.volume.answer(line)
        if reply.startswith(b'{"code":'):
            refusal = json.loads(reply)
            self.refused += 1
            for it in self.reasons(refusal, line, size):
                yield Finding(self.count, "refused", refusal["code"], refusal["error"], *it)
        elif reply:
            yield from self.warnings(parsed(line.decode()))

    def reasons(self, refusal: Dict[str, Any], line: bytes, size: int) -> List[Said]:
        """Why a line is refused: of a BadLine each field, and of all else what comes first."""
        code = refusal["code"]
        if code == 30:
            return [Said(None, f"the line has {size} bytes, and may have {MOST_OF_LINE}")]
        try:
            text = line.decode()
        except UnicodeDecodeError as error:
            return [Said(None, f"byte {error.start} of the line is no UTF-8")]
        try:
            value = parsed(text)
        except NotJson as error:
            return [Said(None, str(error))]
        except json.JSONDecodeError as error:
            return [Said(None, f"no JSON: {error.msg}", text, len(text[: error.pos].encode()))]
        if code == 33:
            return [*faults(value)] or [Said(None, "a field isn't as docs/SPECIFICATION.md has it")]
        return [self.reason(refusal, {"dir": ROOT, **value})]

    def reason(self, refusal: Dict[str, Any], it: Dict[str, Any]) -> Said:
        """Why a line is refused that has all its fields."""
        code = refusal["code"]
        if code == 20:
            return Said("query", '"query" can\'t be read', it["query"], refusal["place"])
        if code == 2:
            field = next((each for each in ("node", "dir") if each in it and not self.is_there(it[each])), "node")
            return Said(field, f"no entry has node {it[field]}: it was never given, or its entry was removed")
        if code == 4 and it["do"] == "entry":
            return Said("node", "the root is no entry")
        if code == 4:
            return Said("name", f"folder {it['dir']} has no entry of this name")
        if code == 7 and it["do"] == "move":
            return Said("name", "the folder that would go has entries")
        if code == 7:
            return Said("node", "the folder has entries")
        if code == 11 and it["node"] != ROOT:
            return Said("attr", "no attribute can have this name, which is the entry's own")
        if code == 11:
            return Said("node", "the root can't be changed")
        if code in (1, 12, 25):
            return {1: _bad_name, 12: _too_long, 25: _not_open}[code](it)
        about, says = REASONS.get(code, (None, "see the table of refusals in docs/SPECIFICATION.md"))
        return Said(about, says.format(dir=it["dir"], slot=it.get("slot")))

    def is_there(self, node: int) -> bool:
        try:
            self.volume.path(node)
        except NotFound:
            return False
        return True

    def warnings(self, value: Dict[str, Any]) -> Iterator[Finding]:
        """What a line is warned of that was carried out."""
        do = value["do"]
        known = [name for name, _ in _fields(do)]
        for name in value:
            meant = like(name, [it for it in known if it not in value]) if name not in ("do", *known) else ""
            if meant:
                self.warned += 1
                yield Finding(self.count, "warning", None, None, name, f'{do} ignores the field "{cut(name)}"{meant}')
        if do == "set":
            (self.texts if value["type"] == "CSTR" else self.numbers).add(value["attr"])
        for attr, _, literal, place, *_ in comparisons(value["query"]) if do in ("open", "fetch") else ():
            if is_number(literal):
                continue
            says = no_number(attr, literal)
            finding = Finding(self.count, "warning", None, None, "query", says, value["query"], place)
            if attr in UNITS:
                self.warned += 1
                yield finding
            else:
                self.compared.append((attr, finding))


def lines(script: BinaryIO) -> Iterator[Tuple[bytes, int, int]]:
    """The lines of a script without their LF, each with its size, and with how many bytes it takes of the script. Of
    one that is too long the first bytes are given."""
    while True:
        line = part = script.readline(MOST_OF_LINE + 2)
        taken = len(line)
        while part and not part.endswith(b"\n"):
            part = script.readline(MOST_OF_LINE)
            taken += len(part)
        if not line:
            return
        yield line.rstrip(b"\n"), taken - part.endswith(b"\n"), taken


# ---- the command


def shown(script: str, it: Finding) -> str:
    """A finding for people."""
    head = f"{it.code} {it.error}: " if it.what == "refused" else f"{it.what}: " if it.what == "warning" else ""
    line = f"{printable(script)}:{it.line}: {head}{it.says}"
    return line if it.text is None or it.place is None else f"{line}\n{marked(it.text, it.place)}"


def explain(given: argparse.Namespace, script: BinaryIO) -> int:
    with Volume() as volume:
        explainer = Explainer(volume)
        for it in explainer.findings(script):
            say(json.dumps(it._asdict()) if given.json else shown(given.script, it))
    if not given.quiet:
        refused, warned = explainer.refused, explainer.warned
        warnings = f", with {warned} warning{'s' * (warned != 1)}" if warned else ""
        are = "is" if refused == 1 else "are"
        tell(NAME, f"{refused or 'none'} of {explainer.count} lines {are} refused{warnings}")
    return REFUSED if explainer.refused else 0


def parser() -> argparse.ArgumentParser:
    it = argparse.ArgumentParser(
        prog=NAME, usage="%(prog)s [OPTION ..] SCRIPT",
        description="Says why lines of a script are refused, and which comparisons of a number are always false.",
        epilog=EXAMPLES, formatter_class=argparse.RawDescriptionHelpFormatter, allow_abbrev=False,
    )  # fmt: skip
    it.add_argument("script", metavar="SCRIPT", help="a file of lines as `lq run` takes them; - is standard input")
    it.add_argument("--json", action="store_true", help="print an object in each line")
    it.add_argument("-q", "--quiet", action="store_true", help="don't say how many lines are refused")
    it.add_argument("--version", action="version", version=f"%(prog)s {__version__}")
    return it


def run(words: Optional[List[str]]) -> int:
    given = parser().parse_args(words)
    if given.script == "-":
        return explain(given, sys.stdin.buffer)
    with open(given.script, "rb") as script:
        return explain(given, script)


def main(words: Optional[List[str]] = None) -> int:
    """The command."""
    return carried_out(NAME, lambda: run(words))


if __name__ == "__main__":
    sys.exit(main())
