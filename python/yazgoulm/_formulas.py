"""What a person may have got wrong in a formula that can be read, and would wait for in vain."""
import re
from typing import Any, Callable, Collection, Iterator, List, Mapping, NamedTuple, Optional, Sequence

from ._text import marked, printable

UNITS = {"size": ", of bytes,", "last_modified": ", of seconds since 1970,"}
KINDS = "file", "folder", "link", "other"
KINDS_MEANT = {"dir": "folder", "directory": "folder", "symlink": "link", "f": "file", "d": "folder", "l": "link"}
NUMBER = ":number"  # what the name of an attribute ends in that is the number of a text

TOKEN = re.compile(
    r"""==|!=|<=|>=|&&|\|\||[=!<>()]|"(?:[^"\\]|\\.)*"|'(?:[^'\\]|\\.)*'|(?:[^ \t\n\r()!&|=<>"'\\]|\\.)+""", re.S
)
OPERATORS = "==", "=", "!=", "<", "<=", ">", ">="
EQUAL = "==", "="


class Comparison(NamedTuple):
    """A comparison of a formula: its attribute, its operator, its literal, the first byte of the literal and of the
    attribute, and the literal as it is written."""

    attr: str
    operator: str
    literal: str
    place: int
    attr_place: int
    written: str


class Warned(NamedTuple):
    """What a formula is warned of: the sentence, and the byte of the formula that it speaks of."""

    says: str
    place: int


def comparisons(formula: str) -> Iterator[Comparison]:
    """Each comparison of a formula that can be read."""
    tokens = [(it[0], it.start()) for it in TOKEN.finditer(formula)]
    for (attr, begin), (operator, _), (literal, at) in zip(tokens, tokens[1:], tokens[2:]):
        if operator in OPERATORS and attr not in OPERATORS:
            places = _bytes_of(formula[:at]), _bytes_of(formula[:begin])
            yield Comparison(plain(attr), operator, plain(literal), *places, literal)


def _bytes_of(text: str) -> int:
    return len(text.encode("utf-8", "surrogatepass"))


def plain(token: str) -> str:
    """A token without its quotes, and without the `\\` before a character."""
    return re.sub(r"(?s)\\(.)", r"\1", token[1:-1] if token[0] in "\"'" else token)


def is_number(literal: str) -> bool:
    """Whether a literal is compared as a number."""
    return re.fullmatch("-?[0-9]{1,20}", literal) is not None


def no_number(attr: str, literal: str) -> str:
    """What is said of a number that is compared with a literal that is none."""
    is_none = f"{quoted(literal)} is none, so this comparison is always false"
    return f"{cut(attr)} is a number{UNITS.get(attr, '')} and {is_none}"


def quoted(text: str) -> str:
    import json  # which few need

    return cut(json.dumps(text, ensure_ascii=False))


def cut(text: str) -> str:
    """A text for people, cut where it is long."""
    return printable(text if len(text) <= 60 else f"{text[:40]}..{text[-16:]}")


def like(word: Any, words: Any) -> str:
    """The word that was meant, if one is much like it."""
    if not isinstance(word, str):
        return ""
    import difflib  # which few need

    near = difflib.get_close_matches(word, words, 1, 0.7)
    return f': did you mean "{near[0]}"?' if near else ""


class Words(NamedTuple):
    """What the entries of a program have: `names` are the attributes that each has, and `is_other` says whether an entry
    may have an attribute of another name, which is a text. `kinds`: whether `kind` is one of KINDS. `fold` folds the
    case of a text, where `iname` has names so. `few` has all texts of an attribute that has few."""

    names: Collection[str]
    is_other: Callable[[str], bool]
    kinds: bool = False
    fold: Optional[Callable[[str], str]] = None
    few: Mapping[str, Sequence[str]] = {}


def warnings(formula: str, words: Words) -> Iterator[Warned]:
    """What a formula is warned of that can be read: each comparison that is surely false, or that means another thing
    than it seems to."""
    for it in comparisons(formula):
        says = _says(it, words)
        if says:
            yield Warned(says, it.place if it.attr in words.names or words.is_other(it.attr) else it.attr_place)


def _says(it: Comparison, words: Words) -> str:
    if it.attr in UNITS:
        return "" if is_number(it.literal) else no_number(it.attr, it.literal)
    if it.attr not in words.names:
        return _of_other(it, words)
    if it.attr == "kind" and words.kinds:
        return _of_few(it, KINDS, KINDS_MEANT)
    if it.attr in words.few:
        return _of_few(it, words.few[it.attr], {})
    if it.attr == "iname" and words.fold and words.fold(it.literal) != it.literal:
        return f"iname has names with their case folded: did you mean {quoted(words.fold(it.literal))}?"
    return ""


def _of_other(it: Comparison, words: Words) -> str:
    """What is said of an attribute that not each entry has."""
    if not words.is_other(it.attr):
        return f"no entry has an attribute {cut(it.attr)}{like(it.attr, words.names)}"
    if it.attr.endswith(NUMBER):
        return "" if is_number(it.literal) else no_number(it.attr, it.literal)
    if it.operator not in ("==", "=", "!=") and is_number(it.literal):
        return f"{cut(it.attr)} is a text, and texts compare by bytes: for numbers write {cut(it.attr)}{NUMBER}"
    return ""


def _of_few(it: Comparison, texts: Sequence[str], meant: Mapping[str, str]) -> str:
    """What is said of an attribute that has few texts."""
    if it.operator not in EQUAL or re.search(r"[*?\[\\]", it.written) or it.literal in texts:
        return ""
    near = {**{text.lower(): text for text in texts}, **meant}.get(it.literal.lower())
    hint = f': did you mean "{near}"?' if near else like(it.literal, texts)
    return f"{it.attr} is {', '.join(texts[:-1])} or {texts[-1]}, and never {quoted(it.literal)}{hint}"


def others(formula: str, words: Words) -> List[Comparison]:
    """The comparisons of attributes that an entry may have, one for each name."""
    found = {it.attr: it for it in comparisons(formula) if it.attr not in words.names and words.is_other(it.attr)}
    return [*found.values()]


def no_entry(it: Comparison) -> Warned:
    """The warning of an attribute that no entry has."""
    return Warned(f"no entry has an attribute {cut(it.attr)}", it.attr_place)


def said(formula: str, it: Warned) -> str:
    """A warning for people, with a mark in the formula."""
    return f"warning: {it.says}\n{marked(formula, it.place)}"


def folded(formula: str, fold: Callable[[str], str]) -> str:
    """A formula with `iname` for `name`, and the literals folded that either is compared with."""
    tokens = [*TOKEN.finditer(formula)]
    made, done = "", 0
    for attr, operator, literal in zip(tokens, tokens[1:], tokens[2:]):
        if plain(attr[0]) in ("name", "iname") and operator[0] in OPERATORS and attr.start() >= done:
            made += f"{formula[done : attr.start()]}iname{formula[attr.end() : literal.start()]}{fold(literal[0])}"
            done = literal.end()
    return made + formula[done:]
