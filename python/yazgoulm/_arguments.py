"""Arguments as the library takes them. What doesn't fit is refused by a sentence that names the argument."""
import math, operator
from collections.abc import Iterable, Mapping
from typing import Any, Dict, NoReturn, Optional, Tuple, Union

from ._names import encode as encode
from ._names import encode_name as encode_name
from ._text import said
from ._types import Attr, Op, Type

_TYPES, _MOST_VALUES = tuple(Type), 256
_LONGEST = 1e9  # seconds, some 30 years
_PUSH = "an Attr, a str, a whole number or an Op"
# The numbers of each type that has numbers.
_RANGES: Dict[str, Tuple[int, int]] = {
    "LONG": (-(1 << 31), (1 << 31) - 1), "LLNG": (-(1 << 63), (1 << 63) - 1),
    "ULNG": (0, (1 << 32) - 1), "ULLG": (0, (1 << 64) - 1),
}  # fmt: skip


def whole(argument: str, value: Any, least: int = -(1 << 63), most: int = (1 << 63) - 1) -> int:
    """A whole number from `least` to `most`."""
    try:
        number = operator.index(value)
    except TypeError:
        raise TypeError(f"{argument} must be a whole number, not {said(value)}") from None
    if not least <= number <= most:
        raise ValueError(f"{argument} must be from {least} to {most}, not {said(number)}")
    return number


def is_whole(value: Any) -> bool:
    return isinstance(value, int) or hasattr(type(value), "__index__")


def natural(argument: str, value: Any, bits: int = 64) -> int:
    """A whole number without a sign, of as many bits."""
    return whole(argument, value, 0, (1 << bits) - 1)


def kind(value: Any) -> int:
    """The number of a kind."""
    if not isinstance(value, str) or value not in ("file", "folder"):
        raise ValueError(f'kind must be "file" or "folder", not {said(value)}')
    return int(value == "folder")


def seconds(argument: str, value: Any) -> Optional[float]:
    """A time to wait, at most one that the system can wait; None is for ever."""
    if value is None:
        return None
    wrong = f"{argument} must be a number of seconds or None, not {said(value)}"
    if isinstance(value, (str, bytes, bytearray)):
        raise TypeError(wrong)
    try:
        number = float(value)
    except TypeError:
        raise TypeError(wrong) from None
    except OverflowError:
        number = math.inf if value > 0 else 0.0
    if math.isnan(number):
        raise ValueError(wrong)
    return min(number, _LONGEST)


def call(argument: str, value: Any) -> Any:
    """Something that can be called, or None."""
    if value is not None and not callable(value):
        raise TypeError(f"{argument} must be callable or None, not {said(value)}")
    return value


def no_value(value: Any, type: Any, argument: str = "value", of_type: str = "type") -> NoReturn:
    """Raises why a value and its type aren't those of an attribute."""
    if type is not None and not (isinstance(type, str) and type in _TYPES):
        first, last = ", ".join(f'"{it}"' for it in _TYPES[:-1]), f'"{_TYPES[-1]}"'
        raise ValueError(f"{of_type} must be {first} or {last}, not {said(type)}")
    if not isinstance(value, str) and not is_whole(value):
        wanted = {None: "a str or a whole number", "CSTR": "a str"}.get(type, "a whole number")
        raise TypeError(f"{argument} must be {wanted}, not {said(value)}")
    wanted = "a str" if type == "CSTR" else "a whole number"
    its = "type" if of_type == "type" else "its type"
    raise ValueError(f'{argument} must be {wanted} where {its} is "{type}", not {said(value)}')


def attributes(given: Any) -> Any:
    """The attributes of a new entry: the name, the value and the type of each, as `set` takes them."""
    if not isinstance(given, Mapping):
        raise TypeError(f"attributes must be a dict of names and values, not {said(given)}")
    return [_attribute(attr, value) for attr, value in given.items()]


def _attribute(attr: Any, value: Any) -> Tuple[str, Union[str, int], Optional[str]]:
    """An attribute's name, its value and its type, of a value or of a pair of a value and a type."""
    name, argument = encode_name("a name in attributes", attr).decode(), f"attributes[{said(attr)}]"
    value, type = value if isinstance(value, tuple) and len(value) == 2 else (value, None)
    if isinstance(value, str) and (type is None or type == "CSTR"):
        return name, encode(argument, value).decode(), "CSTR"
    numbers = _RANGES.get("LLNG" if type is None else type) if type is None or isinstance(type, str) else None
    if numbers is None or not is_whole(value) or isinstance(value, str):
        no_value(value, type, argument, f"the type of {argument}")
    return name, whole(argument, value, *numbers), type


def asked(given: Any, values: Any) -> Tuple[Any, ...]:
    """A formula, and where it has parameters, or values are given, their values as a tuple."""
    its = formula(given)
    if values is None:
        return (its,)
    if isinstance(values, (str, bytes, bytearray)) or not isinstance(values, Iterable):
        raise TypeError(f"values must be a list of texts and whole numbers, not {said(values)}")
    taken = tuple(_value(f"values[{at}]", value) for at, value in enumerate(values))
    if taken and not isinstance(its, str):
        raise TypeError(f"values must be empty where formula is a list of pushes, not {said(taken)}")
    if len(taken) > _MOST_VALUES:
        raise ValueError(f"values has {len(taken)} items, and may have {_MOST_VALUES}")
    return (its, taken) if taken or (isinstance(its, str) and "$" in its) else (its,)


def _value(argument: str, value: Any) -> Union[str, int]:
    if isinstance(value, str):
        return value if value.isascii() else encode(argument, value).decode()
    if not is_whole(value):
        raise TypeError(f"{argument} must be a str or a whole number, not {said(value)}")
    return whole(argument, value, most=(1 << 64) - 1)


def formula(value: Any) -> Any:
    """A formula as a str, or its pushes as a tuple."""
    if isinstance(value, str):
        return value
    if isinstance(value, (bytes, bytearray)) or not isinstance(value, Iterable):
        raise TypeError(f"formula must be a str or a list of pushes, not {said(value)}")
    return tuple(_push(f"formula[{at}]", item) for at, item in enumerate(value))


def _push(argument: str, item: Any) -> Any:
    """A push of which nothing is left for Python to work out: its number, and its text as a str."""
    if isinstance(item, Attr):
        if isinstance(item.name, str) and item.name.isascii():
            return item
        return Attr(encode_name(f"the name in {argument}", item.name).decode())
    if isinstance(item, str):
        return item if item.isascii() else encode(argument, item).decode()
    if isinstance(item, Op):
        return item
    if not is_whole(item):
        raise TypeError(f"{argument} must be {_PUSH}, not {said(item)}")
    return whole(argument, item, most=(1 << 64) - 1)
