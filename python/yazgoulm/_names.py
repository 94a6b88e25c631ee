"""Names of files on disk as names of entries, and both as the library takes them: in UTF-8."""
import os, re
from typing import Any, Union

# A byte that is no UTF-8: what Python decodes it to, and the private character that stands for it (docs/EMBEDDING.md).
_PRIVATE = {0xDC00 + byte: 0xF700 + byte for byte in range(0x80, 0x100)}
_BYTES = {private: escaped for escaped, private in _PRIVATE.items()}
_SIZE = 255  # the most bytes of a name


def to_name(raw: Union[bytes, str, "os.PathLike[Any]"]) -> str:
    """A name on disk as the name of an entry: UTF-8 as it is, and a byte that is no UTF-8 as a private character.

    The byte b becomes the character U+F700 + b. A character that is itself one of these becomes one for each of its
    bytes. So different names on disk have different names here, and `to_bytes` gets each back."""
    return _to_name("raw", raw)


def _to_name(argument: str, raw: Any) -> str:
    if not isinstance(raw, (bytes, str, os.PathLike)):
        raise TypeError(f"{argument} must be a str, bytes or a path, not {type(raw).__name__}")
    try:
        text = os.fsencode(raw).decode("utf-8", "surrogateescape")
    except UnicodeEncodeError:
        raise _no_byte(argument, raw) from None
    split = re.sub("[\uf780-\uf7ff]", lambda found: found[0].encode().decode("ascii", "surrogateescape"), text)
    return split.translate(_PRIVATE)


def to_bytes(name: str) -> bytes:
    """The name on disk of an entry whose name is by `to_name`."""
    if not isinstance(name, str):
        raise TypeError(f"name must be a str, not {type(name).__name__}")
    try:
        return name.translate(_BYTES).encode("utf-8", "surrogateescape")
    except UnicodeEncodeError:
        raise _no_byte("name", name) from None


def _no_byte(argument: str, text: Any) -> ValueError:
    return ValueError(f"{argument} has a surrogate that stands for no byte: {text!a}")


def encode(argument: str, text: Any) -> bytes:
    """A text in UTF-8. A lone surrogate that stands for a byte, as Python's own calls give for a name on disk, is
    written as `to_name` writes the byte."""
    if not isinstance(text, str):
        also = " or bytes" if argument == "line" else ""
        raise TypeError(f"{argument} must be a str{also}, not {type(text).__name__}")
    try:
        return text.encode("utf-8")
    except UnicodeEncodeError:
        pass
    try:
        return text.translate(_PRIVATE).encode("utf-8")
    except UnicodeEncodeError:
        raise _no_byte(argument, text) from None


def encode_name(argument: str, name: Any) -> bytes:
    """A name in UTF-8. Bytes and paths are names on disk, and taken by `to_name`."""
    if isinstance(name, str):
        return encode(argument, name)
    return _to_name(argument, name).encode("utf-8")


def fault(argument: str, name: Any, of_entry: bool) -> str:
    """Why a name of an entry or of an attribute is refused, or an empty text."""
    raw = encode_name(argument, name)
    if not raw:
        return f"{argument} is empty"
    if len(raw) > _SIZE:
        return f"{argument} has {len(raw)} bytes, and may have {_SIZE}"
    if b"\0" in raw:
        return f"{argument} has a NUL"
    if of_entry and b"/" in raw:
        return f"{argument} has a /"
    return f"{argument} is {raw.decode()!r}" if of_entry and raw in (b".", b"..") else ""
