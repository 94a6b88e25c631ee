"""Paths as text for people."""


def shown(path: str) -> str:
    """A path whose names are by `to_name`, for people. A byte that is no UTF-8 is as \\xf6, and a backslash is two."""
    return "".join(char if char.isprintable() else _escape(ord(char)) for char in path.replace("\\", "\\\\"))


def _escape(code: int) -> str:
    """What stands for a character that could control a terminal or be invisible."""
    if 0xF780 <= code <= 0xF7FF:
        return f"\\x{code - 0xF700:02x}"
    if code < 0x80:
        return chr(code).encode("unicode_escape").decode()
    return f"\\u{code:04x}" if code < 0x10000 else f"\\U{code:08x}"
