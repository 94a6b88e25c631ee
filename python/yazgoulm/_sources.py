"""What the extension is built of, in a clone: its sources and the headers of the library, by their contents."""
import glob, os
from typing import List

_HERE = os.path.dirname(os.path.realpath(__file__))


def files() -> List[str]:
    """The paths: the files in C first. None are there where the package is installed."""
    return sorted(glob.glob(f"{_HERE}/_native*.c")) + sorted(glob.glob(f"{_HERE}/../../include/*.h"))


def sum_of_files() -> str:
    """The SHA-256 of all of them, which the extension has as its `sources`; empty where none are there."""
    found = files()
    if not found:
        return ""
    import hashlib  # which an installed package doesn't need

    whole = hashlib.sha256()
    for path in found:
        with open(path, "rb") as file:
            whole.update(hashlib.sha256(file.read()).digest())
    return whole.hexdigest()
