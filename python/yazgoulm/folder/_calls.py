"""The calls of a folder, by the way that the package has chosen."""
from typing import Any

from .._library import Handle, backend
from ._lines import Line


def _chosen() -> Any:
    """The type of folders."""
    if backend == "extension":
        from .. import _native  # type: ignore[attr-defined]

        return _native.load_folder(Handle, Line)
    from .. import _by_ctypes as library
    from . import _by_ctypes

    return _by_ctypes.load(library._lq)


FolderCalls = _chosen()


def fold(text: str) -> str:
    """A text with its case folded, as `iname` has the names: Unicode's simple case folding."""
    folded: bytes = FolderCalls.fold(text.encode("utf-8", "surrogatepass"))
    return folded.decode("utf-8", "surrogatepass")
