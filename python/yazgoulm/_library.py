"""Finds the shared library, and chooses the way to call it."""
import os
from typing import Any, Optional, Tuple

VERSION = "0.5.0"
# The shared library of this minor version, which alone has the structs of this package. The other name is its link,
# which may be of another version, and the name in a wheel.
_NAMES = "liblq.so." + VERSION.rpartition(".")[0], "liblq.so"


def _no_library(why: str) -> ImportError:
    """What an import raises. With the package's name `python -m` says it in a line."""
    return ImportError(why, name=__package__)


def _found() -> str:
    """The path of the shared library, or its name where the system has it."""
    here, named = os.path.dirname(os.path.realpath(__file__)), os.environ.get("YAZGOULM_LIBRARY")
    beside = [f"{here}/{place}{name}" for name in _NAMES for place in ("", "../../")]
    found = named or next((it for it in beside if os.path.exists(it)), None) or _of_clone(f"{here}/../..") or _of_system()
    if not found:
        raise _no_library(f"no {' or '.join(_NAMES)} was found: build it with `make library`, or set YAZGOULM_LIBRARY")
    return found


def _of_clone(top: str) -> Optional[str]:
    """The library of the sources beside this package, if it is in a clone: as built there, or as released."""
    if not os.path.exists(f"{top}/tools/take"):
        return None
    import subprocess  # which a package that has its library beside itself doesn't need

    try:
        took = subprocess.run([f"{top}/tools/take", "--only", "library"], capture_output=True, text=True)
    except (OSError, RuntimeError) as error:  # there are too few descriptors, or this interpreter may start no program
        raise _no_library(f"tools/take finds the library, and can't be run: {error}; set YAZGOULM_LIBRARY") from None
    if took.returncode != 0:
        raise _no_library(f"tools/take finds no library: {took.stderr.strip()}")
    return f"{took.stdout.strip()}/{_NAMES[0]}"


def _of_system() -> Optional[str]:
    try:
        import ctypes.util
    except ImportError:  # an interpreter beside the first may have none, but the extension
        return _NAMES[0]
    try:
        ctypes.CDLL(_NAMES[0])
    except OSError:
        return ctypes.util.find_library("lq")
    return _NAMES[0]


class _OtherSources(ImportError):
    """The extension is built of other sources than those beside it."""


def _by_extension(path: str) -> Any:
    from . import _arguments, _native, _sources, _types  # type: ignore[attr-defined]

    if _sources.sum_of_files() not in ("", getattr(_native, "sources", str)()):
        raise _OtherSources(f"{_native.__file__} is of other sources than those beside it: make library builds it")
    return _native.load(path, _arguments, _types)


def _by_ctypes(path: str) -> Any:
    from . import _by_ctypes

    return _by_ctypes.load(path)


def _chosen() -> Tuple[str, Any]:
    """The name of the way, and its types of handles and of readers."""
    path, wanted = _found(), os.environ.get("YAZGOULM_BACKEND")
    ways = {"extension": _by_extension, "ctypes": _by_ctypes}
    if wanted and wanted not in ways:
        raise _no_library(f'YAZGOULM_BACKEND is {wanted!r}, and can be "extension" or "ctypes"')
    if wanted:
        return wanted, ways[wanted](path)
    try:
        return "extension", _by_extension(path)
    except ImportError as error:
        why = error
    try:
        made = _by_ctypes(path)
    except ImportError as error:
        raise _no_library(f"no way to call {path}: {why}; {error}") from None
    if isinstance(why, _OtherSources):
        import warnings  # which a package without sources doesn't need

        warnings.warn(f"{why}. So the library is called by ctypes, at some eight times the cost", RuntimeWarning)
    return "ctypes", made


#: How the library is called: "extension" or "ctypes".
backend, (Handle, Reader) = _chosen()
