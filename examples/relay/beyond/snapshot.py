"""A snapshot in pieces: a head, lists of the replies that are remembered, and the volume as the library saves it."""
import contextlib, json, tempfile

from yazgoulm import Volume

from . import ENDED, Trouble

PIECE = 1_000_000  # bytes of a piece, and an item more
VERSION = 2  # the first, whose heads have no number, had the entries one by one


@contextlib.contextmanager
def way_station():
    """A file without a name for a volume on its way, below TMPDIR."""
    try:
        with tempfile.TemporaryFile(buffering=0) as file:
            yield file
    except OSError as error:
        raise Trouble(f"a snapshot needs a temporary file: {error}", ENDED) from None


def to_pieces(head, items, file):
    """A snapshot; the file has the volume."""
    lists = [*to_lists(items)]
    size = file.seek(0, 2)
    yield to_text({**head, "version": VERSION, "lists": len(lists), "bytes": size})
    yield from lists
    file.seek(0)
    while piece := file.read(PIECE):
        yield piece


def to_lists(items):
    part, size = [], 0
    for item in items:
        part.append(to_text(item))
        size += len(part[-1])
        if size > PIECE:
            yield f"[{','.join(part)}]"
            part, size = [], 0
    if part:
        yield f"[{','.join(part)}]"


def head_of(piece):
    """The head, or None where it is one of another version."""
    head = json.loads(piece)
    return head if head.get("version") == VERSION else None


def from_pieces(head, pieces):
    """The items and the volume; ValueError where pieces are missing."""
    items = [item for _ in range(head["lists"]) for item in json.loads(next(pieces, "[]"))]
    with way_station() as file:
        size = sum(file.write(piece) for piece in pieces)
        if size != head["bytes"]:
            raise ValueError(f"{size} of {head['bytes']} bytes of the volume are there")
        file.seek(0)
        return items, Volume.load(file.fileno())


def to_text(it):
    return json.dumps(it, separators=(",", ":"))
