"""The files of a folder on disk that match a formula, and what happens to them.

    async for change in watch("docs", "name==*.txt && size>100"):
        print(change.what, change.path)

A plain `for` waits in the same way. The library keeps the folder in a volume, and live queries on it select what
matches. So a file that is renamed, grows, or gets another attribute comes into the result, or leaves it. The system's
inotify says what changed; where it can't, everything is looked at again and again. Links below the folder aren't
followed, and nothing is written. A Folder has the volume, and as many formulas as one likes:

    with Folder("docs") as folder:
        texts, large = folder.open("name==*.txt"), folder.open("size>1000000")
        for line in folder:
            print(line.window == large.number, line.what, line.path, line.size)

A program that keeps what is in the files reads one at "there", "came" and "changed", and at "moved" too unless inode
and ctime are those that it read. Between a line and the reading another file may come to the path, and no line can tell
that. So it keeps what it read only if the file is the line's, and else reads again, until the path has its next line:

    contents, unread = {}, {}  # what was read at a path, and the lines whose file wasn't there
    flags = os.O_RDONLY | os.O_NOFOLLOW | os.O_NONBLOCK

    def read(line):
        try:
            with open(line.path, "rb", opener=lambda path, _: os.open(path, flags)) as file:
                found, content = os.fstat(file.fileno()), file.read()
        except OSError:
            found = None
        if found and found.st_ino == line.inode:
            contents[line.path] = found.st_ino, found.st_ctime_ns, content
        else:
            unread[line.path] = line

    def heard(line):
        if line.what == "anew":
            return contents.clear(), unread.clear()
        path = line.old_path or line.path
        known, _ = contents.pop(path, None), (unread.pop(path, None), unread.pop(line.path, None))
        if line.what == "moved" and known and known[:2] == (line.inode, line.ctime):
            contents[line.path] = known
        elif line.what != "left":
            read(line)

    with Folder("docs") as folder:
        folder.open("kind==file")
        while True:
            line = folder.read(0.1)
            for each in [line] if line else [unread.pop(path) for path in [*unread]]:
                (heard if line else read)(each)
"""
from typing import TYPE_CHECKING, Any

from ._folder import Folder, FolderGone, Stat, Turned, Window
from ._lines import Line
from ._watch import Change, Watch, watch

if TYPE_CHECKING:
    from ._links import Links

__all__ = ["Folder", "Line", "Window", "Turned", "Stat", "Links", "watch", "Change", "Watch", "FolderGone"]


def __getattr__(name: str) -> Any:
    if name == "Links":  # which loads ctypes and json, and few need
        from ._links import Links

        return Links
    raise AttributeError(f"module {__name__!r} has no attribute {name!r}")
