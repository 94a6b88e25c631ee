"""Live queries on a real folder, by a mirror in Python that makes each change by a call of its own.

The mirror is the one that the package had before the library kept folders; tests/python/old_mirror has it.

    command   what the command writes, and how it ends
    server    has `lq run` as a process in place of the package's library
    stream    sends changes to a relay, in place of lq
    check     compares lq with the disk
    terminal  shows one window as lines of text: what its messages say, with sizes and dates as they change
"""
import os, sys

_TOP = os.path.join(os.path.dirname(os.path.realpath(__file__)), "../../..")
sys.path += [f"{_TOP}/python", f"{_TOP}/tests/python"]

SAME = 0  # --check found no difference
DIFFERS = 1  # --check found one, or its command failed
