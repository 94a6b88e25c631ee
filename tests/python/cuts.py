"""Calls that are cut at a bytecode, as by an exception of a signal's handler."""
import os, sys


class Cuts:
    """Raises an exception at a bytecode of the code below `folder`, counted from 0, or at the next one where it may."""

    raises = folder = None
    asks_always = False  # whether may_cut has to see each bytecode

    def __init__(self, at):
        self.left = at

    def may_cut(self, frame):
        """Whether a signal may be handled at a bytecode."""
        return True

    def begin(self, frame, event, _):
        if not frame.f_code.co_filename.startswith(self.folder + os.sep):
            return None
        frame.f_trace = self.step  # without it Python 3.13 passes the bytecodes of a code's first call
        frame.f_trace_opcodes, frame.f_trace_lines = True, False
        return self.step

    def step(self, frame, event, _):
        if event == "opcode":
            self.left -= 1
            if (self.left < 0 or self.asks_always) and self.may_cut(frame) and self.left < 0:
                sys.settrace(None)
                raise self.raises
        return self.step

    def cuts(self, call):
        """Makes a call. False: it has fewer bytecodes."""
        begin = self.begin  # which Python may use once more after it was taken off
        sys._getframe().f_trace_opcodes = True  # without it Python 3.12 passes those of the first call of all
        sys.settrace(begin)
        try:
            call()
        except self.raises:
            return True
        finally:
            sys.settrace(None)
        return self.left < 0  # it was cut where Python ignores what is raised
