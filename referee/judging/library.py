"""The core as the library for C within this process: no line has to go from one process to another, which is most of the time of a short line."""
import ctypes
import os
import sys

ROOT = os.path.dirname(os.path.dirname(os.path.dirname(os.path.abspath(__file__))))
sys.path.insert(0, os.path.join(ROOT, "bindings/c"))
from declared import header, library

MOST, LONGEST = 4294967295, 1048576
OUT_OF_MEMORY = 48


class Library:
    """A libhuckleport.so, with its huckleport.h beside it."""

    def __init__(self, path):
        self.calls, self.structs = library(path, header(os.path.join(os.path.dirname(path), "huckleport.h")))


class Session:
    """A world of a library, that answers lines as a process does."""

    def __init__(self, opened):
        self.calls = opened.calls
        self.session, self.lent = opened.structs["hp_session"](), opened.structs["hp_bytes"]()
        self.pointer = self.lent._fields_[0][0]
        if self.calls.hp_open(ctypes.byref(self.session), MOST, LONGEST):
            raise MemoryError("no session")

    def ask(self, line, seconds=None):
        given = (ctypes.c_uint8 * len(line)).from_buffer_copy(line)
        status = self.calls.hp_line(ctypes.byref(self.session), given, len(line))
        if status == OUT_OF_MEMORY or self.calls.hp_reply_line(ctypes.byref(self.session), ctypes.byref(self.lent)):
            raise MemoryError("no reply")
        return ctypes.string_at(getattr(self.lent, self.pointer), self.lent.length).rstrip(b"\n")

    def end(self):
        self.calls.hp_close(ctypes.byref(self.session))
