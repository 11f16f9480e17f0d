"""A module's sections. lld writes an empty table of 64 bits into each module for wasm64, which node 20 and binaryen 108 refuse: it is left out where
nothing calls through it."""
import sys

HEAD = 8
TABLE, ELEMENTS = 4, 9


def number(bytes_, at):
    """A number in LEB128 at a place, and where it ends."""
    value = shift = 0
    while True:
        value |= (bytes_[at] & 127) << shift
        at, shift = at + 1, shift + 7
        if bytes_[at - 1] < 128:
            return value, at


def sections(module):
    """The kind of each section, where it begins and where it ends."""
    at = HEAD
    while at < len(module):
        size, body = number(module, at + 1)
        yield module[at], at, body + size
        at = body + size


def without_table(module):
    found = [*sections(module)]
    if any(kind == ELEMENTS for kind, _, _ in found):
        sys.exit("the linked module calls through a table, which this script does not lower")
    return module[:HEAD] + b"".join(module[start:end] for kind, start, end in found if kind != TABLE)
