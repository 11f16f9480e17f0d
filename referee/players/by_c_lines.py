"""The library for C, by its calls for lines."""
import json
import os
import sys

from speaking import serve

sys.path.insert(0, os.path.dirname(os.path.dirname(os.path.abspath(__file__))))
from judging.library import Library, Session

LIBRARY = Library(os.path.join(os.environ["HUCKLEPORT_LIB_DIR"], "libhuckleport.so"))


class World(Session):
    """A session that is closed when the next one begins."""

    def __init__(self):
        super().__init__(LIBRARY)

    def __del__(self):
        self.end()


serve(World, {"name": "c-lines"}, lambda world, name, values: world.ask(json.dumps([name, *values], separators=(",", ":")).encode()) + b"\n")
