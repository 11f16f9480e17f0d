"""The library for C, by a call for each command: bindings/c/tests/typed.py says them."""
import os
import sys

from speaking import serve

ROOT = os.path.dirname(os.path.dirname(os.path.dirname(os.path.abspath(__file__))))
sys.path.insert(0, os.path.join(ROOT, "bindings/c/tests"))
from typed import Session

FOLDER = os.environ["HUCKLEPORT_LIB_DIR"]


class Unsaid:
    """Takes a session's reports of its calls, and keeps nothing."""

    def say(self, name, words, status):
        pass


class World(Session):
    opened = None

    def __init__(self):
        """The library is opened once; each world has a session of its own."""
        if World.opened is None:
            World.opened = Session(os.path.join(FOLDER, "libhuckleport.so"), os.path.join(FOLDER, "huckleport.h"))
        else:
            World.opened.must("hp_close")
        self.__dict__ = World.opened.__dict__
        self.session, self.program = self.structs["hp_session"](), Unsaid()
        self.must("hp_open", 4294967295, 1048576)


serve(World, {"name": "c-calls"}, lambda world, name, values: world.answer(name, values))
