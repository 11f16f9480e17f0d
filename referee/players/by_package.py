"""The package for Python, by its objects: bindings/python/tests/by_objects.py says them."""
import glob
import os
import subprocess
import sys

ROOT = os.path.dirname(os.path.dirname(os.path.dirname(os.path.abspath(__file__))))
sys.path.insert(0, os.path.join(ROOT, "bindings/python"))
if not glob.glob(os.path.join(ROOT, "bindings/python/huckleport/_core*.so")):
    extension = os.path.join(ROOT, "bindings/python/extension.py")
    subprocess.run([sys.executable, extension, "--build", "--library", os.environ["HUCKLEPORT_LIB_DIR"]], stdout=subprocess.DEVNULL, check=True)

import huckleport
from speaking import serve
from tests.by_objects import Speaker


def reply(speaker, name, values):
    try:
        return {"ok": getattr(speaker, name)(*values)}
    except huckleport.Error as fault:
        return {"error": fault.name}


class World(Speaker):
    """A session of its own, which is closed when the next one begins."""

    open = None

    def __init__(self):
        if World.open:
            World.open.close()
        World.open = huckleport.Session()
        super().__init__(World.open)


serve(World, {"name": "python"}, reply)
