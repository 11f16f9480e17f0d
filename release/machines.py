"""The processors that a release is for, by the names that each kind of package gives them, and the compiler that builds for them."""
import os
import platform
import shutil
import tempfile
from collections import namedtuple

import files
from given import ARCHIVE, BINDINGS, HEADER, SHARED, assemble, make, run, take

# cross: what the names of the compiler and its tools begin with, if it builds for another processor than this one.
Machine = namedtuple("Machine", "name debian multiarch wheel cross qemu")
MACHINES = {
    "x86_64": Machine("x86_64", "amd64", "x86_64-linux-gnu", "manylinux_2_17_x86_64", "x86_64-linux-gnu-", "qemu-x86_64-static"),
    "aarch64": Machine("aarch64", "arm64", "aarch64-linux-gnu", "manylinux_2_17_aarch64", "aarch64-linux-gnu-", "qemu-aarch64-static"),
}
HERE = platform.machine()
BINDINGS_PYTHON = os.path.join(BINDINGS, "python/huckleport")


def tool(machine, name):
    """A tool of the compiler that builds for a processor."""
    return name if machine.name == HERE else machine.cross + name


def why_not(machine):
    """Returns why nothing can be built for another processor, or None."""
    if not shutil.which(tool(machine, "gcc")):
        return f"there is no {tool(machine, 'gcc')}"
    try:
        for it in (assemble.PROGRAM, assemble.LIBRARY):
            assemble.fits(it, machine.name)
    except assemble.Unfit as why:
        return str(why)
    return None


def gather(library, work, machine):
    """Puts the program and the libraries of a processor into a folder; returns why there are none, or None."""
    if machine.name == HERE:
        return take(library, work)
    why = why_not(machine)
    if why:
        return why
    with tempfile.TemporaryDirectory() as room:
        run("c/make.py", "--machine", machine.name, "--compiler", tool(machine, "gcc"), "--to", room)
        for it in (ARCHIVE, SHARED, HEADER):
            shutil.move(os.path.join(room, it), work)
    assemble.program(os.path.join(work, "domserve"), machine.name, tool(machine, "gcc"))
    return None


def stripped(path, machine):
    """A file without what only debuggers and linkers ask for."""
    words = ["--strip-debug", "--enable-deterministic-archives"] if path.endswith(".a") else ["--strip-unneeded"]
    copy = f"{path}.stripped"
    make.call(tool(machine, "strip"), *words, "--remove-section=.comment", "--remove-section=.note", path, "-o", copy)
    return files.of(copy, 0o755 if path.endswith("domserve") else 0o644)


def extension(work, machine):
    """Builds the extension module for Python beside the library, and returns its path."""
    module = os.path.join(work, "_core.abi3.so")
    if not os.path.exists(module):
        run("python/extension.py", "--build", "--library", work, "--to", module, "--compiler", tool(machine, "gcc"))
    return module
