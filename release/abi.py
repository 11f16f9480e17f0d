"""The binary interface of the library for C, as Debian's abigail-tools tell it: that of the last release stands in release/abi.

The proved code has no debug information, so the interface is read of the header: each call that it declares, compiled with an empty body. That the shared
object shows these calls and no others, bindings/c/make.py asks. `python3 release/abi.py` writes the interface of this version.
"""
import os
import re
import shutil
import subprocess
import sys
import tempfile

sys.dont_write_bytecode = True
HERE = os.path.dirname(os.path.abspath(__file__))
FOLDER = os.path.join(HERE, "abi")
sys.path.insert(0, os.path.join(os.path.dirname(HERE), "bindings/c"))
from exports import SOURCES, modules
from header import header
from make import SERIES, SONAME, call

TOOLS = ("gcc", "abidw", "abidiff")
# Bits of abidiff's status: a fault of its own, and another interface than programs were compiled for.
FAULT, CHANGED, INCOMPATIBLE = 3, 4, 8


def missing():
    """The tools that are not here."""
    return [it for it in TOOLS if not shutil.which(it)]


def bodies(text):
    """C that defines each call of a header with an empty body."""
    calls = re.findall(r"^uint8_t (hp_\w+)(\([^)]*\));", re.sub(r"/\*.*?\*/", "", text, flags=re.S), re.M)
    # (a name in parentheses is no macro of the header)
    return '#include "huckleport.h"\n' + "".join(f"uint8_t ({name}){given} {{ __builtin_trap(); }}\n" for name, given in calls)


def interface(text, folder):
    """Writes the interface of a header into a file of a folder, and returns its path."""
    source, made, to = (os.path.join(folder, it) for it in ("calls.c", SONAME, "now.abi"))
    for path, content in ((os.path.join(folder, "huckleport.h"), text), (source, bodies(text))):
        with open(path, "w", encoding="utf-8") as file:
            file.write(content)
    call("gcc", "-g", "-shared", "-fPIC", f"-Wl,-soname,{SONAME}", "-ffile-prefix-map=" + folder + "=.", source, "-o", made)
    call("abidw", "--no-comp-dir-path", "--no-corpus-path", "--no-show-locs", "--drop-private-types", made, "--out-file", to)
    return to


def kept():
    """Where the interface of the last release of this series stands."""
    return os.path.join(FOLDER, f"{SONAME}.abi")


def changes(text):
    """What a header changes of the last release's interface so that a program which was linked to it fails: a text, and none if nothing is."""
    with tempfile.TemporaryDirectory() as folder:
        ran = subprocess.run(["abidiff", kept(), interface(text, folder)], stdout=subprocess.PIPE, stderr=subprocess.STDOUT, text=True, check=False)
    if ran.returncode & FAULT:
        sys.exit(f"abidiff: {ran.stdout}")
    return ran.stdout if ran.returncode & INCOMPATIBLE or removed_or_changed(ran) else None


def removed_or_changed(ran):
    """Whether calls or structs are others; new calls alone change nothing for those who were linked."""
    counts = re.search(r"Functions changes summary: (\d+) Removed, (\d+) Changed", ran.stdout)
    return bool(ran.returncode & CHANGED) and (counts is None or any(map(int, counts.groups())))


def main():
    lacking = missing()
    if lacking:
        sys.exit(f"there is no {', '.join(lacking)} (apt-get install abigail-tools gcc)")
    os.makedirs(FOLDER, exist_ok=True)
    with tempfile.TemporaryDirectory() as folder:
        shutil.copy(interface(header(modules(SOURCES)), folder), kept())
    print(f"{kept()}, of {SERIES}")


if __name__ == "__main__":
    main()
