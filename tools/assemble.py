#!/usr/bin/env python3
"""Builds `domserve` of the assembly in generated/, and prints its path.

The assembly is the proved code of the sources whose sums are in generated/SUMS. If these are the sources that are here, a C compiler builds the program in
a second. It is kept beside a sum of its sources: in crates/domserve/out, or below $XDG_CACHE_HOME if that cannot be written. If the sources are others,
tools/start.py proves and builds the program, by the Rattle kit.

With --check nothing is built. It fails if a file is not the one that SUMS names, or was made of other sources. With --to the program is built into a
file, for another processor too.
"""
import argparse
import contextlib
import fcntl
import hashlib
import os
import platform
import re
import shutil
import subprocess
import sys
import tempfile

import start
from start import PROGRAM, ROOT

sys.dont_write_bytecode = True
FOLDER = f"{ROOT}/generated"
SUMS = f"{FOLDER}/SUMS"
WRITER = "python3 tools/generate.py"
LIBRARY = "dom_c"
# The processors of the assembly.
MACHINES = ("x86_64", "aarch64")
# By hand, in C: memory for both, and for the program the calls of the system beside the C library's own functions.
HEAP, SYSTEM = "heap.c", "os.c"
MODULE, CALLS, HEADER = "huckleport.wasm", "calls.js", "huckleport.h"
# The sources of the header, and of the module with its calls, beside the crates.
OF_HEADER = ("bindings/VERSION", "bindings/c/exports.py", "bindings/c/header.py", "bindings/c/sections.py", "bindings/c/version.py")
OF_MODULE = (*OF_HEADER, *(f"bindings/web/{it}" for it in ("base.h", "bytes.c", "glue.py", "heap.c", "heap.h", "html.h", "include", "make.py", "retarget.py", "wasm.py")))
ROW = re.compile(r"# (?P<name>\S+): sources (?P<sources>\w+)\n(?P<own>\w+)  (?P=name)\n")
CRATE = re.compile(r"# crate (?P<name>\S+): (?P<sources>\w+)\n")
# Which parts of a linked program the linker leaves out, as the kit's does. That one puts no padding between code and constants; this one's way to do without
# it is to map both together.
LINKED = ("-pie", "-Wl,--gc-sections", "-Wl,-z,relro,-z,now", "-Wl,-z,noexecstack", "-Wl,-z,noseparate-code", "-Wl,--as-needed", "-Wl,--build-id=sha1")


class Unfit(Exception):
    """The files of generated/ can't be built. The message says why."""


def assembly(name, machine):
    """Returns the name of the assembly of the program or of the library."""
    return f"{PROGRAM if name == PROGRAM else 'huckleport'}.{machine}.s.xz"


def text_of(path):
    with open(path, encoding="utf-8") as file:
        return file.read()


def sum_of_file(path):
    with open(path, "rb") as file:
        return hashlib.sha256(file.read()).hexdigest()


# ---- the sources


def sum_of_files(paths):
    """Returns a sum of files, and of those below folders."""
    total = hashlib.sha256()
    whole = [f"{ROOT}/{it}" for it in paths]
    found = [it for it in whole if os.path.isfile(it)]
    found += [f"{at}/{name}" for it in whole if os.path.isdir(it) for at, _, names in os.walk(it) for name in names if not name.endswith(".pyc")]
    for file in sorted(found):
        total.update(f"{os.path.relpath(file, ROOT)} {sum_of_file(file)}\n".encode())
    return total.hexdigest()


def sum_of_crate(name):
    return sum_of_files(f"crates/{name}/{part}" for part in ("src", "specs", "proofs"))


def sources_of(file):
    """Returns the sum of all sources that a file of generated/ is made of."""
    if file in (HEAP, SYSTEM):
        return sum_of_file(f"{FOLDER}/{file}")
    if file == HEADER:
        return sum_of_files([f"crates/{LIBRARY}/src", *OF_HEADER])
    top = PROGRAM if file.startswith(PROGRAM) else LIBRARY
    whole = start.sum_of(start.with_lower(start.listed(), top))
    return hashlib.sha256(f"{whole} {sum_of_files(OF_MODULE)}".encode()).hexdigest() if file in (MODULE, CALLS) else whole


def rows():
    """Returns for each file that SUMS names the sum of its sources and its own."""
    with contextlib.suppress(FileNotFoundError):
        return {it["name"]: (it["sources"], it["own"]) for it in ROW.finditer(text_of(SUMS))}
    raise Unfit("there is no generated/SUMS")


def changed():
    """Returns the crates whose sources are not those of SUMS, or crates.txt if there are none."""
    noted = {it["name"]: it["sources"] for it in CRATE.finditer(text_of(SUMS))}
    return [f"crates/{it}" for it, its in noted.items() if sum_of_crate(it) != its] or ["crates.txt"]


def why_unfit(file):
    """Returns why a file of generated/ was made of other sources than those that are here, or None."""
    row = rows().get(file)
    if row is None:
        return f"generated/SUMS names no {file}"
    if row[0] == sources_of(file):
        return None
    if file in (HEAP, SYSTEM, HEADER):
        return f"generated/{file} is not the one that generated/SUMS was written for"
    found = changed()
    of = "bindings/web or bindings/c" if found == ["crates.txt"] and file in (MODULE, CALLS) else ", ".join(found)
    return f"{of} changed since generated/SUMS was written"


def content(file):
    """Returns a file of generated/, which has to be the one that SUMS names."""
    try:
        with open(f"{FOLDER}/{file}", "rb") as it:
            whole = it.read()
    except OSError as why:
        raise Unfit(f"generated/{file} cannot be read: {why.strerror}") from None
    if hashlib.sha256(whole).hexdigest() != rows()[file][1]:
        raise Unfit(f"generated/{file} is not the file that generated/SUMS names: `git checkout generated` brings it back, or {WRITER} writes it anew")
    return whole


def plain(whole):
    """Returns the content of a file of xz: by Python's own module, or else by the program."""
    try:
        import lzma
    except ImportError:
        if not shutil.which("xz"):
            raise Unfit("there is no xz, and this Python has no lzma: install xz-utils") from None
        return subprocess.run(["xz", "-dc"], input=whole, stdout=subprocess.PIPE, check=True).stdout
    return lzma.decompress(whole)


# ---- building


def call(compiler, *words):
    try:
        ran = subprocess.run([compiler, *words], stdin=subprocess.DEVNULL, stdout=subprocess.PIPE, stderr=subprocess.STDOUT, errors="replace", check=False)
    except OSError as why:
        raise Unfit(f"there is no {compiler}, which builds the program and the library ({why.strerror}): install gcc and libc6-dev") from None
    if ran.returncode:
        raise Unfit(f"{compiler} did not build the files of generated/: {ran.stdout.strip()[-600:]}")
    return ran.stdout


def lay(names, folder):
    """Writes files of generated/ into a folder, those under xz without it."""
    for it in names:
        whole = content(it)
        with open(f"{folder}/{it.removesuffix('.xz')}", "wb") as file:
            file.write(plain(whole) if it.endswith(".xz") else whole)


def machine_of(given=None):
    found = given or platform.machine()
    if found not in MACHINES or sys.platform != "linux":
        raise Unfit(f"there is assembly for Linux on {' and '.join(MACHINES)} alone, and this is {sys.platform} on {found}")
    return found


def fits(name, machine=None):
    """Raises Unfit with the reason if the assembly of the program or of the library is not of the sources that are here."""
    for it in (assembly(name, machine_of(machine)), HEAP, *([SYSTEM] if name == PROGRAM else [])):
        why = why_unfit(it)
        if why:
            raise Unfit(why)


def program(to, machine=None, compiler=None):
    """Builds the program into a file, which is put in place whole."""
    name = assembly(PROGRAM, machine_of(machine))
    with tempfile.TemporaryDirectory(prefix="assembling-", dir=os.path.dirname(os.path.abspath(to))) as room:
        lay((name, HEAP, SYSTEM), room)
        its = [f"{room}/{it}" for it in (SYSTEM, HEAP, name.removesuffix(".xz"))]
        call(compiler or os.environ.get("CC") or "cc", "-O2", "-fPIE", *LINKED, *its, "-o", f"{room}/{PROGRAM}")
        os.replace(f"{room}/{PROGRAM}", to)


def library(to, machine=None, compiler="cc"):
    """Builds the archive of the library, with all that it needs beside the C library."""
    name = assembly(LIBRARY, machine_of(machine))
    with tempfile.TemporaryDirectory(prefix="assembling-", dir=os.path.dirname(os.path.abspath(to))) as room:
        lay((name, HEAP), room)
        call(compiler, "-c", f"{room}/{name.removesuffix('.xz')}", "-o", f"{room}/huckleport.o")
        call(compiler, "-O2", "-fPIC", "-c", f"{room}/{HEAP}", "-o", f"{room}/heap.o")
        call(call(compiler, "-print-prog-name=ar").strip(), "rcsD", f"{room}/made.a", f"{room}/huckleport.o", f"{room}/heap.o")
        os.replace(f"{room}/made.a", to)


# ---- the program that is kept


def kept_in():
    """Returns the folder in which the program is kept: the crate's own, or one below $XDG_CACHE_HOME if that cannot be written."""
    cache = os.environ.get("XDG_CACHE_HOME") or os.path.expanduser("~/.cache")
    tried = [os.path.dirname(start.built(PROGRAM)[0]), f"{cache}/huckleport"]
    for it in tried:
        with contextlib.suppress(OSError):
            os.makedirs(it, exist_ok=True)
            with tempfile.TemporaryFile(dir=it):
                return it
    raise Unfit(f"neither {' nor '.join(tried)} can be written: set XDG_CACHE_HOME to a folder that can")


@contextlib.contextmanager
def alone(folder):
    """Locks a folder against other starts, and removes the files of starts that were cut off."""
    with open(f"{folder}/{PROGRAM}.lock", "w", encoding="utf-8") as lock:
        fcntl.flock(lock, fcntl.LOCK_EX)
        for it in os.listdir(folder):
            if it.startswith("assembling-"):
                shutil.rmtree(f"{folder}/{it}", ignore_errors=True)
        yield


def built_program():
    """Returns the program of the assembly, which is built unless that was done."""
    fits(PROGRAM)
    files = (assembly(PROGRAM, machine_of()), HEAP, SYSTEM)
    of = f"{rows()[files[0]][0]} assembled {hashlib.sha256(repr([rows()[it] for it in files]).encode()).hexdigest()}\n"
    folder = kept_in()
    is_own = folder == os.path.dirname(start.built(PROGRAM)[0])
    to = f"{folder}/{PROGRAM}" if is_own else f"{folder}/{of.split()[2][:32]}/{PROGRAM}"
    with alone(folder):
        if os.path.isfile(to) and os.path.isfile(f"{to}.sum") and text_of(f"{to}.sum") == of:
            return to
        os.makedirs(os.path.dirname(to), exist_ok=True)
        # (the sum is removed first and written last: a start that is cut off leaves none beside another program)
        with contextlib.suppress(FileNotFoundError):
            os.remove(f"{to}.sum")
        program(to)
        with open(f"{to}.sum.new", "w", encoding="utf-8") as file:
            file.write(of)
        os.replace(f"{to}.sum.new", f"{to}.sum")
    return to


def proved(name, why):
    """Proves a program or a library anew, and says why; returns the file."""
    if not shutil.which("rt"):
        sys.exit(f"{PROGRAM}: {why}, so it has to be proved anew, and there is no Rattle kit (rt) here: take back the change, or install the kit")
    print(f"{PROGRAM}: {why}: proving", file=sys.stderr, flush=True)
    if not start.start([name]):
        sys.exit(f"{PROGRAM}: {name} was not proved")
    return start.built(name)[0]


def ready():
    """Returns the program: as it was proved here, or of the assembly. If that is of other sources, it is proved now."""
    if start.is_fresh(PROGRAM):
        return start.built(PROGRAM)[0]
    try:
        fits(PROGRAM)
    except Unfit as why:
        return proved(PROGRAM, why)
    return built_program()


def faults():
    """Returns the faults of generated/, as sentences that say what to run."""
    found = rows()
    wrong = [f"generated/{it} is not named in generated/SUMS: {WRITER} writes that" for it in sorted(os.listdir(FOLDER)) if it not in found and it != "SUMS"]
    for it in found:
        with contextlib.suppress(Unfit):
            content(it)
            why = why_unfit(it)
            wrong += [f"{why}: {WRITER} writes {it} anew"] if why else []
            continue
        wrong.append(f"generated/{it} is not the file that generated/SUMS names: `git checkout generated` brings it back, or {WRITER} writes it anew")
    return wrong


def words():
    parser = argparse.ArgumentParser(description=__doc__, formatter_class=argparse.RawDescriptionHelpFormatter)
    parser.add_argument("--check", action="store_true", help="compare generated/ with its sums and with the sources, and build nothing")
    parser.add_argument("--to", metavar="FILE", help="build the program into this file")
    parser.add_argument("--machine", choices=MACHINES, help="the processor that --to builds for (this one)")
    parser.add_argument("--compiler", metavar="CC", help="the C compiler (cc)")
    return parser.parse_args()


def main():
    given = words()
    try:
        if given.check:
            wrong = faults()
            for it in wrong:
                print(it)
            print(f"{len(rows())} files of generated/, {len(wrong)} wrong")
            return 1 if wrong else 0
        if given.to:
            fits(PROGRAM, given.machine)
            program(given.to, given.machine, given.compiler)
        print(given.to or ready())
    except Unfit as why:
        sys.exit(f"{PROGRAM}: {why}")
    return 0


if __name__ == "__main__":
    sys.exit(main())
