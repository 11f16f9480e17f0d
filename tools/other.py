#!/usr/bin/env python3
"""Builds the program and the library of the assembly for aarch64 by Debian's cross compiler, and tries both under qemu. It runs the dialogues byte for byte,
the tests of the library for C, and, if there is a Python for aarch64, the tests of the package for Python.

With --install such a Python is taken from Debian's packages, into the folder where this looks for it. The last line says how many parts passed and failed.
"""
import argparse
import glob
import importlib.util
import os
import shutil
import subprocess
import sys
import tempfile

import assemble
from start import ROOT

sys.dont_write_bytecode = True
MACHINE, COMPILER = "aarch64", "aarch64-linux-gnu-gcc"
LIBC = "/usr/aarch64-linux-gnu"
QEMU = ("qemu-aarch64-static", "-L", LIBC)
# The folder of a Python for aarch64, and the packages that it is made of.
PYTHON = "/usr/local/lib/huckleport/aarch64"
PACKAGES = "python3.11-minimal libpython3.11-minimal libpython3.11-stdlib libpython3.11-dev libpython3.11 libc6 libexpat1 zlib1g libssl3 libffi8 libbz2-1.0 liblzma5 libuuid1".split()
# The tests of the library that show most about another processor: arguments, results, and their layout.
PARTS = ("lines", "said", "closed", "misuse", "counted", "threads", "example")
# The tests of the package that show most about another processor, and the code that runs them: another Python is started by qemu too.
TESTS = [f"tests.test_{it}" for it in ("dialogues", "answers", "documents", "members")]
RUN = "import sys, unittest; sys.executable = sys.argv.pop(1); unittest.main(None)"
# The longest that a part may take, in seconds.
LIMIT = 600


def lacking():
    """Returns why nothing can be tried here, or None."""
    for tool, package in ((QEMU[0], "qemu-user-static"), (COMPILER, "gcc-aarch64-linux-gnu")):
        if not shutil.which(tool):
            return f"there is no {tool} ({package})"
    return None if os.path.exists(f"{LIBC}/lib/libc.so.6") else f"there is no {LIBC}/lib/libc.so.6 (libc6-dev-arm64-cross)"


def passes(*words, **how):
    """Runs a command, and returns whether it passed."""
    ran = subprocess.run(words, stdin=subprocess.DEVNULL, stdout=subprocess.PIPE, stderr=subprocess.STDOUT, text=True, errors="replace", timeout=LIMIT, check=False, **how)
    lines = ran.stdout.strip().splitlines()
    print("\n".join(lines[-30:] if ran.returncode else lines[-1:]), flush=True)
    return ran.returncode == 0


def module(name, path):
    """Returns a script as a module."""
    sys.path.insert(0, os.path.dirname(path))
    spec = importlib.util.spec_from_file_location(name, path)
    found = importlib.util.module_from_spec(spec)
    spec.loader.exec_module(found)
    return found


def dialogues(room):
    program = f"{room}/domserve"
    assemble.program(program, MACHINE, COMPILER)
    return passes(sys.executable, f"{ROOT}/tools/pieces.py", "--program", program, "--before", " ".join(QEMU), "--cuts", "1")


def library(room):
    """Builds the library, and runs tests of it, each program under qemu."""
    of_c = module("of_c", f"{ROOT}/bindings/c/test.py")
    from make import make, words_of

    class Tests(of_c.Tests):
        def run(self, *words, given=b""):
            return super().run(*([*QEMU, "-E", f"LD_LIBRARY_PATH={self.folder}"] if words[0].startswith(self.work + os.sep) else []), *words, given=given)

        def said(self):
            """Runs the dialogues through the calls, as C that is written by the library of this machine."""
            source = os.path.join(self.work, "said.c")
            here = f"{ROOT}/bindings/c/out"
            words = ["--library", f"{here}/libhuckleport.so", "--header", f"{here}/huckleport.h", "--write", source]
            if self.must("the dialogues through the calls", sys.executable, f"{of_c.TESTS}/typed.py", *words) is not None:
                self.alone("said", source=source, standard="-std=c99")

    given = words_of("").parse_args(["--machine", MACHINE, "--compiler", COMPILER, "--to", f"{room}/library"])
    make(given)
    os.mkdir(f"{room}/programs")
    tests = Tests(given, given.to, f"{room}/programs")
    tests.has_valgrind = False
    for it in PARTS:
        getattr(tests, it)()
    return not tests.faults


def package(room):
    """Builds the module for a Python for aarch64, and runs the tests of the package by it."""
    folder = f"{room}/bindings/python"
    shutil.copytree(f"{ROOT}/bindings/python", folder, ignore=shutil.ignore_patterns("*.so", "__pycache__"))
    os.symlink(f"{ROOT}/dialogues", f"{room}/dialogues")
    core = f"{folder}/core"
    words = [COMPILER, "-std=c99", "-O1", "-fPIC", "-shared", "-fvisibility=hidden", f"-I{PYTHON}/usr/include/python3.11", f"-I{PYTHON}/usr/include"]
    words += [f"-I{room}/library", f"-I{core}", f"{core}/core.c", f"{room}/library/libhuckleport.a", "-Wl,--exclude-libs,ALL", "-Wl,-z,noexecstack"]
    if not passes(*words, "-o", f"{folder}/huckleport/_core.abi3.so"):
        return False
    python = [QEMU[0], "-L", PYTHON, f"{PYTHON}/usr/bin/python3.11"]
    with open(f"{room}/python", "w", encoding="utf-8") as file:
        file.write(f'#!/bin/sh\nexec {" ".join(python)} "$@"\n')
    os.chmod(f"{room}/python", 0o755)
    environment = {**os.environ, "PYTHONDONTWRITEBYTECODE": "1", "HUCKLEPORT_SECONDS": "1", "HUCKLEPORT_EMULATED": "1"}
    ran = [passes(*python, "-c", RUN, f"{room}/python", "-q", it, cwd=folder, env=environment) for it in TESTS]
    return all(ran)


def has_python():
    return os.path.isfile(f"{PYTHON}/usr/bin/python3.11") and bool(glob.glob(f"{PYTHON}/usr/include/python3.11/Python.h"))


def take(packages, to):
    """Takes packages for aarch64 from Debian, unpacked below a folder, with the list that dpkg keeps of them. Returns whether it could. The installed packages
    stay as they are: lists of that processor are kept in a folder of their own.
    """
    with tempfile.TemporaryDirectory() as room:
        for it in ("lists/partial", "cache/archives/partial", "taken", "whole/var/lib/dpkg"):
            os.makedirs(f"{room}/{it}")
        open(f"{room}/status", "w", encoding="utf-8").close()
        words = [f"-o{it}" for it in (f"Dir::State::lists={room}/lists", f"Dir::Cache={room}/cache", f"Dir::State::status={room}/status")]
        words += ["-oAPT::Architecture=arm64", "-oAPT::Architectures::=arm64", "-oAPT::Sandbox::User=root", "-oAcquire::http::Timeout=20"]
        subprocess.run(["apt-get", "-qq", *words, "update"], stdout=subprocess.DEVNULL, stderr=subprocess.DEVNULL, check=False)
        if subprocess.run(["apt-get", "-qq", *words, "download", *packages], cwd=f"{room}/taken", stdout=subprocess.DEVNULL, check=False).returncode:
            return False
        for it in sorted(glob.glob(f"{room}/taken/*.deb")):
            subprocess.run(["dpkg-deb", "-x", it, f"{room}/whole"], check=True)
            fields = subprocess.run(["dpkg-deb", "--field", it], stdout=subprocess.PIPE, text=True, check=True).stdout
            with open(f"{room}/whole/var/lib/dpkg/status", "a", encoding="utf-8") as file:
                file.write(fields.replace("\n", "\nStatus: install ok installed\n", 1) + "\n")
        os.makedirs(os.path.dirname(to), exist_ok=True)
        shutil.copytree(f"{room}/whole", f"{to}.new", symlinks=True)
        os.rename(f"{to}.new", to)
    return True


def install():
    """Takes a Python for aarch64."""
    if not has_python() and not lacking() and not take(PACKAGES, PYTHON):
        print("no Python for aarch64 could be taken from Debian")


def main():
    words = argparse.ArgumentParser(description=__doc__, formatter_class=argparse.RawDescriptionHelpFormatter)
    words.add_argument("--install", action="store_true", help="take a Python for aarch64 from Debian, and try nothing")
    if words.parse_args().install:
        install()
        return 0
    why = lacking()
    if why:
        print(f"left out: aarch64, since {why}")
        return 0
    parts = [("dialogues", dialogues), ("the library for C", library)]
    if has_python():
        parts.append(("the package for Python", package))
    else:
        print("left out: the package for Python on aarch64, since there is no Python for it (tools/other.py --install)")
    failed = 0
    with tempfile.TemporaryDirectory() as room:
        for what, part in parts:
            print(f"-- {what}", flush=True)
            failed += not part(room)
    print(f"{len(parts) - failed} passed, {failed} failed")
    return 1 if failed else 0


if __name__ == "__main__":
    sys.exit(main())
