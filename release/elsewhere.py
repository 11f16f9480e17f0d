#!/usr/bin/env python3
"""Takes the files of another processor that the test of releases needs: a folder with Debian's libc, Python and standard library of Rust for aarch64, unpacked,
and dpkg's list of them. `python3 release/elsewhere.py`, as root, takes it from Debian. Packages that are installed here stay as they are.
"""
import os
import sys

sys.dont_write_bytecode = True
sys.path.insert(0, os.path.join(os.path.dirname(os.path.dirname(os.path.abspath(__file__))), "tools"))
import other

FOLDER = "/usr/local/lib/huckleport/aarch64-release"
PACKAGES = [*other.PACKAGES, *"python3 python3-minimal python3.11 libpython3-stdlib libgcc-s1 libstd-rust-dev libstd-rust-1.63".split()]
TARGET = "aarch64-unknown-linux-gnu"


def emulated(folder=FOLDER):
    """The words that run a program of the folder."""
    return [other.QEMU[0], "-L", folder]


def lacking():
    """Returns why nothing can be used, or None."""
    return other.lacking() or (None if os.path.isdir(FOLDER) else f"there is no {FOLDER} (release/elsewhere.py)")


def main():
    why = other.lacking()
    if not why and not os.path.isdir(FOLDER) and not other.take(PACKAGES, FOLDER):
        why = "Debian's packages for aarch64 could not be taken"
    print(f"left out: {FOLDER}, since {why}" if why else FOLDER)
    return 1 if why else 0


if __name__ == "__main__":
    sys.exit(main())
