#!/usr/bin/env python3
"""Tests the bindings: that each manifest has the version of bindings/VERSION, the library for C, and then each language that links it.

Each part but the first is a script bindings/NAME/test.py, which makes the files that it needs. Tests that this machine has no tools for are left
out, with a line that says so. The last line says how many parts passed and failed.
"""
import argparse
import os
import re
import subprocess
import sys

HERE = os.path.dirname(os.path.abspath(__file__))
# The library comes first: the others link what its tests make.
FIRST = "c"
VERSIONS = "versions"
# Where the version stands a second time, since a tool of the language reads it there. The header and huckleport.pc are made of bindings/VERSION.
REPEATED = {
    "python/huckleport/__init__.py": r'^__version__ = "(.*)"$',
    "../serving/huckleport_serving/__init__.py": r'^__version__ = "(.*)"$',
    "rust/Cargo.toml": r'^version = "(.*)"$',
    "rust/Cargo.lock": r'^name = "huckleport"\nversion = "(.*)"$',
    "javascript/package.json": r'^  "version": "(.*)",$',
    "../crates/dom_options/src/options.rt": r'^const VERSION: &str = "(.*) \(.*\)";$',
    "../CHANGELOG.md": r"\A# Changes\n.*?^## (.*?)$",
}


# Where it stands as a number: 1000000 for each major version, 1000 for each minor one.
NUMBERED = {
    "../crates/dom_c/src/version.rt": r"^const NUMBER: u32 = (.*);$",
    "../crates/dom_c/specs/Version.antt": r"^version_number = (.*)$",
}


def parts():
    """The folders that have tests."""
    found = [name for name in os.listdir(HERE) if os.path.isfile(os.path.join(HERE, name, "test.py"))]
    return sorted(found, key=lambda name: (name != FIRST, name))


def text_of(file):
    with open(os.path.join(HERE, file), encoding="utf-8") as it:
        return it.read()


def versions():
    """Whether each file that repeats the version has that of bindings/VERSION; says where one has not."""
    version = text_of("VERSION").strip()
    found = {file: re.search(pattern, text_of(file), re.M | re.S if file.endswith(".md") else re.M) for file, pattern in {**REPEATED, **NUMBERED}.items()}
    major, minor, patch = map(int, version.split("."))
    number = str(major * 1000000 + minor * 1000 + patch)
    others = [file for file, it in found.items() if not it or it[1] != (number if file in NUMBERED else version)]
    for file in others:
        print(f"FAILED bindings/{file}: its version is not {version}, as bindings/VERSION has it")
    print(f"version {version} in {len(found) - len(others)} of {len(found)} files that repeat it", flush=True)
    return not others


def passes(name):
    """Whether a part passes its tests."""
    if name == VERSIONS:
        return versions()
    print(f"== bindings/{name}", flush=True)
    return subprocess.run([sys.executable, os.path.join(HERE, name, "test.py")], check=False).returncode == 0


def main():
    words = argparse.ArgumentParser(description=__doc__, formatter_class=argparse.RawDescriptionHelpFormatter)
    names = [VERSIONS, *parts()]
    words.add_argument("parts", nargs="*", metavar="PART", help=f"these alone, of {', '.join(names)}")
    given = words.parse_args().parts or names
    for it in given:
        if it not in names:
            words.error(f"there is no part {it}")
    failed = sum(not passes(it) for it in given)
    print(f"{len(given) - failed} passed, {failed} failed")
    return 1 if failed else 0


if __name__ == "__main__":
    sys.exit(main())
