#!/usr/bin/env python3
"""Tests that src/ffi.rs declares what bindgen reads in the header for C: each call with its parameters, each struct with its fields, each constant.

The header is made of the exports, as bindings/c/make.py makes it, so no library is needed; without bindgen the test is left out.
"""
import argparse
import os
import re
import shutil
import subprocess
import sys
import tempfile

HERE = os.path.dirname(os.path.abspath(__file__))
sys.dont_write_bytecode = True
sys.path.insert(0, os.path.join(os.path.dirname(HERE), "c"))
from exports import SOURCES, modules
from header import header

# What bindgen gives no value of, since it stands in the header as an expression.
NO_LITERAL = {"HP_NONE"}


def by_bindgen():
    """The declarations that bindgen makes of the header."""
    with tempfile.TemporaryDirectory() as folder:
        path = os.path.join(folder, "huckleport.h")
        with open(path, "w", encoding="utf-8") as file:
            file.write(header(modules(SOURCES)))
        words = ["bindgen", "--no-layout-tests", "--no-doc-comments", "--allowlist-file", ".*huckleport\\.h", path]
        return subprocess.run(words, stdout=subprocess.PIPE, text=True, check=True).stdout


def plain(text):
    """A list of names with types, on one line, as both write it."""
    text = re.sub(r"\bpub(\(crate\))? ", "", re.sub(r"\bsize_t\b", "usize", text))
    return re.sub(r"\s+", " ", text).strip(" ,")


def declarations(text):
    """Returns the declarations of the library in a text of Rust: names, each with its parameters, fields or value."""
    calls = re.findall(r"\bfn (hp_\w+)\(([^)]*)\)\s*-> (\w+);", text)
    structs = re.findall(r"^pub(?:\(crate\))? struct (hp_\w+) \{(.*?)^\}", text, re.M | re.S)
    constants = re.findall(r"^pub(?:\(crate\))? const (HP_\w+): \w+ = (\d+);", text, re.M)
    found = {name: f"({plain(words)}) -> {answer}" for name, words, answer in calls}
    found.update({name: f"{{ {plain(fields)} }}" for name, fields in structs})
    return {**found, **dict(constants)}


def compared():
    """Returns how many names were compared, and the differences; a constant that the crate does not have is no fault."""
    with open(os.path.join(HERE, "src/ffi.rs"), encoding="utf-8") as file:
        ours = declarations(file.read())
    theirs = declarations(by_bindgen())
    names = {*ours, *(it for it in theirs if not it.startswith("HP_"))} - NO_LITERAL
    told = [f"{it}: src/ffi.rs has {ours.get(it)}, bindgen {theirs.get(it)}" for it in sorted(names) if ours.get(it) != theirs.get(it)]
    return len(names), told


def main():
    argparse.ArgumentParser(description=__doc__, formatter_class=argparse.RawDescriptionHelpFormatter).parse_args()
    if not shutil.which("bindgen"):
        print("left out: the declarations of Rust beside bindgen's, since there is no bindgen")
        return 0
    count, told = compared()
    for it in told:
        print(f"FAILED {it}")
    print(f"{count} declarations, {len(told)} otherwise than bindgen's", flush=True)
    return int(bool(told))


if __name__ == "__main__":
    sys.exit(main())
