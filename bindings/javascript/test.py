#!/usr/bin/env python3
"""Puts the module beside the package and runs the package's tests; says what it leaves out where node, the module or a package is missing.

With --calls it runs no test. It makes that number of random calls instead, which compare objects and core; 300,000 take minutes.
"""
import argparse
import glob
import os
import shutil
import subprocess
import sys

HERE = os.path.dirname(os.path.abspath(__file__))
sys.dont_write_bytecode = True
sys.path.insert(0, HERE)
from make import build, has_module, module, WEB, why_made, words_of

# What tests need beside node. Debian's packages are found by NODE_PATH.
PACKAGES = {
    "parse5": "parsing HTML",
    "saxes": "parsing XML",
    "cssstyle": "the page's styles",
    "css-select": "the page's selectors",
    "w3c-xmlserializer": "serializing XML",
    "typescript": "comments of the declarations",
    "jsdom": "the page beside jsdom",
    "nwsapi": "another library's selectors over a page",
    "preact": "preact over a page",
    "react-dom": "react over a page",
    "d3-selection": "d3 over a page",
    "prosemirror-view": "ProseMirror over a page",
    "dompurify": "DOMPurify over a page",
}
SETTINGS = {**os.environ, "NODE_PATH": os.pathsep.join(filter(None, [os.environ.get("NODE_PATH"), "/usr/share/nodejs"]))}

# The oldest node that the package is for.
OLDEST = 20

# How many random calls are made among the tests.
FEW_CALLS = 15000

# The parts that node runs: their names, node's options, and the files.
PARTS = (
    ("the tests of the package", ["--expose-gc"], "tests/*.test.js"),
    ("the tests of the page", ["--expose-gc", "--experimental-websocket"], "tests/page/*.test.js"),
    ("the tests of the runner", [], "wpt/*.test.js"),
    ("the tests of the examples", ["--experimental-websocket"], "examples/*/*.test.js"),
)


def is_old():
    """Whether node is older than the package asks for."""
    said = subprocess.run(["node", "--version"], stdout=subprocess.PIPE, universal_newlines=True, check=True).stdout
    return int(said.strip().lstrip("v").split(".")[0]) < OLDEST


def missing(given):
    """Why nothing can be tested here, or None."""
    if not shutil.which("node"):
        return "there is no node"
    if is_old():
        return f"node is older than {OLDEST}"
    if given.module:
        return None if has_module(given.module) else f"there is no module in {given.module}"
    if not given.prove and why_made() is None:
        return None
    return module("web_make", os.path.join(WEB, "make.py")).lacking()


def has_package(name):
    words = ["node", "-e", f"require('{name}')"]
    return subprocess.run(words, cwd=HERE, env=SETTINGS, stderr=subprocess.DEVNULL, check=False).returncode == 0


def run(what, words, **how):
    """Runs a part; answers whether it failed."""
    failed = subprocess.run(words, cwd=HERE, check=False, **how).returncode != 0
    print(f"{'FAILED ' if failed else ''}{what}", flush=True)
    return failed


def types():
    """Checks the declarations by the compiler of TypeScript; answers whether it failed."""
    if not shutil.which("tsc"):
        print("left out: the types, since there is no tsc")
        return False
    words = ["tsc", "--strict", "--noEmit", "--target", "es2022", "--module", "es2022", "--moduleResolution", "node", "tests/types.ts", "tests/dom_types.ts"]
    return run("the types", words)


def random_calls(count):
    """Makes random calls of all interfaces; answers whether it failed."""
    return run(f"{count} random calls", ["node", "--expose-gc", "tests/random_calls.js", str(count)], env=SETTINGS)


def main():
    parser = words_of(__doc__)
    parser.add_argument("--calls", type=int, metavar="COUNT", help="makes COUNT random calls, and runs no test")
    given = parser.parse_args()
    why = missing(given)
    if why:
        print(f"left out: the package for JavaScript, since {why}")
        return 0
    build(given)
    if given.calls:
        return int(random_calls(given.calls))
    for name, what in PACKAGES.items():
        if not has_package(name):
            print(f"left out: {what}, since {name} is not installed")
    faults = False
    for what, words, files in PARTS:
        found = sorted(os.path.relpath(it, HERE) for it in glob.glob(os.path.join(HERE, files)))
        faults |= bool(found) and run(what, ["node", *words, "--test", "--test-reporter=spec", *found], env=SETTINGS)
    return int(faults | random_calls(FEW_CALLS) | types())


if __name__ == "__main__":
    sys.exit(main())
