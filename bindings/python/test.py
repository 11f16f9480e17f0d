#!/usr/bin/env python3
"""Tests the Python package: that its made sources are those of the library, its types by mypy and stubtest, its pages by Sphinx, and all under tests.

The extension module is built first; if it can't be built, the tests are left out. They run by pytest if a Python has it, otherwise by unittest.
The Pythons are:

- the one that runs this;
- Debian's, if it has parsers that this one has not;
- the oldest that the module is for, and the newest, if they are installed.

A test that none of them has run is reported as left out.
"""
import argparse
import glob
import importlib.util
import json
import os
import shutil
import subprocess
import sys
import tempfile
import unittest
from xml.etree import ElementTree

HERE = os.path.dirname(os.path.abspath(__file__))
DEBIAN = "/usr/bin/python3"
# The oldest Python that the module is for, and those that can give an interpreter a lock of its own: as programs, or as pyenv keeps them.
OLDEST, NEWEST = "3.8", ("3.13", "3.12")
KEPT = "~/.pyenv/versions/{}*/bin/python"
# What some tests need.
WANTED = ("html5_parser", "html5lib", "lxml", "soupsieve", "bs4", "elementpath", "cssselect")
# Programs of lxml, minidom and BeautifulSoup that were ported.
PORTS = ("shelf", "invoice", "market")
# Where a run writes down what it skipped, and why.
SKIPPED = "HUCKLEPORT_SKIPPED"
sys.dont_write_bytecode = True
sys.path.insert(0, HERE)


def fails(*words, **how):
    return subprocess.run(words, **{"cwd": HERE, **how}).returncode != 0


def are_sources_made():
    """Whether the made sources are what the exports give."""
    return not sum(fails(sys.executable, os.path.join(HERE, it), "--check") for it in ("signatures.py", "extension.py"))


def are_types_right():
    """Whether the types go together, and are what the module and the classes have."""
    mypy = [sys.executable, "-m", "mypy"] if importlib.util.find_spec("mypy") else [shutil.which("mypy") or ""]
    stubtest = [sys.executable, "-m", "mypy.stubtest"] if importlib.util.find_spec("mypy") else [shutil.which("stubtest") or ""]
    if not mypy[-1] or not stubtest[-1]:
        print("left out: the types, since there is no mypy")
        return True
    faults = fails(*mypy, "--strict", "huckleport", *(f"tests/ports/{it}.py" for it in PORTS))
    return not fails(*stubtest, "huckleport._core", env={**os.environ, "PYTHONPATH": HERE, "PYTHONDONTWRITEBYTECODE": "1"}) and not faults


def are_pages_made():
    """Whether Sphinx makes pages of the interface without a warning."""
    python = next((it for it in (sys.executable, DEBIAN) if has(it, "sphinx")), None)
    if not python:
        print("left out: pages of the interface, since there is no Sphinx")
        return True
    with tempfile.TemporaryDirectory() as folder:
        words = [python, "-m", "sphinx", "-q", "-W", "--keep-going", "-d", os.path.join(folder, "trees"), "pages", os.path.join(folder, "pages")]
        return not fails(*words, env={**os.environ, "PYTHONDONTWRITEBYTECODE": "1"})


def is_linted():
    """Whether ruff has nothing to say, or flake8 where there is no ruff."""
    ruff = [sys.executable, "-m", "ruff"] if importlib.util.find_spec("ruff") else [shutil.which("ruff") or ""]
    if ruff[-1]:
        return not fails(*ruff, "check", ".")
    if not shutil.which("flake8"):
        print("left out: the linter of the package, since there is no ruff and no flake8")
        return True
    return not fails("flake8", "bindings/python", cwd=os.path.dirname(os.path.dirname(HERE)))


def has_extension():
    """Builds the extension module, or says why it is not there."""
    ran = subprocess.run([sys.executable, os.path.join(HERE, "extension.py"), "--build"], stdout=subprocess.PIPE, stderr=subprocess.STDOUT, universal_newlines=True)
    if ran.returncode:
        print(f"left out: all tests of the package: {ran.stdout.strip()}")
    return ran.returncode == 0


def has(python, name):
    found = f"import importlib.util, sys; sys.exit(importlib.util.find_spec({name!r}) is None)"
    return os.path.exists(python) and not fails(python, "-c", found)


def skipped_by(report):
    """What a run skipped, by the name of the test, and why; nothing where it wrote no report."""
    if not os.path.exists(report):
        return {}
    if report.endswith(".json"):
        with open(report, encoding="utf-8") as file:
            return json.load(file)
    cases = ((it, it.find("skipped")) for it in ElementTree.parse(report).iter("testcase"))
    return {f"{case.get('classname')}.{case.get('name')}": why.get("message") for case, why in cases if why is not None}


def run_all(python, seconds, **environment):
    """Runs all tests by a Python, with some variables. Returns whether that failed, and the skipped tests with their reasons."""
    print(f"-- by {python}", flush=True)
    with tempfile.TemporaryDirectory() as folder:
        by_pytest = has(python, "pytest")
        report = os.path.join(folder, "skipped.xml" if by_pytest else "skipped.json")
        words = ["-m", "pytest", "-q", "-p", "no:cacheprovider", f"--junitxml={report}", "tests"] if by_pytest else [os.path.abspath(__file__), "--within"]
        variables = {"PYTHONDONTWRITEBYTECODE": "1", "HUCKLEPORT_SECONDS": str(seconds), SKIPPED: report, **environment}
        return fails(python, *words, env={**os.environ, **variables}), skipped_by(report)


def tell_skipped(found):
    """Says which tests each of some runs has skipped; those of a variable are run by hand."""
    for name in sorted(set.intersection(*map(set, found))):
        why = found[0][name]
        print(f"{'by hand' if 'is not set' in why else 'left out'}: {name}, since {why}", flush=True)


def kept(version):
    """A Python of a version, or nothing."""
    found = [shutil.which(f"python{version}") or "", *sorted(glob.glob(os.path.expanduser(KEPT.format(version))))]
    # (pyenv's stand-in for a Python may refuse to run)
    return next((it for it in found if it and not fails(it, "-c", "", stderr=subprocess.DEVNULL)), "")


def others():
    """The other Pythons that the module is tried with."""
    if any(not has(sys.executable, it) and has(DEBIAN, it) for it in (*WANTED, "pytest")):
        yield DEBIAN
    for found, about in ((kept(OLDEST), OLDEST), (next(filter(None, map(kept, NEWEST)), ""), " or ".join(NEWEST))):
        if found:
            yield found
        else:
            print(f"left out: Python {about}, which is not here")


def within():
    """The tests, in this process."""
    found = unittest.defaultTestLoader.discover(os.path.join(HERE, "tests"), top_level_dir=HERE)
    ran = unittest.TextTestRunner().run(found)
    if SKIPPED in os.environ:
        with open(os.environ[SKIPPED], "w", encoding="utf-8") as file:
            json.dump({test.id(): why for test, why in ran.skipped}, file)
    return 0 if ran.wasSuccessful() else 1


def main():
    parser = argparse.ArgumentParser(description=__doc__, formatter_class=argparse.RawDescriptionHelpFormatter)
    parser.add_argument(
        "--long",
        action="store_true",
        help="ask for a minute whether answers are whole whatever runs meanwhile, try 100,000 histories and all pairs of edits, and texts of 2^30 units, which takes 8 GB",
    )
    parser.add_argument("--within", action="store_true", help="run the tests alone, in this process")
    given = parser.parse_args()
    if given.within:
        return within()
    done = all([are_sources_made(), is_linted(), are_pages_made()])
    if not has_extension():
        return 0 if done else 1
    done &= are_types_right()
    seconds, more = (60, {"HUCKLEPORT_LARGE": "1", "HUCKLEPORT_LONG": "1"}) if given.long else (6, {})
    ran = [run_all(sys.executable, seconds, **more), *(run_all(python, 2) for python in others())]
    tell_skipped([skipped for _, skipped in ran])
    return 0 if done and not any(failed for failed, _ in ran) else 1


if __name__ == "__main__":
    sys.exit(main())
