#!/usr/bin/env python3
"""Tests served documents against a PostgreSQL that each test starts in a folder of its own, on a socket there alone.

If only Debian's Python has psycopg, they run by that one. Without psycopg or PostgreSQL they are left out, and a line says so. With --whole some
tests have a large form:

- losses, with 4 workers, 200 documents, 200,000 lines and 20 clients
- orders of five steps
- logs of 1,000,000 lines
- 200 documents beside one that takes all memory
- 2,000 clients of a pool
"""
import argparse
import importlib.util
import os
import re
import signal
import subprocess
import sys
import unittest

HERE = os.path.dirname(os.path.abspath(__file__))
ROOT = os.path.dirname(HERE)
DEBIAN = "/usr/bin/python3"
PROGRAM = os.path.join(ROOT, "crates/domserve/out/domserve")
LIBRARY = os.path.join(ROOT, "bindings/c/out/libhuckleport.so")
sys.dont_write_bytecode = True


def has_psycopg(python):
    """Returns whether a Python has psycopg 3."""
    if python == sys.executable:
        return importlib.util.find_spec("psycopg") is not None
    return os.path.exists(python) and subprocess.run([python, "-c", "import psycopg"], stderr=subprocess.DEVNULL, check=False).returncode == 0


def lacking(given):
    """Returns why the tests can't run: a missing program or library; None if they can."""
    sys.path.insert(0, HERE)
    from huckleport_serving import trial

    try:
        trial.programs()
        trial.user()
    except trial.NoServer as fault:
        return str(fault)
    missing = [it for it in (given.program, LIBRARY) if not os.path.exists(it)]
    return f"{missing[0]} is not there" if missing else None


def tested(given):
    """Returns how many tests passed and failed."""
    os.environ["HUCKLEPORT_PROGRAM"] = given.program
    if given.whole:
        os.environ["HUCKLEPORT_WHOLE"] = "1"
    if not given.only:
        return tested_together()
    # (processes that the tests started end with them)
    signal.signal(signal.SIGTERM, lambda *_: sys.exit(1))
    sys.path.insert(0, os.path.join(HERE, "tests"))
    ran = unittest.TextTestRunner(verbosity=2).run(unittest.TestLoader().loadTestsFromNames(given.only))
    failed = len({it.id() for it, _ in [*ran.failures, *ran.errors]})
    return ran.testsRun - failed, failed


def tested_together():
    """Runs the files of tests at once, each in a process of its own, since most of their time is waiting. Prints their outputs one by one."""
    names = sorted(it[:-3] for it in os.listdir(os.path.join(HERE, "tests")) if it.startswith("test_"))
    signal.signal(signal.SIGTERM, lambda *_: sys.exit(1))
    started = []
    found = [0, 0]
    try:
        for it in names:
            started.append(subprocess.Popen([sys.executable, __file__, it], stdout=subprocess.PIPE, stderr=subprocess.STDOUT))
        for it in started:
            out = it.communicate()[0].decode(errors="replace")
            counts = re.search(r"^(\d+) passed, (\d+) failed$", out, re.M)
            print(out, end="", flush=True)
            found = [found[0] + int(counts[1]), found[1] + int(counts[2])] if counts else [found[0], found[1] + 1]
    finally:
        for it in started:
            it.terminate()
            it.wait()
    return found


def main():
    parser = argparse.ArgumentParser(description=__doc__, formatter_class=argparse.RawDescriptionHelpFormatter)
    parser.add_argument("--program", default=PROGRAM, help="the program (crates/domserve/out/domserve)")
    parser.add_argument("--whole", action="store_true", help="the whole test of losses, which takes some minutes")
    parser.add_argument("only", nargs="*", metavar="NAME", help="only these tests, as unittest names them (test_losses, test_documents.Fences)")
    given = parser.parse_args()
    if not has_psycopg(sys.executable) and has_psycopg(DEBIAN):
        os.execv(DEBIAN, [DEBIAN, *sys.argv])
    why = lacking(given) if has_psycopg(sys.executable) else "there is no psycopg 3 (Debian has it as python3-psycopg)"
    if why:
        print(f"left out: served documents, since {why}\n0 passed, 0 failed")
        return 0
    found = tested(given)
    print(f"{found[0]} passed, {found[1]} failed")
    return 1 if found[1] else 0


if __name__ == "__main__":
    sys.exit(main())
