#!/usr/bin/env python3
"""Runs all tests that need no proof, side by side: of generated/, the tools, dialogues, refused memory, costs, README, the bindings, a release's interface,
served documents and the referee. With --proved it also runs those that need the Rattle kit and proved crates.

Four builds that tests share are first: the program, the library for C, the module for Python and the one for JavaScript. Tests that build them again
replace each file whole, so others may read it meanwhile. A task begins once those that it needs have ended, and never more run at once than there are
processors. Its output is printed in one piece when it has ended, under a line with its name and how long it took. The last line says how many passed and
failed, and --after adds the counts of another run's last line. A test without such counts is one; a build counts if it fails.

Passed tasks are kept in out/passed.json, beside a sum of all that they may read: each file of the repository, the kit, and the installed packages. If
nothing of that has changed, a task is not run again, and its output is printed once more. Builds are always run, and --anew runs all. out/seconds.json
has how long each task took, from which the progress reckons the time that is left.
"""
import argparse
import contextlib
import dataclasses
import hashlib
import json
import os
import re
import shutil
import signal
import subprocess
import sys
import tempfile
import threading
import time

from progress import Figures, Progress, clock
from start import ROOT

COUNTS = re.compile(r"(\d+) passed, (\d+) failed")
BINDINGS = "bindings/test.py"
PROGRAM, LIBRARY, EXTENSION, MODULE = "the program", "the library for C", "the module for Python", "the module for JavaScript"


@dataclasses.dataclass(frozen=True)
class Task:
    """A test, or a build that tests need: its script with words, and the names of those that have to end first. `seconds` is how long it took on four
    processors beside the others, and `is_of_kit` whether it needs the kit."""

    name: str
    words: tuple
    needs: tuple = ()
    is_build: bool = False
    seconds: int = 20
    is_of_kit: bool = False


# Those that others need are first, and then those that take long.
TASKS = (
    Task(PROGRAM, ("tools/assemble.py",), is_build=True, seconds=4),
    Task(LIBRARY, ("bindings/c/make.py",), is_build=True, seconds=5),
    Task(MODULE, ("bindings/javascript/make.py",), is_build=True, seconds=2),
    Task(EXTENSION, ("bindings/python/extension.py", "--build", "--where-possible"), (LIBRARY,), is_build=True),
    Task("generated/ is what the proof leaves", ("tools/generate.py", "--check"), is_of_kit=True, seconds=60),
    Task("bindings rust", (BINDINGS, "rust"), (LIBRARY,), seconds=120),
    Task("costs", ("bench/hostile.py",), (PROGRAM,), seconds=180),
    Task("bindings python", (BINDINGS, "python"), (EXTENSION,), seconds=120),
    Task("served documents", ("serving/test.py",), (PROGRAM, EXTENSION), seconds=120),
    Task("bindings c", (BINDINGS, "c"), (LIBRARY,), seconds=120),
    Task("referee", ("referee/test.py",), (PROGRAM, EXTENSION, MODULE, "bindings rust"), seconds=150),
    Task("want of memory", ("tools/refused.py", "dialogues", "writers", "leaks", "room"), (PROGRAM,), seconds=60),
    Task("want of memory in crates", ("tools/refused.py", "store", "tests"), is_of_kit=True, seconds=60),
    Task("bindings javascript", (BINDINGS, "javascript"), (MODULE,), seconds=60),
    Task("linters", ("tools/linted.py",), seconds=60),
    Task("aarch64", ("tools/other.py",), seconds=100),
    Task("README", ("tools/docs.py", "run", "README.md"), (PROGRAM,), seconds=60),
    Task("generated/", ("tools/test_generated.py",), (PROGRAM,), seconds=60),
    Task("dialogues", ("tools/pieces.py",), (PROGRAM,), seconds=5),
    Task("failing streams", ("tools/manners.py",), (PROGRAM,), seconds=5),
    Task("versions", (BINDINGS, "versions"), seconds=1),
    Task("the interface and NOTICE of a release", ("release/test.py", "Interface", "Notice"), (LIBRARY,), seconds=5),
    Task("edits", ("tools/test_edits.py",), is_of_kit=True),
    Task("tools", ("tools/test.py",)),
)

# The files of the passed tasks, and of how long each took.
KEPT, FIGURES = f"{ROOT}/out/passed.json", f"{ROOT}/out/seconds.json"
# The commands that print the installed packages, the kit and the machine.
SURROUNDINGS = (("dpkg-query", "-W"), ("rt", "version"), ("uname", "-a"), (sys.executable, "--version"))


def told(words):
    """Returns a command's output, or None if it fails."""
    try:
        return subprocess.run(words, cwd=ROOT, capture_output=True, check=True).stdout
    except (OSError, subprocess.CalledProcessError):
        return None


def sum_of_all():
    """Returns a sum of all that a test may read, or None if git does not list the repository's files."""
    listed = told(("git", "ls-files", "-z", "--cached", "--others", "--exclude-standard"))
    if listed is None:
        return None
    total = hashlib.sha256()
    for words in (it for it in SURROUNDINGS if shutil.which(it[0])):
        total.update(repr((words, told(words))).encode())
    for name in sorted(it for it in os.environ if it.startswith("HUCKLEPORT_")):
        total.update(f"{name}={os.environ[name]}\n".encode())
    for file in sorted(it for it in listed.decode().split("\0") if os.path.isfile(f"{ROOT}/{it}")):
        with open(f"{ROOT}/{file}", "rb") as it:
            total.update(f"{file} {hashlib.sha256(it.read()).hexdigest()}\n".encode())
    return total.hexdigest()


class Passed:
    """The passed tasks: the output of each, and the sum over which it passed."""

    def __init__(self, path, total, is_anew=False):
        self.path, self.total, self.of = path, total, {}
        if not is_anew:
            with contextlib.suppress(OSError, ValueError), open(path, encoding="utf-8") as file:
                self.of = {name: it for name, it in json.load(file).items() if it["sum"] == total}

    def said(self, task):
        """Returns the output of a task that passed over the same sum, or None."""
        return self.of[task.name]["said"] if task.name in self.of and not task.is_build else None

    def keep(self, task, said):
        if self.total is None or task.is_build:
            return
        self.of[task.name] = {"sum": self.total, "said": said}
        os.makedirs(os.path.dirname(self.path), exist_ok=True)
        with open(f"{self.path}.new", "w", encoding="utf-8") as file:
            json.dump(self.of, file)
        os.replace(f"{self.path}.new", self.path)


class Run:
    """A run of tasks. `passed` and `failed` are the counts of those that have ended."""

    def __init__(self, passed, failed, kept, tasks, jobs):
        self.passed, self.failed, self.kept = passed, failed, kept
        self.left, self.ended = [*tasks], set()
        self.changed, self.figures = threading.Condition(), Figures(FIGURES)
        self.progress = Progress("test", {it.name: self.figures.of.get(it.name, it.seconds) for it in tasks}, jobs)

    def next(self):
        """Takes the first task whose needs have ended, and waits if there is none. Returns None once none is left to begin."""
        with self.changed:
            while self.left:
                found = next((it for it in self.left if self.ended.issuperset(it.needs)), None)
                if found:
                    self.left.remove(found)
                    return found
                self.changed.wait()
        return None

    def end(self, task, status, said, took):
        """Counts the results of a task, and prints its output."""
        found = COUNTS.fullmatch(said.rstrip("\n").rpartition("\n")[2])
        passed, failed = map(int, found.groups()) if found else (int(status == 0 and not task.is_build), 0)
        failed += status != 0 and not failed
        with self.changed:
            self.passed, self.failed = self.passed + passed, self.failed + failed
            self.ended.add(task.name)
            words = f": FAILED, status {status}" if failed else ""
            self.progress.clear()
            print(f"== {task.name} ({took}){words}\n{said.rstrip()}", flush=True)
            if not failed:
                self.kept.keep(task, said)
            self.changed.notify_all()

    def work(self):
        while task := self.next():
            began, said = time.monotonic(), self.kept.said(task)
            self.progress.begin(task.name)
            if said is not None:
                self.progress.end(task.name)
                self.end(task, 0, said, "kept")
                continue
            with tempfile.TemporaryFile("w+", encoding="utf-8", errors="replace") as out:
                words = [sys.executable, f"{ROOT}/{task.words[0]}", *task.words[1:]]
                status = subprocess.run(words, stdin=subprocess.DEVNULL, stdout=out, stderr=subprocess.STDOUT, check=False).returncode
                out.seek(0)
                seconds = time.monotonic() - began
                self.figures.keep(task.name, seconds)
                self.progress.end(task.name)
                self.end(task, status, out.read(), clock(seconds))


def end(number, _):
    """Ends this run with all that it has begun."""
    signal.signal(number, signal.SIG_DFL)
    os.killpg(os.getpgrp(), number)


def main():
    words = argparse.ArgumentParser(description=__doc__, formatter_class=argparse.RawDescriptionHelpFormatter)
    words.add_argument("--after", metavar="LINE", default="0 passed, 0 failed", help="the last line of the tests before these")
    words.add_argument("--jobs", type=int, default=os.cpu_count() or 1, metavar="N", help="how many run side by side (all processors)")
    words.add_argument("--anew", action="store_true", help="also run tasks that passed over the same files")
    words.add_argument("--proved", action="store_true", help="also run tasks that need the Rattle kit and the crates that it proved and built")
    given = words.parse_args()
    before = COUNTS.fullmatch(given.after)
    if not before:
        words.error(f"no last line of tests: {given.after}")
    for it in (signal.SIGTERM, signal.SIGHUP, signal.SIGINT):
        with contextlib.suppress(ValueError):
            signal.signal(it, end)
    tasks = [it for it in TASKS if given.proved or not it.is_of_kit]
    run = Run(*map(int, before.groups()), Passed(KEPT, sum_of_all(), given.anew), tasks, given.jobs)
    workers = [threading.Thread(target=run.work) for _ in range(given.jobs)]
    with run.progress:
        for it in workers:
            it.start()
        for it in workers:
            it.join()
    print(f"{run.passed} passed, {run.failed} failed")
    return 1 if run.failed else 0


if __name__ == "__main__":
    sys.exit(main())
