#!/usr/bin/env python3
"""Runs the builds of `rt ci` once more under a malloc that refuses growths, and counts the blocks in use at the end.

Parts (all, if none is named):

- store: the tests of single low crates whose names end with `without_a_growth`. Every growth is refused from their first mark on. Each asks only for the
  second mark's room, and passes. Then the tests that must pass with each growth refused in turn, as a thousand `add`s, or `observe` on a hundred nodes.
- tests: each test of single crates with one growth refused. It passes, or ends with its own message of out of memory. Tests that compare the state after
  a refusal must pass.
- dialogues: the program over each dialogue with one growth refused, and with all from one on. It writes the first reply lines, never fewer than with an
  earlier growth refused, then the out-of-memory line, and ends with status 1. If a smaller growth suffices, it writes all replies.
- writers: the same with writers that fail: a closed one, one that is always full, one that is full after some bytes. The status is 3, and the reason is
  written if there was memory for it.
- leaks: the program under valgrind over each dialogue, whole and with single growths refused. It is left out if there is no valgrind.
- room: the program over scenes in which Texts and attributes lose most of their content, with the bytes in use at once counted. Then over smaller scenes,
  as over dialogues.

A test that ends by itself, and each run of the program, leaves no block in use. Some growths of each test or dialogue are refused, spread over all of them.
With --whole, and in a test of several scenes, each growth is refused, but at most 3,000 of a test. A test of more than 100,000 growths runs with none
refused. The last line is `N runs, M bad`; the status is 1 if M is not 0.
"""
import argparse
import multiprocessing
import os
import re
import shutil
import subprocess
import sys
import tempfile
from collections import Counter, namedtuple

import room_scenes
from running import Dialogue, LIMIT, OUT_OF_MEMORY, PROGRAM, ROOT, Run, dialogues, refusing_malloc, run

# The most growths of a test or dialogue that are refused by default, for each part; `store` refuses each.
PARTS = {"store": sys.maxsize, "tests": 60, "dialogues": 40, "writers": 3, "leaks": 1, "room": sys.maxsize}
# A test of more growths is run with none refused, since each run takes long; WHOLE is the most growths of a test that are refused.
HEAVY = 100_000
WHOLE = 3000

# Crates whose tests are run with refusals, and the modules of them that must pass then.
CRATES = {
    "store_cases": (),
    "tree_cases": (),
    "range_cases": (),
    "observer_cases": ("out_of_memory",),
    "edit_cases": ("attributes", "clones", "contents", "range_insertion", "texts", "tree_edits"),
    "stream_cases": (),
}
WITHOUT = "_without_a_growth"
# Tests that pass with each of their growths refused, and how many of these each has at least.
STAND = {
    ("store_cases", "links::a_refused_add_hands_the_value_back"): 1000,
    ("range_cases", "ranges::refused_room"): 1,
    ("store_cases", "numbered_items::refused_room"): 10,
    ("observer_cases", "registrations::a_hundred_nodes"): 100,
}
# Tests of several scenes. Each of their growths is refused, so each scene meets its own.
SCENES = {
    ("tree_cases", "tree::scenes"),
    *(("edit_cases", f"{module}::scenes") for module in CRATES["edit_cases"]),
}
# Tests that repeat a change of several steps that was refused half-way, with the growths before that: of the data afterwards nothing is promised.
HALF_WAY = {("edit_cases", "texts::scenes"): 392}

WANTING = b"domserve: out of memory\n"
UNWRITTEN = re.compile(rb"domserve: write failed(: (Bad file descriptor|No space left on device|File too large))?\n")
COUNTS = re.compile(rb"growths (\d+), refused (\d+), left (-?\d+), most (\d+)\n")
# A test's message of out of memory: its error, or its assertion that there is memory.
SAYS = re.compile(rb"^error: Alloc(Error|Failed \{ \.\. \})$", re.M)
ASSERTS = re.compile(rb"^assertion failed: [a-z_]+\.is_ok\(\)$", re.M)
VALGRIND = ["valgrind", "-q", "--soname-synonyms=somalloc=nouserintercepts", "--error-exitcode=9"]
VALGRIND += ["--leak-check=full", "--show-leak-kinds=all", "--errors-for-leak-kinds=all"]

# A run, with the counts of the malloc; None if the program was stopped.
Counted = namedtuple("Counted", "status out said growths refused left most")


class Wrong(Exception):
    """A run had other results than expected."""


def counted(ran):
    """Returns a run with the counts of the malloc, which are removed from its errors."""
    found = COUNTS.search(ran.err)
    return Counted(ran.status, ran.out, COUNTS.sub(b"", ran.err), *(map(int, found.groups()) if found else (None,) * 4))


def spread(growths, most):
    """Returns at most `most` of the growths, the first and the last among them."""
    if growths <= most:
        return range(1, growths + 1)
    return sorted({1 + (growths - 1) * at // max(most - 1, 1) for at in range(most)})


def leaves_nothing(found):
    if found.left != 0:
        raise Wrong(f"{found.left} blocks are in use at the end")


class Test:
    """One test of a crate."""

    def __init__(self, crate, name, library):
        self.crate, self.name, self.library = crate, name, library
        self.must_pass = name.partition("::")[0] in CRATES[crate] or (crate, name) in STAND

    def __str__(self):
        return f"{self.crate} {self.name}"

    def run(self, **setting):
        words = [program_of(self.crate), self.name]
        ran = subprocess.run(words, env={**os.environ, **setting, "LD_PRELOAD": self.library}, capture_output=True, timeout=LIMIT)
        return counted(Run(ran.returncode, ran.stdout, ran.stderr))

    def passes(self, refused, **setting):
        """Checks that the test passes with this number of refusals."""
        found = self.run(**setting)
        if (found.status, found.refused) != (0, refused):
            raise Wrong(f"status {found.status}, {found.refused} refused, and {refused} was due: {found.said.decode(errors='replace')}")
        leaves_nothing(found)

    def refuses(self, growth):
        """Checks that the test passes with one growth refused, or says that it is out of memory."""
        found = self.run(REFUSE_AT=str(growth))
        told = found.out + found.said
        if found.status == -6 and ASSERTS.search(told) and not self.must_pass:
            return
        if found.refused == 0 or (found.status != 0 and (self.must_pass or found.status != 101 or not SAYS.search(told))):
            raise Wrong(f"status {found.status}, {found.refused} refused: {told.decode(errors='replace')}")
        leaves_nothing(found)


def program_of(crate):
    return os.path.join(ROOT, "crates", crate, "out", crate + "_tests")


def tests_of(crate, library):
    listed = subprocess.run([program_of(crate), "--list"], capture_output=True, text=True, check=True).stdout
    return [Test(crate, line.removesuffix(": test"), library) for line in listed.splitlines() if line.endswith(": test")]


class Serving:
    """The program over one dialogue, with growths refused alone or from one on."""

    def __init__(self, dialogue, program, library):
        self.dialogue, self.program, self.library = dialogue, program, library

    def __str__(self):
        return self.dialogue.name

    def run(self, folder, setting, **writer):
        return counted(run(self.program, self.dialogue.path, self.dialogue.words, folder, {**setting, "LD_PRELOAD": self.library}, **writer))

    def whole(self, folder):
        """Returns the run without a refusal."""
        found = self.run(folder, {})
        if (found.status, found.said, found.out) != (0, b"", self.dialogue.due):
            raise Wrong(f"not all is answered: {found}")
        leaves_nothing(found)
        return found

    def replies(self, found):
        """Returns how many reply lines are ahead of the out-of-memory line; None before the program serves, or if it served all."""
        leaves_nothing(found)
        if found.refused == 0:
            raise Wrong("the growth was not asked for")
        if (found.status, found.said, found.out) == (0, b"", self.dialogue.due):
            return None
        if (found.status, found.said) != (1, WANTING):
            raise Wrong("status or words")
        front = found.out.removesuffix(OUT_OF_MEMORY)
        if found.out and (front == found.out or not self.dialogue.due.startswith(front) or not (front == b"" or front.endswith(b"\n"))):
            raise Wrong("no front of the replies, and the out-of-memory line")
        return front.count(b"\n") if found.out else None

    def refuses(self, folder, mode, growths):
        """Makes the runs with these growths refused, and yields each growth and its run."""
        lines = 0
        for growth in growths:
            found = self.run(folder, {mode: str(growth)})
            try:
                count = self.replies(found)
                if count is not None and count < lines or count is None and lines and found.status:
                    raise Wrong("fewer replies than with an earlier growth refused")
            except Wrong as wrong:
                raise Wrong(f"{mode} {growth}: {wrong}: {found}") from None
            lines = lines if count is None else count
            yield growth, found

    def fails_to_write(self, folder, mode, growth, whole):
        """Makes the run anew with writers that fail, and returns how many runs that was."""
        room = growth * 7919 % max(len(whole.out), 1)
        writers = [{"output": False}, {"output": "/dev/full"}, {"room": room}]
        for writer in writers:
            found = self.run(folder, {mode: str(growth)}, **writer)
            due = (3, found.said if UNWRITTEN.fullmatch(found.said) else None) if whole.out else (whole.status, whole.said)
            if (found.status, found.said, found.out) != (*due, whole.out[: writer["room"]] if "room" in writer else b""):
                raise Wrong(f"{mode} {growth} with the writer {writer}: {found}")
            leaves_nothing(found)
        return len(writers)

    def under_valgrind(self, setting=()):
        """Makes the run under valgrind."""
        words = [*VALGRIND, self.program, *self.dialogue.words]
        refusing = {**dict(setting), "REFUSE_IN": os.path.basename(self.program), "LD_PRELOAD": self.library} if setting else {}
        ran = subprocess.run(words, input=self.dialogue.given, env={**os.environ, **refusing}, capture_output=True, timeout=LIMIT)
        said = COUNTS.sub(b"", ran.stderr)
        if (ran.returncode, said) not in ([(1, WANTING), (0, b"")] if setting else [(0, b"")]):
            raise Wrong(f"under valgrind, {setting}: status {ran.returncode} {said.decode(errors='replace')}")


class Scene:
    """The program over a scene of two sizes."""

    def __init__(self, scene, program, library):
        self.name, self.makes, *self.sizes = scene
        self.program, self.library = program, library

    def __str__(self):
        return self.name

    def written(self, folder):
        """Yields the scene at each of its sizes."""
        for at, size in enumerate(self.sizes):
            lines, replies = zip(*self.makes(*size))
            path = os.path.join(folder, f"{at}.in")
            given, due = ("".join(it + "\n" for it in text).encode() for text in (lines, replies))
            with open(path, "wb") as file:
                file.write(given)
            yield Serving(Dialogue(self.name, path, given, [], due), self.program, self.library)


# The runs of one test or dialogue, by part. Each function yields after each run, and raises Wrong if a run had other results than expected.


def store(it, most):
    if it.name.endswith(WITHOUT):
        it.passes(1, REFUSE_AFTER="7777")
        yield
        return
    found = it.run()
    yield
    due = STAND[it.crate, it.name]
    if found.status or found.growths < due:
        raise Wrong(f"status {found.status}, {found.growths} growths, and at least {due} are due")
    for growth in spread(found.growths, most):
        it.passes(1, REFUSE_AT=str(growth))
        yield


def tests(it, most):
    found = it.run()
    yield
    if found.status:
        raise Wrong(f"status {found.status} with no refusal: {(found.out + found.said).decode(errors='replace')}")
    leaves_nothing(found)
    most = WHOLE if (it.crate, it.name) in SCENES else most
    last = HALF_WAY.get((it.crate, it.name), found.growths)
    for growth in spread(last, most) if found.growths <= HEAVY else ():
        try:
            it.refuses(growth)
        except Wrong as wrong:
            raise Wrong(f"growth {growth}: {wrong}") from None
        yield


def serving(it, most, with_writers):
    with tempfile.TemporaryDirectory() as folder:
        growths = it.whole(folder).growths
        yield
        for mode in ("REFUSE_AT", "REFUSE_FROM"):
            for growth, found in it.refuses(folder, mode, spread(growths, most)):
                yield
                for _ in range(it.fails_to_write(folder, mode, growth, found) if with_writers else 0):
                    yield


def leaks(it, most):
    it.under_valgrind()
    yield
    with tempfile.TemporaryDirectory() as folder:
        growths = it.whole(folder).growths
    for growth in spread(growths, most + 1)[1:]:
        it.under_valgrind((("REFUSE_AT", str(growth)),))
        yield


def room(it, most):
    """Makes the runs of a scene at its two sizes."""
    with tempfile.TemporaryDirectory() as folder:
        large, small = it.written(folder)
        found = large.whole(folder)
        if found.most > room_scenes.MOST:
            raise Wrong(f"{found.most:,} bytes are in use at once, and at most {room_scenes.MOST:,} are due")
        yield
        yield from serving(small, most, False)


def tried(work):
    """Makes the runs of one test or dialogue. Returns the part, how many runs there were, and the fault or None."""
    part, it, most = work
    runs = 0
    ways = {"store": store, "tests": tests, "leaks": leaks, "room": room}
    try:
        for _ in ways[part](it, most) if part in ways else serving(it, most, part == "writers"):
            runs += 1
    except (Wrong, subprocess.TimeoutExpired) as wrong:
        return part, runs + 1, f"{part}: {it}: {wrong}"
    return part, runs, None


def most_of(given, part):
    """Returns how many growths of a test or dialogue are refused."""
    if given.whole:
        return {"tests": WHOLE, "leaks": 20}.get(part, sys.maxsize)
    return given.most or PARTS[part]


def works(given, library):
    """Yields the work: the part, the test or dialogue, and the most growths."""
    every = [it for crate in given.crate for it in tests_of(crate, library)] if {"store", "tests"} & {*given.parts} else []
    if "store" in given.parts:
        stands = [it for it in every if it.name.endswith(WITHOUT) or (it.crate, it.name) in STAND]
        due = {*STAND, *SCENES, *((crate, module) for crate, modules in CRATES.items() for module in modules)}
        lacking = {it for it in due if it[0] in given.crate} - {(it.crate, name) for it in every for name in (it.name, it.name.partition("::")[0])}
        if lacking:
            sys.exit(f"{' has no test or module '.join(min(lacking))}")
        yield from (("store", it, sys.maxsize) for it in stands)
    if "tests" in given.parts:
        yield from (("tests", it, most_of(given, "tests")) for it in every)
    if "room" in given.parts:
        yield from (("room", Scene(it, given.program, library), most_of(given, "room")) for it in room_scenes.SCENES)
    for part in ("dialogues", "writers", "leaks"):
        if part in given.parts:
            yield from ((part, Serving(it, given.program, library), most_of(given, part)) for it in dialogues([]))


def words():
    parser = argparse.ArgumentParser(description=__doc__, formatter_class=argparse.RawDescriptionHelpFormatter)
    parser.add_argument("parts", nargs="*", metavar="PART", help=", ".join(PARTS))
    parser.add_argument("--crate", action="append", choices=[*CRATES], metavar="CRATE", help="the tests of these crates alone: " + ", ".join(CRATES))
    parser.add_argument("--program", default=PROGRAM, help="the program that is run (crates/domserve/out/domserve)")
    told = ", ".join(f"{it} {most}" for it, most in PARTS.items() if it != "store")
    parser.add_argument("--most", type=int, metavar="N", help=f"how many growths of a test or dialogue are refused ({told})")
    parser.add_argument("--whole", action="store_true", help="refuse each growth")
    parser.add_argument("--jobs", type=int, default=os.cpu_count() or 1, metavar="N", help="how many are tried side by side (all processors)")
    given = parser.parse_args()
    unknown = [it for it in given.parts if it not in PARTS]
    if unknown:
        parser.error(f"there is no part {unknown[0]}: the parts are {', '.join(PARTS)}")
    given.parts, given.crate = given.parts or [*PARTS], given.crate or [*CRATES]
    return given


def can_run(given):
    """Leaves out the parts that cannot be tried here, and says so. Fails if something is not built."""
    if "leaks" in given.parts and not shutil.which("valgrind"):
        given.parts.remove("leaks")
        print("left out: the runs under valgrind, since there is no valgrind", flush=True)
    built = [program_of(it) for it in given.crate] if {"store", "tests"} & {*given.parts} else []
    built += [given.program] if {"dialogues", "writers", "leaks", "room"} & {*given.parts} else []
    missing = [it for it in built if not os.access(it, os.X_OK)]
    if missing:
        sys.exit(f"{os.path.relpath(missing[0], ROOT)} is not built: rt ci builds it")


def main():
    given = words()
    if not shutil.which("cc"):
        print("left out: runs in which growths are refused, since there is no cc")
        return 0
    can_run(given)
    runs, bad = Counter(), 0
    with tempfile.TemporaryDirectory() as folder, multiprocessing.Pool(given.jobs) as pool:
        for part, count, wrong in pool.imap_unordered(tried, works(given, refusing_malloc(folder))):
            runs[part] += count
            bad += wrong is not None
            if wrong:
                print(wrong, flush=True)
    for part in given.parts:
        print(f"{part}: {runs[part]:,} runs")
    print(f"{runs.total()} runs, {bad} bad")
    return 1 if bad else 0


if __name__ == "__main__":
    sys.exit(main())
