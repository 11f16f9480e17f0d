#!/usr/bin/env python3
"""Does the long work of the gate in the best order: every crate and its tests are proved, and the edits that must fail are tried.

A crate is proved as soon as those below it are, with the threads that its share of the text allows. Tests and edits, for which nothing waits, run beside
these proofs at a lower priority. As many of them run at once as there are processors (or as RT_JOBS says), one fewer while something is proved. All is
kept beside the kit, by the sums of the files that were read. `rt ci`, which is the judge, then finds the proofs, and `tools/edits.py` the outcomes of the
edits. Nothing is decided here, so the status is 0 even if something has no proof.
"""
import argparse
import contextlib
import copy
import os
import signal
import sys
import tempfile
import threading

import edits
import start

TESTS = "tests"
# The most threads of a proof beside tests or edits: a third thread wastes processor time that those lack.
MOST_BESIDE = 2


class Turns:
    """The order of proofs and of other tasks, for which nothing waits. A proof runs at once. As many of the others run as there are processors, one fewer
    beside a proof. Those of the most lines are first, so that nothing long is left for the end."""

    def __init__(self, processors):
        self.processors, self.proofs, self.others, self.waiting = processors, 0, 0, []
        self.changed = threading.Condition()

    @contextlib.contextmanager
    def proof(self):
        with self.changed:
            self.proofs += 1
        try:
            yield
        finally:
            with self.changed:
                self.proofs -= 1
                self.changed.notify_all()

    def is_next(self, lines):
        return self.others < max(1, self.processors - bool(self.proofs)) and lines == max(self.waiting)

    @contextlib.contextmanager
    def other(self, lines):
        with self.changed:
            self.waiting.append(lines)
            self.changed.wait_for(lambda: self.is_next(lines))
            self.waiting.remove(lines)
            self.others += 1
            self.changed.notify_all()
        try:
            yield
        finally:
            with self.changed:
                self.others -= 1
                self.changed.notify_all()


class Gate(edits.Edits):
    """Some crates and those below them, for each target of a release, their tests and their edits."""

    further = (start.ARM,)

    def __init__(self, rt, top, names, processors):
        super().__init__(rt, top, [*names], begins=False)
        self.of, self.turns = edits.with_edits(self.names), Turns(processors)

    def behind(self, call, crate, *given):
        with self.turns.other(crate.count(rb"\n")):
            return super().behind(call, crate, *given)

    def lower(self):
        return self.names

    def tasks(self):
        tasks = super().tasks()
        for crate in self.crates.values():
            if crate.has_tests():
                call = lambda given, jobs, crate=crate: self.all_proved(crate, given) and self.behind(self.prove_tests, crate, jobs)
                tasks[crate.name, TESTS] = ([(it.name, start.PROOF) for it in crate.below()], crate.count(rb"\n"), self.rt.need(crate), call)
        return tasks

    def is_waited_for(self, crate):
        """Returns whether a crate is built as a program or an archive, or another one depends on it."""
        above = (it for it in self.crates.values() if it.name != crate.name)
        is_built = (crate.is_program or crate.is_static) and start.target_of(crate) == start.HERE
        return is_built or any(crate.name == below.name for it in above for below in it.below())

    def is_ready(self, crate):
        return self.is_waited_for(crate) and super().is_ready(crate)

    def threads(self, crate, jobs):
        """Returns how many threads a proof gets: fewer beside tests or edits."""
        most = super().threads(crate, jobs)
        return max(jobs, min(most, MOST_BESIDE)) if self.turns.others else most

    def prove(self, crate, given, jobs):
        if not self.is_waited_for(crate):
            return self.behind(super().prove, crate, given, jobs)
        with self.turns.proof():
            return super().prove(crate, given, jobs)

    def prove_tests(self, crate, jobs):
        """Proves and builds the tests of a crate as the gate does, or finds that they are kept."""
        kept = self.kept.verdicts
        crate, key = copy.copy(crate), kept.key(crate)
        os.makedirs(f"{crate.folder}/out", exist_ok=True)
        name = f"{crate.name} (tests)"
        with tempfile.TemporaryFile("w+", encoding="utf-8", errors="replace") as crate.out, kept.in_turn(crate, True, key):
            was_kept = kept.give(crate, True, key)
            is_proved = was_kept or not crate.ci(["--jobs", str(jobs)], True)
            if is_proved and not was_kept:
                kept.keep(crate, True, key)
            self.say(f"{'kept' if was_kept else 'proved' if is_proved else 'NOT PROVED'}: {name}")
            if not is_proved:
                self.tell_why(crate)
        return is_proved


def main():
    words = argparse.ArgumentParser(description=__doc__, formatter_class=argparse.RawDescriptionHelpFormatter)
    words.add_argument("crates", nargs="*", metavar="CRATE", help="these crates and those below them, in place of all")
    names = words.parse_args().crates or [*start.listed()]
    for it in names:
        if it not in start.listed():
            words.error(f"crates.txt has no crate {it}")
    for it in (signal.SIGTERM, signal.SIGHUP, signal.SIGINT):
        signal.signal(it, start.end)
    rt = start.kit()
    if not hasattr(rt, "Kept"):
        return 0
    number = os.environ.get("RT_JOBS", "")
    processors = int(number) if number.isdigit() and int(number) else rt.processors()
    # (the kit begins all tasks that it may; this script decides which have to wait)
    os.environ["RT_JOBS"] = str(3 * len(names) + 1)
    with start.workplace(rt) as top:
        Gate(rt, top, names, processors).run()
    return 0


if __name__ == "__main__":
    sys.exit(main())
