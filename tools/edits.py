#!/usr/bin/env python3
"""Tries the edits that must fail, all of a crate in one check where that can be, and tells of each at which goal it is refused.

A function's proof stands on the contracts of what it calls, and never on their bodies. So beside each function that an edit changes a second one, its twin,
gets the edited body, with the same contract and a copy of the proof. One check of a copy with all twins of a crate asks each for the one goal that its edit
is meant to meet (`edit_probes.py`); a second one asks what is left for all goals, and a third one does so with no stubs. What has no twin, or was not refused
at a clause there, is tried in its place, over what the checks before it proved: first at the function that it is meant to meet alone, and then, in as few
groups as no two of which change one function, by a check of all that the edits touch.

An edit is refused, at a function and its goals; or let through; or bad, where it does not fit, does not compile, or its function was not reached. One
that is refused at no clause, since a proof file names what it takes away or its new body has no proof of any kind, is told: it says little of the
contract. So is a function that loses its proof beside edits of others. Where a function is said to wait for another that has no proof, its edit is tried again beside others. The line `at: FUNCTION: GOAL` of an edit says
the clause that it is meant to meet: one that is refused elsewhere is told. With --write these lines are written from what the check says.

The libraries below a crate are proved first, or taken from the kit's store. An edit is tried only if something has changed that its outcome may depend on
(`edit_sums.py`): the outcomes seen stand in `edits/tried.json`, which --note writes, and in the kit's store on this machine. --anew tries all. The last line is
`N passed, M failed`.
"""
import argparse
import contextlib
import copy
import functools
import json
import os
import re
import shutil
import signal
import subprocess
import sys
import tempfile

import edit_files
import edit_probes
import edit_sums
import edit_told
import edit_twins
import start

TASK = "edits"
# Where the outcomes that were seen stand in the repository.
NOTED = "edits/tried.json"
REFUSED, BY_NAME, LET_THROUGH, BAD, WAITS, UNTOLD = "refused", "refused, but at no clause", "LET THROUGH", "BAD", "waits", "NOT TOLD"
# What stays so wherever the same is tried.
SETTLED = (REFUSED, BY_NAME, LET_THROUGH, BAD)
# The status of a check that was asked for a function that is none.
NO_SUCH_NAME = 2
# How often an edit is tried beside others before it is tried alone.
TRIES = 3


class Outcome:
    """What an edit came to: its kind, the function and the goals at which it was refused, or why it is none of that."""

    def __init__(self, kind, function="", goals=(), why=""):
        self.kind, self.function, self.goals, self.why = kind, function, list(goals), why

    def meets(self, meant):
        """Whether it was refused where it is meant to be."""
        function, _, goal = meant.rpartition(": ")
        return self.kind == REFUSED and self.function == function and goal in self.goals

    def place(self):
        """Returns what a line `at:` says of it: the function, and its first goal of a result, or else its first goal."""
        return f"{self.function}: {next((it for it in self.goals if it.startswith('returns')), self.goals[0])}"

    def text(self):
        return f"refused at {self.function}: {', '.join(self.goals)}" if self.kind == REFUSED else f"{self.kind}{': ' * bool(self.why)}{self.why}"


def judged(said, edit, is_single):
    """Returns what a check with this edit, by itself or among others, came to for it, and the functions without a proof that it waits for."""
    if edit.is_alone():
        lost = {name: told for name, told in said.functions.items() if not told.is_proved}
        found = {name: told for name, told in lost.items() if told.goals} or {name: told for name, told in lost.items() if not told.calls} or lost
    else:
        found = {name: said.functions[name] for owner in edit.owners for name in edit_told.names_of(said, owner)}
    refused = next((name for name, told in found.items() if told.is_refused), None)
    calls = [it for told in found.values() for it in told.calls]
    # (a goal may also be left open since a call in it has no proof: then the edit is tried apart from that call's)
    if refused and (is_single or not calls):
        return Outcome(REFUSED, refused, found[refused].goals), []
    if not found and not edit.is_alone():
        return Outcome(BAD, why="the check tells of no function that it changes"), []
    if is_single and any(not it.is_proved for it in found.values()):
        return Outcome(BY_NAME, why="; ".join(f"{name}: {told.kind}" for name, told in found.items() if not told.is_proved)), []
    if calls:
        return Outcome(WAITS, why=f"it calls {', '.join(calls)}, without a proof"), calls
    if any(it.lacks_names for it in found.values()):
        return Outcome(BY_NAME, why="a proof file names what it takes away"), []
    if any(it.is_uncovered and not it.is_proved for it in found.values()):
        return Outcome(BY_NAME, why="the borrow checker does not cover the edited function"), []
    if all(it.is_proved for it in found.values()):
        return Outcome(LET_THROUGH, why="the crate is proved with it"), []
    return Outcome(UNTOLD, why="; ".join(f"{name}: {told.kind}" for name, told in found.items() if not told.is_proved)), []


class Seen:
    """The outcomes of edits that were seen, by the sum of all that each may depend on: of any machine in `edits/tried.json`, of this one in the kit's store."""

    def __init__(self, store, crate, top=start.ROOT, is_anew=False):
        self.crate, self.is_anew, self.at = crate.name, is_anew, f"{store.at}/edits-seen" if store.at else None
        self.kit, self.sources, self.sums = kit_identity(), edit_sums.Sources(os.path.dirname(os.path.dirname(crate.folder)), start.rows()), {}
        self.noted = {} if is_anew else noted(top)

    def sum(self, edit):
        if edit.path not in self.sums:
            self.sums[edit.path] = edit_sums.sum_of(self.sources, self.crate, edit, self.kit)
        return self.sums[edit.path]

    def known(self, edit):
        """Returns the outcome that was seen of this edit, or None."""
        found = self.noted.get(name_of(self.crate, edit))
        if self.is_anew or edit.bad:
            return None
        return outcome_of(found) if found and found["sum"] == self.sum(edit) else self.kept(edit)

    def kept(self, edit):
        try:
            with open(f"{self.at}/{self.sum(edit)}", encoding="utf-8") as it:
                return outcome_of(json.load(it))
        except (OSError, ValueError, TypeError, KeyError):
            return None

    def keep(self, edit, outcome):
        if not self.at or outcome.kind not in SETTLED or edit.bad:
            return
        with contextlib.suppress(OSError):
            os.makedirs(self.at, 0o700, exist_ok=True)
            with tempfile.NamedTemporaryFile("w", dir=self.at, delete=False, encoding="utf-8") as it:
                json.dump(vars(outcome), it)
            os.replace(it.name, f"{self.at}/{self.sum(edit)}")


def name_of(crate, edit):
    return f"{crate}/{edit.name.removesuffix('.edit')}"


def outcome_of(found):
    return Outcome(found["kind"], found.get("function", ""), found.get("goals", ()), found.get("why", ""))


@functools.lru_cache(maxsize=None)
def kit_identity():
    return subprocess.run(["rt", "version"], capture_output=True, text=True, check=True).stdout.strip()


@functools.lru_cache(maxsize=None)
def noted(top):
    """Returns the outcomes that stand in the repository, by the edit's crate and name."""
    try:
        return json.loads(edit_files.read_file(f"{top}/{NOTED}"))
    except OSError:
        return {}


def note_all(results):
    """Writes the outcomes that were seen into the repository; those of other crates stay, and those of edits that are gone go."""
    found = dict(noted(start.ROOT))
    for crate, (edits, _, seen) in results.items():
        found = {name: it for name, it in found.items() if name.partition("/")[0] != crate}
        for edit, outcome in edits:
            if outcome.kind in (REFUSED, BY_NAME):
                found[name_of(crate, edit)] = {"sum": seen.sum(edit), **{key: it for key, it in vars(outcome).items() if it}}
    lines = ",\n".join(f"{json.dumps(name)}: {json.dumps(found[name])}" for name in sorted(found))
    os.makedirs(os.path.dirname(f"{start.ROOT}/{NOTED}"), exist_ok=True)
    with open(f"{start.ROOT}/{NOTED}", "w", encoding="utf-8") as file:
        file.write(f"{{\n{lines}\n}}\n")


class Trial:
    """The edits of one crate, tried in groups. `work` is where checks keep what they proved for the checks after them."""

    def __init__(self, rt, crate, edits, work, say):
        self.rt, self.crate, self.work, self.say = rt, crate, work, say
        self.waiting = [it for it in edits if not it.bad]
        self.outcomes = {it.path: Outcome(BAD, why=it.bad) for it in edits if it.bad}
        # For each edit how often it was tried, and the functions beside whose edits it is not tried again.
        self.tried, self.apart = {it.path: 0 for it in edits}, {it.path: set() for it in edits}
        self.strange = {}

    def group(self):
        """Returns the edits that the next check tries."""
        first, *others = self.waiting
        found = [first]
        if self.tried[first.path] >= TRIES:
            return found
        for edit in others:
            if self.tried[edit.path] < TRIES and edit.fits(found) and not any(self.are_apart(edit, it) for it in found):
                found.append(edit)
        return found

    def are_apart(self, one, other):
        return bool(self.apart[one.path] & other.owners or self.apart[other.path] & one.owners)

    def check(self, edits, jobs):
        """Checks the functions that these edits change and what they call; or all, where an edit changes more than functions, or a name is of none."""
        texts = edit_files.texts_of(edits, self.crate.folder)
        names = sorted({owner.path() for edit in edits for owner in edit.owners if owner})
        only = [] if edits[0].is_alone() else [word for name in names for word in ("--only", name)]
        for jobs, words in ((jobs, only), (1, only), (1, [])):
            ran = self.rt.checked(self.crate, texts, ["--jobs", str(jobs), *words], self.work)
            if ran.returncode not in (-signal.SIGKILL, NO_SUCH_NAME):
                break
        return edit_told.read(self.crate.name, ran.stdout)

    def settle(self, edit, outcome):
        self.outcomes[edit.path] = outcome
        self.waiting.remove(edit)

    def try_twins(self, jobs):
        """Settles the edits that a check of twins refuses at a clause, or that do not compile; returns how many checks it took."""
        twins = edit_twins.Twins(self.crate.name, self.crate.folder, self.waiting)
        spoiled, checks = {}, 0
        while twins.made and len(spoiled) < len({it.edit.path for it in twins.made}):
            said, at = self.check_twins(twins, spoiled, jobs)
            checks += 1
            if said.has_judged:
                self.judge_twins([it for it in twins.made if it.edit.path not in spoiled], said)
                break
            more = {at[file, line].path: text for file, line, text in said.faults if (file, line) in at}
            if not more:
                break
            spoiled |= more
        for edit in [it for it in self.waiting if it.path in spoiled]:
            self.settle(edit, Outcome(BAD, why=f"it does not compile: {spoiled[edit.path]}"))
        return checks

    def try_probes(self, jobs):
        """Settles the edits whose probes have no proof: of the goal that each is meant to meet, and then, of what is left, of any; returns how many checks it
        took."""
        checks = 0
        for are_whole in (False, True):
            edits = [it for it in self.waiting if it.meant or not are_whole]
            probes = edit_probes.Probes(self.crate.name, self.crate.folder, edits, are_whole=are_whole)
            if probes.made:
                said, _ = self.check_twins(probes, (), 1 if checks else jobs, ["--allow-holes"])
                checks += 1
                self.settle_probes(probes, said)
        return checks

    def settle_probes(self, probes, said):
        """Settles what a check of probes tells."""
        if said.has_judged:
            for it in probes.refused(said):
                self.settle(it.edit, Outcome(REFUSED, it.owner.path(), [probes.goal(it)]))
            for it, told in probes.lost(said):
                self.settle_lost(it, told)

    def settle_lost(self, twin, told):
        """Settles an edit whose twin has no proof; one that says a goal, only where that is at a clause."""
        if twin.edit in self.waiting and (told.is_refused or not twin.edit.meant):
            name, why = twin.owner.path(), "a proof file names what it takes away" if told.lacks_names else told.kind
            self.settle(twin.edit, Outcome(REFUSED, name, told.goals) if told.is_refused else Outcome(BY_NAME, why=f"{name}: {why}"))

    def check_twins(self, twins, left_out, jobs, words=()):
        """Checks a copy of the crate with twins, but those of some edits; returns what it said, and which edit each line of a twin is of."""
        with tempfile.TemporaryDirectory(prefix=f"rt-twins-{os.getpid()}-") as room:
            at = twins.lay(room, left_out)
            crate = copy.copy(self.crate)
            crate.folder = room
            only = [word for it in twins.made if it.edit.path not in left_out for word in ("--only", it.named().path())]
            for number in (jobs, 1):
                ran = self.rt.checked(crate, {}, ["--jobs", str(number), *only, *words], None if words else self.work)
                if ran.returncode != -signal.SIGKILL:
                    break
        return edit_told.read(self.crate.name, ran.stdout), at

    def controls(self, jobs):
        """Returns the twins that are not proved though nothing is edited in them, and the probes whose goals are not: what these are of would be told as refused
        whatever the edit. The other two results are how many twins and probes there are."""
        twins, probes = (kind(self.crate.name, self.crate.folder, self.waiting, are_edited=False) for kind in (edit_twins.Twins, edit_probes.Probes))
        said, _ = self.check_twins(twins, (), jobs)
        proved = lambda it: all(said.functions[name].is_proved for name in edit_told.names_of(said, it.named())) and edit_told.names_of(said, it.named())
        lost = [it for it in twins.made if not proved(it)]
        if probes.made:
            lost += probes.unproved(self.check_twins(probes, (), jobs, ["--allow-holes"])[0])
        return lost, len(twins.made), len(probes.made)

    def judge_twins(self, twins, said):
        """Settles those edits of which a twin is refused at a clause, and waits for nobody."""
        for twin in twins:
            found = {name: said.functions[name] for name in edit_told.names_of(said, twin.named())}
            refused = next((name for name, told in found.items() if told.is_refused), None)
            if refused and twin.edit in self.waiting and not any(told.calls for told in found.values()):
                self.settle(twin.edit, Outcome(REFUSED, edit_twins.original(refused), found[refused].goals))

    def meant_groups(self):
        """Returns the edits that say where they are to be refused, in groups of which each may be tried at once."""
        groups = []
        for edit in [it for it in self.waiting if it.meant]:
            found = next((it for it in groups if not edit.is_alone() and not it[0].is_alone() and edit.fits(it)), None)
            if found:
                found.append(edit)
            else:
                groups.append([edit])
        return groups

    def try_meant(self, jobs):
        """Settles the edits that a check of the functions that they are meant to meet refuses there; returns how many checks it took."""
        groups = self.meant_groups()
        for group in groups:
            functions = {it.path: it.meant.rpartition(": ")[0] for it in group}
            said = self.check_placed(group, sorted({*functions.values()}), jobs)
            for edit in group if said.has_judged else ():
                told = said.functions.get(functions[edit.path])
                if told and told.is_refused and said.calls_stubs(told):
                    self.settle(edit, Outcome(REFUSED, functions[edit.path], told.goals))
        return len(groups)

    def check_placed(self, edits, names, jobs):
        """Checks functions of a copy of the crate with edits in their places, over stubs; returns what it said."""
        with tempfile.TemporaryDirectory(prefix=f"rt-placed-{os.getpid()}-") as room:
            edit_probes.Probes(self.crate.name, self.crate.folder, []).lay_placed(room, edits)
            crate = copy.copy(self.crate)
            crate.folder = room
            ran = self.rt.checked(crate, {}, ["--jobs", str(jobs), *(word for it in names for word in ("--only", it)), "--allow-holes"], None)
        return edit_told.read(self.crate.name, ran.stdout)

    def spoiled(self, group, said):
        """Settles those of a group whose check ended before it judged: the edits at whose functions it found a fault, or one of them that is then alone."""
        guilty = {it.path: text for it in group for file, line, text in said.faults if self.is_near(it, file, line)}
        for edit in group:
            if edit.path in guilty:
                self.settle(edit, Outcome(BAD, why=f"it does not compile: {guilty[edit.path]}"))
            elif not guilty and len(group) == 1:
                self.settle(edit, Outcome(UNTOLD, why=f"the check ended with: {said.last}"))
            elif not guilty:
                self.tried[edit.path] = TRIES

    def is_near(self, edit, file, line):
        """Returns whether a line of a source stands in a function that the edit changes, or is changed by it."""
        owners = edit_files.owners_of(edit_files.read_file(f"{self.crate.folder}/{file}").split("\n"), file, edit_files.homes_of(self.crate.folder))
        return line in edit.changes.get(file, {}) or (line < len(owners) and owners[line] in edit.owners - {None})

    def blamed(self, said, group, calls):
        """Returns the functions changed by a group that are without a proof and that these calls lead to."""
        names = {name: owner for it in group for owner in it.owners if owner for name in edit_told.names_of(said, owner)}
        seen, left = set(), [*calls]
        while left:
            name = left.pop()
            if name not in seen:
                seen.add(name)
                left += said.functions[name].calls if name in said.functions else []
        return {names[it] for it in seen if it in names}

    def judge(self, group, said):
        """Settles what a check has told of, and notes what has to be tried apart."""
        for edit in group:
            outcome, calls = judged(said, edit, len(group) == 1)
            self.tried[edit.path] += 1
            if outcome.kind in SETTLED or len(group) == 1:
                self.settle(edit, outcome)
            else:
                self.apart[edit.path] |= self.blamed(said, group, calls) - edit.owners
        touched = {name for it in group for owner in it.owners if owner for name in edit_told.names_of(said, owner)}
        if not any(it.is_alone() for it in group):
            self.strange |= {name: told.goals for name, told in said.functions.items() if told.goals and name not in touched}

    def run(self, jobs):
        """Tries all, and returns what each came to, by its path."""
        checks = self.try_probes(jobs)
        checks += self.try_twins(jobs if not checks else 1)
        checks += self.try_meant(jobs if not checks else 1)
        while self.waiting:
            self.waiting.sort(key=lambda it: self.tried[it.path])
            group = self.group()
            said = self.check(group, jobs if not checks else 1)
            (self.judge if said.has_judged else self.spoiled)(group, said)
            checks += 1
        self.say(f"{self.crate.name}: {len(self.outcomes)} edits in {checks} checks")
        return self.outcomes


class Edits(start.Start):
    """The edits of some crates, tried once the libraries below each are there: proved, or taken from the kit's store."""

    def __init__(self, rt, top, names, anew=False, begins=True, controls=False):
        rows = start.listed()
        super().__init__(rt, top, {below for name in names for below in start.with_lower(rows, name)})
        self.of, self.anew, self.begins, self.results, self.tried = names, anew, begins, {}, 0
        self.work_of = self.try_controls if controls else self.try_edits

    def lower(self):
        """Returns the crates that have to be proved."""
        return {below for name in self.of for below in start.with_lower(start.listed(), name)[:-1]}

    def tasks(self):
        lower = self.lower()
        tasks = {key: it for key, it in super().tasks().items() if key[0] in lower}
        for name in self.of:
            crate = self.crates[name]
            call = lambda given, jobs, crate=crate: self.all_proved(crate, given) and self.behind(self.work_of, crate, jobs)
            tasks[name, TASK] = ([(it.name, start.PROOF) for it in crate.below()], 0, self.rt.need(crate), call)
        return tasks

    def behind(self, call, *given):
        """Does what nothing waits for, and returns what that gives."""
        return start.behind(call, *given)

    def all_proved(self, crate, given):
        return all(given[it.name, start.PROOF] for it in crate.below())

    def try_edits(self, crate, jobs):
        """Tries the edits of a crate that were not tried before, over what its own checks kept where there is such, and keeps what each came to."""
        edits, seen = edit_files.edits_of(self.rt, crate.folder), Seen(self.kept, crate, is_anew=self.anew)
        outcomes = {it.path: found for it in edits if (found := seen.known(it))}
        new = [it for it in edits if it.path not in outcomes]
        strange = {}
        if new:
            with self.work(crate) as work:
                trial = Trial(self.rt, crate, new, work, self.say)
                outcomes |= trial.run(jobs)
                strange = trial.strange
        for function, goals in strange.items():
            self.say(f"{crate.name}: {function} lost its proof beside edits of others: {', '.join(goals)}")
        for edit in new:
            seen.keep(edit, outcomes[edit.path])
        self.tried += len(new)
        self.results[crate.name] = [(it, outcomes[it.path]) for it in edits], strange, seen
        return True

    def try_controls(self, crate, jobs):
        """Checks a twin of each function that an edit changes and a probe of each goal that one is meant to meet, with nothing edited, and answers whether all are proved."""
        with self.work(crate) as work:
            lost, twins, probes = Trial(self.rt, crate, edit_files.edits_of(self.rt, crate.folder), work, self.say).controls(jobs)
        for it in lost:
            self.say(f"{crate.name}: {it.named().path()} has no proof, with nothing edited")
        self.say(f"{crate.name}: {twins} twins and {probes} probes, {len(lost)} without a proof")
        return not lost

    @contextlib.contextmanager
    def work(self, crate):
        """Lends a folder in which checks of a crate keep what they proved; it begins with what `rt check` kept, where that may be trusted."""
        with tempfile.TemporaryDirectory(prefix=f"rt-edits-{os.getpid()}-") as room:
            begin = self.rt.work_for(crate) if self.begins else None
            with contextlib.suppress(OSError, shutil.Error):
                if begin:
                    self.rt.linked(begin, f"{room}/work")
            os.makedirs(f"{room}/work", exist_ok=True)
            yield f"{room}/work"


def of_crate(name, edits, strange, writes):
    """Prints what the edits of a crate came to, and returns how many passed and failed."""
    failed = 0
    for edit, outcome in edits:
        if writes and outcome.kind == REFUSED and not outcome.meets(edit.meant):
            edit_files.note(f"{start.ROOT}/{edit.inside}", outcome.place())
        wrong = outcome.kind == REFUSED and edit.meant and not writes and not outcome.meets(edit.meant)
        failed += bool(wrong) or outcome.kind not in (REFUSED, BY_NAME)
        words = f" ELSEWHERE, and not at {edit.meant}" if wrong else "" if edit.meant else " (it says no clause)"
        print(f"edit {name}/{edit.name}: {outcome.text()}{words}")
    for function, goals in strange.items():
        print(f"edits of {name}: {function} lost its proof ({', '.join(goals)}), though no edit beside it changes it")
    return len(edits) - failed, failed


def with_edits(names):
    """Returns those of these crates that have edits."""
    folders = {it: [f"{start.ROOT}/crates/{it}/{part}" for part in edit_files.FOLDERS] for it in names}
    return [it for it, found in folders.items() if any(os.path.isdir(at) and any(file.endswith(".edit") for file in os.listdir(at)) for at in found)]


def report(results, writes, after):
    """Prints all that was told and the closing line, and returns the status."""
    passed, failed = (int(it) for it in re.fullmatch(r"(\d+) passed, (\d+) failed.*", after).groups())
    for name, (edits, strange, _) in sorted(results.items()):
        well, ill = of_crate(name, edits, strange, writes)
        passed, failed = passed + well, failed + ill
    print(f"{passed} passed, {failed} failed")
    return 1 if failed else 0


def main():
    words = argparse.ArgumentParser(description=__doc__, formatter_class=argparse.RawDescriptionHelpFormatter)
    words.add_argument("crates", nargs="*", metavar="CRATE", help="try the edits of these crates, in place of all")
    words.add_argument("--write", action="store_true", help="write the lines `at:` from what the check says")
    words.add_argument("--note", action="store_true", help=f"write the outcomes seen into {NOTED}")
    words.add_argument("--anew", action="store_true", help="try each, also those of which nothing has changed")
    words.add_argument("--controls", action="store_true", help="try no edit: check twins and probes with nothing edited, all of which have to be proved")
    words.add_argument("--after", metavar="LINE", default="0 passed, 0 failed", help="the last line of the tests before these")
    given = words.parse_args()
    for it in given.crates:
        if it not in start.listed():
            words.error(f"crates.txt has no crate {it}")
    names = with_edits(given.crates or start.listed())
    for it in (signal.SIGTERM, signal.SIGHUP, signal.SIGINT):
        signal.signal(it, start.end)
    rt = start.kit()
    with start.workplace(rt) as top:
        run = Edits(rt, top, names, given.anew, controls=given.controls)
        if not run.run():
            return 1
        if given.controls:
            return 0
        if given.note:
            note_all(run.results)
        print(f"edits: {run.tried} tried now, {sum(len(it[0]) for it in run.results.values()) - run.tried} as seen before")
        return report(run.results, given.write, given.after)


if __name__ == "__main__":
    sys.exit(main())
