#!/usr/bin/env python3
"""Proves and builds the missing parts of `domserve`, or of other crates, and shows its progress on standard error.

Each crate is proved as `rt ci` proves it: from nothing, over the statements of the crates below it. Crates that do not depend on each other are proved side
by side, as far as there are processors and memory. Proofs are kept in the kit's own store on this machine, by the sums of all files that were read. Later
starts, the gate, and other copies of the repository find them there, so a start that was cut off continues. The program, or an archive, is then in
crates/NAME/out, beside the sum of its sources. The work is done in a copy, so files may change meanwhile.

A kit that has no store leaves proved crates under crates/NAME/out. There a start works in place, and takes the results of the gate or of an earlier start
for the same files.
"""
import argparse
import concurrent.futures
import contextlib
import copy
import functools
import hashlib
import importlib.machinery
import importlib.util
import os
import shutil
import signal
import subprocess
import sys
import tempfile
import threading
import time

from progress import Figures, Progress

ROOT = os.path.dirname(os.path.dirname(os.path.realpath(__file__)))
PROGRAM = "domserve"
# The name in `rt` of the task that proves a crate.
PROOF = "proof"
# The seconds of any proof, and the lines a second, if no earlier proof of the crate was timed; and the least seconds of a proof that is timed.
LEAST, RATE, KEPT = 20, 7, 5
# The niceness of tasks for which nothing waits.
BEHIND = 10
# The targets of a program and a static library: this machine, and the other processor of a release.
HERE, ARM = "x86_64-unknown-linux-gnu", "aarch64-unknown-linux-gnu"
# A clang that keeps the code that it is given, as text or not, and the words that it was called with, a line each.
KEEPER = """\
#!/bin/sh
for it in "$@"; do
    case "$it" in *.bc | *.ll) cp "$it" '{kept}' ;; esac
done
printf '%s\\n' "$@" >'{kept}.words'
exec '{clang}' "$@"
"""


@functools.lru_cache(maxsize=None)
def kit():
    """Returns the kit's program `rt`, as a module."""
    try:
        page = subprocess.run(["rt", "doc"], capture_output=True, text=True, check=True).stdout.strip()
    except (OSError, subprocess.CalledProcessError):
        sys.exit(f"{PROGRAM}: there is no rt here: the Rattle kit proves and builds the program")
    sys.dont_write_bytecode = True
    loader = importlib.machinery.SourceFileLoader("rt", f"{os.path.dirname(page)}/bin/rt")
    rt = importlib.util.module_from_spec(importlib.util.spec_from_loader("rt", loader))
    loader.exec_module(rt)
    rt.rtlib.Crate = rt.Crate
    rt.Crate.cuts_libraries = True
    rt.rtlib.guarded()
    if not hasattr(rt, "Kept"):
        # (a kit without a store has no kept work of a crate, with which the tries of its edits could begin)
        rt.work_for = lambda crate: None
        # (a cut library has no stamp, and this kit would sum all files along each path below a crate for it: minutes)
        rt.Crate.stamp = lambda crate: ""
    return rt


def rows():
    """Returns for each crate of crates.txt the libraries that it lists."""
    with open(f"{ROOT}/crates.txt", encoding="utf-8") as it:
        found = [line.partition("#")[0].partition(":") for line in it]
    return {head.split()[0]: deps.split() for head, _, deps in found if head.strip()}


def listed():
    """Returns for each crate of crates.txt the crates of this repository that it lists."""
    found = rows()
    return {name: [dep for dep in deps if dep in found] for name, deps in found.items()}


def with_lower(rows, name):
    """Returns a crate and those below it, each after the crates that it depends on."""
    found = []
    for dep in rows[name]:
        found += [it for it in with_lower(rows, dep) if it not in found]
    return [*found, name]


def sum_of(names):
    """Returns a sum of all files that these crates are proved of."""
    total = hashlib.sha256()
    parts = [f"{ROOT}/crates/{name}/{part}" for name in names for part in ("src", "specs", "proofs")]
    files = [f"{at}/{it}" for part in parts for at, _, found in os.walk(part) for it in found]
    for file in sorted([f"{ROOT}/crates.txt", *files]):
        with open(file, "rb") as it:
            total.update(f"{os.path.relpath(file, ROOT)} {hashlib.sha256(it.read()).hexdigest()}\n".encode())
    return total.hexdigest()


def built(name):
    """Returns the file that a program or a static library is built into, and the file beside it that has the sum of its sources."""
    file = f"{ROOT}/crates/{name}/out/{name}"
    return file, f"{file}.sum"


def code_of(name, target=HERE):
    """Returns the file of the LLVM code of a program or a static library, which is beside it. NAME.words has the words that clang was called with."""
    return f"{built(name)[0]}{'' if target == HERE else '.' + target.partition('-')[0]}.bc"


def target_of(crate):
    """Returns the target that a crate is proved and compiled for."""
    return getattr(crate, "target", HERE)


def for_target(crate, target):
    """Returns a crate as it is proved and compiled for a target."""
    found = copy.copy(crate)
    found.target = target
    return found


def told(crate):
    """Returns the name of a crate in messages."""
    return crate.name if target_of(crate) == HERE else f"{crate.name} for {target_of(crate).partition('-')[0]}"


def toolchain(kit, to, kept):
    """Makes a folder like the kit's toolchain, whose clang leaves the code that it is given in a file."""
    theirs = f"{kit}/toolchain"
    os.makedirs(f"{to}/bin")
    os.symlink(f"{theirs}/lib", f"{to}/lib")
    for it in os.listdir(f"{theirs}/bin"):
        if it != "clang":
            os.symlink(f"{theirs}/bin/{it}", f"{to}/bin/{it}")
    with open(f"{to}/bin/clang", "w", encoding="utf-8") as file:
        file.write(KEEPER.format(kept=kept, clang=f"{theirs}/bin/clang"))
    os.chmod(f"{to}/bin/clang", 0o755)
    return to


def noted_of(name, target=HERE):
    """Returns the file that has the sum of the proved sources, for a target."""
    return built(name)[1] if target == HERE else f"{code_of(name, target)}.sum"


def is_fresh(name, target=HERE, has_code=False):
    """Returns whether a crate is built of the files that are there; with its code, if that is asked for."""
    code, noted = code_of(name, target), noted_of(name, target)
    files = [*([built(name)[0]] if target == HERE else []), *([code, f"{code}.words"] if has_code or target != HERE else []), noted]
    if not all(map(os.path.isfile, files)):
        return False
    with open(noted, encoding="utf-8") as it:
        return it.read() == sum_of(with_lower(listed(), name))


def written(path):
    """Returns when a file or a folder was last written; a missing one is older than all others."""
    return os.path.getmtime(path) if os.path.exists(path) else 0


class Left:
    """The results that a kit without a store left of crates under their out/. They are good if they are newer than all their sources."""

    at = None

    def __init__(self, rt):
        self.rt, self.written = rt, {}

    def key(self, crate):
        parts = [f"{crate.folder}/{part}" for part in ("src", "specs", "proofs")]
        files = [f"{at}/{it}" for part in parts for at, _, found in os.walk(part) for it in found]
        return max(map(written, [f"{ROOT}/crates.txt", *files]))

    @contextlib.contextmanager
    def in_turn(self, crate, tests, key):
        yield

    def made(self, crate):
        """Returns when the files were written that a proof of a crate leaves: of a program or a static library, or a library without a stamp. Those with one
        are built by other commands."""
        if not crate.makes_rlib():
            return min(written(f"{crate.folder}/out/{it}") for it in files_of(self.rt, crate))
        return 0 if os.path.exists(f"{os.path.dirname(crate.rlib)}/stamp") else written(crate.rlib)

    def give(self, crate, tests, key):
        return self.made(crate) > max([key, *(self.written[it.name] for it in crate.below())])

    def keep(self, crate, tests, key):
        self.written[crate.name] = self.made(crate)

    def is_built(self, crate):
        self.keep(crate, False, None)

    def shrink(self):
        """Drops nothing: these results are in the repository's own folders."""


def files_of(rt, crate):
    """Returns the files of out/ that the store keeps for a program or a static library: those linked here, and its code with clang's words."""
    if crate.is_wasm:
        return [crate.name]
    linked = [crate.name] if crate.is_static else [crate.name + it for it in rt.BACKENDS.values()]
    code = os.path.basename(code_of(crate.name, target_of(crate)))
    return [*(linked if target_of(crate) == HERE else []), code, f"{code}.words"]


def store(rt, crates):
    """Returns the kit's store. Here it also keeps the code of a program and of a static library, and the library's archive as out/NAME."""
    if not hasattr(rt, "Kept"):
        return Left(rt)

    class Store(rt.Kept):
        def key(self, crate):
            found = super().key(crate)
            return found if crate.makes_rlib() else hashlib.sha256(f"code and words for {target_of(crate)} {found}".encode()).hexdigest()

        def made(self, crate, tests):
            if tests or crate.makes_rlib():
                return super().made(crate, tests)
            return [it for it in files_of(rt, crate) if os.path.isfile(f"{crate.folder}/out/{it}")]

        def is_whole(self, crate, tests, files):
            return super().is_whole(crate, tests, files) if tests or crate.makes_rlib() else files == files_of(rt, crate)

        def keep(self, crate, tests, key):
            super().keep(crate, tests, key)
            if not crate.makes_rlib() and target_of(crate) == HERE:
                # (the gate's own entry: for a static library it has no file, and shows that the crate was proved)
                self.verdicts.keep(crate, tests, self.verdicts.key(crate))

        def is_built(self, crate):
            super().is_built(crate)
            self.verdicts.is_built(crate)

    kept = Store(crates)
    kept.verdicts = rt.Kept(crates)
    return kept


class Start:
    """One start, over a copy of the crates: the crates to prove, and the progress. Programs and static libraries are proved for further targets as well."""

    further = ()

    def __init__(self, rt, top, names):
        self.rt, self.names = rt, names
        rt.Crate.allowed = rt.handles_of(top)
        self.crates = {it.name: it for it in rt.rtlib.crates_below(top) if it.name in names}
        self.kept = store(rt, [*self.crates.values()])
        self.proved, self.done, self.sizes = set(), 0, {}
        self.began, self.saying, self.progress = time.monotonic(), threading.Lock(), None

    def say(self, text):
        passed = int(time.monotonic() - self.began)
        with self.saying:
            if self.progress:
                self.progress.clear()
            print(f"{PROGRAM}: {text} ({passed // 60}:{passed % 60:02})", file=sys.stderr, flush=True)

    def count(self):
        """Returns how many proofs there are."""
        return len(self.names) + len(self.further) * sum(not it.makes_rlib() for it in self.crates.values())

    def build(self, crate, jobs):
        """Proves a crate from nothing, and returns whether it is proved. A static library's archive is then out/NAME."""
        flags = ["--jobs", str(jobs)]
        return not (crate.ci(flags, False) if crate.makes_rlib() else self.build_top(crate, flags))

    def build_top(self, crate, flags):
        """Proves a program or a static library as the gate does, and builds it of that check's result, so that neither proves it a second time. The code that
        clang is given is kept."""
        flags += ["--target", target_of(crate)] if target_of(crate) != HERE else []
        words = crate.words(flags, keeps=False)
        with tempfile.TemporaryDirectory(prefix=f"rt-proved-{os.getpid()}-") as room:
            status = crate.prove(["check", *words, "-o", f"{room}/checked"])
            for flag in ("--logic-built", "--jobs"):
                at = words.index(flag)
                words = [*words[:at], *words[at + 2 :]]
            words += ["--crate-checked", f"{room}/checked"]
            made = toolchain(self.rt.KIT, f"{room}/toolchain", f"{crate.folder}/out/{os.path.basename(code_of(crate.name, target_of(crate)))}")
            return status or self.compile(crate, words, made, f"{room}/object")

    def compile(self, crate, words, made, to):
        """Compiles a proved crate: for this machine to the linked file, for another target to an object that is thrown away."""
        if crate.is_program and target_of(crate) == HERE:
            # (Rattle's own compiler has no part in the code that is kept)
            by_llvm = crate.compile_by("llvm", [*words, "--toolchain", made], f"out/{crate.name}")
            return by_llvm or crate.compile_by("rattle", [*words, "--toolchain", f"{self.rt.KIT}/toolchain"], f"out/{crate.name}")
        to = f"out/{crate.name}" if target_of(crate) == HERE else to
        return crate.call(self.rt.rtlib.RATTLE, "build", *words, "--toolchain", made, "--backend", "llvm", "-o", to)

    def take_or_build(self, crate, jobs):
        """Takes a crate from the store, or proves it and keeps it there. Returns whether it is proved, and whether it was kept already."""
        key = self.kept.key(crate)
        with self.kept.in_turn(crate, False, key):
            was_kept = self.kept.give(crate, False, key)
            is_proved = was_kept or self.build(crate, jobs)
            if is_proved and not crate.is_static:
                self.kept.is_built(crate)
            if is_proved and not was_kept:
                self.kept.keep(crate, False, key)
        return is_proved, was_kept

    def is_ready(self, crate):
        """Returns whether a crate may be proved now, or is being proved, and others wait for it."""
        return crate.name not in self.proved and all(it.name in self.proved for it in crate.below())

    def size(self, crate):
        """Returns how many bytes a crate is proved of."""
        if crate.name not in self.sizes:
            parts = [f"{crate.folder}/{part}" for part in ("src", "specs", "proofs")]
            self.sizes[crate.name] = sum(os.path.getsize(f"{at}/{it}") for part in parts for at, _, found in os.walk(part) for it in found)
        return self.sizes[crate.name]

    def threads(self, crate, jobs):
        """Returns how many threads a proof gets: as many as the kit reckons, or, if memory suffices, the share of the processors that its text has among the
        crates that are ready."""
        # (each thread is a copy that reads anew what the others have read: four take up to two thirds more processor time than one)
        ready = sum(self.size(it) for it in self.crates.values() if self.is_ready(it))
        share = -(-self.rt.processors() * self.size(crate) // max(1, ready))
        # (the kit reckons at least twice what a check was seen to take, and six tenths of that for each further thread)
        most = int(1 + (2 * self.rt.free() / self.rt.need(crate) - 1) / 0.6)
        return max(jobs, min(share, most))

    def prove(self, crate, given, jobs):
        """Proves and builds one crate if all below it are proved, and returns whether it is."""
        if not all(given[it.name, PROOF] for it in crate.below()):
            return False
        crate, jobs = copy.copy(crate), self.threads(crate, jobs)
        os.makedirs(f"{crate.folder}/out", exist_ok=True)
        with tempfile.TemporaryFile("w+", encoding="utf-8", errors="replace") as crate.out:
            is_proved, was_kept = self.take_or_build(crate, jobs)
            if not is_proved:
                self.tell_why(crate)
                return False
        self.proved.add(told(crate))
        self.done += 1
        self.say(f"{self.done} of {self.count()} {'kept' if was_kept else 'proved'}: {told(crate)}")
        return True

    def tell_why(self, crate):
        crate.out.seek(0)
        lines = [it for it in crate.out if not it.startswith(("statements ", "library ")) and not it.endswith(": proved\n")]
        print("".join(lines[-20:]), end="", file=sys.stderr)
        self.say(f"{crate.name} was not proved: rt check in crates/{crate.name} says more")

    def tasks(self):
        """Returns the tasks: each crate is proved once those below it are."""
        tasks = {}
        for crate in self.crates.values():
            tasks[crate.name, PROOF] = self.task(crate)
        for target in self.further:
            tops = [it for it in self.crates.values() if not it.makes_rlib()]
            tasks.update(((it.name, f"{PROOF} for {target}"), self.task(for_target(it, target))) for it in tops)
        return tasks

    def task(self, crate):
        call = lambda given, jobs: self.prove(crate, given, jobs)
        return ([(it.name, PROOF) for it in crate.below()], crate.count(rb"\n"), self.rt.need(crate), call)

    def timed(self, key, task, figures):
        """Returns a task that reports when it begins and ends. Its time is kept beside the kit's store."""
        waits, lines, memory, call = task
        name = " ".join(key)

        def work(given, jobs):
            began = time.monotonic()
            self.progress.begin(name)
            found = call(given, jobs)
            self.progress.end(name)
            if found and time.monotonic() - began > KEPT:
                figures.keep(name, time.monotonic() - began)
            return found

        return waits, lines, memory, work

    def run(self):
        """Does the tasks, in the kit's order, and returns whether all succeeded. Meanwhile it shows its progress."""
        tasks, figures = self.tasks(), Figures(f"{getattr(self.rt, 'STORE', ROOT + '/out')}/seconds.json")
        seconds = {" ".join(key): figures.of.get(" ".join(key), LEAST + self.crates[key[0]].count(rb"\n") / RATE) for key in tasks}
        self.progress = Progress(PROGRAM, seconds, self.rt.processors())
        with self.progress:
            given = self.rt.in_lanes({key: self.timed(key, it, figures) for key, it in tasks.items()})
        self.kept.shrink()
        return all(given.values())


def behind(call, *given):
    """Returns a call's result. All that the call starts runs at a lower priority, since nothing waits for it."""

    def yields():
        with contextlib.suppress(OSError):
            os.setpriority(os.PRIO_PROCESS, threading.get_native_id(), BEHIND)

    # (a thread of its own: without rights no thread can get its priority back)
    with concurrent.futures.ThreadPoolExecutor(1, initializer=yields) as pool:
        return pool.submit(call, *given).result()


def end(number, _):
    """Ends this start with all processes that it has begun."""
    signal.signal(number, signal.SIG_DFL)
    os.killpg(os.getpgrp(), number)


def bring(top, name, target=HERE):
    """Copies the built files and their code into the crate's own out/, with the sum of their sources, which is written last and is never beside other files."""
    noted, code = noted_of(name, target), code_of(name, target)
    files = [*([built(name)[0]] if target == HERE else []), code, f"{code}.words"]
    made = {to: f"{top}/crates/{name}/out/{os.path.basename(to)}" for to in files}
    os.makedirs(os.path.dirname(noted), exist_ok=True)
    if any(os.path.isfile(it) and it != to for to, it in made.items()):
        with contextlib.suppress(FileNotFoundError):
            os.remove(noted)
    for to, it in made.items():
        if os.path.isfile(it) and it != to:
            shutil.copy(it, f"{to}.new")
            os.replace(f"{to}.new", to)
    if os.path.isfile(files[0]):
        with open(f"{noted}.new", "w", encoding="utf-8") as it:
            it.write(sum_of(with_lower(listed(), name)))
        os.replace(f"{noted}.new", noted)


@contextlib.contextmanager
def workplace(rt):
    """Yields the folder that a start works in: a copy of the crates, or the repository itself if the kit has no store."""
    if not hasattr(rt, "Kept"):
        yield ROOT
        return
    rt.sweep()
    with tempfile.TemporaryDirectory(prefix=f"rt-copy-{os.getpid()}-") as room:
        rt.copy_crates(ROOT, f"{room}/repository")
        os.mkdir(f"{room}/repository/.git")
        yield f"{room}/repository"


def start(names, further=(), has_code=False):
    """Proves these crates and those below them, and builds them; also for further targets, and with their code, if that is asked for. Returns whether all are
    proved."""
    missing = [it for it in names if not is_fresh(it, HERE, has_code) or not all(is_fresh(it, target) for target in further)]
    if not missing:
        return True
    rt, rows = kit(), listed()
    before = sum_of(rows)
    with workplace(rt) as top:
        wanted = {it for name in missing for it in with_lower(rows, name)}
        run = Start(rt, top, wanted)
        run.further = further
        run.say(f"proving {', '.join(missing)} and the crates below, {len(wanted)} in all, once")
        is_proved = run.run()
        if is_proved and sum_of(rows) == before:
            for name in missing:
                bring(top, name)
                for target in further:
                    bring(top, name, target)
    return is_proved


def main():
    words = argparse.ArgumentParser(description=__doc__, formatter_class=argparse.RawDescriptionHelpFormatter)
    words.add_argument("crates", nargs="*", metavar="CRATE", help="prove these crates and those below them, in place of the program")
    names = words.parse_args().crates or [PROGRAM]
    for it in names:
        if it not in listed():
            words.error(f"crates.txt has no crate {it}")
    for it in (signal.SIGTERM, signal.SIGHUP, signal.SIGINT):
        signal.signal(it, end)
    if not start(names):
        return 1
    for it in names:
        if is_fresh(it):
            print(built(it)[0])
    return 0


if __name__ == "__main__":
    sys.exit(main())
