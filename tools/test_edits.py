#!/usr/bin/env python3
"""The tests of tools/edits.py, over a crate of six functions that is made here. Edits that are refused, let through, bad, or refused elsewhere are reported so.

The last line is `N passed, M failed`.
"""
import argparse
import os
import re
import shutil
import subprocess
import sys
import tempfile

HERE = os.path.dirname(os.path.realpath(__file__))
SCRIPTS = ("start.py", "progress.py", "edits.py", "edit_files.py", "edit_probes.py", "edit_sums.py", "edit_told.py", "edit_twins.py")
SOURCE = """//! Six functions: one promises nothing, and one is of a type that another file declares.
#![tactic(auto)]

mod pair;

pub use pair::Pair;

ghost use Rattle.std.specs.Prelude.{◌≡◌, ◌≤◌, ◌+◌};

const MORE: u8 = 3;

/// One more.
pub fn next(n: u8) -> u8
    requires { n ≤ 253 }
    ensures { result ≡ n + 1 }
{
    n + 1
}

/// Two more.
pub fn second(n: u8) -> u8
    requires { n ≤ 200 }
    ensures { result ≡ n + 2 }
{
    next(next(n))
}

/// Three more.
pub fn third(n: u8) -> u8
    requires { n ≤ 200 }
    ensures { result ≡ n + 3 }
{
    n + MORE
}

/// The larger.
pub fn larger(n: u8, other: u8) -> u8
    ensures left { n ≤ result }
    ensures right { other ≤ result }
{
    if n < other { other } else { n }
}

/// Anything.
pub fn any(n: u8) -> u8 {
    n / 2
}

impl Pair {
    /// The first of two.
    pub fn first(&self) -> u8
        ensures { result ≡ self.now.one }
    {
        self.one
    }
}
"""
PAIR = """//! Two numbers.

/// Two numbers.
pub struct Pair {
    /// The first.
    pub one: u8,
    /// The second.
    pub other: u8,
}
"""
# The edits: the old text, the new text, the words of the line `at:`, and the beginning of the expected report.
EDITS = {
    "next_adds_nothing": ("    n + 1", "    n", "next: returns", "refused at next: returns"),
    "next_adds_two": ("    n + 1", "    n + 2", "next: returns", "refused at next: returns"),
    "second_adds_one": ("next(next(n))", "next(n)", "second: returns", "refused at second: returns"),
    "second_is_spelled_wrong": ("next(next(n))", "next(nxt(n))", "second: returns", "BAD: it does not compile: unknown-name: "),
    "third_adds_four": ("u8 = 3;", "u8 = 4;", "third: returns", "refused at third: returns"),
    "smaller_at_a_clause": ("if n < other", "if n > other", "larger: returns-then-n-other-clause-left", "refused at larger: "),
    "larger_at_no_such_clause": ("if n < other", "if n > other", "larger: returns-clause-middle", "refused at larger: "),
    "larger_the_other_way": ("if n < other", "if n <= other", "larger: returns", "LET THROUGH: the crate is proved with it"),
    "first_is_the_other": ("        self.one", "        self.other", "pair::Pair::first: returns", "refused at pair::Pair::first: returns"),
    "any_of_none": ("    n / 2", "    n / 3", "any: returns", "LET THROUGH: the crate is proved with it"),
    "nowhere": ("n + 17", "n", "next: returns", "BAD: an 'old:' text is in src/lib.rt 0 times, and not once"),
}
ELSEWHERE = "larger_at_no_such_clause"
FAILED = {"second_is_spelled_wrong", "larger_the_other_way", "any_of_none", "nowhere", ELSEWHERE}


def laid(room):
    """Lays a repository with the one crate and its edits into a folder."""
    os.makedirs(f"{room}/tools")
    os.makedirs(f"{room}/crates/small/src")
    os.makedirs(f"{room}/crates/small/edits")
    for name in SCRIPTS:
        shutil.copy(f"{HERE}/{name}", f"{room}/tools/{name}")
    texts = {"crates.txt": "small:\n", "HANDLES": "Handles allowed: none.\n", "crates/small/src/lib.rt": SOURCE, "crates/small/src/pair.rt": PAIR}
    for name, (old, new, meant, _) in EDITS.items():
        texts[f"crates/small/edits/{name}.edit"] = f"file: src/lib.rt\nold: {old}\nnew: {new}\nat: {meant}\n"
    for path, text in texts.items():
        with open(f"{room}/{path}", "w", encoding="utf-8") as it:
            it.write(text)


def run(room, *words):
    return subprocess.run([sys.executable, f"{room}/tools/edits.py", "small", *words], capture_output=True, text=True, check=False)


def of_twins(room):
    """Runs the edits that are refused where they are meant to be, which take a check of probes and one of the edits without. Then runs the controls: twins and
    probes with nothing edited. Returns the faults."""
    for name in FAILED:
        os.remove(f"{room}/crates/small/edits/{name}.edit")
    said = run(room, "--anew").stderr
    faults = [] if f"{len(EDITS) - len(FAILED)} edits in 2 checks" in said else ["the edits that are refused take more than two checks"]
    said = run(room, "--controls")
    return faults + ([] if said.returncode == 0 and "4 twins and 4 probes, 0 without a proof" in said.stderr else [f"a twin or a probe with nothing edited is not proved: {said.stderr}"])


def main():
    argparse.ArgumentParser(description=__doc__, formatter_class=argparse.RawDescriptionHelpFormatter).parse_args()
    with tempfile.TemporaryDirectory(prefix="edits-") as room:
        laid(room)
        ran = run(room, "--anew")
        told = dict(re.findall(r"^edit small/(\w+)\.edit: (.*)$", ran.stdout, re.M))
        faults = of_twins(room)
    faults += [f"{name}: told {told.get(name)!r}, and not {wanted!r}" for name, (_, _, _, wanted) in EDITS.items() if not told.get(name, "").startswith(wanted)]
    faults += [f"{name}: {told.get(name)!r} says nothing of another place"] if "ELSEWHERE" not in told.get((name := ELSEWHERE), "") else []
    closing, wanted = ran.stdout.rstrip("\n").rpartition("\n")[2], f"{len(EDITS) - len(FAILED)} passed, {len(FAILED)} failed"
    faults += [f"the last line is {closing!r}, and not {wanted!r}"] if closing != wanted or ran.returncode != 1 else []
    for it in faults:
        print(f"FAILED {it}")
    if faults:
        print(ran.stdout, ran.stderr, sep="\n")
    print(f"{len(EDITS) + 4 - len(faults)} passed, {len(faults)} failed")
    return 1 if faults else 0


if __name__ == "__main__":
    sys.exit(main())
