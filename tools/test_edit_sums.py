#!/usr/bin/env python3
"""The tests of tools/edit_sums.py, over two crates that are made here: after each kind of change, exactly the edits that may depend on it are tried anew.

The last line is `N passed, M failed`.
"""
import argparse
import os
import sys
import tempfile

import edit_files
import edit_sums

LOW = """//! The crate below.
ghost use Rattle.low.specs.Low.{IsSmall};

/// Returns the number, halved.
pub fn base(n: u8) -> u8
    ensures { IsSmall result }
{
    inner(n)
}

fn inner(n: u8) -> u8
    ensures { IsSmall result }
{
    n / 2
}
"""
HIGH = """//! The crate above.
ghost use Rattle.high.specs.High.{IsNear};

/// Returns one more.
pub fn one(n: u8) -> u8
    requires { n ≤ 100 }
    ensures { IsNear n result }
{
    base(n) + 1
}

/// Returns two more.
pub fn two(n: u8) -> u8
    requires { n ≤ 99 }
    ensures { IsNear n result }
{
    n + 2 + nothing(n)
}

fn nothing(n: u8) -> u8
    requires { n ≤ 200 }
{
    n - n
}

struct Pair(u8);
"""
FILES = {
    "crates/low/src/lib.rt": LOW,
    "crates/low/specs/Low.antt": "IsSmall : ℕ → Prop\n",
    "crates/high/src/lib.rt": HIGH,
    "crates/high/specs/High.antt": "IsNear : ℕ → ℕ → Prop\n",
    "crates/high/proofs/one/Answers.antt": "use Rattle.high.proofs.{Lemmas.near-next}\nreturns = near-next\n",
    "crates/high/proofs/two/Answers.antt": "returns = search\n",
    "crates/high/proofs/Lemmas.antt": "use Rattle.high.proofs.Deeper.{near-self}\nnear-next = near-self\n",
    "crates/high/proofs/Deeper.antt": "near-self = refl\n",
    "crates/high/edits/one_adds_none.edit": "file: src/lib.rt\nold: base(n) + 1\nnew: base(n)\nat: one: returns\n",
    "crates/high/edits/two_adds_one.edit": "file: src/lib.rt\nold: n + 2\nnew: n + 1\nat: two: returns\n",
}
ONE, TWO = "one_adds_none.edit", "two_adds_one.edit"
ROWS = {"low": [], "high": ["low", "indexmap"]}
# The changes: the file, the old text, the new text, and the edits that are tried anew.
CHANGES = {
    "a body": ("crates/high/src/lib.rt", "    n + 2", "    2 + n", {TWO}),
    "its contract": ("crates/high/src/lib.rt", "n ≤ 99", "n ≤ 98", {TWO}),
    "a contract that is called": ("crates/high/src/lib.rt", "n ≤ 200", "n ≤ 199", {TWO}),
    "a type": ("crates/high/src/lib.rt", "struct Pair(u8)", "struct Pair(u16)", {ONE, TWO}),
    "an answer": ("crates/high/proofs/one/Answers.antt", "returns = near-next", "returns = near-next-of", {ONE}),
    "an answer of another": ("crates/high/proofs/two/Answers.antt", "search", "grind", {TWO}),
    "a lemma": ("crates/high/proofs/Lemmas.antt", "near-next = near-self", "near-next = near-other", {ONE}),
    "a lemma below it": ("crates/high/proofs/Deeper.antt", "refl", "search", {ONE}),
    "a definition": ("crates/high/specs/High.antt", "ℕ → ℕ → Prop", "ℕ → ℕ → Bool", {ONE, TWO}),
    "a public contract below": ("crates/low/src/lib.rt", "pub fn base(n: u8) -> u8\n    ensures { IsSmall result }", "pub fn base(n: u8) -> u8", {ONE}),
    "a definition below": ("crates/low/specs/Low.antt", "ℕ → Prop", "ℕ → Bool", {ONE, TWO}),
    "a body below": ("crates/low/src/lib.rt", "    inner(n)\n", "    n / 2\n", set()),
    "a new function": ("crates/high/src/lib.rt", "/// Returns two more.", "/// Returns three more.\npub fn three(n: u8) -> u8\n    requires { n ≤ 98 }\n{\n    n + 3\n}\n\n/// Returns two more.", set()),
    "a new function below": ("crates/low/src/lib.rt", "fn inner(", "pub fn other(n: u8) -> u8 {\n    n\n}\n\nfn inner(", set()),
    "a private contract below": ("crates/low/src/lib.rt", "fn inner(n: u8) -> u8\n    ensures { IsSmall result }", "fn inner(n: u8) -> u8", set()),
    "a comment": ("crates/high/src/lib.rt", "/// Returns one more.", "/// Returns the next number.", set()),
    "a comment below": ("crates/low/src/lib.rt", "//! The crate below.", "//! The lower crate.", set()),
    "the edit": ("crates/high/edits/two_adds_one.edit", "n + 1", "n + 3", {TWO}),
}


class Reader:
    """Reads edits as the kit does."""

    @staticmethod
    def read_edit(path, folder):
        lines = edit_files.read_file(path).split("\n")
        file, old, new = (next(it.removeprefix(head) for it in lines if it.startswith(head)) for head in ("file: ", "old: ", "new: "))
        return {file: edit_files.read_file(f"{folder}/{file}").replace(old, new, 1)}, ""


def lay(root, files):
    for path, text in files.items():
        os.makedirs(os.path.dirname(f"{root}/{path}"), exist_ok=True)
        with open(f"{root}/{path}", "w", encoding="utf-8") as file:
            file.write(text)


def sums(files, kit="a kit", tools="the tools"):
    """Returns the sum of each edit of the crate above."""
    with tempfile.TemporaryDirectory(prefix="edit-sums-") as root:
        lay(root, files)
        sources = edit_sums.Sources(root, ROWS)
        edits = edit_files.edits_of(Reader, f"{root}/crates/high")
        return {it.name: edit_sums.sum_of(sources, "high", it, kit, tools) for it in edits}


def changed(before, after):
    return {name for name in before if before[name] != after[name]}


def main():
    argparse.ArgumentParser(description=__doc__, formatter_class=argparse.RawDescriptionHelpFormatter).parse_args()
    before, seen = sums(FILES), {}
    for name, (path, old, new, _) in CHANGES.items():
        assert FILES[path].count(old) == 1, name
        seen[name] = changed(before, sums({**FILES, path: FILES[path].replace(old, new)}))
    seen["nothing"] = changed(before, sums(FILES))
    seen["the kit"] = changed(before, sums(FILES, kit="another kit"))
    seen["a tool"] = changed(before, sums(FILES, tools="other tools"))
    wanted = {**{name: it[3] for name, it in CHANGES.items()}, "nothing": set(), "the kit": {ONE, TWO}, "a tool": {ONE, TWO}}
    faults = [name for name, it in wanted.items() if seen[name] != it]
    for name in faults:
        print(f"FAILED after {name} has changed {sorted(seen[name])} are tried anew, and not {sorted(wanted[name])}")
    print(f"{len(wanted) - len(faults)} passed, {len(faults)} failed")
    return 1 if faults else 0


if __name__ == "__main__":
    sys.exit(main())
