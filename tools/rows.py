#!/usr/bin/env python3
"""Writes the dialogues of dialogues as theorems and as tests.

dialogues has a folder for each subject, with NAME.in, NAME.out and, if the session has options, NAME.opts (one line, as `--numbers 4`).
If there is a NAME.erased beside them, one more file has the dialogue with an observer erased, or with all watchers erased (tools/erased.py).

Theorems: for each NAME a file Subject/Name.antt in crates/dom_model/proofs/Dialogues, and its line in Subject.antt, which must exist and
be named in the file beside that folder. The bytes that a session reads give the bytes that it writes, and the edits of the token text
that its commands make leave the ends, texts, worlds and contents that the commands leave. They hold by computation.

Tests: for each subject a file in crates/dialogues/src, with its dialogues, each text on a line; and a file in crates/dialogue_cases/src
with tests of some dialogues each, which name the one that fails. A test serves its dialogues in these ways:

- whole, and in pieces
- with refused growths
- with each read, write and flush failing in turn
- cut in two at each of its bytes
"""
import argparse
import io
import os
import shutil
import subprocess
import sys
import tempfile

import erased
import layout

ROOT = os.path.dirname(os.path.dirname(os.path.abspath(__file__)))
DIALOGUES = os.path.join(ROOT, "dialogues")
THEOREMS = "crates/dom_model/proofs/Dialogues"
TABLES = "crates/dialogues/src"
TESTS = "crates/dialogue_cases/src"
# The files that are written, and those that are read beside the dialogues.
WRITTEN = (THEOREMS, f"{THEOREMS}.antt", erased.THEOREMS, TABLES, TESTS)
READ = ("crates.txt", erased.COMMANDS, erased.WATCHING)

# The most bytes squared of the dialogues of one test.
MOST = 3_400_000

DEFAULTS = {"numbers": "4294967295", "line": "1048576"}


def literal(run):
    """Returns the ASCII bytes of a run as a quoted text."""
    text = run.decode("ascii")
    return 'codes "' + text.replace("\\", "\\\\").replace('"', '\\"').replace("\n", "\\n") + '"'


def is_plain(byte):
    return byte == 10 or 32 <= byte < 127


def pieces(line):
    """Yields the runs of a line: texts, and lists of the bytes that no plain text holds."""
    runs = []
    for byte in line:
        if runs and is_plain(runs[-1][-1]) == is_plain(byte):
            runs[-1].append(byte)
        else:
            runs.append(bytearray([byte]))
    for run in runs:
        if is_plain(run[0]):
            yield literal(bytes(run))
        else:
            yield "(" + " ∷ ".join(str(byte) for byte in run) + " ∷ [])"


def told(line):
    """Returns the bytes of a line as a sum of quoted runs."""
    return " ++ ".join(pieces(line))


def exchanges(given, wanted):
    """Returns a list of the given lines, each with the expected one."""
    return layout.listing((told(line), told(reply)) for line, reply in zip(io.BytesIO(given), io.BytesIO(wanted), strict=True))


def used(text, usual):
    """Returns the line that imports the names in the text of a theorem."""
    words = [word for word, mark in (("codes", "codes "), ("[]", "[]"), ("◌∷◌", " ∷ "), ("◌++◌", " ++ ")) if mark in text]
    own = "usual_bounds" if usual else "Bounds"
    words = ["◌≡◌", "refl", "List", *words, own, "whole_table", "output_of", "Exchange", "bytes_given", "bytes_due", "MissesNothing", "computing"]
    return "use Rattle.dom_model.proofs.Dialogues.Exchanges.{" + ", ".join(words) + "}\n"


def options(path):
    found = dict(DEFAULTS)
    if os.path.exists(path):
        words = open(path).read().split()
        for name, value in zip(words[::2], words[1::2]):
            found[name.removeprefix("--")] = value
    return found


def dialogue(folder, name):
    """Returns the given bytes, the expected bytes, and the options."""
    path = os.path.join(folder, name)
    with open(path + ".in", "rb") as given, open(path + ".out", "rb") as due:
        return given.read(), due.read(), options(path + ".opts")


def theorem(name, given, wanted, bounds):
    usual = bounds == DEFAULTS
    of = ("usual_bounds" if usual else "bounds") + " (bytes_given exchanges)"
    body = (
        ("" if usual else f"\nabbrev bounds : Bounds\nbounds = record {{ numbers = {bounds['numbers']}; line = {bounds['line']} }}\n")
        + f"\nabbrev exchanges : List Exchange\nexchanges ={exchanges(given, wanted)}\n"
        + f"\npub {name} : output_of whole_table {of} ≡ bytes_due exchanges\nunfolding computing\n{name} = refl\n"
        + f"\npub {name}-misses_nothing : MissesNothing whole_table {of}\nunfolding computing\n"
        + f"{name}-misses_nothing = record {{ ends = refl; texts = refl; worlds = refl; contents = refl }}\n"
    )
    return f"-- A dialogue, from bytes to bytes: {name.replace('_', ' ')}.\n" + used(body, usual) + body


def module_of(name):
    return "".join(word.capitalize() for word in name.split("_"))


def erased_in(folder, dialogues):
    """Yields the dialogues of a folder that have erased watchers: the name, those watchers, the given bytes and the expected ones."""
    for name, (given, due, _) in dialogues.items():
        path = os.path.join(folder, name) + ".erased"
        if os.path.exists(path):
            yield name, open(path).read().split(), given.decode(), due.decode()


def write_theorems(root, subject, dialogues):
    """Writes the theorems of one subject's dialogues, and their lines in the file beside their folder."""
    proofs = os.path.join(root, THEOREMS, module_of(subject))
    library = proofs + ".antt"
    lines = open(library).read().splitlines()
    os.makedirs(proofs, exist_ok=True)
    for name, parts in dialogues.items():
        with open(os.path.join(proofs, module_of(name) + ".antt"), "w") as out:
            out.write(theorem(name, *parts))
        line = f"pub mod {module_of(name)}"
        if line not in lines:
            lines.append(line)
    with open(library, "w") as out:
        out.write("\n".join(lines) + "\n")


def text_literal(text):
    """Returns the text as a literal on one line."""
    marks = {"\n": "\\n", '"': '\\"', "\\": "\\\\"}
    return '"' + "".join(marks.get(mark) or (mark if mark.isprintable() else f"\\u{{{ord(mark):x}}}") for mark in text) + '"'


def bytes_literal(data):
    """Returns the bytes as a byte string."""
    marks = {10: "\\n", 34: '\\"', 92: "\\\\"}
    return 'b"' + "".join(marks.get(byte) or (chr(byte) if is_plain(byte) else f"\\x{byte:02X}") for byte in data) + '"'


def bytes_of(data):
    """Returns the bytes as a text if they are one, since a byte string costs the check an expression a byte."""
    try:
        return f"Bytes::Text({text_literal(data.decode())})"
    except UnicodeDecodeError:
        return f"Bytes::Raw({bytes_literal(data)})"


def row(name, given, wanted, bounds):
    """Returns a dialogue in its table."""
    return (
        f"\npub const {name.upper()}: Dialogue = Dialogue {{\n"
        + f'    name: "{name.replace("_", " ")}",\n    numbers: {bounds["numbers"]},\n    line: {bounds["line"]},\n'
        + f"    given: {bytes_of(given)},\n    due: {text_literal(wanted.decode())},\n}};\n"
    )


def grouped(dialogues):
    """Returns the names in groups that take a test about as long as the longest dialogues do. Serving one cut at each byte takes its length squared."""
    groups = []
    for name, (given, _, _) in sorted(dialogues.items(), key=lambda item: -len(item[1][0])):
        cost = len(given) ** 2
        for group in groups:
            if group[0] + cost <= MOST:
                group[0] += cost
                group[1].append(name)
                break
        else:
            groups.append([cost, [name]])
    return [sorted(names) for _, names in groups]


def cut_test(subject, number, names):
    """Returns the test of some dialogues, however their bytes are cut. It names each, since one table of their texts costs the prover too many steps."""
    listed = ", ".join(f"&{name.upper()}" for name in names)
    return (
        f"\n#[test]\nfn {subject}_cut_in_two_{number}(rt: HostRuntime) {{\n"
        + f"    for dialogue in [{listed}] {{\n        is_answered_in_two(&rt, rt.alloc(), dialogue);\n    }}\n}}\n"
    )


def write_tests(root, subject, dialogues):
    """Writes the table of one subject's dialogues, and their tests."""
    head = f"//! Written by tools/rows.py from dialogues/{subject}.\n\n"
    with open(os.path.join(root, TABLES, subject + ".rt"), "w") as out:
        out.write(head + "use crate::{Bytes, Dialogue};\n")
        for name, parts in dialogues.items():
            out.write(row(name, *parts))
    with open(os.path.join(root, TESTS, subject + ".rt"), "w") as out:
        names = ", ".join(name.upper() for name in dialogues)
        out.write(head + f"use crate::cuts::is_answered_in_two;\nuse dialogues::{subject}::{{{names}}};\n")
        for number, group in enumerate(grouped(dialogues), 1):
            out.write(cut_test(subject, number, group))


def write(root):
    """Writes all of it into the crates of a repository."""
    without = []
    for subject in sorted(os.listdir(DIALOGUES)):
        folder = os.path.join(DIALOGUES, subject)
        names = sorted(entry[:-3] for entry in os.listdir(folder) if entry.endswith(".in"))
        dialogues = {name: dialogue(folder, name) for name in names}
        write_theorems(root, subject, dialogues)
        write_tests(root, subject, dialogues)
        without += erased_in(folder, dialogues)
    erased.write(root, without)
    for written in (TABLES, TESTS):
        subprocess.run(["rt", "fmt"], cwd=os.path.join(root, os.path.dirname(written)), check=True, stdout=subprocess.DEVNULL)


def copy(path, to):
    """Copies a file or a folder of the repository into another."""
    os.makedirs(os.path.dirname(os.path.join(to, path)), exist_ok=True)
    (shutil.copytree if os.path.isdir(os.path.join(ROOT, path)) else shutil.copyfile)(os.path.join(ROOT, path), os.path.join(to, path))


def stale():
    """Yields the files that are not what the dialogues give now."""
    with tempfile.TemporaryDirectory(prefix="rows-") as root:
        os.mkdir(os.path.join(root, ".git"))
        for path in (*WRITTEN, *READ):
            copy(path, root)
        write(root)
        for path in WRITTEN:
            top = os.path.join(root, path)
            files = [os.path.join(at, it) for at, _, found in os.walk(top) for it in found] or [top]
            for file in sorted(files):
                inside = os.path.relpath(file, root)
                with open(file, "rb") as new, open(os.path.join(ROOT, inside), "rb") as old:
                    if new.read() != old.read():
                        yield inside


def main():
    words = argparse.ArgumentParser(description=__doc__, formatter_class=argparse.RawDescriptionHelpFormatter)
    words.add_argument("--check", action="store_true", help="write nothing, and list the files that are not what the dialogues give now")
    if not words.parse_args().check:
        write(ROOT)
        return 0
    found = [*stale()]
    for it in found:
        print(f"{it} is not what the dialogues give: python3 tools/rows.py writes it")
    print("the files written from the dialogues are up to date" if not found else f"{len(found)} files are stale")
    return 1 if found else 0


if __name__ == "__main__":
    sys.exit(main())
