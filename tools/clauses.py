"""Checks where the words of clauses and definitions are defined, and in which order definitions are read.

Each word of a clause or a definition is defined in specs, so that contracts are read without opening a proof. No two crates define the same word.

It reads the imports of crates/*/src (`ghost use`) and of crates/*/specs: none may name words of a file of proofs. In crates/dom_model/specs, Lib.antt and
the file beside each folder name folders and files in reading order: a definition uses only words of its own file and of those before it.
"""
import collections
import glob
import os
import re

ROOT = os.path.dirname(os.path.dirname(os.path.realpath(__file__)))
MODEL = f"{ROOT}/crates/dom_model/specs"
USE = re.compile(r"^\s*(?:ghost )?(?:pub )?use (Rattle\.\w+\.(?:specs|proofs)\.[\w.+]+?)(?:\.\{[^}]*\}| as \w+)?;?$", re.M)

# The line that defines a word: not one that names a file, or re-exports a word.
DEFINED = re.compile(r"^(?:(?:abbrev|unfoldable) )?pub (?!use |mod )(?:(?:record|data|abbrev) )?([^\s:({]+)", re.M)


def text_of(file):
    with open(file, encoding="utf-8") as it:
        return it.read()


def imports(file):
    """Returns each import of a file: its line, and the module that it names."""
    text = text_of(file)
    return [(text.count("\n", 0, found.start()) + 1, found[1]) for found in USE.finditer(text)]


def reading_order():
    """Returns the files of the definitions in the order in which they are read, by their module's name."""
    listed = lambda file: re.findall(r"(?m)^pub mod (\w+)$", text_of(f"{MODEL}/{file}.antt"))
    return [f"{room}.{name}" for room in listed("Lib") for name in listed(room)]


def back_edges():
    """Returns the faults of definitions that use words of files which are read later, and of files that are not in the order."""
    order, bad = reading_order(), []
    place = {f"Rattle.dom_model.specs.{name}": at for at, name in enumerate(order)}
    for at, name in enumerate(order):
        file = f"{MODEL}/{name.replace('.', '/')}.antt"
        bad += [f"{os.path.relpath(file, ROOT)}:{line}: {module} is read later" for line, module in imports(file) if place.get(module, -1) > at]
    files = {os.path.relpath(it, MODEL)[: -len(".antt")].replace("/", ".") for it in glob.glob(f"{MODEL}/*/*.antt")}
    return bad + [f"{it}: no file names it in reading order" for it in sorted(files - set(order))]


def defined_twice():
    """Returns a fault for each word of clauses that two crates define: a word has one meaning, so a reader finds it by its name alone."""
    homes = collections.defaultdict(dict)
    for file in sorted(glob.glob(f"{ROOT}/crates/*/specs/**/*.antt", recursive=True)):
        path = os.path.relpath(file, ROOT)
        for word in DEFINED.findall(text_of(file)):
            homes[word].setdefault(path.split("/")[1], path)
    return [f"{word}: defined in {' and '.join(its.values())}" for word, its in sorted(homes.items()) if len(its) > 1]


def check():
    """Returns the faults of imports and words, and a line that says what holds without any."""
    faults, seen = [], 0
    files = [it for part in ("src/**/*.rt", "specs/**/*.antt") for it in glob.glob(f"{ROOT}/crates/*/{part}", recursive=True)]
    for file in sorted(files):
        for line, module in imports(file):
            seen += 1
            if ".proofs." in module and module.split(".")[1] in os.listdir(f"{ROOT}/crates"):
                faults.append(f"{os.path.relpath(file, ROOT)}:{line}: {module} is a file of proofs: move the word to specs")
    holds = f"{seen} imports of clauses and definitions: none is from proofs, or of a file that is read later; no word is defined in two crates"
    return faults + back_edges() + defined_twice(), holds
