"""Checks the clauses of docs/proved.md: each call that a row names is one of its crates, and has the clauses that the row names beside it.

A row is about the crates in bold at its beginning, or those of the row before. In its last column `;` separates entries: calls, a colon, and their clauses.
Words in brackets, and words of definitions, which begin with a capital letter, are not checked here but by tools/links.py. An entry that begins in words,
as "each call", may have clauses of any call of the crates.
"""
import functools
import os
import re

import contracts
from start import ROOT

PAGE = "docs/proved.md"
CLAUSE = re.compile(r"  (?:requires|ensures) (\w+):")
NAMED = re.compile(r"`([\w:]+)`")
# Calls alone, without words between.
CALLS = re.compile(r"(?:`[\w:]+`(?:, | and )?)+")


def text_of_page():
    with open(f"{ROOT}/{PAGE}", encoding="utf-8") as it:
        return it.read()


def rows(text):
    """Yields each row of the tables: its line, its crates, and its last column."""
    crates = []
    for number, line in enumerate(text.split("\n"), 1):
        if line.startswith("| ") and not line.startswith("| promise "):
            promise, clauses = line.strip("| ").rsplit(" | ", 1)
            bold = re.match(r"\*\*.*?\*\*", promise)
            crates = re.findall(r"`(\w+)`", bold[0]) if bold and "`" in bold[0] else crates
            yield number, crates, clauses


@functools.cache
def clauses_of(crate):
    """Returns the clauses of each call of a crate, by its name with its type and without."""
    found = {}
    for title, lines in contracts.contracts_of(f"{ROOT}/crates/{crate}").items():
        if title.startswith("fn "):
            names = {it[1] for it in map(CLAUSE.match, lines[1:]) if it}
            for name in {title[3:], title.rpartition("::")[2].removeprefix("fn ")}:
                found.setdefault(name, set()).update(names)
    return found


def is_of_definitions(name):
    return name[:1].isupper() and "::" not in name


def known_as(name, calls):
    """Returns the clauses of a call that a row names, by its type or its module; none if there is no such call."""
    return calls.get(name, calls.get(name.rpartition("::")[2]))


def faults_of(entry, calls, modules):
    """Yields the faults of one entry of a row."""
    left, _, right = entry.partition(": ")
    names, every = [it for it in NAMED.findall(left) if not is_of_definitions(it)], set().union(*calls.values())
    clauses = [it for it in NAMED.findall(right) if not is_of_definitions(it)]
    yield from (f"there is no call or clause {it}" for it in names if known_as(it, calls) is None and it not in every | modules)
    theirs = [known_as(it, calls) for it in names]
    due = set().union(*theirs) if names and None not in theirs and CALLS.fullmatch(left.strip()) else every | {*calls}
    yield from (f"{', '.join(names) or 'the crate'} has no clause {it}" for it in clauses if it not in due and it not in names)


def faults(text):
    """Yields the faults of a page, each at its line."""
    for number, crates, column in rows(text):
        calls = {}
        for crate in crates:
            for name, its in clauses_of(crate).items():
                calls[name] = calls.get(name, set()) | its
        modules = {os.path.splitext(it)[0] for crate in crates for it in os.listdir(f"{ROOT}/crates/{crate}/src")} if calls else set()
        for entry in re.sub(r"\([^)]*\)", "", column).split(";") if calls else []:
            yield from (f"{PAGE}:{number}: {it}" for it in faults_of(entry.strip(), calls, modules))


def check():
    """Returns the faults of the page, and what holds without any."""
    text = text_of_page()
    return [*faults(text)], f"{len([*rows(text)])} rows of {PAGE} name clauses of their calls"
