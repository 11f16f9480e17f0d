"""Checks the code on pages, and writes the tables of calls on the pages CALLING.md.

Each page CALLING.md has a block marked as rust, and each such block has to be in one file of crates/uses/src word for word. These files are proved, so a
page shows no unchecked code. Below its mark it has a table of all calls of its crate, with links to their files, which is made from the sources. The
blocks of docs/trust.md marked as text have to be in the sources or the definitions of a crate. The block of docs/carrying-on.md below the name of an edit
has to be that file.
"""

import glob
import itertools
import os
import re

import edit_files
from start import ROOT

PAGES = "crates/*/CALLING.md"
CALLERS = "crates/uses/src/**/*.rt"
BLOCK = re.compile(r"(?ms)^```rust\n(.*?)^```$")
TRUST = "docs/trust.md"
SOURCES = ("crates/*/src/**/*.rt", "crates/dom_model/specs/**/*.antt")
TEXT = re.compile(r"(?ms)^```text\n(.*?)^```$")
CARRYING_ON = "docs/carrying-on.md"
EDIT = re.compile(r"`(crates/[\w/]+\.edit)`:\n\n```text\n(.*?)^```$", re.M | re.S)
# The mark above a table of calls, and the table.
MARK = "<!-- made by tools/docs.py -->\n\n"
TABLE = re.compile(f"{re.escape(MARK)}(?:[|].*\n)*\n?")
HEAD = "| file | subject | calls |\n|---|---|---|\n"
# Names that a crate's src/lib.rt offers: those that it has from its modules, and its own.
USED = re.compile(r"^pub use (?:\w+::)*(?:\{([^}]*)\}|(\w+));", re.M)
DECLARED = re.compile(r"^pub (?:struct|enum|trait|fn|type|mod) (\w+)", re.M)
TRAIT = re.compile(r"^pub trait (\w+)", re.M)


def texts(pattern):
    """Returns the files of a pattern with their texts, by their paths from the top."""
    return {os.path.relpath(file, ROOT): edit_files.read_file(file) for file in sorted(glob.glob(f"{ROOT}/{pattern}", recursive=True))}


def offered(folder):
    """Returns the types, traits, functions and modules that a crate offers to others."""
    text = edit_files.read_file(f"{folder}/src/lib.rt")
    used = {it for listed, one in USED.findall(text) for it in re.findall(r"\w+", listed or one)}
    return used | {*DECLARED.findall(text)}


def calls_in(folder, file, names):
    """Returns the calls that a file of a crate offers, each with its type, in the order of the source."""
    text = edit_files.read_file(f"{folder}/{file}")
    lines, traits, found = text.split("\n"), TRAIT.findall(text), []
    module = edit_files.module_of(file)
    for it in sorted({it for it in edit_files.owners_of(lines, file, {}) if it}, key=lambda it: it.line):
        is_public = lines[it.line].lstrip().startswith("pub fn ") or it.of_type in traits
        home = it.of_type or ("" if it.name in names else module)
        if is_public and (home or it.name) in names:
            found.append((home, it.name))
    return found


def subject_of(text):
    """Returns the first sentence of a source's own comment, without sections of the standard."""
    first = re.match(r"//! (.*?)(?:\. |\.?\n)", text)
    return re.sub(r" \(DOM Standard[^)]*\)", "", first[1]) if first else ""


def named(calls):
    """Returns calls as a table has them: the type before the first of its calls."""
    groups = [(home, [name for _, name in its]) for home, its in itertools.groupby(calls, key=lambda it: it[0])]
    return "; ".join(", ".join(f"`{it}`" for it in [edit_files.joined(home, first), *others]) for home, (first, *others) in groups)


def table_of(folder):
    """Returns the table of the calls that a crate offers."""
    names, rows = offered(folder), []
    for path in sorted(glob.glob(f"{folder}/src/**/*.rt", recursive=True)):
        file = os.path.relpath(path, folder)
        calls = calls_in(folder, file, names)
        if calls:
            rows.append(f"| [{os.path.basename(file)}]({file}) | {subject_of(edit_files.read_file(path))} | {named(calls)} |\n")
    return HEAD + "".join(rows)


def with_table(page, text):
    """Returns a page with the table of its crate's calls as the sources give it."""
    return TABLE.sub(lambda _: f"{MARK}{table_of(f'{ROOT}/{os.path.dirname(page)}')}\n", text)


def wrongs(page, text, callers):
    """Yields the faults of a page CALLING.md."""
    blocks = BLOCK.findall(text)
    for it in blocks:
        if not any(it in caller for caller in callers.values()):
            yield f"{page}: no file of crates/uses/src has the block that begins {it.strip().splitlines()[0]!r}"
    if not blocks:
        yield f"{page}: it shows no caller"
    if len(TABLE.findall(text)) != 1:
        yield f"{page}: it needs one line {MARK.strip()}, for the table of calls"
    elif with_table(page, text) != text:
        yield f"{page}: its table of calls is out of date: run python3 tools/docs.py write quoted"


def misquoted():
    """Yields the faults of the quotes on other pages."""
    sources = [text for it in SOURCES for text in texts(it).values()]
    for block in TEXT.findall(texts(TRUST)[TRUST]):
        if not any(block in text for text in sources):
            yield f"{TRUST}: no source has the block that begins {block.splitlines()[0]!r}"
    edits = EDIT.findall(texts(CARRYING_ON)[CARRYING_ON])
    yield from (f"{CARRYING_ON}: {file} has another text" for file, block in edits if texts(file).get(file) != block)
    if not edits:
        yield f"{CARRYING_ON}: it shows no edit"


def check():
    """Returns the faults of all quotes, and a line that says what holds without any."""
    callers, pages = texts(CALLERS), texts(PAGES)
    faults = [fault for page, text in pages.items() for fault in wrongs(page, text, callers)]
    faults += [] if pages else [f"{PAGES}: there is no such page"]
    return [*faults, *misquoted()], f"{len(pages)} pages CALLING.md, {TRUST} and {CARRYING_ON} have the sources' code and calls"


def write():
    for page, text in texts(PAGES).items():
        with open(f"{ROOT}/{page}", "w", encoding="utf-8") as it:
            it.write(with_table(page, text))
