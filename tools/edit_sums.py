"""The sum of all that the outcome of an edit may depend on, so that it is tried anew only if something of that has changed.

The prover proves a function by its own body and proof, over the contracts of the functions that it calls. So the sum of an edit has:

- its lines, the functions that it changes, and their proofs;
- the types and constants of its crate, and of the crates below;
- the contracts of those functions of both whose names occur in all this, without bodies and proofs; those of traits always;
- every file of definitions or lemmas that these import, and that those import in turn;
- the libraries that the crate lists, the kit's identity, and the tools that try edits.

An edit of anything but functions may change any proof: its sum has all sources and proofs of the crate. Comments belong to no sum.
"""
import functools
import glob
import hashlib
import os
import re

import edit_files
import edit_twins

TOOLS = ("edit_files.py", "edit_probes.py", "edit_sums.py", "edit_told.py", "edit_twins.py", "edits.py")
IMPORTED = re.compile(r"Rattle\.(\w+)\.(specs|proofs)\.")
CLOSES = {"{": "}", "(": ")"}
# Functions that only their own crate sees.
PRIVATE = re.compile(r"\s*(?:pub\([^)]*\)\s+)?(?:unsafe\s+)?fn\s")
CONSTANT = re.compile(r"\bconst fn\b")
WORD = re.compile(r"\w+")
# Lines of a source that no crate above sees: imports of code, private constants and types; and the first line of a public type with named fields.
HIDDEN = re.compile(r"\s*(?:use|mod)\s|(?:pub\([^)]*\)\s+)?(?:const|static|struct|enum)\s")
OPENED = re.compile(r"pub struct \w+.*\{$")
PUBLIC = re.compile(r"\s*pub\s")
PUBLIC_TYPE = re.compile(r"^pub (?:struct|enum) (\w+)", re.M)
MET = re.compile(r"impl\b.*\bfor (?:\w+::)*(\w+)")
FIELD = re.compile(r"\s*(?:pub\s|ghost\s|\}|#\[)")


def without_comments(lines):
    return [it for it in lines if it.strip() and not it.lstrip().startswith(("//", "--"))]


def closing(lines, begin):
    """Returns the number of the line at which an item ends that begins at a line."""
    if lines[begin].rstrip().endswith((";", "}")):
        return begin
    return next((at for at in range(begin + 1, len(lines)) if lines[at][:1] in ("}", ")") or lines[at].rstrip().endswith(";") and lines[begin].rstrip()[-1] != "{"), begin)


def visible(lines):
    """Returns those lines of a source that crates above see: without imports of code, private constants and types, and private fields."""
    found, at = [], 0
    while at < len(lines):
        end = at
        if HIDDEN.match(lines[at]):
            end = closing(lines, at)
        elif OPENED.match(lines[at]):
            end = closing(lines, at)
            found += [lines[at], *(it for it in lines[at + 1 : end + 1] if FIELD.match(it))]
        else:
            found.append(lines[at])
        at = end + 1
    return found


def group_at(text, begin):
    """Returns the text between a brace and the one that closes it."""
    depth = 0
    for at in range(begin, len(text)):
        depth += (text[at] == "{") - (text[at] == "}")
        if not depth:
            return text[begin + 1 : at]
    return text[begin + 1 :]


def parts_of(text):
    """Returns the parts of a list between braces."""
    parts, depth, begin = [], 0, 0
    for at, sign in enumerate(text):
        depth += (sign == "{") - (sign == "}")
        if sign == "," and not depth:
            parts.append(text[begin:at])
            begin = at + 1
    return [*parts, text[begin:]]


def paths_in(text):
    """Returns the paths that a text from a module on names: one, or those of a list between braces."""
    text = text.lstrip()
    head = re.match(r"[^\s,;{}()\[\]]*", text)[0]
    if text[len(head) : len(head) + 1] == "{" and (not head or head.endswith(".")):
        return [head + it for part in parts_of(group_at(text, len(head))) for it in paths_in(part)]
    return [head]


class Sources:
    """The files of the crates below one folder, as sums need them. `listed` has for each crate the words of its row in crates.txt."""

    def __init__(self, root, listed):
        self.root, self.listed = root, listed

    def folder(self, name):
        return f"{self.root}/crates/{name}"

    @functools.lru_cache(maxsize=None)
    def below(self, name):
        """Returns the crates of this repository that a crate stands on."""
        own = [it for it in self.listed[name] if it in self.listed]
        return sorted({*own, *(deep for it in own for deep in self.below(it))})

    @functools.lru_cache(maxsize=None)
    def text(self, path):
        return edit_files.read_file(path)

    @functools.lru_cache(maxsize=None)
    def imports(self, path):
        """Returns the files of definitions and lemmas that a file names."""
        return frozenset(self.named_in(self.text(path)))

    def named_in(self, text):
        for found in IMPORTED.finditer(text):
            if found[1] in self.listed:
                for path in paths_in(text[found.end() : found.end() + 20000]):
                    file = self.file_of(found[1], found[2], path)
                    if file:
                        yield file

    @functools.lru_cache(maxsize=None)
    def file_of(self, crate, part, path):
        """Returns the file that holds what a path names: the longest beginning of the path that is one."""
        words = path.split(".")
        for count in range(len(words), 0, -1):
            file = f"{self.folder(crate)}/{part}/{'/'.join(words[:count])}.antt"
            if os.path.isfile(file):
                return file
        return None

    def closed(self, files):
        """Returns these files with all that they import, directly or not."""
        found, left = set(), {*files}
        while left:
            file = left.pop()
            found.add(file)
            left |= self.imports(file) - found
        return found

    @functools.lru_cache(maxsize=None)
    def functions(self, file, folder):
        """Returns the functions of a source with the lines of each: the first with its attributes, the one at which its body begins, and the last."""
        lines = self.text(f"{folder}/{file}").split("\n")
        owners = {it for it in edit_files.owners_of(lines, file, edit_files.homes_of(folder)) if it}
        spans = {it: edit_twins.extent(lines, it.line) for it in owners}
        return {it: span for it, span in spans.items() if span and not CONSTANT.search(lines[it.line])}

    @functools.lru_cache(maxsize=None)
    def public_types(self, name):
        folder, files = self.files(name)
        return frozenset(it for file in files for it in PUBLIC_TYPE.findall(self.text(f"{folder}/{file}")))

    def is_seen(self, name, lines):
        """Returns whether some of these lines, which are of one source, declares something public, or says that a public type meets a trait."""
        return any(PUBLIC.match(it) or (found := MET.match(it)) and found[1] in self.public_types(name) for it in lines)

    def pieces(self, file, folder, is_below):
        """Yields the pieces of a source without bodies, each with the name of the one function that it is of, or None: of a crate below the public ones."""
        lines, begin, rest = self.text(f"{folder}/{file}").split("\n"), 0, []
        for owner, (first, body, end) in sorted(self.functions(file, folder).items(), key=lambda it: it[1]):
            if first < begin or not edit_twins.may_have(lines, owner):
                # (within another function; or of a trait, which may be called without its name)
                continue
            rest += self.bodiless(file, folder, begin, first)
            if not (is_below and PRIVATE.match(lines[owner.line])):
                yield owner.name, without_comments(lines[first : body + 1])
            begin = end + 1
        rest += self.bodiless(file, folder, begin, len(lines))
        yield None, visible(rest) if is_below else rest

    def bodiless(self, file, folder, begin, end):
        """Returns lines of a source without the bodies of functions."""
        lines = self.text(f"{folder}/{file}").split("\n")
        for _, body, last in self.functions(file, folder).values():
            if begin <= body and last < end:
                lines[body + 1 : last] = [None] * (last - body - 1)
        return without_comments(it for it in lines[begin:end] if it is not None)

    def files(self, name):
        folder = self.folder(name)
        return folder, sorted(os.path.relpath(it, folder) for it in glob.glob(f"{folder}/src/**/*.rt", recursive=True))

    @functools.lru_cache(maxsize=None)
    def shown(self, name, is_below):
        """Returns the pieces of all sources of a crate."""
        (folder, files), found = self.files(name), []
        for file in files:
            pieces = [it for it in self.pieces(file, folder, is_below) if it[1]]
            if not is_below or any(function or self.is_seen(name, lines) for function, lines in pieces):
                found += [(function, "\n".join([file, *lines])) for function, lines in pieces]
        return found

    def around(self, name, words):
        """Returns all that an edit of a crate depends on beside its own functions, if these words occur in them."""
        pieces = [*self.shown(name, False), *(it for below in self.below(name) for it in self.shown(below, True))]
        return [text for function, text in pieces if function is None or function in words]

    @functools.lru_cache(maxsize=None)
    def words_of(self, path):
        return frozenset(WORD.findall(self.text(path)))

    @functools.lru_cache(maxsize=None)
    def sum_of(self, path):
        text = "\n".join(without_comments(self.text(path).split("\n")))
        return f"{os.path.relpath(path, self.root)} {hashlib.sha256(text.encode()).hexdigest()}\n".encode()

    def proofs(self, name, places):
        """Returns the files of the proofs of functions, by their places below a crate."""
        at = f"{self.folder(name)}/proofs"
        return {it for place in places for it in glob.glob(f"{at}/{place}/**/*.antt", recursive=True)}

    def whole(self, name):
        """Returns all files of a crate."""
        folder = self.folder(name)
        return {it for part in edit_twins.PARTS for kind in ("rt", "antt") for it in glob.glob(f"{folder}/{part}/**/*.{kind}", recursive=True)}


def own_files(sources, name, edit):
    """Returns the files that the functions of an edit rest on beside what all of the crate do, and the text of those functions."""
    if edit.is_alone():
        return sources.whole(name), []
    folder = sources.folder(name)
    places = {edit_twins.place_of(it) for it in edit.owners} | {edit.meant.rpartition(": ")[0].replace("::", "/")} - {""}
    owners = {owner: file for file in sources.files(name)[1] for owner in sources.functions(file, folder) if edit_twins.place_of(owner) in places}
    text = []
    for owner, file in sorted(owners.items(), key=lambda it: it[0].path()):
        begin, _, end = sources.functions(file, folder)[owner]
        text += without_comments(sources.text(f"{folder}/{file}").split("\n")[begin : end + 1])
    return sources.proofs(name, places), text


def changes_of(edit):
    """Returns what an edit does, without the numbers of its lines."""
    with open(edit.path, encoding="utf-8") as file:
        return file.read()


def sum_of(sources, name, edit, kit, tools=None):
    """Returns the sum of all that the outcome of an edit of a crate may depend on."""
    proofs, text = own_files(sources, name, edit)
    own = "\n".join([changes_of(edit), *text])
    files = sources.closed(proofs | {*sources.named_in(own)})
    words = {*WORD.findall(own)}.union(*(sources.words_of(it) for it in files))
    around = sources.around(name, words)
    files = sources.closed(files | {it for piece in around for it in sources.named_in(piece)})
    total = hashlib.sha256("\n".join([kit, tools or sum_of_tools(), " ".join(sources.listed[name]), own, *around]).encode())
    for file in sorted(files):
        total.update(sources.sum_of(file))
    return total.hexdigest()


@functools.lru_cache(maxsize=None)
def sum_of_tools(at=os.path.dirname(os.path.realpath(__file__))):
    total = hashlib.sha256()
    for name in TOOLS:
        with open(f"{at}/{name}", "rb") as file:
            total.update(file.read())
    return total.hexdigest()
