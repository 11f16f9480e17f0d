"""Twins of functions: beside each function that an edit changes stands a second one with the edited body, so that one check tries all edits of a crate.

A twin has the contract of its function and a copy of its proof, and nothing calls it: a caller of the function stays proved, and several edits of one
function stand side by side. An edit has twins where it changes bodies alone, of functions that meet no trait and whose proofs no other file speaks of.
What the check refuses at a clause of a twin it refuses there of the function, since both rest on the same contracts and the same proof.
"""
import dataclasses
import glob
import os
import re
import shutil

import edit_files

PARTS = ("src", "specs", "proofs")
SUFFIX = "_edited_"
NAMED = re.compile(rf"{SUFFIX}\d+\b")
# A `use` line that names several modules of the proofs of one crate.
LISTED = re.compile(r"^use Rattle\.\w+\.proofs\.\{.*\}$", re.M)
# The first line of a block of functions, and one that meets a trait or declares it.
BLOCK = re.compile(r"(?:unsafe\s+)?impl\b")
OF_TRAIT = re.compile(r".*\bfor\b")


@dataclasses.dataclass
class Twin:
    """A function with an edited body: of which function, its lines, the number of the line that it stands behind, and of which edit."""

    owner: edit_files.Owner
    number: int
    lines: list
    behind: int
    edit: edit_files.Edit

    def named(self):
        """Its owner as the check knows it."""
        return dataclasses.replace(self.owner, name=f"{self.owner.name}{SUFFIX}{self.number}")


def original(name):
    """Returns the name of the function that a twin is of, or of what stands in it."""
    return NAMED.sub("", name)


def extent(lines, first):
    """Returns the first line of a function with its attributes, the line at which its body begins, and its last line; None where they are not to be seen."""
    indent = lines[first][: len(lines[first]) - len(lines[first].lstrip())]
    begin = first
    while begin and lines[begin - 1].startswith(f"{indent}#["):
        begin -= 1
    end = next((at for at in range(first, len(lines)) if lines[at] == f"{indent}}}"), None)
    opens = lambda at: lines[at] == f"{indent}{{" or lines[at].endswith("{") and (at == first or lines[at].startswith(f"{indent})"))
    body = next((at for at in range(first, end or first) if opens(at)), None)
    return (begin, body, end) if end and body is not None else None


def may_have(lines, owner):
    """Returns whether a second function may stand beside this one: it stands in no block of a trait."""
    if not owner.of_type:
        return not lines[owner.line][:1].isspace()
    block = next(it for it in reversed(lines[: owner.line]) if it and not it[0].isspace() and it != "}")
    return bool(BLOCK.match(block)) and not OF_TRAIT.match(block.partition("{")[0])


def place_of(owner):
    return owner.path().replace("::", "/")


def modules_of(crate, owner):
    """Returns the beginnings of the names of the modules that are a function's own."""
    return [f"Rattle.{crate}.{part}.{owner.path().replace('::', '.')}." for part in ("proofs", "specs.contracts")]


class Twins:
    """The twins of those edits of a crate that may have some, over the crate's files; or twins with nothing edited, which have to be proved."""

    def __init__(self, crate, folder, edits, are_edited=True):
        self.crate, self.folder = crate, folder
        self.texts = {it: edit_files.read_file(it) for it in glob.glob(f"{folder}/proofs/**/*.antt", recursive=True)}
        self.made = []
        for edit in edits:
            self.made += self.of_edit(edit) or []
        if not are_edited:
            self.made = [*{it.owner: it for it in map(self.unedited, self.made)}.values()]

    def of_edit(self, edit):
        """Returns a twin for each function that an edit changes; None where it may have none."""
        twins = []
        for owner in edit.owners:
            lines = edit_files.read_file(f"{self.folder}/{owner.file}").split("\n") if owner else []
            found = extent(lines, owner.line) if owner and may_have(lines, owner) and not self.is_told_elsewhere(owner) else None
            changed = [at for at in edit.changes.get(owner.file, {}) if found and found[0] <= at <= found[2]] if owner else []
            if not changed or min(changed) <= found[1]:
                return None
            number = len(self.made) + len(twins)
            named = re.sub(rf"\bfn {owner.name}\b", f"fn {owner.name}{SUFFIX}{number}", lines[owner.line], count=1)
            text = [edit.changes[owner.file].get(at, named if at == owner.line else lines[at]) for at in range(found[0], found[2] + 1)]
            twins.append(Twin(owner, number, text, found[2], edit))
        covered = sum(len([at for at in edit.changes[it.owner.file] if it.behind - len(it.lines) < at <= it.behind]) for it in twins)
        return twins if twins and covered == sum(map(len, edit.changes.values())) else None

    def unedited(self, twin):
        """Returns a twin with its lines as they stand in the function."""
        lines = edit_files.read_file(f"{self.folder}/{twin.owner.file}").split("\n")[twin.behind + 1 - len(twin.lines) : twin.behind + 1]
        edited = [it == twin.owner.line for it in range(twin.behind + 1 - len(twin.lines), twin.behind + 1)]
        return dataclasses.replace(twin, lines=[new if is_name else old for old, new, is_name in zip(lines, twin.lines, edited)])

    def is_told_elsewhere(self, owner):
        """Returns whether a file of the proofs other than the function's own speaks of what is the function's."""
        own, names = f"{self.folder}/proofs/{place_of(owner)}/", modules_of(self.crate, owner)[:1]
        return any(name in text and not path.startswith(own) and re.search(re.escape(name) + r"(?!Met\b)", text) for path, text in self.texts.items() for name in names)

    def names(self):
        return sorted(it.named().path() for it in self.made)

    def lay(self, to, left_out=()):
        """Lays a copy of the crate with the twins, but those of some edits, into a folder; returns for each line of a source, by file and number, its edit."""
        for part in PARTS:
            if os.path.isdir(f"{self.folder}/{part}"):
                shutil.copytree(f"{self.folder}/{part}", f"{to}/{part}")
        made, at = [it for it in self.made if it.edit.path not in left_out], {}
        for file in {it.owner.file for it in made}:
            at |= self.lay_source(to, file, [it for it in made if it.owner.file == file])
        for it in made:
            self.lay_proof(to, it)
        return at

    def lay_source(self, to, file, twins):
        out, at = [], {}
        for number, line in enumerate(edit_files.read_file(f"{self.folder}/{file}").split("\n")):
            out.append(line)
            for it in twins:
                if it.behind == number:
                    at |= {(file, len(out) + 1 + more): it.edit for more in range(len(it.lines))}
                    out += ["", *it.lines]
        with open(f"{to}/{file}", "w", encoding="utf-8") as text:
            text.write("\n".join(out))
        return at

    def lay_proof(self, to, twin):
        own, twins = f"{self.folder}/proofs/{place_of(twin.owner)}", f"{to}/proofs/{place_of(twin.named())}"
        pairs = [*zip(modules_of(self.crate, twin.owner), modules_of(self.crate, twin.named()))]
        listed = re.compile(rf"(?<=[{{ ]){re.escape(twin.owner.path().replace('::', '.'))}\.")
        for path, text in self.texts.items():
            if os.path.dirname(path) == own:
                for old, new in pairs:
                    text = text.replace(old, new)
                text = LISTED.sub(lambda it: listed.sub(f"{twin.named().path().replace('::', '.')}.", it[0]), text)
                os.makedirs(twins, exist_ok=True)
                with open(f"{twins}/{os.path.basename(path)}", "w", encoding="utf-8") as it:
                    it.write(text)
