"""The edits that must fail, as they stand in files: what each changes, of which function, and the clause that it is meant to meet.

An edit is a file crates/NAME/edits/*.edit or crates/NAME/must-fail/*.edit: a line `file: src/..`, pairs of lines `old: TEXT` and `new: TEXT`, one line
each, and a line `at: FUNCTION: GOAL`, the goal at which the check has to refuse the function. The kit reads the pairs, and no line `at:`.
"""
import dataclasses
import functools
import glob
import os
import re

FOLDERS = ("edits", "must-fail")
AT = "at: "
FUNCTION = re.compile(r"\s*(?:pub(?:\([^)]*\))?\s+)?(?:const\s+)?(?:unsafe\s+)?(?:extern\s+\"C\"\s+)?fn\s+(\w+)")
ITEM = re.compile(r"\s*(?:pub(?:\([^)]*\))?\s+)?(?:unsafe\s+)?(const|static|struct|enum|trait|impl|type|mod|use|macro_rules!)\b(.*)")
DECLARED = re.compile(r"(?:pub(?:\([^)]*\))?\s+)?(?:struct|enum)\s+(\w+)", re.M)
# The type of `impl<..> Trait for Type<..>` or `impl<..> Type<..>`.
OF_TYPE = re.compile(r"(?:<.*?>)?\s+(?:.*\bfor\s+)?(?:&\s*)?(?:\w+::)*(\w+)")


@dataclasses.dataclass(frozen=True)
class Owner:
    """A function as the source has it: its file, the type of its `impl` block ("" outside one) and the module of that type, its name, and its first line."""

    file: str
    of_type: str
    home: str
    name: str
    line: int

    def path(self):
        """Its path below the crate, as it is where its type meets no trait by it: that of its type, in whichever file the `impl` block stands."""
        return joined(self.home, self.of_type, self.name)

    def module(self):
        return module_of(self.file)


def joined(*parts):
    return "::".join(it for it in parts if it)


def module_of(file):
    path = file.removeprefix("src/").removesuffix(".rt").removesuffix("/mod")
    return "" if path in ("lib", "main") else path.replace("/", "::")


@dataclasses.dataclass
class Edit:
    """An edit: the lines that it changes, by file and number from 0; the functions that these belong to; and what its line `at:` says."""

    path: str
    changes: dict = dataclasses.field(default_factory=dict)
    owners: frozenset = frozenset()
    meant: str = ""
    bad: str = ""

    @property
    def name(self):
        return os.path.basename(self.path)

    @property
    def inside(self):
        """Its path in the repository, whichever copy it was read of."""
        return f"crates/{'/'.join(self.path.split('/')[-3:])}"

    def is_alone(self):
        """Whether it changes something beside functions, which any function may rest on."""
        return None in self.owners

    def fits(self, others):
        """Whether no other of these changes a function of this one."""
        return not self.is_alone() and not any(it.is_alone() or it.owners & self.owners for it in others)


@functools.lru_cache(maxsize=None)
def homes_of(folder):
    """Returns for each type of a crate the module that declares it; nothing of a name that several declare."""
    found = {}
    for path in glob.glob(f"{folder}/src/**/*.rt", recursive=True):
        for name in DECLARED.findall(read_file(path)):
            found.setdefault(name, set()).add(module_of(os.path.relpath(path, folder)))
    return {name: next(iter(modules)) for name, modules in found.items() if len(modules) == 1}


def owners_of(lines, file, homes):
    """Returns for each line of a source the function that it belongs to, or None."""
    found, of_type, owner = [], "", None
    for number, line in enumerate(lines):
        function, item = FUNCTION.match(line), ITEM.match(line)
        if function:
            inside = of_type if line[:1].isspace() else ""
            owner = Owner(file, inside, homes.get(inside, module_of(file)), function[1], number)
        elif item:
            owner = None
            if item[1] in ("impl", "trait") and not line[:1].isspace():
                named = OF_TYPE.match(item[2].partition("{")[0])
                of_type = named[1] if named else ""
        found.append(owner)
    return found


def read_file(path):
    with open(path, encoding="utf-8") as it:
        return it.read()


def read(rt, path, folder):
    """Returns the edit of a file of a crate; the kit says whether it can be applied."""
    edit = Edit(path)
    said = [it[len(AT) :].strip() for it in read_file(path).split("\n") if it.startswith(AT)]
    edit.meant = said[0] if said else ""
    texts, why = rt.read_edit(path, folder)
    if why:
        edit.bad = why
        return edit
    for file, text in texts.items():
        before, after = read_file(f"{folder}/{file}").split("\n"), text.split("\n")
        owners = owners_of(before, file, homes_of(folder)) if file.startswith("src/") else [None] * len(before)
        edit.changes[file] = {at: new for at, (old, new) in enumerate(zip(before, after)) if old != new}
        edit.owners |= {owners[at] for at in edit.changes[file]}
    return edit


def edits_of(rt, folder):
    """Returns the edits of a crate, those of its folder `edits` first."""
    paths = [it for part in FOLDERS for it in sorted(glob.glob(f"{folder}/{part}/*.edit"))]
    return [read(rt, it, folder) for it in paths]


def note(path, meant):
    """Writes the line `at:` of an edit's file anew."""
    lines = [it for it in read_file(path).rstrip("\n").split("\n") if not it.startswith(AT)]
    with open(path, "w", encoding="utf-8") as it:
        it.write("\n".join([*lines, f"{AT}{meant}"]) + "\n")


def texts_of(edits, folder):
    """Returns the files of a crate that edits change, with all of these edits, no two of which change one line."""
    texts = {}
    for file in {file for edit in edits for file in edit.changes}:
        lines = read_file(f"{folder}/{file}").split("\n")
        for edit in edits:
            for number, line in edit.changes.get(file, {}).items():
                lines[number] = line
        texts[file] = "\n".join(lines)
    return texts
