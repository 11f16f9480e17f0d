"""What a check tells of each function: whether it is proved, at which goals it has no proof, and of whom it waits."""
import dataclasses
import re

from edit_files import joined

# What a check says of a function whose proof is a hole, or cites one.
HOLE = "depends on a hole"
# A line of a crate's function; one on an error in a proof's file; one on an error in the source, which reaches no prover.
OF_FUNCTION = re.compile(rf"(?:fn|impl) (.+?): (proved|not proved|no proof|could not tell|no holes|{HOLE})\b(.*)")
OF_PROOF = re.compile(r"(?:\./)?proofs/(\S+)/(?:Answers|Invariants|Proof)\.antt:\d+:\d+: error: (?:`([^`]*)`: )?(.*)")
OF_SOURCE = re.compile(r"(?:\./)?(src/\S+?):(\d+):\d+: error\[([\w-]+)\]: (.*)")
SEARCHED = re.compile(r"did not prove ((?:`[^`]*`(?:, | and )?)+)")
CALLS = re.compile(r"it calls ((?:`[^`]*`(?: and |, )?)+),? which (?:is|are) not proved")
WAITS = re.compile(r"a call of `([^`]*)`, which has no proof")
NAMED = re.compile(r"`([^`]*)`")
# A proof's file that names what an edit took away says nothing of a contract.
NAMES = re.compile(r"has no field|is not in scope|has no `|was not admitted")
UNCOVERED = "does not cover"


@dataclasses.dataclass
class Told:
    """What is told of one function. `goals` are those that it has no proof of, `errors` what a proof file's answer to each is refused with, `calls` the functions
    without a proof that its own waits for."""

    kind: str = ""
    goals: list = dataclasses.field(default_factory=list)
    errors: dict = dataclasses.field(default_factory=dict)
    calls: list = dataclasses.field(default_factory=list)
    is_uncovered: bool = False
    lacks_names: bool = False

    @property
    def is_refused(self):
        return bool(self.goals)

    @property
    def is_proved(self):
        return self.kind == "proved"

    def add(self, goal):
        if goal and goal not in self.goals:
            self.goals.append(goal)


@dataclasses.dataclass
class Said:
    """What a whole check said: of each function, by its name in the crate; errors in the source, as file, line from 0 and text; and its last line."""

    functions: dict = dataclasses.field(default_factory=dict)
    faults: list = dataclasses.field(default_factory=list)
    last: str = ""

    def of(self, name):
        return self.functions.setdefault(name, Told())

    def calls_stubs(self, told):
        """Returns whether a function waits for none but those whose proof is a hole."""
        return all(it in self.functions and self.functions[it].kind == HOLE for it in told.calls)

    @property
    def has_judged(self):
        return self.last.startswith(("logic=", "only="))


def function_line(said, crate, line):
    found = OF_FUNCTION.match(line)
    if not found:
        return
    told = said.of(found[1].removeprefix(f"{crate}::"))
    told.kind = found[2]
    for names in SEARCHED.finditer(found[3]):
        for it in NAMED.findall(names[1]):
            told.add(it)
    for names in CALLS.finditer(found[3]):
        told.calls += [it.removeprefix(f"{crate}::") for it in NAMED.findall(names[1])]
    told.calls += [it.removeprefix(f"{crate}::") for it in WAITS.findall(found[3])]
    told.is_uncovered = UNCOVERED in found[3]


def proof_line(said, line):
    found = OF_PROOF.match(line)
    if not found:
        return
    told = said.of(found[1].replace("/", "::"))
    told.lacks_names = told.lacks_names or bool(NAMES.search(found[3]))
    if not NAMES.search(found[3]):
        told.add(found[2])
        told.errors.setdefault(found[2], found[3])


def read(crate, text):
    """Returns what the output of a check of a crate says."""
    said = Said()
    lines = [it for it in text.rstrip("\n").split("\n") if it]
    said.last = lines[-1] if lines else ""
    for line in lines:
        fault = OF_SOURCE.match(line)
        if fault:
            said.faults.append((fault[1], int(fault[2]) - 1, f"{fault[3]}: {fault[4]}"))
        function_line(said, crate, line)
        proof_line(said, line)
    return said


def names_of(said, owner):
    """Returns the names under which a check tells of a function of the source and of the closures in it; none where it tells of none, or of several."""
    exact = owner.path()
    closures = tuple(f"{joined(module, 'fn', owner.of_type, owner.name)}::" for module in (owner.home, owner.module()))
    found = [exact] if exact in said.functions else [it for it in said.functions if is_like(it, owner)]
    if len(found) != 1:
        return []
    return found + [it for it in said.functions if it.startswith(closures)]


def is_like(name, owner):
    """Returns whether a name is that of a method by which a type meets a trait, which joins the names of both."""
    places = [joined(module, owner.of_type) for module in (owner.home, owner.module())]
    return name.endswith(f"::{owner.name}") and any(it in name or it.replace("::", "++") in name for it in places)
