"""Probes: an edit that says at which goal it is to be refused is asked for this goal alone.

A probe is a twin that has an answer for one goal, the one of its line `at:`: its own where the proof has one, else the tactics that a check tries by
itself. No tactic tries its other goals. All other functions of the crate are stubs, which the check takes at their contracts' word: the crate's own proof
is of their bodies. So next to nothing that is proved elsewhere is proved once more here.

Where the goal of a probe has no proof, its edit is refused there. An edit of which its probe says nothing, or that says no goal, since it is refused at none,
has a whole twin beside the same stubs.
"""
import dataclasses
import glob
import os
import re

import edit_files
import edit_twins

# What begins in the first column of a file of answers, but for what closes something.
PIECE = re.compile(r"\n(?=[^\s)}\]])")
GOAL = re.compile(r"pub (\S+) :\s+goal\.\1\s*\Z")
WORDS = re.compile(r"[^\s(),;{}\[\]]+")
# What a check tries at a goal without an answer (see the `Proof` that `rattle check --generated` prints).
TACTICS = """    first_of (
        search own-rules.rules,
        grind (own-omega.arith, own-grind.common_steps) steps 2000000,
        grind (own-omega.arith, own-grind.elements) steps 2000000,
        grind (own-omega.arith, own-grind.common_steps) steps 4000000,
    )"""
TACTICS_USED = ("use borrow.Author.Rules as own-rules", "use native.Mathlib.Omega as own-omega", "use Rattle.std.proofs.lemmas.Grind as own-grind")
# What a check says of a function without a proof.
LOST = ("not proved", "no proof")
# How a tactic says that it found no proof.
UNFOUND = re.compile(r"`(?:search|grind|omega)`")
# Attributes of functions that other code than the crate's calls, or whose proofs are not their own; and of tactics with lemmas of their own.
UNSTUBBED = re.compile(r"#\[(?:test|cycle|no_mangle|export_name|unsafe)")
OWN_TACTICS = re.compile(r"#\[tactic\(.*(?:using|unfolding)\(")
HOLE = "use Rattle.{crate}.proofs.{module}.Statement.{{statement}}\n\npub {name}_spec : {{M : Type 1}} → statement M\n{name}_spec = ?\n"


def pieces_of(text):
    """Returns the declarations of a file of answers: what is unfolded in one belongs to it."""
    found = []
    for it in PIECE.split(text):
        if found and found[-1].startswith("unfolding") and "\n" not in found[-1]:
            found[-1] += f"\n{it}"
        else:
            found.append(it)
    return [it.rstrip() for it in found if it.strip() and not it.startswith("--")]


def name_of(piece):
    words = piece.partition("\n")[2].split() if piece.startswith("unfolding") else piece.split()
    return next(it for it in words if it not in ("pub", "abbrev"))


def goals_of(pieces):
    return {found[1] for it in pieces for found in [GOAL.match(it)] if found}


def answer_alone(pieces, goal):
    """Returns these declarations without the answers to other goals, but for those that what is left speaks of."""
    goals, wanted = goals_of(pieces), {goal}
    while True:
        kept = [it for it in pieces if name_of(it) not in goals or name_of(it) in wanted]
        more = {word for it in kept if not it.startswith("use ") for word in WORDS.findall(it)} & goals - wanted
        if not more:
            return kept
        wanted |= more


def parameters(text):
    """Returns whether a list of parameters between `<` and `>` has one of a type."""
    return any(not it.strip().startswith("'") for it in re.split(r",(?![^<]*>)", text))


def is_generic(lines, owner):
    """Returns whether a function has parameters of types, by itself or by its block: its answers are then given what is known of these first."""
    block = next((it for it in reversed(lines[: owner.line]) if it and not it[0].isspace() and it != "}"), "") if owner.of_type else ""
    found = [re.match(r"(?:unsafe\s+)?impl<(.*?)>\s", block), re.search(r"\bfn \w+<(.*?)>\(", lines[owner.line])]
    return any(it and parameters(it[1]) for it in found) or "impl " in lines[owner.line].partition("->")[0]


class Probes(edit_twins.Twins):
    """The probes of those edits of a crate that may have one; or, with nothing edited, those of each goal that an edit is meant to meet, which has to be proved."""

    def __init__(self, crate, folder, edits, are_edited=True, are_whole=False):
        super().__init__(crate, folder, edits)
        self.are_whole = are_whole
        found = [it for it in self.made if not are_whole and self.may_probe(it)]
        whole = [it for it in self.made if are_edited and self.is_whole(it)]
        if not are_edited:
            found = [*{(it.owner, it.edit.meant): self.unedited(it) for it in found}.values()]
        self.made = [*map(self.without_tactics, found), *whole]

    def is_whole(self, twin):
        """Returns whether a twin here is asked for all goals."""
        return self.are_whole or not twin.edit.meant

    def goal(self, probe):
        return probe.edit.meant.rpartition(": ")[2]

    def may_probe(self, twin):
        """Returns whether the goal that an edit is meant to meet is one of this function's, which has the proof that a check makes."""
        attributes = [it for it in twin.lines if it.strip().startswith("#[")]
        return (
            twin.edit.meant.rpartition(": ")[0] == twin.owner.path()
            and not os.path.exists(f"{self.folder}/proofs/{edit_twins.place_of(twin.owner)}/Proof.antt")
            and not any(OWN_TACTICS.search(it) for it in attributes)
        )

    def without_tactics(self, twin):
        """Returns a twin at whose goals no tactic is tried."""
        kept = [it for it in twin.lines if not it.strip().startswith("#[tactic(")]
        indent = kept[0][: len(kept[0]) - len(kept[0].lstrip())]
        return dataclasses.replace(twin, lines=[f"{indent}#[tactic(none)]", *kept])

    def refused(self, said):
        """Returns those of which the check says that their goal has no proof."""
        told = lambda it: said.functions.get(it.named().path())
        return [it for it in self.made if not self.is_whole(it) and told(it) and self.has_no_proof(it, told(it))]

    def lost(self, said):
        """Returns the twins that are asked for all goals and have no proof, each with what the check tells of it; a call of a stub is no reason."""
        told = [(it, said.functions.get(it.named().path())) for it in self.made if self.is_whole(it)]
        return [(it, found) for it, found in told if found and found.kind in LOST and said.calls_stubs(found)]

    def unproved(self, said):
        """Returns those of which the check does not say that their goal has a proof; a goal that a function has with its edit alone counts for none."""
        told = lambda it: said.functions.get(it.named().path())
        return [it for it in self.made if not told(it) or self.error(it, told(it))]

    def error(self, probe, told):
        """Returns with what the answer to the goal of a probe is refused; nothing where the function has no such goal."""
        text, goal = told.errors.get(self.goal(probe), ""), self.goal(probe)
        return "" if text.startswith(f"`goal.{goal}`") else text

    def has_no_proof(self, probe, told):
        text = self.error(probe, told)
        return bool(text) and not told.lacks_names and (self.has_answer(probe) or bool(UNFOUND.search(text)))

    def has_answer(self, probe):
        return self.goal(probe) in goals_of(pieces_of(self.answers(probe)))

    def answers(self, probe):
        return self.texts.get(f"{self.folder}/proofs/{edit_twins.place_of(probe.owner)}/Answers.antt", "")

    def lay(self, to, left_out=()):
        at = super().lay(to, left_out)
        self.stub_all(to, ())
        return at

    def lay_placed(self, to, edits):
        """Lays a copy of the crate with edits in their places, and stubs for all functions that these neither change nor are meant to meet."""
        super().lay(to)
        for file, text in edit_files.texts_of(edits, self.folder).items():
            with open(f"{to}/{file}", "w", encoding="utf-8") as it:
                it.write(text)
        self.stub_all(to, {it.meant.rpartition(": ")[0] for it in edits} | {owner.path() for it in edits for owner in it.owners if owner})

    def lay_proof(self, to, twin):
        super().lay_proof(to, twin)
        if self.is_whole(twin):
            return
        path = f"{to}/proofs/{edit_twins.place_of(twin.named())}/Answers.antt"
        os.makedirs(os.path.dirname(path), exist_ok=True)
        text = edit_files.read_file(path) if os.path.exists(path) else ""
        with open(path, "w", encoding="utf-8") as it:
            it.write(self.probed(twin, pieces_of(text)))

    def probed(self, twin, pieces):
        """Returns the answer to the goal of a probe."""
        goal, module = self.goal(twin), twin.named().path().replace("::", ".")
        kept = answer_alone(pieces, goal)
        uses, rest = [it for it in kept if it.startswith("use ")], [it for it in kept if not it.startswith("use ")]
        if not any(it.endswith(".Goals as goal") for it in uses):
            uses.append(f"use Rattle.{self.crate}.proofs.{module}.Goals as goal")
        if goal not in goals_of(pieces):
            lines = edit_files.read_file(f"{self.folder}/{twin.owner.file}").split("\n")
            uses += TACTICS_USED
            rest += [f"pub {goal} : goal.{goal}", f"{goal} {'g c' if is_generic(lines, twin.owner) else 'c'} =\n{TACTICS}"]
        return "\n".join([*uses, "", *rest]) + "\n"

    def stub_all(self, to, kept):
        """Leaves of each function but the twins and those of these names its contract, and a hole for its proof."""
        for path in glob.glob(f"{to}/src/**/*.rt", recursive=True):
            lines, file = edit_files.read_file(path).split("\n"), os.path.relpath(path, to)
            for owner in {it for it in edit_files.owners_of(lines, file, edit_files.homes_of(self.folder)) if it and it.path() not in kept}:
                self.stub(to, lines, owner)
            with open(path, "w", encoding="utf-8") as it:
                it.write("\n".join(lines))

    def stub(self, to, lines, owner):
        """Leaves a function's contract of it, where that may be. Each line keeps its number."""
        body = self.body_to_stub(lines, owner)
        if body:
            lines[body[0] : body[1] + 1] = [f"{lines[body[0]]} loop {{}} }}", *[""] * (body[1] - body[0])]
            self.lay_hole(to, owner)

    def body_to_stub(self, lines, owner):
        """Returns the first and the last line of a function's body that may be left out, or None."""
        line = lines[owner.line]
        if edit_twins.NAMED.search(owner.name) or re.search(r"\bconst fn|\bextern\b|\bfn main\b|-> .*\bimpl\b", line) or not edit_twins.may_have(lines, owner):
            return None
        found = edit_twins.extent(lines, owner.line)
        if not found or any(UNSTUBBED.search(it) for it in lines[found[0] : owner.line]) or not lines[found[1]].endswith("{"):
            return None
        return None if self.is_told_elsewhere(owner) else found[1:]

    def lay_hole(self, to, owner):
        folder = f"{to}/proofs/{edit_twins.place_of(owner)}"
        os.makedirs(folder, exist_ok=True)
        for it in ("Answers", "Invariants"):
            if os.path.exists(f"{folder}/{it}.antt"):
                os.remove(f"{folder}/{it}.antt")
        with open(f"{folder}/Proof.antt", "w", encoding="utf-8") as it:
            it.write(HOLE.format(crate=self.crate, module=owner.path().replace("::", "."), name=owner.name))
