"""The findings of a run, kept in a folder: a file for each case, and one for the run."""
import json
import os
from dataclasses import asdict, dataclass, field

from judging.core import Turn
from judging.judge import Difference, key_of
from judging.moments import place_of


@dataclass
class Case:
    """A shrunk difference.

    - `count`: how often it was seen
    - `known`: the name of its entry
    - `place`: the place of the command that it comes from
    - `moments`: the state behind each command
    - `again`: whether it came again when its stream was played anew
    - `around`: the faults that the adapter played around
    """

    player: str
    version: str
    commands: list
    replies: list
    told: dict
    key: dict
    group: str
    seed: str
    places: list = field(default_factory=list)
    moments: list = field(default_factory=list)
    place: int = 0
    again: bool = True
    count: int = 0
    known: str | None = None
    around: list = field(default_factory=list)

    def difference(self):
        turns = [Turn(command, reply, [], places, 0) for command, reply, places in zip(self.commands, self.replies, self.places)]
        return Difference(turns, self.told)

    def name(self):
        return name_of(self.commands)


def name_of(commands):
    """Returns the name of a case. Streams that shrink to the same commands are one case."""
    return json.dumps(list(commands))


def case_of(difference, player, group, seed, moments, again):
    turns = difference.turns
    parts = {"commands": [it.command for it in turns], "replies": [it.reply for it in turns], "places": [it.places for it in turns]}
    place = place_of(moments, len(turns) - 1)
    key = key_of(difference)._replace(cause=turns[place].command[0])._asdict()
    parts |= {"key": key, "group": group, "seed": seed, "moments": moments, "place": place, "again": again, "around": list(player.around)}
    return Case(player.name, player.version, told=difference.told, **parts)


class Found:
    """The cases of a run, each once. A case is written when it is found and when the run ends."""

    def __init__(self, folder):
        self.folder = folder
        self.cases = {}
        os.makedirs(folder, exist_ok=True)
        for name in os.listdir(folder):
            if name.startswith("case-") and name.endswith(".json"):
                os.remove(os.path.join(folder, name))

    def case(self, difference):
        """Returns the case that a difference is; None if there is none yet."""
        return self.cases.get(name_of(it.command for it in difference.turns))

    def keep(self, case):
        """Adds a case, and writes it at once, so that it stays even if the run fails."""
        self.cases[case.name()] = case
        self.write("case-%03d.json" % len(self.cases), asdict(case))

    def write(self, name, value):
        with open(os.path.join(self.folder, name), "w", encoding="utf-8") as file:
            json.dump(value, file, indent=1)
            file.write("\n")

    def end(self, told):
        for at, case in enumerate(self.cases.values(), 1):
            self.write("case-%03d.json" % at, asdict(case))
        self.write("run.json", told)

    def new(self):
        return [it for it in self.cases.values() if it.known is None]


def cases_of(folder):
    """Returns the cases of a folder, and the summary of the run."""
    found = []
    for name in sorted(os.listdir(folder)):
        if name.startswith("case-") and name.endswith(".json"):
            with open(os.path.join(folder, name), encoding="utf-8") as file:
                found.append(Case(**json.load(file)))
    path = os.path.join(folder, "run.json")
    told = {}
    if os.path.exists(path):
        with open(path, encoding="utf-8") as file:
            told = json.load(file)
    return found, told
