"""Streams as steps, which name objects by the steps that made them, so that a step can be left out without changing the others' meaning."""
from collections import namedtuple

from judging.commands import COMMANDS, kind_of

# An object, as one of those that a step made.
Made = namedtuple("Made", "kind step place")

# A command whose arguments name objects by the steps that made them. A step keeps its key when others are left out.
Step = namedtuple("Step", "key name values")


class Owners:
    """The step that made each object."""

    def __init__(self):
        self.found = {}

    def add(self, key, name, turn):
        """Adds the objects that a step made, and returns the number of each."""
        makes = COMMANDS[name].makes if name in COMMANDS else None
        if not makes or "ok" not in turn.reply:
            return {}
        made = turn.made if makes in ("node", "nodes") else [turn.reply["ok"]]
        kind = "node" if makes == "nodes" else makes
        numbers = {Made(kind, key, place): number for place, number in enumerate(made)}
        self.found.update(((kind, number), it) for it, number in numbers.items())
        return numbers

    def of(self, form, value):
        kind = kind_of(form)
        return self.found.get((kind, value), value) if kind and value is not None else value


def steps_of(turns):
    """Returns the steps of a stream that was played."""
    owners, steps = Owners(), []
    for key, turn in enumerate(turns):
        name, *values = turn.command
        forms = COMMANDS[name].arguments if name in COMMANDS else ()
        if len(forms) == len(values):
            values = [owners.of(form, value) for form, value in zip(forms, values)]
        steps.append(Step(key, name, tuple(values)))
        owners.add(key, name, turn)
    return steps


def play_steps(core, steps):
    """Plays steps to a core, without those that name missing objects. Returns the steps that were played, and their turns."""
    numbers, played, turns = {}, [], []
    owners = Owners()
    for step in steps:
        if any(isinstance(it, Made) and it not in numbers for it in step.values):
            continue
        turn = core.play([step.name, *(numbers[it] if isinstance(it, Made) else it for it in step.values)])
        numbers.update(owners.add(step.key, step.name, turn))
        played.append(step)
        turns.append(turn)
    return played, turns


def play_commands(core, commands):
    return [core.play(list(it)) for it in commands]
