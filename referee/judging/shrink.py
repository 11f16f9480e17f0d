"""Makes a stream that shows a difference as short as it gets, with the fewest nodes and the plainest words."""
import time
from collections import namedtuple
from contextlib import contextmanager

from judging.commands import COMMANDS
from judging.judge import key_of
from judging.streams import Made, play_commands, play_steps, steps_of

# The seconds for shrinking one stream, and the missing replies for whose waits it gets more time. On a busy machine TRIES streams are tried even after
# that time, unless the difference is a hang.
SECONDS = 8.0
HANGS = 15
TRIES = 200

MAKERS = {"createElement", "createText", "createComment", "createPI", "createDoctype", "createFragment", "createRange", "createObserver", "newDocument"}
# A plainer command for one that is not needed as it is.
PLAINER = {
    "createPI": ("createComment", lambda values: (values[0], values[2])),
    "createComment": ("createText", lambda values: values),
    "insertBefore": ("appendChild", lambda values: values[:2]),
    "replaceChildren": ("setTextContent", lambda values: (values[0], "")),
    "removeChild": ("remove", lambda values: values[1:]),
    "replaceData": ("deleteData", lambda values: values[:3]),
    "insertData": ("appendData", lambda values: (values[0], values[2])),
    "selectNodeContents": ("setEnd", lambda values: (*values, 1)),
    "setStart": ("setEnd", lambda values: values),
    "setStartBefore": ("setStart", lambda values: (*values, 0)),
    "setStartAfter": ("setStart", lambda values: (*values, 1)),
    "setEndBefore": ("setEnd", lambda values: (*values, 0)),
    "setEndAfter": ("setEnd", lambda values: (*values, 1)),
    "selectNode": ("selectNodeContents", lambda values: values),
}

# The shortest difference that was found, how many streams were tried, and whether the first one came again when it was played anew.
Shrunk = namedtuple("Shrunk", "difference tries again")


class Shrinker:
    def __init__(self, judge, difference, seconds=SECONDS):
        self.judge, self.limit = judge, time.monotonic() + seconds
        self.key, self.best = key_of(difference), difference
        with judge.core() as core:
            self.steps = steps_of(play_commands(core, [it.command for it in difference.turns]))
        self.tries = 0

    def out_of_time(self):
        return time.monotonic() > self.limit and (self.tries >= TRIES or self.key.told == "hung")

    def shows(self, steps, any_cause=False):
        """Returns whether the steps still show the difference, and keeps them if so. With `any_cause` it may come from another command."""
        if self.out_of_time():
            return False
        self.tries += 1
        with self.judge.core() as core:
            played, turns = play_steps(core, steps)
        found = self.judge.difference(turns) if turns else None
        if found is None or key_of(found)[any_cause:] != self.key[any_cause:]:
            return False
        self.steps, self.best, self.key = played[: len(found.turns)], found, key_of(found)
        return True

    def comes_again(self):
        """Returns whether the whole stream shows the same reply once more."""
        self.limit += self.judge.player.seconds
        return self.shows(self.steps)

    def settle(self):
        """Leaves out the command that the difference seems to come from, as long as it shows without it too."""
        while self.key.cause != self.key.shows:
            at = max((at for at, it in enumerate(self.steps) if it.name == self.key.cause), default=-1)
            if at < 0 or not self.shows(self.steps[:at] + self.steps[at + 1 :], any_cause=True):
                return

    def leave_out(self):
        """Leaves out runs of steps, long ones first, with the steps that name objects of theirs."""
        size = max(len(self.steps) // 2, 1)
        while size and not self.out_of_time():
            at = len(self.steps) - size
            while at >= 0:
                self.shows(self.steps[:at] + self.steps[at + size :])
                at = min(at, len(self.steps)) - size
            size //= 2

    def try_each(self, others):
        """Puts other steps in the place of each, as long as one of them shows the same."""
        at = len(self.steps) - 1
        while at >= 0 and not self.out_of_time():
            step = self.steps[at]
            for other in others(step):
                if other != step and self.shows(self.steps[:at] + [other] + self.steps[at + 1 :]):
                    break
            at = min(at, len(self.steps)) - 1

    def plainer(self, step):
        if step.name in PLAINER and step.key != self.steps[-1].key:
            name, values = PLAINER[step.name]
            yield step._replace(name=name, values=tuple(values(step.values)))

    def simpler_values(self, step):
        """Yields the step with one of its values simpler."""
        forms = COMMANDS[step.name].arguments if step.name in COMMANDS else ()
        for place, (form, value) in enumerate(zip(forms, step.values)):
            for simpler in self.simpler(form.rstrip("?"), value, step.key):
                yield step._replace(values=(*step.values[:place], simpler, *step.values[place + 1 :]))

    def simpler(self, form, value, key):
        if isinstance(value, Made) or form in ("node", "parent", "child", "document"):
            yield from self.other_objects(value, key)
        elif form == "units":
            yield from (it for it in ("", "a", "ab") if it != value and (value is None or len(it) < len(value) or isinstance(value, list)))
            yield from ("b" * len(value),) if isinstance(value, str) and value not in ("", "a", "ab") and not value.startswith("b") else ()
        elif form in ("name", "target", "attribute", "doctype", "id"):
            yield from (it for it in ("a",) if it != value and value not in ("", "a"))
        elif form in ("offset", "count", "how") and value:
            yield from (it for it in (0, 1, value - 1) if it < value)
        elif form == "show" and value != 4294967295:
            yield 4294967295
        elif form == "filter" and value:
            yield []
        elif form == "flag" and not value:
            yield True
        elif form == "options":
            yield from ({name: it for name, it in value.items() if name != left} for left in value)

    def other_objects(self, value, key):
        """Yields objects of the same kind that were made sooner. The first Document is the first of all, so that no value recurs."""
        if not isinstance(value, Made):
            return
        if value.kind == "node":
            yield 0
        for step in self.steps:
            made = COMMANDS[step.name].makes if step.name in COMMANDS else None
            if step.key in (key, value.step):
                return
            if (made == "nodes" and value.kind == "node") or made == value.kind:
                yield Made(value.kind, step.key, 0)

    def makers_first(self):
        """Moves the commands that make single objects to the front, so that equal cases look the same."""
        makers = [it for it in self.steps[:-1] if it.name in MAKERS and not any(isinstance(value, Made) for value in it.values)]
        order = {it.key for it in makers}
        makers.sort(key=lambda it: (it.name != "createElement", it.name != "createText", it.name))
        moved = makers + [it for it in self.steps if it.key not in order]
        if moved != self.steps:
            self.shows(moved)

    def swap(self):
        """Orders neighbouring commands by their names if they may change places."""
        for at in range(len(self.steps) - 2):
            first, second = self.steps[at : at + 2]
            if at + 2 < len(self.steps) and first.name not in MAKERS and (second.name, str(second.values)) < (first.name, str(first.values)):
                self.shows(self.steps[:at] + [second, first] + self.steps[at + 2 :])

    def work(self):
        size = None
        while size != self.steps and not self.out_of_time():
            size = list(self.steps)
            self.settle()
            self.leave_out()
            self.try_each(self.plainer)
            self.try_each(self.simpler_values)
        self.makers_first()
        self.swap()
        return self.best


@contextmanager
def hurried(player, hangs):
    """Gives each reply a fifth of its time while shorter streams are tried, since any may hang. Yields that time if the difference is a hang, or 0."""
    seconds = player.seconds
    player.seconds = max(min(seconds, 1.0), seconds / 5)
    try:
        yield player.seconds if hangs else 0.0
    finally:
        player.seconds = seconds


def shrunk(judge, difference, seconds=SECONDS):
    """Returns the shortest found stream with the same kind of difference, or the stream as it is if the difference does not come again."""
    first = Shrinker(judge, difference, seconds)
    if not first.comes_again():
        return Shrunk(difference, first.tries, False)
    with hurried(judge.player, difference.told.get("fault") == "hung") as each:
        shrinker = Shrinker(judge, first.best, seconds + HANGS * each)
        least = shrinker.work()
    tries = first.tries + shrinker.tries
    sure = not each or key_of(judge.difference(least.turns) or difference) == key_of(least)
    return Shrunk(least if sure else first.best, tries, True)
