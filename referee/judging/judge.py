"""Replies of a player beside those of the core, one by one, up to the first that differs."""
import json
from collections import Counter, namedtuple

from judging.commands import COMMANDS, TELLS_ITSELF

# The turns up to the one that differs, and what the player replied to that one.
Difference = namedtuple("Difference", "turns told")

# How far a stream was compared. `difference` is the one at which the comparison ended, or None. `place` is the place of the command without which the
# rest can be compared, or None if all replies were. `replies` is the number of compared replies.
Compared = namedtuple("Compared", "difference place replies")

# A kind of difference as a stream is shrunk: the last command that changed something, the one whose reply differs, and the forms of both replies.
Key = namedtuple("Key", "cause shows due told")


# Commands about an iterator or a walker, and which of these it is.
OF_TRAVERSAL = {"iterator": "iterator", "nextNode": "iterator", "previousNode": "iterator", "walker": "walker", "setCurrent": "walker", "walk": "walker"}

# A refusal of a player whose refusals have no names, which is the same as any.
NAMELESS = "*"


def form_of(reply):
    """Returns the form of a reply: ok, the name of a refusal, or the fault of a player that gave none."""
    return "ok" if "ok" in reply else reply.get("error") or reply.get("fault")


def same(due, told):
    if told is due:
        return True
    if "ok" not in due or "ok" not in told:
        return form_of(due) == form_of(told) or (told.get("error") == NAMELESS and "error" in due)
    return due["ok"] == told["ok"] and json.dumps(due["ok"], sort_keys=True) == json.dumps(told["ok"], sort_keys=True)


def changes(turn):
    known = COMMANDS.get(turn.command[0])
    return known is not None and known.changes and "ok" in turn.reply and turn.command[0] not in TELLS_ITSELF


def cause_place(turns, told):
    """Returns the likely place of the command that the difference comes from: the last one that changed something."""
    last = len(turns) - 1
    if changes(turns[last]) or form_of(turns[last].reply) != form_of(told):
        return last
    return next((at for at in reversed(range(last)) if changes(turns[at])), last)


def cause_of(turns, told):
    """Returns the name of the command that the difference likely comes from."""
    return turns[cause_place(turns, told)].command[0]


def key_of(difference):
    last = difference.turns[-1]
    return Key(cause_of(difference.turns, difference.told), last.command[0], form_of(last.reply), form_of(difference.told))


def object_of(command):
    """Returns the kind and the number of the iterator or walker that a command is about; None for other commands."""
    kind = OF_TRAVERSAL.get(command[0])
    return kind and (kind, command[1])


def filtered_objects(turns):
    """Returns the iterators and walkers of a stream that have a filter."""
    made = [it for it in turns if it.command[0] in ("createIterator", "createWalker") and "ok" in it.reply and it.command[3]]
    return {(COMMANDS[it.command[0]].makes, it.reply["ok"]) for it in made}


class Judge:
    """A core and a player, and how many lines were compared and passed over."""

    def __init__(self, cores, player):
        self.cores, self.player = cores, player
        self.lines = self.compared = self.streams = self.with_filter = 0
        self.left_out, self.by_command = {}, Counter()

    def core(self):
        return self.cores.open()

    def difference(self, turns):
        """Returns the first difference of a stream; None if all replies are the same."""
        self.streams += 1
        return self.compare(turns, self.player.replies(turns), range(len(turns)), set()).difference

    def compare(self, turns, replies, keys, counted, first=0):
        """Compares a stream from the first of its replies on up to a difference. Lines whose keys are in `counted` are not counted again."""
        last, filtered = -1, filtered_objects(turns)
        for at, (last, reply) in enumerate(replies[first:], first + 1):
            fresh = keys[last] not in counted
            counted.add(keys[last])
            self.with_filter += fresh and "skip" not in reply and object_of(turns[last].command) in filtered
            if not self.count(turns[last], reply, fresh):
                return Compared(Difference(turns[: last + 1], reply), cause_place(turns[: last + 1], reply), at)
            if "skip" in reply and changes(turns[last]):
                return Compared(None, last, at)
        ends_early = 0 <= last < len(turns) - 1 and self.player.parts_at(turns[last])
        return Compared(None, last if ends_early else None, len(replies))

    def count(self, turn, reply, fresh):
        """Counts a reply unless its line was counted before; returns whether it is the core's, or none that can be compared."""
        self.lines += fresh
        if "skip" in reply:
            self.left_out[reply["skip"]] = self.left_out.get(reply["skip"], 0) + fresh
            return True
        self.compared += fresh
        self.by_command[turn.command[0]] += fresh
        return same(turn.reply, reply)
