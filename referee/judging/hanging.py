"""Commands to which a player is known not to reply: they are drawn a hundredth as often, and their replies are waited for a short time.

An entry of the known differences names one of these in its member `hangs`. A rule is asked of a command ahead of its reply (then that is None), and
again with the core's reply.
"""
DRAWN = 0.01
SECONDS = 0.2
WITH_CHILD = ("insertBefore", "replaceChild")


def in_its_own_place(command, reply):
    """A node is inserted before itself or in its own place."""
    return command[0] in WITH_CHILD and command[2] == command[3]


def into_itself(command, reply):
    """A node is inserted into itself."""
    return command[0] in (*WITH_CHILD, "appendChild") and command[1] == command[2]


def refused_for_its_place(command, reply):
    """A node is inserted in a place that the core refuses, as below itself."""
    return command[0] in WITH_CHILD and reply is not None and reply.get("error") == "HierarchyRequestError"


HANGS = {it.__name__.replace("_", " "): it for it in (in_its_own_place, into_itself, refused_for_its_place)}


class Hanging:
    """The rules of a player's known hangs."""

    def __init__(self, names=()):
        self.rules = [HANGS[it] for it in names]

    def fits(self, command, reply=None):
        return any(rule(command, reply) for rule in self.rules)

    def seconds(self, command, reply, usual):
        """Returns how long the reply to a command is waited for."""
        return min(SECONDS, usual) if self.fits(command, reply) else usual


def hanging_of(known, player):
    """Returns the known hangs of a player."""
    return Hanging(dict.fromkeys(it["hangs"] for it in known if it.get("hangs") and player in it["players"]))
