"""The core that judges: a process of the program for each world, and the numbers that exist by its replies."""
import json
import os
from collections import namedtuple

from judging.commands import COMMANDS
from judging.library import Library, Session
from judging.process import STARTS, Lines, line_of, read_reply

# A command that was played: its line, its reply, and the numbers of nodes that it made. `places` and `next` are sent to players that number by place.
Turn = namedtuple("Turn", "command reply made places next")

KINDS = ("node", "range", "static", "iterator", "walker", "observer")


class Cores:
    """Opens worlds. If a libhuckleport.so is named, each is a session of the library. If a process says hello as players do, it serves all. Otherwise
    each is a process of the program.
    """

    def __init__(self, path):
        self.path, self.kept = path, None
        self.library = Library(path) if ".so" in os.path.basename(path) else None
        if not self.library:
            self.kept = Lines([path])
            told = json.loads(self.kept.ask(line_of({"hello": {}}), STARTS))
            if "player" not in told:
                self.end()

    def open(self):
        if self.library:
            return Core(Session(self.library), Session.end)
        if self.kept is None:
            return Core(Lines([self.path]), Lines.end)
        self.kept.ask(line_of({"world": {}}))
        return Core(self.kept, lambda lines: None)

    def end(self):
        if self.kept:
            self.kept.end()
        self.kept = None


class Core:
    """One world. `end` ends or keeps its process."""

    def __init__(self, lines, end):
        self.lines, self.done = lines, end
        self.next = dict.fromkeys(KINDS, 0)
        self.next["node"] = 1

    def ask(self, *command):
        """Returns the answer to a question; None also if it is refused."""
        return self.reply(command).get("ok")

    def reply(self, command):
        return read_reply(self.lines.ask(line_of(command)))

    def play(self, command):
        """Plays a command, and finds the objects that it made."""
        reply = self.reply(command)
        known = COMMANDS.get(command[0])
        if not known or not known.makes or "ok" not in reply:
            return Turn(command, reply, [], [], self.next["node"])
        if known.makes != "nodes":
            self.next[known.makes] += 1
            return Turn(command, reply, [reply["ok"]] if known.makes == "node" else [], [], self.next["node"])
        made = self.made()
        return Turn(command, reply, made, self.places(made), self.next["node"])

    def made(self):
        """Returns the nodes that are new since the last command."""
        found = []
        while "ok" in self.reply(["node", self.next["node"]]):
            found.append(self.next["node"])
            self.next["node"] += 1
        return found

    def places(self, made):
        """Returns the trees of the nodes that a command made, each as the numbers of its nodes in tree order."""
        roots = dict.fromkeys(self.ask("root", it) for it in made)
        return [[root, [row[1] for row in self.ask("tree", root)]] for root in roots]

    def end(self):
        self.done(self.lines)

    def __enter__(self):
        return self

    def __exit__(self, *_):
        self.end()
