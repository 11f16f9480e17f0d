"""Known differences, each with its reason: a file of entries, and the search for the entry of a shrunk case.

An entry is an object. The command that shows the difference does not matter. Its members:

- `name`, and `players`, a list of names
- `cause`: names a function of judging.causes over the stream and both sides' replies
- `of`: the commands that the difference may come from; all if it is missing
- `why`: `ours` (a rule of this core's own profile), `letter` (another or an open text of the standard), `fault` (of the player) or `choice` (by the
  player's own documentation)
- `reason`: a sentence
- `hangs`: names a rule of judging.hanging, if the player never replies to the command
- `around`: names a fault that the player's adapter can play around, once it was shown
"""
import json
import os

from judging.causes import CAUSES, holds
from judging.hanging import HANGS
from judging.shown import Shown

HERE = os.path.dirname(os.path.dirname(os.path.abspath(__file__)))
KNOWN = os.path.join(HERE, "known.json")
WHY = {"ours": "ours: a rule of this core's own profile", "letter": "the letter of the standard", "fault": "a fault of the player", "choice": "the player's own rule"}
MEMBERS = {"name", "players", "cause", "of", "why", "reason", "hangs", "around"}


def read_known(path):
    """Returns the entries of a file."""
    with open(path, encoding="utf-8") as file:
        found = json.load(file)
    for it in found:
        wrong = set(it) - MEMBERS
        if wrong or it.get("why") not in WHY or not all(it.get(name) for name in ("name", "players", "cause", "reason")):
            raise ValueError(f"{path}: an entry needs name, players, cause, why and reason, and has nothing but {', '.join(sorted(MEMBERS))}: {it}")
        if it["cause"] not in CAUSES:
            raise ValueError(f"{path}: there is no cause {it['cause']}")
        if it.get("hangs", next(iter(HANGS))) not in HANGS:
            raise ValueError(f"{path}: there is no rule of hangs {it['hangs']}")
    return found


def entry_of(known, player, shown):
    """Returns the first entry that fits a difference, or None if it is new."""
    return next((it for it in known if player in it["players"] and holds(it, shown)), None)


def entry_of_case(known, player, judge, case):
    """Returns the first entry that fits a kept case, or None if it is new."""
    return entry_of(known, player, Shown(judge, case.difference(), case.moments))
