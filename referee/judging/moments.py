"""The states after each command of a case, of the core and of the player.

A state has the trees, each node's neighbours and children, the ends of ranges, the places of iterators and walkers, and the records that the command
queued. A difference comes from the first moment at which the two states differ, whichever command shows it.
"""
from judging.commands import COMMANDS, DOCUMENT, FRAGMENT, PARENTS
from judging.core import Turn

MOST_TREES, MOST_NODES = 8, 12
# The number of last commands whose moments are compared first.
LAST = 4
# The members of a node's reply that are its place.
PLACES = ("parent", "previous", "next")

# An adapter's word for a node that has no number there.
NUMBERLESS = "a node without a number"


def questions_of(core):
    """Returns questions that show all ranges, iterators, walkers and new records, the places of the first nodes, and all trees. Empty Documents and
    fragments without ends of ranges are left out.
    """
    ranges = [["range", it] for it in range(core.next["range"])]
    ends = {node for it in ranges for node in (core.ask(*it) or [])[::2]}
    numbers = [it for it in range(core.next["node"]) if core.ask("node", it)]
    roots = dict.fromkeys(core.ask("root", it) for it in numbers)
    kinds = {it: core.ask("node", it)["type"] for it in {*roots, *numbers[:MOST_NODES]}}
    empty = [it for it in roots if kinds[it] in (DOCUMENT, FRAGMENT) and not core.ask("length", it)]
    steps = [[kind, it] for kind in ("iterator", "walker") for it in range(core.next[kind])]
    records = [["takeRecords", it] for it in range(core.next["observer"])]
    places = [["node", it] for it in numbers[:MOST_NODES]] + [["children", it] for it in numbers[:MOST_NODES] if kinds[it] in PARENTS]
    return [["tree", it] for it in roots if it in ends or it not in empty][:MOST_TREES] + places + ranges + steps + records


def may_change(command):
    return command[0] in COMMANDS and COMMANDS[command[0]].changes


def asked_between(core, commands, first=0):
    """Returns the turns of commands. From the first place on, questions follow each command that may change something. For each question it also returns
    its place and its command's.
    """
    turns, places = [], []
    for at, command in enumerate(commands):
        turns.append(core.play(command))
        for question in questions_of(core) if at >= first and may_change(command) else ():
            places.append((len(turns), at))
            turns.append(Turn(question, core.reply(question), [], [], 0))
    return turns, places


def moments_of(judge, commands, first=0):
    """Returns for each command that may change something its place, and all questions behind it with both replies. If the player does not answer, its
    replies are skips. Nothing is asked behind commands ahead of the first place.
    """
    with judge.core() as core:
        turns, places = asked_between(core, commands, first)
    told = dict(judge.player.replies(turns))
    found = {}
    for place, at in places:
        question, due = turns[place].command, turns[place].reply
        found.setdefault(at, []).append([question, due, told.get(place, {"skip": "not told"})])
    return [[at, asked] for at, asked in found.items()]


def last_moments(judge, difference):
    """Returns the moments behind the last commands of a difference, or None if it may come from one before them."""
    turns = difference.turns[: len(difference.turns) - ("fault" in difference.told)]
    changing = [at for at, it in enumerate(turns) if may_change(it.command)]
    first = changing[-LAST] if len(changing) > LAST else 0
    moments = moments_of(judge, [it.command for it in turns], first)
    return None if first and moments and apart(moments[0][1]) else moments


def alike(due, told):
    """Returns whether two answers are the same but for nodes that have no number there."""
    if told == NUMBERLESS:
        return isinstance(due, int)
    if isinstance(due, list) and isinstance(told, list):
        return len(due) == len(told) and all(map(alike, due, told))
    if isinstance(due, dict) and isinstance(told, dict):
        return due.keys() == told.keys() and all(alike(due[it], told[it]) for it in due)
    return due == told and isinstance(due, bool) == isinstance(told, bool)


def apart(asked):
    """Returns the questions of a moment whose replies differ."""
    return [it for it in asked if "skip" not in it[2] and not alike(answer_in(it[0], it[1]), answer_in(it[0], it[2]))]


def answer_in(question, reply):
    """Returns the answer of a reply, or for a node its place alone. Its other members show whenever the node is asked for."""
    answer = reply.get("ok")
    return [answer.get(it) for it in PLACES] if question[0] == "node" and isinstance(answer, dict) else answer


def place_of(moments, last):
    """Returns the place of the command that a difference comes from: the first after which the two differ, or the last."""
    return next((at for at, asked in moments if apart(asked)), last)


def state_of(asked, side):
    """Returns the trees and ranges of a moment for pictures, by the core's replies (1) or the player's (2)."""
    answers = [(it[0], it[side].get("ok")) for it in asked]
    trees = [answer for question, answer in answers if question[0] == "tree" and answer and all(isinstance(it[1], int) for it in answer)]
    return {"trees": trees, "ranges": [[question[1], answer] for question, answer in answers if question[0] == "range" and answer]}


def states_of(moments, place):
    """Returns the three states of a case: before the command that it comes from, and after it in the core and in the player."""
    before = next((asked for at, asked in reversed(moments) if at < place), [])
    after = next((asked for at, asked in reversed(moments) if at <= place), [])
    return {"before": state_of(before, 1), "due": state_of(after, 1), "told": state_of(after, 2)}
