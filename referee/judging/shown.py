"""A difference in the form that causes query: its turns, the command that it comes from, the states around that command, and the core's answers if
other commands replace it.
"""
from collections import namedtuple
from functools import cached_property

from judging.commands import COMMANDS, DOCUMENT, MADE, WITH_DATA
from judging.judge import form_of, same
from judging.moments import NUMBERLESS, alike, apart, place_of
from judging.streams import play_commands

Record = namedtuple("Record", "observer type target added removed previous next attribute old")

# An end that differs: its place before, the expected place and the reported one, and the nodes of the range's other end, before and as expected.
End = namedtuple("End", "before due told others")


class State:
    """Trees and range ends by number, as one side of a moment reports them."""

    def __init__(self, asked, side):
        self.rows, self.parent, self.children, self.ends = {}, {}, {}, {}
        for question, *replies in asked:
            answer = replies[side].get("ok")
            if question[0] == "tree" and answer:
                self.plant(answer)
            if question[0] == "range" and answer:
                self.ends.update(((question[1], at), tuple(answer[at : at + 2])) for at in (0, 2))

    def plant(self, rows):
        above = []
        for at, (depth, number, *row) in enumerate(rows):
            number = (NUMBERLESS, len(self.rows), at) if number == NUMBERLESS else number
            del above[depth:]
            self.rows[number], self.children[number] = row, []
            self.parent[number] = above[-1] if above else None
            if above:
                self.children[above[-1]].append(number)
            above.append(number)

    def kind(self, number):
        return self.rows.get(number, [None])[0]

    def data(self, number):
        return self.rows[number][2] if self.kind(number) in WITH_DATA else None

    def within(self, number, top):
        """Returns whether a node is another or its descendant."""
        while number is not None and number != top:
            number = self.parent.get(number)
        return number is not None

    def root(self, number):
        while self.parent.get(number) is not None:
            number = self.parent[number]
        return number

    def sibling(self, number, step):
        around = self.children.get(self.parent.get(number), [])
        at = around.index(number) + step if number in around else -1
        return around[at] if 0 <= at < len(around) else None

    def behind(self, number):
        """Returns the point right behind a node in its parent, or None if it has no parent."""
        parent = self.parent.get(number)
        return None if parent is None else (parent, self.children[parent].index(number) + 1)


class Shown:
    """A difference in the form that causes query. `place` is the place of the command that it comes from, and `cause` that command."""

    def __init__(self, judge, difference, moments):
        self.judge, self.turns, self.moments = judge, difference.turns, moments
        self.due, self.told = difference.turns[-1].reply, difference.told
        self.last = len(self.turns) - 1
        self.place = place_of(moments, self.last)
        self.cause = self.turns[self.place].command
        self.name, self.values = self.cause[0], self.cause[1:]

    before = cached_property(lambda self: self.state(self.place - 1))
    after = cached_property(lambda self: self.state(self.place))
    player = cached_property(lambda self: self.state(self.place, 1))

    def state(self, place, side=0):
        """Returns the state after the command at a place: the core's (side 0) or the player's (1)."""
        return State(self.asked_at(place), side)

    def asked_at(self, place):
        return next((asked for at, asked in reversed(self.moments) if at <= place), [])

    @cached_property
    def here(self):
        """The questions behind the cause whose answers differ, each with both replies."""
        return apart(next((asked for at, asked in self.moments if at == self.place), []))

    def only(self, *names):
        """Returns whether the answers to these questions behind the cause differ, and to no others."""
        return bool(self.here) and all(question[0] in names for question, _, _ in self.here)

    def gives(self, due, told):
        """Returns whether the cause's own reply differs, and both replies have these forms. None is any form."""
        forms = form_of(self.due), form_of(self.told)
        return self.place == self.last and all(wanted in (None, form) for wanted, form in zip((due, told), forms))

    def accepts(self, refusal):
        return self.gives(refusal, "ok")

    def refuses(self, refusal):
        return self.gives("ok", refusal)

    def is_at_end(self):
        """Returns whether only the answer to the last command differs, and all before it is the same."""
        return self.place == self.last

    def commands(self, end=None):
        return [it.command for it in self.turns[:end]]

    def of(self, name):
        """Returns the commands of that name."""
        return [it.command for it in self.turns if it.command[0] == name]

    def kind(self, number):
        """Returns the kind of a node, by the states or by the command that made it."""
        made = next((it.command[0] for it in self.turns if COMMANDS[it.command[0]].makes == "node" and it.reply.get("ok") == number), None)
        return DOCUMENT if number == 0 else self.before.kind(number) or MADE.get(made)

    def edit(self):
        """Returns the parent and the node that the cause names, and the child or None."""
        return (*self.values[:3], None)[:3]

    # the effects of other commands

    def answered(self, commands):
        """Returns the core's reply to the last of commands."""
        with self.judge.core() as core:
            return play_commands(core, commands)[-1].reply

    def asked(self, commands, at=None):
        """Returns the core's reply to the last command, with other commands in the place of the cause, or of another one."""
        at = self.place if at is None else at
        return self.answered(self.commands(at) + commands + [it.command for it in self.turns[at + 1 :]])

    def tells(self, reply):
        """Returns whether the player's reply has this reply's answer or refusal."""
        if "ok" in reply and "ok" in self.told:
            return alike(reply["ok"], self.told["ok"])
        return "error" in reply and same(reply, self.told)

    def tells_as_after(self, commands):
        """Returns whether the player's differing replies behind the cause are the core's with other commands in its place."""
        with self.judge.core() as core:
            play_commands(core, self.commands(self.place) + commands)
            replies = [(core.reply(question), told) for question, _, told in self.here]
        return all("ok" in reply and "ok" in told and alike(reply["ok"], told["ok"]) for reply, told in replies)

    def ends_where(self, commands):
        """Returns the ends of all ranges if other commands replace the cause, as replies to the questions behind it."""
        with self.judge.core() as core:
            play_commands(core, self.commands(self.place) + commands)
            return {question[1]: core.reply(question) for question, _, _ in self.asked_at(self.place) if question[0] == "range"}

    def records_where(self, commands, ahead=None):
        """Returns the records of each observer that other commands queue in the place of the cause, with other commands ahead of it."""
        numbers = [question[1] for question, _, _ in self.asked_at(self.place) if question[0] == "takeRecords"]
        taking = [["takeRecords", it] for it in numbers]
        with self.judge.core() as core:
            play_commands(core, (self.commands(self.place) if ahead is None else ahead) + taking + commands)
            return [it for number in numbers for it in records_of(number, core.ask("takeRecords", number))]

    # records

    @cached_property
    def records(self):
        """The records that the cause should queue, and the player's records, with their observers."""
        here = [it for it in self.asked_at(self.place) if it[0][0] == "takeRecords"]
        return tuple([record for it in here for record in records_of(it[0][1], it[side].get("ok"))] for side in (1, 2))

    def records_are(self, records):
        """Returns whether only records differ, and the player's are these."""
        return self.only("takeRecords") and same_records(records, self.records[1])

    # ends of ranges

    @cached_property
    def moved(self):
        """The ends of ranges that differ."""
        due, told, before = self.after.ends, self.player.ends, self.before.ends
        found = []
        for number, side in (it for it in due if due[it] != told.get(it)):
            others = [state[number, 2 - side][0] for state in (before, due) if (number, side) in state]
            found.append(End(before.get((number, side)), due[number, side], told.get((number, side)), others))
        return found

    def all_moved(self, fits):
        """Returns whether only ends of ranges differ, and each of these fits."""
        return self.only("range") and bool(self.moved) and all(it.before and it.told and fits(it) for it in self.moved)


def records_of(observer, answer):
    """Returns the records of an answer in turn, with the number of the observer."""
    return [Record(observer, *it) for it in answer or []]


def same_records(due, told):
    return len(due) == len(told) and all(alike(list(one), list(other)) for one, other in zip(due, told))


def left_out(due, told):
    """Returns the items that a list lacks beside another, or none if it differs otherwise too."""
    found, at = [], 0
    for it in due:
        if at < len(told) and alike(list(it), list(told[at])):
            at += 1
        else:
            found.append(it)
    return found if at == len(told) else []
