#!/usr/bin/env python3
"""A wrapper around the core that answers as one wrong body would, to try the referee: `wrong.py CORE FAULT`, where CORE is the program or a
libhuckleport.so. With more than one fault it answers as a core that has all of them.

Most faults change the world behind the program's reply by commands of their own: they set range ends anew, or remove nodes that should stay. All later
replies are then those of a core with that body. Others alter the reply alone.
"""
import json
import os
import sys
import time
from collections import namedtuple

HERE = os.path.dirname(os.path.abspath(__file__))
sys.path.insert(0, os.path.dirname(HERE))
from judging.core import Cores

REMOVALS = {"remove": 0, "removeChild": 1}
FRAGMENT, DOCTYPE, DOCUMENT, COMMENT, TEXT, ELEMENT = 11, 10, 9, 8, 3, 1


class World:
    """A world of the core, and the objects made in it."""

    def __init__(self, cores):
        self.core = cores.open()
        self.made = {"range": 0, "iterator": 0}
        self.kept, self.later, self.over = {}, [], {}

    def reply(self, *command):
        return self.core.reply(command)

    def ask(self, *command):
        return self.reply(*command).get("ok")

    def pass_on(self, command):
        reply = self.reply(*command)
        kind = {"createRange": "range", "cloneRange": "range", "createIterator": "iterator"}.get(command[0])
        if kind and "ok" in reply:
            self.made[kind] += 1
        return reply

    def ends(self):
        return {it: self.ask("range", it) for it in range(self.made["range"]) if self.ask("range", it)}

    def set_ends(self, number, ends):
        """Sets both ends, at most at the end of their nodes."""
        start, i, end, j = ends
        self.reply("setStart", number, start, min(i, self.ask("length", start)))
        self.reply("setEnd", number, end, min(j, self.ask("length", end)))

    def move_ends(self, moved):
        """Sets all ends anew: `moved` returns another point for one, or the same."""
        for number, (start, i, end, j) in self.ends().items():
            wanted = [*moved(start, i), *moved(end, j)]
            if wanted != [start, i, end, j]:
                self.set_ends(number, wanted)

    def end(self):
        self.core.end()


# Each fault answers a command, with the world as it is before the command.


def removed(world, command):
    """Returns the node that a command removes, its parent and its index; None if it removes none."""
    node = command[1 + REMOVALS[command[0]]] if command[0] in REMOVALS else None
    place = world.ask("node", node) if node is not None else None
    if not place or place["parent"] is None:
        return None
    return node, place["parent"], world.ask("index", node)


def removal_past_the_node(world, command):
    """Removal sends ends inside the node behind its old place."""
    gone = removed(world, command)
    before = world.ends()
    inside = lambda it: gone and world.ask("contains", gone[0], it)
    within = {(number, side) for number, ends in before.items() for side in (0, 2) if inside(ends[side])}
    reply = world.pass_on(command)
    for number, side in sorted(within) if "ok" in reply else ():
        ends = world.ask("range", number)
        ends[side : side + 2] = [gone[1], gone[2] + 1]
        world.set_ends(number, ends)
    return reply


def removal_leaves_ends(world, command):
    """Ends inside a removed node stay in it."""
    gone = removed(world, command)
    before = world.ends()
    inside = [number for number, it in before.items() if gone and world.ask("contains", gone[0], it[0]) and world.ask("contains", gone[0], it[2])]
    reply = world.pass_on(command)
    for number in inside if "ok" in reply else ():
        world.set_ends(number, before[number])
    return reply


def insertion_shifts_equal(world, command):
    """Insertion moves an end that is right at the place."""
    reply = world.pass_on(command)
    if command[0] == "insertBefore" and "ok" in reply and world.ask("node", command[2])["parent"] == command[1]:
        at = world.ask("index", command[2])
        world.move_ends(lambda node, offset: (node, offset + 1) if (node, offset) == (command[1], at) else (node, offset))
    return reply


def split_off_by_one(world, command):
    """Ends that a split moves into the new Text are one unit too far."""
    reply = world.pass_on(command)
    if command[0] == "splitText" and "ok" in reply:
        world.move_ends(lambda node, offset: (node, offset + 1) if node == reply["ok"] and offset else (node, offset))
    return reply


def split_leaves_parent_ends(world, command):
    """A split leaves the ends right behind the Text ahead of the new one."""
    place = world.ask("node", command[1]) if command[0] == "splitText" else None
    at = world.ask("index", command[1]) if place else 0
    before = world.ends()
    reply = world.pass_on(command)
    if place and place["parent"] is not None and "ok" in reply:
        for number, ends in before.items():
            wanted = [*ends[:2]] == [place["parent"], at + 1], [*ends[2:]] == [place["parent"], at + 1]
            if any(wanted):
                now = world.ask("range", number)
                world.set_ends(number, (ends[:2] if wanted[0] else now[:2]) + (ends[2:] if wanted[1] else now[2:]))
    return reply


def ends_sent_into_parent(world, command):
    """Insertion also moves an end in another node, into the parent, if the start of its range is in the parent."""
    before = world.ends() if command[0] == "insertBefore" and command[3] is not None else {}
    reply = world.pass_on(command)
    for number, (start, i, end, j) in before.items() if "ok" in reply else ():
        if start == command[1] != end and max(i, world.ask("index", command[2])) < j < world.ask("length", start):
            world.set_ends(number, [*world.ask("range", number)[:2], start, j + 1])
    return reply


def records_in(reply, command, altered):
    """Returns a reply with altered records. A record that is altered to None is lost."""
    if command[0] == "takeRecords" and "ok" in reply:
        reply["ok"] = [it for it in map(altered, reply["ok"]) if it]
    return reply


def fragment_record_lost(world, command):
    """The insertion of a fragment queues no record of the fragment."""
    return records_in(world.pass_on(command), command, lambda it: None if world.ask("node", it[1])["type"] == FRAGMENT else it)


def equal_data_record_lost(world, command):
    """A change of data that leaves it as it was queues no record."""
    altered = lambda it: None if it[0] == "characterData" and it[7] is not None and it[7] == world.ask("data", it[1]) else it
    return records_in(world.pass_on(command), command, altered)


def old_value_of_nearest(world, command):
    """The old value is lost if the nearest registration does not ask for it."""
    if command[0] == "observe":
        world.kept[command[1], command[2]] = command[3]
    asks = {"attributes": "attributeOldValue", "characterData": "characterDataOldValue"}

    def altered(it):
        nearest = world.kept.get((command[1], it[1]))
        return it[:7] + [None] if nearest is not None and it[0] in asks and not nearest.get(asks[it[0]]) else it

    return records_in(world.pass_on(command), command, altered)


def transients_outlive_notify(world, command):
    """A node that was removed below an observed one is observed for good."""
    if command[0] == "observe":
        world.kept[command[1], command[2]] = command[3]
    gone = removed(world, command)
    above = [(it, options) for it, options in world.kept.items() if gone and options.get("subtree") and world.ask("contains", it[1], gone[1])]
    reply = world.pass_on(command)
    if gone and "ok" in reply:
        world.later += [(it[0], gone[0], options) for it, options in above]
    for it in world.later if command[0] == "notify" else ():
        world.reply("observe", *it)
    return reply


def surround_half_done(world, command):
    """Surrounding extracts first, and then refuses."""
    reply = world.pass_on(command)
    if command[0] == "surroundContents" and reply.get("error") == "HierarchyRequestError":
        world.reply("extractContents", command[1])
    return reply


def iterator_steps_back(world, command):
    """Removal sends an iterator backwards though a node follows and the pointer is before its reference."""
    gone = removed(world, command)
    for number in range(world.made["iterator"]) if gone else ():
        root, reference, before = world.ask("iterator", number)
        if before and root != gone[0] and world.ask("contains", root, gone[0]) and world.ask("contains", gone[0], reference):
            previous = world.ask("node", gone[0])["previous"]
            world.kept[number] = {"ok": [root, gone[1] if previous is None else previous, False]}
    if command[0] == "iterator" and command[1] in world.kept:
        return world.kept[command[1]]
    if command[0] in ("nextNode", "previousNode"):
        world.kept.pop(command[1], None)
    return world.pass_on(command)


def child_ahead_of_ancestor(world, command):
    """The check that the child is the parent's precedes the check that the node is no ancestor of the parent."""
    reply = world.pass_on(command)
    if command[0] == "insertBefore" and reply.get("error") == "HierarchyRequestError" and command[3] is not None:
        if world.ask("node", command[3])["parent"] != command[1] and world.ask("node", command[1])["type"] in (ELEMENT, FRAGMENT, DOCUMENT):
            return {"error": "NotFoundError"}
    return reply


def doctype_may_follow(world, command):
    """An element may be inserted ahead of the Document's doctype."""
    reply = world.pass_on(command)
    if command[0] == "insertBefore" and "error" in reply and command[3] is not None:
        kinds = [(world.ask("node", it) or {}).get("type") for it in command[1:]]
        if kinds == [DOCUMENT, ELEMENT, DOCTYPE] and ELEMENT not in [world.ask("node", it)["type"] for it in world.ask("children", command[1])]:
            return {"ok": command[2]}
    return reply


def length_in_characters(world, command):
    """The length of data is counted in characters."""
    reply = world.pass_on(command)
    data = world.ask("data", command[1]) if command[0] == "length" else None
    return {"ok": len(data)} if isinstance(data, str) else reply


def shifted_ahead_of_removal(world, command):
    """A node that moves is removed after the ends have made room."""
    place = world.ask("node", command[2]) if command[0] == "insertBefore" and command[3] is not None else None
    if not place or place["parent"] != command[1] or command[2] == command[3]:
        return world.pass_on(command)
    at, old = world.ask("index", command[3]), world.ask("index", command[2])
    before = world.ends()
    reply = world.pass_on(command)

    def wanted(node, offset):
        if node != command[1]:
            return node, offset
        offset += offset > at
        return node, offset - (offset > old + (old >= at))

    for number, (start, i, end, j) in before.items() if "ok" in reply else ():
        if command[1] in (start, end):
            world.set_ends(number, [*wanted(start, i), *wanted(end, j)])
    return reply


def walker_shuts_out_root(world, command):
    """previousNode of a walker never returns its root."""
    before = world.ask("walker", command[1]) if command[0] == "walk" else None
    reply = world.pass_on(command)
    if before and command[2] == "previousNode" and reply.get("ok") == before[0]:
        world.reply("setCurrent", command[1], before[1])
        return {"ok": None}
    return reply


def refusal_spends_number(world, command):
    """A maker that is refused spends a number."""
    reply = world.pass_on(command)
    if command[0] in ("createElement", "createPI", "createDoctype") and "error" in reply:
        world.reply("createText", command[1], "")
    return reply


def extract_without_empty(world, command):
    """Extraction leaves out the copy of an empty tail or head."""
    reply = world.pass_on(command)
    if command[0] == "extractContents" and "ok" in reply:
        for child in world.ask("children", reply["ok"]):
            if world.ask("length", child) == 0 and world.ask("node", child)["type"] == TEXT:
                world.reply("remove", child)
    return reply


def range_text_with_comments(world, command):
    """The text of a range has the data of Comments too."""
    reply = world.pass_on(command)
    ends = world.ask("range", command[1]) if command[0] == "rangeText" and "ok" in reply else None
    if not ends or ends[0] != ends[2] or world.ask("node", ends[0])["type"] != ELEMENT:
        return reply
    rows = [row for it in world.ask("children", ends[0])[ends[1] : ends[3]] for row in world.ask("tree", it)]
    texts = [row[4] for row in rows if row[2] in (TEXT, COMMENT)]
    return {"ok": "".join(texts)} if all(isinstance(it, str) for it in texts) else reply


def observer_replaces_another(world, command):
    """Observing a node ends other observers' registrations there."""
    reply = world.pass_on(command)
    if command[0] == "observe" and "ok" in reply:
        for other in [it for it, nodes in world.kept.items() if it != command[1] and nodes == {command[2]}]:
            world.reply("disconnect", other)
        world.kept.setdefault(command[1], set()).add(command[2])
    return reply


def offset_ahead_of_root(world, command):
    """A point is refused for its offset ahead of its tree."""
    reply = world.pass_on(command)
    if command[0] == "comparePoint" and reply.get("error") == "WrongDocumentError" and command[3] > world.ask("length", command[2]):
        return {"error": "IndexSizeError"}
    return reply


def always_in_use(world, command):
    """Nothing can be discarded."""
    return {"error": "in-use"} if command[0] == "discard" and "ok" in world.pass_on(command) else world.pass_on(command)


def normalize_keeps_empty(world, command):
    """Normalizing leaves an empty Text that has no Text beside it."""
    rows = world.ask("tree", command[1]) or [] if command[0] == "normalize" else []
    empty = [row[1] for row in rows if row[0] and row[2] == TEXT and row[4] == ""]
    places = {it: world.ask("node", it) for it in empty}
    kind = lambda it: it is not None and world.ask("node", it)["type"]
    alone = {it: place for it, place in places.items() if TEXT not in (kind(place["previous"]), kind(place["next"]))}
    reply = world.pass_on(command)
    for it, place in alone.items() if "ok" in reply else ():
        world.reply("insertBefore", place["parent"], it, place["next"])
    return reply


def previous_ahead_of_removal(world, command):
    """The record of an insertion has the previous sibling from before the node's own removal."""
    if command[0] in ("insertBefore", "appendChild"):
        _, parent, node, child = (*command, None)[:4]
        place = world.ask("node", node)
        if place and place["parent"] == parent and place["next"] == child:
            world.later.append((parent, node))
    told = lambda it: [*it[:4], it[2][0], *it[5:]] if it[2] and not it[3] and (it[1], it[2][0]) in world.later else it
    return records_in(world.pass_on(command), command, told)


def registrations(world, command):
    """Keeps the observed nodes, with all options."""
    if command[0] == "observe":
        world.kept[command[1], command[2]] = command[3]
    if command[0] == "disconnect":
        world.kept = {it: options for it, options in world.kept.items() if it[0] != command[1]}


def two_records_of_one(world, command):
    """An observer of a node and of its ancestor gets a record for each."""
    reply = world.pass_on(command)
    registrations(world, command)
    if command[0] != "takeRecords" or "ok" not in reply:
        return reply
    above = lambda node, options, target: node == target or options.get("subtree") and world.ask("contains", node, target)
    of_kind = lambda it, target: [node for (who, node), options in world.kept.items() if who == command[1] and options.get(it) and above(node, options, target)]
    return {"ok": [it for record in reply["ok"] for it in [record] * max(len(of_kind(record[0], record[1])), 1)]}


def replaced_without_transients(world, command):
    """A node that a replacement removed is no longer observed."""
    gone = [command[3]] if command[0] == "replaceChild" else world.ask("children", command[1]) or [] if command[0] == "replaceChildren" else []
    reply = world.pass_on(command)
    if "ok" in reply:
        world.later = [] if command[0] == "notify" else world.later + gone
    below = lambda it: any(world.ask("root", it[1]) == top for top in world.later)
    return records_in(reply, command, lambda it: None if below(it) else it)


def transient_counts(world, command):
    """Observing a node that has just been removed below an observed one adds nothing that outlives notify."""
    registrations(world, command)
    gone = removed(world, command)
    observers = {who for (who, node), options in world.kept.items() if gone and options.get("subtree") and world.ask("contains", node, gone[1])}
    reply = world.pass_on(command)
    world.later += [(it, gone[0]) for it in observers] if gone and "ok" in reply else []
    if command[0] == "observe" and "ok" in reply and (command[1], command[2]) in world.later:
        world.over[command[1], command[2]] = False
    told = {it[0] for it in reply["ok"]} if command[0] == "notify" else set()
    world.later = [it for it in world.later if it[0] not in told]
    world.over.update((it, True) for it in world.over if it[0] in told)
    return records_in(reply, command, lambda it: None if world.over.get((command[1], it[1])) else it)


def back_pointer_stays(world, command):
    """The next sibling of a removed node still has it as its previous sibling."""
    gone = removed(world, command)
    place = world.ask("node", gone[0]) if gone else None
    reply = world.pass_on(command)
    if place and place["next"] is not None and "ok" in reply:
        world.kept[place["next"]] = (place["previous"], gone[0])
    previous, stays = world.kept.get(command[1], (None, None)) if command[0] == "node" else (None, None)
    if stays is not None and "ok" in reply and reply["ok"]["parent"] is not None and reply["ok"]["previous"] == previous:
        reply["ok"]["previous"] = stays
    return reply


def index_stays(world, command):
    """An index that was asked for stays after an insertion in front of it."""
    if command[0] == "index":
        place = (world.ask("node", command[1]) or {}).get("parent")
        reply = world.pass_on(command)
        kept = world.kept.setdefault(command[1], (place, reply))
        return kept[1] if kept[0] == place else reply
    reply = world.pass_on(command)
    if command[0] in REMOVALS or command[0] in ("replaceChild", "replaceChildren", "normalize", "setTextContent", "adoptNode"):
        world.kept = {}
    if command[0] in ("insertBefore", "appendChild"):
        world.kept.pop(command[2], None)
    return reply


def limit_soon(world, command):
    """A copy of more than three nodes is refused for the limit of numbers."""
    deep = command[0] in ("cloneNode", "importNode") and command[-1]
    if deep and len(world.ask("tree", command[-2]) or []) > 3:
        return {"error": "limit"}
    return world.pass_on(command)


def discard_leaves_children(world, command):
    """Discarding a node leaves its descendants."""
    rows = world.ask("tree", command[1]) or [] if command[0] == "discard" else []
    below = {row[1]: world.reply("node", row[1]) for row in rows[1:]}
    reply = world.pass_on(command)
    if below and "ok" in reply:
        world.kept.update(below)
    return world.kept.get(command[1], reply) if command[0] == "node" else reply


def discard_overlooks_records(world, command):
    """Nodes that queued records name can be discarded."""
    registrations(world, command)
    reply = world.pass_on(command)
    if command[0] != "discard" or reply.get("error") != "in-use":
        return reply
    rows = {row[1] for row in world.ask("tree", command[1])}
    named = {it for ends in world.ends().values() for it in ends[::2]} | {node for _, node in world.kept} | {0}
    alone = world.ask("node", command[1])["parent"] is None and not rows & named and not world.made["iterator"]
    return {"ok": None} if alone else reply


# Faults of the player itself.


def dies(world, command):
    """It ends at a normalize."""
    if command[0] == "normalize":
        sys.exit(7)
    return world.pass_on(command)


def hangs(world, command):
    """It gives no reply to a normalize."""
    if command[0] == "normalize":
        time.sleep(3600)
    return world.pass_on(command)


def prints_rubbish(world, command):
    """Its reply to a normalize is no reply."""
    return "Segmentation fault" if command[0] == "normalize" else world.pass_on(command)


def stumbles(world, command, stumbled=[]):
    """Its first reply to a normalize is another one, and no later reply is."""
    reply = world.pass_on(command)
    if command[0] != "normalize" or stumbled:
        return reply
    stumbled.append(command)
    return {"ok": 1}


# The faults by the group of streams that has their commands.
GROUPS = {
    "ranges": (removal_past_the_node, removal_leaves_ends, insertion_shifts_equal, split_leaves_parent_ends, shifted_ahead_of_removal, offset_ahead_of_root,),
    "texts": (ends_sent_into_parent,),
    "data": (split_off_by_one, equal_data_record_lost, normalize_keeps_empty, dies, hangs, prints_rubbish,),
    "observers": (fragment_record_lost, old_value_of_nearest, transients_outlive_notify, observer_replaces_another, previous_ahead_of_removal,
        two_records_of_one, replaced_without_transients, transient_counts, discard_overlooks_records,),
    "contents": (surround_half_done, extract_without_empty, range_text_with_comments,),
    "traversal": (iterator_steps_back, walker_shuts_out_root,),
    "trees": (child_ahead_of_ancestor, doctype_may_follow, length_in_characters, refusal_spends_number, always_in_use, back_pointer_stays,
        index_stays, limit_soon, discard_leaves_children,),
}
Fault = namedtuple("Fault", "group answer")
FAULTS = {it.__name__: Fault(group, it) for group, its in GROUPS.items() for it in its}
# A fault that does not come again, and so is none of a body.
ONCE = {"stumbles": Fault("data", stumbles)}


class Over:
    """A world whose commands are answered with one more fault."""

    def __init__(self, world, answer):
        self.world, self.pass_on = world, lambda command: answer(world, command)

    def __getattr__(self, name):
        return getattr(self.world, name)


def world_of(cores, faults):
    """Returns a world that has all the faults."""
    world = World(cores)
    for it in faults:
        world = Over(world, {**FAULTS, **ONCE}[it].answer)
    return world


def main():
    core, *faults = sys.argv[1:]
    cores = Cores(core)
    world = world_of(cores, faults)
    for line in sys.stdin:
        given = json.loads(line)
        if isinstance(given, list):
            reply = world.pass_on(given)
        elif "hello" in given:
            reply = {"player": {"name": "+".join(faults)}}
        else:
            world.end()
            world, reply = world_of(cores, faults), {"ok": None}
        sys.stdout.write((reply if isinstance(reply, str) else json.dumps(reply)) + "\n")
        sys.stdout.flush()


if __name__ == "__main__":
    main()
