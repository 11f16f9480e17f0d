"""Streams of commands drawn by chance: by a group and its weights, a length and a seed.

The values of a command are drawn from the core's state: its nodes, their children and their lengths. A refused command changes nothing, so most of the
refused ones are left out, and the rest of the stream stays valid.
"""
import random
from collections import namedtuple

from judging.commands import COMMANDS, COMMENT, DOCTYPE, DOCUMENT, ELEMENT, FLAGS, FRAGMENT, MADE, MAKERS, MOVES, PARENTS, PI, TEXT, WITH_DATA, kind_of
from judging.hanging import DRAWN

# The numbers of objects ahead of the drawn commands, the weights of these commands, and whether the group is about Texts side by side.
Group = namedtuple("Group", "ranges iterators walkers observers weights texts", defaults=(False,))

KEEPS_REFUSED = 0.3
# The most ranges that are queried after a change.
MOST_RANGES = 8
# How often one of them is set anew in a stream about Texts.
CROSSES = 0.15
# How often a removed node is changed next: with no observer, with one, and with more.
CHANGES_REMOVED = (0, 0.05, 0.3)
UNITS = ("", "a", "ab", "abc", "abcd", "\u00e9", "\U0001f600", "a\U0001f600b", [55357], [56832, 97], "]]>", " \n", "0")
# Data whose offsets go beyond the places among some siblings.
LONG_UNITS = ("abcd", "abcdef", "abcdefgh", "abc", "a", "")
NAMES = ("a", "b", "p", "b")
ODD_NAMES = ("", "1a", "a b", "\u00e9", ":a", "a=b", "a>b", "-a", "A", "a:b", "a\u00b7", "xmlns", "\U0001f600")
ATTRIBUTES = ("x", "y", "x", "k")
SHOWS = (4294967295, 4294967295, 4294967295, 1, 4, 5, 128, 1024, 0)
FILTERS = ([], [], [["b", "skip"]], [["b", "reject"]], [["#text", "reject"]], [["#text", "skip"]], [["a", "skip"], ["*", "accept"]], [["*", "skip"]])
# Steps, and the question that returns the position after them.
STEPPING = {"nextNode": "iterator", "previousNode": "iterator", "walk": "walker"}
# The argument that names the removed node.
REMOVING = {"remove": 1, "removeChild": 2}

MAKING = {"createElement": 2, "createText": 3, "createComment": 1, "createPI": 1, "createFragment": 1, "createDoctype": 0.3, "newDocument": 0.2}
EDITS = {"insertBefore": 5, "appendChild": 5, "removeChild": 3, "remove": 3, "replaceChild": 3, "replaceChildren": 2, "normalize": 2, "adoptNode": 1}
QUESTIONS = {"node": 1, "children": 1, "index": 1, "length": 1, "root": 1, "contains": 1, "isEqual": 2, "comparePosition": 2, "textContent": 1, "tree": 1}
COPIES = {"cloneNode": 1, "importNode": 1}
DATA = {"setData": 1, "appendData": 1, "insertData": 2, "deleteData": 2, "replaceData": 3, "splitText": 4, "setTextContent": 1}
PARTS = {"data": 1, "substringData": 2}
ATTRIBUTE = {"setAttribute": 5, "getAttribute": 2, "hasAttribute": 1, "removeAttribute": 2, "toggleAttribute": 3, "attributeNames": 1}
ENDS = {"setStart": 4, "setEnd": 4, "setStartBefore": 1, "setStartAfter": 1, "setEndBefore": 1, "setEndAfter": 1, "collapse": 1, "selectNode": 1}
MORE_ENDS = {"selectNodeContents": 1, "createRange": 0.3, "cloneRange": 0.5, "releaseRange": 0.1, "createStaticRange": 0.5, "staticRange": 0.5}
ASKED = {"compareBoundaryPoints": 2, "comparePoint": 5, "isPointInRange": 3, "intersectsNode": 2, "commonAncestor": 1, "rangeText": 4}
JOINS = {"splitText": 12, "normalize": 4, "deleteData": 2, "insertData": 2, "replaceData": 1, "createText": 1, "remove": 1, "insertNode": 0.5}
CONTENTS = {"deleteContents": 3, "extractContents": 3, "cloneContents": 3, "insertNode": 4, "surroundContents": 3, "rangeText": 3}
STEPS = {"nextNode": 14, "previousNode": 12, "walk": 30, "setCurrent": 6, "createIterator": 0.5, "createWalker": 0.5}
WATCHING = {"observe": 2, "disconnect": 0.3, "takeRecords": 1, "notify": 3, "pending": 0.5, "createObserver": 0.1}


def weights(*parts, **few):
    return {**{name: weight for part in parts for name, weight in part.items()}, **few}


GROUPS = {
    "trees": Group(0, 0, 0, 0, weights(MAKING, EDITS, QUESTIONS, COPIES, setTextContent=1, discard=0.6)),
    "data": Group(2, 0, 0, 1, weights(DATA, PARTS, EDITS, createText=2, normalize=4)),
    "attributes": Group(0, 0, 0, 1, weights(ATTRIBUTE, COPIES, isEqual=1, createElement=1, adoptNode=0.5)),
    "ranges": Group(3, 0, 0, 0, weights(ENDS, MORE_ENDS, ASKED, EDITS, DATA, createText=1, createElement=1)),
    "texts": Group(4, 0, 0, 1, weights(JOINS, appendChild=1, insertBefore=1, setStart=1, setEnd=1), texts=True),
    "contents": Group(2, 0, 0, 1, weights(CONTENTS, ENDS, MAKING, selectNodeContents=2, appendChild=3, insertBefore=2)),
    "traversal": Group(0, 2, 2, 0, weights(STEPS, EDITS, createElement=1, createText=1, splitText=0.5)),
    "observers": Group(1, 0, 0, 2, weights(WATCHING, EDITS, DATA, ATTRIBUTE, MAKING, COPIES, insertNode=1, extractContents=0.5, discard=0.5)),
    "everything": Group(2, 1, 1, 1, {name: 1 for name in COMMANDS}),
}


class Scene:
    """A world while a stream is drawn: what it has of each kind, and the turns so far."""

    def __init__(self, core, chance, player):
        self.core, self.chance, self.serves, self.documents, self.parts_at = core, chance, player.serves, player.documents, player.parts_at
        self.hanging = player.hanging
        self.kinds = {0: DOCUMENT} if player.documents else {}
        self.objects = {"range": [], "iterator": [], "walker": [], "observer": [], "static": []}
        self.turns, self.gone = [], []
        self.main, self.rows = 0, None

    # playing commands

    def may_say(self, name):
        return self.serves is None or name in self.serves

    def hangs(self, command, reply=None):
        """Returns whether a command is passed over because of a known hang of the player."""
        return self.hanging.fits(command, reply) and self.chance.random() >= DRAWN

    def say(self, name, *values, keeps=1.0):
        """Plays a command, and keeps it if it was not refused, or by chance. Returns the answer."""
        if self.hangs([name, *values]):
            return None
        turn = self.core.play([name, *values])
        if "ok" not in turn.reply and (self.parts_at(turn) or self.chance.random() >= keeps or self.hangs(turn.command, turn.reply)):
            return None
        self.turns.append(turn)
        if "ok" in turn.reply:
            self.learn(name, values, turn)
        return turn.reply.get("ok")

    def learn(self, name, values, turn):
        makes = COMMANDS[name].makes
        if COMMANDS[name].changes:
            self.rows = None
        if makes in self.objects:
            self.objects[makes].append(turn.reply["ok"])
        reached = {number for _, tree in turn.places for number in tree} if makes == "nodes" else turn.made
        for number in turn.made:
            if number in reached:
                self.kinds[number] = MADE.get(name) or self.core.ask("node", number)["type"]
        if name == "releaseRange":
            self.objects["range"].remove(values[0])
        if name == "discard":
            self.gone = [it for it in self.kinds if not self.core.ask("node", it)]
            self.kinds = {number: kind for number, kind in self.kinds.items() if number not in self.gone}

    # drawing the values of a command; None if there is no such object

    def of_kinds(self, *kinds):
        found = [it for it, kind in self.kinds.items() if kind in kinds]
        near = [it for it in found if it < 12]
        return self.chance.choice(near if near and self.chance.random() < 0.6 else found) if found else self.any_node()

    def any_node(self):
        return self.chance.choice(list(self.kinds))

    def inside(self):
        """Returns a node of the tree that most of the stream is about."""
        if self.main not in self.kinds:
            self.main, self.rows = self.any_node(), None
        if self.rows is None:
            self.rows = self.core.ask("tree", self.main)
        return self.chance.choice(self.rows)[1]

    def node(self, given):
        return self.inside() if self.chance.random() < 0.6 else self.any_node()

    def document(self, given):
        if not self.documents or 0 in self.kinds and self.chance.random() < 0.9:
            return 0
        return self.of_kinds(DOCUMENT)

    def parent(self, given):
        return self.of_kinds(*PARENTS) if self.chance.random() < 0.97 else self.any_node()

    def child(self, given):
        """Returns a child of the parent that the command names, or of the one that the range starts in."""
        children = self.core.ask("children", given[0]) if given else None
        if children and self.chance.random() < 0.92:
            return self.chance.choice(children)
        return self.any_node()

    def element(self, given):
        return self.of_kinds(ELEMENT)

    def data(self, given):
        return self.of_kinds(*WITH_DATA)

    def text(self, given):
        return self.of_kinds(TEXT)

    def offset(self, given):
        """Returns an offset of the node that was named last, mostly at an end or beside one."""
        length = self.core.ask("length", given[-1]) or 0
        inside = self.chance.randint(0, length)
        return self.chance.choice((0, length, length, max(length - 1, 0), min(1, length), inside, inside, length + 1))

    def count(self, given):
        return self.chance.choice((0, 1, 1, 2, 3, 4294967295))

    def units(self, given):
        return self.chance.choice(UNITS[:6] if self.chance.random() < 0.8 else UNITS)

    def name(self, given):
        return self.chance.choice(NAMES if self.chance.random() < 0.97 else ODD_NAMES)

    target = doctype = name

    def id(self, given):
        return self.chance.choice(("", "i"))

    def attribute(self, given):
        return self.chance.choice(ATTRIBUTES if self.chance.random() < 0.97 else ODD_NAMES)

    def flag(self, given):
        return self.chance.random() < 0.6

    def force(self, given):
        return self.chance.choice((None, True, False))

    def how(self, given):
        return self.chance.choice((0, 1, 2, 3, 4))

    def show(self, given):
        return self.chance.choice(SHOWS)

    def filter(self, given):
        return self.chance.choice(FILTERS)

    def move(self, given):
        return self.chance.choice((*MOVES, "nextNode", "previousNode", "previousNode"))

    def options(self, given):
        found = {"childList": True} if self.chance.random() < 0.7 else {}
        for flag in FLAGS:
            if self.chance.random() < 0.35:
                found[flag] = self.chance.random() < 0.9
        if self.chance.random() < 0.15:
            found["attributeFilter"] = self.chance.choice(([], ["x"], ["x", "y"]))
        return found

    def drawn(self, name):
        """Returns a command of that name, or None if an object that it needs is missing."""
        values = []
        for form in COMMANDS[name].arguments:
            bare = form.rstrip("?")
            if form != bare and self.chance.random() < 0.2:
                values.append(None)
            elif kind_of(form) in self.objects:
                if not self.objects[kind_of(form)]:
                    return None
                values.append(self.chance.choice(self.objects[kind_of(form)]))
            else:
                values.append(getattr(self, bare)(values))
        return [name, *values]

    # the commands ahead of the drawn ones, and the questions behind each of those

    def make(self, kind):
        maker = MAKERS[kind]
        values = self.drawn(maker)
        return self.say(*values) if self.may_say(maker) else None

    def append(self, parent, made):
        """Appends a made node, unless its maker was refused."""
        if made is not None:
            self.say("appendChild", parent, made)

    def plant(self):
        """Makes a small tree, in which Texts are often side by side."""
        self.main = self.say("createElement", 0, "a")
        with_doctype = self.documents and self.may_say("createDoctype") and self.chance.random() < 0.25
        if with_doctype:
            self.append(0, self.make(DOCTYPE))
        if self.documents and self.chance.random() < (0.3 if with_doctype else 0.6):
            self.say("appendChild", 0, self.main)
        for _ in range(self.chance.randint(2, 7)):
            made = self.make(self.chance.choice((ELEMENT, ELEMENT, TEXT, TEXT, TEXT, TEXT, COMMENT, COMMENT, PI)))
            if made is not None:
                parents = [row[1] for row in self.core.ask("tree", self.main) if row[2] == ELEMENT]
                self.say("appendChild", self.chance.choice(parents), made)

    def plant_texts(self):
        """Makes a parent of Texts side by side, now and then with another node between them."""
        self.main = self.say("createElement", 0, "a")
        for _ in range(self.chance.randint(3, 6)):
            kind = self.chance.choice((*(TEXT,) * 8, ELEMENT, COMMENT))
            made = self.say("createText", 0, self.chance.choice(LONG_UNITS)) if kind == TEXT and self.may_say("createText") else self.make(kind)
            if made is not None:
                self.say("appendChild", self.main, made)

    def cross(self, number):
        """Sets one end of a range among the children of the main node, and the other into one of them."""
        children = self.core.ask("children", self.main)
        if not children:
            return
        at = self.chance.randrange(len(children))
        within = children[at], self.chance.randint(0, self.core.ask("length", children[at]))
        ahead, behind = (self.main, self.chance.randint(0, at)), (self.main, self.chance.randint(at + 1, len(children)))
        for name, point in zip(("setStart", "setEnd"), self.chance.choice(((ahead, within), (within, behind)))):
            self.say(name, number, *point)

    def plant_fragment(self):
        """Makes a fragment that has a child or two."""
        made = self.make(FRAGMENT)
        for kind in (TEXT, self.chance.choice((ELEMENT, TEXT, COMMENT))) if made is not None else ():
            self.append(made, self.make(kind))
        return made

    def watch(self, group):
        for _ in range(group.ranges if self.may_say("createRange") else 0):
            made = self.say("createRange", 0)
            if group.texts:
                self.cross(made)
                continue
            for name in ("setStart", "setEnd"):
                node = self.inside()
                self.say(name, made, node, self.offset([node]))
        for name in ["createIterator"] * group.iterators + ["createWalker"] * group.walkers:
            if self.may_say(name):
                self.say(name, self.main if self.chance.random() < 0.7 else self.inside(), self.show([]), self.filter([]))
        for _ in range(group.observers if self.may_say("createObserver") else 0):
            self.observe(self.say("createObserver"))

    def observe(self, observer):
        """Makes an observer of most changes, and often of a fragment, or of another node with other options."""
        self.say("observe", observer, self.inside(), {**self.options([]), "childList": True, "subtree": True})
        more = self.chance.random()
        fragment = self.plant_fragment() if more < 0.3 else None
        if fragment is not None or more > 0.5:
            node = self.inside() if fragment is None else fragment
            self.say("observe", observer, node, {**self.options([]), "childList": True, "attributes": True, "characterData": True})

    def probe(self):
        """Asks questions that show the effects of a change."""
        for number in self.objects["range"][:MOST_RANGES]:
            self.say("range", number)
        for kind in ("iterator", "walker"):
            for number in self.objects[kind][:3]:
                self.say(kind, number)
        if self.objects["range"] and self.chance.random() < 0.2:
            self.say("rangeText", self.chance.choice(self.objects["range"]))
        if self.objects["observer"] and self.chance.random() < 0.6:
            self.say("takeRecords", self.chance.choice(self.objects["observer"]))
        for name, often in (("tree", 0.3), ("node", 0.2), ("index", 0.2)):
            if self.may_say(name) and self.chance.random() < often:
                self.say(name, self.inside())

    def step(self, command):
        """Plays a command and asks about its effects. The node that an iterator or a walker reached is often removed next."""
        count = len(self.turns)
        answer = self.say(*command, keeps=KEEPS_REFUSED) if command else None
        if len(self.turns) == count or "ok" not in self.turns[-1].reply:
            return
        if command[0] in STEPPING:
            self.say(STEPPING[command[0]], command[1])
        elif COMMANDS[command[0]].changes:
            self.probe()
        if command[0] == "discard":
            self.say("node", self.chance.choice(self.gone))
        if command[0] in REMOVING and self.chance.random() < CHANGES_REMOVED[min(len(self.objects["observer"]), 2)]:
            self.change_removed(command[REMOVING[command[0]]])
        if command[0] in STEPPING and answer is not None and self.may_say("remove") and self.chance.random() < 0.2:
            self.step(["remove", answer])

    def change_removed(self, node):
        """Changes or discards a removed node, whose observers may still be notified. Before a change it may be observed, and notify be played."""
        if self.may_say("discard") and self.chance.random() < 0.2:
            self.say("discard", node)
            return
        if self.chance.random() < 0.5:
            options = {**self.options([]), "childList": True, "attributes": True, "characterData": True}
            self.say("observe", self.chance.choice(self.objects["observer"]), node, options)
        if self.may_say("notify") and self.chance.random() < 0.5:
            self.say("notify")
        kind = self.kinds.get(node)
        change = ["toggleAttribute", node, "x", None] if kind == ELEMENT else ["appendData", node, "a"] if kind in WITH_DATA else None
        if change and self.may_say(change[0]):
            self.step(change)

    def close(self):
        """Asks for all trees, and for the pending records of every observer."""
        roots = dict.fromkeys(self.core.ask("root", it) for it in self.kinds)
        for root in list(roots)[:6]:
            self.say("tree", root)
        for number in self.objects["observer"]:
            self.say("takeRecords", number)


def drawn_stream(core, seed, group, length, player, given=None):
    """Returns the turns of a stream. `given` are weights in place of the group's."""
    chance = random.Random(seed)
    scene, plan = Scene(core, chance, player), GROUPS[group]
    found = {**plan.weights, **(given or {})}
    names = [name for name, weight in found.items() if weight > 0 and scene.may_say(name)]
    if plan.texts:
        scene.plant_texts()
    else:
        scene.plant()
    scene.watch(plan)
    tries = 4 * length if names else 0
    while len(scene.turns) < length and tries:
        tries -= 1
        if plan.texts and scene.objects["range"] and chance.random() < CROSSES:
            scene.cross(chance.choice(scene.objects["range"]))
        scene.step(scene.drawn(chance.choices(names, [found[it] for it in names])[0]))
    if scene.may_say("tree"):
        scene.close()
    return scene.turns
