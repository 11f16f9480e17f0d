"""All short scenes of a kind, each as a stream: a small tree, one change of it, and questions that show all of it."""
import itertools

from judging.commands import MOVES

ALL = 4294967295


class Comment(str):
    """The data of a Comment."""


# A tree is a name with children; a Text is written as its data.
TREES = (
    ("a", ["xy"]),
    ("a", ["x", "yz"]),
    ("a", ["x", ("b", ["y"]), "z"]),
    ("a", [("b", ["x"]), ("c", ["y"])]),
    ("a", [("b", []), "x", Comment("c")]),
    ("a", [("b", [("c", ["x"])]), "y"]),
)
WALKED = (
    ("a", []),
    ("a", [("b", []), ("b", [])]),
    ("a", [("b", [("c", [])]), ("c", [])]),
    ("a", ["x", ("b", ["y", ("c", [])]), "z"]),
    ("a", [("b", [("b", [("c", []), ("a", [])])]), ("a", [("c", [])])]),
)
FILTERS = ([], [["b", "skip"]], [["b", "reject"]], [["c", "accept"], ["*", "skip"]], [["c", "accept"], ["*", "reject"]])
SIBLINGS = ("", "x", "yz", ("b", []), Comment("c"))


class Stage:
    """A world in which a scene is played."""

    def __init__(self, core):
        self.core, self.turns = core, []
        self.nodes, self.ranges, self.observers = [], [], []

    def say(self, *command):
        turn = self.core.play(list(command))
        self.turns.append(turn)
        return turn.reply.get("ok")

    def grow(self, tree, parent=None):
        """Makes a tree, and returns its top."""
        if isinstance(tree, Comment):
            made = self.say("createComment", 0, str(tree))
        elif isinstance(tree, str):
            made = self.say("createText", 0, tree)
        else:
            made = self.say("createElement", 0, tree[0])
        self.nodes.append(made)
        if parent is not None:
            self.say("appendChild", parent, made)
        for below in tree[1] if isinstance(tree, tuple) else ():
            self.grow(below, made)
        return made

    def points(self):
        """Returns all boundary points in the nodes of the scene."""
        return [(node, offset) for node in self.nodes for offset in range(self.core.ask("length", node) + 1)]

    def points_in(self, top):
        """Yields the boundary points in a node and its descendants, in their order in the document."""
        children = self.core.ask("children", top)
        for offset in range(self.core.ask("length", top) + 1):
            yield top, offset
            if offset < len(children):
                yield from self.points_in(children[offset])

    def mark(self, top):
        """Makes a range at each point in a node and its descendants, and one between every two of them."""
        for start, end in itertools.combinations_with_replacement(self.points_in(top), 2):
            self.ranges.append(self.say("createRange", 0))
            self.say("setStart", self.ranges[-1], *start)
            self.say("setEnd", self.ranges[-1], *end)

    def observe(self, node):
        """Makes two observers of a node: one of all changes in its subtree, one of changes of its children alone."""
        everything = {"childList": True, "attributes": True, "characterData": True, "subtree": True, "characterDataOldValue": True}
        for options in (everything, {"childList": True}):
            self.observers.append(self.say("createObserver"))
            self.say("observe", self.observers[-1], node, options)

    def show(self, *tops):
        for it in self.observers:
            self.say("takeRecords", it)
        for it in self.ranges:
            self.say("range", it)
        for it in tops:
            self.say("tree", it)
        return self.turns


def planted(tree):
    """Returns a function that makes a stage with a tree under the Document, its first node."""

    def made(core):
        stage = Stage(core)
        stage.say("appendChild", 0, stage.grow(tree))
        return stage

    return made


def range_scenes(tree):
    """All pairs of ends in a tree, and each command of contents between them."""
    count = 0
    stands = planted(tree)
    operations = ("rangeText", "deleteContents", "extractContents", "cloneContents", "insertNode", "surroundContents")
    pairs = itertools.product(range(points_of(tree)), repeat=2)
    for (first, second), operation in itertools.product(pairs, operations):

        def played(core, first=first, second=second, operation=operation):
            stage = stands(core)
            points = stage.points()
            stage.ranges.append(stage.say("createRange", 0))
            stage.say("setStart", 0, *points[first])
            stage.say("setEnd", 0, *points[second])
            stage.say("range", 0)
            stage.say("commonAncestor", 0)
            stage.say("comparePoint", 0, *points[first])
            stage.observe(stage.nodes[0])
            extra = [stage.say("createElement", 0, "w")] if operation in ("insertNode", "surroundContents") else []
            made = stage.say(operation, 0, *extra)
            return stage.show(0, *([made] if isinstance(made, int) else []))

        yield f"{count}", played
        count += 1


def size_of(tree):
    return 1 if isinstance(tree, str) else 1 + sum(map(size_of, tree[1]))


def points_of(tree):
    return len(tree) + 1 if isinstance(tree, str) else len(tree[1]) + 1 + sum(map(points_of, tree[1]))


def normalize_scenes(_):
    """All lists of up to three Texts, elements and Comments, with a range between every two points."""
    for length in range(4):
        for at, siblings in enumerate(itertools.product(SIBLINGS, repeat=length)):

            def played(core, siblings=siblings):
                stage = Stage(core)
                top = stage.grow(("a", list(siblings)))
                stage.mark(top)
                stage.observe(top)
                stage.say("normalize", top)
                return stage.show(top)

            yield f"{length}/{at}", played


def split_scenes(_):
    """A Text split at each offset and beyond, alone and among siblings, with a range between every two points."""
    places = [("a", list(siblings)) for siblings in itertools.product((("b", []), "x", "yz"), repeat=2)] + ["xyz", ""]
    for at, (tree, node, offset) in enumerate(itertools.product(places, range(3), range(4))):

        def played(core, tree=tree, node=node, offset=offset):
            stage = Stage(core)
            top = stage.grow(tree)
            stage.mark(top)
            stage.observe(top)
            stage.say("splitText", stage.nodes[node % len(stage.nodes)], offset)
            return stage.show(top)

        yield f"{at}", played


def edit_scenes(tree):
    """Each node of a tree removed, inserted before each other, and in the place of each other, with a range between every two points."""
    names = ("remove", "insertBefore", "replaceChild", "replaceChildren", "setTextContent")
    for at, (name, first, second) in enumerate(itertools.product(names, range(size_of(tree)), range(size_of(tree)))):

        def played(core, name=name, first=first, second=second):
            stage = planted(tree)(core)
            stage.mark(stage.nodes[0])
            stage.observe(stage.nodes[0])
            node, other = stage.nodes[first], stage.nodes[second]
            parent = stage.core.ask("node", other)["parent"]
            words = {"remove": [node], "insertBefore": [parent, node, other], "replaceChild": [parent, node, other]}
            stage.say(name, *words.get(name, [node, "t"] if name == "setTextContent" else [other, node]))
            return stage.show(0)

        if name not in ("remove", "setTextContent") or first == second:
            yield f"{at}", played


def walk_scenes(tree):
    """All moves of a walker from each node, for each root and filter."""
    for at, (root, rules) in enumerate(itertools.product(range(size_of(tree)), FILTERS)):

        def played(core, root=root, rules=rules):
            stage = Stage(core)
            stage.grow(tree)
            walker = stage.say("createWalker", stage.nodes[root], ALL, rules)
            for node, move in itertools.product(stage.nodes, MOVES):
                stage.say("setCurrent", walker, node)
                stage.say("walk", walker, move)
            return stage.turns

        yield f"{at}", played


def iterator_scenes(tree):
    """An iterator of each root, moved to each place from both sides, and then each node removed."""
    size = size_of(tree)
    for at, (root, steps, back, gone) in enumerate(itertools.product(range(size), range(size + 1), (False, True), range(size))):

        def played(core, root=root, steps=steps, back=back, gone=gone):
            stage = Stage(core)
            stage.grow(tree)
            iterator = stage.say("createIterator", stage.nodes[root], ALL, [])
            for _ in range(steps):
                stage.say("nextNode", iterator)
            if back:
                stage.say("previousNode", iterator)
            stage.say("remove", stage.nodes[gone])
            stage.say("iterator", iterator)
            stage.say("nextNode", iterator)
            return stage.turns

        yield f"{at}", played


# The nodes that are inserted into a Document: a maker with its words, for a fragment the names of its children.
PARTS = {
    "element": ("createElement", "e"),
    "text": ("createText", "t"),
    "comment": ("createComment", "c"),
    "doctype": ("createDoctype", "d", "", ""),
    "document": ("newDocument",),
    "no child": ("createFragment",),
    "one element": ("createFragment", "element"),
    "two elements": ("createFragment", "element", "element"),
    "a text": ("createFragment", "text"),
    "element and comment": ("createFragment", "comment", "element"),
}


def part(stage, name):
    maker, *words = PARTS[name]
    if maker == "createFragment":
        made = stage.say(maker, 0)
        for below in words:
            stage.say("appendChild", made, part(stage, below))
        return made
    return stage.say(maker, *([] if maker == "newDocument" else [0, *words]))


def document_scenes(_):
    """All Documents of up to three children, and each kind of node inserted at each place or in the place of each child."""
    kept = [it for length in range(4) for it in itertools.product(("element", "comment", "doctype"), repeat=length) if legal(it)]
    for at, (children, name, place) in enumerate(itertools.product(kept, PARTS, range(9))):
        kind, place = ("insertBefore", place) if place < 4 else ("replaceChild", place - 4) if place < 8 else ("replaceChildren", 0)
        if place < max(len(children), 1) + (kind == "insertBefore"):
            yield f"{at}", document_scene(children, name, kind, place)


def legal(children):
    """Returns whether a Document of a scene can have these children: at most one element and one doctype, the doctype ahead of the element."""
    doctype = children.index("doctype") if "doctype" in children else -1
    element = children.index("element") if "element" in children else len(children)
    return children.count("element") < 2 and children.count("doctype") < 2 and doctype < element


def document_scene(children, name, kind, place):
    def played(core):
        stage = Stage(core)
        stands = [part(stage, it) for it in children]
        for it in stands:
            stage.say("appendChild", 0, it)
        stage.observe(0)
        node = part(stage, name)
        child = stands[place] if place < len(stands) else None
        if kind == "insertBefore":
            stage.say(kind, 0, node, child)
        elif kind == "replaceChildren":
            stage.say(kind, 0, node)
        elif child is not None:
            stage.say(kind, 0, node, child)
        return stage.show(0)

    return played


KINDS = {
    "ranges": (range_scenes, TREES),
    "normalize": (normalize_scenes, (None,)),
    "splits": (split_scenes, (None,)),
    "edits": (edit_scenes, TREES),
    "walks": (walk_scenes, WALKED),
    "iterators": (iterator_scenes, WALKED[1:]),
    "documents": (document_scenes, (None,)),
}

# The commands without which a kind's scenes can't be played.
NEEDS = {
    "ranges": {"createRange", "setStart", "takeRecords"},
    "normalize": {"normalize", "createText"},
    "splits": {"splitText"},
    "edits": {"insertBefore", "remove", "replaceChild"},
    "walks": {"createWalker"},
    "iterators": {"createIterator"},
    "documents": {"insertBefore", "replaceChild", "createDoctype"},
}


def scenes(kind):
    """Yields all scenes of a kind: a name and a function that plays the scene to a core."""
    make, trees = KINDS[kind]
    for at, tree in enumerate(trees):
        for name, played in make(tree):
            yield f"{at}/{name}", played
