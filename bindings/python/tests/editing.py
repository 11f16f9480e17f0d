"""Random edits, and all that can be told of a tree and of ranges."""
import os
import random

import huckleport as h


def ends_of(ranges):
    """The ends of ranges."""
    return [tuple(it._ends()) for it in ranges]


def seen(document, ranges):
    """All that can be told of a tree and of ranges."""
    rows = [(it.depth, it.node.number, it.name, it.attributes, it.data) for it in document.tree()]
    return rows, ends_of(ranges)


def resident():
    """How many bytes of memory this process takes."""
    with open("/proc/self/statm", encoding="ascii") as file:
        return int(file.read().split()[1]) * os.sysconf("SC_PAGE_SIZE")


class Editor:
    """Makes random edits below a node, as an editor makes them."""

    def __init__(self, document, root, ranges, seed):
        self.document, self.root, self.ranges = document, root, ranges
        self.picked = random.Random(seed)

    def nodes(self, kind):
        return [it for it in (self.root, *self.root.descendants()) if isinstance(it, kind)]

    def pick(self, kind):
        found = self.nodes(kind)
        return self.picked.choice(found) if found else None

    def edit(self):
        """Makes an edit. A refused one has changed nothing."""
        try:
            getattr(self, self.picked.choice(EDITS))()
        except h.DOMException:
            pass

    def put(self):
        parent = self.pick(h.Element)
        node = self.picked.choice((self.document.create_element, self.document.create_text_node, self.document.create_comment))("new")
        children = [*parent.child_nodes, None]
        parent.insert_before(node, self.picked.choice(children))

    def put_several(self):
        parent = self.pick(h.Element)
        nodes = [self.document.create_element("x"), "text", self.document.create_element("y")]
        nodes[0].set_attribute("a", "1")
        parent.prepend(*nodes)

    def remove(self):
        found = self.pick(h.Node)
        if found is not self.root:
            found.remove()

    def move(self):
        node, parent = self.pick(h.Node), self.pick(h.Element)
        if not node.contains(parent):
            parent.insert_before(node, parent.first_child if parent.first_child is not node else None)

    def swap(self):
        """A node goes above what it stood under."""
        child = self.pick(h.Element)
        parent = child.parent_node
        if child is not self.root and parent is not self.root:
            parent.parent_node.insert_before(child, parent)
            child.append_child(parent)

    def wrap(self):
        """A node goes into another that is put in its place then."""
        node = self.pick(h.Node)
        if node is not self.root:
            parent, behind, wrapper = node.parent_node, node.next_sibling, self.document.create_element("w")
            wrapper.append_child(node)
            parent.insert_before(wrapper, behind)

    def surround(self):
        """A node goes into a new element, and that pair into another, or the node alone."""
        node = self.pick(h.Node)
        if node is self.root:
            return
        found = self.document.create_range()
        for _ in range(2):
            found.select_node(self.picked.choice((node, node.parent_node)) if node.parent_node is not self.root else node)
            found.surround_contents(self.document.create_element("s"))
        found.release()

    def replace(self):
        """Puts a node in place of another, which may be its sibling, itself, or its ancestor."""
        child, node = self.pick(h.Node), self.picked.choice((self.pick(h.Node), self.document.create_element("r")))
        if child is not self.root and not node.contains(child.parent_node):
            child.parent_node.replace_child(node, child)

    def replace_all(self):
        """Replaces all children of a node by one node, which may be one of its descendants."""
        parent, node = self.pick(h.Element), self.pick(h.Node)
        if parent is not self.root and not node.contains(parent):
            parent.replace_children(node, "t")

    def content(self):
        found = self.pick(h.Element)
        if found is not self.root:
            found.text_content = "t"

    def extract(self):
        """Moves the contents of a range to the end."""
        self.root.append_child(self.picked.choice(self.ranges).extract_contents())

    def insert(self):
        self.picked.choice(self.ranges).insert_node(self.document.create_element("i"))

    def empty(self):
        found = self.pick(h.Element)
        if found is not self.root:
            found.replace_children()

    def text(self):
        found = self.pick(h.CharacterData)
        if found is not None:
            at = self.picked.randint(0, found.length)
            found.replace_data(at, self.picked.randint(0, 3), "\U0001f600ab"[: self.picked.randint(0, 3)])

    def split(self):
        found = self.pick(h.Text)
        if found is not None:
            found.split_text(self.picked.randint(0, found.length))

    def join(self):
        self.pick(h.Element).normalize()

    def attribute(self):
        found, name = self.pick(h.Element), self.picked.choice("abcd")
        self.picked.choice((lambda: found.set_attribute(name, str(self.picked.random())), lambda: found.toggle_attribute(name)))()

    def cut(self):
        found = self.picked.choice(self.ranges)
        found.delete_contents()

    def mark(self):
        found, node = self.picked.choice(self.ranges), self.pick(h.Node)
        found.set_start(node, self.picked.randint(0, node.length))
        node = self.pick(h.Node)
        found.set_end(node, self.picked.randint(0, node.length))

    def both(self):
        self.edit()
        self.edit()


EDITS = (
    "put put put_several remove move swap wrap surround replace replace replace_all content extract insert empty text text split join"
    " attribute attribute cut mark mark both".split()
)
