"""Debian's lxml.etree: elements, Comments and processing instructions. Its texts are no nodes, and a Document is none that has children."""
import copy

from lxml import etree
from speaking import Refused, Skip, commands_of, serve, text_in, walk

KINDS = {etree.Comment: (8, "#comment"), etree.ProcessingInstruction: (7, None)}


def refusing(method):
    """A method whose ValueError is a refusal without a name."""

    def called(*values):
        try:
            return method(*values)
        except (TypeError, ValueError):
            raise Refused("*") from None

    return called


class World:
    def __init__(self):
        self.nodes, self.number = [None], {}

    def _made(self, node):
        self.number[node] = len(self.nodes)
        self.nodes.append(node)
        return len(self.nodes) - 1

    def _n(self, number):
        if self.nodes[number] is None:
            raise Skip("no node here")
        return self.nodes[number]

    def _of(self, node):
        return None if node is None else self.number.get(node, "a node without a number")

    def _key(self, node):
        return node

    def _walk(self, top):
        return walk(top, list)

    def _child(self, parent, child):
        if self._n(child).getparent() is not self._n(parent):
            raise Skip("the call asks no parent")
        return self._n(child)

    def createElement(self, document, name):
        return self._made(etree.Element(name))

    def createComment(self, document, text):
        return self._made(etree.Comment(text_in(text)))

    def createPI(self, document, target, text):
        return self._made(etree.ProcessingInstruction(target, text_in(text)))

    def appendChild(self, parent, node):
        self._n(parent).append(self._n(node))
        return node

    def insertBefore(self, parent, node, child):
        if child is None:
            return self.appendChild(parent, node)
        self._child(parent, child).addprevious(self._n(node))
        return node

    def replaceChild(self, parent, node, child):
        self._n(parent).replace(self._n(child), self._n(node))
        return child

    def removeChild(self, parent, child):
        self._n(parent).remove(self._n(child))
        return child

    def cloneNode(self, node, deep):
        if not deep:
            raise Skip("copies are deep")
        return self._made(copy.deepcopy(self._n(node)))

    def children(self, node):
        return [self._of(it) for it in self._n(node)]

    def index(self, node):
        parent = self._n(node).getparent()
        return 0 if parent is None else parent.index(self._n(node))

    def tree(self, node):
        return [self._row(depth, it) for depth, it in self._walk(self._n(node))]

    def _row(self, depth, it):
        if it.tag in KINDS:
            kind, name = KINDS[it.tag]
            return [depth, self._of(it), kind, name or it.target, it.text or ""]
        return [depth, self._of(it), 1, it.tag, [list(pair) for pair in it.attrib.items()]]

    def data(self, node):
        return self._n(node).text or ""

    def setData(self, node, text):
        self._n(node).text = text_in(text)

    def setAttribute(self, element, name, value):
        self._n(element).set(name, text_in(value))

    def getAttribute(self, element, name):
        return self._n(element).get(name)

    def hasAttribute(self, element, name):
        return name in self._n(element).attrib

    def removeAttribute(self, element, name):
        self._n(element).attrib.pop(name, None)

    def attributeNames(self, element):
        return list(self._n(element).keys())


ITSELF = [
    "reads and writes JSON; has no Texts, no Documents with children, no fragments",
    "has no answer where a node is put before one that is no child of the parent: the package's call names no parent",
    "tells each ValueError and TypeError as a refusal without a name, which is the same as any",
    "numbers what a command makes; those made inside take the core's numbers, place by place",
    "answers tree by a walk over children, and tells a missing text as an empty one",
]
COMMANDS = commands_of(World)
for it in COMMANDS:
    setattr(World, it, refusing(getattr(World, it)))
TOLD = {"name": "lxml", "version": etree.__version__, "serves": COMMANDS, "itself": ITSELF, "numbers": True, "documents": False}
serve(World, TOLD)
