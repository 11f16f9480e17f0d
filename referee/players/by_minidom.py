"""Python's xml.dom.minidom."""
import sys
import xml.dom
from xml.dom import minidom

from speaking import Refused, Skip, commands_of, serve, text_in, walk

NAMES = {1: "IndexSizeError", 3: "HierarchyRequestError", 4: "WrongDocumentError", 5: "InvalidCharacterError", 8: "NotFoundError"}
NAMES.update({9: "NotSupportedError", 11: "InvalidStateError", 15: "InvalidAccessError", 16: "ValidationError"})
ELEMENT, DOCUMENT, DOCTYPE = 1, 9, 10
WITH_DATA = (3, 7, 8)


def text_out(value):
    if value is None or not any("\ud800" <= it <= "\udfff" for it in value):
        return value
    raw = value.encode("utf-16-le", "surrogatepass")
    return [raw[at] | raw[at + 1] << 8 for at in range(0, len(raw), 2)]


def refusing(method):
    """Returns a method whose DOMException becomes a refusal by the standard's name."""

    def called(*values):
        try:
            return method(*values)
        except xml.dom.DOMException as fault:
            raise Refused(NAMES.get(fault.code, type(fault).__name__)) from None
        except AttributeError as fault:
            if not isinstance(fault.obj, minidom.Node) or not fault.name.endswith("Data"):
                raise
            raise Skip("a processing instruction has no calls for its data") from None

    return called


class World:
    def __init__(self):
        self.nodes, self.number = [], {}
        self.newDocument()

    def _made(self, node):
        self.number[id(node)] = len(self.nodes)
        self.nodes.append(node)
        return len(self.nodes) - 1

    def _n(self, number):
        if number is not None and self.nodes[number] is None:
            raise Skip("a node that stands nowhere here")
        return None if number is None else self.nodes[number]

    def _of(self, node):
        return None if node is None else self.number.get(id(node), "a node without a number")

    def _key(self, node):
        return id(node)

    def _walk(self, top):
        return walk(top, lambda node: node.childNodes)

    def newDocument(self):
        return self._made(minidom.Document())

    def createElement(self, document, name):
        return self._made(self._n(document).createElement(name))

    def createText(self, document, text):
        return self._made(self._n(document).createTextNode(text_in(text)))

    def createComment(self, document, text):
        return self._made(self._n(document).createComment(text_in(text)))

    def createPI(self, document, target, text):
        return self._made(self._n(document).createProcessingInstruction(target, text_in(text)))

    def createDoctype(self, document, name, public, system):
        return self._made(minidom.getDOMImplementation().createDocumentType(name, public, system))

    def createFragment(self, document):
        return self._made(self._n(document).createDocumentFragment())

    def insertBefore(self, parent, node, child):
        return self._of(self._n(parent).insertBefore(self._n(node), self._n(child)))

    def appendChild(self, parent, node):
        return self._of(self._n(parent).appendChild(self._n(node)))

    def replaceChild(self, parent, node, child):
        return self._of(self._n(parent).replaceChild(self._n(node), self._n(child)))

    def removeChild(self, parent, child):
        return self._of(self._n(parent).removeChild(self._n(child)))

    def importNode(self, document, node, deep):
        return self._made(self._n(document).importNode(self._n(node), deep))

    def cloneNode(self, node, deep):
        return self._made(self._n(node).cloneNode(deep))

    def normalize(self, node):
        self._n(node).normalize()

    def node(self, node):
        it = self._n(node)
        if it.nodeType == DOCTYPE:
            raise Skip("a doctype's document")
        found = {"document": self._of(it.ownerDocument or it), "name": it.nodeName, "type": it.nodeType, "parent": self._of(it.parentNode)}
        return {**found, "next": self._of(it.nextSibling), "previous": self._of(it.previousSibling)}

    def children(self, node):
        return [self._of(it) for it in self._n(node).childNodes]

    def tree(self, node):
        return [self._row(depth, it) for depth, it in self._walk(self._n(node))]

    def _row(self, depth, it):
        found = [depth, self._of(it), it.nodeType, it.nodeName]
        if it.nodeType == ELEMENT:
            found.append([[name, text_out(value)] for name, value in it.attributes.items()])
        if it.nodeType == DOCTYPE:
            found += [it.publicId or "", it.systemId or ""]
        return [*found, text_out(it.data)] if it.nodeType in WITH_DATA else found

    def data(self, node):
        return text_out(self._n(node).data)

    def setData(self, node, text):
        self._n(node).data = text_in(text)

    def appendData(self, node, text):
        self._n(node).appendData(text_in(text))

    def insertData(self, node, offset, text):
        self._n(node).insertData(offset, text_in(text))

    def deleteData(self, node, offset, count):
        self._n(node).deleteData(offset, count)

    def replaceData(self, node, offset, count, text):
        self._n(node).replaceData(offset, count, text_in(text))

    def substringData(self, node, offset, count):
        return text_out(self._n(node).substringData(offset, count))

    def splitText(self, node, offset):
        return self._made(self._n(node).splitText(offset))

    def setAttribute(self, element, name, value):
        self._n(element).setAttribute(name, text_in(value))

    def getAttribute(self, element, name):
        return text_out(self._n(element).getAttribute(name))

    def hasAttribute(self, element, name):
        return self._n(element).hasAttribute(name)

    def removeAttribute(self, element, name):
        self._n(element).removeAttribute(name)

    def attributeNames(self, element):
        return list(self._n(element).attributes.keys())


COMMANDS = commands_of(World)
for it in COMMANDS:
    setattr(World, it, refusing(getattr(World, it)))

ITSELF = [
    "reads and writes JSON, and tells a text that is not well-formed by its units",
    "tells the package's exceptions by the standard's names, by their codes",
    "numbers what a command makes; those made inside take the core's numbers, place by place",
    "answers tree by a walk over childNodes, and tells a doctype's missing ids as empty ones",
]
VERSION = "of Python " + sys.version.split()[0]
serve(World, {"name": "minidom", "version": VERSION, "serves": COMMANDS, "itself": ITSELF, "numbers": True})
