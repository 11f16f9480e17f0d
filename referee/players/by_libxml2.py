"""libxml2's tree by its calls, as the example of a core with fewer of them: there are no ranges, iterators or observers."""
import ctypes
import ctypes.util

from speaking import Refused, Skip, commands_of, serve, walk

XML = ctypes.CDLL(ctypes.util.find_library("xml2"))


class Node(ctypes.Structure):
    pass


Pointer = ctypes.POINTER(Node)
Node._fields_ = [
    ("private", ctypes.c_void_p),
    ("type", ctypes.c_int),
    ("name", ctypes.c_char_p),
    *((name, Pointer) for name in ("children", "last", "parent", "next", "prev", "doc")),
    ("ns", ctypes.c_void_p),
    ("content", ctypes.c_char_p),
    ("properties", Pointer),
]

CALLS = {
    "xmlNewDoc": (Pointer, ctypes.c_char_p),
    "xmlNewDocNode": (Pointer, Pointer, ctypes.c_void_p, ctypes.c_char_p, ctypes.c_char_p),
    "xmlNewDocText": (Pointer, Pointer, ctypes.c_char_p),
    "xmlNewDocComment": (Pointer, Pointer, ctypes.c_char_p),
    "xmlNewDocPI": (Pointer, Pointer, ctypes.c_char_p, ctypes.c_char_p),
    "xmlNewDocFragment": (Pointer, Pointer),
    "xmlAddChild": (Pointer, Pointer, Pointer),
    "xmlAddPrevSibling": (Pointer, Pointer, Pointer),
    "xmlReplaceNode": (Pointer, Pointer, Pointer),
    "xmlUnlinkNode": (None, Pointer),
    "xmlDocCopyNode": (Pointer, Pointer, Pointer, ctypes.c_int),
    "xmlSetProp": (Pointer, Pointer, ctypes.c_char_p, ctypes.c_char_p),
    "xmlGetNoNsProp": (ctypes.c_char_p, Pointer, ctypes.c_char_p),
    "xmlHasProp": (Pointer, Pointer, ctypes.c_char_p),
    "xmlUnsetProp": (ctypes.c_int, Pointer, ctypes.c_char_p),
    "xmlNodeGetContent": (ctypes.c_char_p, Pointer),
}
for name, (result, *arguments) in CALLS.items():
    getattr(XML, name).restype, getattr(XML, name).argtypes = result, arguments

NAMES = {3: "#text", 8: "#comment", 9: "#document", 11: "#document-fragment"}
WITH_DATA = (3, 7, 8)


def address(pointer):
    return ctypes.cast(pointer, ctypes.c_void_p).value


def text_in(value):
    if isinstance(value, list) or "\0" in value:
        raise Skip("texts are UTF-8 without NUL")
    return value.encode()


class World:
    def __init__(self):
        self.nodes, self.number = [], {}
        self.newDocument()

    def _made(self, pointer):
        if not pointer:
            raise Refused("*")
        self.number[address(pointer)] = len(self.nodes)
        self.nodes.append(pointer)
        return len(self.nodes) - 1

    def _n(self, number):
        if self.nodes[number] is None:
            raise Skip("a node that is not there any more")
        return self.nodes[number]

    def _of(self, pointer):
        return self.number.get(address(pointer), "a node without a number") if pointer else None

    def _children(self, pointer):
        child = pointer.contents.children
        while child:
            yield child
            child = child.contents.next

    def _key(self, pointer):
        return address(pointer)

    def _walk(self, top):
        return walk(top, self._children)

    def _put(self, number, placed):
        """Returns the number of the node that a placing call returns. If two nodes were joined, that is another node, and the given one is freed."""
        if not placed:
            raise Refused("*")
        if address(placed) != address(self._n(number)):
            del self.number[address(self._n(number))]
            self.nodes[number] = None
        return self._of(placed)

    def newDocument(self):
        return self._made(XML.xmlNewDoc(b"1.0"))

    def createElement(self, document, name):
        return self._made(XML.xmlNewDocNode(self._n(document), None, text_in(name), None))

    def createText(self, document, text):
        return self._made(XML.xmlNewDocText(self._n(document), text_in(text)))

    def createComment(self, document, text):
        return self._made(XML.xmlNewDocComment(self._n(document), text_in(text)))

    def createPI(self, document, target, text):
        return self._made(XML.xmlNewDocPI(self._n(document), text_in(target), text_in(text)))

    def appendChild(self, parent, node):
        XML.xmlUnlinkNode(self._n(node))
        return self._put(node, XML.xmlAddChild(self._n(parent), self._n(node)))

    def insertBefore(self, parent, node, child):
        if child is None:
            return self.appendChild(parent, node)
        if address(self._n(child).contents.parent) != address(self._n(parent)):
            raise Skip("the call asks no parent")
        return self._put(node, XML.xmlAddPrevSibling(self._n(child), self._n(node)))

    def replaceChild(self, parent, node, child):
        if address(self._n(child).contents.parent) != address(self._n(parent)):
            raise Skip("the call asks no parent")
        return self._of(XML.xmlReplaceNode(self._n(child), self._n(node)))

    def remove(self, node):
        XML.xmlUnlinkNode(self._n(node))

    def cloneNode(self, node, deep):
        if self._n(node).contents.type == 9:
            raise Skip("Documents have a call of their own")
        return self._made(XML.xmlDocCopyNode(self._n(node), self._n(node).contents.doc, 1 if deep else 2))

    def children(self, node):
        return [self._of(it) for it in self._children(self._n(node))]

    def tree(self, node):
        return [self._row(depth, it) for depth, it in self._walk(self._n(node))]

    def _row(self, depth, pointer):
        it = pointer.contents
        found = [depth, self._of(pointer), it.type, NAMES.get(it.type) or it.name.decode()]
        if it.type == 1:
            found.append([[name, self._value(pointer, name)] for name in self._names(pointer)])
        return [*found, (it.content or b"").decode()] if it.type in WITH_DATA else found

    def _names(self, pointer):
        found, attribute = [], pointer.contents.properties
        while attribute:
            found.append(attribute.contents.name.decode())
            attribute = attribute.contents.next
        return found

    def _value(self, pointer, name):
        found = XML.xmlGetNoNsProp(pointer, name.encode())
        return None if found is None else found.decode()

    def data(self, node):
        return (self._n(node).contents.content or b"").decode()

    def textContent(self, node):
        if self._n(node).contents.type == 9:
            raise Skip("a Document has a text here")
        return (XML.xmlNodeGetContent(self._n(node)) or b"").decode()

    def setAttribute(self, element, name, value):
        XML.xmlSetProp(self._n(element), text_in(name), text_in(value))

    def getAttribute(self, element, name):
        return self._value(self._n(element), name)

    def hasAttribute(self, element, name):
        return bool(XML.xmlHasProp(self._n(element), name.encode()))

    def removeAttribute(self, element, name):
        XML.xmlUnsetProp(self._n(element), name.encode())

    def attributeNames(self, element):
        return self._names(self._n(element))


ITSELF = [
    "tells a call that gives no node back as a refusal without a name, which is the same as any",
    "reads and writes JSON; has no doctypes, no ranges, iterators, walkers or observers",
    "takes a node out before it appends it, as a caller of the library has to, and asks whether a child is of that parent",
    "numbers what a command makes; those made inside take the core's numbers, place by place",
    "answers tree, children and attributeNames by following the pointers of the structures, and gives no memory back",
]
VERSION = ctypes.c_char_p.in_dll(XML, "xmlParserVersion").value.decode()
TOLD = {"name": "libxml2", "version": VERSION, "serves": commands_of(World), "itself": ITSELF, "numbers": True}
serve(World, TOLD)
