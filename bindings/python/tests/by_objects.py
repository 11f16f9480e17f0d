"""Says the commands of lines by the objects of the package, and puts the replies together from what they answer.

Where a command names an object of another kind, the call of the due kind is made on it all the same, so that the library refuses it.
"""
import huckleport as h
from huckleport.errors import NoSuchObject
from tests.forms import MOVES, OPTIONS, ends_out, filter_in, node_out, number, numbers, record_out, row_out, text_in, text_out


class Speaker:
    """The commands by their names, over one session. Objects are kept, as a program keeps them."""

    def __init__(self, session):
        self.session = session
        self.kept = []
        # (commands name nodes by numbers, also such as never had an object: the session knows that by a line)
        session.line(b'["length",0]')

    # objects by the numbers of a line; one that is not there stands in, so that the library is asked

    def get(self, find, kind, number):
        try:
            found = find(number)
        except NoSuchObject:
            found = kind(self.session, number)
        self.kept.append(found)
        return found

    def n(self, number):
        return None if number is None else self.get(self.session.node, h.Node, number)

    def r(self, number):
        return self.get(self.session.range, h.Range, number)

    def i(self, number):
        return self.get(self.session.node_iterator, h.NodeIterator, number)

    def w(self, number):
        return self.get(self.session.tree_walker, h.TreeWalker, number)

    def o(self, number):
        return self.session.mutation_observer(number)

    def make(self, it):
        self.kept.append(it)
        return it.number

    # making

    def newDocument(self):
        return self.make(self.session.create_document())

    def createElement(self, document, name):
        return self.make(h.Document.create_element(self.n(document), name))

    def createText(self, document, text):
        return self.make(h.Document.create_text_node(self.n(document), text_in(text)))

    def createComment(self, document, text):
        return self.make(h.Document.create_comment(self.n(document), text_in(text)))

    def createPI(self, document, target, text):
        return self.make(h.Document.create_processing_instruction(self.n(document), target, text_in(text)))

    def createDoctype(self, document, name, public, system):
        return self.make(h.Document.create_document_type(self.n(document), name, public, system))

    def createFragment(self, document):
        return self.make(h.Document.create_document_fragment(self.n(document)))

    # trees

    def insertBefore(self, parent, node, child):
        return h.Node.insert_before(self.n(parent), self.n(node), self.n(child)).number

    def appendChild(self, parent, node):
        return h.Node.append_child(self.n(parent), self.n(node)).number

    def adoptNode(self, document, node):
        return h.Document.adopt_node(self.n(document), self.n(node)).number

    def replaceChild(self, parent, node, child):
        return self.n(parent).replace_child(self.n(node), self.n(child)).number

    def removeChild(self, parent, child):
        return self.n(parent).remove_child(self.n(child)).number

    def remove(self, node):
        h.ChildNode.remove(self.n(node))

    def replaceChildren(self, parent, node):
        h.ParentNode.replace_children(self.n(parent), self.n(node))

    def importNode(self, document, node, deep):
        return self.make(h.Document.import_node(self.n(document), self.n(node), deep))

    def cloneNode(self, node, deep):
        return self.make(self.n(node).clone_node(deep))

    def normalize(self, node):
        self.n(node).normalize()

    def discard(self, node):
        self.n(node).discard()

    # questions

    def node(self, node):
        return node_out(self.n(node))

    def children(self, node):
        return numbers(self.n(node).child_nodes)

    def index(self, node):
        return self.n(node).index

    def length(self, node):
        return self.n(node).length

    def root(self, node):
        return self.n(node).get_root_node().number

    def contains(self, node, other):
        return self.n(node).contains(self.n(other))

    def isEqual(self, node, other):
        return self.n(node).is_equal_node(self.n(other))

    def comparePosition(self, node, other):
        return self.n(node).compare_document_position(self.n(other))

    def textContent(self, node):
        return text_out(self.n(node).text_content)

    def setTextContent(self, node, text):
        self.n(node).text_content = text_in(text)

    def tree(self, node):
        return [row_out(it) for it in self.n(node).tree()]

    # data

    def data(self, node):
        return text_out(h.CharacterData.data.__get__(self.n(node)))

    def setData(self, node, text):
        h.CharacterData.data.__set__(self.n(node), text_in(text))

    def appendData(self, node, text):
        h.CharacterData.append_data(self.n(node), text_in(text))

    def insertData(self, node, offset, text):
        h.CharacterData.insert_data(self.n(node), offset, text_in(text))

    def deleteData(self, node, offset, count):
        h.CharacterData.delete_data(self.n(node), offset, count)

    def replaceData(self, node, offset, count, text):
        h.CharacterData.replace_data(self.n(node), offset, count, text_in(text))

    def substringData(self, node, offset, count):
        return text_out(h.CharacterData.substring_data(self.n(node), offset, count))

    def splitText(self, node, offset):
        return self.make(h.Text.split_text(self.n(node), offset))

    # attributes

    def setAttribute(self, element, name, value):
        h.Element.set_attribute(self.n(element), name, text_in(value))

    def getAttribute(self, element, name):
        return text_out(h.Element.get_attribute(self.n(element), name))

    def hasAttribute(self, element, name):
        return h.Element.has_attribute(self.n(element), name)

    def removeAttribute(self, element, name):
        h.Element.remove_attribute(self.n(element), name)

    def toggleAttribute(self, element, name, force):
        return h.Element.toggle_attribute(self.n(element), name, force)

    def attributeNames(self, element):
        return h.Element.get_attribute_names(self.n(element))

    # ranges

    def createRange(self, document):
        return self.make(h.Document.create_range(self.n(document)))

    def cloneRange(self, range):
        return self.make(self.r(range).clone_range())

    def range(self, range):
        return ends_out(self.r(range))

    def setStart(self, range, node, offset):
        self.r(range).set_start(self.n(node), offset)

    def setEnd(self, range, node, offset):
        self.r(range).set_end(self.n(node), offset)

    def setStartBefore(self, range, node):
        self.r(range).set_start_before(self.n(node))

    def setStartAfter(self, range, node):
        self.r(range).set_start_after(self.n(node))

    def setEndBefore(self, range, node):
        self.r(range).set_end_before(self.n(node))

    def setEndAfter(self, range, node):
        self.r(range).set_end_after(self.n(node))

    def collapse(self, range, to_start):
        self.r(range).collapse(to_start)

    def selectNode(self, range, node):
        self.r(range).select_node(self.n(node))

    def selectNodeContents(self, range, node):
        self.r(range).select_node_contents(self.n(node))

    def compareBoundaryPoints(self, range, how, other):
        return self.r(range).compare_boundary_points(how, self.r(other))

    def comparePoint(self, range, node, offset):
        return self.r(range).compare_point(self.n(node), offset)

    def isPointInRange(self, range, node, offset):
        return self.r(range).is_point_in_range(self.n(node), offset)

    def intersectsNode(self, range, node):
        return self.r(range).intersects_node(self.n(node))

    def commonAncestor(self, range):
        return self.r(range).common_ancestor_container.number

    def releaseRange(self, range):
        self.r(range).release()

    def createStaticRange(self, start, start_offset, end, end_offset):
        return self.make(self.session.create_static_range(self.n(start), start_offset, self.n(end), end_offset))

    def staticRange(self, static):
        it = self.get(self.session.static_range, h.StaticRange, static)
        return [*ends_out(it), it.is_valid]

    # contents

    def rangeText(self, range):
        return text_out(str(self.r(range)))

    def deleteContents(self, range):
        self.r(range).delete_contents()

    def extractContents(self, range):
        return self.make(self.r(range).extract_contents())

    def cloneContents(self, range):
        return self.make(self.r(range).clone_contents())

    def insertNode(self, range, node):
        self.r(range).insert_node(self.n(node))

    def surroundContents(self, range, node):
        self.r(range).surround_contents(self.n(node))

    # traversal

    def createIterator(self, root, show, filter):
        return self.make(self.session.document.create_node_iterator(self.n(root), show, filter_in(filter)))

    def createWalker(self, root, show, filter):
        return self.make(self.session.document.create_tree_walker(self.n(root), show, filter_in(filter)))

    def iterator(self, iterator):
        it = self.i(iterator)
        return [it.root.number, it.reference_node.number, it.pointer_before_reference_node]

    def nextNode(self, iterator):
        return number(self.i(iterator).next_node())

    def previousNode(self, iterator):
        return number(self.i(iterator).previous_node())

    def walker(self, walker):
        it = self.w(walker)
        return [it.root.number, it.current_node.number]

    def setCurrent(self, walker, node):
        self.w(walker).current_node = self.n(node)

    def walk(self, walker, move):
        return number(MOVES[move](self.w(walker)))

    # observers

    def createObserver(self):
        return self.make(self.session.create_mutation_observer())

    def observe(self, observer, node, options):
        self.o(observer).observe(self.n(node), **{OPTIONS[it]: value for it, value in options.items() if it in OPTIONS})

    def disconnect(self, observer):
        self.o(observer).disconnect()

    def takeRecords(self, observer):
        return [record_out(it) for it in self.o(observer).take_records()]

    def notify(self):
        return [[observer.number, [record_out(it) for it in records]] for observer, records in self.session.notify()]

    def pending(self):
        return numbers(self.session.pending())
