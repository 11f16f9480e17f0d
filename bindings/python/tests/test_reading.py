"""What reads many nodes by one call gives what single calls give; and moves that keep bookmarks."""
import ast
import inspect
import itertools
import os
import random
import unittest

import huckleport as h
from tests.editing import Editor

PACKAGE = os.path.dirname(os.path.abspath(h.__file__))


def below(node):
    """The nodes below one, by single calls."""
    it = node.first_child
    while it is not None:
        yield it
        yield from below(it)
        it = it.next_sibling


class Reading(unittest.TestCase):
    def setUp(self):
        self.session = h.Session()
        self.addCleanup(self.session.close)
        self.document = self.session.document
        picked, self.elements = random.Random(1), [self.document.append_child(self.document.create_element("root"))]
        for at in range(300):
            parent = picked.choice(self.elements)
            element = parent.append_child(self.document.create_element(picked.choice("abc")))
            element.set_attribute("id", str(at))
            parent.append(f"text {at} \U0001f600", self.document.create_comment(str(at)))
            self.elements.append(element)

    def test_descendants(self):
        due = list(below(self.document))
        self.assertEqual(len(due), 901)
        self.assertEqual(list(self.document.descendants()), due)
        for kind in (h.Node, h.Element, h.Text, h.Comment, h.CharacterData, h.ParentNode, h.Document):
            found = self.document.descendants(kind)
            self.assertEqual(list(found), [it for it in due if isinstance(it, kind)], kind)
        self.assertEqual(list(self.document.descendants(kind=h.Text)), list(self.document.descendants(h.Text)))
        self.assertEqual(list(due[-1].descendants()), [])
        for it in (self.elements[1], self.elements[7]):
            self.assertEqual(list(it.descendants()), list(below(it)))
        with self.assertRaises(TypeError):
            self.document.descendants(3)

    def test_descendants_stay_those_of_then(self):
        root, seen = self.elements[0], []
        due = [it.number for it in root.descendants()]
        for it in root.descendants():
            # (the next call that makes something frees the nodes that nobody holds, but not those that the iterator has still to return)
            it.remove()
            self.document.create_comment("x")
            seen.append(it.number)
            self.assertIn(it.node_type, (1, 3, 8))
        self.assertEqual(seen, due)
        self.assertEqual(root.child_nodes, [])
        del it
        self.elements.clear()
        self.assertLess(self.session.in_use().nodes, 4)

    def test_an_iterator_that_is_left(self):
        root = self.elements[0]
        self.elements.clear()
        found = root.descendants()
        first = next(found)
        root.replace_children()
        self.assertGreater(self.session.in_use().nodes, 900)
        del found
        self.assertLess(self.session.in_use().nodes, 900)
        self.assertIs(first.node_type, 1)
        left = root.descendants()
        self.session.close()
        self.assertEqual(list(left), [])

    def test_siblings(self):
        for parent in (self.document, *self.elements):
            children = parent.child_nodes
            self.assertEqual(list(parent), children)
            self.assertEqual(parent.children, [it for it in children if isinstance(it, h.Element)])
            for at, it in enumerate(children):
                self.assertEqual(list(it.next_siblings()), children[at + 1 :])
                self.assertEqual(list(it.previous_siblings()), children[:at][::-1])

    def test_looked_up(self):
        for name in "abcx*":
            due = [it for it in below(self.document) if isinstance(it, h.Element) and name in ("*", it.tag_name)]
            self.assertEqual(self.document.get_elements_by_tag_name(name), due)
        self.assertIs(self.document.get_element_by_id("7"), self.elements[8])
        self.assertIs(self.document.get_element_by_id(id="7"), self.elements[8])
        self.assertIsNone(self.document.get_element_by_id("none"))
        self.assertIsNone(self.elements[8].get_element_by_id("7"))

    def test_of_many(self):
        texts = list(self.document.descendants(h.CharacterData))
        self.assertEqual(self.session.data_of(texts), [it.data for it in texts])
        nodes = list(self.document.descendants())
        self.assertEqual(self.session.text_content_of([self.document, *nodes]), [None, *(it.text_content for it in nodes)])
        self.assertEqual(self.session.attribute_of(self.elements, "id"), [it.get_attribute("id") for it in self.elements])
        self.assertEqual(self.session.attributes_of(self.elements), [dict(it.attributes) for it in self.elements])
        self.assertEqual(self.session.data_of([]), [])
        with self.assertRaises(h.DOMTypeError):
            self.session.data_of(self.elements)
        with self.assertRaises(h.DOMTypeError):
            self.session.attributes_of(texts)
        with self.assertRaises(TypeError):
            self.session.data_of(["a"])
        with self.assertRaises(ValueError):
            self.session.text_content_of([h.Session().document])

    def test_of_what_is_no_more(self):
        element = self.document.create_element("x")
        element.discard()
        for read in (element.descendants, element.next_siblings, lambda: list(element), lambda: element.children, lambda: element.get_element_by_id("x")):
            with self.assertRaises(h.NoSuchObject):
                read()


def written(node):
    """Returns a node and all below it as HTML, by single calls."""
    if isinstance(node, h.Text):
        return node.data.replace("&", "&amp;").replace("<", "&lt;")
    if isinstance(node, h.Comment):
        return f"<!--{node.data}-->"
    pairs = "".join(f' {name}="{node.get_attribute(name)}"' for name in node.get_attribute_names())
    return f"<{node.tag_name}{pairs}>{''.join(written(it) for it in node.child_nodes)}</{node.tag_name}>"


def text_of(element):
    """The data of the Texts that an element begins with, by single calls, or None."""
    found = list(itertools.takewhile(lambda it: isinstance(it, h.Text), element.child_nodes))
    units = "".join(it.data for it in found).encode("utf-16-le", "surrogatepass")
    return units.decode("utf-16-le", "surrogatepass") if found else None


class Texts(unittest.TestCase):
    def test_units(self):
        """A text of each length, with a character of each kind at each end, is the same as data and as a text of its element."""
        document = h.Session().document
        element, text = document.create_element("e"), document.create_text_node("")
        element.append(text)
        for length, sign in itertools.product((*range(20), *range(252, 262)), "a\x7f\x80\xff\u0100\uffff\U0001f600\ud83d\ude00"):
            for at in {0, length // 2, *range(max(length - 5, 0), length)}:
                text.data = due = ("some text here " * 18)[:at] + sign + ("and more text " * 19)[: length - at]
                self.assertEqual((text.data, element.text, element.text_content), (due, due, due))

    def test_all_children(self):
        """The text of an element with any children, in a tree that was gone through, and behind what has other numbers."""
        parts = ("one", "<a/>", "<a>two</a>", "<!--c-->", "<a>three<b/></a>", "<a><b/>four</a>", "<a><b>five</b></a>")
        for found in itertools.product(("", *parts), repeat=3):
            document = h.xml.parse(f"<r>{''.join(found)}</r>")
            self.check(document)
            root = document.document_element
            root.prepend(*root.child_nodes[1:])
            self.check(document)
            root.append("six", document.create_element("a"), "seven")
            root.children[-1].append("eight", "nine")
            self.check(document)

    def check(self, document):
        elements = list(document.descendants(h.Element))
        self.assertEqual([it.text for it in elements], list(map(text_of, elements)))
        self.assertEqual(document.session.text_content_of(elements), ["".join(it.itertext()) for it in elements])


class Kept(unittest.TestCase):
    """Cached orders of trees, names of attributes and texts are those that single calls return, whatever was edited between."""

    def check(self, root):
        self.assertEqual([it.text for it in root.descendants(h.Element)], [text_of(it) for it in below(root) if isinstance(it, h.Element)])
        self.assertEqual(list(root.descendants()), list(below(root)))
        self.assertEqual(root.get_elements_by_tag_name("x"), [it for it in below(root) if isinstance(it, h.Element) and it.tag_name == "x"])
        self.assertEqual(h.html.serialize(root), written(root))

    def test_edits(self):
        for seed in range(30):
            document = h.xml.parse("<root><x a='1' b='2'>one<y/>&lt;</x><!--two--><z c='3'>three</z></root>")
            root, session = document.document_element, document.session
            editor, history = Editor(document, root, [document.create_range() for _ in range(2)], seed), h.History(root)
            for found in editor.ranges:
                found.select_node_contents(root)
            for _ in range(40):
                with history.group():
                    editor.edit()
                self.check(root)
            while history.undo():
                self.check(root)
            self.assertEqual(session.closed, False)

    def test_lines(self):
        document = h.xml.parse("<root><x a='1'/><y/></root>")
        root, session = document.document_element, document.session
        x, y = root.child_nodes
        for line in (
            f'["setAttribute",{y.number},"b","2"]',
            f'["removeAttribute",{x.number},"a"]',
            f'["toggleAttribute",{x.number},"c",null]',
            f'["appendChild",{x.number},{y.number}]',
            f'["setTextContent",{y.number},"t"]',
            f'["normalize",{root.number}]',
            f'["remove",{y.number}]',
        ):
            self.check(root)
            self.assertIn(b'"ok"', session.line(line.encode()), line)
            self.check(root)

    def test_a_tree_within_another(self):
        document = h.xml.parse(f"<root>{'<x><y>t</y></x>' * 100}</root>")
        for it in document.document_element:
            self.check(it)
        self.check(document.document_element)
        document.document_element.first_child.append("u", document.create_element("v"))
        for it in document.document_element:
            self.check(it)

    def test_many_names(self):
        """There is room for some thousands of names; the others are asked for."""
        text = "".join(f"<n{at} a{at}='{at}' {'b' * 60}='{at}'>{at}</n{at}><{'c' * 70}/>" for at in range(5000))
        document = h.xml.parse(f"<r>{text}</r>")
        self.assertEqual([it.tag_name for it in document.descendants(h.Element)][1:3], ["n0", "c" * 70])
        self.assertEqual(len(document.get_elements_by_tag_name("n4999")), 1)
        self.assertEqual(h.xml.serialize(document), f"<r>{text}</r>".replace("'", '"'))
        self.assertEqual(h.xml.serialize(document), f"<r>{text}</r>".replace("'", '"'))


class Moves(unittest.TestCase):
    def setUp(self):
        self.document = h.Session().document
        self.root = self.document.append_child(self.document.create_element("root"))
        self.section, self.other = (self.root.append_child(self.document.create_element(it)) for it in ("section", "other"))
        self.text = self.section.append_child(self.document.create_text_node("some text"))
        self.bookmark = self.document.create_range()
        self.bookmark.set_start(self.text, 5)
        self.bookmark.set_end(self.text, 9)

    def test_kept(self):
        left = self.bookmark.clone_range()
        self.assertIs(h.move(self.section, self.root, keep=[self.bookmark]), self.section)
        self.assertEqual(self.root.child_nodes, [self.other, self.section])
        self.assertEqual(str(self.bookmark), "text")
        self.assertTrue(left.collapsed)
        h.move(self.section, self.root, self.other, keep=[self.bookmark])
        self.assertEqual(self.root.child_nodes, [self.section, self.other])
        self.assertEqual((self.bookmark.start_container, self.bookmark.start_offset, self.bookmark.end_offset), (self.text, 5, 9))

    def test_one_end_in_it(self):
        self.other.append("more")
        self.bookmark.set_end(self.other.first_child, 2)
        h.move(self.section, self.root, keep=[self.bookmark])
        self.assertEqual((self.bookmark.start_container, self.bookmark.start_offset), (self.text, 5))
        self.assertTrue(self.bookmark.collapsed)

    def test_one_elsewhere(self):
        self.bookmark.select_node_contents(self.other)
        h.move(self.section, self.root, keep=[self.bookmark])
        self.assertIs(self.bookmark.start_container, self.other)

    def test_a_fragment(self):
        fragment = self.document.create_document_fragment()
        fragment.append(self.section, "x")
        self.bookmark.set_start(self.text, 5)
        self.bookmark.set_end(fragment, 2)
        h.move(fragment, self.root, keep=[self.bookmark])
        self.assertEqual((self.bookmark.start_container, self.bookmark.start_offset), (self.text, 5))

    def test_refused(self):
        with self.assertRaises(h.DOMException):
            h.move(self.root, self.section, keep=[self.bookmark])
        self.assertEqual(str(self.bookmark), "text")

    def test_undone(self):
        history = h.History(self.document, [self.bookmark])
        with history.group():
            h.move(self.section, self.root, keep=[self.bookmark])
        history.undo()
        self.assertEqual((self.root.first_child, str(self.bookmark)), (self.section, "text"))
        history.redo()
        self.assertEqual((self.root.last_child, str(self.bookmark)), (self.section, "text"))


def methods():
    """The methods of all classes as the sources have them: class, name, the names of what each takes."""
    for name in ("nodes", "documents", "ranges", "traversal", "observers", "session", "history"):
        with open(os.path.join(PACKAGE, name + ".py"), encoding="utf-8") as file:
            classes = [it for it in ast.parse(file.read()).body if isinstance(it, ast.ClassDef)]
        for kind in classes:
            for it in kind.body:
                if isinstance(it, ast.FunctionDef) and not it.decorator_list and not it.name.startswith("_"):
                    yield getattr(h, kind.name, None), it


class Signatures(unittest.TestCase):
    def test_all_methods(self):
        count = 0
        for kind, it in methods():
            if kind is None:
                continue
            found = inspect.signature(getattr(kind, it.name)).parameters
            self.assertEqual(list(found), [word.arg for word in (*it.args.args, *([it.args.vararg] if it.args.vararg else []), *it.args.kwonlyargs)], it.name)
            defaults = [ast.literal_eval(word) for word in it.args.defaults if isinstance(word, ast.Constant)]
            due = [word.default for word in found.values() if word.kind is word.POSITIONAL_OR_KEYWORD and word.default is not word.empty]
            if len(defaults) == len(it.args.defaults):
                self.assertEqual(due, defaults, it.name)
            count += 1
        self.assertGreater(count, 100)


if __name__ == "__main__":
    unittest.main()
