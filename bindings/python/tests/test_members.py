"""What Python's users expect beside the standard's members: mappings, iteration, several nodes at once, offsets, and reasons of refusals."""
import inspect
import os
import pkgutil
import random
import time
import unittest
from importlib import import_module

import huckleport as h


class Members(unittest.TestCase):
    def setUp(self):
        self.session = h.Session()
        self.addCleanup(self.session.close)
        self.document = self.session.document
        self.root = self.document.append_child(self.document.create_element("div"))

    def make(self, *names):
        return [self.document.create_element(it) for it in names]

    def test_attributes(self):
        found = self.root.attributes
        found["b"] = "1"
        found.update(a="2", c="3")
        self.assertEqual((list(found), len(found), dict(found)), (["b", "a", "c"], 3, {"b": "1", "a": "2", "c": "3"}))
        del found["a"]
        self.assertEqual((found.get("a"), "b" in found, "a" in found, 1 in found), (None, True, False, False))
        self.assertEqual(found.pop("b"), "1")
        with self.assertRaises(KeyError):
            found["b"]
        with self.assertRaises(KeyError):
            del found["b"]
        with self.assertRaises(h.DOMException):
            found[""] = "x"
        self.assertEqual((repr(found), self.root.get_attribute("c")), ("{'c': '3'}", "3"))
        self.assertEqual(found, {"c": "3"})

    def test_iteration(self):
        a, b, c = self.make("a", "b", "c")
        self.root.append(a, "text", b)
        b.append(c)
        self.assertEqual(list(self.root), [a, a.next_sibling, b])
        self.assertEqual(self.root.children, [a, b])
        self.assertEqual(list(self.root.descendants()), [a, a.next_sibling, b, c])
        self.assertEqual(list(self.document.descendants())[0], self.root)
        self.assertIs(c.parent_element, b)
        self.assertIsNone(self.root.parent_element)
        for it in self.root:
            it.remove()
        self.assertFalse(self.root.has_child_nodes())

    def test_ends(self):
        self.assertEqual((self.root.first_child, self.root.last_child, self.root.has_child_nodes()), (None, None, False))
        a, b, c = self.make("a", "b", "c")
        self.root.append(a, b, c)
        self.assertEqual((self.root.first_child, self.root.last_child, self.root.has_child_nodes()), (a, c, True))
        self.root.remove()
        self.root.discard()
        with self.assertRaises(h.NoSuchObject):
            self.root.first_child
        with self.assertRaises(h.NoSuchObject):
            self.root.has_child_nodes()

    def test_many_children_go_one_by_one(self):
        self.root.append(*(self.document.create_element("a") for _ in range(100_000)))
        began = time.process_time()
        while self.root.first_child:
            self.root.first_child.remove()
        seconds = time.process_time() - began
        self.assertFalse(self.root.has_child_nodes())
        # (an emulated processor takes several times as long)
        self.assertLess(seconds, 5 if os.environ.get("HUCKLEPORT_EMULATED") else 1)

    def test_several_at_once(self):
        a, b, c, d, e, f = self.make(*"abcdef")
        self.root.append(c)
        self.root.prepend(a, b)
        c.after(d, "x", e)
        c.before(f)
        self.assertEqual("".join(it.text_content or it.node_name for it in self.root), "abfcdxe")
        c.replace_with(e, c, "y")
        self.assertEqual("".join(it.text_content or it.node_name for it in self.root), "abfecydx")
        b.before(b, a)
        self.assertEqual([it.node_name for it in self.root.children], list("bafecd"))
        b.after(a, b)
        self.assertEqual([it.node_name for it in self.root.children], list("abfecd"))
        f.replace_with()
        self.root.append()
        self.assertEqual([it.node_name for it in self.root.children], list("abecd"))
        self.root.replace_children(a, "z")
        self.assertEqual(h.html.serialize(self.root), "<div><a></a>z</div>")
        self.root.replace_children()
        self.assertEqual(self.root.child_nodes, [])
        b.after(a)
        b.replace_with(a)
        self.assertIsNone(a.parent_node)
        with self.assertRaises(TypeError):
            self.root.append(3)

    def test_looking_up(self):
        self.root.append(*self.make("p", "b", "p"))
        first, _, last = self.root.children
        first.set_attribute("id", "x")
        last.set_attribute("id", "x")
        self.assertIs(self.document.get_element_by_id("x"), first)
        self.assertIsNone(self.document.get_element_by_id("y"))
        self.assertEqual(self.document.get_elements_by_tag_name("p"), [first, last])
        self.assertEqual(self.root.get_elements_by_tag_name("div"), [])
        self.assertEqual(len(self.document.get_elements_by_tag_name("*")), 4)
        self.root.text_content = "a"
        self.assertEqual(self.root.text_content, "a")
        self.root.text_content = None
        self.assertEqual(self.root.text_content, "")

    def test_offsets(self):
        text = "a\U0001f600b\ud800c"
        self.assertEqual([h.utf16_offset(text, it) for it in range(6)], [0, 1, 3, 4, 5, 6])
        self.assertEqual([h.utf16_index(text, it) for it in (0, 1, 3, 4, 5, 6)], [0, 1, 2, 3, 4, 5])
        self.assertEqual((h.utf16_length(text), h.utf16_index("", 0)), (6, 0))
        for fault, call in ((ValueError, lambda: h.utf16_index(text, 2)), (IndexError, lambda: h.utf16_index(text, 7))):
            self.assertRaises(fault, call)
        self.assertRaises(IndexError, lambda: h.utf16_index(text, -1))
        self.assertRaises(IndexError, lambda: h.utf16_offset(text, 6))
        node = self.document.create_text_node(text)
        self.assertEqual(node.substring_data(h.utf16_offset(text, 2), 1), "b")

    def test_units(self):
        text = "a\ud800\U0001f600"
        self.assertEqual(h.to_units(text), [0x61, 0xD800, 0xD83D, 0xDE00])
        self.assertEqual(h.from_units(h.to_units(text)), text)
        self.assertEqual((h.is_well_formed(text), h.is_well_formed("\U0001f600")), (False, True))
        self.assertEqual(h.well_formed(text).encode(), "a\ufffd\U0001f600".encode())

    def test_texts_there_and_back(self):
        picked = random.Random(7)
        node = self.document.create_text_node("")
        for length in [*range(20), 255, 256, 257, 511, 512, 513, 5000]:
            for most in (0x7F, 0xFF, 0x7FF, 0xFFFF, 0x10FFFF):
                text = "".join(chr(picked.randint(0, most)) for _ in range(length))
                due = text.encode("utf-16-le", "surrogatepass").decode("utf-16-le", "surrogatepass")
                node.data = text
                self.assertEqual(node.data, due)
                self.assertEqual(node.length, h.utf16_length(due))
        for name in ("a" + "b" * 1000, "\u00e9" * 300, "\u4e2d" * 300, "\U0001f600" * 300):
            self.assertEqual(self.document.create_element(name).tag_name, name)

    def test_one_wide_unit(self):
        """A unit of each width, at each place among letters."""
        node = self.document.create_text_node("")
        for length in [*range(1, 14), 256, 257, 259]:
            for unit in ("\x7f", "\x80", "\xff", "\u0100", "\ud800", "\uffff"):
                found = [("a" * it + unit).ljust(length, "b") for it in range(length)]
                self.assertEqual([self.set_and_read(node, it) for it in found], found)

    def set_and_read(self, node, text):
        node.data = text
        return node.data

    def test_words(self):
        """Members take words by name as before, and refuse others."""
        p = self.document.create_element(name="p")
        self.assertIs(self.root.append_child(node=p), p)
        self.assertIs(self.root.insert_before(child=None, node=p), p)
        for use in (lambda: p.append_child(), lambda: p.append_child(p, p), lambda: p.set_attribute("a"), lambda: p.set_attribute("a", "b", name="c")):
            self.assertRaises(TypeError, use)
        self.assertRaises(TypeError, lambda: p.set_attribute("a", worth="b"))


class Reasons(unittest.TestCase):
    def setUp(self):
        self.session = h.Session()
        self.document = self.session.document
        self.a = self.document.append_child(self.document.create_element("a"))
        self.b = self.a.append_child(self.document.create_element("b"))
        self.text = self.b.append_child(self.document.create_text_node("text"))

    def said(self, use):
        with self.assertRaises(h.Error) as caught:
            use()
        return str(caught.exception)

    def test_reasons(self):
        loose, document = self.document.create_element("c"), self.document
        found = document.create_range()
        doctype, fragment = document.create_document_type("html"), document.create_document_fragment()
        found.select_node_contents(self.text)
        for use, due in (
            (lambda: document.append_child(loose), "append_child: 4 <c> cannot be a child of 0 <#document>, which already has 1 <a>: HierarchyRequestError"),
            (lambda: document.replace_child(document, self.a), "replace_child: 0 <#document> cannot be a child of 0 <#document>, whose inclusive ancestor it is: HierarchyRequestError"),
            (lambda: found.surround_contents(fragment), "surround_contents: 6 <#document-fragment> is a Document, doctype or fragment, which cannot surround others: give an element: InvalidNodeTypeError"),
            (lambda: self.session.create_static_range(loose, 0, doctype, 0), "create_static_range: 5 <html> is a doctype, in which no range can start or end: InvalidNodeTypeError"),
            (lambda: document.create_processing_instruction("1", ""), "create_processing_instruction: '1' is not a valid name: InvalidCharacterError"),
            (lambda: document.append_child(self.text), "append_child: 3 <#text> cannot be a child of 0 <#document>: HierarchyRequestError"),
            (lambda: self.b.append_child(self.a), "append_child: 1 <a> cannot be a child of 2 <b>, whose inclusive ancestor it is: HierarchyRequestError"),
            (lambda: self.a.remove_child(self.text), "remove_child: 3 <#text> is not a child of 1 <a>: NotFoundError"),
            (lambda: self.a.insert_before(loose, self.text), "insert_before: 3 <#text> is not a child of 1 <a>: NotFoundError"),
            (lambda: document.create_element("1a"), "create_element: '1a' is not a valid name: InvalidCharacterError"),
            (lambda: self.a.set_attribute("a b", ""), "set_attribute: 'a b' is not a valid name: InvalidCharacterError"),
            (lambda: self.text.insert_data(5, "x"), "insert_data: offset 5 is beyond the length of 3 <#text>, which is 4: IndexSizeError"),
            (lambda: found.set_start(self.text, 9), "set_start: offset 9 is beyond the length of 3 <#text>, which is 4: IndexSizeError"),
            (lambda: found.set_start(doctype, 0), "set_start: 5 <html> is a doctype, in which no range can start or end: InvalidNodeTypeError"),
            (lambda: found.select_node(loose), "select_node: 4 <c> has no parent, in which a range could start or end: InvalidNodeTypeError"),
            (lambda: document.adopt_node(document), "adopt_node: 0 <#document> is a Document, which cannot be moved or copied into another: NotSupportedError"),
            (lambda: found.compare_boundary_points(7, found), "compare_boundary_points: how is 7, and has to be from 0 to 3: NotSupportedError"),
            (lambda: found.compare_point(loose, 0), "compare_point: 4 <c> is in another tree than range 0: WrongDocumentError"),
            (lambda: self.text.discard(), "discard: 3 <#text> is a child of 2 <b>: remove it first: in-use"),
            (lambda: h.CharacterData.append_data(self.a, "x"), "append_data: 1 <a> is of another kind than this call is for: TypeError"),
            (lambda: self.session.create_mutation_observer().observe(self.a), "observe: the options for 1 <a> select none of child_list, attributes and character_data, or contradict each other: TypeError"),
        ):
            self.assertEqual(self.said(use), due)

    def test_gone(self):
        self.text.remove()
        self.text.discard()
        due = "data: there is no node 3: it was discarded, or never made: no-such-object"
        self.assertEqual(self.said(lambda: self.text.data), due)
        self.assertEqual(self.said(lambda: self.a.append_child(self.text)), due.replace("data", "append_child"))
        self.assertEqual(self.said(lambda: self.session.mutation_observer(9)), "mutation_observer: there is no observer 9: it was released, or never made: no-such-object")
        found = self.document.create_range()
        found.release()
        self.assertEqual(self.said(lambda: found.start_offset), "range: there is no range 0: it was released, or never made: no-such-object")
        self.assertIn("closed", self.said(lambda: (self.session.close(), self.a.tag_name)))

    def test_doctypes_in_ranges(self):
        doctype, found = self.document.create_document_type("html"), self.document.create_range()
        self.document.insert_before(doctype, self.a)
        found.select_node_contents(self.document)
        self.assertEqual(self.said(found.extract_contents), "extract_contents: range 0 contains a doctype, which no fragment can have: HierarchyRequestError")

    def test_nothing_changes(self):
        before = self.document.tree()
        self.said(lambda: self.b.append_child(self.a))
        self.assertEqual(self.document.tree(), before)


class Docstrings(unittest.TestCase):
    def test_all_public_names(self):
        modules = [h, *(import_module(f"huckleport.{it.name}") for it in pkgutil.iter_modules(h.__path__) if not it.name.startswith("_"))]
        self.assertGreater(len(modules), 10)
        lacking = []
        for module in modules:
            lacking += [] if module.__doc__ else [module.__name__]
            for name, it in vars(module).items():
                if is_bare(name, it) and getattr(it, "__module__", "").startswith("huckleport"):
                    lacking.append(f"{module.__name__}.{name}")
                if inspect.isclass(it) and it.__module__ == module.__name__:
                    lacking += [f"{name}.{part}" for part, member in vars(it).items() if is_bare(part, member)]
        self.assertEqual(lacking, [])


def is_bare(name, member):
    """Whether a public member of a class has no docstring."""
    is_told = isinstance(member, property) or callable(member)
    return not name.startswith("_") and is_told and not (getattr(member, "__doc__", None) or "").strip()


if __name__ == "__main__":
    unittest.main()
