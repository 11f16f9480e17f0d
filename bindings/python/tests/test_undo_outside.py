"""Undo of changes in nodes that are outside for a while, whoever is notified meanwhile; and the order of attributes."""
import itertools
import os
import unittest

import huckleport as h
from tests.editing import seen
from tests.wandering import try_histories

IS_LONG = os.environ.get("HUCKLEPORT_LONG") == "1"
# (with a Python that is tried beside another a few are enough)
IS_SHORT = float(os.environ.get("HUCKLEPORT_SECONDS", "6")) < 3
HISTORIES = 100000 if IS_LONG else 300 if IS_SHORT else 2000


class Outside(unittest.TestCase):
    def setUp(self):
        self.session = h.Session()
        self.document = self.session.document
        self.root = self.document.append_child(self.document.create_element("root"))
        self.node = self.root.append_child(self.document.create_element("node"))
        self.history = h.History(self.root)

    def goes_there_and_back(self, before):
        """All is undone and done again."""
        after = seen(self.document, [])
        while self.history.undo():
            pass
        self.assertEqual(seen(self.document, []), before)
        while self.history.redo():
            pass
        self.assertEqual(seen(self.document, []), after)
        while self.history.undo():
            pass
        self.assertEqual(seen(self.document, []), before)

    def test_notify_amid_a_group(self):
        before = seen(self.document, [])
        with self.history.group():
            self.node.remove()
            self.session.notify()
            self.node.set_attribute("k", "v")
            self.root.append_child(self.node)
        self.goes_there_and_back(before)

    def test_notify_amid_changes_without_a_group(self):
        before = seen(self.document, [])
        self.node.remove()
        self.session.notify()
        self.node.append("text")
        self.session.notify()
        self.root.append_child(self.node)
        self.goes_there_and_back(before)

    def test_what_comes_out_of_a_node_that_is_out(self):
        inner = self.node.append_child(self.document.create_element("inner"))
        self.history.clear()
        before = seen(self.document, [])
        with self.history.group():
            self.node.remove()
            self.session.notify()
            inner.remove()
            self.session.notify()
            inner.set_attribute("k", "v")
            self.session.notify()
            self.root.append_child(inner)
        self.goes_there_and_back(before)

    def test_an_observer_that_edits_and_ends(self):
        before = seen(self.document, [])

        def callback(records, observer):
            self.node.set_attribute("k", "v")
            observer.disconnect()
            observer.release()

        observer = self.session.create_mutation_observer(callback)
        observer.observe(self.node, attributes=True)
        observer.observe(self.root, child_list=True)
        with self.history.group():
            self.node.remove()
            self.session.notify()
            self.node.toggle_attribute("l")
            self.root.append_child(self.node)
        self.goes_there_and_back(before)

    def test_in_another_document(self):
        before = seen(self.document, [])
        other = self.session.create_document()
        with self.history.group():
            other.append_child(self.node)
            self.session.notify()
            self.node.append("text")
            self.root.prepend(self.node)
        self.goes_there_and_back(before)
        self.assertIs(self.node.node_document, self.document)

    def test_order_of_what_came_twice(self):
        for name in "bc":
            self.node.set_attribute(name, "1")
        self.node.remove()
        self.history.clear()
        with self.history.group():
            self.root.append_child(self.node)
            self.root.append_child(self.node)
        with self.history.group():
            self.node.remove_attribute("b")
        self.assertTrue(self.history.undo())
        self.assertEqual(self.node.get_attribute_names(), ["b", "c"])

    def test_order_of_what_came_in_another(self):
        """A node is inserted below another, and moved out of that in the same group."""
        outer, inner = (self.document.create_element(it) for it in ("outer", "inner"))
        outer.append(self.document.create_element("between"))
        outer.first_child.append(inner)
        for name in "bc":
            inner.set_attribute(name, "1")
        with self.history.group():
            self.root.append(outer)
            self.node.append(inner)
            outer.remove()
        with self.history.group():
            inner.remove_attribute("b")
        self.assertTrue(self.history.undo())
        self.assertEqual(inner.get_attribute_names(), ["b", "c"])

    def test_a_group_is_whole(self):
        """Whatever is asked of a history amid a group, it is undone at once."""
        before = seen(self.document, [])
        with self.history.group():
            self.node.remove()
            self.assertFalse(self.history.commit())
            self.assertFalse(self.history.can_undo)
            self.assertFalse(self.history.can_redo)
            with self.assertRaises(RuntimeError):
                self.history.undo()
            self.node.set_attribute("k", "v")
            self.root.append_child(self.node)
        self.assertTrue(self.history.undo())
        self.assertEqual(seen(self.document, []), before)
        self.assertFalse(self.history.can_undo)

    def test_what_ended_with_exceptions(self):
        before = seen(self.document, [])
        with self.assertRaises(KeyError), self.history.group():
            self.node.remove()
            with self.history.group():
                self.session.notify()
                self.node.set_attribute("k", "v")
                raise KeyError
        self.goes_there_and_back(before)

    def test_forgotten_amid_a_group(self):
        with self.history.group():
            self.node.remove()
            self.history.clear()
            self.session.notify()
            self.node.set_attribute("k", "v")
            before = seen(self.node, [])
            self.root.append_child(self.node)
            self.node.remove_attribute("k")
        self.assertTrue(self.history.undo())
        self.assertEqual((self.root.child_nodes, seen(self.node, [])), ([], before))

    def test_let_go_once_its_group_has_ended(self):
        """A removed node is referred to until its group has ended."""
        with self.history.group():
            self.node.remove()
            self.session.notify()
            with self.assertRaises(h.InUse):
                self.node.discard()
        self.node.discard()
        self.assertEqual(self.session.in_use().registrations, 1)


def edits_of(root, children, outside):
    """Yields every edit of three children and two attributes, and of the node outside."""
    for node in (*children, outside):
        yield node.remove
        for parent, child in itertools.product((root, *children), (*children, None)):
            yield lambda parent=parent, node=node, child=child: parent.insert_before(node, child)
        yield lambda node=node: root.replace_children(node)
        for name in "ab":
            yield lambda node=node, name=name: node.set_attribute(name, "2")
            yield lambda node=node, name=name: node.toggle_attribute(name)
    for node, child in itertools.product((*children, outside), children):
        yield lambda node=node, child=child: root.replace_child(node, child)


class Pairs(unittest.TestCase):
    """Each two edits of three children with two attributes, with and without a notice between them, as one group and as two."""

    def setUp(self):
        self.session = h.Session()
        self.document = self.session.document
        self.root = self.document.append_child(self.document.create_element("root"))
        self.children = [self.document.create_element(it) for it in "xyz"]
        self.outside = self.document.create_element("o")
        for it in (*self.children, self.outside):
            it.set_attribute("a", "1")
            it.set_attribute("b", "1")

    def is_made(self, edit):
        try:
            edit()
            return True
        except h.DOMException:
            return False

    def begin(self):
        for it in self.children:
            it.replace_children()
        self.outside.replace_children()
        self.outside.remove()
        self.root.replace_children(*self.children)
        self.history.clear()

    def go(self, step, states):
        for due in states:
            # (a group whose changes end where they began shows nowhere)
            while seen(self.document, []) != due:
                self.assertTrue(step())

    def play(self, groups, is_told):
        states = [seen(self.document, [])]
        for group in groups:
            with self.history.group():
                for at, edit in enumerate(group):
                    if at and is_told:
                        self.session.notify()
                    self.is_made(edit)
            states.append(seen(self.document, []))
        self.go(self.history.undo, states[::-1])
        self.go(self.history.redo, states)
        while self.history.undo():
            pass
        self.assertEqual(seen(self.document, []), states[0])

    def test_pairs(self):
        self.history = h.History(self.document)
        self.begin()
        edits = list(edits_of(self.root, self.children, self.outside))
        firsts = edits[::7] if IS_SHORT else edits
        for first, second in itertools.product(firsts, edits):
            self.play([[first, second]], True)
            self.begin()
            if IS_LONG:
                self.play([[first, second]], False)
                self.begin()
                self.play([[first], [second]], True)
                self.begin()

    @unittest.skipUnless(IS_LONG, "HUCKLEPORT_LONG is not set")
    def test_three(self):
        """Of all three edits each thirty-first, as a group of two behind a single one, or ahead of it."""
        self.history = h.History(self.document)
        self.begin()
        edits = list(edits_of(self.root, self.children, self.outside))
        for at, (first, second, third) in enumerate(itertools.islice(itertools.product(edits, repeat=3), 0, None, 31)):
            self.play([[first], [second, third]] if at % 2 else [[first, second], [third]], at % 3 > 0)
            self.begin()


class Random(unittest.TestCase):
    def test_histories(self):
        self.assertEqual(try_histories(0, HISTORIES), [])


if __name__ == "__main__":
    unittest.main()
