"""Undo and redo: after each step tree and ranges are as they were then."""
import os
import unittest

import huckleport as h
from tests.editing import Editor, resident, seen


class Histories(unittest.TestCase):
    def setUp(self):
        self.session = h.Session()
        self.document = self.session.document
        self.root = self.document.append_child(self.document.create_element("root"))

    def test_page(self):
        text = self.root.append_child(self.document.create_text_node("some text"))
        bookmark = self.document.create_range()
        bookmark.set_start(text, 5)
        bookmark.set_end(text, 9)
        history = h.History(self.document)
        self.assertIs(history.keep(bookmark), bookmark)
        with history.group():
            text.delete_data(3, 4)
            self.root.set_attribute("a", "b")
        self.assertEqual((text.data, str(bookmark)), ("somxt", "xt"))
        self.assertTrue(history.undo())
        self.assertEqual((text.data, str(bookmark), self.root.has_attribute("a")), ("some text", "text", False))
        self.assertTrue(history.redo())
        self.assertEqual((text.data, str(bookmark), self.root.get_attribute("a")), ("somxt", "xt", "b"))
        self.assertFalse(history.redo())
        self.assertTrue(history.undo())
        self.assertFalse(history.undo())

    def test_thousand_edits(self):
        count = 1000
        for seed in (1, 2):
            self.setUp()
            ranges = [self.document.create_range() for _ in range(8)]
            for it in ranges:
                it.select_node_contents(self.root)
            editor = Editor(self.document, self.root, ranges, seed)
            history = h.History(self.document, ranges)
            states = [seen(self.document, ranges)]
            for at in range(count):
                with history.group():
                    for _ in range(1 + at % 3):
                        editor.edit()
                now = seen(self.document, ranges)
                if now != states[-1]:
                    states.append(now)
            self.assertGreater(len(states), count // 2)
            self.steps(history.undo, ranges, states[::-1])
            self.assertFalse(history.can_undo)
            self.steps(history.redo, ranges, states)
            self.assertFalse(history.can_redo)

    def steps(self, step, ranges, states):
        """Goes on from state to state. A step that shows nowhere (of a node that came and went within a group) leaves the state before."""
        at = 0
        while step():
            now = seen(self.document, ranges)
            at += now != states[at]
            self.assertEqual(now, states[at], at)
        self.assertEqual(at + 1, len(states))

    def test_wrapped_twice(self):
        """In an element that is put in its place when it has the node already, as no record tells."""
        node = self.root.append_child(self.document.create_element("node"))
        history = h.History(self.document)
        due = seen(self.document, [])
        with history.group():
            for name in ("inner", "outer"):
                wrapper, parent = self.document.create_element(name), node.parent_node
                behind = node.next_sibling
                wrapper.append_child(node)
                parent.insert_before(wrapper, behind)
        wrapped = seen(self.document, [])
        self.assertEqual([it[2] for it in wrapped[0][1:]], ["root", "inner", "outer", "node"])
        self.steps(history.undo, [], [wrapped, due])
        self.steps(history.redo, [], [due, wrapped])

    def test_surrounded_twice(self):
        text = self.root.append_child(self.document.create_text_node("some text"))
        history = h.History(self.document)
        bookmark = history.keep(self.document.create_range())
        bookmark.set_start(text, 5)
        bookmark.set_end(text, 9)
        due = seen(self.document, [bookmark])
        with history.group():
            found = self.document.create_range()
            for name in ("inner", "outer"):
                found.select_node(text)
                found.surround_contents(self.document.create_element(name))
        wrapped = seen(self.document, [bookmark])
        self.steps(history.undo, [bookmark], [wrapped, due])
        self.steps(history.redo, [bookmark], [due, wrapped])

    def test_limit(self):
        history = h.History(self.root, limit=3)
        for at in range(200):
            with history.group():
                self.root.append(str(at % 10))
                self.root.set_attribute("b" if at % 2 else "a", str(at))
        self.assertEqual([history.undo() for _ in range(5)], [True, True, True, False, False])
        self.assertEqual((self.root.text_content[-3:], self.root.get_attribute_names()), ("456", ["a", "b"]))
        with history.group():
            self.root.remove_attribute("a")
            self.root.toggle_attribute("a")
        self.assertEqual(self.root.get_attribute_names(), ["b", "a"])
        history.undo()
        self.assertEqual(dict(self.root.attributes), {"a": "196", "b": "195"})
        self.assertEqual(self.root.get_attribute_names(), ["a", "b"])

    @unittest.skipUnless(os.path.exists("/proc/self/statm"), "nothing tells here how much memory is taken")
    def test_memory(self):
        """Nodes that are removed and inserted again, and discarded nodes, take no more memory with time, if few groups are kept."""
        history, parts = h.History(self.document, limit=20), [self.document.create_element(it) for it in "abcd"]
        self.root.append(*parts)
        taken = []

        def edit(at):
            part, other = parts[at % 4], parts[at * 7 % 4]
            with history.group():
                part.remove()
                self.root.insert_before(part, self.root.first_child)
                other.append(self.document.create_element("x"), str(at))
                other.first_child.set_attribute("at", str(at))
                taken.append(other.child_nodes)
                other.replace_children()
            for node in taken.pop(0) if len(taken) > 50 else ():
                node.discard()

        for at in range(500):
            edit(at)
        before = resident()
        for at in range(4000):
            edit(at)
        self.assertLess(resident() - before, 4 << 20)
        self.assertTrue(history.undo())

    def test_changes_outside_of_groups(self):
        history = h.History(self.root)
        self.root.append("a")
        history.commit()
        self.root.append("b")
        with history.group():
            self.root.append("c")
        for due in ("ab", "a", ""):
            self.assertTrue(history.undo())
            self.assertEqual(self.root.text_content, due)
        self.root.append("x")
        self.assertFalse(history.redo())
        self.assertTrue(history.can_undo)

    def test_ranges_that_were_set_since_stay(self):
        text = self.root.append_child(self.document.create_text_node("0123456789"))
        history = h.History(self.root)
        left, set_since = (history.keep(self.document.create_range()) for _ in range(2))
        for it in (left, set_since):
            it.set_start(text, 4)
        with history.group():
            text.delete_data(0, 5)
        set_since.set_start(text, 2)
        set_since.collapse(True)
        history.undo()
        self.assertEqual((left.start_offset, set_since.start_container), (4, text))
        self.assertEqual(set_since.start_offset, 7)

    def test_told_and_refused(self):
        text = self.root.append_child(self.document.create_text_node("a"))
        history = h.History(self.root)
        with self.assertRaises(h.DOMException), history.group():
            text.data = "b"
            self.document.append_child(text)
        self.session.notify()
        self.assertTrue(history.undo())
        self.assertEqual(text.data, "a")
        with history.group():
            text.remove()
        self.session.notify()
        text.discard()
        with self.assertRaises(h.NoSuchObject):
            history.undo()
        self.assertEqual(self.root.child_nodes, [])
        history.clear()
        self.assertFalse(history.can_undo)
        history.close()
        self.root.append("x")
        self.assertFalse(history.can_undo)


if __name__ == "__main__":
    unittest.main()
