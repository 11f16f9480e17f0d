"""Undo of every edit: each single one and each pair over small trees, with ranges, against the state before; and the cost of undo."""
import gc
import itertools
import json
import os
import sys
import time
import unittest
from unittest import mock

import huckleport as h
from tests.editing import Editor, ends_of, resident, seen

IS_LONG = os.environ.get("HUCKLEPORT_LONG") == "1"
# (with a Python that is tried beside another a few are enough)
IS_SHORT = float(os.environ.get("HUCKLEPORT_SECONDS", "6")) < 3
HISTORIES = 100000 if IS_LONG else 200 if IS_SHORT else 2000

# Trees below a root, as nested lists: each list is an element, and each str a Text.
SHAPES = [[], ["ab"], [[]], ["ab", []], [[], "ab"], [["ab"]], [["ab"], "cd"], ["ab", [[]]], [[[]]], [[[], "ab"]], [[["ab"]]], ["ab", [], "cd"], [[], [], []]]


class Small:
    """A small tree in a document, nodes outside of it, and a range at each place."""

    def __init__(self, shape):
        self.session = h.Session()
        self.document = self.session.document
        self.nodes = []
        self.root = self.document.append_child(self.built(shape))
        self.copy = self.root.clone_node(True)
        self.ranges = []
        for node in (self.document, *self.nodes):
            self.ranges += [self.range_at(node, at, node, at) for at in range(node.length + 1)]
        self.ranges += [self.range_at(self.root, 0, self.root, self.root.length), self.range_at(self.nodes[-1], 0, self.document, 1)]
        self.ends = ends_of(self.ranges)

    def built(self, shape):
        if isinstance(shape, str):
            found = self.document.create_text_node(shape)
        else:
            found = self.document.create_element("e")
            found.set_attribute("a", "1")
            found.set_attribute("b", "2")
        self.nodes.append(found)
        for it in shape if isinstance(shape, list) else ():
            found.append_child(self.built(it))
        return found

    def range_at(self, start, start_offset, end, end_offset):
        found = self.document.create_range()
        found.set_start(start, start_offset)
        found.set_end(end, end_offset)
        return found

    def outside(self):
        """Returns nodes that can be inserted: an element with a Text in it, and a fragment of two."""
        element, fragment = self.document.create_element("n"), self.document.create_document_fragment()
        element.append("n")
        fragment.append("f", self.document.create_element("g"))
        return [element, fragment]


def of_children(parents, nodes):
    """Yields the edits of children, as functions of the nodes that are outside then. A node is given as itself, or one of those by its index."""
    for parent in parents:
        yield lambda out, parent=parent: parent.replace_children()
        yield lambda out, parent=parent: setattr(parent, "text_content", "t")
        for node in (*nodes, 0, 1):
            yield lambda out, parent=parent, node=node: parent.append_child(given(out, node))
            yield lambda out, parent=parent, node=node: parent.replace_children(given(out, node), "t")
            yield lambda out, parent=parent, node=node: parent.replace_children(given(out, node))
            for child in nodes:
                yield lambda out, parent=parent, node=node, child=child: parent.insert_before(given(out, node), child)
                yield lambda out, parent=parent, node=node, child=child: parent.replace_child(given(out, node), child)


def given(out, node):
    return out[node] if isinstance(node, int) else node


def of_nodes(small):
    """The edits of single nodes: of their place, data and attributes."""
    for node in small.nodes:
        yield lambda out, node=node: node.remove()
        if isinstance(node, h.Element):
            yield lambda out, node=node: node.set_attribute("a", "3")
            yield lambda out, node=node: node.remove_attribute("a")
            yield lambda out, node=node: node.toggle_attribute("b")
            yield lambda out, node=node: node.set_attribute("c", "4")
            yield lambda out, node=node: node.normalize()
            continue
        yield lambda out, node=node: setattr(node, "data", "ba")
        yield lambda out, node=node: node.insert_data(1, "\U0001f600")
        yield lambda out, node=node: node.delete_data(0, 1)
        yield lambda out, node=node: node.split_text(1)


def of_ranges(small):
    """The edits of contents, over the range of all of the root's."""
    whole = small.ranges[-2]
    yield lambda out: whole.delete_contents()
    yield lambda out: whole.extract_contents()
    yield lambda out: whole.insert_node(out[0])
    yield lambda out: whole.surround_contents(out[0])


def edits(small):
    elements = [it for it in small.nodes if isinstance(it, h.Element)]
    return [*of_children(elements, small.nodes), *of_nodes(small), *of_ranges(small)]


class Edits(unittest.TestCase):
    """Where all is undone the tree is the one that was there, so that the next edits begin from it."""

    def made(self, edit, out):
        """Returns whether an edit was made. A refused one has changed nothing."""
        try:
            edit(out)
            return True
        except h.DOMException:
            return False

    def is_back(self, small, why):
        if ends_of(small.ranges) != small.ends or not small.root.is_equal_node(small.copy) or small.root.parent_node is not small.document:
            self.fail(f"{why}: {small.document!r}")

    def play(self, small, history, groups):
        """Makes groups of edits, undoes them one by one, and does them again."""
        states, out = [seen(small.document, small.ranges)], small.outside()
        count = 0
        for group in groups:
            with history.group():
                made = [self.made(it, out) for it in group]
            count += sum(made)
            states.append(seen(small.document, small.ranges))
        self.go(history.undo, small, states[::-1], len(history._done))
        self.go(history.redo, small, states, len(history._undone))
        self.go(history.undo, small, states[::-1], len(history._done))
        history.clear()
        return count

    def go(self, step, small, states, count):
        """Goes from state to state. What changed nothing is no group."""
        for _ in range(count):
            self.assertTrue(step())
            now = seen(small.document, small.ranges)
            self.assertIn(now, states)
            states = states[states.index(now) :]
        self.assertEqual(seen(small.document, small.ranges), states[-1])

    def test_single_edits(self):
        for shape in SHAPES:
            small = Small(shape)
            history = h.History(small.document, small.ranges)
            found = edits(small)
            count = 0
            for at, edit in enumerate(found):
                count += self.play(small, history, [[edit]])
                self.is_back(small, (shape, at))
            self.assertGreater(count, len(found) // 4)

    def test_pairs_of_edits(self):
        shapes = SHAPES if IS_LONG else [["ab"]] if IS_SHORT else [["ab"], [["ab"]], ["ab", []]]
        for shape in shapes:
            small = Small(shape)
            history = h.History(small.document, small.ranges)
            found = edits(small)
            for one, other in itertools.product(range(len(found)), repeat=2):
                self.play(small, history, [[found[one]], [found[other]]])
                self.play(small, history, [[found[one], found[other]]])
                self.is_back(small, (shape, one, other))

    @unittest.skipIf(IS_SHORT, "tried by another Python")
    def test_pairs_of_edits_of_children(self):
        """Three children, each put and replaced beside each other."""
        small = Small(["ab", [], "cd"])
        history = h.History(small.document, small.ranges)
        found = list(of_children([small.root], small.nodes[1:]))
        for one, other in itertools.product(range(len(found)), repeat=2):
            self.play(small, history, [[found[one]], [found[other]]])
            self.play(small, history, [[found[one], found[other]]])
            self.is_back(small, (one, other))

    def test_replace_with_a_sibling_and_with_itself(self):
        for node, child in itertools.product(range(3), repeat=2):
            with h.Session() as session:
                root = session.document.append_child(session.document.create_element("root"))
                root.append(*"abc")
                bookmark = session.document.create_range()
                bookmark.select_node_contents(root)
                children = root.child_nodes
                history = h.History(root, [bookmark])
                with history.group():
                    root.replace_child(children[node], children[child])
                after = root.child_nodes
                self.assertTrue(history.undo())
                self.assertEqual((root.child_nodes, bookmark.end_offset), (children, 3))
                self.assertTrue(history.redo())
                self.assertEqual(root.child_nodes, after)


class Random(unittest.TestCase):
    def test_histories(self):
        """Many short histories of all edits, contents and wrapping among them, undone to the first tree and done again."""
        with h.Session() as session:
            document = session.document
            for seed in range(HISTORIES):
                self.history(document, seed)
            self.has_only_fragments(session, document.create_comment("the last").number)

    def has_only_fragments(self, session, top):
        """Checks that only empty fragments are left: surrounding has taken their contents, and no answer has their numbers."""
        for number in range(1, top):
            told = json.loads(session.line(json.dumps(["node", number]).encode()))
            if "ok" in told:
                self.assertEqual((told["ok"]["name"], told["ok"]["parent"]), ("#document-fragment", None), number)
                self.assertEqual(json.loads(session.line(json.dumps(["length", number]).encode())), {"ok": 0})

    def history(self, document, seed):
        root = document.append_child(document.create_element("root"))
        for child in (document.create_element("x"), "some text", document.create_element("y")):
            root.append(child)
        root.first_child.append("in it", document.create_comment("c"))
        ranges = [document.create_range() for _ in range(3)]
        editor = Editor(document, root, ranges, seed)
        for _ in ranges:
            editor.mark()
        history = h.History(document, ranges)
        states = [seen(document, ranges)]
        for at in range(4):
            with history.group():
                for _ in range(1 + at % 3):
                    editor.edit()
            states.append(seen(document, ranges))
        self.steps(history.undo, document, ranges, states[::-1], seed)
        self.steps(history.redo, document, ranges, states, seed)
        self.steps(history.undo, document, ranges, states[::-1], seed)
        history.close()
        root.remove()

    def steps(self, step, document, ranges, states, seed):
        at = 0
        while step():
            now = seen(document, ranges)
            while at + 1 < len(states) and now != states[at]:
                at += 1
            self.assertEqual(now, states[at], seed)
        self.assertEqual(seen(document, ranges), states[-1], seed)


def raising(fault):
    """A method that raises, as if the library had refused."""

    def refused(*words):
        raise fault

    return refused


class Refused(unittest.TestCase):
    """Undo or redo that can't go on leaves tree, ranges and history as they were."""

    def setUp(self):
        self.session = h.Session()
        self.document = self.session.document
        self.root = self.document.create_element("root")
        self.root.append(*(self.document.create_element(it) for it in "abc"))
        self.bookmark = self.document.create_range()
        self.bookmark.select_node(self.root.first_child.next_sibling)
        self.history = h.History(self.root, [self.bookmark])

    def test_amid_the_steps(self):
        first, second, third = self.root.child_nodes
        with self.history.group():
            second.remove()
            self.root.set_attribute("x", "1")
            self.root.append("new")
            third.remove()
        before = seen(self.root, [self.bookmark])
        # (the third child has come back, and the new Text is out)
        for fault in (h.DOMTypeError(32, "refused"), MemoryError()):
            with mock.patch.object(h.Element, "remove_attribute", raising(fault)), self.assertRaises(type(fault)):
                self.history.undo()
            self.assertEqual(seen(self.root, [self.bookmark]), before)
        self.assertTrue(self.history.can_undo)
        self.assertFalse(self.history.can_redo)
        self.assertTrue(self.history.undo())
        self.assertEqual((self.root.child_nodes, self.root.has_attribute("x")), ([first, second, third], False))
        self.assertEqual((self.bookmark.start_offset, self.bookmark.end_offset), (1, 2))
        after = seen(self.root, [self.bookmark])
        with mock.patch.object(h.Element, "set_attribute", raising(MemoryError())), self.assertRaises(MemoryError):
            self.history.redo()
        self.assertEqual(seen(self.root, [self.bookmark]), after)
        self.assertTrue(self.history.redo())
        self.assertEqual(seen(self.root, [self.bookmark]), before)

    def test_what_changed_outside(self):
        """A removed node is put back as it was then, whatever was done to it meanwhile."""
        first, second, third = self.root.child_nodes
        second.append("some", self.document.create_element("x"), "text")
        second.set_attribute("a", "1")
        second.set_attribute("b", "2")
        self.history.clear()
        due = seen(self.root, [])
        with self.history.group():
            second.remove()
        inner = second.first_child.next_sibling
        with self.history.group():
            self.root.append_child(inner)
        second.first_child.data = "other"
        second.last_child.remove()
        second.append("more")
        second.remove_attribute("a")
        second.append_child(self.root)
        self.assertTrue(self.history.undo())
        self.assertTrue(self.history.undo())
        self.assertEqual(seen(self.root, []), due)
        self.assertTrue(self.history.redo())
        self.assertTrue(self.history.redo())
        self.assertEqual(self.root.child_nodes, [first, third, inner])
        self.assertTrue(self.history.undo())
        self.assertTrue(self.history.undo())
        self.assertEqual(seen(self.root, []), due)

    def test_a_place_that_is_no_more(self):
        """A bookmark that can't go back stays where the edits have left it, and all else is undone."""
        text = self.root.append_child(self.document.create_text_node("some text"))
        self.bookmark.set_start(text, 7)
        self.bookmark.set_end(text, 9)
        history = h.History(self.root, [self.bookmark])
        with history.group():
            text.remove()
        text.data = "so"
        self.assertTrue(history.undo())
        self.assertIs(self.root.last_child, text)


class Costs(unittest.TestCase):
    """A group costs what it has changed: twice as many groups cost twice as much, whatever the tree has."""

    def calls(self, work, count):
        """How many functions are called."""
        calls = [0]

        def counted(frame, event, what):
            calls[0] += event in ("call", "c_call")

        sys.setprofile(counted)
        try:
            work(count)
        finally:
            sys.setprofile(None)
        return calls[0]

    def time(self, work, count):
        """How much processor time is taken."""
        gc.collect()
        begin = time.process_time()
        work(count)
        return time.process_time() - begin

    def is_linear(self, work):
        self.assertLess(self.calls(work, 2000), 4.2 * self.calls(work, 500))
        # (of the square it would be sixteen times as long, each time; what else the machine does may slow one of the two)
        factors = (self.time(work, 2000) / self.time(work, 500) for _ in range(9))
        self.assertTrue(any(it < 8 for it in factors))

    def test_appends(self):
        def work(count):
            with h.Session() as session:
                root = session.document.append_child(session.document.create_element("root"))
                history = h.History(session.document)
                for _ in range(count):
                    with history.group():
                        root.append("x")
                while history.undo():
                    pass
                self.assertEqual(root.child_nodes, [])

        self.is_linear(work)

    def test_insertions_into_one_text(self):
        def work(count):
            with h.Session() as session:
                text = session.document.create_text_node("")
                history = h.History(text)
                for at in range(count):
                    with history.group():
                        text.insert_data(at // 2, "x")
                while history.undo():
                    pass
                self.assertEqual(text.data, "")

        self.is_linear(work)

    def test_a_large_section_moves(self):
        """Each move of a section costs the same, whatever it has in it."""

        def work(count):
            with h.Session() as session:
                document = session.document
                root = document.append_child(document.create_element("root"))
                section, other = (root.append_child(document.create_element(it)) for it in "ab")
                for _ in range(count):
                    section.append_child(document.create_element("x")).set_attribute("y", "z")
                history = h.History(document)
                for _ in range(200):
                    with history.group():
                        root.insert_before(section, None if section.next_sibling else other)
                while history.undo():
                    pass

        self.is_linear(work)

    @unittest.skipUnless(os.path.exists("/proc/self/statm"), "nothing tells here how much memory is taken")
    def test_memory_is_level(self):
        groups, wrappers = (100000, 1000000) if IS_LONG else (5000, 50000)
        with h.Session() as session:
            root = session.document.append_child(session.document.create_element("root"))
            root.append(*(session.document.create_element("x") for _ in range(10)))
            history = h.History(session.document, limit=20)

            def edit(count):
                for at in range(count):
                    with history.group():
                        root.insert_before(root.last_child, root.first_child)
                        root.set_attribute("a", str(at))
                    history.undo()
                    history.redo()

            def wrap(count):
                for _ in range(count // 10):
                    list(root)

            edit(500)
            wrap(10000)
            before = resident()
            edit(groups)
            wrap(wrappers)
            self.assertLess(resident() - before, 4 << 20)


if __name__ == "__main__":
    unittest.main()
