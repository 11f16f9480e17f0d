"""Which things are freed with their object, and which stay though no object of them lives."""
import gc
import os
import random
import sys
import threading
import unittest

import huckleport as h

RESIDENT = "/proc/self/statm"


class LettingGo(unittest.TestCase):
    def setUp(self):
        self.session = h.Session()
        self.addCleanup(self.session.close)
        self.document = self.session.document
        self.root = self.document.append_child(self.document.create_element("root"))
        self.before = self.session.in_use()
        self.emptied = 0

    def surround(self, node, parent):
        """Surrounds what a node has. The fragment through which it goes stays, empty, since no answer names it."""
        self.range_in(node).surround_contents(parent)
        self.emptied += 1

    def assertLevel(self, **more):
        """As much is in use as in the beginning, and this."""
        more = {**more, "nodes": more.get("nodes", 0) + self.emptied}
        self.assertEqual(self.session.in_use(), self.before._replace(**{name: getattr(self.before, name) + it for name, it in more.items()}))

    def element(self, *children):
        found = self.document.create_element("e")
        for it in children:
            found.append(it)
        return found

    OVER = {
        "ranges": lambda self, node: self.range_in(node),
        "static_ranges": lambda self, node: self.session.create_static_range(node, 0, node, 0),
        "iterators": lambda self, node: self.document.create_node_iterator(node),
        "walkers": lambda self, node: self.document.create_tree_walker(node),
    }

    def range_in(self, node):
        found = self.document.create_range()
        found.select_node_contents(node)
        return found

    # things that are no nodes

    def test_each_kind(self):
        """Ranges, iterators, walkers and observers go with their objects, and only with these."""
        for name, over in {**self.OVER, "observers": lambda self, node: self.session.create_mutation_observer()}.items():
            with self.subTest(name):
                found = over(self, self.root)
                self.assertLevel(**{name: 1})
                del found
                self.assertLevel()

    def test_lines(self):
        """What a line made stays."""
        for it in ('["createRange",0]', '["createStaticRange",0,0,0,0]', '["createIterator",0,4294967295,[]]', '["createWalker",0,4294967295,[]]', '["createObserver"]', '["createElement",0,"p"]'):
            self.assertIn(b"ok", self.session.line(it.encode()))
        finds = (self.session.range, self.session.static_range, self.session.node_iterator, self.session.tree_walker, self.session.mutation_observer)
        for find in finds:
            number = find(0).number
            self.assertEqual(find(0).number, number)
        number = self.session.node(2).number
        self.assertLevel(nodes=1, ranges=1, static_ranges=1, iterators=1, walkers=1, observers=1)
        self.assertEqual(self.session.node(number).tag_name, "p")

    def test_numbers_of_lines(self):
        """Once a line was answered, no node is freed by itself: lines may name it. Other things are still freed with their object."""
        self.session.line(b"")
        number = self.element().number
        self.document.create_range()
        self.assertLevel(nodes=1)
        self.session.node(number).discard()
        self.assertLevel()

    def test_found_by_number(self):
        """A range that was made here is the same object by its number, and is freed with its last holder."""
        first = self.document.create_range()
        second = self.session.range(first.number)
        self.assertIs(first, second)
        del first
        self.assertLevel(ranges=1)
        del second
        self.assertLevel()

    # observers

    def test_observers_that_observe(self):
        """An observer that observes is called though nobody holds it, until it is disconnected."""
        told = []
        self.session.create_mutation_observer(lambda records, it: told.append(it)).observe(self.root, child_list=True)
        gc.collect()
        self.assertLevel(observers=1, registrations=1)
        self.root.append("text")
        self.session.notify()
        self.assertEqual(len(told), 1)
        told[0].disconnect()
        self.assertLevel(nodes=1, observers=1)
        told.clear()
        self.assertLevel(nodes=1)

    def test_observers_with_records_left(self):
        """An observer is not freed either while a notice to it, from a call that raised, is still to be handed out."""

        def raises(records, it):
            raise KeyError

        without, other = self.session.create_mutation_observer(), self.session.create_mutation_observer(raises)
        for it in (without, other):
            it.observe(self.root, attributes=True)
        self.root.set_attribute("a", "b")
        with self.assertRaises(KeyError):
            self.session.notify()
        for it in (without, other):
            it.disconnect()
        del without, other, it
        self.assertEqual(self.session.in_use().observers, 1)
        self.assertEqual([len(records) for _, records in self.session.notify()], [1])
        gc.collect()
        self.assertLevel()

    # nodes

    def test_copies(self):
        """A deep copy goes as it was made or edited, and stays as long as a node of it has an object."""
        top = self.element(self.element("some", "text"), "more")
        copied = top.clone_node(True)
        numbers = [it.number for it in copied.descendants()]
        self.assertEqual([copied.number, *numbers], list(range(copied.number, copied.number + 5)))
        del copied
        self.assertLevel(nodes=5)
        for keep in (lambda it: it.last_child, lambda it: self.document.create_node_iterator(it), lambda it: iter(it.descendants())):
            copied = top.clone_node(True)
            kept = keep(copied)
            del copied
            self.document.create_comment("c")
            self.assertLevel(nodes=10, **({"iterators": 1} if isinstance(kept, h.NodeIterator) else {}))
            del kept
            self.assertLevel(nodes=5)

    def test_copies_with_older_nodes(self):
        """A copy stays if an older node was put into it that has an object."""
        top, older = self.element("text"), self.element()
        for put in (h.Element.append_child, lambda copied, it: h.move(it, copied), lambda copied, it: copied.prepend(it)):
            copied = top.clone_node(True)
            put(copied, older)
            del copied
            self.document.create_comment("c")
            self.assertLevel(nodes=5)
            self.assertEqual(older.parent_node.length, 2)
            older.remove()
            self.assertLevel(nodes=3)

    def test_trees(self):
        """A tree goes once no node of it has an object."""
        inner = self.element("some", "text")
        top = self.element(inner)
        self.assertLevel(nodes=4)
        del top
        self.assertLevel(nodes=4)
        self.assertEqual(inner.parent_node.tag_name, "e")
        del inner
        self.assertLevel()

    def test_identity(self):
        top = self.element(self.element())
        self.assertIs(top.first_child, top.first_child)
        inner = top.first_child
        self.session.in_use()
        self.assertIs(inner.parent_node, top)
        number = top.number
        del top
        self.session.in_use()
        self.assertEqual(inner.parent_node.number, number)
        self.assertIs(inner.parent_node.first_child, inner)

    def test_what_leaves_a_tree(self):
        """A tree that is left by the last node that has an object goes, and so does what left, once it has none."""
        inner = self.element()
        self.element(inner)
        self.assertLevel(nodes=2)
        inner.remove()
        self.assertLevel(nodes=1)
        self.root.append_child(inner)
        del inner
        self.assertLevel(nodes=1)
        self.root.first_child.remove()
        self.assertLevel()

    def test_taken_out(self):
        """Nodes go that were taken out by each call that takes any out, also where they never had an object."""
        def replaced(root):
            root.replace_child(self.element(), root.first_child)
            root.replace_children()

        def deleted(root):
            self.range_in(root).delete_contents()

        def surrounded(root):
            other = self.element("old")
            self.surround(root, other)
            root.replace_children()

        def normalized(root):
            root.normalize()
            root.replace_children()

        def extracted(root):
            self.range_in(root).extract_contents()

        def cleared(root):
            root.text_content = ""

        def removed(root):
            for it in root:
                root.remove_child(it)

        def adopted(root):
            for it in root:
                self.document.adopt_node(it)

        for use in (replaced, deleted, surrounded, normalized, extracted, cleared, removed, adopted):
            with self.subTest(use.__name__):
                self.root.append("a", "b", "", self.element("c"))
                use(self.root)
                self.assertLevel()

    def test_deleted_contents(self):
        """Deleting leaves what it takes out and no other, wherever the range begins and ends."""
        def tree():
            return self.element("one", self.element("two", self.element("three"), "four"), self.element(self.element(), "five"), "six")

        top = tree()
        places = [(row.node, at) for row in top.tree() for at in range(row.node.length + 1)]
        del top
        count = len(places)
        for start in range(count):
            for end in range(start, count, 3):
                top = tree()
                places = [(row.node, at) for row in top.tree() for at in range(row.node.length + 1)]
                deleted = self.document.create_range()
                deleted.set_start(*places[start])
                deleted.set_end(*places[end])
                del places
                deleted.delete_contents()
                self.assertLevel(nodes=len(top.tree()), ranges=1)
                del top, deleted
                self.assertLevel()

    def test_in_use(self):
        """A tree that is in use is tried again once it is in use no more."""
        for name, over in self.OVER.items():
            with self.subTest(name):
                found = over(self, self.element("text"))
                self.assertLevel(nodes=2, **{name: 1})
                del found
                self.assertLevel()

    def test_in_use_without_being_asked(self):
        """The same by calls that make others, without being asked how much is in use."""
        found = self.document.create_node_iterator(self.element("text"))
        self.document.create_range()
        number = found.root.number
        self.document.create_range()
        self.assertEqual(found.root.number, number)
        del found
        for _ in range(4):
            self.document.create_range()
        with self.assertRaises(h.NoSuchObject):
            self.session.node(number)

    def test_documents(self):
        """A Document goes, and not before the nodes that it is the node document of; the first stays."""
        other = self.session.create_document()
        other.append_child(other.create_element("p"))
        node = other.create_element("q")
        del other
        self.assertLevel(nodes=3)
        self.assertEqual(node.node_document.first_child.tag_name, "p")
        del node
        self.assertLevel()
        h.xml.parse("<a><b/>text</a>", self.session)
        gc.collect()
        self.assertLevel()
        del self.document
        self.assertLevel()
        self.document = self.session.document

    def test_fragments(self):
        self.root.append("a", "b")
        self.assertLevel(nodes=2)
        self.root.replace_children()
        self.assertLevel()

    def test_history(self):
        """What undoing and redoing may bring back stays, with its ranges, and goes with the history."""
        history = h.History(self.root)
        bookmark = history.keep(self.document.create_range())
        with history.group():
            self.root.append(self.element("text"))
        with history.group():
            bookmark.select_node_contents(self.root.first_child.first_child)
        with history.group():
            self.root.replace_children()
        del bookmark
        gc.collect()
        self.assertLevel(nodes=2, ranges=1, observers=1, registrations=1)
        for _ in range(3):
            self.assertTrue(history.undo())
        self.assertFalse(self.root.has_child_nodes())
        self.document.create_element("other")
        self.assertLevel(nodes=2, ranges=1, observers=1, registrations=1)
        for _ in range(2):
            self.assertTrue(history.redo())
        self.assertEqual(self.root.text_content, "text")
        self.assertTrue(history.redo())
        history.close()
        del history
        gc.collect()
        self.assertLevel()

    def test_random_calls(self):
        """Whatever is moved and dropped, the session has the nodes of all trees with a held node, and no others."""
        uses = (
            lambda choose: self.element("a", "", self.element("b")),
            lambda choose: choose().append_child(choose()),
            lambda choose: choose().append_child(choose()),
            lambda choose: choose().replace_children(choose(), "c", self.element()),
            lambda choose: setattr(choose(), "text_content", "d"),
            lambda choose: choose().remove(),
            lambda choose: choose().replace_with(choose()),
            lambda choose: choose().parent_node,
            lambda choose: choose().last_child,
            lambda choose: choose().clone_node(True),
            lambda choose: choose().normalize(),
            lambda choose: self.range_in(choose()).delete_contents(),
            lambda choose: self.range_in(choose()).extract_contents(),
            lambda choose: self.surround(choose(), choose()),
            lambda choose: self.document.adopt_node(choose()),
            lambda choose: self.range_in(choose()),
        )
        for seed in range(30):
            chance, held = random.Random(seed), []
            for _ in range(200):
                self.use_by_chance(chance, uses, held)
                del held[chance.randrange(12) :]
                nodes = [self.document, self.root, *(it if isinstance(it, h.Node) else it.start_container for it in held)]
                due = {row.node for node in nodes for row in node.get_root_node().tree()}
                self.assertEqual(self.session.in_use().nodes, len(due) + self.emptied, seed)
                del nodes, due
            held.clear()
            self.document.replace_children(self.root)
            self.root.replace_children()
            self.assertLevel()

    def use_by_chance(self, chance, uses, held):
        """Makes a call with held nodes, and holds what it returns."""
        nodes = [it for it in held if isinstance(it, h.ParentNode)] + [self.root]
        try:
            found = chance.choice(uses)(lambda: chance.choice(nodes))
        except (h.DOMException, AttributeError):
            # (a Document or a fragment has not all of these, and not all can stand everywhere)
            return
        if found is not None:
            held.insert(0, found)

    # when

    def test_finalizers_amid_answers(self):
        """What finalizers take out and let go amid an answer leaves all that the answer names."""
        session, root, ran = self.session, self.root, []

        class Amid:
            """Goes each time that the collector runs, and comes again."""

            def __init__(self):
                self.itself = self

            def __del__(self):
                if root.has_child_nodes():
                    root.last_child.remove()
                ran.append(session.in_use())
                if ran[0]:
                    Amid()

        observer = session.create_mutation_observer()
        uses = (
            lambda: root.child_nodes,
            lambda: [it.node for it in root.tree()],
            lambda: [node for it in observer.take_records() for node in it.added_nodes + it.removed_nodes],
            lambda: [node for _, its in session.notify() for it in its for node in it.added_nodes + it.removed_nodes],
        )
        thresholds = gc.get_threshold()
        self.addCleanup(gc.set_threshold, *thresholds)
        count = 0
        for at in range(100):
            if at % 4 > 1:
                observer.observe(root, child_list=True)
            root.append(*(self.document.create_comment("c") for _ in range(20)))
            if at % 4 > 1:
                root.replace_children()
            ran[:] = [True]
            Amid()
            gc.set_threshold(3, 2, 2)
            nodes = uses[at % 4]()
            gc.set_threshold(*thresholds)
            count += len(ran) - 1
            ran[0] = False
            gc.collect()
            observer.disconnect()
            for node in nodes:
                self.assertGreater(node.node_type, 0)
        # (since Python 3.12 the collector runs between instructions alone, and so less often)
        self.assertGreater(count, 200 if sys.version_info < (3, 12) else 100)

    def test_threads(self):
        """Threads that make and drop in one session find what they hold, and leave nothing."""
        faults = []

        def work():
            try:
                for at in range(300):
                    found = self.element("text", self.element())
                    over = self.range_in(found)
                    inner = found.last_child
                    del found
                    self.assertEqual(inner.parent_node.number, over.start_container.number)
                    inner.parent_node.text_content = "other"
            except BaseException as fault:
                faults.append(fault)

        threads = [threading.Thread(target=work) for _ in range(4)]
        for it in threads:
            it.start()
        for it in threads:
            it.join()
        self.assertEqual(faults, [])
        self.assertLevel()

    def test_closed(self):
        """Objects may go after their session."""
        kept = [self.element(), self.range_in(self.root), self.session.create_mutation_observer()]
        self.session.close()
        del kept
        gc.collect()
        with self.assertRaises(h.SessionClosed):
            self.document.create_element("p")

    # memory

    def come_and_go(self, make, count):
        for _ in range(count):
            make()
        gc.collect()
        with open(RESIDENT, encoding="ascii") as file:
            return int(file.read().split()[1])

    @unittest.skipUnless(os.path.exists(RESIDENT), "there is no /proc")
    def test_memory(self):
        """Making and dropping things leaves memory level: 200,000 of each kind, 100,000 elements, trees of 1,000 nodes."""
        def tree():
            top = self.element()
            for _ in range(999):
                top.append_child(self.document.create_comment("c"))

        def text():
            self.root.text_content = "some text"

        def observer():
            self.session.create_mutation_observer(print)

        uses = {name: (lambda over=over: over(self, self.root), 200_000) for name, over in self.OVER.items()}
        uses.update(observers=(observer, 200_000), elements=(self.element, 100_000), texts=(text, 100_000), trees=(tree, 200))
        for name, (make, count) in uses.items():
            with self.subTest(name):
                before = self.come_and_go(make, count // 50)
                self.assertLess(self.come_and_go(make, count) - before, 512)
        self.root.replace_children()
        self.assertLevel()


if __name__ == "__main__":
    unittest.main()
