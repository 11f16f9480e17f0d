"""What the objects of the package keep beside the replies: identity, texts, refusals, closed sessions, repr."""
import ast
import copy
import gc
import inspect
import os
import pickle
import threading
import unittest

import huckleport as h
from huckleport import _signatures
from huckleport._calls import Calls

# What opens and closes a session or asks of none, and what fills an array, as the package's own calls do.
NO_METHODS = {"open", "close", "version", "numbers_into", "records_into", "children_into", "subtree_into", "next_nodes_into", "walk_into", "attribute_at"}
STUB = os.path.join(os.path.dirname(h.__file__), "_core.pyi")


def annotations():
    """The types of what each call of the library is handed, as the stub of the extension module has them."""
    with open(STUB, encoding="utf-8") as file:
        source = file.read()
    classes = [it for it in ast.parse(source).body if isinstance(it, ast.ClassDef) and it.name == "Calls"]
    calls = [it for it in classes[0].body if isinstance(it, ast.FunctionDef)]
    return {it.name: [ast.get_source_segment(source, word.annotation) for word in it.args.posonlyargs[1:]] for it in calls}


class Objects(unittest.TestCase):
    def setUp(self):
        self.session = h.Session()
        self.addCleanup(self.session.close)
        self.document = self.session.document
        self.element = self.document.append_child(self.document.create_element("p"))
        self.text = self.element.append_child(self.document.create_text_node("some text"))

    def test_identity(self):
        self.assertIs(self.text.parent_node, self.element)
        self.assertIs(self.element.child_nodes[0], self.text)
        self.assertIs(self.session.node(2), self.text)
        self.assertIs(self.text.get_root_node(), self.document)
        self.assertIs(self.text.owner_document, self.document)
        self.assertIsNone(self.document.owner_document)
        found = self.document.create_range()
        self.assertIs(self.session.range(found.number), found)

    def test_kinds(self):
        self.session.line(b'["createPI",0,"t","d"]')
        self.session.line(b'["createDoctype",0,"html","p","s"]')
        self.session.line(b'["createFragment",0]')
        kinds = [type(self.session.node(it)) for it in range(6)]
        self.assertEqual(kinds, [h.Document, h.Element, h.Text, h.ProcessingInstruction, h.DocumentType, h.DocumentFragment])
        doctype = self.session.node(4)
        self.assertEqual((doctype.name, doctype.public_id, doctype.system_id), ("html", "p", "s"))
        self.assertEqual((self.session.node(3).target, self.session.node(3).data), ("t", "d"))
        self.assertIs(self.document.document_element, self.element)
        self.assertIsNone(self.document.doctype)

    def test_lone_surrogates(self):
        self.text.data = "a\ud800\udfffb\udc00"
        self.assertEqual(self.text.data, "a\U000103ffb\udc00")
        self.assertEqual(self.text.length, 5)
        self.assertEqual(self.text.substring_data(1, 1), "\ud800")
        self.element.set_attribute("a", "\udfff\0")
        self.assertEqual(self.element.get_attribute("a"), "\udfff\0")
        self.assertIn("\\udfff", repr(self.element))
        with self.assertRaises(h.BadValue):
            self.element.set_attribute("\ud800", "")

    def test_refusals(self):
        with self.assertRaises(h.DOMException) as caught:
            self.document.append_child(self.text)
        self.assertEqual((caught.exception.name, caught.exception.code), ("HierarchyRequestError", 3))
        with self.assertRaises(TypeError) as caught:
            self.session.create_mutation_observer().observe(self.element)
        self.assertEqual((caught.exception.name, caught.exception.code), ("TypeError", 0))
        with self.assertRaises(h.InUse):
            self.text.discard()
        with self.assertRaises(OverflowError):
            self.text.insert_data(-1, "")
        with self.assertRaises(OverflowError):
            self.text.insert_data(1 << 32, "")
        with self.assertRaises(TypeError):
            self.text.insert_data(1.5, "")
        with self.assertRaises(TypeError):
            self.text.append_data(None)
        with self.assertRaises(TypeError):
            self.element.append_child(self.document.create_range())
        self.assertEqual(self.text.data, "some text")

    def test_other_session(self):
        with h.Session() as other, self.assertRaises(ValueError):
            self.element.append_child(other.document.create_element("p"))

    def test_limits(self):
        with h.Session(numbers=1) as session, self.assertRaises(h.LimitReached):
            session.document.create_element("p")
        with self.assertRaises(h.BadValue):
            h.Session(numbers=0)

    def test_discarded(self):
        self.text.remove()
        self.text.discard()
        with self.assertRaises(h.NoSuchObject):
            self.text.data
        self.assertEqual(repr(self.text), "<Text 2 no-such-object>")

    def test_members_take_objects_of_their_family(self):
        """A number that is a range's and a node's is not taken for the other's."""
        found = self.document.create_range()
        self.assertEqual(found.number, self.document.number)
        for member, other in ((h.Node.first_child, found), (h.Element.tag_name, found)):
            self.assertRaisesRegex(TypeError, "doesn't apply", member.__get__, other)
        calls = (h.Node.append_child, found, self.text), (h.ChildNode.remove, found), (h.Range.select_node, self.document, self.text)
        for member, *words in calls:
            self.assertRaisesRegex(TypeError, "doesn't apply", member, *words)
        self.assertEqual(h.Node.first_child.__get__(self.document), self.element)

    def test_attributes_of_elements_alone(self):
        """They are Python's own in all but the way to them."""

        class Of(h.Element):
            pass

        for name in ("text", "tag_name"):
            quick, usual, value = vars(h.Element)[name], getattr(h.Element, name), getattr(self.element, name)
            self.assertTrue(inspect.isgetsetdescriptor(usual))
            self.assertTrue(quick.__doc__ and quick.__doc__ == usual.__doc__)
            found = quick.__get__(self.element), usual.__get__(self.element), getattr(Of(self.session, self.element.number), name)
            self.assertEqual(found, (value, value, value))
            self.assertIs(quick.__get__(None, h.Element), usual)
            for change in (lambda: setattr(self.element, name, "x"), lambda: delattr(self.element, name)):
                self.assertRaises(AttributeError, change)
            self.assertRaises(TypeError, quick.__get__, 7)
            self.assertRaises(TypeError, quick.__get__, None, None)
        self.assertIsNone(h.Element.text.__get__(self.text))

    def test_ranges(self):
        with_ends = self.document.create_range()
        with_ends.set_start(self.text, 5)
        with_ends.set_end(self.text, 9)
        self.text.insert_data(0, "this is ")
        self.assertEqual((str(with_ends), with_ends.start_offset, with_ends.collapsed), ("text", 13, False))
        self.assertEqual(repr(with_ends), "<Range 0 (2, 13)-(2, 17)>")
        with_ends.release()
        with self.assertRaises(h.NoSuchObject):
            with_ends.start_offset

    def over(self, node):
        """What can be released, one of each kind, over a node."""
        observer = self.session.create_mutation_observer(lambda records, it: None)
        observer.observe(node, child_list=True, subtree=True)
        range = self.document.create_range()
        range.select_node_contents(node)
        static = self.session.create_static_range(node, 0, node, 0)
        return [self.document.create_node_iterator(node), self.document.create_tree_walker(node), static, observer, range]

    def test_released(self):
        """A tree can be discarded once all that was over it is released, and each of these is refused from then on."""
        top = self.document.create_element("top")
        kept = self.over(top)
        for it in kept:
            with self.assertRaises(h.InUse):
                top.discard()
            it.release()
        top.discard()
        iterator, walker, static, observer, _ = kept
        uses = (iterator.next_node, walker.first_child, lambda: static.is_valid, observer.take_records, observer.disconnect)
        for use in (*uses, *(it.release for it in kept)):
            with self.assertRaises(h.NoSuchObject):
                use()
        self.assertEqual(repr(iterator), "<NodeIterator 0 no-such-object>")
        self.assertEqual(self.document.create_node_iterator(self.document).number, iterator.number + 1)
        with self.assertRaises(h.NoSuchObject):
            self.session.mutation_observer(observer.number)

    def test_in_use(self):
        """How many objects of each kind there are, as they come and go."""
        nodes = self.session.in_use().nodes
        kept = self.over(self.document)
        self.assertEqual(self.session.in_use(), h.Counts(nodes, 1, 1, 1, 1, 1, 1))
        for it in kept:
            it.release()
        self.assertEqual(self.session.in_use(), h.Counts(nodes, 0, 0, 0, 0, 0, 0))

    def test_released_observers_are_not_told(self):
        told = []
        gone, stays = (self.session.create_mutation_observer(lambda records, it: told.append(it)) for _ in range(2))
        for it in (gone, stays):
            it.observe(self.element, child_list=True)
        self.text.remove()
        gone.release()
        self.assertEqual(self.session.pending(), [stays])
        self.session.notify()
        self.assertEqual(told, [stays])

    def two_in_turn(self, does):
        """Returns the calls of two observers. The callback of the first does something with the second, once, before that one's turn."""
        told = []

        def callback(records, it):
            told.append(("first", len(records)))
            if len(told) == 1:
                does(second)

        first = self.session.create_mutation_observer(callback)
        second = self.session.create_mutation_observer(lambda records, it: told.append(("second", len(records))))
        for it in (first, second):
            it.observe(self.element, attributes=True)
        self.element.set_attribute("a", "1")
        return told

    def test_disconnected_before_its_turn(self):
        told = self.two_in_turn(h.MutationObserver.disconnect)
        self.assertEqual([len(records) for _, records in self.session.notify()], [1])
        self.assertEqual(told, [("first", 1)])

    def test_records_taken_before_its_turn(self):
        taken = []
        told = self.two_in_turn(lambda second: taken.extend(second.take_records()))
        self.session.notify()
        self.assertEqual(told, [("first", 1)])
        self.assertEqual([(it.type, it.attribute_name) for it in taken], [("attributes", "a")])

    def test_released_before_its_turn(self):
        told = self.two_in_turn(h.MutationObserver.release)
        self.session.notify()
        self.assertEqual(told, [("first", 1)])
        self.assertEqual(self.session.notify(), [])

    def test_changed_before_its_turn(self):
        """A callback's change is delivered in its turn to an observer that is still to come, and to the others by the next call."""
        told = self.two_in_turn(lambda second: self.element.set_attribute("a", "2"))
        self.session.notify()
        self.assertEqual(told, [("first", 1), ("second", 2)])
        self.session.notify()
        self.assertEqual(told, [("first", 1), ("second", 2), ("first", 1)])

    def test_disconnected_by_one_that_raises(self):
        """The effects of its callback stay, and the others are notified."""

        def does(second):
            second.disconnect()
            raise KeyError

        told = self.two_in_turn(does)
        third = self.session.create_mutation_observer(lambda records, it: told.append(("third", len(records))))
        third.observe(self.element, attributes=True)
        self.element.set_attribute("a", "2")
        with self.assertRaises(KeyError):
            self.session.notify()
        self.assertEqual(told, [("first", 2), ("third", 1)])

    def test_without_a_callback_before_its_turn(self):
        """An observer without a callback gets no notice either."""
        without = self.session.create_mutation_observer()
        first = self.session.create_mutation_observer(lambda records, it: without.disconnect())
        for it in (first, without):
            it.observe(self.element, attributes=True)
        self.element.set_attribute("a", "1")
        self.assertEqual([it for it, _ in self.session.notify()], [first])

    def test_taken_out_until_its_turn(self):
        """A removed node is watched by each observer until its own turn."""
        told = []

        def callback(records, it):
            told.append([it.type for it in records])
            self.text.data = "other"

        for it in (callback, lambda records, it: told.append([it.type for it in records])):
            self.session.create_mutation_observer(it).observe(self.element, child_list=True, character_data=True, subtree=True)
        self.text.remove()
        for _ in range(2):
            self.session.notify()
        self.assertEqual(told, [["childList"], ["childList", "characterData"]])

    def test_closed_before_its_turn(self):
        told = self.two_in_turn(lambda second: self.session.close())
        self.assertEqual([len(records) for _, records in self.session.notify()], [1])
        self.assertEqual(told, [("first", 1)])

    def test_released_in_turn(self):
        """Released things leave no memory taken: a hundred thousand of each kind one after another."""
        resident = "/proc/self/statm"
        if not os.path.exists(resident):
            self.skipTest("there is no /proc")

        def come_and_go(count):
            for _ in range(count):
                for it in self.over(self.document):
                    it.release()
            gc.collect()
            with open(resident, encoding="ascii") as file:
                return int(file.read().split()[1])

        before = come_and_go(2000)
        self.assertLess(come_and_go(100_000) - before, 1024)

    def test_iterating(self):
        found = self.document.create_node_iterator(self.document, h.NodeFilter.SHOW_TEXT)
        self.assertEqual(list(found), [self.text])
        rejecting = self.document.create_tree_walker(self.document, filter=[("p", h.NodeFilter.FILTER_REJECT)])
        self.assertIsNone(rejecting.first_child())

    def test_observers(self):
        told = []
        observer = self.session.create_mutation_observer(lambda records, it: told.append((records, it)))
        observer.observe(self.element, subtree=True, character_data_old_value=True)
        self.text.data = "other"
        self.assertEqual(self.session.pending(), [observer])
        self.session.notify()
        (records, it), = told
        self.assertIs(it, observer)
        self.assertEqual([(it.type, it.target, it.old_value) for it in records], [("characterData", self.text, "some text")])
        self.assertEqual(self.session.notify(), [])

    def test_callbacks_that_raise(self):
        told = []

        def raises(records, it):
            raise KeyError("first")

        for callback in (raises, lambda records, it: told.append(it)):
            self.session.create_mutation_observer(callback).observe(self.element, attributes=True)
        self.element.set_attribute("a", "b")
        with self.assertRaises(KeyError):
            self.session.notify()
        self.assertEqual(len(told), 1)

    def test_repr(self):
        self.element.set_attribute("class", "intro")
        self.assertEqual(repr(self.document), "0 <Document>\n1   <p class='intro'>\n2     'some text'")
        self.assertEqual(repr(self.text), "2 'some text'")
        for _ in range(100):
            self.element.append_child(self.document.create_comment("c"))
        self.assertEqual(len(repr(self.document).split("\n")), 41)

    def test_no_copies(self):
        for it in (self.session, self.element, self.session._calls):
            with self.assertRaises(TypeError):
                copy.copy(it)
            with self.assertRaises(TypeError):
                pickle.dumps(it)

    def test_closed(self):
        found = self.document.create_range()
        self.session.close()
        self.session.close()
        self.assertTrue(self.session.closed)
        for use in (lambda: self.text.data, lambda: self.element.child_nodes, lambda: str(found), self.session.notify):
            with self.assertRaises(h.SessionClosed):
                use()
        with self.assertRaises(h.SessionClosed):
            self.session.line(b'["tree",0]')
        self.assertEqual(repr(self.element), "<Element 1 closed>")
        self.assertEqual(repr(found), "<Range 0 closed>")

    def test_every_call_of_a_closed_session(self):
        """Each call of the library that asks of a session is made with a closed one, before it was open and after."""
        count, types = 0, annotations()
        for calls in (Calls(), self.session._calls):
            self.session.close()
            for name in set(_signatures.PARAMETERS) - NO_METHODS:
                with self.assertRaises(h.SessionClosed, msg=name):
                    self.use(getattr(calls, name), types[name])
                count += 1
        self.assertEqual(count, 2 * len(set(_signatures.PARAMETERS) - NO_METHODS))

    def use(self, call, types):
        """Makes a call with values of these types."""
        options = _signatures.hp_options(*([0] * 7))
        values = {"int": 0, "str": "a", "bytes": b"", "bool": False, "Sequence[int]": [], "_signatures.hp_options": options}
        call(*(values[it] for it in types))

    def test_left_session_is_freed(self):
        session = h.Session()
        calls = session._calls
        element = session.document.create_element("p")
        del session
        gc.collect()
        self.assertEqual(element.tag_name, "p")
        del element
        gc.collect()
        self.assertFalse(calls.is_open)

    def test_threads(self):
        def work():
            for _ in range(200):
                self.text.append_data("x")
                self.assertEqual(set(self.text.data[9:]), {"x"})

        threads = [threading.Thread(target=work) for _ in range(4)]
        for it in threads:
            it.start()
        for it in threads:
            it.join()
        self.assertEqual(self.text.length, 809)


if __name__ == "__main__":
    unittest.main()
