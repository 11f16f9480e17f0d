"""Answers are whole and right, whatever runs meanwhile: the collector, signal handlers, other threads, callbacks that raise.

The variable HUCKLEPORT_SECONDS says how long this takes; else it is a few seconds.
"""
import gc
import os
import signal
import sys
import threading
import time
import unittest

import huckleport as h

SECONDS = float(os.environ.get("HUCKLEPORT_SECONDS", 6)) / 6


def rounds():
    """Goes on for the time that one test has."""
    end = time.monotonic() + SECONDS
    while time.monotonic() < end:
        yield


class Finalized:
    """Releases a range when the collector finds it."""

    released = 0

    def __init__(self, document):
        self.range, self.itself = document.create_range(), self

    def __del__(self):
        try:
            self.range.release()
            Finalized.released += 1
        except h.SessionClosed:
            pass


class Answers(unittest.TestCase):
    def setUp(self):
        self.session = h.Session()
        self.addCleanup(self.session.close)
        self.document = self.session.document
        self.root = self.document.append_child(self.document.create_element("root"))

    def fill(self, parent, count):
        found = [self.document.create_element(f"e{at}") for at in range(count)]
        for at, it in enumerate(found):
            it.set_attribute("at", str(at))
            parent.append_child(it)
        return found

    def collecting(self):
        """The collector runs at each few objects."""
        before = gc.get_threshold()
        self.addCleanup(gc.set_threshold, *before)
        gc.set_threshold(5, 2, 2)

    def test_collector(self):
        """Finalizers that release ranges run amid answers."""
        count = 50
        self.fill(self.root, count)
        told, observer = [], self.session.create_mutation_observer(lambda records, it: told.extend(records))
        other = self.session.create_mutation_observer()
        for it in (observer, other):
            it.observe(self.root, subtree=True, child_list=True, attributes=True, attribute_old_value=True)
        self.collecting()
        released, made = Finalized.released, 0
        for _ in rounds():
            told.clear()
            for at, it in enumerate(self.root.child_nodes):
                Finalized(self.document)
                it.set_attribute("at", str(at))
                made += 1
            rows = self.document.tree()
            self.assertEqual([(it.name, it.attributes) for it in rows[2:]], [(f"e{at}", (("at", str(at)),)) for at in range(count)])
            self.assertEqual(h.xml.serialize(self.root), f"<root>{''.join(f'<e{at} at={chr(34)}{at}{chr(34)}/>' for at in range(count))}</root>")
            self.assertEqual([it.tag_name for it in self.root.child_nodes], [f"e{at}" for at in range(count)])
            taken = other.take_records()
            self.session.notify()
            for records in (taken, told):
                self.assertEqual([(it.target.tag_name, it.old_value) for it in records], [(f"e{at}", str(at)) for at in range(count)])
        gc.collect()
        self.assertGreater(Finalized.released - released, made // 2)

    @unittest.skipUnless(hasattr(signal, "setitimer"), "there are no timers")
    def test_signals(self):
        """A handler asks for children while children are asked for."""
        one, other = (self.root.append_child(self.document.create_element(it)) for it in ("one", "other"))
        due, due_of_handler = self.fill(one, 30), self.fill(other, 30)
        seen, refused = [], []

        def handler(number, frame):
            try:
                seen.append(other.child_nodes == due_of_handler)
            except RuntimeError:
                refused.append(number)

        before = signal.signal(signal.SIGALRM, handler)
        try:
            signal.setitimer(signal.ITIMER_REAL, 0.0005, 0.0005)
            for _ in rounds():
                self.assertEqual(one.child_nodes, due)
                self.assertEqual(len(self.document.tree()), 64)
        finally:
            signal.setitimer(signal.ITIMER_REAL, 0)
            signal.signal(signal.SIGALRM, before)
        self.assertTrue(all(seen))
        self.assertGreater(len(seen) + len(refused), 10)
        self.assertEqual(refused, [])

    def run_together(self, *works):
        """Runs works in threads, and raises what one of them raised."""
        faults = []

        def run(work):
            try:
                work()
            except BaseException as fault:
                faults.append(fault)

        threads = [threading.Thread(target=run, args=(it,)) for it in works]
        before = sys.getswitchinterval()
        sys.setswitchinterval(1e-5)
        for it in threads:
            it.start()
        for it in threads:
            it.join()
        sys.setswitchinterval(before)
        if faults:
            raise faults[0]

    def test_threads(self):
        """Two threads add and discard nodes while a third takes the records: each change is recorded once."""
        told, counts, is_over = [], [], []
        observer = self.session.create_mutation_observer(lambda records, it: told.extend(records))
        observer.observe(self.root, child_list=True)

        def add():
            for _ in rounds():
                node = self.root.append_child(self.document.create_element("p"))
                counts.append(node.number)
                self.root.remove_child(node)
                try:
                    node.discard()
                except h.InUse:
                    pass

        def listen():
            while len(is_over) < 2:
                self.session.notify()
                told.extend(observer.take_records())

        def add_and_say():
            try:
                add()
            finally:
                is_over.append(True)

        self.run_together(add_and_say, add_and_say, listen)
        self.session.notify()
        added = sorted(node.number for it in told for node in it.added_nodes)
        removed = sorted(node.number for it in told for node in it.removed_nodes)
        self.assertEqual((added, removed), (sorted(counts), sorted(counts)))

    def test_interrupted_callbacks(self):
        """KeyboardInterrupt in a callback loses nobody's records: not of the others, nor of those without one, nor its own."""
        told = []

        def interrupted(records, it):
            raise KeyboardInterrupt

        without = self.session.create_mutation_observer()
        observers = [self.session.create_mutation_observer(it) for it in (interrupted, lambda records, it: told.extend(records))]
        for it in (without, *observers):
            it.observe(self.root, attributes=True)
        uses = (lambda of: [it for it, in (records for observer, records in self.session.notify() if observer is of)], lambda of: of.take_records())
        for use in uses:
            del told[:]
            observers[0].callback = interrupted
            self.root.set_attribute("a", "b")
            with self.assertRaises(KeyboardInterrupt):
                self.session.notify()
            self.assertEqual(len(told), 1)
            self.assertEqual([it.target for it in without.take_records()], [self.root])
            observers[0].callback = None
            self.assertEqual([it.target for it in use(observers[0])], [self.root])
            self.assertEqual(observers[0].take_records(), [])
        self.assertEqual(self.session.notify(), [])

    @unittest.skipUnless(hasattr(signal, "setitimer"), "there are no timers")
    def test_interrupts_by_the_clock(self):
        """Interrupts happen at any time, and an observer with a callback still gets each change."""
        told, made, interrupts = set(), 0, 0
        observer = self.session.create_mutation_observer(lambda records, it: told.update(record.old_value for record in records))
        self.root.set_attribute("a", "0")
        observer.observe(self.root, attributes=True, attribute_old_value=True)

        def interrupt(number, frame):
            raise KeyboardInterrupt

        before = signal.signal(signal.SIGALRM, interrupt)
        for _ in rounds():
            for _ in range(20):
                made += 1
                self.root.set_attribute("a", str(made))
            try:
                signal.setitimer(signal.ITIMER_REAL, 0.00002)
                for _ in range(50):
                    self.session.notify()
                signal.setitimer(signal.ITIMER_REAL, 0)
            except KeyboardInterrupt:
                interrupts += 1
            left = [record for _, records in self.session.notify() for record in records]
            told.update(record.old_value for record in left)
        signal.signal(signal.SIGALRM, before)
        self.assertGreater(interrupts, 10)
        self.assertEqual(told, {str(it) for it in range(made)})

    def test_released_and_discarded_amid(self):
        """An answer is whole even if nodes are freed and the session is closed while it is made."""
        class Closing:
            def __init__(self, session):
                self.session, self.itself = session, self

            def __del__(self):
                self.session.close()

        self.collecting()
        for _ in rounds():
            session = h.Session()
            document = session.document
            root = document.append_child(document.create_element("r"))
            for _ in range(50):
                root.append_child(document.create_text_node("x"))
            Closing(session)
            del session
            try:
                rows = document.tree()
                self.assertEqual([it.data for it in rows[2:]], ["x"] * 50)
            except h.SessionClosed:
                pass


class Values(unittest.TestCase):
    def test_numbers_stay(self):
        session = h.Session()
        for it in (session.document, session.document.create_range(), session.create_mutation_observer()):
            with self.assertRaises(AttributeError):
                it.number = 7
            with self.assertRaises(AttributeError):
                it.session = None
            self.assertEqual(it.number, 0)

    def test_observers_that_were_not_made(self):
        session = h.Session()
        with self.assertRaises(h.NoSuchObject):
            session.mutation_observer(0)
        session.line(b'["createObserver"]')
        found = session.mutation_observer(0)
        self.assertIs(session.mutation_observer(0), found)
        with self.assertRaises(h.NoSuchObject):
            session.mutation_observer(1)
        self.assertEqual(session.pending(), [])

    def test_observers_where_no_document_is(self):
        session = h.Session()
        session.line(b'["newDocument"]')
        session.line(b'["discard",0]')
        session.line(b'["createObserver"]')
        try:
            session.node(0)
        except h.NoSuchObject:
            self.assertEqual(session.mutation_observer(0).number, 0)
            self.assertRaises(h.NoSuchObject, lambda: session.mutation_observer(1))

    def test_weak_references(self):
        """An object that goes while it is asked for is made anew."""
        import weakref

        session = h.Session()
        document = session.document
        text = document.create_text_node("x")
        found, number = [], text.number
        reference = weakref.ref(text, lambda it: found.append(session.node(number)))
        del text
        self.assertIsNone(reference())
        self.assertIs(found[0], session.node(number))
        self.assertEqual(found[0].data, "x")

    def test_many_objects(self):
        session = h.Session()
        document = session.document
        kept = {}
        for at in range(20000):
            node = document.create_text_node(str(at))
            if at % 3:
                kept[node.number] = node
            if at % 7 == 0 and kept:
                kept.pop(next(iter(kept)))
        for number, node in kept.items():
            self.assertIs(session.node(number), node)
            self.assertEqual(node.number, number)
        self.assertEqual(session.in_use().nodes, 1 + len(kept))
        del node
        kept.clear()
        self.assertEqual(session.in_use().nodes, 1)

    @unittest.skipUnless(os.environ.get("HUCKLEPORT_LARGE"), "HUCKLEPORT_LARGE is not set: it takes 8 GB")
    def test_large_texts(self):
        count = (1 << 30) + 5
        session = h.Session()
        text = session.document.create_text_node("a" * count)
        self.assertEqual(text.length, count)
        found = text.data
        self.assertEqual((len(found), found[:2], found[-1]), (count, "aa", "a"))
        del found
        self.assertEqual(text.substring_data(count - 2, 9), "aa")


if __name__ == "__main__":
    unittest.main()
