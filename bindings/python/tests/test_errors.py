"""What the package raises travels: by pickle, by copy, out of another process; several at once; and amid memory that is wanting."""
import asyncio
import copy
import functools
import importlib.util
import os
import pickle
import signal
import subprocess
import sys
import threading
import time
import traceback
import unittest
import warnings
from concurrent.futures import ProcessPoolExecutor
from multiprocessing import get_context

import huckleport as h
from huckleport import errors

HAS_GROUPS = sys.version_info >= (3, 11)


def every_class():
    """The classes of what the package raises."""
    return [it for it in vars(errors).values() if isinstance(it, type) and issubclass(it, h.Error)]


def refused_elsewhere():
    """What a process of a pool does: a document has two elements."""
    document = h.Session().document
    document.append(document.create_element("a"), document.create_element("b"))


def wrong_offset_elsewhere():
    h.Session().document.create_text_node("text").insert_data(-1, "x")


def malformed_elsewhere():
    h.xml.parse("<a>")


class Errors(unittest.TestCase):
    def setUp(self):
        self.session = h.Session()
        self.addCleanup(self.session.close)
        self.document = self.session.document
        self.root = self.document.append_child(self.document.create_element("root"))
        self.text = self.root.append_child(self.document.create_text_node("text"))

    def is_like(self, found, due):
        self.assertIs(type(found), type(due))
        self.assertEqual((str(found), found.args, vars(found)), (str(due), due.args, vars(due)))

    def test_each_class_travels(self):
        for kind in every_class():
            for words in ((3, "append_child", "a reason"), (8, "x"), (None, "", "a sentence")):
                fault = kind(*words)
                fault.more = 5
                for protocol in range(pickle.HIGHEST_PROTOCOL + 1):
                    self.is_like(pickle.loads(pickle.dumps(fault, protocol)), fault)
                self.is_like(copy.copy(fault), fault)
                self.is_like(copy.deepcopy(fault), fault)

    def refusals(self):
        """Calls that are refused, each for another reason."""
        detached, found = self.document.create_text_node("x"), self.document.create_range()
        with h.Session() as other:
            foreign = other.document
        gone = self.document.create_comment("gone")
        gone.discard()
        history = h.History(self.root)

        def amid_a_group():
            with history.group():
                history.undo()

        return [
            lambda: self.text.insert_data(-1, "x"),
            lambda: self.text.insert_data(1 << 32, "x"),
            lambda: self.text.insert_data(1 << 70, "x"),
            lambda: self.text.insert_data(1.5, "x"),
            lambda: self.text.insert_data(5, "x"),
            lambda: self.text.insert_data("1", "x"),
            lambda: self.text.append_data(None),
            lambda: self.text.append_child(detached),
            lambda: self.root.append_child(foreign),
            lambda: self.root.append_child("x"),
            lambda: self.root.append_child(found),
            lambda: self.root.append_child(gone),
            lambda: self.document.append_child(detached),
            lambda: self.root.remove_child(detached),
            lambda: self.root.discard(),
            lambda: self.root.set_attribute("", "x"),
            lambda: self.root.set_attribute("\ud800", "x"),
            lambda: self.root.attributes["none"],
            lambda: self.session.node(1000),
            lambda: self.session.node(-1),
            lambda: foreign.create_comment("x"),
            lambda: found.set_start(self.text, 10),
            lambda: found.compare_boundary_points(7, found),
            lambda: self.session.line("text"),
            lambda: self.session.data_of([1]),
            lambda: h.Session(numbers=0),
            lambda: h.Session(numbers=-1),
            lambda: h.xml.parse("<a>"),
            lambda: h.xml.serialize(self.document.create_comment("--")),
            lambda: h.utf16_offset("abc", 5),
            lambda: h.utf16_index("\U0001f600", 1),
            lambda: pickle.dumps(self.root),
            lambda: pickle.dumps(self.session),
            amid_a_group,
        ]

    def test_one_base(self):
        """Whatever is refused is an Error, and travels."""
        for at, call in enumerate(self.refusals()):
            with self.assertRaises(h.Error, msg=at) as caught:
                call()
            found = pickle.loads(pickle.dumps(caught.exception))
            self.assertEqual((str(found), type(found).__name__), (str(caught.exception), type(caught.exception).__name__))
            self.assertTrue(str(found))

    def test_what_else_they_are(self):
        """Each is also what Python raises of such a thing."""
        due = (ValueError, OverflowError), (TypeError,), (KeyError,), (IndexError,), (RuntimeError,), (MemoryError,), (LookupError,)
        kinds = h.BadNumber, h.BadType, h.NoSuchAttribute, h.BadIndex, h.GroupIsOpen, h.OutOfMemory, h.NoSuchObject
        for kind, others in zip(kinds, due):
            for other in others:
                self.assertTrue(issubclass(kind, other), (kind, other))
        with self.assertRaises(h.BadNumber) as caught:
            self.text.insert_data(-1, "x")
        self.assertEqual(str(caught.exception), "-1 is not from 0 to 4294967295")

    def test_out_of_another_process(self):
        with ProcessPoolExecutor(1, mp_context=get_context("spawn")) as pool:
            for work, kind in ((refused_elsewhere, h.DOMException), (wrong_offset_elsewhere, h.BadNumber), (malformed_elsewhere, h.Malformed)):
                with self.assertRaises(kind) as caught:
                    pool.submit(work).result()
                self.assertTrue(str(caught.exception))
            with self.assertRaises(h.DOMException) as caught:
                pool.submit(refused_elsewhere).result()
            self.assertEqual((caught.exception.name, caught.exception.code), ("HierarchyRequestError", 3))


class Callbacks(unittest.TestCase):
    def setUp(self):
        self.session = h.Session()
        self.addCleanup(self.session.close)
        self.root = self.session.document.append_child(self.session.document.create_element("root"))

    def observe(self, *callbacks):
        for it in callbacks:
            self.session.create_mutation_observer(it).observe(self.root, attributes=True)
        self.root.set_attribute("a", "b")

    def raising(self, fault):
        def callback(records, observer):
            raise fault

        return callback

    def test_one_exception_is_itself(self):
        fault = KeyError("one")
        self.observe(self.raising(fault))
        with self.assertRaises(KeyError) as caught:
            self.session.notify()
        self.assertIs(caught.exception, fault)

    def test_several_exceptions(self):
        faults, told = [KeyError("one"), ValueError("two"), OSError("three")], []
        self.observe(*map(self.raising, faults), lambda records, observer: told.append(1))
        with self.assertRaises(Exception) as caught:
            self.session.notify()
        self.assertEqual(told, [1])
        if HAS_GROUPS:
            self.assertIsInstance(caught.exception, ExceptionGroup)  # noqa: F821
            self.assertEqual(list(caught.exception.exceptions), faults)
        else:
            self.assertIs(caught.exception, faults[0])
            self.assertEqual([repr(it) in note for it, note in zip(faults[1:], caught.exception.__notes__)], [True, True])
        self.assertEqual(self.session.notify(), [])

    def test_one_ends_the_program(self):
        """KeyboardInterrupt comes out as itself, with the others as its notes."""
        self.observe(self.raising(KeyError("one")), self.raising(KeyboardInterrupt()), self.raising(ValueError("two")))
        with self.assertRaises(KeyboardInterrupt) as caught:
            self.session.notify()
        self.assertEqual(len(caught.exception.__notes__), 2)
        said = "".join(traceback.format_exception(type(caught.exception), caught.exception, None))
        if HAS_GROUPS:
            self.assertIn("KeyError('one')", said)

    def test_async_is_refused(self):
        async def callback(records, observer):
            await asyncio.sleep(0)

        for it in (callback, functools.partial(callback, 1)):
            with self.assertRaises(h.BadType) as caught:
                self.session.create_mutation_observer(it)
            self.assertIn("async function", str(caught.exception))

    def test_async_is_refused_when_it_was_called(self):
        async def callback(records, observer):
            await asyncio.sleep(0)

        self.observe(lambda records, observer: callback(records, observer))
        with self.assertRaises(h.BadType) as caught:
            self.session.notify()
        self.assertIn("async def", str(caught.exception))

    def test_a_task_is_none(self):
        """A callback may begin a task of its own."""
        done = []

        async def work():
            done.append(1)

        async def main():
            self.observe(lambda records, observer: asyncio.ensure_future(work()))
            self.session.notify()
            await asyncio.sleep(0.01)

        asyncio.run(main())
        self.assertEqual(done, [1])


class LongCalls(unittest.TestCase):
    """A deep copy lets other threads run, and they are refused the session meanwhile."""

    def setUp(self):
        self.session = h.Session()
        document = self.session.document
        self.root = document.append_child(document.create_element("root"))
        for _ in range(20):
            self.root.append(*("text" for _ in range(50)))
        while self.root.length < 200000:
            self.root.append(self.root.clone_node(True))
            self.root.last_child.replace_with(*self.root.last_child.child_nodes)

    def test_others_run_and_are_refused(self):
        refused, is_over = [], []

        def other():
            while not is_over:
                try:
                    self.root.first_child.data
                except h.SessionInUse as fault:
                    refused.append(str(fault))
                time.sleep(0)

        thread = threading.Thread(target=other)
        before = sys.getswitchinterval()
        sys.setswitchinterval(1e-4)
        thread.start()
        copied, end = None, time.monotonic() + 60
        # (on a busy machine the other thread may come to nothing amid many copies; one that is refused has run amid one)
        while not refused and time.monotonic() < end:
            copied = self.root.clone_node(True)
        is_over.append(1)
        thread.join()
        sys.setswitchinterval(before)
        self.assertIn("another thread is in a long call", "".join(refused[:1]))
        self.assertEqual(copied.length, self.root.length)
        self.assertTrue(copied.is_equal_node(self.root))

    @unittest.skipUnless(hasattr(os, "fork"), "there is no fork")
    def test_forks_amid_copies(self):
        """A process that is forked while another thread is in a long call has memory all the same."""
        is_over = []

        def copy():
            while not is_over:
                self.root.clone_node(True)

        thread = threading.Thread(target=copy)
        thread.start()
        ends = [self.end_of_child() for _ in range(20)]
        is_over.append(1)
        thread.join()
        self.assertEqual(ends, [0] * 20)

    def end_of_child(self):
        """Forks a process that makes a session, and returns its status. One that hangs is ended by a signal."""
        with warnings.catch_warnings():
            # (later versions warn of each fork amid threads)
            warnings.simplefilter("ignore", DeprecationWarning)
            child = os.fork()
        if not child:
            signal.alarm(20)
            h.Session().document.create_element("p")
            os._exit(0)
        return os.waitpid(child, 0)[1]

    def test_two_sessions_at_once(self):
        """Copies in two threads, which take memory side by side, and give it back."""
        sessions = [h.Session() for _ in range(2)]
        counts = [[], []]

        def work(at):
            document = sessions[at].document
            root = document.create_element("root")
            root.append(*(f"text {it}" * (it % 40) for it in range(500)))
            for _ in range(30):
                copied = root.clone_node(True)
                counts[at].append(copied.is_equal_node(root))
                copied.first_child.data = "other"
                del copied

        threads = [threading.Thread(target=work, args=(it,)) for it in range(2)]
        for it in threads:
            it.start()
        for it in threads:
            it.join()
        self.assertEqual(counts, [[True] * 30] * 2)
        for it in sessions:
            it.close()


@unittest.skipUnless(importlib.util.find_spec("_testcapi"), "there is no _testcapi, which makes Python run out of memory")
class Memory(unittest.TestCase):
    """Python runs out of memory, at each place in turn or at all of them, while observers are notified or records are taken: no records are lost."""

    SOURCE = """
import _testcapi, sys
import huckleport as h
from huckleport.observers import MutationRecord

DUE = [("attributes", ""), ("attributes", "b"), ("childList", "")]

def seen(start, stop, is_taking):
    # Notifies three observers while allocations fail from one on, up to another or for good. Returns the records of each, whether a call was out of
    # memory, and whether all goes on after it.
    session = h.Session()
    root = session.document.append_child(session.document.create_element("root"))
    told = [[], [], []]
    observers = [session.create_mutation_observer(lambda records, observer, its=its: its.extend(records)) for its in told[:2]]
    observers.append(session.create_mutation_observer())
    last = observers[2]
    for it in observers:
        it.observe(root, child_list=True, attributes=True, attribute_old_value=True)
    root.append("x")
    root.set_attribute("a", "b")
    root.set_attribute("a", "c")
    returned, records, has_failed = [], [], False
    _testcapi.set_nomemory(start, stop)
    try:
        if is_taking:
            records = last.take_records()
        else:
            returned = session.notify()
    except MemoryError:
        has_failed = True
    finally:
        _testcapi.remove_mem_hooks()
    told[2].extend(records)
    for observer, records in returned + session.notify():
        told[observers.index(observer)].extend(records)
    is_over = len(told[2]) == 3 and not session.notify() and not last.take_records()
    found = [sorted({(it.type, it.old_value or "") for it in its}) for its in told]
    # (what nobody holds goes again)
    count = session.in_use().nodes
    session.document.create_text_node("y")
    is_over = is_over and session.in_use().nodes == count
    session.close()
    return found, has_failed, is_over

lost, failed, last = [], 0, int(sys.argv[1])
for is_taking in (False, True):
    for count in (1, 2, 3, 5, 10, 0):
        # (from the first on all fail at once, if they fail for good)
        for start in range(last):
            found, has_failed, is_over = seen(start, count and start + count, is_taking)
            failed += has_failed
            if found != [DUE] * 3 or not is_over:
                lost.append((is_taking, count, start, found, is_over))
print(failed > 100, lost)
"""

    def test_notices(self):
        ran = subprocess.run([sys.executable, "-c", self.SOURCE, "90"], stdout=subprocess.PIPE, stderr=subprocess.STDOUT, universal_newlines=True)
        self.assertEqual(ran.stdout, "True []\n")

    def test_disconnected(self):
        """Taken records that nobody got are dropped as waiting ones are: if their observer is disconnected or released, and with the session."""
        source = """
import _testcapi
import huckleport as h

for how in ("disconnect", "release", "close"):
    session = h.Session()
    root = session.document.append_child(session.document.create_element("root"))
    observer = session.create_mutation_observer()
    observer.observe(root, attributes=True)
    root.set_attribute("a", "b")
    has_failed = False
    _testcapi.set_nomemory(3, 0)
    try:
        observer.take_records()
    except MemoryError:
        has_failed = True
    finally:
        _testcapi.remove_mem_hooks()
    print(how, has_failed, end=" ")
    (session.close if how == "close" else getattr(observer, how))()
    print(session.closed or session.notify())
"""
        ran = subprocess.run([sys.executable, "-c", source], stdout=subprocess.PIPE, stderr=subprocess.STDOUT, universal_newlines=True)
        self.assertEqual(ran.stdout, "disconnect True []\nrelease True []\nclose True True\n")


if __name__ == "__main__":
    unittest.main()
