"""Several interpreters in one process: each has the package for itself."""
import os
import threading
import unittest
from importlib import import_module

import huckleport as h

PACKAGE = os.path.dirname(os.path.dirname(os.path.abspath(h.__file__)))

PROGRAM = f"""
import sys
sys.path.insert(0, {PACKAGE!r})
import huckleport

with huckleport.Session() as session:
    element = session.document.append_child(session.document.create_element("p"))
    assert type(element) is huckleport.Element, type(element)
    assert session.node(1) is element
    element.append("some", "text")
    element.normalize()
    assert element.text_content == "sometext"
    try:
        element.append_child(element)
    except huckleport.DOMException as fault:
        assert fault.name == "HierarchyRequestError"
    else:
        raise AssertionError("it was not refused")
    history = huckleport.History(session.document)
    element.set_attribute("a", "b")
    assert history.undo() and element.get_attribute_names() == []
    assert [it.data for it in session.document.descendants(huckleport.Text)] == ["sometext"]
"""


def interpreters():
    """The module that makes interpreters, by the names that versions have for it."""
    for name in ("_interpreters", "_xxsubinterpreters"):
        try:
            return import_module(name)
        except ImportError:
            continue
    return None


MODULE = interpreters()


def run(number):
    """Runs the program in an interpreter. What it raises is returned from 3.13 on, and raised before."""
    fault = MODULE.run_string(number, PROGRAM)
    if fault is not None:
        raise AssertionError(fault.formatted)


@unittest.skipIf(MODULE is None, "there is no module that makes interpreters")
class Interpreters(unittest.TestCase):
    def use(self):
        """The session of the first interpreter, which goes on as it was."""
        document = h.Session().document
        element = document.append_child(document.create_element("p"))
        self.assertIs(type(element), h.Element)
        with self.assertRaises(h.DOMException):
            element.append_child(element)
        self.assertEqual(element.node_name, "p")
        self.assertEqual(document.node_name, "#document")

    def test_one_after_the_other(self):
        kept = h.Session().document.create_element("kept")
        for _ in range(3):
            number = MODULE.create()
            run(number)
            self.use()
            MODULE.destroy(number)
            self.use()
        self.assertEqual(kept.tag_name, "kept")
        self.assertIs(type(kept.clone_node()), h.Element)

    def test_two_at_once(self):
        faults = []

        def work():
            # (an interpreter ends in the thread that has run it: until 3.11 it waits for ever for another)
            number = MODULE.create()
            try:
                for _ in range(20):
                    run(number)
            except BaseException as fault:
                faults.append(fault)
            finally:
                MODULE.destroy(number)

        threads = [threading.Thread(target=work) for _ in range(2)]
        for it in threads:
            it.start()
        for _ in range(20):
            self.use()
        for it in threads:
            it.join()
        self.assertEqual(faults, [])


if __name__ == "__main__":
    unittest.main()
