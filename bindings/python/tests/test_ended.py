"""A session that has ended, since it was out of memory, is read and serialized. Changes of it are refused, and other sessions go on."""
import importlib.util
import os
import subprocess
import sys
import unittest

SOURCE = """
import io, resource
import huckleport as h

session, other = h.Session(), h.Session()
document = session.document
document.append(document.create_document_type("html", "public", "system"))
root = document.append_child(document.create_element("html"))
first = root.append_child(document.create_element("p"))
first.set_attribute("id", "first")
first.set_attribute("lang", "de")
bold = document.create_element("b")
first.append("one \\U0001f600 ", document.create_comment("aside"), document.create_processing_instruction("target", "data"), bold)
bold.append("two")
root.append(*(document.create_element("i") for _ in range(3000)))
bookmark = document.create_range()
bookmark.set_start(first, 1)
history = h.History(document)
with history.group():
    first.set_attribute("lang", "en")


def texts():
    to = io.BytesIO()
    h.html.write(document, to)
    return to.getvalue(), h.html.serialize(document), h.xml.serialize(document), first.outer_html, repr(document)


def names():
    return [(it.node_name, it.node_type, it.text_content, it.parent_node, it.index, it.length, it.next_sibling) for it in document.descendants()]


def all_read():
    return (
        [texts(), names(), document.tree(), [*first], first.child_nodes, first.children, list(first.itertext()), list(bold.previous_siblings())],
        [document.doctype.name, document.doctype.public_id, document.doctype.system_id, document.document_element, first.node_document],
        [dict(first.attributes), first.get_attribute_names(), first.get_attribute("lang"), first.get_attribute("none"), first.has_attribute("id")],
        [document.get_element_by_id("first"), document.get_elements_by_tag_name("b"), document.get_elements_by_class_name("none")],
        [session.data_of([bold.first_child]), session.text_content_of([first, document]), session.attribute_of([first], "id"), session.attributes_of([first])],
        [[first.contains(it) for it in (first, bold, bold.first_child, root, None)], first.text, bold.text, root.text, bold.tail, first.tail],
        [bookmark.start_container, bookmark.start_offset, bookmark.end_container, session.node(first.number), bold.get_root_node()],
    )


def room():
    with open("/proc/self/statm") as it:
        return int(it.read().split()[0]) * resource.getpagesize()


before, copies = all_read(), []
limits = resource.getrlimit(resource.RLIMIT_AS)
resource.setrlimit(resource.RLIMIT_AS, (room() + (8 << 20), limits[1]))
try:
    while True:
        copies.append(document.clone_node(True))
except h.OutOfMemory:
    pass
finally:
    resource.setrlimit(resource.RLIMIT_AS, limits)
del copies
print("read", all_read() == before)
edits = {
    "append": lambda: first.append("x"),
    "set_attribute": lambda: first.set_attribute("a", "b"),
    "text_content": lambda: setattr(first, "text_content", "x"),
    "remove": bold.remove,
    "clone_node": first.clone_node,
    "create_element": lambda: document.create_element("p"),
    "undo": history.undo,
}
for name, edit in edits.items():
    try:
        edit()
        print(name, "was done")
    except h.OutOfMemory:
        pass
print("read", all_read() == before)
try:
    document.create_element(" ")
except h.OutOfMemory as fault:
    print(fault.name)
try:
    session.node(900000000)
except h.NoSuchObject as fault:
    print(fault.name)
other.document.append(other.document.create_element("p"))
print(h.html.serialize(other.document))
session.close()
try:
    first.text_content
except h.SessionClosed as fault:
    print(fault.name)
"""

LINES = """
import resource
import huckleport as h

session, limits, replies = h.Session(), resource.getrlimit(resource.RLIMIT_AS), []
line = b'["createText",0,"' + b"x" * 900000 + b'"]'
with open("/proc/self/statm") as it:
    room = int(it.read().split()[0]) * resource.getpagesize()
resource.setrlimit(resource.RLIMIT_AS, (room + (24 << 20), limits[1]))
refused = 0
while refused < 3:
    try:
        replies.append(session.line(line))
    except h.OutOfMemory:
        refused += 1
resource.setrlimit(resource.RLIMIT_AS, limits)
replies.append(session.line(line))
print(len(replies) > 2, replies == [b'{"ok":%d}\\n' % number for number in range(1, len(replies) + 1)])
"""

PASTE = """
import resource, sys
import huckleport as h

UNITS = int(sys.argv[1])
FURTHER = ['["appendData",2," more"]', '["setAttribute",1,"a","b"]', '["createElement",0,"p"]', '["appendChild",1,3]', '["replaceData",2,0,3,"x"]']
ASKED = ['["tree",0]', '["data",2]', '["range",0]', '["takeRecords",1]', '["nextNode",0]']


class Page:
    def __init__(self):
        self.session = h.Session()
        document = self.session.document
        self.root = document.append_child(document.create_element("root"))
        self.text = self.root.append_child(document.create_text_node("some text"))
        self.history, self.told = h.History(self.root), []
        self.observer = self.session.create_mutation_observer(lambda records, observer: self.told.extend(records))
        self.observer.observe(self.root, character_data_old_value=True, subtree=True)
        self.bookmark, self.iterator = document.create_range(), document.create_node_iterator(self.root)
        self.bookmark.select_node_contents(self.text)
        with self.history.group():
            self.text.insert_data(0, "here is ")
        self.session.notify()

    def state(self):
        notices, is_changed = self.session.notify(), self.history.commit()
        return self.text.data, h.xml.serialize(self.root), self.bookmark.end_offset, len(self.told), notices, is_changed, len(self.history._done)

    def replies(self):
        return [self.session.line(it.encode()) for it in FURTHER + [it for _ in range(40) for it in FURTHER[:2] + ASKED]]


def room():
    with open("/proc/self/statm") as it:
        return int(it.read().split()[0]) * resource.getpagesize()


def is_pasted(page, more):
    # Pastes with so much more memory than is taken now.
    limits = resource.getrlimit(resource.RLIMIT_AS)
    resource.setrlimit(resource.RLIMIT_AS, (room() + more, limits[1]))
    try:
        page.text.append_data(paste)
        return True
    except MemoryError as fault:
        kinds.add(type(fault))
        return False
    finally:
        resource.setrlimit(resource.RLIMIT_AS, limits)


paste, kinds, wrong = "x" * UNITS, set(), []
state, replies = Page().state(), Page().replies()
for more in range(0, 16 * UNITS, UNITS // 2):
    page = Page()
    if is_pasted(page, more):
        break
    if page.state() != state or page.replies() != replies:
        wrong.append(more)
print(kinds == {MemoryError, h.OutOfMemory}, wrong)
print(page.text.data == "here is some text" + paste, len(page.session.notify()), page.told[-1].old_value)
print(page.history.undo(), page.text.data, page.history.undo(), page.text.data, page.history.undo())
"""

PASTED = "True []\nTrue 2 here is some text\nTrue here is some text True some text False\n"
DUE = "read True\nread True\nout-of-memory\nno-such-object\n<p></p>\nclosed\n"


@unittest.skipUnless(importlib.util.find_spec("resource") and os.path.exists("/proc/self/statm"), "nothing bounds here how much memory is taken")
class Ended(unittest.TestCase):
    def test_ended(self):
        ran = subprocess.run([sys.executable, "-c", SOURCE], stdout=subprocess.PIPE, stderr=subprocess.STDOUT, universal_newlines=True)
        self.assertEqual(ran.stdout, DUE)

    def test_a_line_that_is_refused_memory_has_no_reply(self):
        ran = subprocess.run([sys.executable, "-c", LINES], stdout=subprocess.PIPE, stderr=subprocess.STDOUT, universal_newlines=True)
        self.assertEqual(ran.stdout, "True True\n")

    def test_a_paste_that_is_too_large_changes_nothing(self):
        """Whichever of its allocations is refused, the session goes on as one that was never asked, and history has no group of it."""
        units = 1 << (28 if os.environ.get("HUCKLEPORT_LARGE") == "1" else 24)
        ran = subprocess.run([sys.executable, "-c", PASTE, str(units)], stdout=subprocess.PIPE, stderr=subprocess.STDOUT, universal_newlines=True)
        self.assertEqual(ran.stdout, PASTED)


if __name__ == "__main__":
    unittest.main()
