"""Random edits of nodes that stand in a tree or outside of it, in two documents, amid notices and callbacks that edit."""
import contextlib

import huckleport as h
from tests.editing import Editor, seen


class Refused(Exception):
    """What a group ends with."""


class Wanderer(Editor):
    """Edits the nodes below a root, and those that were taken out. Observers are notified now and then, and some of their callbacks edit."""

    def __init__(self, document, root, ranges, seed):
        super().__init__(document, root, ranges, seed)
        self.other = document.session.create_document()
        self.known = list(root.descendants())
        self.observers = []
        self.has_group = True

    def mark(self):
        """A range is set where it is to be found again: below the root."""
        found, start, end = self.picked.choice(self.ranges), super().pick(h.Node), super().pick(h.Node)
        found.set_start(start, self.picked.randint(0, start.length))
        found.set_end(end, self.picked.randint(0, end.length))

    def outside(self, kind):
        found = (it for it in self.known if not self.root.contains(it))
        return [it for it in found if isinstance(it, kind)]

    def pick(self, kind):
        """A node below the root, or now and then one that stands outside."""
        outside = self.outside(kind) if self.picked.random() < 0.3 else []
        return self.picked.choice(outside) if outside else super().pick(kind)

    def edit(self):
        """Makes an edit. A refused one has changed nothing."""
        name = self.picked.choice(EDITS)
        if name in OF_RANGES and not self.has_group:
            return
        with contextlib.suppress(h.DOMException, AttributeError):
            getattr(self, name)()
        if self.root.parent_node is not self.document:
            self.document.replace_children(self.root)
        self.known += [it for it in self.root.descendants() if it not in self.known]

    def back(self):
        """Inserts a node from outside again, or another one anew."""
        outside = self.outside(h.ChildNode)
        node = self.picked.choice(outside) if outside else super().pick(h.ChildNode)
        parent = super().pick(h.Element)
        parent.insert_before(node, self.picked.choice([*parent.child_nodes, None]))

    def again(self):
        """Inserts a new node, and puts it in its place again."""
        node, parent = self.document.create_element("again"), super().pick(h.Element)
        for name in "abc":
            node.set_attribute(name, "1")
        parent.append_child(node)
        parent.append_child(node)

    def out(self):
        found = super().pick(h.ChildNode)
        if found is not self.root:
            found.remove()

    def abroad(self):
        """A node goes to another document, or under one that stands outside."""
        found, outside = super().pick(h.ChildNode), self.outside(h.Element)
        if found is self.root:
            return
        if outside and self.picked.random() < 0.5:
            self.picked.choice(outside).append_child(found)
        else:
            self.other.adopt_node(found)

    def order(self):
        """An attribute goes to the end."""
        found, name = self.pick(h.Element), self.picked.choice("abc")
        value = found.get_attribute(name)
        found.remove_attribute(name)
        found.set_attribute(name, value or "0")

    def notify(self):
        self.document.session.notify()

    def observe(self):
        """Makes an observer that edits when it is notified, or ends one."""
        if len(self.observers) > 3:
            it = self.observers.pop(0)
            self.picked.choice((it.disconnect, it.release))()
            return
        left = [self.picked.randint(0, 2)]

        def callback(records, observer):
            while left[0]:
                left[0] -= 1
                self.edit()

        self.observers.append(self.document.session.create_mutation_observer(callback))
        self.observers[-1].observe(self.pick(h.Node), subtree=True, child_list=True, attributes=True, character_data=True)


EDITS = (
    "put put_several remove move swap wrap replace replace_all content extract insert empty text split join attribute attribute cut mark"
    " back back back again out out abroad order order notify notify notify observe both".split()
)
# What may set a range and change nothing else, which is a group where a program asks for one alone.
OF_RANGES = ("mark", "cut", "extract", "insert")


def history_of(session, document, seed, groups=4):
    """Makes a history of random groups; some are nested, and some end with an exception. Returns it, its editor, the states after each, and its ranges."""
    root = document.append_child(document.create_element("root"))
    for child in (document.create_element("x"), "some text", document.create_element("y")):
        root.append(child)
    root.first_child.append("in it", document.create_element("z"))
    for at, it in enumerate(root.descendants(h.Element)):
        for name in "cab"[at % 3 :]:
            it.set_attribute(name, "1")
    ranges = [document.create_range() for _ in range(2)]
    editor = Wanderer(document, root, ranges, seed)
    for _ in ranges:
        editor.mark()
    history = h.History(document, ranges)
    states = [seen(document, ranges)]
    for _ in range(groups):
        make_group(history, editor)
        states.append(seen(document, ranges))
        if editor.picked.random() < 0.3:
            editor.has_group = False
            session.notify()
            history.commit()
            editor.has_group = True
            states.append(seen(document, ranges))
    return history, editor, states, ranges


def make_group(history, editor):
    """A group of edits, with a group in it or an exception at its end."""
    how = editor.picked.random()
    with contextlib.suppress(Refused), history.group():
        for _ in range(editor.picked.randint(1, 4)):
            editor.edit()
        if how < 0.3:
            with history.group():
                editor.edit()
            editor.edit()
        if how > 0.8:
            raise Refused


class Wrong(Exception):
    """A history that led to something else than it should."""


def steps(step, look, states, seed):
    """Goes from state to state. What shows nowhere (in a node that stands outside before and after) leaves the state before."""
    at = 0
    while step():
        now = look()
        while at + 1 < len(states) and now != states[at]:
            at += 1
        if now != states[at]:
            raise Wrong(f"the history of seed {seed} leads to {now}, and not to {states[at]}")
    if look() != states[-1]:
        raise Wrong(f"the history of seed {seed} ends with {look()}, and not with {states[-1]}")


def there_and_back(session, seed):
    """Makes the history of a seed in a session, undoes all of it, does it again and undoes it once more."""
    history, editor, states, ranges = history_of(session, session.document, seed)
    for step, due in ((history.undo, states[::-1]), (history.redo, states), (history.undo, states[::-1])):
        steps(step, lambda: seen(session.document, ranges), due, seed)
    leave(history, editor)


def try_histories(first, count, tell=lambda done: None):
    """Tries the histories of ``count`` seeds from one on, some of them in one session. Returns the seeds of those that were wrong, with the errors."""
    wrong = []
    for seed in range(first, first + count):
        if (seed - first) % 200 == 0:
            session = h.Session()
            tell(seed - first)
        try:
            there_and_back(session, seed)
        except Exception as fault:
            wrong.append((seed, fault))
            session = h.Session()
    return wrong


def leave(history, editor):
    """Frees all of a history."""
    history.close()
    for it in editor.observers:
        it.release()
    editor.root.remove()
