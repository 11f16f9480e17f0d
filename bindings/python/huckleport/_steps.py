"""The steps that undo what mutation records tell. Each is done, and gives the step that undoes it in turn."""

from __future__ import annotations

from typing import Dict, Iterator, List, NamedTuple, Optional, Set, Tuple, Union, cast

from .errors import NoSuchObject
from .nodes import CharacterData, Element, Node, Row
from .observers import MutationRecord
from .texts import utf16_length


class Move(NamedTuple):
    """A node comes under a parent, ahead of a child or as the last one; or it is taken out."""

    node: Node
    parent: Optional[Node]
    before: Optional[Node]

    def do(self) -> Step:
        """Moves the node. What undoes that puts it back where it stood, wherever that was."""
        above = self.node.parent_node
        back = Move(self.node, above, self.node.next_sibling)
        if self.parent is not None:
            self.parent.insert_before(self.node, self.before)
        elif above is not None:
            above.remove_child(self.node)
        return back

    def nodes(self) -> Tuple[Optional[Node], ...]:
        """The nodes that have to be there."""
        return self


class Splice(NamedTuple):
    """A part of a node's data is replaced: ``length`` UTF-16 units from an offset on."""

    node: CharacterData
    offset: int
    length: int
    text: str

    def do(self) -> Step:
        """Replaces the part alone, so that ranges in the rest stay where they are."""
        back = Splice(self.node, self.offset, utf16_length(self.text), self.node.substring_data(self.offset, self.length))
        self.node.replace_data(self.offset, self.length, self.text)
        return back

    def nodes(self) -> Tuple[Optional[Node], ...]:
        """The nodes that have to be there."""
        return (self.node,)


class Setting(NamedTuple):
    """An element gets an attribute, at an index where it is a new one, or loses it."""

    node: Element
    name: str
    value: Optional[str]
    at: Optional[int] = None

    def do(self) -> Step:
        """Sets the attribute or takes it out."""
        old = self.node.get_attribute(self.name)
        names = self.node.get_attribute_names() if self.value is None or self.at is not None else []
        if self.value is None:
            self.node.remove_attribute(self.name)
            return Setting(self.node, self.name, old, names.index(self.name) if self.name in names else None)
        self.node.set_attribute(self.name, self.value)
        if old is None and self.at is not None:
            self._put_last(names[self.at :])
        return Setting(self.node, self.name, old)

    def _put_last(self, names: List[str]) -> None:
        """Moves attributes behind the new one. They are removed and set again, since an element appends a new attribute."""
        for name in names:
            value = self.node.get_attribute(name) or ""
            self.node.remove_attribute(name)
            self.node.set_attribute(name, value)

    def nodes(self) -> Tuple[Optional[Node], ...]:
        """The nodes that have to be there."""
        return (self.node,)


class Restore(NamedTuple):
    """A tree that stands outside has again what it had when it was left there: no record tells what changed in it since."""

    node: Node
    rows: List[Row]

    def do(self) -> Step:
        """Makes the steps that are wanted, which most often are none."""
        rows = self.node.tree()
        return Several([] if rows == self.rows else steps_to(self.rows)).do()

    def nodes(self) -> Tuple[Optional[Node], ...]:
        """The nodes that have to be there."""
        return tuple(it.node for it in self.rows)


class Several(NamedTuple):
    """Steps that are done together."""

    steps: List[Step]

    def do(self) -> Step:
        """Does them one after the other; where one can't be done, those that were are undone."""
        back: List[Step] = []
        try:
            for it in self.steps:
                back.append(it.do())
        except BaseException:
            for it in reversed(back):
                it.do()
            raise
        back.reverse()
        return Several(back)

    def nodes(self) -> Tuple[Optional[Node], ...]:
        """The nodes that have to be there."""
        return tuple(node for it in self.steps for node in it.nodes())


Step = Union[Move, Splice, Setting, Restore, Several]


def children_due(rows: List[Row]) -> Dict[Node, List[Node]]:
    """The children of each node of a tree, by its rows."""
    found: Dict[Node, List[Node]] = {}
    above: List[Node] = []
    for it in rows:
        del above[it.depth :]
        if above:
            found[above[-1]].append(it.node)
        found[it.node] = []
        above.append(it.node)
    return found


def steps_to(rows: List[Row]) -> List[Step]:
    """What gives a tree these rows: all that stands elsewhere is taken out first, so that no node comes under itself."""
    due = children_due(rows)
    other = {parent: its for parent, its in due.items() if parent.child_nodes != its}
    out = [node for parent, its in other.items() for node in (*parent.child_nodes, *its)]
    found: List[Step] = [Move(it, None, None) for it in dict.fromkeys(out)]
    for parent, its in other.items():
        found += [Move(it, parent, None) for it in its]
    for row in rows:
        found += steps_to_row(row)
    return found


def steps_to_row(row: Row) -> List[Step]:
    """What gives a node the data and the attributes of a row."""
    if row.data is not None:
        node = cast(CharacterData, row.node)
        return [splice(node, node.data, row.data)] if node.data != row.data else []
    if not isinstance(row.node, Element) or tuple(row.node.attributes.items()) == row.attributes:
        return []
    found: List[Step] = [Setting(row.node, name, None) for name in row.node.get_attribute_names()]
    return found + [Setting(row.node, name, value) for name, value in row.attributes]


class Change(NamedTuple):
    """A record, and what it does not tell: the value after it, and the index at which a lost attribute stood."""

    record: MutationRecord
    new: Optional[str] = None
    at: Optional[int] = None


def value_now(node: Node, name: Optional[str]) -> Optional[str]:
    """The value of an attribute, or the data where no name is given. A node that was discarded has none."""
    try:
        return cast(CharacterData, node).data if name is None else cast(Element, node).get_attribute(name)
    except NoSuchObject:
        return None


def with_values(records: List[MutationRecord]) -> List[Change]:
    """Records with the values after them: each is the old value of the next record of its kind, and the last is the value of now."""
    after: Dict[Tuple[Node, Optional[str]], Optional[str]] = {}
    found: List[Change] = []
    for it in reversed(records):
        if it.type == "childList":
            found.append(Change(it))
            continue
        key = (it.target, it.attribute_name)
        found.append(Change(it, after[key] if key in after else value_now(*key)))
        after[key] = it.old_value
    found.reverse()
    return found


class Orders:
    """The order of the attributes of elements: no record has the index of a removed attribute.

    The keys are the numbers of elements, so that none is held. Elements with fewer than two attributes are not stored.
    """

    def __init__(self) -> None:
        self.known: Dict[int, List[str]] = {}
        self.learned = 0

    def learn(self, node: Node) -> None:
        """Stores the orders of a node and of all below it."""
        try:
            node._calls.read_orders(node.number, self.known)
        except NoSuchObject:
            pass

    def learn_anew(self, nodes: Iterator[Node]) -> None:
        """Learns these alone."""
        self.known.clear()
        for it in nodes:
            self.learn(it)
        self.learned = len(self.known)

    @property
    def is_stale(self) -> bool:
        """Whether most of the stored orders may be those of elements that are gone."""
        return len(self.known) > 2 * self.learned + 1000

    def read(self, element: Element) -> None:
        """Reads the order of an element as it is now."""
        self.known[element.number] = element.get_attribute_names()

    def place(self, changes: List[Change]) -> List[Change]:
        """Changes with the indices of attributes that were taken out, and the orders as they are after them."""
        found: List[Change] = []
        for at, it in enumerate(changes):
            if it.record.type != "attributes":
                found.append(it)
                continue
            name = it.record.attribute_name or ""
            order = self._order(it.record, changes, at)
            if it.record.old_value is None:
                order.append(name)
            elif it.new is None and name in order:
                it = it._replace(at=order.index(name))
                order.remove(name)
            found.append(it)
        return found

    def _order(self, record: MutationRecord, changes: List[Change], at: int) -> List[str]:
        """The order ahead of a change. Of an element that is not known it comes of the changes, since it had one attribute at most."""
        order = self.known.get(record.target.number)
        if order is None:
            order = self.known[record.target.number] = first_order(cast(Element, record.target), changes, at)
        return order


def first_order(element: Element, changes: List[Change], at: int) -> List[str]:
    """The attributes of an element ahead of changes that begin at a place: those of now without the new ones, and those that are gone."""
    first: Dict[str, bool] = {}
    for it in changes[at:]:
        if it.record.target is element and it.record.type == "attributes":
            first.setdefault(it.record.attribute_name or "", it.record.old_value is not None)
    try:
        now = element.get_attribute_names()
    except NoSuchObject:
        now = []
    return [it for it in now if first.get(it, True)] + [it for it, was_there in first.items() if was_there and it not in now]


def shared(one: str, other: str) -> int:
    """How many characters two texts share at their start."""
    low, high = 0, min(len(one), len(other))
    if one[:high] == other[:high]:
        return high
    while low < high:
        half = (low + high + 1) // 2
        low, high = (half, high) if one[low:half] == other[low:half] else (low, half - 1)
    return low


def splice(node: CharacterData, now: str, due: str) -> Splice:
    """What makes one text of another, by replacing what differs alone."""
    first = shared(now, due)
    last = shared(now[first:][::-1], due[first:][::-1])
    return Splice(node, utf16_length(now[:first]), utf16_length(now[first : len(now) - last]), due[first : len(due) - last])


def is_taken_amid(before: Optional[MutationRecord], record: MutationRecord) -> bool:
    """Whether a node was taken from its place amid the replacing that a record tells, and so by the record before it.

    To replace takes the child out first, and tells it last. Where the node stood beside the child it would be told as its sibling, had it been
    taken out ahead of the replacing.
    """
    if before is None or not record.added_nodes or not record.removed_nodes or before.type != "childList":
        return False
    if before.target is not record.target or before.added_nodes or before.removed_nodes != record.added_nodes:
        return False
    return before.previous_sibling not in record.removed_nodes and before.next_sibling not in record.removed_nodes


def back_children(record: MutationRecord, before: Optional[MutationRecord]) -> List[Step]:
    """What undoes a record of children. Where a node was taken from its place amid a replacing, that is undone with it."""
    found: List[Step] = [Move(it, None, None) for it in reversed(record.added_nodes)]
    behind = record.next_sibling
    if before is not None:
        node = before.removed_nodes[0]
        found.append(Move(node, before.target, before.next_sibling))
        if record.previous_sibling is not node and before.previous_sibling is record.previous_sibling:
            # (it stood behind the child)
            behind = node
    found += [Move(it, record.target, behind) for it in record.removed_nodes]
    return found


def back_value(change: Change) -> List[Step]:
    """What undoes a record of data or of an attribute; nothing where it changed nothing."""
    record, new = change.record, change.new
    if record.old_value == new:
        return []
    if record.type == "attributes":
        return [Setting(cast(Element, record.target), record.attribute_name or "", record.old_value, change.at)]
    # (of a node that was discarded nothing is known, and its step can't be done)
    return [splice(cast(CharacterData, record.target), record.old_value or "" if new is None else new, record.old_value or "")]


def steps_back(changes: List[Change]) -> List[Step]:
    """What undoes changes, in the order in which it is to be done: the last first."""
    found: List[Step] = []
    at = len(changes)
    while at:
        at -= 1
        record = changes[at].record
        if record.type != "childList":
            found += back_value(changes[at])
            continue
        before = changes[at - 1].record if at else None
        is_amid = is_taken_amid(before, record)
        found += back_children(record, before if is_amid else None)
        at -= is_amid
    return found


def arrived(records: List[MutationRecord]) -> List[Node]:
    """Returns the nodes that came in from outside: those inserted before they were removed, and those that came in below one of them."""
    first: Dict[Node, Optional[Node]] = {}
    for it in records:
        for node in it.removed_nodes:
            first.setdefault(node, it.target)
        for node in it.added_nodes:
            first.setdefault(node, None)
    found = {node for node, parent in first.items() if parent is None}
    left = {node: parent for node, parent in first.items() if parent is not None}
    is_growing = bool(found)
    while is_growing:
        below = {node for node, parent in left.items() if is_below(parent, found)}
        is_growing = bool(below)
        found |= below
        left = {node: parent for node, parent in left.items() if node not in below}
    return [node for node in first if node in found]


def is_below(node: Optional[Node], nodes: Set[Node]) -> bool:
    """Checks whether a node is one of some nodes, or has one of them above it."""
    try:
        while node is not None and node not in nodes:
            node = node.parent_node
    except NoSuchObject:
        return False
    return node is not None


def single(steps: List[Step]) -> Iterator[Step]:
    """Steps, with those that are done together one by one."""
    for it in steps:
        if isinstance(it, Several):
            yield from single(it.steps)
        else:
            yield it
