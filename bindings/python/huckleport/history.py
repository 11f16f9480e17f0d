"""Undo and redo of groups of changes, with live ranges put back where they stood.

    history = huckleport.History(document)
    bookmark = history.keep(document.create_range())
    with history.group():
        text.delete_data(0, 5)
    history.undo()
"""

from __future__ import annotations

from contextlib import contextmanager
from typing import TYPE_CHECKING, Dict, Iterable, Iterator, List, NamedTuple, Optional, Tuple

from ._steps import Move, Orders, Restore, Setting, Step, arrived, single, steps_back, with_values
from .errors import Error, GroupIsOpen, NoSuchObject
from .nodes import Node
from .observers import MutationRecord
from .ranges import Range

if TYPE_CHECKING:
    from ._core import hp_ends

Place = Tuple[Node, int, Node, int]
Places = Dict[Range, Place]


class Group(NamedTuple):
    """Changes that are undone together: the steps that lead to its other side, and the places of ranges on this side and on that."""

    steps: List[Step]
    here: Places
    there: Places


def ends_now(ranges: Iterable[Range]) -> Dict[Range, hp_ends]:
    """The ends of ranges, without those that were released."""
    found = {}
    for it in ranges:
        try:
            found[it] = it._ends()
        except NoSuchObject:
            pass
    return found


def place(of: Range, ends: hp_ends) -> Place:
    """The place of a range with these ends."""
    node = of.session._node
    return node(ends.start), ends.start_offset, node(ends.end), ends.end_offset


def put_back(places: Places) -> None:
    """Sets ranges. One whose place is no more stays where the edits have left it."""
    for it, where in places.items():
        try:
            it.set_start(*where[:2])
            it.set_end(*where[2:])
        except Error:
            pass


class History:
    """Undoes and redoes changes below a node.

    It watches the node by an observer of its own. With the changes it puts back the ranges that it keeps: each to its place before the changes,
    unless it was set elsewhere since. Removed nodes must not be discarded while it may have to insert them again. It keeps at most ``limit``
    groups, and then forgets the oldest.
    """

    def __init__(self, root: Node, ranges: Iterable[Range] = (), limit: Optional[int] = None) -> None:
        self.root = root
        self.limit = limit
        self._records: List[MutationRecord] = []
        self._done: List[Group] = []
        self._undone: List[Group] = []
        self._ranges: List[Range] = list(ranges)
        self._depth = 0
        self._orders = Orders()
        self._orders.learn_anew(iter([root]))
        self._is_closed = False
        self._watches_outside = False
        self._observer = root.session.create_mutation_observer(lambda records, observer: self._see(records))
        self._watch(root)
        # The ends of all ranges that are kept, by numbers, and the places that they are.
        self._ends: Dict[Range, hp_ends] = {}
        self._places: Places = {}
        self._places = self._places_now()

    def keep(self, bookmark: Range) -> Range:
        """Keeps a range: undoing puts it back where it stood. Returns it."""
        self._ranges.append(bookmark)
        for it, ends in ends_now([bookmark]).items():
            self._ends = {**self._ends, it: ends}
            self._places = {**self._places, it: place(it, ends)}
        return bookmark

    def let_go(self, bookmark: Range) -> None:
        """Keeps a range no longer."""
        self._ranges = [it for it in self._ranges if it is not bookmark]

    @contextmanager
    def group(self) -> Iterator[None]:
        """What changes in a ``with`` of it, the places of ranges too, is undone together. Groups within a group are part of it."""
        self.commit()
        self._depth += 1
        try:
            yield
        finally:
            self._depth -= 1
            if self._depth == 0:
                self._close_group(True)

    def commit(self) -> bool:
        """Makes a group of what changed outside of a ``with`` since the last group. Returns whether anything did; within a ``with`` nothing does."""
        return self._depth == 0 and self._close_group(False)

    def _close_group(self, has_moves: bool) -> bool:
        """Makes a group of what changed. That a range was moved and nothing else changed is a group where the program asked for one."""
        records = self._take()
        before, self._places = self._places, self._places_now()
        is_moved = before is not self._places
        steps = self._steps(records) if records else []
        if not steps and not (is_moved and (has_moves or records)):
            return False
        self._done.append(Group(steps, self._places, before))
        self._undone.clear()
        self._keep_to_limit()
        return True

    def undo(self) -> bool:
        """Undoes the last group. Returns whether there was one. Where it can't be undone, tree and history stay as they are."""
        return self._step(self._done, self._undone)

    def redo(self) -> bool:
        """Redoes the group that was undone last. Returns whether there was one; there is none once something else has changed."""
        return self._step(self._undone, self._done)

    @property
    def can_undo(self) -> bool:
        """Whether there is a group to undo."""
        self.commit()
        return bool(self._done)

    @property
    def can_redo(self) -> bool:
        """Whether there is a group to do again."""
        self.commit()
        return bool(self._undone)

    def clear(self) -> None:
        """Forgets all groups, and what changed until now in one that is open."""
        self._close_group(False)
        self._done.clear()
        self._undone.clear()

    def close(self) -> None:
        """Watches no longer, and forgets all groups."""
        self._is_closed = True
        self._observer.disconnect()
        self._observer.callback = None
        self._records.clear()
        self._done.clear()
        self._undone.clear()

    # how it is done

    def _watch(self, node: Node) -> None:
        """Watches a node and all below it, unless it was discarded: then nothing changes in it any more."""
        try:
            self._observer.observe(node, child_list=True, character_data_old_value=True, attribute_old_value=True, subtree=True)
        except NoSuchObject:
            pass

    def _see(self, records: List[MutationRecord]) -> None:
        """Takes the records that ``notify`` delivers. That ends the watching of removed nodes, so each is watched by itself until its group ends."""
        self._records.extend(records)
        for it in self._outside(node for record in records for node in record.removed_nodes):
            self._watch(it)
            self._watches_outside = True

    def _outside(self, nodes: Iterable[Node]) -> List[Node]:
        """Those of some nodes that stand outside now, and were not discarded."""
        found = []
        for it in dict.fromkeys(nodes):
            try:
                found += [] if self.root.contains(it) else [it]
            except NoSuchObject:
                # (it can't be put back)
                pass
        return found

    def _take(self) -> List[MutationRecord]:
        """Takes what changed."""
        records = self._observer.take_records()
        if self._records:
            # (a callback that was interrupted is called again with the same records)
            told = set(map(id, self._records))
            records = self._records + [it for it in records if id(it) not in told]
            self._records = []
        if not self._is_closed and any(it.removed_nodes for it in records):
            self._watch_anew()
        return records

    def _watch_anew(self) -> None:
        """Watches nodes no longer that were taken out, for which more memory is taken at each change; until now their changes were seen."""
        if self._watches_outside:
            self._observer.disconnect()
            self._watches_outside = False
        self._watch(self.root)

    def _keep_to_limit(self) -> None:
        """Forgets the oldest groups beyond the limit, and now and then the orders of attributes that no group can ask for."""
        if self.limit is not None and len(self._done) > self.limit:
            del self._done[: len(self._done) - self.limit]
        if self._orders.is_stale:
            self._orders.learn_anew(self._nodes())

    def _nodes(self) -> Iterator[Node]:
        """The node that is watched, and those that groups move."""
        yield self.root
        moves = {it.node for group in (*self._done, *self._undone) for it in group.steps if isinstance(it, Move)}
        yield from moves

    def _places_now(self) -> Places:
        """Returns the places of all ranges that are kept; if none was moved, the same object as before."""
        found = ends_now(self._ranges)
        if found == self._ends:
            return self._places
        self._ends = found
        return {it: place(it, ends) for it, ends in found.items()}

    def _steps(self, records: List[MutationRecord]) -> List[Step]:
        """What undoes records."""
        steps = steps_back(self._orders.place(with_values(records)))
        for node in arrived(records):
            self._orders.learn(node)
        return self._left_outside(node for it in records for node in it.removed_nodes) + steps

    def _left_outside(self, nodes: Iterable[Node]) -> List[Step]:
        """What gives nodes that stand outside now what they have now, before they are put back."""
        return [Restore(it, it.tree()) for it in self._outside(nodes)]

    def _step(self, take: List[Group], give: List[Group]) -> bool:
        """Does the steps of a group, and gives those that lead back to the other list."""
        self.commit()
        if self._depth:
            raise GroupIsOpen(None, "", "a group of edits is open: leave its block first")
        if not take:
            return False
        group = take[-1]
        self._check(group)
        before = self._places
        moved = {it: where for it, where in group.there.items() if before.get(it) == group.here.get(it)}
        back = self._do(group.steps, before)
        put_back(moved)
        self._forget(back)
        outside = self._left_outside(it.node for it in back if isinstance(it, Move))
        give.append(Group(outside + back, group.there, group.here))
        take.pop()
        return True

    def _do(self, steps: List[Step], before: Places) -> List[Step]:
        """Does steps, and returns those that lead back. Where one can't be done, those that were are undone."""
        back: List[Step] = []
        try:
            for it in steps:
                back.append(it.do())
        except BaseException:
            for it in reversed(back):
                it.do()
            put_back(before)
            self._forget([])
            raise
        back.reverse()
        return back

    def _check(self, group: Group) -> None:
        """Asks for each node before anything is changed, so that one that was discarded leaves all as it is."""
        links = self.root._calls.links
        for number in {node.number for it in group.steps for node in it.nodes() if node is not None}:
            links(number)

    def _forget(self, steps: List[Step]) -> None:
        """Takes its own changes from what it watches."""
        self._take()
        self._places = self._places_now()
        for element in {it.node for it in single(steps) if isinstance(it, Setting)}:
            self._orders.read(element)
