"""Live ranges and static ranges."""

from __future__ import annotations

from typing import TYPE_CHECKING, List, Union

from . import _signatures as made
from ._calls import InCore, quick
from .errors import Error
from .nodes import DocumentFragment, Node
from .objects import SessionObject

if TYPE_CHECKING:
    from ._core import hp_ends, hp_static_ends


class AbstractRange(SessionObject):
    """Two boundary points: each a node and an offset."""

    __slots__ = ()

    def _ends(self) -> Union[hp_ends, hp_static_ends]:
        raise NotImplementedError

    @property
    def start_container(self) -> Node:
        """The node of its start."""
        return self.session._node(self._ends().start)

    @property
    def start_offset(self) -> int:
        """Where in that node it starts: UTF-16 units or children."""
        return self._ends().start_offset

    @property
    def end_container(self) -> Node:
        """The node of its end."""
        return self.session._node(self._ends().end)

    @property
    def end_offset(self) -> int:
        """Where in that node it ends."""
        return self._ends().end_offset

    @property
    def collapsed(self) -> bool:
        """Whether both ends are one point."""
        ends = self._ends()
        return (ends.start, ends.start_offset) == (ends.end, ends.end_offset)

    def _said(self) -> str:
        ends = self._ends()
        return f"({ends.start}, {ends.start_offset})-({ends.end}, {ends.end_offset})"


@quick
class Range(AbstractRange):
    """A live range: its ends move with the edits of the tree. ``str`` gives its text."""

    __slots__ = ()
    _family = 1

    START_TO_START = 0
    START_TO_END = 1
    END_TO_END = 2
    END_TO_START = 3

    def _ends(self) -> hp_ends:
        return self._calls.range(self.number)

    @property
    def common_ancestor_container(self) -> Node:
        """The deepest node that both ends are in."""
        return self.session._node(self._calls.common_ancestor(self.number))

    def set_start(self, node: Node, offset: int) -> None:
        """Sets the start; the end goes there too where it would stand before it."""
        raise InCore

    def set_end(self, node: Node, offset: int) -> None:
        """Sets the end; the start goes there too where it would stand behind it."""
        raise InCore

    def set_start_before(self, node: Node) -> None:
        """Sets the start before a node."""
        self._calls.set_start_before(self.number, self._of(node, Node))

    def set_start_after(self, node: Node) -> None:
        """Sets the start behind a node."""
        self._calls.set_start_after(self.number, self._of(node, Node))

    def set_end_before(self, node: Node) -> None:
        """Sets the end before a node."""
        self._calls.set_end_before(self.number, self._of(node, Node))

    def set_end_after(self, node: Node) -> None:
        """Sets the end behind a node."""
        self._calls.set_end_after(self.number, self._of(node, Node))

    def collapse(self, to_start: bool = False) -> None:
        """Moves one end to the other: the start to the end, or as ``to_start`` says."""
        self._calls.collapse(self.number, to_start)

    def select_node(self, node: Node) -> None:
        """Sets the ends around a node."""
        raise InCore

    def select_node_contents(self, node: Node) -> None:
        """Sets the ends around what a node has."""
        raise InCore

    def compare_boundary_points(self, how: int, source_range: Range) -> int:
        """-1, 0 or 1: how an end of this one stands to an end of the other, as ``Range.START_TO_END`` says."""
        return self._calls.compare_boundary_points(self.number, how, self._of(source_range, Range))

    def compare_point(self, node: Node, offset: int) -> int:
        """-1 before it, 0 in it, 1 behind it."""
        return self._calls.compare_point(self.number, self._of(node, Node), offset)

    def is_point_in_range(self, node: Node, offset: int) -> bool:
        """Whether a point is in it."""
        raise InCore

    def intersects_node(self, node: Node) -> bool:
        """Whether a part of a node is in it."""
        raise InCore

    def clone_range(self) -> Range:
        """A new live range with the same ends."""
        return self.session._make(Range, self._calls.clone_range(self.number))

    def _behind(self, node: int, offset: int) -> int:
        """The first node behind a point in tree order, or none; behind all that a node has where no child stands at the offset."""
        links = self._calls.links(node)
        if offset < links.children:
            return self._calls.child_at(node, offset)
        while links.next == made.HP_NONE and links.parent != made.HP_NONE:
            links = self._calls.links(links.parent)
        return links.next

    def _contents(self) -> List[int]:
        """The nodes that are in it whole, without those below them. Of a range that is no more there are none."""
        try:
            ends = self._ends()
        except Error:
            return []
        found: List[int] = []
        over, at = {made.HP_NONE}, ends.end
        while at not in over:
            over.add(at)
            at = self._calls.links(at).parent
        at, end = self._behind(ends.start, ends.start_offset), self._behind(ends.end, ends.end_offset)
        while at not in (end, made.HP_NONE):
            if at not in over:
                found.append(at)
            at = self._behind(at, 0 if at in over else made.HP_NONE)
        return found

    def delete_contents(self) -> None:
        """Deletes its contents."""
        contents = self._contents()
        self._calls.delete_contents(self.number)
        self._calls.note(contents)

    def extract_contents(self) -> DocumentFragment:
        """Moves its contents into a new fragment, and returns the fragment."""
        return self.session._make(DocumentFragment, self._calls.extract_contents(self.number))

    def clone_contents(self) -> DocumentFragment:
        """Copies its contents into a new fragment, and returns the fragment."""
        return self.session._make(DocumentFragment, self._calls.clone_contents(self.number))

    def insert_node(self, node: Node) -> None:
        """Puts a node in at its start."""
        self._calls.insert_node(self.number, self._of(node, Node))

    def surround_contents(self, new_parent: Node) -> None:
        """Moves its contents into a node, and inserts the node in their place."""
        parent, children = self._of(new_parent, Node), new_parent._children()
        self._calls.surround_contents(self.number, parent)
        self._calls.note(children)

    def release(self) -> None:
        """Releases the range, so that edits no longer move it."""
        raise InCore

    def __str__(self) -> str:
        return self._calls.read_range_text(self.number)


class StaticRange(AbstractRange):
    """A range that stays as it was made."""

    __slots__ = ()
    _family = 2

    def _ends(self) -> hp_static_ends:
        return self._calls.static_range(self.number)

    @property
    def is_valid(self) -> bool:
        """Whether it is valid in the standard's sense now."""
        return self._ends().is_valid != 0

    def release(self) -> None:
        """Releases the range, so that it keeps no tree."""
        self._calls.release_static_range(self.number)
