"""Node iterators and tree walkers. A filter is a list of rules, a name and a verdict each; the first that fits decides."""

from __future__ import annotations

from typing import TYPE_CHECKING, Iterator, List, Optional, Sequence, Tuple

from ._calls import InCore, quick
from .nodes import Node
from .objects import SessionObject, maybe

if TYPE_CHECKING:
    from ._core import hp_iterator_at, hp_walker_at

Filter = Sequence[Tuple[str, int]]


class NodeFilter:
    """The standard's numbers of verdicts, and its bits for the kinds that are shown."""

    FILTER_ACCEPT = 1
    FILTER_REJECT = 2
    FILTER_SKIP = 3

    SHOW_ALL = 0xFFFFFFFF
    SHOW_ELEMENT = 0x1
    SHOW_TEXT = 0x4
    SHOW_PROCESSING_INSTRUCTION = 0x40
    SHOW_COMMENT = 0x80
    SHOW_DOCUMENT = 0x100
    SHOW_DOCUMENT_TYPE = 0x200
    SHOW_DOCUMENT_FRAGMENT = 0x400


def names(given: Sequence[str]) -> Tuple[bytes, List[int]]:
    """Names one after the other, and the length of each."""
    found = [str.encode(it, "utf-8", "surrogatepass") for it in given]
    return b"".join(found), [len(it) for it in found]


def rules(given: Filter) -> Tuple[bytes, List[int], bytes]:
    """A filter as the library takes it."""
    return (*names([name for name, _ in given]), bytes(verdict for _, verdict in given))


@quick
class NodeIterator(SessionObject):
    """Goes through a tree in tree order, and gives way to removals. It can stand in a ``for``."""

    __slots__ = ()
    _family = 3

    def _place(self) -> hp_iterator_at:
        return self._calls.iterator(self.number)

    @property
    def root(self) -> Node:
        """The node that it does not leave."""
        return self.session._node(self._place().root)

    @property
    def reference_node(self) -> Node:
        """The node beside which it stands."""
        return self.session._node(self._place().reference)

    @property
    def pointer_before_reference_node(self) -> bool:
        """Whether it stands before that node."""
        return self._place().is_before != 0

    def next_node(self) -> Optional[Node]:
        """Moves on, and returns the node, or None at the end."""
        raise InCore

    def previous_node(self) -> Optional[Node]:
        """Moves back, and returns the node, or None at the start."""
        raise InCore

    def __iter__(self) -> Iterator[Node]:
        return self

    def __next__(self) -> Node:
        found = self.next_node()
        if found is None:
            raise StopIteration
        return found

    def _said(self) -> str:
        place = self._place()
        return f"of {place.root}, {'before' if place.is_before else 'after'} {place.reference}"

    def release(self) -> None:
        """Releases the iterator, so that removals no longer move it, and it keeps no tree."""
        raise InCore


class TreeWalker(SessionObject):
    """Walks about in a tree by moves."""

    __slots__ = ()
    _family = 4

    def _place(self) -> hp_walker_at:
        return self._calls.walker(self.number)

    def _walk(self, direction: int) -> Optional[Node]:
        found = maybe(self._calls.walk(self.number, direction))
        return None if found is None else self.session._node(found)

    @property
    def root(self) -> Node:
        """The node that it does not leave."""
        return self.session._node(self._place().root)

    @property
    def current_node(self) -> Node:
        """Where it stands; it can be set."""
        return self.session._node(self._place().current)

    @current_node.setter
    def current_node(self, node: Node) -> None:
        self._calls.set_current(self.number, self._of(node, Node))

    # The directions by the numbers of hp_walk.

    def parent_node(self) -> Optional[Node]:
        """Moves up, and returns the node, or None and stays."""
        return self._walk(0)

    def first_child(self) -> Optional[Node]:
        """Moves to the first child that is accepted."""
        return self._walk(1)

    def last_child(self) -> Optional[Node]:
        """Moves to the last child that is accepted."""
        return self._walk(2)

    def previous_sibling(self) -> Optional[Node]:
        """Moves to the sibling before."""
        return self._walk(3)

    def next_sibling(self) -> Optional[Node]:
        """Moves to the sibling behind."""
        return self._walk(4)

    def previous_node(self) -> Optional[Node]:
        """Moves back in tree order."""
        return self._walk(5)

    def next_node(self) -> Optional[Node]:
        """Moves on in tree order."""
        return self._walk(6)

    def _said(self) -> str:
        place = self._place()
        return f"of {place.root}, at {place.current}"

    def release(self) -> None:
        """Releases the walker, so that it keeps no tree."""
        self._calls.release_walker(self.number)
