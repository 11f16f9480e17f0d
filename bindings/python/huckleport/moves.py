"""Moving a node with the bookmarks in it. The standard moves a node by taking it out and putting it in, and ranges in it collapse then."""

from __future__ import annotations

from typing import Iterable, List, Optional, Tuple, TypeVar

from .nodes import DocumentFragment, Node
from .ranges import Range

N = TypeVar("N", bound=Node)

# What sets an end of a range to a point, and the point.
End = Tuple[Range, bool, Node, int]


def _moves_with(node: Node, container: Node) -> bool:
    """Whether a container moves with a node. A fragment stays where it is."""
    return node.contains(container) and not (container is node and isinstance(node, DocumentFragment))


def _ends_in(node: Node, ranges: Iterable[Range]) -> List[End]:
    """The ends of ranges that stand in a node or below it."""
    found: List[End] = []
    for it in ranges:
        ends = ((False, it.start_container, it.start_offset), (True, it.end_container, it.end_offset))
        found += [(it, is_end, container, offset) for is_end, container, offset in ends if _moves_with(node, container)]
    return found


def move(node: N, parent: Node, before: Optional[Node] = None, keep: Iterable[Range] = ()) -> N:
    """Puts a node under a parent, before a child or behind the last, and returns it. Ranges that are kept move with it.

    An end of such a range that stands in the node stays where it is in it; one elsewhere goes as with ``insert_before``. Where only one end
    is in the node and would then stand on the wrong side of the other, the range collapses to it.
    """
    ends = _ends_in(node, keep)
    parent.insert_before(node, before)
    for it, is_end, container, offset in ends:
        (it.set_end if is_end else it.set_start)(container, offset)
    return node
