"""What writing HTML and XML has in common. The extension module puts elements, attributes and Texts together."""

from __future__ import annotations

from typing import TYPE_CHECKING, Callable, Dict, NamedTuple, Optional, Set, Tuple

if TYPE_CHECKING:
    from .nodes import Node

# The standard's numbers of kinds.
INSTRUCTION, COMMENT = 7, 8

Table = Tuple[Optional[bytes], ...]


def table(escapes: Dict[str, str]) -> Table:
    """Returns the replacement of each character below 256, or None if it has none."""
    found = {character: text.encode() for character, text in escapes.items()}
    return tuple(found.get(chr(it)) for it in range(256))


class Style(NamedTuple):
    """How elements and Texts are written.

    ``text`` and ``value`` have the replacements of characters in Texts and in attributes. ``void`` has the names of elements without an end tag,
    ``plain`` those of elements whose Texts are written as they are. ``has_empty_tags`` says whether an element without children ends in its
    start tag.
    """

    text: Table
    value: Table
    void: Tuple[bytes, ...]
    plain: Tuple[bytes, ...]
    has_empty_tags: bool


class Markup(NamedTuple):
    """A tree as text, all names in it, the rows that a function has written, and whether there are units that XML may not have."""

    text: str
    names: Set[str]
    others: str
    is_doubtful: bool


def markup(node: Node, style: Style, is_plain: bool, write: Callable[..., str]) -> Markup:
    """A node and all below it. Rows that are neither elements nor Texts are written by a function."""
    parts, names, is_doubtful = node._calls.read_markup(node.number, *style, is_plain)
    others = [write(*it) for it in parts[1::2]]
    parts[1::2] = others
    return Markup("".join(parts), names, "".join(others), is_doubtful)
