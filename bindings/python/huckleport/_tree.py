"""Queries of a tree beside the standard's members: namespaces by their prefixes, and elements by their names or classes."""

from __future__ import annotations

from typing import TYPE_CHECKING, Iterator, List, Optional

if TYPE_CHECKING:
    from .nodes import Element, Node, ParentNode

XML = "http://www.w3.org/XML/1998/namespace"
XMLNS = "http://www.w3.org/2000/xmlns/"


def namespace_of(node: Optional[Node], prefix: Optional[str]) -> Optional[str]:
    """The namespace of a prefix, or of no prefix, as the declarations from an element upwards tell it."""
    if prefix in ("xml", "xmlns"):
        return XML if prefix == "xml" else XMLNS
    name = f"xmlns:{prefix}" if prefix else "xmlns"
    while node is not None and node.node_type == node.ELEMENT_NODE:
        found: Optional[str] = node.get_attribute(name)  # type: ignore[attr-defined]
        if found is not None:
            return found or None
        node = node.parent_node
    return None


def elements_named(node: ParentNode, names: List[str]) -> Iterator[Element]:
    """A node that is an element, and the elements below it, in tree order; with names those of them that have one of these."""
    from .nodes import Element

    own = [node] if isinstance(node, Element) else []
    for it in (*own, *node.descendants(Element)):
        if not names or it.tag_name in names:
            yield it


def elements_of_classes(node: ParentNode, names: List[str]) -> List[Element]:
    """The elements below a node whose ``class`` has each of some names."""
    from .nodes import Element

    found = list(node.descendants(Element))
    classes = node.session.attribute_of(found, "class")
    due = set(names)
    return [it for it, its in zip(found, classes) if due and its and due.issubset(its.split())]
