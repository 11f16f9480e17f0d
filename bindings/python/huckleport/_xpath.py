"""XPath 1.0 by elementpath, over a tree of Python's own ElementTree that is made of the nodes."""

from __future__ import annotations

from importlib import import_module
from typing import Any, Dict, List, Optional
from xml.etree import ElementTree

from .errors import BadValue, NoParser
from .nodes import CharacterData, Comment, Element, Node, ProcessingInstruction, Text

MISSING = "XPath is evaluated by elementpath, which is not here: pip install elementpath (or huckleport[xpath])"
XML = "http://www.w3.org/XML/1998/namespace"

try:
    elementpath: Any = import_module("elementpath")
except ImportError as fault:
    raise NoParser(None, "xpath", MISSING) from fault

# The namespaces in scope, by their prefixes.
Scope = Dict[str, str]


def in_scope(element: Element, outer: Scope) -> Scope:
    """The namespaces in scope at an element."""
    found = dict(outer)
    for name, value in element.attributes.items():
        if name == "xmlns" or name.startswith("xmlns:"):
            found[name[6:]] = value
    return found


def expanded(name: str, scope: Scope, default: str = "") -> str:
    """A name with its namespace in place of its prefix. A prefix that is not declared stays."""
    prefix, colon, local = name.partition(":")
    space = scope.get(prefix) if colon else default
    return f"{{{space}}}{local if colon else name}" if space else name


class Shadow:
    """A tree of ElementTree made of nodes, which tells the node of each element."""

    def __init__(self, root: Node) -> None:
        self.nodes: Dict[Any, Node] = {}
        self.made: Dict[Node, Any] = {}
        # Where a Text goes that comes next.
        self.top = self.last = ElementTree.Element("top")
        self.is_tail = False
        self.put(root, self.top, {"xml": XML})

    def put(self, root: Node, under: Any, scope: Scope) -> None:
        """Puts a node and all below it under an element of the shadow. (A stack, since trees may be deep.)"""
        waiting: List[Any] = [(root, under, scope)]
        while waiting:
            node, above, outer = waiting.pop()
            if isinstance(node, CharacterData):
                self.put_data(node, above)
                continue
            inner, it = outer, above
            if isinstance(node, Element):
                inner = in_scope(node, outer)
                it = self.put_element(node, above, inner)
            waiting += [(child, it, inner) for child in reversed(node.child_nodes)]

    def put_element(self, node: Element, above: Any, scope: Scope) -> Any:
        """Puts an element without its children."""
        attributes = {expanded(name, scope): value for name, value in node.attributes.items() if not (name + ":").startswith("xmlns:")}
        it = ElementTree.SubElement(above, expanded(node.tag_name, scope, scope.get("", "")), attributes)
        self.nodes[it], self.made[node] = node, it
        return it

    def put_data(self, node: CharacterData, above: Any) -> None:
        """Puts a Text, a comment or an instruction."""
        if isinstance(node, Text):
            last = above[-1] if len(above) else None
            if last is None:
                above.text = (above.text or "") + node.data
            else:
                last.tail = (last.tail or "") + node.data
            return
        it = ElementTree.Comment(node.data) if isinstance(node, Comment) else ElementTree.ProcessingInstruction(
            node.target if isinstance(node, ProcessingInstruction) else "", node.data
        )
        above.append(it)
        self.nodes[it], self.made[node] = node, it


def xpath(node: Node, path: str, namespaces: Optional[Dict[str, str]]) -> Any:
    """What a path gives at a node: nodes of the package, and texts, numbers and truths."""
    root = node.get_root_node()
    shadow = Shadow(root)
    tops = [it for it in shadow.top if isinstance(it.tag, str)]
    if not tops:
        return []
    is_whole = isinstance(root, Element) or len(tops) == 1
    tree = ElementTree.ElementTree(tops[0]) if is_whole and not isinstance(root, Element) else tops[0] if is_whole else shadow.top
    try:
        found = elementpath.select(tree, path, namespaces, elementpath.XPath1Parser, item=shadow.made.get(node))
    except elementpath.ElementPathError as fault:
        raise BadValue(None, "xpath", f"{path!r}: {fault}") from None
    if not isinstance(found, list):
        return found
    shadow.nodes[tree] = root
    return [shadow.nodes[it] if hasattr(it, "tag") or hasattr(it, "getroot") else it for it in found]
