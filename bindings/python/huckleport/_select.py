"""Selectors of CSS by soupsieve: its matcher, which finds its way among nodes of the package."""

from __future__ import annotations

from importlib import import_module
from itertools import islice
from typing import Any, Dict, Iterator, List, Optional, Union

from .errors import BadValue, NoParser
from .nodes import Comment, Element, Node, ParentNode, Text

MISSING = "selectors are matched by soupsieve, which is not here: pip install soupsieve beautifulsoup4 (or huckleport[css])"

try:
    sieve: Any = import_module("soupsieve")
    css_match: Any = import_module("soupsieve.css_match")
except ImportError as fault:
    raise NoParser(None, "select", MISSING) from fault

XHTML = "http://www.w3.org/1999/xhtml"
Given = Union[Node, str, Any]


class Aside(str):
    """A node that is neither an element nor a Text, among the contents of another."""


def said(node: Node) -> Given:
    """A node among contents: an element as it is, a Text as its data."""
    if isinstance(node, Element):
        return node
    return node.data if isinstance(node, Text) else Aside(node.data if isinstance(node, Comment) else "")


class Family:
    """The parent of an element while the element is counted among its siblings."""

    def __init__(self, parent: Node) -> None:
        self.contents = [said(it) for it in parent.child_nodes]

    def __len__(self) -> int:
        return len(self.contents)


class Match(css_match.CSSMatch):  # type: ignore[misc]
    """The matcher of soupsieve over nodes of the package, in whose place it has those of BeautifulSoup."""

    # The element that is counted among its siblings.
    counted: Optional[Element] = None

    @classmethod
    def assert_valid_input(cls, tag: Any) -> None:
        """(Every node that may have children is.)"""

    @staticmethod
    def is_doc(obj: Any) -> bool:
        return isinstance(obj, ParentNode) and not isinstance(obj, Element)

    @staticmethod
    def is_tag(obj: Any) -> bool:
        return isinstance(obj, Element)

    @staticmethod
    def is_cdata(obj: Any) -> bool:
        return False

    @staticmethod
    def is_navigable_string(obj: Any) -> bool:
        return isinstance(obj, str)

    @staticmethod
    def is_special_string(obj: Any) -> bool:
        return isinstance(obj, Aside)

    @staticmethod
    def is_xml_tree(el: Any) -> bool:
        return isinstance(el, Node) and not is_html(el)

    def is_iframe(self, el: Any) -> bool:
        return isinstance(el, Element) and el.local_name == "iframe" and bool(self.is_html_tag(el))

    def get_contents(self, el: Any, no_iframe: bool = False) -> Iterator[Given]:
        if not no_iframe or not self.is_iframe(el):
            yield from map(said, el.child_nodes) if isinstance(el, Node) else el.contents

    def get_children(self, el: Any, start: Optional[int] = None, reverse: bool = False, tags: bool = True, no_iframe: bool = False) -> Iterator[Given]:
        found = list(self.get_contents(el, no_iframe))
        first = (len(found) - 1 if reverse else 0) if start is None else start
        ordered = found[first::-1] if reverse else found[first:]
        yield from (it for it in ordered if not tags or isinstance(it, Element)) if 0 <= first < len(found) else ()

    def get_descendants(self, el: Any, tags: bool = True, no_iframe: bool = False) -> Iterator[Given]:
        if no_iframe and self.is_iframe(el):
            return
        within: Optional[Node] = None
        for it in el.descendants(Element if tags else None):
            if no_iframe and within is not None and within.contains(it):
                continue
            within = it if no_iframe and self.is_iframe(it) else None
            yield it if tags else said(it)

    def get_parent(self, el: Any, no_iframe: bool = False) -> Any:
        found = el.parent_node
        if found is None or (no_iframe and self.is_iframe(found)):
            return None
        return Family(found) if el is self.counted else found

    @staticmethod
    def get_tag_name(el: Any) -> Optional[str]:
        return el.local_name if isinstance(el, Element) else None

    @staticmethod
    def get_prefix_name(el: Any) -> Optional[str]:
        return el.prefix if isinstance(el, Element) else None

    @staticmethod
    def get_uri(el: Any) -> Optional[str]:
        return el.namespace_uri if isinstance(el, Element) else None

    @classmethod
    def get_next(cls, el: Any, tags: bool = True) -> Any:
        return el.next_element_sibling if tags else el.next_sibling

    @classmethod
    def get_previous(cls, el: Any, tags: bool = True) -> Any:
        return el.previous_element_sibling if tags else el.previous_sibling

    @staticmethod
    def has_html_ns(el: Any) -> bool:
        return isinstance(el, Element) and el.namespace_uri == XHTML

    @staticmethod
    def split_namespace(el: Any, attr_name: str) -> Any:
        prefix, colon, name = attr_name.rpartition(":")
        return (el.lookup_namespace_uri(prefix), name) if colon else (None, None)

    @classmethod
    def get_attribute_by_name(cls, el: Any, name: str, default: Any = None) -> Any:
        found = el.get_attribute(name) if isinstance(el, Element) else None
        return default if found is None else found

    @classmethod
    def iter_attributes(cls, el: Any) -> Iterator[Any]:
        yield from el.attributes.items() if isinstance(el, Element) else ()

    def get_text(self, el: Any, no_iframe: bool = False) -> str:
        return "".join(it for it in self.get_descendants(el, False, no_iframe) if isinstance(it, str) and not isinstance(it, Aside))

    def get_own_text(self, el: Any, no_iframe: bool = False) -> List[str]:
        return [it for it in self.get_contents(el, no_iframe) if isinstance(it, str) and not isinstance(it, Aside)]

    def match_nth(self, el: Any, nth: Any) -> bool:
        self.counted = el
        try:
            return bool(super().match_nth(el, nth))
        finally:
            self.counted = None

    def match_selectors(self, el: Any, selectors: Any) -> bool:
        counted, self.counted = self.counted, None
        try:
            return isinstance(el, Element) and bool(super().match_selectors(el, selectors))
        finally:
            self.counted = counted


def is_html(node: Node) -> bool:
    """Returns whether names are compared without regard to case: if the document's element is ``html`` without a namespace, or there is none."""
    root = node.node_document.document_element
    return root is None or (root.tag_name.lower() == "html" and not root.has_attribute("xmlns"))


def matcher(node: ParentNode, selectors: str, namespaces: Optional[Dict[str, str]]) -> Any:
    """What matches selectors for a node. Selectors that are none are refused."""
    try:
        found = sieve.compile(selectors, namespaces)
    except (sieve.SelectorSyntaxError, NotImplementedError, TypeError, ValueError) as fault:
        raise BadValue(None, "select", f"{selectors!r} is not a valid selector: {str(fault).splitlines()[0]}") from None
    return Match(found.selectors, node, found.namespaces, found.flags)


def select(node: ParentNode, selectors: str, namespaces: Optional[Dict[str, str]], limit: int) -> List[Element]:
    """The elements below a node that match, in tree order."""
    found = matcher(node, selectors, namespaces)
    matching = (it for it in node.descendants(Element) if found.match(it))
    return list(islice(matching, limit) if limit else matching)


def matches(element: Element, selectors: str, namespaces: Optional[Dict[str, str]]) -> bool:
    """Whether an element matches."""
    return bool(matcher(element, selectors, namespaces).match(element))


def closest(element: Element, selectors: str, namespaces: Optional[Dict[str, str]]) -> Optional[Element]:
    """The element or the nearest above it that matches."""
    found = matcher(element, selectors, namespaces)
    it: Optional[Node] = element
    while it is not None and not found.match(it):
        it = it.parent_node
    return it if isinstance(it, Element) else None
