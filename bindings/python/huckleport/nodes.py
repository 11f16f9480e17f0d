"""Nodes: the standard's interfaces in Python's spelling, and each a call of the library."""

from __future__ import annotations

from typing import TYPE_CHECKING, Any, Dict, Iterator, List, NamedTuple, Optional, Tuple, Type, TypeVar, Union, overload

from . import _tree
from ._calls import InCore, quick
from .attributes import Attributes
from .errors import Error
from .objects import SessionObject, maybe

if TYPE_CHECKING:
    from ._core import hp_node_links
    from .documents import Document

N = TypeVar("N", bound="Node")


class Row(NamedTuple):
    """A node of a tree with what it has: the name of an element or doctype or the target of an instruction, attributes, data, ids."""

    depth: int
    node: Node
    name: Optional[str]
    attributes: Tuple[Tuple[str, str], ...]
    data: Optional[str]
    public_id: Optional[str]
    system_id: Optional[str]


@quick
class Node(SessionObject):
    """A node of a tree."""

    __slots__ = ()
    _family = 0

    ELEMENT_NODE = 1
    TEXT_NODE = 3
    PROCESSING_INSTRUCTION_NODE = 7
    COMMENT_NODE = 8
    DOCUMENT_NODE = 9
    DOCUMENT_TYPE_NODE = 10
    DOCUMENT_FRAGMENT_NODE = 11

    DOCUMENT_POSITION_DISCONNECTED = 1
    DOCUMENT_POSITION_PRECEDING = 2
    DOCUMENT_POSITION_FOLLOWING = 4
    DOCUMENT_POSITION_CONTAINS = 8
    DOCUMENT_POSITION_CONTAINED_BY = 16
    DOCUMENT_POSITION_IMPLEMENTATION_SPECIFIC = 32

    def _links(self) -> hp_node_links:
        return self._calls.links(self.number)

    def _children(self) -> List[int]:
        """The numbers of its children; where it is no more there are none, as the call says that is made next."""
        try:
            return self._calls.read_children(self.number)
        except Error:
            return []

    def _node_or_none(self, number: int) -> Optional[Node]:
        found = maybe(number)
        return None if found is None else self.session._node(found)

    # what a node is, and where it stands

    @property
    def node_type(self) -> int:
        """The standard's number of its kind, as ``Node.ELEMENT_NODE``."""
        raise InCore

    @property
    def node_name(self) -> str:
        """The name: that of an element, a target, a doctype, or as ``#text``."""
        raise InCore

    @property
    def node_document(self) -> Document:
        """The node document; a Document's is itself."""
        raise InCore

    @property
    def owner_document(self) -> Optional[Document]:
        """The node document, or None for a Document."""
        raise InCore

    @property
    def parent_node(self) -> Optional[Node]:
        """The node above it, or None."""
        raise InCore

    @property
    def parent_element(self) -> Optional[Element]:
        """The element above it, or None: also where its parent is no element."""
        found = self.parent_node
        return found if isinstance(found, Element) else None

    @property
    def previous_sibling(self) -> Optional[Node]:
        """The node before it under the same parent, or None."""
        raise InCore

    @property
    def next_sibling(self) -> Optional[Node]:
        """The node behind it under the same parent, or None."""
        raise InCore

    @property
    def child_nodes(self) -> List[Node]:
        """The children, as a list of now: it does not change with the tree."""
        raise InCore

    @property
    def first_child(self) -> Optional[Node]:
        """The first child, or None."""
        raise InCore

    @property
    def last_child(self) -> Optional[Node]:
        """The last child, or None."""
        raise InCore

    def has_child_nodes(self) -> bool:
        """Whether it has a child."""
        raise InCore

    @property
    def index(self) -> int:
        """How many siblings stand before it."""
        raise InCore

    @property
    def length(self) -> int:
        """How many UTF-16 units of data, or how many children."""
        raise InCore

    def get_root_node(self) -> Node:
        """The topmost of what it stands under; itself where it has no parent."""
        raise InCore

    def contains(self, other: Optional[Node]) -> bool:
        """Whether the other is this node or stands below it."""
        raise InCore

    def is_equal_node(self, other: Optional[Node]) -> bool:
        """Whether both are alike: kind, names, data, attributes, and all children."""
        raise InCore

    def is_same_node(self, other: Optional[Node]) -> bool:
        """Whether both are one node."""
        return self is other

    def compare_document_position(self, other: Node) -> int:
        """Where the other stands, as bits: ``Node.DOCUMENT_POSITION_PRECEDING`` and so on."""
        raise InCore

    def tree(self) -> List[Row]:
        """The node and all below it, in tree order."""
        raise InCore

    @overload
    def descendants(self, kind: None = None) -> Iterator[Node]: ...

    @overload
    def descendants(self, kind: Type[N]) -> Iterator[N]: ...

    def descendants(self, kind: Optional[Type[Node]] = None) -> Iterator[Node]:
        """All nodes below it, in tree order, as they stand now; or those of a class, as ``Element``."""
        raise InCore

    def next_siblings(self) -> Iterator[Node]:
        """The nodes behind it under the same parent, as they stand now."""
        raise InCore

    def previous_siblings(self) -> Iterator[Node]:
        """The nodes before it under the same parent, the nearest first, as they stand now."""
        raise InCore

    # changes

    def append_child(self, node: N) -> N:
        """Inserts a node behind its last child, and returns the node. If it is a fragment, its children are inserted instead."""
        raise InCore

    def insert_before(self, node: N, child: Optional[Node]) -> N:
        """Puts a node before a child, or behind the last where that is None, and returns the node."""
        raise InCore

    def replace_child(self, node: Node, child: N) -> N:
        """Puts a node in place of a child, and returns the child."""
        raise InCore

    def remove_child(self, child: N) -> N:
        """Takes out a child, and returns it."""
        raise InCore

    def normalize(self) -> None:
        """Joins Texts that stand side by side below it, and takes out empty ones."""
        raise InCore

    def clone_node(self: N, deep: bool = False) -> N:
        """A copy, with all that stands below it where ``deep`` is true."""
        return self.session._make(type(self), self._calls.clone_node(self.number, deep))

    @property
    def text_content(self) -> Optional[str]:
        """All text below it, or its data; None for a Document and a doctype. Setting it puts one Text in place of all children."""
        raise InCore

    @text_content.setter
    def text_content(self, text: Optional[str]) -> None:
        raise InCore

    def discard(self) -> None:
        """Frees this node and all below it. Refused (``InUse``) while something refers to one of them."""
        raise InCore

    def _together(self, nodes: Tuple[Union[Node, str], ...]) -> Node:
        """One node for several, as the standard's members take them: a str is a new Text, and of several a fragment is made."""
        document = self.node_document
        found = [document.create_text_node(it) if isinstance(it, str) else it for it in nodes]
        if len(found) == 1:
            return found[0]
        fragment = document.create_document_fragment()
        for it in found:
            fragment.append_child(it)
        return fragment

    def __repr__(self) -> str:
        """The tree below it, a node a line."""
        from .showing import shown

        return shown(self)


@quick
class ParentNode(Node):
    """A node that may have children. In a ``for`` it gives these, as they stand when it begins."""

    __slots__ = ()

    @property
    def children(self) -> List[Element]:
        """The children that are elements, as a list of now."""
        raise InCore

    def __iter__(self) -> Iterator[Node]:
        raise InCore

    @property
    def first_element_child(self) -> Optional[Element]:
        """The first child that is an element, or None."""
        return next(iter(self.children), None)

    @property
    def last_element_child(self) -> Optional[Element]:
        """The last child that is an element, or None."""
        return next(iter(self.children[::-1]), None)

    @property
    def child_element_count(self) -> int:
        """How many children are elements."""
        return len(self.children)

    def iter(self, *names: str) -> Iterator[Element]:
        """Itself if it is an element, and all elements below it, in tree order, as they stand now; with names those that have one of these."""
        return _tree.elements_named(self, list(names))

    def itertext(self) -> Iterator[str]:
        """The data of all Texts below it, in tree order."""
        return (it.data for it in self.descendants(Text))

    def append(self, *nodes: Union[Node, str]) -> None:
        """Puts nodes, or strings as new Texts, behind its last child."""
        self.append_child(self._together(nodes))

    def prepend(self, *nodes: Union[Node, str]) -> None:
        """Puts nodes, or strings as new Texts, before its first child."""
        together = self._together(nodes)
        self.insert_before(together, self.first_child)

    def replace_children(self, *nodes: Union[Node, str, None]) -> None:
        """Puts nodes, or strings as new Texts, or nothing, in place of all children."""
        given = tuple(it for it in nodes if it is not None)
        children = self._children()
        # (its object is held until the call is made, since that call first frees the nodes that nobody holds)
        together = self._together(given) if given else None
        self._calls.replace_children(self.number, self._of_maybe(together, Node))
        self._calls.note(children)

    def get_elements_by_tag_name(self, name: str) -> List[Element]:
        """The elements of that name below it, in tree order, as a list of now; ``*`` is every name."""
        raise InCore

    def get_element_by_id(self, id: str) -> Optional[Element]:
        """The first element below it, in tree order, whose attribute ``id`` has that value, or None."""
        raise InCore

    def get_elements_by_class_name(self, names: str) -> List[Element]:
        """The elements below it that have all these classes, told with spaces between, in tree order, as a list of now."""
        return _tree.elements_of_classes(self, names.split())

    def select(self, selectors: str, namespaces: Optional[Dict[str, str]] = None, limit: int = 0) -> List[Element]:
        """Returns the elements below it that match selectors of CSS, in tree order; at most ``limit`` of them, unless it is 0. By soupsieve."""
        from . import _select

        return _select.select(self, selectors, namespaces, limit)

    def select_one(self, selectors: str, namespaces: Optional[Dict[str, str]] = None) -> Optional[Element]:
        """The first element below it that matches selectors of CSS, or None. By soupsieve."""
        return next(iter(self.select(selectors, namespaces, 1)), None)

    def xpath(self, path: str, namespaces: Optional[Dict[str, str]] = None) -> Any:
        """Returns the result of a path of XPath 1.0: a list of nodes and texts, or a text, a number or a truth. By elementpath.

        Nodes beside the document's element are not found.
        """
        from . import _xpath

        return _xpath.xpath(self, path, namespaces)


@quick
class ChildNode(Node):
    """A node that may have a parent."""

    __slots__ = ()

    def remove(self) -> None:
        """Takes it from its parent, where it has one."""
        raise InCore

    @property
    def next_element_sibling(self) -> Optional[Element]:
        """The nearest element behind it under the same parent, or None."""
        return next((it for it in self.next_siblings() if isinstance(it, Element)), None)

    @property
    def previous_element_sibling(self) -> Optional[Element]:
        """The nearest element before it under the same parent, or None."""
        return next((it for it in self.previous_siblings() if isinstance(it, Element)), None)

    @property
    def tail(self) -> Optional[str]:
        """The text behind it, up to the next node that is no Text, as in lxml; None if there is none. It is only read."""
        raise InCore

    def _beside(self, nodes: Tuple[Union[Node, str], ...], is_behind: bool) -> Optional[Node]:
        """The next sibling before or behind it that is none of the nodes, which move."""
        found = self.next_sibling if is_behind else self.previous_sibling
        while found is not None and found in nodes:
            found = found.next_sibling if is_behind else found.previous_sibling
        return found

    def before(self, *nodes: Union[Node, str]) -> None:
        """Puts nodes, or strings as new Texts, before it; nothing where it has no parent."""
        parent = self.parent_node
        if parent is None:
            return
        previous = self._beside(nodes, False)
        together = self._together(nodes)
        parent.insert_before(together, parent.first_child if previous is None else previous.next_sibling)

    def after(self, *nodes: Union[Node, str]) -> None:
        """Puts nodes, or strings as new Texts, behind it; nothing where it has no parent."""
        parent = self.parent_node
        if parent is not None:
            following = self._beside(nodes, True)
            parent.insert_before(self._together(nodes), following)

    def replace_with(self, *nodes: Union[Node, str]) -> None:
        """Puts nodes, or strings as new Texts, in its place; nothing where it has no parent."""
        parent = self.parent_node
        if parent is None:
            return
        following = self._beside(nodes, True)
        together = self._together(nodes)
        if self.parent_node is parent:
            parent.replace_child(together, self)
        else:
            parent.insert_before(together, following)


class DocumentFragment(ParentNode):
    """A node that holds others on their way: if it is inserted, its children are inserted in its place."""

    __slots__ = ()


@quick
class DocumentType(ChildNode):
    """The doctype of a Document."""

    __slots__ = ()

    @property
    def name(self) -> str:
        """Its name, as ``html``."""
        raise InCore

    @property
    def public_id(self) -> str:
        """Its public id, which may be empty."""
        raise InCore

    @property
    def system_id(self) -> str:
        """Its system id, which may be empty."""
        raise InCore


@quick
class Element(ParentNode, ChildNode):
    """An element: a name, attributes, children."""

    __slots__ = ()

    @property
    def tag_name(self) -> str:
        """Its name, as it was given."""
        raise InCore

    @property
    def local_name(self) -> str:
        """Its name without a prefix."""
        return self.tag_name.rpartition(":")[2]

    @property
    def prefix(self) -> Optional[str]:
        """The part of its name ahead of the colon, or None."""
        return self.tag_name.rpartition(":")[0] or None

    @property
    def namespace_uri(self) -> Optional[str]:
        """The namespace that the declarations on it and above it give its prefix, or None. The tree itself knows none."""
        return _tree.namespace_of(self, self.prefix)

    def lookup_namespace_uri(self, prefix: Optional[str]) -> Optional[str]:
        """The namespace of a prefix here, or of no prefix, or None."""
        return _tree.namespace_of(self, prefix)

    @property
    def text(self) -> Optional[str]:
        """The text in it ahead of its first child that is no Text, as in lxml; None if there is none. It is only read."""
        raise InCore

    def matches(self, selectors: str, namespaces: Optional[Dict[str, str]] = None) -> bool:
        """Whether it matches selectors of CSS. By soupsieve."""
        from . import _select

        return _select.matches(self, selectors, namespaces)

    def closest(self, selectors: str, namespaces: Optional[Dict[str, str]] = None) -> Optional[Element]:
        """Itself or the nearest element above it that matches selectors of CSS, or None. By soupsieve."""
        from . import _select

        return _select.closest(self, selectors, namespaces)

    @property
    def inner_html(self) -> str:
        """Its children as HTML. Setting it parses a part of a page, which replaces all children."""
        from . import html

        return html.serialize(self, inner=True)

    @inner_html.setter
    def inner_html(self, source: str) -> None:
        from . import html

        self.replace_children(html.parse_fragment(source, self.local_name, self.node_document))

    @property
    def outer_html(self) -> str:
        """The element and all below it as HTML. Setting it parses a part of a page, which replaces the element; without a parent nothing happens."""
        from . import html

        return html.serialize(self)

    @outer_html.setter
    def outer_html(self, source: str) -> None:
        from . import html

        above = self.parent_node
        if above is not None:
            self.replace_with(html.parse_fragment(source, above.local_name if isinstance(above, Element) else "body", self.node_document))

    @property
    def attributes(self) -> Attributes:
        """Its attributes as a mapping, which changes with the element and changes it."""
        return Attributes(self)

    def get_attribute(self, name: str) -> Optional[str]:
        """The value of an attribute, or None."""
        raise InCore

    def set_attribute(self, name: str, value: str) -> None:
        """Sets an attribute; a new one stands behind the others."""
        raise InCore

    def has_attribute(self, name: str) -> bool:
        """Whether it has an attribute of that name."""
        raise InCore

    def remove_attribute(self, name: str) -> None:
        """Takes out an attribute, where it is there."""
        raise InCore

    def toggle_attribute(self, name: str, force: Optional[bool] = None) -> bool:
        """Sets an empty attribute or takes it out: as ``force`` says, or turned. Returns whether it is there then."""
        return self._calls.toggle_attribute(self.number, name, 2 if force is None else int(bool(force)))

    def get_attribute_names(self) -> List[str]:
        """The names of its attributes, in order."""
        raise InCore


@quick
class CharacterData(ChildNode):
    """A node with data: offsets and counts are UTF-16 units, and not Python's characters."""

    __slots__ = ()

    @property
    def data(self) -> str:
        """Its text."""
        raise InCore

    @data.setter
    def data(self, data: str) -> None:
        raise InCore

    def substring_data(self, offset: int, count: int) -> str:
        """Returns ``count`` units from an offset on, or fewer if the data ends before."""
        raise InCore

    def append_data(self, data: str) -> None:
        """Puts a text behind its data."""
        raise InCore

    def insert_data(self, offset: int, data: str) -> None:
        """Puts a text in at an offset."""
        raise InCore

    def delete_data(self, offset: int, count: int) -> None:
        """Removes ``count`` units from an offset on."""
        raise InCore

    def replace_data(self, offset: int, count: int, data: str) -> None:
        """Replaces ``count`` units from an offset on by a text."""
        raise InCore


@quick
class Text(CharacterData):
    """A text."""

    __slots__ = ()

    def split_text(self, offset: int) -> Text:
        """Splits it, and returns the new Text with what stood behind the offset."""
        raise InCore


class Comment(CharacterData):
    """A comment."""

    __slots__ = ()


@quick
class ProcessingInstruction(CharacterData):
    """A processing instruction: a target and data."""

    __slots__ = ()

    @property
    def target(self) -> str:
        """Its target."""
        raise InCore
