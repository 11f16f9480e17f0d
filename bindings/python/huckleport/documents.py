"""Documents, which make nodes, ranges, iterators and walkers."""

from __future__ import annotations

from typing import Optional, TypeVar

from ._calls import InCore, quick
from .nodes import Comment, DocumentFragment, DocumentType, Element, Node, ParentNode, ProcessingInstruction, Text
from .ranges import Range
from .traversal import Filter, NodeFilter, NodeIterator, TreeWalker, rules

N = TypeVar("N", bound=Node)


@quick
class Document(ParentNode):
    """A Document: the root of a tree, and what makes nodes, ranges, iterators and walkers."""

    __slots__ = ()

    @property
    def document_element(self) -> Optional[Element]:
        """The element among its children, or None."""
        return next((it for it in self.child_nodes if isinstance(it, Element)), None)

    @property
    def doctype(self) -> Optional[DocumentType]:
        """The doctype among its children, or None."""
        return next((it for it in self.child_nodes if isinstance(it, DocumentType)), None)

    @property
    def head(self) -> Optional[Element]:
        """The first ``head`` in its element ``html``, or None."""
        return self._in_html("head")

    @property
    def body(self) -> Optional[Element]:
        """The first ``body`` or ``frameset`` in its element ``html``, or None."""
        return self._in_html("body", "frameset")

    def _in_html(self, *names: str) -> Optional[Element]:
        """The first child of the element ``html`` that has one of some names."""
        root = self.document_element
        found = root.children if root is not None and root.local_name == "html" else []
        return next((it for it in found if it.local_name in names), None)

    @property
    def title(self) -> str:
        """The text of its first ``title``, with single spaces for white space. Setting it makes one in the ``head``, if there is a ``head``."""
        found = next(iter(self.get_elements_by_tag_name("title")), None)
        texts = [] if found is None else [it.data for it in found.child_nodes if isinstance(it, Text)]
        return " ".join("".join(texts).split())

    @title.setter
    def title(self, title: str) -> None:
        found, head = next(iter(self.get_elements_by_tag_name("title")), None), self.head
        if found is None and head is not None:
            found = head.append_child(self.create_element("title"))
        if found is not None:
            found.text_content = title

    def create_element(self, name: str) -> Element:
        """A new element of that name."""
        raise InCore

    def create_text_node(self, data: str) -> Text:
        """A new Text."""
        raise InCore

    def create_comment(self, data: str) -> Comment:
        """A new comment."""
        raise InCore

    def create_processing_instruction(self, target: str, data: str) -> ProcessingInstruction:
        """A new processing instruction."""
        raise InCore

    def create_document_type(self, name: str, public_id: str = "", system_id: str = "") -> DocumentType:
        """The standard's ``implementation.createDocumentType``."""
        return self.session._make(DocumentType, self._calls.create_doctype(self.number, name, public_id, system_id))

    def create_document_fragment(self) -> DocumentFragment:
        """A new fragment without children."""
        raise InCore

    def adopt_node(self, node: N) -> N:
        """Takes a node from its parent, makes this its node document and that of all below it, and returns it."""
        raise InCore

    def import_node(self, node: N, deep: bool = False) -> N:
        """A copy of a node, whose node document is this one; with all below it where ``deep`` is true."""
        return self.session._make(type(node), self._calls.import_node(self.number, self._of(node, Node), deep))

    def create_range(self) -> Range:
        """A new live range, with both ends at the start of the Document."""
        raise InCore

    def create_node_iterator(self, root: Node, what_to_show: int = NodeFilter.SHOW_ALL, filter: Filter = ()) -> NodeIterator:
        """A new iterator over a node and all below it."""
        number = self._calls.create_iterator(self._of(root, Node), what_to_show, *rules(filter))
        return self.session._make(NodeIterator, number)

    def create_tree_walker(self, root: Node, what_to_show: int = NodeFilter.SHOW_ALL, filter: Filter = ()) -> TreeWalker:
        """A new walker in a node and all below it."""
        number = self._calls.create_walker(self._of(root, Node), what_to_show, *rules(filter))
        return self.session._make(TreeWalker, number)
