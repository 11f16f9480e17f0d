"""A tree builder of html5lib that makes nodes of the package as the parser goes."""

from __future__ import annotations

from importlib import import_module
from typing import Any, Iterator, MutableMapping, Optional, Tuple, Union

from .documents import Document
from .errors import DOMException
from .nodes import DocumentFragment, Element, Node, Text

HTMLParser: Any = import_module("html5lib").HTMLParser
base: Any = import_module("html5lib.treebuilders.base")
HTML = "http://www.w3.org/1999/xhtml"

Name = Union[str, Tuple[Optional[str], str, str]]


class Given(MutableMapping[Any, str]):
    """An element's attributes as the parser sets them: a name of a foreign element has a prefix, and what the library refuses is left out."""

    def __init__(self, element: Element) -> None:
        self.inner = element.attributes

    def __setitem__(self, name: Name, value: str) -> None:
        if isinstance(name, tuple):
            name = f"{name[0]}:{name[1]}" if name[0] else name[1]
        try:
            self.inner[name] = value
        except DOMException:
            pass

    def __getitem__(self, name: str) -> str:
        return self.inner[name]

    def __delitem__(self, name: str) -> None:
        del self.inner[name]

    def __iter__(self) -> Iterator[str]:
        return iter(self.inner)

    def __len__(self) -> int:
        return len(self.inner)


class Built(base.Node):  # type: ignore[misc]
    """A node as the parser knows it."""

    def __init__(self, node: Any, namespace: Optional[str] = None) -> None:
        # (the parser's own lists of attributes and children are not used)
        self.node = node
        self.name = node.node_name
        self.namespace = namespace
        self.parent: Optional[Built] = None
        self._flags: Any = []
        # The node that was inserted last at the end of the children.
        self.tail: Optional[Node] = None

    @property
    def nameTuple(self) -> Tuple[str, str]:
        return self.namespace or HTML, self.name

    @property
    def attributes(self) -> Given:
        return Given(self.node)

    @attributes.setter
    def attributes(self, given: Any) -> None:
        found = Given(self.node)
        for name, value in list(given.items()):
            found[name] = value

    def appendChild(self, node: Built) -> None:
        self.node.append_child(node.node)
        self.tail = node.node
        node.parent = self

    def insertBefore(self, node: Built, refNode: Built) -> None:
        self.node.insert_before(node.node, refNode.node)
        node.parent = self

    def insertText(self, data: str, insertBefore: Optional[Built] = None) -> None:
        behind = None if insertBefore is None else insertBefore.node
        last = self.last() if behind is None else behind.previous_sibling
        if isinstance(last, Text):
            last.append_data(data)
            return
        text = self.node.insert_before(self.node.node_document.create_text_node(data), behind)
        self.tail = text if behind is None else self.tail

    def last(self) -> Optional[Node]:
        """Returns the last child: the node that was inserted last, if it is still at the end."""
        if self.tail is None or self.tail.parent_node is not self.node or self.tail.next_sibling is not None:
            self.tail = self.node.last_child
        return self.tail

    def removeChild(self, node: Built) -> None:
        if node.node.parent_node is self.node:
            self.node.remove_child(node.node)
        node.parent = None

    def reparentChildren(self, newParent: Built) -> None:
        for child in self.node.child_nodes:
            newParent.node.append_child(child)

    def cloneNode(self) -> Built:
        return Built(self.node.clone_node(), self.namespace)

    def hasContent(self) -> bool:
        found: bool = self.node.has_child_nodes()
        return found


class Builder(base.TreeBuilder):  # type: ignore[misc]
    """Builds under a node of a document: the document itself, or a fragment."""

    def __init__(self, root: Union[Document, DocumentFragment], has_namespaces: bool) -> None:
        self.root = root
        self.made = root.node_document
        super().__init__(has_namespaces)

    def documentClass(self) -> Built:
        # (the parser begins again where a page names another encoding)
        self.root.replace_children()
        return Built(self.root)

    def elementClass(self, name: str, namespace: Optional[str]) -> Built:
        return Built(self.made.create_element(name), namespace)

    def commentClass(self, data: str) -> Built:
        return Built(self.made.create_comment(data))

    def doctypeClass(self, name: Optional[str], public_id: Optional[str], system_id: Optional[str]) -> Built:
        return Built(self.made.create_document_type(name or "", public_id or "", system_id or ""))

    def fragmentClass(self) -> Built:
        return Built(self.made.create_document_fragment())


def parse(document: Document, source: Union[str, bytes]) -> None:
    """Parses a page into a document."""
    HTMLParser(tree=lambda has_namespaces: Builder(document, has_namespaces)).parse(source)


def parse_fragment(document: Document, source: Union[str, bytes], container: str) -> DocumentFragment:
    """Parses a part of a page. The parser puts it under an element of its own, which is discarded."""
    ground = document.create_document_fragment()
    built = HTMLParser(tree=lambda has_namespaces: Builder(ground, has_namespaces)).parseFragment(source, container)
    ground.discard()
    found: DocumentFragment = built.node
    return found
