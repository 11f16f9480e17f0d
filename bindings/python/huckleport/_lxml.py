"""Trees of lxml in and out."""

from __future__ import annotations

from importlib import import_module
from typing import Any, Dict, Optional, Union

from . import xml
from ._calls import Builder
from .documents import Document
from .errors import BadType, BadValue, Malformed, NotXML
from .nodes import Element, Node
from .session import Session
from .texts import well_formed


def parse(document: Document, source: Union[str, bytes]) -> None:
    """Parses a page of HTML into a document by lxml's own parser, which makes no tree of its own. Inserts nothing if the page has no element."""
    etree: Any = import_module("lxml.etree")
    data, encoding = (well_formed(source).encode(), "utf-8") if isinstance(source, str) else (source, None)
    builder = Builder(document._calls, document.number, document.number, True)
    try:
        if data.strip():
            etree.fromstring(data, etree.HTMLParser(target=builder, encoding=encoding, huge_tree=True))
    except etree.XMLSyntaxError as fault:
        raise Malformed(None, "parse", str(fault)) from None
    builder.add_record()


def _qualified(name: str, prefixes: Dict[str, Optional[str]]) -> str:
    """A name of lxml with its prefix in place of its namespace."""
    if not name.startswith("{"):
        return name
    namespace, _, local = name[1:].partition("}")
    prefix = "xml" if namespace == "http://www.w3.org/XML/1998/namespace" else prefixes.get(namespace)
    return f"{prefix}:{local}" if prefix else local


def _element(it: Any, made: Document) -> Element:
    """An element of lxml without its children. Declarations of namespaces are attributes here."""
    above = it.getparent()
    outer = {} if above is None else above.nsmap
    element = made.create_element(f"{it.prefix}:{it.tag.partition('}')[2]}" if it.prefix else it.tag.partition("}")[2] or it.tag)
    for prefix, namespace in it.nsmap.items():
        if outer.get(prefix) != namespace:
            element.set_attribute(f"xmlns:{prefix}" if prefix else "xmlns", namespace)
    prefixes = {namespace: prefix for prefix, namespace in it.nsmap.items() if prefix}
    for name, value in it.attrib.items():
        element.set_attribute(_qualified(name, prefixes), value)
    return element


def _node(it: Any, made: Document) -> Node:
    """A node of lxml without its children."""
    etree: Any = import_module("lxml.etree")
    if it.tag is etree.Comment:
        return made.create_comment(it.text or "")
    if it.tag is etree.ProcessingInstruction:
        return made.create_processing_instruction(it.target, it.text or "")
    if it.tag is etree.Entity:
        return made.create_text_node(it.text)
    return _element(it, made)


def _put(top: Any, under: Node, made: Document) -> Node:
    """Puts an element of lxml and all below it under a node, and returns it. (A stack, since trees may be deep.)"""
    found = under.append_child(_node(top, made))
    if not isinstance(found, Element):
        return found
    waiting = [(top, found)]
    while waiting:
        it, node = waiting.pop()
        if it.text:
            node.append_child(made.create_text_node(it.text))
        for child in it:
            below = node.append_child(_node(child, made))
            if isinstance(below, Element):
                waiting.append((child, below))
            if child.tail:
                node.append_child(made.create_text_node(child.tail))
    return found


def from_lxml(tree: Any, session: Optional[Session] = None) -> Node:
    """A tree or an element of lxml, with all below it: a Document for a tree, an Element for an element. In a session, or in a new one."""
    made = Session().document if session is None else session.create_document()
    if not hasattr(tree, "getroot"):
        fragment = made.create_document_fragment()
        return fragment.remove_child(_put(tree, fragment, made))
    about, root = tree.docinfo, tree.getroot()
    if about.doctype:
        made.append_child(made.create_document_type(about.root_name or "", about.public_id or "", about.system_url or ""))
    if root is not None:
        for it in (*reversed(list(root.itersiblings(preceding=True))), root, *root.itersiblings()):
            _put(it, made, made)
    return made


# What lxml says of a name whose prefix is not declared, or that has two: it keeps such a name as it is.
KEPT_NAMES = ("NS_ERR_UNDEFINED_NAMESPACE", "NS_ERR_QNAME")


def to_lxml(node: Node) -> Any:
    """A node and all below it in lxml: an ElementTree for a Document, an element for an Element. What XML can't hold raises ``ValueError``.

    It is written as XML and parsed by lxml, which joins Texts that stand side by side and drops empty ones. A name with a prefix that is
    not declared (``xlink:href`` in HTML) has no namespace there.
    """
    etree: Any = import_module("lxml.etree")
    if not isinstance(node, (Document, Element)):
        raise BadType(None, "", f"lxml has trees of a Document or an Element, not of a {type(node).__name__}")
    if isinstance(node, Document) and node.document_element is None:
        raise BadValue(None, "", "lxml has no tree without an element: append one to the document")
    parser = etree.XMLParser(huge_tree=True, resolve_entities=False, load_dtd=False, no_network=True, strip_cdata=False, recover=True)
    found = etree.fromstring(xml.serialize(node).encode("utf-8"), parser)
    for it in parser.error_log:
        if it.level >= etree.ErrorLevels.ERROR and it.type_name not in KEPT_NAMES:
            raise NotXML(None, "", f"lxml cannot hold this tree: {it.message}")
    return found.getroottree() if isinstance(node, Document) else found
