"""Invoices by the package: a document is made and read with the calls of the DOM, changed and written. Ported from invoice_minidom.py."""
import io
from typing import Callable
from xml.parsers.expat import ExpatError

import huckleport as h

Out = Callable[..., object]

SOURCE = """<?xml version="1.0" encoding="utf-8"?>
<?style plain?>
<invoices currency="NOK" xmlns:t="urn:example:tax">
  <!-- the first quarter -->
  <invoice number="17" paid="yes"><to>Fjord &amp; Sons</to><line count="2" price="40">rope</line><line count="1" price="9.50">hook</line></invoice>
  <invoice number="18"><to>K. Vik</to><line count="3" price="12">lamp</line><t:rate>25</t:rate><note><![CDATA[<late>]]></note></invoice>
</invoices>
"""
KINDS = {
    h.Node.ELEMENT_NODE: "element",
    h.Node.TEXT_NODE: "text",
    h.Node.COMMENT_NODE: "comment",
    h.Node.PROCESSING_INSTRUCTION_NODE: "instruction",
    h.Node.DOCUMENT_NODE: "document",
}


def root_of(document: h.Document) -> h.Element:
    """The element of a document, which is there."""
    found = document.document_element
    assert found is not None
    return found


def data_of(node: object) -> h.CharacterData:
    """A node with data."""
    assert isinstance(node, h.CharacterData)
    return node


def element(node: object) -> h.Element:
    """A node that is an element."""
    assert isinstance(node, h.Element)
    return node


def text_of(node: h.Node) -> str:
    """All text below a node."""
    return node.text_content or ""


def total(invoice: h.Element) -> float:
    """The sum of an invoice."""
    lines = invoice.get_elements_by_tag_name("line")
    return sum(int(it.get_attribute("count") or "") * float(it.get_attribute("price") or "") for it in lines)


def outline(node: h.Node, out: Out, depth: int = 0) -> None:
    """The tree, a node a line; blanks between elements are left out."""
    if isinstance(node, h.Text) and not node.data.strip():
        return
    name = node.node_name if node.node_type == h.Node.ELEMENT_NODE else ""
    out("  " * depth + KINDS[node.node_type], name)
    for child in node.child_nodes:
        outline(child, out, depth + 1)


def read(out: Out) -> h.Document:
    """A document is parsed and told."""
    document = h.xml.parse(SOURCE.encode())
    root = root_of(document)
    out(root.tag_name, root.get_attribute("currency"), root.has_attribute("none"), repr(root.get_attribute("none") or ""))
    for invoice in document.get_elements_by_tag_name("invoice"):
        to = invoice.get_elements_by_tag_name("to")[0]
        out(invoice.get_attribute("number"), text_of(to), total(invoice), invoice.get_attribute("paid") or "open")
    outline(document, out)
    first = document.first_child
    assert isinstance(first, h.ProcessingInstruction)
    out(first.node_type == h.Node.PROCESSING_INSTRUCTION_NODE, first.target, first.data)
    return document


def walk(document: h.Document, out: Out) -> None:
    """From node to node."""
    first, second = document.get_elements_by_tag_name("invoice")
    out(element(first.first_child).tag_name, data_of(element(first.last_child).first_child).data, first.parent_node is document.document_element)
    line = first.child_nodes[1]
    out(data_of(element(line.next_sibling).first_child).data, element(line.previous_sibling).tag_name)
    out(second.owner_document is document, second.has_child_nodes(), len(second.child_nodes))
    out(first.get_attribute_names())
    out(text_of(second.get_elements_by_tag_name("note")[0]), second.get_elements_by_tag_name("t:rate")[0].local_name)


def add(document: h.Document, out: Out) -> None:
    """An invoice is made."""
    invoice = document.create_element("invoice")
    invoice.set_attribute("number", "19")
    to = document.create_element("to")
    to.append_child(document.create_text_node("A. <Berg>"))
    invoice.append_child(to)
    for count, price, name in ((4, "2.25", "nail"), (1, "30", "saw")):
        line = document.create_element("line")
        line.set_attribute("count", str(count))
        line.set_attribute("price", price)
        line.append_child(document.create_text_node(name))
        invoice.insert_before(line, to.next_sibling)
    root_of(document).append_child(document.create_comment("new"))
    root_of(document).append_child(invoice)
    out(total(invoice), h.xml.tostring(invoice))


def change(document: h.Document, out: Out) -> None:
    """Attributes, texts and children that are there are changed."""
    first, second = document.get_elements_by_tag_name("invoice")[:2]
    first.remove_attribute("paid")
    second.set_attribute("paid", "yes")
    line = first.get_elements_by_tag_name("line")[0]
    text = line.first_child
    assert isinstance(text, h.Text)
    text.data = "twine"
    text.append_data(" ball")
    out(text.data, text.substring_data(0, 5))
    second.replace_child(document.create_element("seen"), second.get_elements_by_tag_name("t:rate")[0])
    gone = first.remove_child(element(first.last_child))
    out(data_of(gone.first_child).data, total(first), gone.parent_node is None)
    second.append_child(gone)
    out([it.node_name for it in second.child_nodes])
    split = text.split_text(5)
    out(len(line.child_nodes), split.data)
    line.normalize()
    out(len(line.child_nodes), data_of(line.first_child).data)


def copies(document: h.Document, out: Out) -> None:
    """Copies, and nodes of another document."""
    invoice = document.get_elements_by_tag_name("invoice")[0]
    flat, deep = invoice.clone_node(False), invoice.clone_node(True)
    out(len(flat.child_nodes), len(deep.child_nodes), deep.is_same_node(invoice), deep.is_equal_node(invoice))
    other = document.session.create_document()
    root = other.append_child(other.create_element("copies"))
    root.append_child(other.import_node(invoice, True))
    fragment = other.create_document_fragment()
    for name in "ab":
        fragment.append_child(other.create_element(name))
    root.insert_before(fragment, root.first_child)
    out([it.node_name for it in root.child_nodes], h.xml.tostring(root_of(other)))


def write(out: Out) -> None:
    """In lines, as bytes and to a file."""
    document = h.xml.parse("<a><b x='1'><c/></b><d>text</d></a>")
    out(h.xml.tostring(root_of(document), pretty=True))
    out(h.xml.tostring(root_of(document), encoding="utf-8"))
    file = io.BytesIO()
    h.xml.write(root_of(document), file, declaration=False)
    out(file.getvalue().decode())


def faults(out: Out) -> None:
    """A text that is not well-formed, and a node in a wrong place, are refused."""
    try:
        h.xml.parse("<a><b></a>")
    except ExpatError as fault:
        out(str(fault), fault.lineno)
    document = h.xml.parse("<a/>")
    if root_of(document).first_child is None:
        out("nothing is in it")


def main(out: Out) -> None:
    """The whole program; it says each line to a function."""
    document = read(out)
    walk(document, out)
    add(document, out)
    change(document, out)
    copies(document, out)
    write(out)
    faults(out)


if __name__ == "__main__":
    main(print)
