"""Invoices by minidom: a document is made and read with the calls of the DOM, changed and written."""
import io
from xml.dom import Node, minidom
from xml.parsers.expat import ExpatError

SOURCE = """<?xml version="1.0" encoding="utf-8"?>
<?style plain?>
<invoices currency="NOK" xmlns:t="urn:example:tax">
  <!-- the first quarter -->
  <invoice number="17" paid="yes"><to>Fjord &amp; Sons</to><line count="2" price="40">rope</line><line count="1" price="9.50">hook</line></invoice>
  <invoice number="18"><to>K. Vik</to><line count="3" price="12">lamp</line><t:rate>25</t:rate><note><![CDATA[<late>]]></note></invoice>
</invoices>
"""
KINDS = {
    Node.ELEMENT_NODE: "element",
    Node.TEXT_NODE: "text",
    Node.CDATA_SECTION_NODE: "text",
    Node.COMMENT_NODE: "comment",
    Node.PROCESSING_INSTRUCTION_NODE: "instruction",
    Node.DOCUMENT_NODE: "document",
}


def text_of(node):
    """All text below a node."""
    parts = []
    for child in node.childNodes:
        if child.nodeType in (Node.TEXT_NODE, Node.CDATA_SECTION_NODE):
            parts.append(child.data)
        elif child.nodeType == Node.ELEMENT_NODE:
            parts.append(text_of(child))
    return "".join(parts)


def total(invoice):
    """The sum of an invoice."""
    lines = invoice.getElementsByTagName("line")
    return sum(int(it.getAttribute("count")) * float(it.getAttribute("price")) for it in lines)


def outline(node, out, depth=0):
    """The tree, a node a line; blanks between elements are left out."""
    if node.nodeType == Node.TEXT_NODE and not node.data.strip():
        return
    name = node.nodeName if node.nodeType == Node.ELEMENT_NODE else ""
    out("  " * depth + KINDS[node.nodeType], name)
    for child in node.childNodes:
        outline(child, out, depth + 1)


def read(out):
    """A document is parsed and told."""
    document = minidom.parseString(SOURCE.encode())
    root = document.documentElement
    out(root.tagName, root.getAttribute("currency"), root.hasAttribute("none"), repr(root.getAttribute("none")))
    for invoice in document.getElementsByTagName("invoice"):
        to = invoice.getElementsByTagName("to")[0]
        out(invoice.getAttribute("number"), text_of(to), total(invoice), invoice.getAttribute("paid") or "open")
    outline(document, out)
    first = document.firstChild
    out(first.nodeType == Node.PROCESSING_INSTRUCTION_NODE, first.target, first.data)
    return document


def walk(document, out):
    """From node to node."""
    first, second = document.getElementsByTagName("invoice")
    out(first.firstChild.tagName, first.lastChild.firstChild.data, first.parentNode is document.documentElement)
    out(first.childNodes[1].nextSibling.firstChild.data, first.childNodes[1].previousSibling.tagName)
    out(second.ownerDocument is document, second.hasChildNodes(), len(second.childNodes))
    out([it.name for it in map(first.attributes.item, range(first.attributes.length))])
    out(text_of(second.getElementsByTagName("note")[0]), second.getElementsByTagName("t:rate")[0].localName)


def add(document, out):
    """An invoice is made."""
    invoice = document.createElement("invoice")
    invoice.setAttribute("number", "19")
    to = document.createElement("to")
    to.appendChild(document.createTextNode("A. <Berg>"))
    invoice.appendChild(to)
    for count, price, name in ((4, "2.25", "nail"), (1, "30", "saw")):
        line = document.createElement("line")
        line.setAttribute("count", str(count))
        line.setAttribute("price", price)
        line.appendChild(document.createTextNode(name))
        invoice.insertBefore(line, to.nextSibling)
    document.documentElement.appendChild(document.createComment("new"))
    document.documentElement.appendChild(invoice)
    out(total(invoice), invoice.toxml())


def change(document, out):
    """Attributes, texts and children that are there are changed."""
    first, second = document.getElementsByTagName("invoice")[:2]
    first.removeAttribute("paid")
    second.setAttribute("paid", "yes")
    line = first.getElementsByTagName("line")[0]
    line.firstChild.data = "twine"
    line.firstChild.appendData(" ball")
    out(line.firstChild.data, line.firstChild.substringData(0, 5))
    second.replaceChild(document.createElement("seen"), second.getElementsByTagName("t:rate")[0])
    gone = first.removeChild(first.lastChild)
    out(gone.firstChild.data, total(first), gone.parentNode is None)
    second.appendChild(gone)
    out([it.nodeName for it in second.childNodes])
    split = line.firstChild.splitText(5)
    out(len(line.childNodes), split.data)
    line.normalize()
    out(len(line.childNodes), line.firstChild.data)


def copies(document, out):
    """Copies, and nodes of another document."""
    invoice = document.getElementsByTagName("invoice")[0]
    flat, deep = invoice.cloneNode(False), invoice.cloneNode(True)
    out(len(flat.childNodes), len(deep.childNodes), deep.isSameNode(invoice), deep.toxml() == invoice.toxml())
    other = minidom.Document()
    root = other.appendChild(other.createElement("copies"))
    root.appendChild(other.importNode(invoice, True))
    fragment = other.createDocumentFragment()
    for name in "ab":
        fragment.appendChild(other.createElement(name))
    root.insertBefore(fragment, root.firstChild)
    out([it.nodeName for it in root.childNodes], other.documentElement.toxml())


def write(out):
    """In lines, as bytes and to a file."""
    document = minidom.parseString("<a><b x='1'><c/></b><d>text</d></a>")
    out(document.documentElement.toprettyxml(indent="  "))
    out(document.documentElement.toxml(encoding="utf-8").split(b"?>")[-1])
    file = io.StringIO()
    document.documentElement.writexml(file)
    out(file.getvalue())


def faults(out):
    """A text that is not well-formed, and a node in a wrong place, are refused."""
    try:
        minidom.parseString("<a><b></a>")
    except ExpatError as fault:
        out(str(fault), fault.lineno)
    document = minidom.parseString("<a/>")
    try:
        document.documentElement.firstChild.data
    except AttributeError:
        out("nothing is in it")


def main(out):
    """The whole program; it says each line to a function."""
    document = read(out)
    walk(document, out)
    add(document, out)
    change(document, out)
    copies(document, out)
    write(out)
    faults(out)


if __name__ == "__main__":
    main(print)
