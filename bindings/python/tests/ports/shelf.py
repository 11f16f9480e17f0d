"""The catalogue of a small library, kept by the package: made, read, searched, changed, written. Ported from shelf_lxml.py by the table."""
import io
from typing import Callable

import huckleport as h

Out = Callable[..., object]

NOTES = "urn:example:notes"
SOURCE = """<?xml version="1.0"?>
<!-- kept by hand -->
<shelf xmlns:n="urn:example:notes" room="3">
  <book id="b1" year="1963"><title>Gulls of the <em>North</em> Sea</title><author>A. Moe</author><n:note>torn</n:note></book>
  <book id="b2" year="1971"><title>Tides</title><author>B. Lund</author><author>C. Dahl</author></book>
  <book id="b3"><title>Charts &amp; Knots</title><author>A. Moe</author></book>
  <?order by="year"?>
</shelf>
"""


def root_of(document: h.Document) -> h.Element:
    """The element of a document, which is there."""
    found = document.document_element
    assert found is not None
    return found


def first(node: h.ParentNode, selectors: str) -> h.Element:
    """The first element that matches, which is there."""
    found = node.select_one(selectors)
    assert found is not None
    return found


def sub_element(parent: h.Element, name: str, **attributes: str) -> h.Element:
    """A new element under another."""
    found = parent.append_child(parent.node_document.create_element(name))
    found.attributes.update(attributes)
    return found


def make() -> h.Element:
    """A tree is made element by element."""
    document = h.Session().document
    root = document.append_child(document.create_element("shelf"))
    root.set_attribute("room", "4")
    for number, (title, year) in enumerate((("Sails", "1950"), ("Ropes", "1955"), ("Bells", "1949"))):
        book = sub_element(root, "book", id=f"s{number}")
        book.set_attribute("year", year)
        sub_element(book, "title").text_content = title
    root.append(document.create_comment(" more to come "))
    keeper = document.create_element("keeper")
    root.prepend(keeper, "\n")
    keeper.text_content = "E. Berg"
    return root


def about(book: h.Element) -> str:
    """A line about a book."""
    title = "".join(first(book, ":scope > title").itertext())
    authors = ", ".join(it.text or "" for it in book.select(":scope > author")) or "nobody"
    return f"{book.get_attribute('id')}: {title} by {authors}, {book.get_attribute('year') or 'no year'}"


def read(out: Out) -> h.Document:
    """A document is parsed, and its content is printed."""
    tree = h.xml.parse(io.BytesIO(SOURCE.encode()))
    root = root_of(tree)
    out(root.tag_name, {"room": root.get_attribute("room")}, sum(not isinstance(it, h.Text) for it in root), root.get_attribute("room"))
    for book in root.iter("book"):
        out(about(book))
    title = root.children[0].children[0]
    em = title.children[0]
    out(repr(title.text), em.tag_name, repr(em.text), repr(em.tail))
    out([it.tag_name for it in root.iter("title", "author")])
    second = root.children[1]
    behind, ahead, above = second.next_element_sibling, second.previous_element_sibling, second.parent_element
    assert behind and ahead and above
    out(behind.get_attribute("id"), ahead.get_attribute("id"), above.tag_name, root.children.index(root.children[2]))
    return tree


def search(tree: h.Document, out: Out) -> None:
    """Paths find elements, attributes and texts."""
    root = root_of(tree)
    out([it.get_attribute("id") for it in root.xpath("//book[@year > 1965]")])
    out(root.xpath("count(//author)") / 1.0, root.xpath("string(//book[2]/title)"), root.xpath("boolean(//map)"))
    out(root.xpath("//book/@year"), root.xpath("//book[author='A. Moe']/title/text()"))
    out([it.text for it in root.xpath("//n:note", namespaces={"n": NOTES})])
    out(root.xpath("//book[last()]")[0].get_attribute("id"), len(root.xpath("//processing-instruction()")), root.xpath("//em/ancestor::book/@id"))
    out([it.get_attribute("id") for it in root.select("book:nth-child(2), book:not([year])")])


def names(tree: h.Document, out: Out) -> None:
    """Names and their namespaces."""
    note = root_of(tree).xpath("//n:note", namespaces={"n": NOTES})[0]
    out(note.local_name, note.namespace_uri, note.prefix)
    out([(it, note.lookup_namespace_uri(it)) for it in ("n",)])


def change(tree: h.Document, out: Out) -> None:
    """Elements come, go and move."""
    root = root_of(tree)
    one, two, three = root.select(":scope > book")
    two.remove()
    out([it.get_attribute("id") for it in root.iter("book")])
    one.before(three)
    out([it.get_attribute("id") for it in root.iter("book")])
    one.remove_attribute("year")
    one.set_attribute("lent", "yes")
    out(sorted(one.attributes.items()))
    for author in root.iter("author"):
        author.text_content = (author.text or "").replace("A. Moe", "Anna Moe")
    out([it.text for it in root.iter("author")])
    first(three, ":scope > title").replace_with(tree.import_node(root_of(h.xml.parse("<title>Charts</title>", tree.session)), True))
    out(about(three))
    for it in one.children:
        if (it.namespace_uri, it.local_name) == (NOTES, "note"):
            it.remove()
    out(one.child_element_count, one.select_one(":scope > author") is not None)


def sort(root: h.Element, out: Out) -> None:
    """Elements are put in the order of an attribute."""
    books = sorted(root.select(":scope > book"), key=lambda it: int(it.attributes["year"]))
    root.append(*books)
    out([it.get_attribute("year") for it in root.select(":scope > book")])
    books[0].attributes.update({"oldest": "yes", "year": "about 1949"})
    out(h.xml.tostring(books[0]))
    above = books[-1].parent_element
    out([it.get_attribute("id") for it in books[0].next_siblings() if isinstance(it, h.Element)], [above and above.tag_name])


def copies(root: h.Element, out: Out) -> None:
    """A copy is a tree of its own."""
    copied = root.clone_node(True)
    first(copied, "book").set_attribute("id", "other")
    out(first(root, "book").get_attribute("id"), first(copied, "book").get_attribute("id"))


def write(root: h.Element, out: Out) -> None:
    """A tree is written, in lines, as bytes and to a file."""
    out(h.xml.tostring(root.children[1]))
    lean = h.xml.parse("<a><b><c x='1'/><d>t</d></b><e/></a>")
    out(h.xml.tostring(lean, pretty=True))
    accent = root_of(h.xml.parse("<a>caf\u00e9 \u2603</a>"))
    out(h.xml.tostring(accent, encoding="ascii"), h.xml.tostring(accent, encoding="utf-8"))
    file = io.BytesIO()
    h.xml.write(lean, file, declaration=False)
    out(file.getvalue())


def feed(out: Out) -> None:
    """A document is parsed in pieces."""
    parser = h.xml.Parser()
    for piece in ("<shelf><bo", "ok id='x'/></sh", "elf>"):
        parser.feed(piece)
    out(root_of(parser.close()).children[0].get_attribute("id"))


def faults(out: Out) -> None:
    """A text that is not well-formed is refused."""
    try:
        h.xml.parse("<shelf><book></shelf>")
    except h.Malformed as fault:
        out("refused on line", fault.lineno)


def main(out: Out) -> None:
    """The whole program; it says each line to a function."""
    tree = read(out)
    search(tree, out)
    names(tree, out)
    change(tree, out)
    root = make()
    out([it.tag_name if isinstance(it, h.Element) else "comment" for it in root if not isinstance(it, h.Text)], repr(root.children[0].tail))
    copies(root, out)
    write(root, out)
    sort(root, out)
    feed(out)
    faults(out)


if __name__ == "__main__":
    main(print)
