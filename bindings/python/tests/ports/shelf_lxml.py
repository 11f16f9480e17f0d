"""The catalogue of a small library, kept by lxml: made, read, searched, changed, written."""
import io

from lxml import etree

NOTES = "urn:example:notes"
SOURCE = """<?xml version="1.0"?>
<!-- kept by hand -->
<shelf xmlns:n="urn:example:notes" room="3">
  <book id="b1" year="1963"><title>Gulls of the <em>North</em> Sea</title><author>A. Moe</author><n:note>torn</n:note></book>
  <book id="b2" year="1971"><title>Tides</title><author>B. Lund</author><author>C. Dahl</author></book>
  <book id="b3"><title>Charts &amp; Knots</title><author>A. Moe</author></book>
  <?order by="year"?>
</shelf>
"""


def make():
    """A tree is made element by element."""
    root = etree.Element("shelf", room="4")
    for number, (title, year) in enumerate((("Sails", "1950"), ("Ropes", "1955"), ("Bells", "1949"))):
        book = etree.SubElement(root, "book", id=f"s{number}")
        book.set("year", year)
        etree.SubElement(book, "title").text = title
    root.append(etree.Comment(" more to come "))
    root.insert(0, etree.Element("keeper"))
    root[0].text = "E. Berg"
    root[0].tail = "\n"
    return root


def about(book):
    """A line about a book."""
    title = "".join(book.find("title").itertext())
    authors = ", ".join(it.text for it in book.findall("author")) or "nobody"
    return f"{book.get('id')}: {title} by {authors}, {book.get('year', 'no year')}"


def read(out):
    """A document is parsed, and its content is printed."""
    tree = etree.parse(io.BytesIO(SOURCE.encode()))
    root = tree.getroot()
    out(root.tag, dict(root.attrib), len(root), root.get("room"))
    for book in root.iter("book"):
        out(about(book))
    title = root[0][0]
    out(repr(title.text), title[0].tag, repr(title[0].text), repr(title[0].tail))
    out([it.tag for it in root.iter("title", "author")])
    out(root[1].getnext().get("id"), root[1].getprevious().get("id"), root[1].getparent().tag, root.index(root[2]))
    return tree


def search(tree, out):
    """Paths find elements, attributes and texts."""
    root = tree.getroot()
    out([it.get("id") for it in root.xpath("//book[@year > 1965]")])
    out(root.xpath("count(//author)"), root.xpath("string(//book[2]/title)"), root.xpath("boolean(//map)"))
    out(root.xpath("//book/@year"), root.xpath("//book[author='A. Moe']/title/text()"))
    out([it.text for it in root.xpath("//n:note", namespaces={"n": NOTES})])
    out(root.xpath("//book[last()]")[0].get("id"), len(root.xpath("//processing-instruction()")), root.xpath("//em/ancestor::book/@id"))
    out([it.get("id") for it in root.cssselect("book:nth-child(2), book:not([year])")])


def names(tree, out):
    """Names and their namespaces."""
    note = tree.getroot().xpath("//n:note", namespaces={"n": NOTES})[0]
    out(etree.QName(note).localname, etree.QName(note).namespace, note.prefix)
    out(sorted(note.nsmap.items()))


def change(tree, out):
    """Elements come, go and move."""
    root = tree.getroot()
    first, second, third = root.findall("book")
    root.remove(second)
    out([it.get("id") for it in root.iter("book")])
    first.addprevious(third)
    out([it.get("id") for it in root.iter("book")])
    del first.attrib["year"]
    first.set("lent", "yes")
    out(sorted(first.attrib.items()))
    for author in root.iter("author"):
        author.text = author.text.replace("A. Moe", "Anna Moe")
    out([it.text for it in root.iter("author")])
    third.replace(third.find("title"), etree.fromstring("<title>Charts</title>"))
    out(about(third))
    for it in list(first):
        if it.tag == f"{{{NOTES}}}note":
            first.remove(it)
    out(len(first), first.find("author") is not None)


def sort(root, out):
    """Elements are put in the order of an attribute."""
    books = sorted(root.findall("book"), key=lambda it: int(it.get("year")))
    for book in books:
        root.append(book)
    out([it.get("year") for it in root.findall("book")])
    books[0].attrib.update({"oldest": "yes", "year": "about 1949"})
    out(etree.tostring(books[0], encoding="unicode"))
    out([it.get("id") for it in books[0].itersiblings()], [it.tag for it in books[-1].iterancestors()])


def copies(root, out):
    """A copy is a tree of its own."""
    copied = etree.fromstring(etree.tostring(root))
    copied.find("book").set("id", "other")
    out(root.find("book").get("id"), copied.find("book").get("id"))


def write(root, out):
    """A tree is written, in lines, as bytes and to a file."""
    out(etree.tostring(root[1], encoding="unicode", with_tail=False))
    lean = etree.fromstring("<a><b><c x='1'/><d>t</d></b><e/></a>")
    out(etree.tostring(lean, pretty_print=True, encoding="unicode"))
    accent = etree.fromstring("<a>caf\u00e9 \u2603</a>")
    out(etree.tostring(accent), etree.tostring(accent, encoding="utf-8"))
    file = io.BytesIO()
    etree.ElementTree(lean).write(file, encoding="utf-8")
    out(file.getvalue())


def feed(out):
    """A document is parsed in pieces."""
    parser = etree.XMLParser()
    for piece in ("<shelf><bo", "ok id='x'/></sh", "elf>"):
        parser.feed(piece)
    out(parser.close()[0].get("id"))


def faults(out):
    """A text that is not well-formed is refused."""
    try:
        etree.fromstring("<shelf><book></shelf>")
    except etree.XMLSyntaxError as fault:
        out("refused on line", fault.lineno)


def main(out):
    """The whole program; it says each line to a function."""
    tree = read(out)
    search(tree, out)
    names(tree, out)
    change(tree, out)
    root = make()
    out([it.tag if isinstance(it.tag, str) else "comment" for it in root], repr(root[0].tail))
    copies(root, out)
    write(root, out)
    sort(root, out)
    feed(out)
    faults(out)


if __name__ == "__main__":
    main(print)
