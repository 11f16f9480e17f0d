"""Finding and reading beside the standard's members, against lxml, soupsieve over BeautifulSoup, and expat; and writing to files."""
import importlib.util
import io
import os
import pathlib
import subprocess
import sys
import tempfile
import unittest
import warnings
from unittest import mock

import huckleport as h


def needs(*names):
    missing = [it for it in names if importlib.util.find_spec(it) is None]
    return unittest.skipIf(missing, f"{' and '.join(missing)} is not here")


PAGE = """<!DOCTYPE html><html lang=en><head><title> A
 page </title><meta charset=utf-8></head><body class="x y">
<h1 id=top>One <b>two</b> three</h1><!-- c -->
<div class="box a"><p>first<p class="a b">second <i>in</i> it<p id=p3>third</div>
<div class=box><ul><li>1<li class=a>2<li>3<li class="a b">4<li>5</ul><input type=checkbox checked><input type=text disabled><a href=/x>x</a><a>y</a></div>
<form><input type=radio name=r><select><option selected>o<option>p</select><textarea required></textarea></form>
<p lang=fr>quatre</p><p></p><p> </p><section dir=rtl><p title="a-b c">last</p></section></body></html>"""

SELECTORS = """
*; html; body > div; div p; .box; .a.b; #top; p#p3; h1 + div; h1 ~ p; [class]; [class=box]; [class~=a]; [title|=a]; [title^="a-"]; [title$=c]; [title*="b c"]
li:first-child; li:last-child; li:nth-child(2); li:nth-child(odd); li:nth-child(2n+1); li:nth-last-child(2); li:nth-child(-n+3); li:nth-child(2 of .a)
p:first-of-type; p:last-of-type; p:nth-of-type(2); p:only-child; p:only-of-type; :root; p:empty; li:not(.a); :is(h1, b); :where(i, b); div:has(> ul); li:has(+ .a)
:checked; :disabled; :enabled; :required; :link; :any-link; p:lang(fr); :lang(en) > b; :scope > head; b, i, li.a; div > p + p; body div ul > li ~ li
option:checked; input:not([type=text]):checked; P; LI.A; [CLASS=box]; section:dir(rtl); p:dir(rtl); p:-soup-contains("second"); :indeterminate; :default
""".replace("\n", ";").split(";")
XML = """<?xml version="1.0"?><a xmlns="urn:d" xmlns:q="urn:q" k="0"><q:b q:k="1">t<q:c/>u</q:b><B/><b>v</b><d xmlns="">w<b xmlns="urn:d"/></d></a>"""
SPACES = {"d": "urn:d", "q": "urn:q"}
XML_SELECTORS = ("b", "B", "q|b", "d|b", "*|b", "d|*", "q|*", "[q|k]", "[k='0']", "q|b > q|c", "d|a > *", "*:empty", "d|b:last-of-type")


def place(of, node):
    """Where an element stands among all elements of a tree."""
    return next((at for at, it in enumerate(of) if it is node), None)


@needs("soupsieve", "bs4", "html5lib")
class Selectors(unittest.TestCase):
    def setUp(self):
        import bs4

        self.page, self.soup = h.html.parse(PAGE), bs4.BeautifulSoup(PAGE, "html5lib")
        self.ours, self.theirs = list(self.page.iter()), self.soup.find_all(True)

    def test_as_soupsieve(self):
        self.assertEqual([it.tag_name for it in self.ours], [it.name for it in self.theirs])
        count = 0
        for it in filter(None, map(str.strip, SELECTORS)):
            due = [place(self.theirs, found) for found in self.soup.select(it)]
            self.assertEqual([place(self.ours, found) for found in self.page.select(it)], due, it)
            if ":scope" not in it:
                self.assertEqual([at for at, found in enumerate(self.ours) if found.matches(it)], due, it)
            count += len(due)
        self.assertGreater(count, 130)

    def test_closest_and_below(self):
        for selectors in ("div", ".box", ":is(body, li)", "html", "none", "i"):
            for ours, theirs in zip(self.ours, self.theirs):
                import soupsieve

                due, found = soupsieve.closest(selectors, theirs), ours.closest(selectors)
                self.assertEqual(place(self.ours, found), place(self.theirs, due), (selectors, ours))
        for ours, theirs in zip(self.ours, self.theirs):
            for selectors in ("p, li", ":scope > *", ":scope > * > *", "b"):
                due = [place(self.theirs, it) for it in theirs.select(selectors)]
                self.assertEqual([place(self.ours, it) for it in ours.select(selectors)], due, (selectors, ours))

    def test_limit_and_one(self):
        self.assertEqual([it.text for it in self.page.select("li", limit=2)], ["1", "2"])
        self.assertEqual(self.page.select_one("li").text, "1")
        self.assertIsNone(self.page.select_one("none"))

    def test_namespaces(self):
        """A name stands without its prefix, as in a browser."""
        document = h.xml.parse(XML)
        found = {it: [place(list(document.iter()), one) for one in document.select(it, SPACES)] for it in XML_SELECTORS}
        due = {"b": [1, 4, 6], "B": [3], "q|b": [1], "d|b": [4, 6], "*|b": [1, 4, 6], "d|*": [0, 3, 4, 6], "q|*": [1, 2]}
        due.update({"[q|k]": [1], "[k='0']": [0], "q|b > q|c": [2], "d|a > *": [1, 3, 4, 5], "*:empty": [2, 3, 6], "d|b:last-of-type": [4, 6]})
        self.assertEqual(found, due)

    def test_fragments_and_loose_elements(self):
        fragment = h.html.parse_fragment("<li>1<li class=a>2<li>3")
        self.assertEqual([it.text for it in fragment.select("li:nth-child(2), li:last-child")], ["2", "3"])
        loose = h.Session().document.create_element("div")
        loose.append(loose.node_document.create_element("p"))
        self.assertTrue(loose.matches("div:has(p)"))
        self.assertEqual(loose.select("div > p"), loose.children)

    def test_what_is_no_selector(self):
        for it in ("p[", "", ":nonsense", "a >", "::before"):
            with self.assertRaises(h.BadValue) as caught:
                self.page.select(it)
            self.assertIn("is not a valid selector", str(caught.exception))

    def test_classes(self):
        for names in ("a", "a b", "b  a", "box", "none", ""):
            due = [place(self.theirs, it) for it in self.theirs if names.split() and set(names.split()) <= set(it.get("class", []))]
            self.assertEqual([place(self.ours, it) for it in self.page.get_elements_by_class_name(names)], due, names)


@needs("elementpath", "lxml")
class Paths(unittest.TestCase):
    PATHS = (
        "//b//q:b|//d:b|//d:b/text()|/d:a|/d:a/*|//*[@k]|//@k|//@q:k|count(//*)|string(/d:a)|boolean(//q:c)|local-name(//*[2])|namespace-uri(//*[2])"
        "|//q:c/..|//q:c/following::*|//d:b/preceding-sibling::*|//*[text()='v']|//*[last()]|//*[position()=2]|//*[not(*)]|sum(//@k)|//d:b[1]/ancestor::*|concat('a','b')"
        "|//*[starts-with(., 'w')]|/*/*[1]/node()|1 = 1|7 mod 4|normalize-space(' a  b ')|id('x')|//none"
    ).split("|")

    def both(self, path, ours, theirs):
        found, due = ours.xpath(path, SPACES), theirs.xpath(path, namespaces=SPACES)
        if not isinstance(due, list):
            self.assertEqual(found, due, path)
            return
        ours, theirs = list(ours.get_root_node().iter()), list(theirs.getroottree().iter("*"))
        mine = [place(ours, it) if isinstance(it, h.Node) else it for it in found]
        self.assertEqual(mine, [place(theirs, it) if hasattr(it, "tag") else str(it) for it in due], path)

    def test_as_lxml(self):
        from lxml import etree

        theirs = etree.fromstring(XML.encode())
        document = h.xml.parse(XML)
        for it in self.PATHS:
            self.both(it, document.document_element, theirs)

    def test_from_each_element(self):
        from lxml import etree

        theirs = etree.fromstring(XML.encode())
        document = h.xml.parse(XML)
        for ours, its in zip(document.iter(), theirs.iter("*")):
            self.assertEqual(ours.xpath(".."), [ours.parent_node])
            for path in (".", "*", "text()", "@*[local-name() = 'k']", "preceding::*", "count(ancestor::*)", "//d:b[2]"):
                self.both(path, ours, its)

    def test_of_a_document(self):
        document = h.xml.parse(XML)
        self.assertEqual(document.xpath("/d:a", SPACES), [document.document_element])
        self.assertEqual(document.xpath("count(/*)"), 1)

    def test_what_is_no_path(self):
        for it in ("//[", "a b", "x:y", "count("):
            with self.assertRaises(h.BadValue):
                h.xml.parse("<a/>").xpath(it)


class Missing(unittest.TestCase):
    def test_it_is_told(self):
        """Where a package is missing, what needs it says so."""
        for call, name in (("select('p')", b"soupsieve"), ("xpath('p')", b"elementpath")):
            words = f"import sys; sys.path.insert(0, {os.path.dirname(os.path.dirname(h.__file__))!r}); import huckleport; huckleport.Session().document.{call}"
            ran = subprocess.run([sys.executable, "-S", "-E", "-c", words], stdout=subprocess.PIPE, stderr=subprocess.STDOUT)
            self.assertEqual(ran.returncode, 1)
            self.assertIn(b"NoParser", ran.stdout)
            self.assertIn(b"pip install " + name, ran.stdout)


class Reading(unittest.TestCase):
    @needs("lxml")
    def test_text_and_tail_as_lxml(self):
        from lxml import etree

        for source in ("<a>b<c/>d<!--e-->f<g>h</g><?i j?>k</a>", "<a/>", "<a><b/></a>", "<a>x<b>y<c>z</c></b>w</a>"):
            theirs, document = etree.fromstring(source), h.xml.parse(source)
            due = [(it.text, it.tail) for it in theirs.iter("*")]
            self.assertEqual([(it.text, it.tail) for it in document.iter()], due)
            self.assertEqual(list(document.document_element.itertext()), [str(it) for it in theirs.itertext(etree.Element)])
            self.assertEqual([it.tag_name for it in document.iter("b", "c")], [it.tag for it in theirs.iter("b", "c")])

    def test_side_by_side(self):
        root = h.xml.parse("<a>x<b/></a>").document_element
        root.first_child.after("y", "")
        root.append("z", "w")
        self.assertEqual((root.text, root.first_element_child.tail, root.tail), ("xy", "zw", None))

    def test_elements_beside(self):
        root = h.xml.parse("<a>1<b/>2<!--x--><c/>3<d/>4</a>").document_element
        b, c, d = root.children
        self.assertEqual((root.first_element_child, root.last_element_child, root.child_element_count), (b, d, 3))
        self.assertEqual((b.next_element_sibling, c.next_element_sibling, d.next_element_sibling), (c, d, None))
        self.assertEqual((b.previous_element_sibling, c.previous_element_sibling, d.previous_element_sibling), (None, b, c))
        self.assertEqual((b.first_element_child, b.last_element_child, b.child_element_count), (None, None, 0))
        self.assertIs(root.first_child.next_element_sibling, b)

    def test_names(self):
        found = [(it.prefix, it.local_name, it.namespace_uri) for it in h.xml.parse(XML).iter()]
        d, q = "urn:d", "urn:q"
        self.assertEqual(found, [(None, "a", d), ("q", "b", q), ("q", "c", q), (None, "B", d), (None, "b", d), (None, "d", None), (None, "b", d)])
        b = h.xml.parse(XML).document_element.first_element_child
        self.assertEqual([b.lookup_namespace_uri(it) for it in ("q", None, "none", "xml")], [q, d, None, "http://www.w3.org/XML/1998/namespace"])

    def test_namespaces_are_kept(self):
        self.assertEqual(h.xml.tostring(h.xml.parse(XML)), XML.replace('<?xml version="1.0"?>', "").replace("<q:c/>", "<q:c/>"))


class Pages(unittest.TestCase):
    def setUp(self):
        if not h.html.PARSER:
            self.skipTest("there is no parser of HTML")
        self.page = h.html.parse(PAGE)

    def test_parts(self):
        page = self.page
        self.assertEqual((page.head.tag_name, page.body.tag_name, page.title), ("head", "body", "A page"))
        page.title = "other <1>"
        self.assertEqual((page.title, page.get_elements_by_tag_name("title")[0].inner_html), ("other <1>", "other &lt;1&gt;"))
        page.get_elements_by_tag_name("title")[0].remove()
        self.assertEqual(page.title, "")
        page.title = "new"
        self.assertEqual((page.head.last_child.tag_name, page.title), ("title", "new"))
        empty = h.Session().document
        empty.title = "x"
        self.assertEqual((empty.head, empty.body, empty.title, empty.first_child), (None, None, "", None))
        frames = h.html.parse("<frameset><frame></frameset>")
        self.assertEqual(frames.body.tag_name, "frameset")

    def test_inner_and_outer(self):
        cell = h.html.parse("<table><tr id=r><td>1</table>").get_element_by_id("r")
        cell.inner_html = "<td>2<td>&lt;"
        self.assertEqual((cell.inner_html, cell.child_element_count), ("<td>2</td><td>&lt;</td>", 2))
        self.assertEqual(cell.outer_html, '<tr id="r"><td>2</td><td>&lt;</td></tr>')
        heading = self.page.get_element_by_id("top")
        heading.outer_html = "<h2>x</h2>y"
        self.assertIsNone(heading.parent_node)
        self.assertEqual(self.page.body.first_element_child.outer_html, "<h2>x</h2>")
        heading.outer_html = "<p>nothing happens"
        self.assertEqual(heading.tag_name, "h1")

    def test_undone(self):
        history = h.History(self.page)
        before = h.html.serialize(self.page)
        with history.group():
            self.page.body.inner_html = "<p>a<p>b"
        self.assertTrue(history.undo())
        self.assertEqual(h.html.serialize(self.page), before)

    def test_lines(self):
        page = h.html.parse("<ul><li>x<li><b>y</b></ul><pre><b>x</b></pre><p>a<i>b</i></p>")
        due = "<html>\n  <head></head>\n  <body>\n    <ul>\n      <li>x</li>\n      <li>\n        <b>y</b>\n      </li>\n    </ul>\n"
        due += "    <pre><b>x</b></pre>\n    <p>a<i>b</i></p>\n  </body>\n</html>\n"
        self.assertEqual(h.html.tostring(page, pretty=True), due)
        self.assertEqual(h.html.tostring(page.body.last_child, encoding="ascii"), b"<p>a<i>b</i></p>")

    def test_pieces(self):
        parser = h.html.Parser()
        for at in range(0, len(PAGE), 7):
            parser.feed(PAGE[at : at + 7])
        self.assertEqual(h.html.serialize(parser.close()), h.html.serialize(self.page))


class Files(unittest.TestCase):
    def setUp(self):
        folder = tempfile.TemporaryDirectory()
        self.addCleanup(folder.cleanup)
        self.path = pathlib.Path(folder.name) / "x.xml"

    def test_paths_and_files(self):
        document = h.xml.parse("<a>\xe9<b/></a>")
        h.xml.write(document, self.path)
        self.assertEqual(self.path.read_bytes(), b'<?xml version="1.0" encoding="utf-8"?>\n<a>\xc3\xa9<b/></a>')
        self.assertTrue(h.xml.parse(self.path, document.session).is_equal_node(document))
        with open(self.path, "rb") as file:
            self.assertTrue(h.xml.parse(file, document.session).is_equal_node(document))
        with open(self.path, encoding="utf-8") as file:
            self.assertTrue(h.xml.parse(file, document.session).is_equal_node(document))
        h.xml.write(document, str(self.path), encoding="iso-8859-1")
        self.assertTrue(h.xml.parse(self.path, document.session).is_equal_node(document))
        for it in (5, None, ["<a/>"]):
            self.assertRaises(h.BadType, h.xml.parse, it)
        with self.assertRaises(FileNotFoundError):
            h.xml.parse(self.path.with_name("none"))

    def test_pages(self):
        if not h.html.PARSER:
            self.skipTest("there is no parser of HTML")
        page, file = h.html.parse(PAGE), io.BytesIO()
        h.html.write(page, file)
        file.seek(0)
        self.assertTrue(h.html.parse(file, page.session).is_equal_node(page))

    def test_pieces(self):
        for source in ("<a>\xe9</a>", "<a>\xe9</a>".encode()):
            parser = h.xml.Parser()
            for at in range(len(source)):
                parser.feed(source[at : at + 1])
            self.assertEqual(parser.close().document_element.text, "\xe9")
        parser.feed("<a>")
        self.assertRaises(h.BadType, parser.feed, b"</a>")
        self.assertRaises(h.Malformed, parser.close)
        self.assertRaises(h.Malformed, parser.close)

    def test_encodings(self):
        root = h.xml.parse("<a k='\u2603'>\xe9\u2603</a>").document_element
        self.assertEqual(h.xml.tostring(root, encoding="ascii"), b'<a k="&#9731;">&#233;&#9731;</a>')
        found = h.xml.tostring(root, encoding="iso-8859-1")
        self.assertEqual(found, b'<?xml version="1.0" encoding="iso-8859-1"?>\n<a k="&#9731;">\xe9&#9731;</a>')
        for coding in ("utf-8", "utf-16", "iso-8859-1", "ascii"):
            back = h.xml.parse(h.xml.tostring(root, encoding=coding), root.session)
            self.assertTrue(back.document_element.is_equal_node(root), coding)
        self.assertEqual(h.xml.tostring(root, declaration=True), '<?xml version="1.0"?>\n<a k="\u2603">\xe9\u2603</a>')
        for source in ("<a><!--\u2603--></a>", "<a><\u0101/></a>", "<a><?b \u2603?></a>"):
            self.assertRaises(h.NotXML, h.xml.tostring, h.xml.parse(source), encoding="ascii")

    @needs("lxml")
    def test_lines_as_lxml(self):
        from lxml import etree

        for source in (
            "<a><b><c x='1'/><d>t</d></b><e/></a>",
            "<a>t<b><c/></b></a>",
            "<a><b>t<c><d/></c></b><!--x--><?y z?><e><f><g/></f></e></a>",
            "<a/>",
            "<a> <b/></a>",
        ):
            root, due = h.xml.parse(source).document_element, etree.tostring(etree.fromstring(source), pretty_print=True, encoding="unicode")
            before = h.xml.serialize(root)
            self.assertEqual(h.xml.tostring(root, pretty=True), due)
            self.assertEqual(h.xml.serialize(root), before)


class Parsers(unittest.TestCase):
    def found(self, name):
        """Returns the parser that is used if one of a name is found, and the warnings about it."""
        known = {key: it for key, it in vars(h.html).items() if key != "PARSER"}
        with mock.patch.dict(vars(h.html), {**known, "_found": lambda: name}, clear=True), warnings.catch_warnings(record=True) as told:
            warnings.simplefilter("always")
            return h.html._parser(), h.html._parser(), h.html.PARSER, [it.category for it in told]

    def test_the_slow_one_is_told(self):
        self.assertEqual(self.found("html5lib"), (*["html5lib"] * 3, [h.html.SlowParser]))
        self.assertEqual(self.found("html5-parser"), (*["html5-parser"] * 3, []))


class LeftOut(unittest.TestCase):
    """Declarations of a doctype that are not kept are warned of."""

    def told(self, source):
        with warnings.catch_warnings(record=True) as found:
            warnings.simplefilter("always")
            document = h.xml.parse(source)
        self.assertTrue(all(it.category is h.xml.LeftOut for it in found))
        return document, [str(it.message) for it in found]

    def test_nothing(self):
        for source in ("<a>&amp;</a>", "<!DOCTYPE a><a/>", "<!DOCTYPE a SYSTEM 'x.dtd'><a>&lt;</a>"):
            self.assertEqual(self.told(source)[1], [])

    def test_declarations(self):
        document, told = self.told("<!DOCTYPE a [<!ENTITY q 'r'><!ATTLIST a k CDATA 'v'>]><a>&q;</a>")
        self.assertEqual(told, ["the declarations within the doctype are not kept"])
        self.assertEqual((document.document_element.text, document.document_element.get_attribute("k")), ("r", "v"))

    def test_outer_entities(self):
        document, told = self.told(b"<!DOCTYPE a SYSTEM 'x.dtd'><a>1&one;2&two;3&one;</a>")
        self.assertEqual(told, ["entities that are declared outside are left out: &one;, &two;"])
        self.assertEqual(document.document_element.text, "123")

    def test_unknown_entities(self):
        self.assertRaises(h.Malformed, h.xml.parse, "<a>&none;</a>")


if __name__ == "__main__":
    unittest.main()
