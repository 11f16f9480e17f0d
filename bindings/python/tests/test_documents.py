"""Documents in and out: a parsed tree has the nodes of each parser's own tree, and a written one gives the same tree again."""
import os
import random
import subprocess
import sys
import tempfile
import time
import unittest
import warnings
from unittest import mock
from xml.dom import minidom
from xml.parsers import expat
from xml.parsers.expat import ExpatError

import huckleport as h
from huckleport._calls import Builder
from tests import pages
from tests.rows import is_there, joined, of_lxml, of_minidom, ours

HTML5LIB = unittest.skipUnless(is_there("html5lib"), "there is no html5lib")
LXML = unittest.skipUnless(is_there("lxml"), "there is no lxml")


# Pages whose trees by html5lib and lxml no XML can hold: comments with two strokes, an instruction of the name xml.
NO_XML_OF_HTML5LIB, NO_XML_OF_LXML = ["comments"], ["comments", "pi"]


def their_page(text):
    import html5lib

    found = html5lib.parse(text, treebuilder="dom")
    return of_minidom(found)


def written(rows):
    """Rows as HTML writes them: a doctype has its name alone."""
    return [(*row[:3], ("", ""), None) if row[1] == 10 else row for row in rows]


class Parsed:
    """Pages by a parser against the tree that html5lib has of them, or the HTML Standard where html5lib is older than its rule."""

    PARSER = ""
    DUE: dict = {}

    def setUp(self):
        chosen = mock.patch.dict(h.html.__dict__, {"PARSER": self.PARSER})
        chosen.start()
        self.addCleanup(chosen.stop)

    def test_pages(self):
        self.assertGreaterEqual(len(pages.PAGES), 20)
        for name, text in pages.PAGES.items():
            with self.subTest(name):
                document = h.html.parse(text)
                self.assertEqual(ours(document), self.DUE.get(name) or their_page(text))
                again = h.html.serialize(document)
                self.assertEqual(ours(h.html.parse(again)), joined(written(ours(document))), again)

    def test_large_page(self):
        text = pages.large()
        document = h.html.parse(text)
        rows = ours(document)
        self.assertGreaterEqual(sum(it[1] == 1 for it in rows), 10000)
        self.assertEqual(rows, their_page(text))
        self.assertEqual(ours(h.html.parse(h.html.serialize(document))), rows)

    def test_parts(self):
        import html5lib

        document = h.Session().document
        for container, texts in pages.PARTS.items():
            for text in texts:
                with self.subTest(text, container=container):
                    fragment = h.html.parse_fragment(text, container, document)
                    theirs = html5lib.parseFragment(text, container, treebuilder="dom")
                    self.assertEqual(ours(fragment), of_minidom(theirs))
        self.assertEqual(document.child_nodes, [])

    def test_bytes(self):
        raw = "<meta charset=iso-8859-1><p>\u00e9".encode("latin-1")
        self.assertEqual(h.html.parse(raw).get_elements_by_tag_name("p")[0].text_content, "\u00e9")

    def test_names_that_are_refused(self):
        document = h.html.parse("<p =a b=c>x")
        self.assertEqual(document.get_elements_by_tag_name("p")[0].get_attribute_names(), ["b"])

    def test_strange_names_of_elements(self):
        self.assertEqual([it.tag_name for it in h.html.parse('<p><a"b>').document_element.descendants(h.Element)][-1], 'a"b')

    def test_what_stands_ahead_of_a_doctype(self):
        document = h.html.parse("<!-- one --><!DOCTYPE html><!-- two --><p>x</p></html><!-- three -->")
        self.assertEqual([it.node_name for it in document], ["#comment", "html", "#comment", "html", "#comment"])
        self.assertEqual([it.data for it in document if isinstance(it, h.Comment)], [" one ", " two ", " three "])

    def test_deep(self):
        """Twice as deep takes twice as long, and not four times: the standard's own steps look at all open elements, which costs little."""
        document = h.html.parse("<div>" * 3000 + "x")
        self.assertEqual(len(document.get_elements_by_tag_name("div")), 3000)


@HTML5LIB
class ByHtml5lib(Parsed, unittest.TestCase):
    PARSER = "html5lib"


@HTML5LIB
@unittest.skipUnless(is_there("html5_parser") and is_there("lxml"), "there is no html5-parser")
class ByHtml5Parser(Parsed, unittest.TestCase):
    PARSER = "html5-parser"
    # A template comes into the head while nothing of a body has come.
    DUE = {
        "template": [
            (1, 1, "html", (), None),
            (2, 1, "head", (), None),
            (3, 1, "template", (), None),
            (4, 1, "p", (), None),
            (5, 3, None, None, "inside"),
            (2, 1, "body", (), None),
            (3, 1, "p", (), None),
            (4, 3, None, None, "outside"),
        ]
    }

    def test_lone_surrogates(self):
        self.assertEqual(h.html.parse("<p>a\ud800b").document_element.text_content, "a\ufffdb")

    def test_foreign_attributes(self):
        document = h.html.parse("<svg viewBox=a xlink:href=b xml:lang=c><foreignObject>")
        self.assertEqual(dict(document.get_elements_by_tag_name("svg")[0].attributes), {"viewBox": "a", "xlink:href": "b", "xml:lang": "c"})


# Parts of pages that are put together at random.
MARKUP = [
    *("<p>", "</p>", "<b>", "</b>", "<i a=1 a=2>", "</i>", "<br>", "<ul>", "<li>", "</ul>", "<table>", "<tr>", "<td>", "</table>", "x", " y ", "\n", "&amp;", "&eacute;"),
    *("<!-- c -->", "<?pi x>", "<!doctype html>", "<html lang=en>", "<body c>", "</body>", "<head>", "<title>", "</title>", "<script>a<b</script>", "<o:p q:r=s>", "</o:p>"),
    *("<select>", "<option selected>", "<", ">", "&", "&#0;", "&#x1F600;", "<![CDATA[z]]>", "</", "<a href='u", "'>", "<frameset>", "<svg>", "</div>", "<meta charset=utf-8>"),
]


def bare(rows):
    """Rows without the prefixes of elements, and without the value of an attribute that is its name: libxml2 drops the one and adds the other."""
    found = []
    for depth, kind, name, pairs, data in rows:
        if kind == 1:
            name, pairs = name.rpartition(":")[2], tuple((it, "" if value == it else value) for it, value in pairs)
        found.append((depth, kind, name, pairs, data))
    return found


def _below(node):
    for it in node.child_nodes:
        yield it
        yield from _below(it)


@LXML
class ByLxml(unittest.TestCase):
    """Pages by lxml's own parser, which have the tree that lxml has of them. Only the names of elements keep their prefixes, and attributes without a
    value are empty, as the HTML Standard says."""

    PAGES = {
        **pages.PAGES,
        "large": pages.large(2000),
        "ahead": "<!-- one --><?two three?><!DOCTYPE html SYSTEM 'about:legacy-compat'><!-- four --><p>x</p></html><!-- five --><?six?>",
        "names": "<p =a b=c d e.f=1 xml:lang=en>t<x-y z><o:p></o:p></x-y>",
        "broken": "<p a='1>x</p><b <i>y</p </b><![CDATA[z]]><!doctype a><? ?><?1 2?></ ></1>",
    }

    def test_pages(self):
        from lxml import etree

        parser = etree.HTMLParser(huge_tree=True, default_doctype=False)
        for name, text in self.PAGES.items():
            for source in (text, text.encode("ascii", "xmlcharrefreplace")):
                with self.subTest(name, source=type(source)):
                    root = etree.fromstring(source, parser)
                    due = [] if root is None else joined(of_lxml(root.getroottree()))
                    self.assertEqual(bare(ours(h.html.parse(source, parser="lxml"))), bare(due))

    def test_what_is_there(self):
        document = h.html.parse("<!doctype html><p>a\ud800b<!--c--><br title='&eacute;' hidden>", parser="lxml")
        self.assertEqual(h.html.serialize(document), '<!DOCTYPE html><html><body><p>a\ufffdb<!--c--><br title="\xe9" hidden=""></p></body></html>')
        self.assertEqual(h.html.parse("<p>x", parser="lxml").child_nodes[0].node_name, "html")
        for empty in ("", " ", "<!-- a -->", b""):
            self.assertEqual(h.html.parse(empty, parser="lxml").child_nodes, [])

    def test_by_the_standard(self):
        document = h.html.parse("<input disabled value=''><o:p q:r=s>", parser="lxml")
        self.assertEqual(h.html.serialize(document.body, True), '<input disabled="" value=""><o:p q:r="s"></o:p>')

    def test_two_roots(self):
        """Nodes behind the end of the document's element go into it, and the order of the nodes is right."""
        for ahead in ("", "<!-- a -->", "<!doctype html>"):
            document = h.html.parse(f"{ahead}<html><body><b>x</b></body></html> <!-- z --> y", parser="lxml")
            root = document.document_element
            self.assertEqual(h.html.serialize(root), "<html><body><b>x</b></body><html><p> y</p></html></html>")
            self.assertEqual(document.last_child.data, " z ")
            self.assertEqual([it.number for it in document.descendants()], [it.number for it in _below(document)])
            self.assertEqual([it.text for it in document.descendants(h.Element)], [None, None, "x", None, " y"])

    def test_random_pages(self):
        """Markup at random has the tree that lxml has of it, if that has one root."""
        from lxml import etree

        chance, parser = random.Random(7), etree.HTMLParser(huge_tree=True, default_doctype=False)
        for _ in range(300):
            text = "".join(chance.choices(MARKUP, k=chance.randrange(1, 30)))
            root = etree.fromstring(text, parser) if text.strip() else None
            if root is None or len([it for it in (*root.itersiblings(preceding=True), *root.itersiblings()) if isinstance(it.tag, str)]):
                continue
            with self.subTest(text):
                self.assertEqual(bare(ours(h.html.parse(text, parser="lxml"))), bare(joined(of_lxml(root.getroottree()))))

    def test_target(self):
        document = h.Session().document
        builder = Builder(document._calls, document.number, document.number, True)
        with self.assertRaisesRegex(h.BadType, "a dict is due, and not list"):
            builder.start("a", [1])
        with self.assertRaises(TypeError):
            builder.data(1)
        builder.end("b")
        self.assertIsNone(builder.add_record())
        self.assertEqual(document.child_nodes, [])

    def test_bytes(self):
        raw = "<meta charset=iso-8859-1><p>\u00e9".encode("latin-1")
        self.assertEqual(h.html.parse(raw, parser="lxml").get_elements_by_tag_name("p")[0].text_content, "\u00e9")

    def test_deep(self):
        document = h.html.parse("<div>" * 3000 + "x", parser="lxml")
        self.assertEqual(len(document.get_elements_by_tag_name("div")), 3000)

    def test_pieces_and_sessions(self):
        session = h.Session()
        parser = h.html.Parser(session, parser="lxml")
        parser.feed("<p>o")
        parser.feed("ne")
        document = parser.close()
        self.assertIs(document.session, session)
        self.assertEqual(document.body.text_content, "one")

    def test_other_objects(self):
        """The core reads no object that is no page of html5-parser."""
        from lxml import etree

        document = h.Session().document
        for other in (object(), None, "a", etree.fromstring("<a/>")):
            with self.assertRaises(TypeError):
                Builder(document._calls, document.number, document.number, True).add_page(other, False)
        self.assertEqual(document.child_nodes, [])


class Chosen(unittest.TestCase):
    def test_unknown(self):
        with self.assertRaisesRegex(h.BadValue, "expected html5-parser, html5lib or lxml as the parser, not 'other'"):
            h.html.parse("<p>", parser="other")

    def test_missing(self):
        with mock.patch.object(h.html, "find_spec", lambda name: None):
            for name in ("html5-parser", "html5lib", "lxml"):
                with self.assertRaisesRegex(h.NoParser, f"{name} was chosen and is not here: pip install {name}"):
                    h.html.parse("<p>", parser=name)

    @HTML5LIB
    def test_another_than_is_used(self):
        with mock.patch.dict(h.html.__dict__, {"PARSER": "none"}), warnings.catch_warnings():
            warnings.simplefilter("error")
            self.assertEqual(h.html.parse("<p>x", parser="html5lib").body.text_content, "x")

    def told(self, *modules):
        """What the import says if these modules are here and no others."""
        package = os.path.dirname(os.path.dirname(os.path.abspath(h.__file__)))
        with tempfile.TemporaryDirectory() as folder:
            for it in modules:
                open(os.path.join(folder, f"{it}.py"), "w").close()
            words = f"import sys; sys.path[:0] = [{package!r}, {folder!r}]\nimport huckleport"
            ran = subprocess.run([sys.executable, "-S", "-E", "-c", words], stdout=subprocess.PIPE, stderr=subprocess.PIPE, check=True)
        return ran.stderr.decode()

    def test_the_slow_one_alone_is_told_at_the_import(self):
        self.assertRegex(self.told("html5lib"), "^<string>:2: SlowParser: pages are parsed by html5lib")
        for others in ((), ("lxml",), ("html5lib", "lxml"), ("html5lib", "html5_parser")):
            self.assertEqual(self.told(*others), "")


class WithoutParser(unittest.TestCase):
    def test_error(self):
        with mock.patch.dict(h.html.__dict__, {"PARSER": ""}):
            for parse in (h.html.parse, h.html.parse_fragment):
                with self.assertRaisesRegex(ImportError, "html5lib"):
                    parse("<p>a<p>b")

    def test_fresh_environment(self):
        """Where nothing but the package is there."""
        words = "import huckleport; print(repr(huckleport.html.PARSER)); huckleport.html.parse('<p>a<p>b')"
        package = os.path.dirname(os.path.dirname(os.path.abspath(h.__file__)))
        ran = subprocess.run([sys.executable, "-S", "-E", "-c", f"import sys; sys.path.insert(0, {package!r}); {words}"], stdout=subprocess.PIPE, stderr=subprocess.PIPE)
        self.assertEqual((ran.returncode, ran.stdout), (1, b"''\n"))
        self.assertIn(b"NoParser: HTML is parsed by html5-parser or html5lib, and neither is here: pip install html5lib", ran.stderr)


class Written(unittest.TestCase):
    def test_written(self):
        document = h.Session().document
        root = document.append_child(document.create_element("div"))
        root.set_attribute("title", 'a"b<c>&\u00a0')
        root.append("x<y>&\u00a0", document.create_comment("c"), document.create_element("br"), document.create_element("script"))
        root.last_child.append("a<b&c")
        due = '<div title="a&quot;b&lt;c&gt;&amp;&nbsp;">x&lt;y&gt;&amp;&nbsp;<!--c--><br><script>a<b&c</script></div>'
        self.assertEqual(h.html.serialize(document), due)
        self.assertEqual(h.html.serialize(root, inner=True), due[due.index(">") + 1 : -6])
        self.assertEqual(h.html.serialize(root.last_child, inner=True), "a<b&c")
        self.assertEqual(h.html.serialize(root.last_child.first_child), "a<b&c")
        self.assertEqual(h.html.serialize(document.create_text_node("a<b")), "a&lt;b")
        self.assertEqual(h.html.serialize(document.create_processing_instruction("t", "d")), "<?t d>")

    def test_texts_with_what_stands_between_texts(self):
        document = h.Session().document
        root = document.create_element("p")
        root.append("a\x7f<", document.create_element("b"), "c")
        root.set_attribute("x", "\x7f")
        root.set_attribute("y", '"')
        for write in (h.html.serialize, h.xml.serialize):
            self.assertIn('<p x="\x7f" y="&quot;">a\x7f&lt;<b', write(root))

    def test_children_of_what_has_no_end(self):
        document = h.Session().document
        line = document.create_element("br")
        line.append("hidden", document.create_element("b"))
        root = document.create_element("p")
        root.append(line, "seen")
        self.assertEqual(h.html.serialize(root), "<p><br>seen</p>")


class Xml(unittest.TestCase):
    def test_documents(self):
        self.assertGreaterEqual(len(pages.XML), 20)
        for name, text in pages.XML.items():
            with self.subTest(name):
                theirs = of_minidom(minidom.parseString(text.encode()))
                document = h.xml.parse(text)
                self.assertEqual(ours(document), theirs)
                again = h.xml.serialize(document)
                self.assertEqual(of_minidom(minidom.parseString(again.encode())), theirs, again)

    def test_bytes(self):
        for coding in ("utf-16", "iso-8859-1", "koi8-r", "us-ascii"):
            text = f"""<?xml version='1.0' encoding='{coding}'?><!DOCTYPE a [<!ENTITY e '{'>' * 3000}"'><!-- within -->]><!-- x --><a b='c'>t&e;</a>"""
            raw = text.encode(coding)
            theirs = of_minidom(minidom.parseString(raw))
            for source in (raw, bytearray(raw), memoryview(raw)):
                self.assertEqual(ours(h.xml.parse(source)), theirs, coding)
        latin = "<?xml version='1.0' encoding='iso-8859-1'?><a>\u00e9</a>"
        self.assertEqual(h.xml.parse(latin.encode("iso-8859-1")).document_element.text_content, "\u00e9")
        self.assertEqual(h.xml.parse(latin).document_element.text_content, "\u00e9")

    def test_what_is_no_source(self):
        for source in (None, 7, "<a>\ud800</a>", b"<?xml version='1.0' encoding='none such'?><a/>", b"<?xml version='1.0' encoding='none-such'?><a/>", b"<?xml version='1.0' encoding='gb2312'?><a/>"):
            with self.subTest(source), h.Session() as session:
                with self.assertRaises(Exception) as theirs:
                    expat.ParserCreate().Parse(source, True)
                self.assertRaises(type(theirs.exception), h.xml.parse, source, session)
                self.assertEqual(session.in_use().nodes, 1)

    def test_faults_are_those_of_expat(self):
        for text in pages.BROKEN:
            with self.subTest(text):
                with self.assertRaises(ExpatError) as theirs:
                    expat.ParserCreate().Parse(text, True)
                with self.assertRaises(ExpatError) as mine:
                    h.xml.parse(text)
                for name in ("args", "code", "lineno", "offset"):
                    self.assertEqual(getattr(mine.exception, name), getattr(theirs.exception, name))

    def test_broken(self):
        for text in pages.BROKEN:
            with self.subTest(text):
                with self.assertRaises(ExpatError):
                    minidom.parseString(text.encode())
                with self.assertRaises(ExpatError):
                    h.xml.parse(text)
                with h.Session() as session:
                    self.assertRaises(ExpatError, h.xml.parse, text, session)
                    self.assertRaises(h.NoSuchObject, session.node, 1)

    def test_large(self):
        text = f"<r>{''.join(f'<e a=' + chr(39) + str(at) + chr(39) + f'>t{at}<f/></e>' for at in range(5000))}</r>"
        document = h.xml.parse(text)
        self.assertEqual(len(document.get_elements_by_tag_name("*")), 10001)
        self.assertEqual(ours(document), of_minidom(minidom.parseString(text)))
        self.assertEqual(h.xml.serialize(document), text.replace("'", '"'))

    def test_what_no_xml_can_hold(self):
        document = h.Session().document
        make = document.create_comment
        for node in (make("a--b"), make("a-"), document.create_text_node("\ud800"), document.create_text_node("\x01")):
            with self.assertRaises(ValueError):
                h.xml.serialize(node)
        with self.assertRaises(ValueError):
            h.xml.serialize(document.create_processing_instruction("xml", "d"))
        with self.assertRaises(ValueError):
            h.xml.serialize(document.create_element('a"b'))

    def test_deep(self):
        text = "<a>" * 20000 + "</a>" * 20000
        self.assertEqual(h.xml.serialize(h.xml.parse(text)), text.replace("<a></a>", "<a/>"))

    def test_depth_costs_no_square(self):
        def seconds(depth):
            text, found = "<a>" * depth + "</a>" * depth, 9.0
            for _ in range(3):
                begin = time.process_time()
                h.xml.parse(text)
                found = min(found, time.process_time() - begin)
            return found

        # (of the square it would be sixteen times as long)
        self.assertLess(seconds(40000), 8 * seconds(10000))


@LXML
class Lxml(unittest.TestCase):
    def test_there_and_back(self):
        from lxml import etree

        parser = etree.XMLParser(strip_cdata=False, huge_tree=True)
        for name, text in pages.XML.items():
            with self.subTest(name):
                tree = etree.fromstring(text.encode(), parser).getroottree()
                document = h.from_lxml(tree)
                self.assertEqual(sorted_rows(ours(document)), sorted_rows(of_minidom(minidom.parseString(text.encode()))))
                back = h.to_lxml(document)
                self.assertEqual(etree.tostring(back, method="c14n"), etree.tostring(tree, method="c14n"))
                self.assertEqual(back.docinfo.doctype, tree.docinfo.doctype)

    def test_elements(self):
        from lxml import etree

        element = etree.fromstring("<a><b x='1'>t</b>tail</a>")[0]
        found = h.from_lxml(element)
        self.assertEqual(h.xml.serialize(found), '<b x="1">t</b>')
        self.assertIsNone(found.parent_node)
        self.assertEqual(etree.tostring(h.to_lxml(found)), b'<b x="1">t</b>')
        with self.assertRaises(TypeError):
            h.to_lxml(found.first_child)

    def test_pages(self):
        from lxml import html

        for name, text in pages.PAGES.items():
            if not text:
                # (lxml refuses it)
                continue
            with self.subTest(name):
                tree = html.document_fromstring(text).getroottree()
                document = h.from_lxml(tree)
                self.assertEqual(ours(document), of_lxml(tree))
                self.there_and_back(document, name in NO_XML_OF_LXML)

    def there_and_back(self, document, is_held_by_none):
        """lxml has the same tree, where XML can hold it."""
        if is_held_by_none:
            self.assertRaises(ValueError, h.to_lxml, document)
        else:
            self.assertEqual(of_lxml(h.to_lxml(document)), joined(ours(document)))

    @HTML5LIB
    def test_pages_by_html5lib(self):
        for name, text in pages.PAGES.items():
            with self.subTest(name):
                self.there_and_back(h.html.parse(text), name in NO_XML_OF_HTML5LIB)

    def test_what_lxml_has_not(self):
        document = h.Session().document
        with self.assertRaises(ValueError):
            h.to_lxml(document)
        root = document.append_child(document.create_element("x:a"))
        root.set_attribute("y:b", "1")
        self.assertEqual(of_lxml(h.to_lxml(document)), [(1, 1, "x:a", (("y:b", "1"),), None)])
        root.set_attribute("xmlns:p", "urn:u")
        root.set_attribute("xmlns:q", "urn:u")
        root.set_attribute("p:x", "1")
        root.set_attribute("q:x", "2")
        with self.assertRaises(ValueError):
            h.to_lxml(document)

    def test_large_page(self):
        from lxml import html

        tree = html.document_fromstring(pages.large())
        document = h.from_lxml(tree)
        self.assertGreaterEqual(len(document.get_elements_by_tag_name("*")), 9990)
        self.assertEqual(html.tostring(h.to_lxml(document), method="xml"), html.tostring(tree, method="xml"))


def sorted_rows(rows):
    """Rows with attributes by their names, since lxml has declarations of namespaces apart, and the doctype first, since it tells no place."""
    found = [(*row[:3], tuple(sorted(row[3])) if row[1] == 1 else row[3], row[4]) for row in rows]
    return sorted(found, key=lambda it: it[1] != 10)


if __name__ == "__main__":
    unittest.main()
