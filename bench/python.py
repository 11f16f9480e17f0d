#!/usr/bin/env python3
"""Measures the package beside lxml, and minidom where that has the same, in one run, as a table: milliseconds of the same work, and ours over theirs.
The last rows are beside html5lib and BeautifulSoup.

Each figure is of processor time, and the best of several rounds, which the libraries take in turn. It needs Debian's python3-lxml, python3-html5lib,
python3-bs4 and python3-soupsieve.
"""
import argparse
import copy
import gc
import os
import sys
import time
from xml.dom import minidom

ROOT = os.path.dirname(os.path.dirname(os.path.abspath(__file__)))
sys.dont_write_bytecode = True
sys.path.insert(0, os.path.join(ROOT, "bindings/python"))

import bs4
import html5lib
import huckleport as h
from huckleport._html5lib import parse as by_its_tree
from lxml import etree

CHILDREN = 1000


def page(count):
    """A page whose elements have attributes, text and children, as XML and as HTML."""
    rows = "".join(
        f'<div class="c{at % 7}" id="n{at}"><p>Text {at} &amp; <b>more</b> text of <a href="/page/{at}">a link</a> and some more words</p><ul><li>one</li><li>two</li></ul></div>'
        for at in range(count)
    )
    return f"<html><head><title>A page</title></head><body>{rows}</body></html>"


def building(count):
    document, their = h.Session().document, minidom.Document()

    def ours():
        parent, create = document.create_element("r"), document.create_element
        append = parent.append_child
        for _ in range(count):
            append(create("p"))

    def lxml():
        parent = etree.Element("r")
        for _ in range(count):
            parent.append(etree.Element("p"))

    def dom():
        parent = their.createElement("r")
        for _ in range(count):
            parent.appendChild(their.createElement("p"))

    return "create an element and append it", ours, lxml, dom


def setting(count):
    document, root = h.Session().document, etree.Element("r")
    element, node = document.create_element("r"), minidom.Document().createElement("r")

    def ours():
        for at in range(count):
            element.set_attribute("class", "value")

    def lxml():
        for at in range(count):
            root.set("class", "value")

    def dom():
        for at in range(count):
            node.setAttribute("class", "value")

    return "set an attribute", ours, lxml, dom


def editing(count):
    text, root = h.Session().document.create_text_node(""), etree.Element("r")
    node = minidom.Document().createTextNode("")

    def ours():
        for at in range(count):
            text.data = "some text"

    def lxml():
        for at in range(count):
            root.text = "some text"

    def dom():
        for at in range(count):
            node.data = "some text"

    return "set a text", ours, lxml, dom


def naming(count):
    element, root = h.Session().document.create_element("r"), etree.Element("r")
    node = minidom.Document().createElement("r")

    def ours():
        for _ in range(count):
            element.tag_name

    def lxml():
        for _ in range(count):
            root.tag

    def dom():
        for _ in range(count):
            node.tagName

    return "read a name", ours, lxml, dom


def reading(count):
    text, root = h.Session().document.create_text_node("some text here"), etree.Element("r")
    root.text, node = "some text here", minidom.Document().createTextNode("some text here")

    def ours():
        for _ in range(count):
            text.data

    def lxml():
        for _ in range(count):
            root.text

    def dom():
        for _ in range(count):
            node.data

    return "read a text", ours, lxml, dom


def family():
    """An element of each library with many children."""
    element, root, their = h.Session().document.create_element("r"), etree.Element("r"), minidom.Document()
    node = their.createElement("r")
    for _ in range(CHILDREN):
        element.append_child(element.node_document.create_element("p"))
        root.append(etree.Element("p"))
        node.appendChild(their.createElement("p"))
    return element, root, node


def children(count):
    element, root, node = family()

    def ours():
        for _ in range(count // CHILDREN):
            for it in element:
                pass

    def lxml():
        for _ in range(count // CHILDREN):
            for it in root:
                pass

    def dom():
        for _ in range(count // CHILDREN):
            for it in node.childNodes:
                pass

    return "children, in a for", ours, lxml, dom


def one_by_one(count):
    element, root, node = family()

    def ours():
        for _ in range(count // CHILDREN):
            it = element.first_child
            while it is not None:
                it = it.next_sibling

    def lxml():
        for _ in range(count // CHILDREN):
            it = root[0]
            while it is not None:
                it = it.getnext()

    def dom():
        for _ in range(count // CHILDREN):
            it = node.firstChild
            while it is not None:
                it = it.nextSibling

    return "siblings, one by one", ours, lxml, dom


def siblings(count):
    element, root, _ = family()

    def ours():
        for _ in range(count // CHILDREN):
            for it in element.first_child.next_siblings():
                pass

    def lxml():
        for _ in range(count // CHILDREN):
            for it in root[0].itersiblings():
                pass

    return "siblings, in a for", ours, lxml, None


def over_pages(count):
    """The works over a whole page: each with ours and lxml's."""
    text = page(count // 20)
    document, tree = h.xml.parse(text), etree.fromstring(text)
    their = minidom.parseString(text)
    html_document, html_tree = h.html.parse(text), etree.fromstring(text, etree.HTMLParser())
    elements, nodes = list(document.descendants(h.Element)), list(tree.iter())

    def dom_below(node):
        for it in node.childNodes:
            dom_below(it)

    spare, their_spare = document.create_element("p"), etree.Element("p")

    def edited():
        document.document_element.append_child(spare)
        spare.remove()
        return document

    def their_edited():
        tree.append(their_spare)
        tree.remove(their_spare)
        return tree

    yield "all elements below", lambda: [None for it in document.descendants(h.Element)], lambda: [None for it in tree.iter()], None
    yield "all elements below, behind an edit", lambda: [None for it in edited().descendants(h.Element)], lambda: [None for it in their_edited().iter()], None
    yield "all nodes below; there elements with text and tail", lambda: [None for it in document.descendants()], lambda: [(it.text, it.tail) and None for it in tree.iter()], lambda: dom_below(their)
    yield "elements of a name", lambda: document.get_elements_by_tag_name("b"), lambda: list(tree.iter("b")), lambda: their.getElementsByTagName("b")
    yield "an attribute of all", lambda: document._calls.read_attribute_of(elements, "id"), lambda: [it.get("id") for it in nodes], None
    yield "attributes of all, as dicts", lambda: document._calls.read_attributes_of(elements), lambda: [dict(it.attrib) for it in nodes], None
    yield "rows with name, attributes and data", document.tree, lambda: [(it, it.tag, tuple(it.attrib.items()), it.text, it.tail) for it in tree.iter()], None
    yield "a deep copy", lambda: document.document_element.clone_node(True), lambda: copy.deepcopy(tree), None
    links, their_links = document.get_elements_by_tag_name("b"), list(tree.iter("b"))
    yield "a text of each b", lambda: [it.text for it in links], lambda: [it.text for it in their_links], None
    yield "texts of all b; there a text of each", lambda: document.session.text_content_of(links), lambda: [it.text for it in their_links], None
    yield "serialize XML", lambda: h.xml.serialize(document), lambda: etree.tostring(tree, encoding="unicode"), lambda: their.toxml()
    yield "serialize XML, behind an edit", lambda: h.xml.serialize(edited()), lambda: etree.tostring(their_edited(), encoding="unicode"), None
    yield "serialize HTML", lambda: h.html.serialize(html_document), lambda: etree.tostring(html_tree, encoding="unicode", method="html"), None
    yield f"parse XML of {len(text) / 1e6:.1f} MB", lambda: h.xml.parse(text), lambda: etree.fromstring(text), lambda: minidom.parseString(text)
    yield f"parse HTML of {len(text) / 1e6:.1f} MB, by {h.html.PARSER}", lambda: h.html.parse(text), lambda: etree.fromstring(text, etree.HTMLParser()), None
    yield "parse the same by lxml's parser", lambda: h.html.parse(text, parser="lxml"), lambda: etree.fromstring(text, etree.HTMLParser()), None


def beside_others(count):
    """The works beside html5lib and BeautifulSoup, over a part of the page."""
    text = page(count // 200)
    document, soup = h.html.parse(text), bs4.BeautifulSoup(text, "html5lib")

    def by_html5lib():
        by_its_tree(h.Session().document, text)

    yield "parse HTML by html5lib; html5lib", by_html5lib, lambda: html5lib.parse(text), None
    yield "parse HTML; BeautifulSoup by html5lib", lambda: h.html.parse(text), lambda: bs4.BeautifulSoup(text, "html5lib"), None
    yield "parse HTML; BeautifulSoup by lxml", lambda: h.html.parse(text), lambda: bs4.BeautifulSoup(text, "lxml"), None
    yield "elements of a selector; BeautifulSoup", lambda: document.select("div > p b"), lambda: soup.select("div > p b"), None
    yield "elements of a name; BeautifulSoup", lambda: document.get_elements_by_tag_name("b"), lambda: soup.find_all("b"), None
    yield "serialize HTML; BeautifulSoup", lambda: h.html.serialize(document), lambda: str(soup), None


WORKS = (building, setting, editing, naming, reading, children, one_by_one, siblings)


def timed(work):
    if work is None:
        return 0.0
    gc.collect()
    begin = time.process_time()
    work()
    return 1000 * (time.process_time() - begin)


def best(works, rounds):
    """Milliseconds of each work in the best of the rounds."""
    return [min(its) for its in zip(*([timed(it) for it in works] for _ in range(rounds)))]


def main():
    parser = argparse.ArgumentParser(description=__doc__, formatter_class=argparse.RawDescriptionHelpFormatter)
    parser.add_argument("--count", type=int, default=100000, help="how many calls a round has; a page has some half as many elements (100000)")
    parser.add_argument("--rounds", type=int, default=5, help="how many rounds (5)")
    parser.add_argument("--only", default="", metavar="WORDS", help="measure the works alone whose names have these words")
    given = parser.parse_args()
    print("| milliseconds | ours | lxml, or the named one | ours over theirs | minidom |\n|---|---|---|---|---|", flush=True)
    for name, *works in (*(it(given.count) for it in WORKS), *over_pages(given.count), *beside_others(given.count)):
        if given.only not in name:
            continue
        ours, theirs, dom = best(works, given.rounds)
        print(f"| {name} | {ours:.1f} | {theirs:.1f} | {ours / theirs:.2f} | {f'{dom:.1f}' if works[2] else ''} |", flush=True)


if __name__ == "__main__":
    main()
