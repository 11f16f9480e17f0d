"""The page of a market, by the package: parsed as it was written, searched, changed, written. Ported from market_soup.py by the table."""
import re
from typing import Callable, Iterator

import huckleport as h

Out = Callable[..., object]

SOURCE = """<!DOCTYPE html>
<html lang="en"><head><title>The  market
of today</title></head>
<body>
<h1 id="top">Fish <small>and more</small></h1>
<p class="lead intro">Open from <b>six</b> to <b>noon</b>.<!-- not on Sundays --></p>
<ul id="stalls">
<li class="stall fish" data-row="1"><a href="/cod">Cod</a> <span class="price">12.50</span></li>
<li class="stall fruit" data-row="2"><a href="/plum">Plum</a> <span class="price">3.20</span></li>
<li class="stall fish sold" data-row="3"><a href="/eel">Eel</a> <span class="price">18.00</span></li>
<li class="stall">closed
</ul>
<table><tr><th>Day<th>Stalls<tr><td>Monday<td>14<tr><td>Friday<td>31</table>
<p>Write to <a href="mailto:market@example.org" title="by mail">us</a>, or see the <a href="/map">map</a>.</p>
</body></html>
"""


def first(node: h.ParentNode, selectors: str) -> h.Element:
    """The first element that matches, which is there."""
    found = node.select_one(selectors)
    assert found is not None
    return found


def text(node: h.Node) -> str:
    """All text below a node."""
    return node.text_content or ""


def attribute(element: h.Element, name: str) -> str:
    """The value of an attribute, which is there."""
    return element.attributes[name]


def stripped(node: h.ParentNode) -> Iterator[str]:
    """The texts below a node without blanks around them."""
    return (it.strip() for it in node.itertext() if it.strip())


def ancestors(node: h.Node) -> Iterator[h.Node]:
    """What a node stands under, the nearest first."""
    above = node.parent_node
    while above is not None:
        yield above
        above = above.parent_node


def about(item: h.Element) -> str:
    """A line about a stall."""
    link, price = first(item, "a"), first(item, "span.price")
    return f"{attribute(item, 'data-row')}. {text(link)} at {attribute(link, 'href')} for {float(text(price)):.2f}"


def read(out: Out) -> h.Document:
    """The page is parsed and told."""
    page = h.html.parse(SOURCE)
    out(page.title, attribute(first(page, "html"), "lang"), page.body and page.body.tag_name)
    heading, lead = first(page, "h1"), first(page, "p")
    out(attribute(heading, "id"), text(heading), heading.text, text(first(heading, "small")))
    out(attribute(lead, "class").split(), lead.get_attribute("id"), lead.has_attribute("class"))
    for item in page.select("li.stall"):
        out(about(item) if item.select_one("a") else text(item).strip())
    out([attribute(it, "href") for it in page.select("a[href]")])
    out([list(stripped(it)) for it in page.iter("tr")])
    return page


def search(page: h.Document, out: Out) -> None:
    """Elements are found by names, attributes, selectors, functions and texts."""
    out([text(it) for it in page.select("#stalls > li.fish > a")])
    out(text(first(page, "li.sold .price")), page.select_one("map"))
    out([attribute(it, "data-row") for it in page.select("li:not(.fish)[data-row], li:has(+ .sold)")])
    out([it.tag_name for it in page.iter("h1", "small", "th")])
    out([attribute(it, "href") for it in page.select("a") if re.search("^/", attribute(it, "href"))])
    out([text(it) for it in page.iter() if it.tag_name == "td" and text(it).isdigit()])
    stalls = page.get_element_by_id("stalls")
    assert stalls is not None
    out(stalls.tag_name, len(page.select("li", limit=2)), len(page.select("b")))
    out([it.data.strip() for it in page.descendants(h.Comment)])
    out([it for it in page.itertext() if re.search("on", it)])
    out([text(it) for it in page.select('[title="by mail"]')])


def walk(page: h.Document, out: Out) -> None:
    """From element to element."""
    before, second, behind = page.select("li")[:3]
    assert second.next_element_sibling is behind and second.previous_element_sibling is before
    out(attribute(behind, "data-row"), attribute(before, "data-row"))
    above = second.parent_element
    assert above is not None
    out(attribute(above, "id"), [it.node_name.replace("#document", "[document]") for it in ancestors(second)])
    link = first(second, "a")
    out([it.tag_name for it in second.children], repr(link.tail), link.next_element_sibling and link.next_element_sibling.tag_name)
    out(second.closest("body") is page.body, second.closest("table"))
    heading, lead = first(page, "h1"), first(page, "p")
    out([it.tag_name for it in heading.descendants(h.Element)], len(list(lead.descendants())))
    out([text(it) for it in behind.select("*")])
    one, other = lead.select("b")
    kinds = {"Text": "NavigableString", "Element": "Tag", "Comment": "Comment"}
    out(text(one), text(other), [kinds[type(it).__name__] for it in lead])


def collect(page: h.Document, out: Out) -> None:
    """A table becomes dicts, and links are shown with all that they have."""
    table = first(page, "table")
    names = [text(it).lower() for it in table.iter("th")]
    for row in list(table.iter("tr"))[1:]:
        out(dict(zip(names, map(text, row.iter("td")))))
    for link in page.select("a[title]"):
        link.set_attribute("href", attribute(link, "href").replace("example.org", "example.com"))
        out(dict(link.attributes))


def change(page: h.Document, out: Out) -> None:
    """Elements and texts come, go and move."""
    item = first(page, "li.fruit")
    item.set_attribute("class", attribute(item, "class") + " cheap")
    item.set_attribute("data-row", "2b")
    link = first(item, "a")
    link.remove_attribute("href")
    out(h.html.tostring(item))
    link.text_content = "Plums"
    first(item, "span").replace_with("by the pound")
    out(h.html.tostring(item))
    new = page.create_element("li")
    new.set_attribute("data-row", "4")
    new.append("Honey")
    stalls = first(page, "#stalls")
    stalls.append(new)
    item.before(page.create_element("hr"))
    item.after("--")
    names = (it.tag_name if isinstance(it, h.Element) else text(it).strip() for it in stalls)
    out([it for it in names if it])
    gone = first(page, "li.sold")
    gone.remove()
    out(text(first(gone, "a")), gone.parent_node, len(page.select("li")))
    first(page, "hr").remove()
    for comment in list(page.descendants(h.Comment)):
        comment.remove()
    lead = first(page, "p")
    one, other = lead.select("b")
    one.replace_with(*one.child_nodes)
    wrapper = page.create_element("i")
    other.replace_with(wrapper)
    wrapper.append(other)
    out(h.html.tostring(lead))
    lead.inner_html = "<em>Closed</em> today &amp; tomorrow"
    out(h.html.tostring(lead))
    heading = first(page, "h1")
    heading.prepend("Fresh ")
    heading.normalize()
    out(h.html.tostring(heading), len(heading.child_nodes))


def write(page: h.Document, out: Out) -> None:
    """Texts and markup."""
    out("|".join(stripped(first(page, "table"))))
    last = page.select("p")[-1]
    out(text(last))
    out(first(page, "h1").inner_html)
    out(h.html.tostring(last, encoding="ascii"))
    title = first(page, "title")
    title.text_content = "Caf\u00e9 <1>"
    out(h.html.tostring(title), h.html.tostring(title, encoding="ascii"))


def make(out: Out) -> None:
    """A table is made of rows."""
    page = h.Session().document
    table = page.create_element("table")
    table.set_attribute("border", "1")
    for row in (("a", 1), ("b", 2)):
        line = page.create_element("tr")
        for value in row:
            cell = page.create_element("td")
            cell.text_content = str(value)
            line.append(cell)
        table.append(line)
    page.append(table)
    out(h.html.tostring(page))
    top = first(table, "tr")
    out(top.is_equal_node(page.create_element("tr")), top.is_equal_node(table.select("tr")[0]), len(table.select("td")))


def main(out: Out) -> None:
    """The whole program; it says each line to a function."""
    page = read(out)
    search(page, out)
    walk(page, out)
    collect(page, out)
    change(page, out)
    write(page, out)
    make(out)


if __name__ == "__main__":
    main(print)
