"""The page of a market, by BeautifulSoup: parsed as it was written, searched, changed, written."""
import re

from bs4 import BeautifulSoup, Comment, NavigableString

SOURCE = """<!DOCTYPE html>
<html lang="en"><head><title>The  market
of today</title></head>
<body>
<h1 id="top">Fish <small>and more</small></h1>
<p class="lead intro">Open from <b>six</b> to <b>noon</b>.<!-- not on Sundays --></p>
<ul id="stalls">
<li class="stall fish" data-row="1"><a href="/cod">Cod</a> <span class="price">12.50</span></li>
<li class="stall fruit" data-row="2"><a href="/plum">Plum</a> <span class="price">3.20</span></li>
<li class="stall fish sold" data-row="3"><a href="/eel">Eel</a> <span class="price">18.00</span></li>
<li class="stall">closed
</ul>
<table><tr><th>Day<th>Stalls<tr><td>Monday<td>14<tr><td>Friday<td>31</table>
<p>Write to <a href="mailto:market@example.org" title="by mail">us</a>, or see the <a href="/map">map</a>.</p>
</body></html>
"""


def about(item):
    """A line about a stall."""
    link, price = item.find("a"), item.find("span", class_="price")
    return f"{item['data-row']}. {link.get_text()} at {link['href']} for {float(price.string):.2f}"


def read(out):
    """The page is parsed and told."""
    soup = BeautifulSoup(SOURCE, "html5lib")
    out(" ".join(soup.title.string.split()), soup.html["lang"], soup.body.name)
    out(soup.h1["id"], soup.h1.get_text(), soup.h1.contents[0].string, soup.h1.small.string)
    out(soup.p["class"], soup.p.get("id"), soup.p.has_attr("class"))
    for item in soup.find_all("li", class_="stall"):
        out(about(item) if item.find("a") else item.get_text().strip())
    out([it["href"] for it in soup.find_all("a", href=True)])
    out([list(it.stripped_strings) for it in soup.find_all("tr")])
    return soup


def search(soup, out):
    """Elements are found by names, attributes, selectors, functions and texts."""
    out([it.get_text() for it in soup.select("#stalls > li.fish > a")])
    out(soup.select_one("li.sold .price").string, soup.select_one("map"))
    out([it["data-row"] for it in soup.select("li:not(.fish)[data-row], li:has(+ .sold)")])
    out([it.name for it in soup.find_all(["h1", "small", "th"])])
    out([it["href"] for it in soup.find_all("a", href=re.compile("^/"))])
    out([it.get_text() for it in soup.find_all(lambda it: it.name == "td" and it.get_text().isdigit())])
    out(soup.find(id="stalls").name, len(soup.find_all("li", limit=2)), len(soup.find_all("b")))
    out([it.strip() for it in soup.find_all(string=lambda it: isinstance(it, Comment))])
    out([it for it in soup.find_all(string=re.compile("on")) if not isinstance(it, Comment)])
    out([it.get_text() for it in soup.find_all(attrs={"title": "by mail"})])


def walk(soup, out):
    """From element to element."""
    second = soup.select("li")[1]
    out(second.find_next_sibling("li")["data-row"], second.find_previous_sibling("li")["data-row"])
    out(second.parent["id"], [it.name for it in second.parents])
    out([it.name for it in second.children if it.name], repr(second.a.next_sibling), second.a.next_sibling.next_sibling.name)
    out(second.find_parent("body") is soup.body, second.find_parent("table"))
    out([it.name for it in soup.h1.descendants if it.name], len(list(soup.p.descendants)))
    out([it.string for it in second.find_next_siblings("li")[0].find_all(True)])
    first = soup.p.b
    out(first.string, first.find_next("b").string, [type(it).__name__ for it in soup.p.contents])


def collect(soup, out):
    """A table becomes dicts, and links are shown with all that they have."""
    table = soup.find("table")
    names = [it.get_text().lower() for it in table.find_all("th")]
    for row in table.find_all("tr")[1:]:
        out(dict(zip(names, (it.get_text() for it in row.find_all("td")))))
    for link in soup.find_all("a", title=True):
        link["href"] = link["href"].replace("example.org", "example.com")
        out(link.attrs)


def change(soup, out):
    """Elements and texts come, go and move."""
    item = soup.select_one("li.fruit")
    item["class"] = item["class"] + ["cheap"]
    item["data-row"] = "2b"
    del item.a["href"]
    out(str(item))
    item.a.string = "Plums"
    item.find("span").replace_with("by the pound")
    out(str(item))
    new = soup.new_tag("li", **{"data-row": "4"})
    new.append("Honey")
    soup.find(id="stalls").append(new)
    item.insert_before(soup.new_tag("hr"))
    item.insert_after(NavigableString("--"))
    out([it.name or it.strip() for it in soup.find(id="stalls").contents if it.name or it.strip()])
    gone = soup.select_one("li.sold").extract()
    out(gone.a.string, gone.parent, len(soup.select("li")))
    soup.select_one("hr").decompose()
    for comment in soup.find_all(string=lambda it: isinstance(it, Comment)):
        comment.extract()
    soup.p.b.unwrap()
    soup.p.b.wrap(soup.new_tag("i"))
    out(str(soup.p))
    soup.p.clear()
    soup.p.append(BeautifulSoup("<em>Closed</em> today &amp; tomorrow", "html.parser"))
    out(str(soup.p))
    soup.h1.insert(0, "Fresh ")
    soup.h1.smooth()
    out(str(soup.h1), len(soup.h1.contents))


def write(soup, out):
    """Texts and markup."""
    out(soup.find("table").get_text("|", strip=True))
    out(soup.select("p")[-1].get_text())
    out(soup.h1.decode_contents())
    out(soup.select("p")[-1].encode("ascii"))
    title = soup.title
    title.string = "Caf\u00e9 <1>"
    out(str(title), title.encode("ascii"))


def make(out):
    """A table is made of rows."""
    soup = BeautifulSoup("", "html.parser")
    table = soup.new_tag("table", border="1")
    for row in (("a", 1), ("b", 2)):
        line = soup.new_tag("tr")
        for value in row:
            cell = soup.new_tag("td")
            cell.string = str(value)
            line.append(cell)
        table.append(line)
    soup.append(table)
    out(str(soup))
    out(table.tr == soup.new_tag("tr"), table.tr == table.find_all("tr")[0], len(table("td")))


def main(out):
    """The whole program; it says each line to a function."""
    soup = read(out)
    search(soup, out)
    walk(soup, out)
    collect(soup, out)
    change(soup, out)
    write(soup, out)
    make(out)


if __name__ == "__main__":
    main(print)
