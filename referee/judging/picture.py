"""Trees as pictures (SVG), with the ends of ranges drawn into their gaps. A box holds its children, and a Text its units."""
from html import escape

GAP, UNIT, HEAD, ROW = 12, 13, 18, 26
COLOURS = ("#c0392b", "#1f6fb2", "#2e8b57", "#8e44ad", "#b9770e", "#444444")
ELEMENT, DOCUMENT, DOCTYPE, FRAGMENT = 1, 9, 10, 11


class Node:
    def __init__(self, row):
        self.depth, self.number, self.kind, self.name = row[:4]
        self.data = row[4] if len(row) > 4 and self.kind not in (ELEMENT, DOCTYPE) else None
        self.children = []


def tree_of(rows):
    """Returns the top node of rows in tree order."""
    path = []
    for row in rows:
        node = Node(row)
        del path[node.depth :]
        if path:
            path[-1].children.append(node)
        path.append(node)
    return path[0]


def units_of(data):
    """Returns the picture's text for each unit."""
    if isinstance(data, list):
        return [f"{it:04x}" for it in data]
    return [it for character in data for it in ([character] if ord(character) < 65536 else [character, "\u00b7"])]


class Picture:
    """Boxes of trees and marks of ends, drawn from left to right."""

    def __init__(self, ends):
        self.ends, self.parts = ends, []

    def label(self, node):
        return f"{node.number} {node.name}"

    def gap(self, node, offset, x, y, height):
        """Draws the marks in a gap of a node."""
        here = [(number, side) for number, sides in self.ends for side, point in sides if point == (node.number, offset)]
        for at, (number, side) in enumerate(here):
            colour = COLOURS[number % len(COLOURS)]
            self.parts.append(f'<line x1="{x}" y1="{y}" x2="{x}" y2="{y + height}" stroke="{colour}" stroke-width="2"/>')
            sign = "[" if side == "start" else "]"
            self.parts.append(f'<text x="{x - 6}" y="{y + height + 10 + 10 * at}" fill="{colour}" font-size="10">{number}{sign}</text>')

    def text(self, x, y, words, size=11):
        self.parts.append(f'<text x="{x}" y="{y}" font-size="{size}">{escape(words)}</text>')

    def box(self, x, y, width, height, fill):
        self.parts.append(f'<rect x="{x}" y="{y}" width="{width}" height="{height}" rx="3" fill="{fill}" stroke="#777"/>')

    def width(self, node):
        head = 7 * len(self.label(node)) + 8
        if node.data is not None:
            return max(head, 2 * GAP + UNIT * len(units_of(node.data)))
        return max(head, GAP + sum(self.width(it) + GAP for it in node.children))

    def height(self, node):
        return HEAD + ROW if node.data is not None else HEAD + ROW + max([self.height(it) for it in node.children], default=0)

    def draw(self, node, x, y):
        width, height = self.width(node), self.height(node)
        self.box(x, y, width, height, "#fffbe6" if node.data is not None else "#f4f7fb")
        self.text(x + 4, y + 13, self.label(node))
        inside = y + HEAD
        if node.data is not None:
            return self.draw_units(node, x + GAP, inside)
        at = x + GAP / 2
        for offset, child in enumerate(node.children):
            self.gap(node, offset, at, inside, height - HEAD - 14)
            self.draw(child, at + GAP / 2, inside)
            at += GAP + self.width(child)
        return self.gap(node, len(node.children), at, inside, height - HEAD - 14)

    def draw_units(self, node, x, y):
        units = units_of(node.data)
        for offset, unit in enumerate(units):
            self.text(x + offset * UNIT + 3, y + 12, unit)
        for offset in range(len(units) + 1):
            self.gap(node, offset, x + offset * UNIT, y, 14)


def picture_of(state):
    """Returns an SVG of a state: its trees beside each other, and the ends of its ranges. Ends in none of the trees are not drawn."""
    ends = [(number, (("start", (it[0], it[1])), ("end", (it[2], it[3])))) for number, it in state["ranges"] if it]
    picture, x, lowest = Picture(ends), 6, 0
    for rows in state["trees"]:
        top = tree_of(rows)
        picture.draw(top, x, 6)
        x, lowest = x + picture.width(top) + 2 * GAP, max(lowest, picture.height(top))
    size = f'width="{x}" height="{lowest + 40}" viewBox="0 0 {x} {lowest + 40}"'
    return f'<svg xmlns="http://www.w3.org/2000/svg" {size} font-family="monospace">{"".join(picture.parts)}</svg>'
