"""Trees as lines of text, with where the ends of live ranges stand: a node a line, its number first."""

from __future__ import annotations

from typing import Callable, Dict, Iterable, List, Tuple

from .texts import UTF16
from .errors import Error
from .nodes import CharacterData, Comment, DocumentType, Element, Node, ProcessingInstruction, Row, Text
from .ranges import Range

# How many rows of a tree and units of a text a repr shows.
MOST_ROWS = 40
MOST_UNITS = 60

# By node the marks at its offsets, in the order in which they are shown.
Marks = Dict[int, List[Tuple[int, str]]]
Paint = Callable[[str, str], str]


def plain(text: str, of: str) -> str:
    """The text as it is."""
    return text


def clean(name: str) -> str:
    """A name whose characters can all be printed."""
    return name if name.isprintable() else repr(name)[1:-1]


def marks_of(ranges: Iterable[Range]) -> Marks:
    """Where the ends of ranges stand: ``[0`` is the start of range 0, and ``0]`` its end."""
    found: Marks = {}
    for it in ranges:
        ends = it._ends()
        found.setdefault(ends.start, []).append((ends.start_offset, f"[{it.number}"))
        found.setdefault(ends.end, []).append((ends.end_offset, f"{it.number}]"))
    for places in found.values():
        places.sort(key=lambda it: it[0])
    return found


def pieces(data: str, marks: List[Tuple[int, str]], paint: Paint) -> str:
    """A text cut at its marks; offsets are units."""
    if not marks:
        cut = data if len(data) <= MOST_UNITS else data[:MOST_UNITS]
        return paint(repr(cut), "text") + ("..." if cut is not data else "")
    raw, at, found = data.encode(UTF16, "surrogatepass"), 0, []
    for offset, mark in [*marks, (len(raw) // 2, "")]:
        part = raw[2 * at : 2 * offset].decode(UTF16, "surrogatepass")
        if part:
            found.append(paint(repr(part), "text"))
        if mark:
            found.append(paint(mark, "mark"))
        at = offset
    return " ".join(found)


def content(row: Row, marks: List[Tuple[int, str]], paint: Paint) -> str:
    """What a row shows of its node."""
    node, name = row.node, clean(row.name or "")
    if isinstance(node, Element):
        pairs = "".join(f" {clean(it)}={value!r}" for it, value in row.attributes)
        return paint(f"<{name}{pairs}>", "element")
    if isinstance(node, DocumentType):
        return f"<!DOCTYPE {name} {row.public_id!r} {row.system_id!r}>"
    if not isinstance(node, CharacterData):
        return paint(f"<{type(node).__name__}>", "element")
    data = pieces(row.data or "", marks, paint) or paint("''", "text")
    if isinstance(node, Text):
        return data
    if isinstance(node, Comment):
        return f"<!-- {data} -->"
    return f"<?{name} {data}?>" if isinstance(node, ProcessingInstruction) else data


def lines(rows: List[Row], marks: Marks, paint: Paint = plain) -> List[str]:
    """Rows as lines. Marks between children stand on lines of their own."""
    found: List[str] = []
    counts: List[int] = []
    above: List[int] = []
    width = max((len(str(it.node.number)) for it in rows), default=1)

    def mark(node: int, depth: int, offset: int) -> None:
        here = [it for at, it in marks.get(node, []) if at == offset]
        if here:
            found.append(" " * (width + 2 * depth + 3) + paint(" ".join(here), "mark"))

    def close(depth: int) -> None:
        while len(above) > depth:
            mark(above.pop(), len(above), counts.pop())

    for row in rows:
        close(row.depth)
        if above:
            mark(above[-1], row.depth - 1, counts[-1])
            counts[-1] += 1
        number = row.node.number
        is_data = isinstance(row.node, CharacterData)
        shown = content(row, marks.get(number, []) if is_data else [], paint)
        found.append(paint(str(number).rjust(width), "number") + " " + "  " * row.depth + shown)
        if not is_data:
            above.append(number)
            counts.append(0)
    close(0)
    return found


def drawn(node: Node, ranges: Iterable[Range] = (), paint: Paint = plain, most: int = MOST_ROWS) -> List[str]:
    """Returns a node and all below it as lines, at most ``most`` nodes."""
    rows = node.session._rows(node, most + 1)
    if len(rows) <= most:
        return lines(rows, marks_of(ranges), paint)
    return [*lines(rows[:most], {}, paint), "..."]


def shown(node: Node) -> str:
    """The repr of a node, which never raises."""
    try:
        return "\n".join(drawn(node))
    except Error as fault:
        return f"<{type(node).__name__} {node.number} {fault.name}>"
