"""Sources of parsing (a text, bytes, a file by its path or its object, or pieces), and files to write to."""

from __future__ import annotations

import os
from typing import Any, BinaryIO, Callable, Generic, List, TypeVar, Union

from .errors import BadType
from .nodes import Element, Node, Text

Source = Union[str, bytes, bytearray, memoryview, "os.PathLike[str]", Any]
Target = Union["os.PathLike[str]", str, BinaryIO]
D = TypeVar("D")


def read(source: Source) -> Union[str, bytes]:
    """The text or the bytes of a source. A str is a text, and no path."""
    if isinstance(source, (str, bytes)):
        return source
    if isinstance(source, os.PathLike):
        with open(source, "rb") as file:
            return file.read()
    found = source.read() if hasattr(source, "read") else source
    try:
        return found if isinstance(found, (str, bytes)) else bytes(memoryview(found))
    except TypeError:
        raise BadType(None, "parse", f"expected a text, bytes, a path or a file, not {type(found).__name__}") from None


def write(target: Target, data: bytes) -> None:
    """Writes bytes to a path or to a file that is open for bytes."""
    if hasattr(target, "write"):
        target.write(data)
        return
    with open(target, "wb") as file:
        file.write(data)


class Pieces(Generic[D]):
    """Takes a document piece by piece. It is parsed when it is closed, since nothing of it can be used before that."""

    def __init__(self, parse: Callable[[Union[str, bytes]], D]) -> None:
        self._parse = parse
        self._pieces: List[Any] = []

    def feed(self, data: Union[str, bytes]) -> None:
        """Takes a piece; all of them are texts, or all are bytes."""
        if not isinstance(data, (str, bytes)) or (self._pieces and not isinstance(data, type(self._pieces[0]))):
            raise BadType(None, "feed", f"expected {type(self._pieces[0]).__name__ if self._pieces else 'str or bytes'}, as all pieces are, not {type(data).__name__}")
        self._pieces.append(data)

    def close(self) -> D:
        """Parses what it was fed, and returns the Document. It can be fed anew then."""
        pieces, self._pieces = self._pieces, []
        first = pieces[0] if pieces else ""
        return self._parse(type(first)().join(pieces))


def indent(top: Node, depth: int, as_they_are: Callable[[Element], bool]) -> None:
    """Puts line breaks and blanks between the nodes below an element. The content of an element that has a Text or is to stay is left as it is."""
    waiting = [(top, depth)]
    while waiting:
        node, depth = waiting.pop()
        children = node.child_nodes
        if not isinstance(node, Element) or not children or as_they_are(node) or any(isinstance(it, Text) for it in children):
            continue
        document = node.node_document
        for it in children:
            node.insert_before(document.create_text_node("\n" + "  " * (depth + 1)), it)
            waiting.append((it, depth + 1))
        node.append_child(document.create_text_node("\n" + "  " * depth))


def indented(node: Node, as_they_are: Callable[[Element], bool], serialize: Callable[[Node], str]) -> str:
    """A node and all below it as markup, in lines with blanks ahead by their depth."""
    copy = node.clone_node(True)
    tops: List[Node] = [copy] if isinstance(copy, Element) else copy.child_nodes
    for it in tops:
        indent(it, 0, as_they_are)
    text = "".join(serialize(it) + "\n" for it in (tops or [copy]))
    copy.discard()
    return text
