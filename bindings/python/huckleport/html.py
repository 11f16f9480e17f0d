"""HTML in and out: parsed by html5-parser or by html5lib, as the HTML Standard says, or by lxml's own parser; and written by the standard's rules.

A page, there and back::

    document = huckleport.html.parse("<p>some <b>text")
    huckleport.html.serialize(document)
"""

from __future__ import annotations

import warnings
from importlib import import_module
from importlib.util import find_spec
from typing import Any, Optional, Union, overload

from ._sources import Pieces, Source, Target, indented, read, write as write_bytes
from ._writing import COMMENT, INSTRUCTION, Style, markup, table
from .documents import Document
from .errors import BadValue, NoParser
from .nodes import DocumentFragment, Element, Node
from .session import Session

__all__ = ["PARSER", "Parser", "SlowParser", "parse", "parse_fragment", "serialize", "tostring", "write"]  # noqa: F822

SLOW = "pages are parsed by html5lib, which takes ten times as long as html5-parser: pip install html5-parser (or huckleport[quick-html]), or choose parser='lxml', which is quicker still and parses HTML 4"
MISSING = "HTML is parsed by html5-parser or html5lib, and neither is here: pip install html5lib (or huckleport[html]), or choose parser='lxml' if lxml is here"
# The parsers, and the modules that they need.
PARSERS = {"html5-parser": "html5_parser", "html5lib": "html5lib", "lxml": "lxml"}


def _found() -> str:
    """Which parser by the HTML Standard is there: the quicker one, else the other, else none."""
    if find_spec("html5_parser") and find_spec("lxml"):
        try:
            import_module("html5_parser")
            return "html5-parser"
        except (ImportError, RuntimeError):
            # (it asks for the libxml2 that lxml has)
            pass
    return "html5lib" if find_spec("html5lib") else ""


def __getattr__(name: str) -> Any:
    """``PARSER``: which parser is used, ``html5-parser`` or ``html5lib``; empty where there is none. It is looked for when it is asked."""
    if name != "PARSER":
        raise AttributeError(f"module {__name__!r} has no attribute {name!r}")
    return _found()


class SlowParser(UserWarning):
    """Pages are parsed by html5lib, which is in Python: html5-parser takes a tenth of the time."""


def _warn_if_alone() -> None:
    """Warns at the import if html5lib is the only parser that is here."""
    if [name for name, module in PARSERS.items() if find_spec(module)] == ["html5lib"]:
        globals()["PARSER"] = "html5lib"
        warnings.warn(SLOW, SlowParser, stacklevel=4)


_warn_if_alone()


def _parser(chosen: str = "") -> str:
    """Returns the chosen parser, or else the default one. Warns if that is the slow one."""
    if chosen and chosen not in PARSERS:
        raise BadValue(None, "", f"expected html5-parser, html5lib or lxml as the parser, not {chosen!r}")
    if chosen and not find_spec(PARSERS[chosen]):
        raise NoParser(None, "", f"{chosen} was chosen and is not here: pip install {chosen}")
    if chosen:
        return chosen
    is_known = "PARSER" in globals()
    found: str = globals()["PARSER"] if is_known else _found()
    if not found:
        raise NoParser(None, "", MISSING)
    if found == "html5lib" and not is_known:
        warnings.warn(SLOW, SlowParser, stacklevel=3)
    globals()["PARSER"] = found
    return found


# Elements that have no end tag, and those whose text is written as it is.
VOID = frozenset("area base basefont bgsound br col embed frame hr img input keygen link meta param source track wbr".split())
PLAIN = frozenset("style script xmp iframe noembed noframes plaintext".split())


def _fill(document: Document, source: Union[str, bytes], parser: str) -> None:
    """Parses a page into a document. Only html5lib shows which nodes are ahead of a doctype."""
    if parser == "lxml":
        from ._lxml import parse as parse_by_lxml

        parse_by_lxml(document, source)
        return
    if parser == "html5-parser":
        from ._html5_parser import parse as parse_page

        if parse_page(document, source, bool(find_spec("html5lib"))):
            return
    from ._html5lib import parse as parse_exactly

    parse_exactly(document, source)


def parse(source: Source, session: Optional[Session] = None, parser: str = "") -> Document:
    """The Document of a page, in a session or in a new one: of a text, of bytes, of a path (a ``Path``, not a ``str``) or of a file.

    ``parser`` chooses ``html5-parser``, ``html5lib`` or ``lxml``; without it the parser is ``PARSER``. lxml's own parser is that of libxml2 for HTML 4,
    and the quickest. It repairs markup by other rules than the HTML Standard: it implies no ``head``, inserts the doctype first, and has no foreign
    elements and no templates. It has no nodes for a page without an element. Attributes whose names the library refuses are left out.
    """
    used = _parser(parser)
    given = read(source)
    document = Session().document if session is None else session.create_document()
    try:
        _fill(document, given, used)
    except BaseException:
        # (nothing of a refused page stays in the session)
        if session is not None:
            document.discard()
        raise
    return document


class Parser(Pieces[Document]):
    """Takes a page piece by piece: ``feed(data)``, and ``close()`` returns the Document."""

    def __init__(self, session: Optional[Session] = None, parser: str = "") -> None:
        super().__init__(lambda source: parse(source, session, parser))


def parse_fragment(source: Union[str, bytes], container: str = "div", document: Optional[Document] = None) -> DocumentFragment:
    """The nodes of a part of a page that stands in an element of that name, as a fragment of a document or of a new one."""
    parser = _parser()
    document = Session().document if document is None else document
    if parser == "html5-parser":
        from ._html5_parser import parse_fragment as parse_part
    else:
        from ._html5lib import parse_fragment as parse_part
    return parse_part(document, source, container)


IN_TEXT = {"&": "&amp;", "\xa0": "&nbsp;", "<": "&lt;", ">": "&gt;"}
STYLE = Style(
    table(IN_TEXT), table({**IN_TEXT, '"': "&quot;"}), tuple(it.encode() for it in sorted(VOID)), tuple(it.encode() for it in sorted(PLAIN)), False
)


def _other(kind: int, name: Optional[str], data: Optional[str], public_id: Optional[str], system_id: Optional[str]) -> str:
    """Returns the markup of a node that is no element and no Text."""
    if kind == COMMENT:
        return f"<!--{data}-->"
    return f"<?{name} {data}>" if kind == INSTRUCTION else f"<!DOCTYPE {name}>"


def serialize(node: Node, inner: bool = False) -> str:
    """Returns a node and all below it as HTML, or its children alone. A Document and a fragment are written as their children."""
    if inner:
        has_end = not isinstance(node, Element) or node.tag_name not in VOID
        return "".join([serialize(it) for it in node.child_nodes]) if has_end else ""
    parent = node.parent_node
    is_plain = parent is not None and parent.node_name in PLAIN
    return markup(node, STYLE, is_plain, _other).text


# Elements in which white space is kept.
KEPT = PLAIN | {"pre", "textarea", "listing"}


@overload
def tostring(node: Node, pretty: bool = False, encoding: None = None) -> str: ...


@overload
def tostring(node: Node, pretty: bool = False, *, encoding: str) -> bytes: ...


def tostring(node: Node, pretty: bool = False, encoding: Optional[str] = None) -> Union[str, bytes]:
    """A node and all below it as HTML: a str, or bytes in an encoding; ``pretty`` puts it in lines.

    A character that the encoding has not is written as a number. Lines come between elements whose parent has no Text, and not in ``pre``.
    """
    text = indented(node, lambda it: it.tag_name in KEPT, serialize) if pretty else serialize(node)
    return text if encoding is None else text.encode(encoding, "xmlcharrefreplace")


def write(node: Node, target: Target, pretty: bool = False, encoding: str = "utf-8") -> None:
    """Writes a node and all below it as HTML to a path, or to a file that is open for bytes."""
    write_bytes(target, tostring(node, pretty, encoding=encoding))
