"""XML in and out: parsed by expat, and written by the rules of the DOM Parsing and Serialization standard.

Names are kept as they are written, with their prefixes, and declarations of namespaces are attributes like others.
"""

from __future__ import annotations

import codecs
import re
import warnings
from functools import lru_cache
from typing import Any, List, Optional, Pattern, Set, Tuple, Union, overload

from ._calls import Builder
from ._sources import Pieces, Source, Target, indented, read, write as write_bytes
from ._writing import COMMENT, INSTRUCTION, Style, markup, table
from .documents import Document
from .errors import Malformed, NotXML
from .nodes import Node
from .session import Session

__all__ = ["LeftOut", "Parser", "parse", "serialize", "tostring", "write"]

# Patterns: a character that no XML can hold, and a name in XML.
NO_CHARACTER = "[^\t\n\r\u0020-\ud7ff\ue000-\ufffd\U00010000-\U0010ffff]"
NAME_START = ":A-Z_a-z\xc0-\xd6\xd8-\xf6\xf8-\u02ff\u0370-\u037d\u037f-\u1fff\u200c-\u200d\u2070-\u218f\u2c00-\u2fef\u3001-\ud7ff\uf900-\ufdcf\ufdf0-\ufffd\U00010000-\U000effff"
NAME = f"[{NAME_START}][{NAME_START}.0-9\xb7\u0300-\u036f\u203f-\u2040-]*"


@lru_cache(maxsize=None)
def _pattern(text: str) -> Pattern[str]:
    """A pattern, which is made when it is first asked for: these take half of the time of an import."""
    return re.compile(text)


def _malformed(message: str, code: int, line: int, offset: int) -> Malformed:
    """Returns the error for a document that is not well-formed, which is one of the package and of expat."""
    # (in 3.12 an interpreter with a lock of its own has no expat, and all else of the package)
    from xml.parsers.expat import ExpatError

    class MalformedXML(Malformed, ExpatError):
        """A document of XML that is not well-formed."""

        def __reduce__(self) -> Tuple[Any, ...]:
            return _malformed, (message, code, line, offset)

    found = MalformedXML(None, "", message)
    found.code, found.lineno, found.offset = code, line, offset
    return found


def _refuse(source: Union[str, bytes]) -> None:
    """Raises what expat says of a document that is not well-formed."""
    from xml.parsers import expat

    try:
        expat.ParserCreate().Parse(source, True)
    except expat.ExpatError as fault:
        raise _malformed(str(fault), fault.code, fault.lineno, fault.offset) from None
    raise MemoryError


class LeftOut(UserWarning):
    """A document has what no tree here holds: declarations within its doctype, or entities that are declared outside."""


def _tell_left_out(source: Union[str, bytes]) -> None:
    """Warns of parts of a document with a doctype that its tree has not. They are found by parsing again, since the fast path does not look for them."""
    from xml.parsers import expat

    has_internal: List[int] = []
    skipped: Set[str] = set()
    parser = expat.ParserCreate()
    parser.StartDoctypeDeclHandler = lambda name, system_id, public_id, has_subset: has_internal.append(has_subset)
    parser.SkippedEntityHandler = lambda name, is_parameter: skipped.add(f"&{name};")
    parser.Parse(source, True)
    if any(has_internal):
        warnings.warn("the declarations within the doctype are not kept", LeftOut, stacklevel=3)
    if skipped:
        warnings.warn(f"entities that are declared outside are left out: {', '.join(sorted(skipped))}", LeftOut, stacklevel=3)


def parse(source: Source, session: Optional[Session] = None) -> Document:
    """Returns the Document of XML, in a session or in a new one: of a text, of bytes, of a path (a ``Path``, not a ``str``) or of a file.

    A document that is not well-formed raises ``Malformed``, which is an ``xml.parsers.expat.ExpatError``. Entities of the document itself are
    expanded. Other declarations of a doctype, and entities that are declared outside, are left out with a warning (``LeftOut``).
    """
    given = read(source)
    document = Session().document if session is None else session.create_document()
    builder = Builder(document._calls, document.number, document.number, False)
    try:
        if not builder.add_xml(given):
            _refuse(given)
    except BaseException:
        # (nothing of a refused document stays in the session)
        builder.abandon()
        if session is not None:
            document.discard()
        raise
    if document.doctype is not None:
        _tell_left_out(given)
    return document


class Parser(Pieces[Document]):
    """Takes XML piece by piece: ``feed(data)``, and ``close()`` returns the Document."""

    def __init__(self, session: Optional[Session] = None) -> None:
        super().__init__(lambda source: parse(source, session))


def _name(name: str) -> str:
    """The name, where XML can have it."""
    if not _pattern(NAME).fullmatch(name):
        raise NotXML(None, "", f"{name!r} is not a name in XML")
    return name


# What a parser would make another white space of is written as a number.
IN_TEXT = {"&": "&amp;", "<": "&lt;", ">": "&gt;", "\r": "&#xD;"}
IN_VALUE = {**IN_TEXT, '"': "&quot;", "\t": "&#x9;", "\n": "&#xA;"}
STYLE = Style(table(IN_TEXT), table(IN_VALUE), (), (), True)


def _doctype(name: str, public_id: str, system_id: str) -> str:
    if '"' in system_id and "'" in system_id or '"' in public_id:
        raise NotXML(None, "", f"XML cannot quote the ids of this doctype: {public_id!r}, {system_id!r}")
    public = f' PUBLIC "{public_id}"' if public_id else " SYSTEM" if system_id else ""
    mark = "'" if '"' in system_id else '"'
    return f"<!DOCTYPE {name}{public}{f' {mark}{system_id}{mark}' if system_id or public_id else ''}>"


def _other(kind: int, name: Optional[str], data: Optional[str], public_id: Optional[str], system_id: Optional[str]) -> str:
    """Returns the markup of a node that is no element and no Text."""
    name, data = name or "", data or ""
    if kind == COMMENT:
        if "--" in data or data.endswith("-"):
            raise NotXML(None, "", f"a comment in XML may not contain '--' or end with '-': {data!r}")
        return f"<!--{data}-->"
    if kind == INSTRUCTION:
        if "?>" in data or name.lower() == "xml":
            raise NotXML(None, "", f"a processing instruction in XML may not contain '?>' or be called 'xml': {name!r} {data!r}")
        return f"<?{_name(name)} {data}?>"
    return _doctype(_name(name), public_id or "", system_id or "")


def serialize(node: Node) -> str:
    """A node and all below it as XML. What no XML can hold (a lone surrogate, a comment with two strokes) raises ``ValueError``."""
    found = markup(node, STYLE, False, _other)
    for name in found.names:
        _name(name)
    bad = _pattern(NO_CHARACTER).search(found.text if found.is_doubtful else found.others)
    if bad:
        raise NotXML(None, "", f"XML cannot hold the character {bad.group()!r}")
    return found.text


@overload
def tostring(node: Node, pretty: bool = False, encoding: None = None, declaration: Optional[bool] = None) -> str: ...


@overload
def tostring(node: Node, pretty: bool = False, *, encoding: str, declaration: Optional[bool] = None) -> bytes: ...


def tostring(node: Node, pretty: bool = False, encoding: Optional[str] = None, declaration: Optional[bool] = None) -> Union[str, bytes]:
    """A node and all below it as XML: a str, or bytes in an encoding; ``pretty`` puts it in lines.

    A declaration comes ahead if it is asked for, or unasked if the encoding is another than UTF-8 and ASCII. A character that the encoding has
    not is written as a number; in a name, a comment or an instruction it raises ``NotXML``.
    """
    text = indented(node, lambda it: it.get_attribute("xml:space") == "preserve", serialize) if pretty else serialize(node)
    plain = encoding is None or codecs.lookup(encoding).name in ("utf-8", "ascii")
    if declaration or (declaration is None and not plain):
        said = f' encoding="{encoding}"' if encoding else ""
        text = f'<?xml version="1.0"{said}?>\n{text}'
    return text if encoding is None else _encoded(node, text, encoding)


def _encoded(node: Node, text: str, encoding: str) -> bytes:
    """A text in an encoding, with numbers for the characters that it has not."""
    try:
        return text.encode(encoding)
    except UnicodeEncodeError:
        found = markup(node, STYLE, False, _other)
    try:
        "".join((found.others, *found.names)).encode(encoding)
    except UnicodeEncodeError as fault:
        raise NotXML(None, "tostring", f"{encoding} has no character {fault.object[fault.start]!r}, and a name, a comment or an instruction cannot have a reference: write it as utf-8") from None
    return text.encode(encoding, "xmlcharrefreplace")


def write(node: Node, target: Target, pretty: bool = False, encoding: str = "utf-8", declaration: bool = True) -> None:
    """Writes a node and all below it as XML to a path, or to a file that is open for bytes."""
    write_bytes(target, tostring(node, pretty, encoding=encoding, declaration=declaration))
