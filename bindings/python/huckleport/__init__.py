"""Documents by the DOM Standard: trees, live ranges, iterators, walkers and mutation observers, over the library for C::

    with huckleport.Session() as session:
        document = session.document
        paragraph = document.append_child(document.create_element("p"))
        paragraph.append_child(document.create_text_node("some text"))

Names are the standard's in Python's spelling. Texts are ``str``, and offsets count UTF-16 units.
"""

from . import html, xml
from ._lxml import from_lxml, to_lxml
from .attributes import Attributes
from .documents import Document
from .errors import (
    BadIndex,
    BadNumber,
    BadType,
    BadValue,
    DOMException,
    DOMTypeError,
    Error,
    GroupIsOpen,
    InUse,
    LimitReached,
    Malformed,
    NoParser,
    NoSuchAttribute,
    NoSuchObject,
    NotXML,
    OutOfMemory,
    SessionClosed,
    SessionInUse,
)
from .history import History
from .moves import move
from .nodes import (
    CharacterData,
    ChildNode,
    Comment,
    DocumentFragment,
    DocumentType,
    Element,
    Node,
    ParentNode,
    ProcessingInstruction,
    Row,
    Text,
)
from .observers import MutationObserver, MutationRecord
from .ranges import AbstractRange, Range, StaticRange
from .session import Counts, Session
from .texts import from_units, is_well_formed, to_units, utf16_index, utf16_length, utf16_offset, well_formed
from .traversal import NodeFilter, NodeIterator, TreeWalker

__version__ = "0.1.0"

__all__ = [
    "AbstractRange",
    "Attributes",
    "BadIndex",
    "BadNumber",
    "BadType",
    "BadValue",
    "CharacterData",
    "ChildNode",
    "Comment",
    "Counts",
    "DOMException",
    "DOMTypeError",
    "Document",
    "DocumentFragment",
    "DocumentType",
    "Element",
    "Error",
    "GroupIsOpen",
    "History",
    "InUse",
    "LimitReached",
    "Malformed",
    "MutationObserver",
    "MutationRecord",
    "NoParser",
    "NoSuchAttribute",
    "NoSuchObject",
    "Node",
    "NodeFilter",
    "NodeIterator",
    "NotXML",
    "OutOfMemory",
    "ParentNode",
    "ProcessingInstruction",
    "Range",
    "Row",
    "Session",
    "SessionClosed",
    "SessionInUse",
    "StaticRange",
    "Text",
    "TreeWalker",
    "from_lxml",
    "from_units",
    "html",
    "is_well_formed",
    "move",
    "to_lxml",
    "to_units",
    "utf16_index",
    "utf16_length",
    "utf16_offset",
    "well_formed",
    "xml",
]
