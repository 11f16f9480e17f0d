"""Pages by html5-parser, which makes a tree of libxml2; and nodes of the package of that tree."""

from __future__ import annotations

import re
from importlib import import_module
from typing import Any, Optional, Union

from ._calls import Builder
from .documents import Document
from .nodes import DocumentFragment
from .texts import well_formed

parser: Any = import_module("html5_parser")

# What a page is decoded by that says nothing of it: the HTML Standard's encoding for that.
FALLBACK = "windows-1252"
DOCTYPE_FIRST = re.compile(r"\s*<!doctype", re.IGNORECASE)
BYTES_FIRST = re.compile(rb"(?:\xef\xbb\xbf)?\s*<!doctype", re.IGNORECASE)


def _page(source: Union[str, bytes], context: Optional[str] = None) -> Any:
    """A capsule with the tree of a page, or of a part of one that stands in an element of a name."""
    data = parser.as_utf8(well_formed(source) if isinstance(source, str) else source, None, FALLBACK)
    how = {"fragment_context": context.lower(), "fragment_namespace": parser.html_parser.GUMBO_NAMESPACE_HTML} if context else {}
    return parser.html_parser.parse(data, keep_doctype=True, sanitize_names=False, **how)


def parse(document: Document, source: Union[str, bytes], is_exact: bool) -> bool:
    """Parses a page into a document. Returns False if it is to be exact, but the tree does not show which nodes are ahead of the doctype."""
    is_first = DOCTYPE_FIRST.match(source) if isinstance(source, str) else BYTES_FIRST.match(source)
    builder = Builder(document._calls, document.number, document.number, True)
    return builder.add_page(_page(source), is_exact and not is_first)


def parse_fragment(document: Document, source: Union[str, bytes], container: str) -> DocumentFragment:
    """Parses a part of a page, which stands under the root of the tree."""
    fragment = document.create_document_fragment()
    Builder(document._calls, document.number, fragment.number, True).add_part(_page(source, container))
    return fragment
