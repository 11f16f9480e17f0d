"""Sessions: a world of documents, and all its objects by their numbers."""

from __future__ import annotations

import json
import weakref
from types import TracebackType
from typing import Any, Dict, List, NamedTuple, Optional, Sequence, Tuple, Type, TypeVar

from ._calls import Calls, settle
from ._signatures import HP_NO_SUCH_OBJECT, HP_NONE, hp_options
from .documents import Document
from .errors import BadType, Error, NoSuchObject, OutOfMemory, refusal, together
from .nodes import CharacterData, Comment, DocumentFragment, DocumentType, Element, Node, ProcessingInstruction, Row, Text
from .objects import SessionObject
from .observers import Callback, MutationObserver, MutationRecord, is_async
from .ranges import Range, StaticRange
from .traversal import NodeIterator, TreeWalker

K = TypeVar("K", bound=SessionObject)
Notice = Tuple[MutationObserver, List[MutationRecord]]

KINDS: Dict[int, Type[Node]] = {
    Node.ELEMENT_NODE: Element,
    Node.TEXT_NODE: Text,
    Node.PROCESSING_INSTRUCTION_NODE: ProcessingInstruction,
    Node.COMMENT_NODE: Comment,
    Node.DOCUMENT_NODE: Document,
    Node.DOCUMENT_TYPE_NODE: DocumentType,
    Node.DOCUMENT_FRAGMENT_NODE: DocumentFragment,
}


def _close(calls: Calls) -> None:
    calls.close()


def _name_elsewhere(kind: int) -> str:
    """The name that all nodes of a kind have, as another session tells it."""
    with Session() as session:
        document = session.document
        nodes = (document, document.create_text_node(""), document.create_comment(""), document.create_document_fragment())
        return next(it.node_name for it in nodes if it.node_type == kind)


class Counts(NamedTuple):
    """How many objects of each kind a session has: those that were made, and neither discarded nor released."""

    nodes: int
    ranges: int
    static_ranges: int
    iterators: int
    walkers: int
    observers: int
    registrations: int
    """Those of all observers, with the transient ones."""


class Session:
    """A world of documents, shared with no other session. It has a Document from the first: ``session.document``.

    ``numbers`` is how many numbers each kind of object has, and ``line`` how many bytes a line may have. Threads may share a session:
    its calls are made one at a time.
    """

    def __init__(self, numbers: int = HP_NONE, line: int = 1048576) -> None:
        self._calls = Calls()
        self._calls.open(numbers, line)
        self._end = weakref.finalize(self, _close, self._calls)
        # Observers that observe stay, since their callbacks are still to be called; and those that lines have made.
        self._observers: Dict[int, MutationObserver] = {}
        # Notices that are still to be handed out: another callback raised, and their observer has none, or one that was cut short.
        self._left: List[Optional[Notice]] = []

    def close(self) -> None:
        """Frees all that the session has. Every use of it, or of an object in it, raises ``SessionClosed`` from then on."""
        self._end()

    @property
    def closed(self) -> bool:
        """Whether the session has ended."""
        return not self._end.alive

    def __enter__(self) -> Session:
        return self

    def __exit__(self, kind: Optional[Type[BaseException]], fault: Optional[BaseException], trace: Optional[TracebackType]) -> None:
        self.close()

    def __repr__(self) -> str:
        return "<Session, closed>" if self.closed else "<Session>"

    def __reduce__(self) -> str:
        raise BadType(None, "", "a session cannot be copied or pickled")

    # objects by numbers

    def _keep(self, kind: Type[K], number: int) -> K:
        """The object of a kind with that number, the same each time."""
        return self._calls.keep(self, kind, number)

    def _make(self, kind: Type[K], number: int) -> K:
        """Returns the object of a number that was just made, which is freed with the object."""
        return self._calls.make(self, kind, number)

    def _node(self, number: int) -> Node:
        return self._calls.node_object(self, number)

    def _document(self, number: int) -> Document:
        return self._keep(Document, number)

    def node(self, number: int) -> Node:
        """The node of that number, for what lines made."""
        return self._keep(KINDS[self._calls.links(number).kind], number)

    def range(self, number: int) -> Range:
        """The live range of that number."""
        self._calls.range(number)
        return self._keep(Range, number)

    def static_range(self, number: int) -> StaticRange:
        """The static range of that number."""
        self._calls.static_range(number)
        return self._keep(StaticRange, number)

    def node_iterator(self, number: int) -> NodeIterator:
        """The iterator of that number."""
        self._calls.iterator(number)
        return self._keep(NodeIterator, number)

    def tree_walker(self, number: int) -> TreeWalker:
        """The walker of that number."""
        self._calls.walker(number)
        return self._keep(TreeWalker, number)

    def mutation_observer(self, number: int) -> MutationObserver:
        """The observer of that number."""
        if number not in self._observers:
            self._has_observer(number)
        return self._observer(number)

    def _observer(self, number: int) -> MutationObserver:
        found = self._keep(MutationObserver, number)
        return found if found._is_own else self._observers.setdefault(number, found)

    def _has_observer(self, number: int) -> None:
        """Asks whether there is an observer: to watch a node without a type is refused, and for another reason where there is none."""
        node = self._any_node()
        try:
            self._calls.observe(number, node, hp_options(2, 2, 2, 2, 2, 2, 0), b"", [])
        except Error as fault:
            if fault.status == HP_NO_SUCH_OBJECT:
                raise refusal(HP_NO_SUCH_OBJECT, "mutation_observer", self._calls, (number,)) from None
        finally:
            if node:
                self._calls.discard(node)

    def _any_node(self) -> int:
        """The first Document, or a new one where it was discarded."""
        try:
            self._calls.links(0)
        except NoSuchObject:
            return self._calls.new_document()
        return 0

    # what a session makes

    @property
    def document(self) -> Document:
        """The Document that is there from the first."""
        return self._document(0)

    def create_document(self) -> Document:
        """A new Document, without children."""
        return self._make(Document, self._calls.new_document())

    def create_static_range(self, start_container: Node, start_offset: int, end_container: Node, end_offset: int) -> StaticRange:
        """A range that stays as it is made."""
        start, end = self.document._of(start_container, Node), self.document._of(end_container, Node)
        return self._make(StaticRange, self._calls.create_static_range(start, start_offset, end, end_offset))

    def create_mutation_observer(self, callback: Optional[Callback] = None) -> MutationObserver:
        """A new observer, whose callback ``notify`` calls with the records and the observer. The session keeps it while it observes.

        A callback is no ``async def``: ``notify`` awaits nothing.
        """
        if callback is not None and is_async(callback):
            raise BadType(None, "create_mutation_observer", "the callback is an async function, which notify() does not await: give a plain function")
        found = self._make(MutationObserver, self._calls.create_observer())
        found.callback = callback
        return found

    # observers

    def notify(self) -> List[Notice]:
        """Notifies each observer of its records in its turn, by its callback, and returns the notices.

        An observer that an earlier callback disconnected or released, or whose records it took, is not notified. Changes that a callback makes
        are delivered by the next ``notify()``, or in its turn to an observer that is still to come.

        If callbacks raise, the others are still called. Then the exception is raised, or several as an ``ExceptionGroup`` (before Python 3.11
        the first one, with the others as its notes). Some notices are kept then for the next ``notify()``, or the observer's next
        ``take_records()``: those to observers without a callback, and to one that was cut short by an interrupt or out of memory.
        """
        told: List[Any] = []
        left: List[Any] = self._left
        faults = self._calls.tell(self, told, left)
        # (this takes no memory: an error here would lose the notices)
        while None in left:
            left.remove(None)
        while None in told:
            told.remove(None)
        if faults:
            raise together(faults)
        return told

    def pending(self) -> List[MutationObserver]:
        """Returns the observers that wait to be notified."""
        return [self._observer(it) for it in self._calls.read_pending()]

    # what many nodes have

    def data_of(self, nodes: Sequence[CharacterData]) -> List[str]:
        """The data of many nodes."""
        return self._calls.read_data_of(nodes)

    def text_content_of(self, nodes: Sequence[Node]) -> List[Optional[str]]:
        """The text content of many nodes."""
        return self._calls.read_text_content_of(nodes)

    def attribute_of(self, elements: Sequence[Element], name: str) -> List[Optional[str]]:
        """The value of an attribute of many elements; None for one that has it not."""
        return self._calls.read_attribute_of(elements, name)

    def attributes_of(self, elements: Sequence[Element]) -> List[Dict[str, str]]:
        """The attributes of many elements, a dict each, which does not change with the element."""
        return self._calls.read_attributes_of(elements)

    # how much there is

    def in_use(self) -> Counts:
        """Returns how many objects of each kind the session has. Those that nobody holds are freed first."""
        self._calls.let_all_go()
        found = self._calls.in_use()
        return Counts(*(getattr(found, it) for it in Counts._fields))

    # lines

    def line(self, line: bytes) -> bytes:
        """Answers a line of JSON as the program does, and returns the line of the reply with its newline."""
        if not isinstance(line, (bytes, bytearray, memoryview)):
            raise BadType(None, "", f"expected a line as bytes, not {type(line).__name__}")
        status, reply = self._calls.read_line(bytes(line))
        if reply is None:
            raise refusal(status, "line")
        return reply

    # reading answers

    def _printed_name(self, node: int) -> str:
        """The name of a node as its line prints it."""
        try:
            name: str = json.loads(self._calls.read_printed(node))["ok"]["name"]
        except OutOfMemory:
            return _name_elsewhere(self._calls.links(node).kind)
        return name

    def _rows(self, node: Node, most: Optional[int] = None) -> List[Row]:
        return self._calls.read_tree(self, node.number, most)


CLASSES: Tuple[Type[object], ...] = (Node, *KINDS.values(), Range, StaticRange, NodeIterator, TreeWalker, Row, MutationRecord, MutationObserver)
settle(
    {
        **{it.__name__: it for it in CLASSES},
        "refusal": refusal,
        "printed_name": lambda node: node.session._printed_name(node.number),
    }
)
