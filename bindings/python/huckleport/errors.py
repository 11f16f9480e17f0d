"""How a refusal by the library is raised."""

from __future__ import annotations

import builtins
from typing import Any, Dict, Optional, Sequence, Tuple, Type

from . import _signatures as made


class Error(Exception):
    """An error of the package. ``name`` is how replies print it, ``call`` the refused call, and ``reason`` the reason, if it is known.

    After a refusal by the library nothing has changed; ``status`` is its number. A refusal by the package itself has no status.
    """

    def __init__(self, status: Optional[int] = None, call: str = "", reason: Optional[str] = None) -> None:
        self.status = status
        self.name = type(self).__name__ if status is None else made.WORDS.get(status, str(status))
        self.call = call
        self.reason = reason
        super().__init__(self._sentence())

    def _sentence(self) -> str:
        """What it says."""
        meaning = None if self.status is None or self.reason else made.MEANINGS.get(self.status)
        name = None if self.status is None else f"{self.name} ({meaning})" if meaning else self.name
        return ": ".join(it for it in (self.call, self.reason, name) if it)

    def __reduce__(self) -> Tuple[Any, ...]:
        return type(self), (self.status, self.call, self.reason), self.__dict__


class DOMException(Error):
    """An exception of the standard, with the standard's ``name`` and ``code``."""

    @property
    def code(self) -> int:
        """The standard's number of it."""
        return self.status or 0


class DOMTypeError(DOMException, TypeError):
    """The standard's TypeError: a node of the wrong kind, or options that do not go together. Its code is 0."""

    @property
    def code(self) -> int:
        """The standard's number of it."""
        return 0


class NoSuchObject(Error, LookupError):
    """No object has that number: it was discarded or released, or never made."""


class LimitReached(Error):
    """There are not enough numbers left for what would be made."""


class InUse(Error):
    """Something still refers to a node that was to be discarded."""


class OutOfMemory(Error, MemoryError):
    """Out of memory: nothing has changed and the session goes on, or it has ended, now or before. It can still be read and serialized."""


class SessionClosed(Error, ValueError):
    """The session is closed."""


class BadValue(Error, ValueError):
    """A value that can't be: a name that is no text in UTF-8, a number that stands for no choice, an object of another session."""


class BadNumber(BadValue, OverflowError):
    """A number that no offset, count or length is: one below 0, or too large."""


class BadType(Error, TypeError):
    """An object of a class that is not due."""


class SessionInUse(Error, RuntimeError):
    """Another thread is in a long call of the session: a deep copy, or its end."""


class BadIndex(Error, IndexError):
    """An index or an offset beyond the end of a text."""


class NoSuchAttribute(Error, KeyError):
    """An element has no attribute of that name."""

    __str__ = Exception.__str__


class GroupIsOpen(Error, RuntimeError):
    """Undo and redo have to wait for the end of a group."""


class Malformed(BadValue):
    """A document that is not well-formed. ``lineno``, ``offset`` and ``code`` tell where and why, as those of expat do."""

    lineno = offset = code = 0


class NotXML(BadValue):
    """What no XML can hold."""


class NoParser(Error, ImportError):  # type: ignore[misc]
    """A package is not installed that this needs."""


class NotThere(Error, LookupError):
    """The last answer, or the node, has no such part."""


KINDS: Dict[int, Type[Error]] = {
    made.HP_TYPE_ERROR: DOMTypeError,
    made.HP_NO_SUCH_OBJECT: NoSuchObject,
    made.HP_LIMIT: LimitReached,
    made.HP_IN_USE: InUse,
    made.HP_OUT_OF_MEMORY: OutOfMemory,
    made.HP_CLOSED: SessionClosed,
    made.HP_NOT_THERE: NotThere,
    made.HP_BAD_LIMITS: BadValue,
    made.HP_NOT_UTF8: BadValue,
    made.HP_BAD_LENGTHS: BadValue,
    made.HP_BAD_CHOICE: BadValue,
}


def together(faults: Sequence[BaseException]) -> BaseException:
    """One exception for several: what ends the program, else a group, and before Python 3.11 the first with the others as its notes."""
    ending = [it for it in faults if not isinstance(it, Exception)]
    first = (ending or list(faults))[0]
    if len(faults) == 1:
        return first
    group: Any = getattr(builtins, "ExceptionGroup", None)
    if group and not ending:
        found: BaseException = group("callbacks of observers raised", list(faults))
        return found
    notes = [f"a callback of another observer raised {it!r}" for it in faults if it is not first]
    setattr(first, "__notes__", [*getattr(first, "__notes__", ()), *notes])
    return first


# What the calls of the library are called here, where it is another name.
ASKED: Dict[str, str] = {
    "new_document": "create_document",
    "create_text": "create_text_node",
    "create_pi": "create_processing_instruction",
    "create_doctype": "create_document_type",
    "create_fragment": "create_document_fragment",
    "create_iterator": "create_node_iterator",
    "create_walker": "create_tree_walker",
    "create_observer": "create_mutation_observer",
    "children": "child_nodes",
    "root": "get_root_node",
    "is_equal": "is_equal_node",
    "compare_position": "compare_document_position",
    "common_ancestor": "common_ancestor_container",
    "attribute_names": "get_attribute_names",
    "data_of": "data",
    "set_current": "current_node",
    "release_range": "release",
    "release_static_range": "release",
    "release_iterator": "release",
    "release_walker": "release",
    "release_observer": "release",
}


def refusal(status: int, call: str, calls: Any = None, words: Sequence[Any] = ()) -> Error:
    """The exception for a status of a call with these words. Below 32 are the standard's codes."""
    kind = KINDS.get(status, DOMException if status < made.HP_TYPE_ERROR else Error)
    # (out of memory, there may be none to load a module)
    if calls is None or kind is OutOfMemory:
        return kind(status, ASKED.get(call, call), None)
    from .reasons import reason

    return kind(status, ASKED.get(call, call), reason(status, call, calls, words))
