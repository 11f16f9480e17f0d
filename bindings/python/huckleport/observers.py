"""Mutation observers and their records."""

from __future__ import annotations

from typing import TYPE_CHECKING, Callable, List, NamedTuple, Optional, Sequence

from . import _signatures as made
from .nodes import Node
from .objects import SessionObject
from .traversal import names

if TYPE_CHECKING:
    from .session import Session


class MutationRecord(NamedTuple):
    """What changed. ``type`` is ``attributes``, ``characterData`` or ``childList``."""

    type: str
    target: Node
    added_nodes: List[Node]
    removed_nodes: List[Node]
    previous_sibling: Optional[Node]
    next_sibling: Optional[Node]
    attribute_name: Optional[str]
    old_value: Optional[str]

    def __repr__(self) -> str:
        """One line, with nodes by their numbers."""
        nodes = f"added {[it.number for it in self.added_nodes]}, removed {[it.number for it in self.removed_nodes]}"
        name = f" {self.attribute_name!r}" if self.attribute_name is not None else ""
        return f"<MutationRecord {self.type}{name} of {self.target.number}: {nodes}, old value {self.old_value!r}>"


Callback = Callable[[List[MutationRecord], "MutationObserver"], object]


def is_async(callback: Callback) -> bool:
    """Whether a function is one by ``async def``, which nobody would await."""
    from inspect import iscoroutinefunction

    return iscoroutinefunction(callback)


class MutationObserver(SessionObject):
    """Watches nodes. ``session.notify()`` calls its callback with the records and the observer."""

    __slots__ = ("callback",)

    def __init__(self, session: Session, number: int, callback: Optional[Callback] = None) -> None:
        super().__init__(session, number)
        self.callback = callback

    def observe(
        self,
        target: Node,
        *,
        child_list: Optional[bool] = None,
        attributes: Optional[bool] = None,
        character_data: Optional[bool] = None,
        subtree: Optional[bool] = None,
        attribute_old_value: Optional[bool] = None,
        character_data_old_value: Optional[bool] = None,
        attribute_filter: Optional[Sequence[str]] = None,
    ) -> None:
        """Watches a node. An option that is None is absent."""
        given = (child_list, attributes, character_data, subtree, attribute_old_value, character_data_old_value)
        options = made.hp_options._make([*(2 if it is None else int(bool(it)) for it in given), int(attribute_filter is not None)])
        self._calls.observe(self.number, self._of(target, Node), options, *names(attribute_filter or ()))
        self.session._observers[self.number] = self

    def disconnect(self) -> None:
        """Ends all watching, and drops the records that were not delivered."""
        self._calls.disconnect(self.number)
        if self._is_own:
            self.session._observers.pop(self.number, None)

    def take_records(self) -> List[MutationRecord]:
        """Takes the records that were not delivered, and returns them."""
        return self._calls.read_records(self, self.session._left)

    def release(self) -> None:
        """Releases the observer: it watches nothing more, and drops the records that were not delivered."""
        self._calls.release_observer(self.number)
        self.session._observers.pop(self.number, None)
        self.session._left[:] = [it for it in self.session._left if it is not None and it[0] is not self]
