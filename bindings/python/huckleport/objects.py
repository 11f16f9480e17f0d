"""What a session tells by a number, as objects."""

from __future__ import annotations

from typing import Optional, Type, TypeVar

from ._calls import Thing
from ._signatures import HP_NONE
from .errors import BadType, BadValue, Error

K = TypeVar("K", bound="SessionObject")


class SessionObject(Thing):
    """What has a number in a session. Sessions and documents make these; the same number is the same object."""

    __slots__ = ("__weakref__",)
    # Numbers of one family are one another's: those of nodes, ranges, static ranges, iterators, walkers and observers.
    _family = 5

    def _of(self, other: object, kind: Type[SessionObject]) -> int:
        """The number of an object that is handed in, which has to be of this session."""
        if not isinstance(other, kind):
            raise BadType(None, "", f"expected a {kind.__name__}, not {type(other).__name__}")
        if other.session is not self.session:
            raise BadValue(None, "", f"the {kind.__name__} {other.number} belongs to another session")
        return other.number

    def _of_maybe(self, other: object, kind: Type[SessionObject]) -> int:
        return HP_NONE if other is None else self._of(other, kind)

    def _said(self) -> str:
        """What repr tells beside class and number."""
        return ""

    def __repr__(self) -> str:
        said = _or_fault(self)
        return f"<{type(self).__name__} {self.number}{' ' + said if said else ''}>"

    def __reduce__(self) -> str:
        raise BadType(None, "", f"a {type(self).__name__} belongs to its session, and cannot be copied or pickled")


def _or_fault(it: SessionObject) -> str:
    """Returns the words about an object for its repr, or the name of an error, since a repr never raises."""
    try:
        return it._said()
    except Error as fault:
        return fault.name


def maybe(number: int) -> Optional[int]:
    """Returns a number, or None for ``HP_NONE``."""
    return None if number == HP_NONE else number
