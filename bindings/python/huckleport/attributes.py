"""The attributes of an element as a mapping."""

from __future__ import annotations

from typing import TYPE_CHECKING, Iterator, MutableMapping

from .errors import NoSuchAttribute

if TYPE_CHECKING:
    from .nodes import Element


class Attributes(MutableMapping[str, str]):
    """Names and values, in the element's order. It keeps nothing: each use asks the element or changes it."""

    __slots__ = ("element",)

    def __init__(self, element: Element) -> None:
        self.element = element

    def __getitem__(self, name: str) -> str:
        found = self.element.get_attribute(name)
        if found is None:
            raise NoSuchAttribute(None, "", f"there is no attribute {name!r}")
        return found

    def __setitem__(self, name: str, value: str) -> None:
        self.element.set_attribute(name, value)

    def __delitem__(self, name: str) -> None:
        if name not in self:
            raise NoSuchAttribute(None, "", f"there is no attribute {name!r}")
        self.element.remove_attribute(name)

    def __contains__(self, name: object) -> bool:
        return isinstance(name, str) and self.element.has_attribute(name)

    def __iter__(self) -> Iterator[str]:
        return iter(self.element.get_attribute_names())

    def __len__(self) -> int:
        return len(self.element.get_attribute_names())

    def __repr__(self) -> str:
        return repr(dict(self))
