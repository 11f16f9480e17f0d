"""The extension module, which makes all calls of the library, and its members in the classes of the package."""

from __future__ import annotations

from importlib.util import find_spec
from types import FunctionType
from typing import Any, Dict, TypeVar

K = TypeVar("K", bound=type)

# Classes of nodes that have attributes of their own, and no class below them.
LAST = {"DocumentType", "Element", "ProcessingInstruction"}

MISSING = """the extension module huckleport._core is not here, and nothing runs without it.
In the repository these make it, by gcc and Python's headers:
  python3 bindings/c/make.py
  python3 bindings/python/extension.py --build
Elsewhere, install the wheel of a release by pip."""

try:
    from . import _core as core
    from ._core import Builder, Calls, Thing
except ImportError as fault:
    if find_spec("huckleport._core"):
        raise
    raise ImportError(MISSING, name="huckleport._core") from fault

__all__ = ["Builder", "Calls", "InCore", "Thing", "core", "quick", "settle"]


class InCore(NotImplementedError):
    """What the body of a member raises that the extension module has; it is never run."""


def settle(classes: Dict[str, Any]) -> None:
    """Hands the classes and functions of the package to what makes objects of answers."""
    core.settle(classes)


def _spelled(name: str, it: FunctionType) -> str:
    """The signature of a method, as the docstring of one in C begins with it; ``inspect`` reads it there."""
    words = list(it.__code__.co_varnames[1 : it.__code__.co_argcount])
    for at, value in enumerate(reversed(it.__defaults__ or ())):
        words[-1 - at] += f"={value!r}"
    return f"{name}({', '.join(['$self', '/', *words])})\n--\n\n{it.__doc__ or ''}"


def _family(kind: type) -> type:
    """Returns the class of all objects whose numbers are of one family, as Node: a member of one takes each."""
    return next(it for it in kind.__mro__ if "_family" in vars(it))


def _attribute(kind: type, name: str, it: property) -> Any:
    """What the extension module has in place of an attribute, or None."""
    found = core.attribute(_family(kind), name, it.__doc__ or "")
    if found is None or it.fset is None:
        return core.quick(kind, name, found) if found and kind.__name__ in LAST else found
    return found if core.member(_family(kind), f"{name}=", "") else property(found.__get__, it.fset, None, it.__doc__)


def _in_core(kind: type, name: str, it: Any) -> Any:
    """What the extension module has in place of a member, or None."""
    if isinstance(it, property):
        return _attribute(kind, f"{kind.__name__}.{name}", it)
    return core.member(_family(kind), f"{kind.__name__}.{name}", _spelled(name, it)) if isinstance(it, FunctionType) else None


def quick(kind: K) -> K:
    """Puts the extension's members in their places. Names, types and docstrings are those of the class."""
    for name, it in list(vars(kind).items()):
        found = _in_core(kind, name, it)
        if found is not None:
            setattr(kind, name, found)
    return kind
