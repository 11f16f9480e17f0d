"""Why a call was refused, in words, by questions that are asked after the refusal."""

from __future__ import annotations

import json
import threading
from typing import Any, Callable, Dict, List, Optional, Sequence

from . import _signatures as made

# The standard's numbers of kinds, and the kinds that a Document has at most once.
DOCUMENT, DOCTYPE = 9, 10
ONLY_ONCE = (1, DOCTYPE)
# Parameters that are nodes, by their names; and what a parameter of another kind is called by.
NODES = ("parent", "node", "child", "document", "element", "other", "root", "text", "start", "end")
ASKED: Dict[str, str] = {"range": "range", "source": "range", "iterator": "iterator", "walker": "walker", "observer": "observer"}


class Refused:
    """A refused call: its words by their names, and what can be asked of the session."""

    def __init__(self, call: str, calls: Any, words: Sequence[Any]) -> None:
        self.call, self.calls = call, calls
        values = [made.HP_NONE if it is None else getattr(it, "number", it) for it in words]
        # (to look an observer up is no call of the library)
        names = made.PARAMETERS.get(call, ("observer",) if call == "mutation_observer" else ())
        self.words: Dict[str, Any] = dict(zip(names, values))

    def nodes(self) -> List[str]:
        """The parameters that name a node."""
        return [it for it in self.words if it in NODES and isinstance(self.words[it], int) and self.words[it] != made.HP_NONE]

    def place(self, name: str) -> Any:
        """The neighbours of the node of a parameter."""
        return self.calls.links(self.words[name])

    def said(self, number: int) -> str:
        """A node in a sentence: ``3 <#text>``."""
        return f"{number} <{json.loads(self.calls.read_printed(number))['ok']['name']}>"

    def node(self, name: str) -> str:
        """The node of a parameter in a sentence."""
        return self.said(self.words[name])


def missing(it: Refused) -> Optional[str]:
    """Which object there is not."""
    for name in it.nodes():
        try:
            it.place(name)
        except LookupError:
            return f"there is no node {it.words[name]}: it was discarded, or never made"
    found = [f"{ASKED[name]} {value}" for name, value in it.words.items() if name in ASKED]
    return f"there is no {' or no '.join(found)}: it was released, or never made" if found else None


def misplaced(it: Refused) -> Optional[str]:
    """Why a node cannot be inserted."""
    if it.call in ("extract_contents", "clone_contents"):
        return f"range {it.words['range']} contains a doctype, which no fragment can have"
    over = "parent" if "parent" in it.words and it.call != "surround_contents" else "range"
    if over == "range":
        return f"{it.node('node' if 'node' in it.words else 'parent')} cannot be inserted at the start of range {it.words['range']}"
    if it.words["node"] == made.HP_NONE:
        return f"{it.node('parent')} cannot have children"
    return f"{it.node('node')} cannot be a child of {it.node('parent')}{in_the_way(it)}"


def in_the_way(it: Refused) -> str:
    """Why a node cannot be a child of another: it is an inclusive ancestor of that one, or a Document has one of its kind."""
    node, parent = it.words["node"], it.words["parent"]
    if node == parent or it.calls.contains(node, parent):
        return ", whose inclusive ancestor it is"
    passed = (node, it.words["child"]) if it.call == "replace_child" else (node,)
    if it.place("parent").kind != DOCUMENT or it.place("node").kind not in ONLY_ONCE:
        return ""
    for other in it.calls.read_children(parent):
        if other not in passed and it.calls.links(other).kind == it.place("node").kind:
            return f", which already has {it.said(other)}"
    return ""


def not_a_child(it: Refused) -> str:
    """Which node is no child."""
    return f"{it.node('child')} is not a child of {it.node('parent')}"


def bad_name(it: Refused) -> Optional[str]:
    """Which name is not valid."""
    names = [repr(it.words[name]) for name in ("name", "target") if name in it.words]
    return f"{names[0]} is not a valid name" if names else None


def beyond(it: Refused) -> Optional[str]:
    """Which offset is beyond which length."""
    found = next(iter(it.nodes()), None)
    if found is None or "offset" not in it.words:
        return None
    return f"offset {it.words['offset']} is beyond the length of {it.node(found)}, which is {it.calls.length(it.words[found])}"


def unsupported(it: Refused) -> Optional[str]:
    """Which Document was given, or which number is not a choice."""
    if "how" in it.words:
        return f"how is {it.words['how']}, and has to be from 0 to 3"
    return f"{it.node('node')} is a Document, which cannot be moved or copied into another" if "node" in it.words else None


def elsewhere(it: Refused) -> Optional[str]:
    """Which object is in another tree."""
    found = [it.node(name) for name in it.nodes()] or [f"range {it.words[name]}" for name in ("source",) if name in it.words]
    return f"{found[-1]} is in another tree than range {it.words['range']}" if found and "range" in it.words else None


def no_place(it: Refused) -> Optional[str]:
    """Why a range cannot start or end there, or a node cannot surround others."""
    if it.call == "surround_contents":
        return f"{it.node('parent')} is a Document, doctype or fragment, which cannot surround others: give an element"
    kinds = {name: it.place(name).kind for name in it.nodes()}
    doctype = next((name for name in kinds if kinds[name] == DOCTYPE), None)
    if doctype is not None:
        return f"{it.node(doctype)} is a doctype, in which no range can start or end"
    return f"{it.node(next(iter(kinds)))} has no parent, in which a range could start or end" if kinds else None


def partly(it: Refused) -> str:
    """Which range partially contains a node."""
    return f"range {it.words['range']} partially contains a node that is not a Text"


def wrong_kind(it: Refused) -> Optional[str]:
    """Which node or option is of the wrong kind."""
    if it.call == "observe":
        return f"the options for {it.node('node')} select none of child_list, attributes and character_data, or contradict each other"
    name = next(iter(it.nodes()), None)
    return f"{it.node(name)} is of another kind than this call is for" if name else None


def in_use(it: Refused) -> str:
    """Why a node cannot be discarded."""
    parent = it.place("node").parent
    if parent != made.HP_NONE:
        return f"{it.node('node')} is a child of {it.said(parent)}: remove it first"
    return f"{it.node('node')} is in use: a range, an iterator, a walker, an observer or a record refers to its tree, or it is the node document of others"


REASONS: Dict[int, Callable[[Refused], Optional[str]]] = {
    made.HP_NO_SUCH_OBJECT: missing,
    made.HP_HIERARCHY_REQUEST_ERROR: misplaced,
    made.HP_NOT_FOUND_ERROR: not_a_child,
    made.HP_INVALID_CHARACTER_ERROR: bad_name,
    made.HP_INDEX_SIZE_ERROR: beyond,
    made.HP_NOT_SUPPORTED_ERROR: unsupported,
    made.HP_WRONG_DOCUMENT_ERROR: elsewhere,
    made.HP_INVALID_NODE_TYPE_ERROR: no_place,
    made.HP_INVALID_STATE_ERROR: partly,
    made.HP_TYPE_ERROR: wrong_kind,
    made.HP_IN_USE: in_use,
}


# A question that is refused itself has no reason.
_asking = threading.local()


def reason(status: int, call: str, calls: Any, words: Sequence[Any]) -> Optional[str]:
    """Why a call with these words was refused, if that can be found out; it never raises."""
    found = REASONS.get(status)
    if found is None or getattr(_asking, "is_on", False):
        return None
    _asking.is_on = True
    try:
        return found(Refused(call, calls, words))
    except Exception:
        return None
    finally:
        _asking.is_on = False
