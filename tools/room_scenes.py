"""Scenes in which Texts and attributes lose most of their content: lines, each with the expected reply, for `tools/refused.py`.

The lost content is freed: in each scene at most `MOST` bytes are in use at once.
"""
import json

MOST = 20 << 20


def pair(due, *command):
    """Returns a command's line, and its reply."""
    line, reply = (json.dumps(it, separators=(",", ":")) for it in (command, {"ok": due}))
    return line, reply


def split_from_the_front(lines):
    """Cuts a Text of `lines` lines, each of 80 units, into its lines, front to back."""
    yield pair(1, "createElement", 0, "e")
    yield pair(2, "createText", 0, "a" * 80 * lines)
    yield pair(2, "appendChild", 1, 2)
    for number in range(2, lines + 1):
        yield pair(number + 1, "splitText", number, 80)
    yield pair(80, "length", 2)
    yield pair(80, "length", lines + 1)


def split_from_the_back(lines):
    """Cuts a Text of `lines` lines, each of 80 units, into its lines, back to front."""
    yield pair(1, "createElement", 0, "e")
    yield pair(2, "createText", 0, "a" * 80 * lines)
    yield pair(2, "appendChild", 1, 2)
    for number in range(3, lines + 2):
        yield pair(number, "splitText", 2, 80 * (lines + 2 - number))
    yield pair(80, "length", 2)


def deleted(node, units, _):
    yield pair(None, "deleteData", node, 1, units - 1)


def data_set(node, _, __):
    yield pair(None, "setData", node, "b")


def replaced(node, units, _):
    yield pair(None, "replaceData", node, 1, units, "")


def split_and_discarded(node, _, free):
    yield pair(free, "splitText", node, 1)
    yield pair(None, "discard", free)


def deleted_by_a_range(node, units, _):
    yield pair(None, "setStart", 0, node, 1)
    yield pair(None, "setEnd", 0, node, units)
    yield pair(None, "deleteContents", 0)


def cut_to_a_unit(texts, units):
    """Cuts a number of Texts, each of `units` units, to one unit, in five ways in turn."""
    ways = [deleted, data_set, replaced, split_and_discarded, deleted_by_a_range]
    yield pair(1, "createText", 0, "a" * units)
    yield pair(0, "createRange", 0)
    number = 2
    for at in range(texts):
        yield pair(number, "cloneNode", 1, False)
        lines = list(ways[at % len(ways)](number, units, number + 1))
        yield from lines
        yield pair("b" if ways[at % len(ways)] is data_set else "a", "data", number)
        number += 1 + (ways[at % len(ways)] is split_and_discarded)


def halved_from_the_front(texts, units):
    """Splits a number of Texts, each of `units` units, ahead of their middle until one unit is left, and discards the fronts."""
    yield pair(1, "createText", 0, "a" * units)
    number = 2
    for _ in range(texts):
        yield pair(number, "cloneNode", 1, False)
        rest, left, number = number, units, number + 1
        while left > 1:
            at = max(1, (left - 1) // 2)
            yield pair(number, "splitText", rest, at)
            yield pair(None, "discard", rest)
            rest, left, number = number, left - at, number + 1
        yield pair("a", "data", rest)


def taken_off_one_by_one(units):
    """Deletes the last unit of a Text again and again until one is left, and then fills it again."""
    yield pair(1, "createText", 0, "a" * units)
    for left in range(units - 1, 0, -1):
        yield pair(None, "deleteData", 1, left, 1)
    for _ in range(units - 1):
        yield pair(None, "appendData", 1, "b")
    yield pair("a" + "b" * (units - 1), "data", 1)


def attributes_lost(names, copies):
    """Gives an element `names` attributes, and removes all but the first two. Then it is copied, gets two more, and is copied again."""
    yield pair(1, "createElement", 0, "e")
    for at in range(names):
        yield pair(None, "setAttribute", 1, f"a{at}", f"{at}")
    for at in reversed(range(2, names)):
        yield pair(None, "removeAttribute", 1, f"a{at}")
    for number in range(2, 2 + copies):
        yield pair(number, "cloneNode", 1, False)
    yield pair(None, "setAttribute", 1, "b", "")
    yield pair(None, "setAttribute", 1, "c", "")
    for number in range(2 + copies, 2 + 2 * copies):
        yield pair(number, "cloneNode", 1, False)
    yield pair(["a0", "a1"], "attributeNames", 1 + copies)
    yield pair(["a0", "a1", "b", "c"], "attributeNames", 1 + 2 * copies)
    yield pair("1", "getAttribute", 1 + 2 * copies, "a1")


# The name of each, the function that makes it, its size for counting memory, and its size for refusing each growth.
SCENES = (
    ("a Text split from the front", split_from_the_front, (5000,), (12,)),
    ("a Text split from the back", split_from_the_back, (5000,), (12,)),
    ("Texts cut to a unit", cut_to_a_unit, (4000, 50_000), (10, 200)),
    ("Texts halved from the front", halved_from_the_front, (400, 50_000), (4, 200)),
    ("units taken off one by one", taken_off_one_by_one, (20_000,), (100,)),
    ("attributes lost", attributes_lost, (8000, 4000), (40, 4)),
)
