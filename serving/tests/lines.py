"""Lines of an editor: the commands of a random client to a document, right and wrong."""

from __future__ import annotations

import json
import random
from typing import Any, Iterator, List


def commands(seed: object) -> Iterator[List[Any]]:
    """Commands without an end: elements and Texts that are made, put in and moved, data, attributes, ranges, and questions."""
    drawn = random.Random(str(seed))
    made = 1
    yield ["createElement", 0, "root"]
    yield ["appendChild", 0, 1]
    yield ["createRange", 0]
    while True:
        node, other = drawn.randrange(made + 2), drawn.randrange(made + 1)
        kind = drawn.randrange(9)
        if kind < 2:
            made += 1
            yield ["createElement", 0, drawn.choice(["p", "b", "li"])] if kind else ["createText", 0, "some text"]
        elif kind == 2:
            yield ["appendChild", drawn.randrange(1, made + 1), made]
        elif kind == 3:
            yield ["insertBefore", 1, node, other]
        elif kind == 4:
            yield ["replaceData", node, drawn.randrange(5), drawn.randrange(5), drawn.choice(["", "more", "\u00e9\U0001f600"])]
        elif kind == 5:
            yield ["setAttribute", node, drawn.choice(["id", "class", "="]), str(other)]
        elif kind == 6:
            yield ["setStart", 0, node, drawn.randrange(3)]
        elif kind == 7:
            yield ["range", 0]
        else:
            yield ["node", node]


def lines(seed: object, count: int) -> List[bytes]:
    drawn = commands(seed)
    return [json.dumps(next(drawn), ensure_ascii=False, separators=(",", ":")).encode() for _ in range(count)]


READING = (b'["range"', b'["node"', b'["tree"', b'["root"')
"""The questions of these tests, which are in no log."""


def changes(given: List[bytes]) -> List[bytes]:
    """Returns the lines that a log has: all but the questions."""
    return [it for it in given if not it.startswith(READING)]
