"""The places of documents among several databases.

A name's place is that of jump consistent hashing (Lamping and Veach, 2014): when a database is added, a name keeps its place or gets the new one.
So a document that was made when there were fewer databases is at one of a few places, and nothing is ever moved.
"""

from __future__ import annotations

import hashlib
from typing import List


def jumps(name: str, count: int) -> List[int]:
    """Returns the places that a name had while the databases grew to `count`, the last first."""
    key = int.from_bytes(hashlib.sha256(name.encode("utf-8", "surrogatepass")).digest()[:8], "little")
    found, following = [0], 0
    while True:
        key = (key * 2862933555777941757 + 1) % 2**64
        following = int((found[-1] + 1) * (2**31 / ((key >> 33) + 1)))
        if following >= count:
            return found[::-1]
        found.append(following)
