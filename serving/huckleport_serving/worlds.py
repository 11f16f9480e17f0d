"""The worlds of documents in this process, by the library."""

from __future__ import annotations

import resource
import time
from typing import List, Sequence, Tuple

import huckleport

PROGRAM = str(huckleport.__version__)
"""The version of the program that answers lines here."""

OUT_OF_MEMORY = b'{"error":"out-of-memory"}'
OUT_OF_TIME = b'{"error":"out-of-time"}'

LEFT_OUT = frozenset((OUT_OF_MEMORY, OUT_OF_TIME, b'{"error":"dropped"}'))
"""The recorded replies of lines that had no effect on their document. Replay leaves these lines out."""

LONGEST = 64 << 20
"""The bytes of the longest reply that is recorded."""

WATCHED_LINES, MOST_WATCHED_LINES = 4, 32
"""The lines of a replay that are watched together, and count as one: the first number while they are slow, the second otherwise."""

HEAVY_SECONDS, HEAVY_BYTES, WATCHED_SECONDS = 0.05, 64 << 20, 0.005
"""A document is heavy if one of its lines takes so much processor time, or if its lines took so much memory. (Memory is read after lines that
took a tenth of that time.)"""

PAGE = resource.getpagesize()


class Unanswered(Exception):
    """A line that can't be answered in this process, and why. The world is of no use from then on."""


class World:
    """The world of one document, by its limits."""

    def __init__(self, numbers: int, line: int) -> None:
        self._session = huckleport.Session(numbers, line)

    def answer(self, line: bytes) -> bytes:
        """Returns the reply to a line, without its newline."""
        try:
            reply: bytes = self._session.line(line)[:-1]
        except (MemoryError, huckleport.OutOfMemory) as fault:
            raise Unanswered("out of memory") from fault
        if reply == OUT_OF_MEMORY:
            raise Unanswered("out of memory")
        if len(reply) > LONGEST:
            raise Unanswered(f"out of memory for a reply of {len(reply)} bytes")
        return reply

    def same(self, lines: Sequence[bytes], replies: Sequence[bytes]) -> int:
        """Answers lines, and returns how many have these replies, up to the first that has another one."""
        try:
            found = list(map(self._session.line, lines))
        except (MemoryError, huckleport.OutOfMemory) as fault:
            raise Unanswered("out of memory") from fault
        # (no reply has a newline in it, so this compares each)
        if b"".join(found) == b"\n".join(replies) + b"\n":
            return len(replies)
        wrong = next(at for at, reply in enumerate(replies) if found[at][:-1] != reply)
        if found[wrong][:-1] == OUT_OF_MEMORY:
            raise Unanswered("out of memory")
        return wrong

    def close(self) -> None:
        self._session.close()


class Watch:
    """Tells whether the lines of a document are heavy, from one line to the next."""

    def __init__(self, grown: int = 0) -> None:
        self.grown, self.is_slow = grown, False
        self._memory = resident()
        self._start = time.perf_counter()
        self._used = time.thread_time()

    def is_heavy(self) -> bool:
        """Returns whether the line that was just answered shows that the document is heavy."""
        now = time.perf_counter()
        took, self._start = now - self._start, now
        self.is_slow = took >= WATCHED_SECONDS
        if not self.is_slow:
            return False
        used = time.thread_time()
        took, self._used = min(took, used - self._used), used
        memory = resident()
        self.grown += max(0, memory - self._memory)
        self._memory = memory
        return took > HEAVY_SECONDS or self.grown > HEAVY_BYTES


def replay(world: World, lines: Sequence[bytes], replies: Sequence[bytes], watch: Watch, seconds: float) -> Tuple[int, bool]:
    """Answers lines that were answered before, for `seconds` at most. Returns how many have the same reply, and whether the next one has another.

    Raises `Unanswered` if a line is heavy for the watch.
    """
    at, until = 0, time.monotonic() + seconds
    while at < len(lines) and (not at or time.monotonic() < until):
        end = at + (WATCHED_LINES if watch.is_slow else MOST_WATCHED_LINES)
        if not LEFT_OUT.isdisjoint(replies[at:end]):
            end = at + 1
            if replies[at] in LEFT_OUT:
                at = end
                continue
        due = replies[at:end]
        same = world.same(lines[at:end], due)
        at += same
        if same < len(due):
            return at, True
        if watch.is_heavy():
            raise Unanswered("heavy")
    return at, False


def resident(process: str = "self") -> int:
    """Returns the bytes of memory that a process has."""
    try:
        # (without a buffer it takes a third of the time, and it is read for each turn of a document)
        with open(f"/proc/{process}/statm", "rb", buffering=0) as file:
            return int(file.read(100).split()[1]) * PAGE
    except (FileNotFoundError, ProcessLookupError):
        return 0


def split(joined: bytes) -> List[bytes]:
    return joined.split(b"\n")
