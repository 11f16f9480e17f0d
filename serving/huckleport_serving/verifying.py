"""Replays the log of a document, and compares each reply."""

from __future__ import annotations

import subprocess
import tempfile
from dataclasses import dataclass
from typing import Any, Iterator, List, Optional, Protocol, Tuple

import psycopg

from .links import escaped
from .worlds import LEFT_OUT, PROGRAM, Unanswered, World

PIECE_LINES, PIECE_BYTES = 20_000, 16 << 20
LOG = "select count, last, lines, replies from huckleport.piece(%s, %s, %s, %s)"


class Answers(Protocol):
    """What answers the lines of one document, from the first on."""

    def answers(self, lines: List[bytes]) -> List[bytes]: ...

    def close(self) -> None: ...


class ByLibrary:
    """The library, in this process."""

    def __init__(self, numbers: int, line: int) -> None:
        self._world = World(numbers, line)

    def answers(self, lines: List[bytes]) -> List[bytes]:
        return [self._world.answer(it) for it in lines]

    def close(self) -> None:
        self._world.close()


class ByProgram:
    """A process of the program."""

    def __init__(self, program: str, numbers: int, line: int) -> None:
        words = [program, "--numbers", str(numbers), "--line", str(line)]
        self._process = subprocess.Popen(words, stdin=subprocess.PIPE, stdout=subprocess.PIPE)

    def answers(self, lines: List[bytes]) -> List[bytes]:
        assert self._process.stdin is not None and self._process.stdout is not None
        with tempfile.TemporaryFile() as given:
            given.write(b"".join(it + b"\n" for it in lines))
            given.seek(0)
            # (the program reads while its replies are read: a writer of its own hands the lines in)
            writer = subprocess.Popen(["cat"], stdin=given, stdout=self._process.stdin)
            found = [self._process.stdout.readline()[:-1] for _ in lines]
            writer.wait()
        if len(found) != len(lines) or b"" in found:
            raise Unanswered("the program ended before it had replied to all lines")
        return found

    def close(self) -> None:
        assert self._process.stdin is not None
        self._process.stdin.close()
        self._process.wait()


@dataclass(frozen=True)
class Verdict:
    """What became of a document: how many lines were replayed, and the number of the first that is wrong, if any is, and why."""

    name: str
    lines: int
    wrong: Optional[int] = None
    why: str = ""

    def __str__(self) -> str:
        name = escaped(self.name)
        return f"{name}: {self.lines} lines, each reply the same" if self.wrong is None else f"{name}: WRONG at {self.wrong}: {self.why}"


def pieces(connection: psycopg.Connection[Any], document: int) -> Iterator[Tuple[int, int, List[bytes], List[bytes]]]:
    """The log of a document piece by piece: how many lines, the last one's number, the lines and their replies."""
    last = 0
    while True:
        row = connection.execute(LOG, (document, last, PIECE_LINES, PIECE_BYTES), binary=True).fetchone()
        if row is None:
            return
        yield row[0], row[1], row[2].split(b"\n"), row[3].split(b"\n")
        last = row[1]


def first_wrong(world: Answers, lines: List[bytes], replies: List[bytes]) -> Optional[int]:
    """Answers lines, but for those that had no effect, and returns the index of the first whose reply is another one."""
    places = [at for at, it in enumerate(replies) if it not in LEFT_OUT]
    found = world.answers([lines[it] for it in places])
    return next((at for at, reply in zip(places, found) if reply != replies[at]), None)


def replayed(connection: psycopg.Connection[Any], name: str, program: Optional[str] = None) -> Verdict:
    """Replays a document from its first line on, by the library, or by a program."""
    row = connection.execute("select id, numbers, line, version from huckleport.documents where name = %s", (name,)).fetchone()
    assert row is not None
    document, numbers, line, version = row
    world: Answers = ByLibrary(numbers, line)
    if program:
        world = ByProgram(program, numbers, line)
    seen = 0
    try:
        for count, last, lines, replies in pieces(connection, document):
            wrong = first_wrong(world, lines, replies)
            if wrong is not None:
                return Verdict(name, seen + wrong, seen + wrong + 1, f"another reply; it was answered by version {version}, and this is {program or PROGRAM}")
            if last != seen + count:
                return Verdict(name, seen, seen + 1, "a number is missing behind it")
            seen = last
    except Unanswered as fault:
        return Verdict(name, seen, seen + 1, str(fault))
    finally:
        world.close()
    return Verdict(name, seen)


def adopt(connection: psycopg.Connection[Any], name: str) -> None:
    """Hands a document to this version of the program, which has to have replayed it. A worker that has it keeps it until it lets it go."""
    connection.execute("update huckleport.documents set version = %s where name = %s", (PROGRAM, name))
