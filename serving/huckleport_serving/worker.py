"""Workers: each claims documents for which lines wait, holds their worlds, answers, and records lines and replies together.

All that a worker does is by statements that are transactions by themselves, so one that is stopped at any instruction holds nothing in the
database. What it writes is written under the epoch of its claim, or not at all.
"""

from __future__ import annotations

import ctypes
import gc
import os
import resource
import socket
import time
from dataclasses import dataclass, field
from itertools import accumulate, islice
from typing import Any, Dict, List, Optional, Sequence, Set, Tuple

import psycopg
from psycopg import sql

from .alone import Alone, Killed
from .leases import Lease
from .links import array, connected, first_line, log, ready
from .questions import is_question
from .worlds import OUT_OF_MEMORY, OUT_OF_TIME, PROGRAM, Unanswered, Watch, World, replay, resident, split

CLAIM = 64
"""How many documents are claimed at once, so that workers that start together share what waits."""

PIECE_LINES, PIECE_BYTES = 20_000, 16 << 20
"""How much of the logs is replayed before other documents are served again."""

AHEAD_LINES = 1_000
"""If a piece of a log has at least this many lines, the database reads the next piece while it is replayed."""

ELSEWHERE = 0.5
"""For how long a document that could not be claimed is not tried again when lines come for it, in seconds."""

FEWEST = 16
"""How many lines of a document are taken at once, where many documents have some."""

SWEEP, RESTS = 0.5, 10
"""How often a worker itself checks for waiting lines and for idle documents, in seconds, and how many times as long as that took it rests at least."""

AVOIDED = 10.0
"""For how long a worker leaves a document to others that it had no memory for, in seconds."""

TURN = 0.2
"""How long the lines of a turn are answered before they are recorded, or replayed before other documents are served, in seconds."""

SUSPECT = 3
"""A document that was claimed this many times without a recorded line gets a process of its own."""

SHARE = 5.0
"""How long a document has its process to itself before another heavy document may get the place, in seconds."""

MOST_DEATHS = 2
"""How often a document's process is made anew after something else has killed it, without a line answered."""

ALONE_LINES, ALONE_BYTES = 2_000, 4 << 20
"""How much a document in a process of its own is given at once."""

FORGET, DROP = 30.0, 5.0
"""How often a worker removes replies that nobody took, and lines that were answered already, in seconds."""


@dataclass(frozen=True)
class Bounds:
    """The bounds of a worker: documents, bytes of memory, lines and bytes that are answered at once, and processes for single documents. The
    lease and the idle time of a document are in seconds. If it `adopts`, it claims documents of versions that no worker has."""

    documents: int = 10_000
    memory: int = 2 << 30
    lines: int = 4_000
    bytes: int = 16 << 20
    processes: int = 16
    lease: float = 10.0
    idle: float = 300.0
    adopts: bool = True


@dataclass
class Held:
    """A document that a worker has. `last` is the number of the last line that its world has seen, `size` the bytes of all of them, and
    `grown` the memory that they took, as far as it was watched. One whose lines are heavy has a process of its own in place of a world here."""

    document: int
    epoch: int
    numbers: int
    line: int
    used: float
    world: Optional[World] = None
    alone: Optional[Alone] = None
    last: int = 0
    size: int = 0
    grown: int = 0
    is_whole: bool = False
    is_fresh: bool = True
    is_heavy: bool = False
    # The lines that its process is answering, or the last number of those that it replays.
    ids: List[int] = field(default_factory=list)
    lines: List[bytes] = field(default_factory=list)
    replayed: int = 0
    deaths: int = 0
    # Since when its process has the whole document, and whether it is given no more lines, since another one is to have its place.
    whole_since: float = 0.0
    is_leaving: bool = False

    @property
    def is_busy(self) -> bool:
        return self.alone is not None and self.alone.is_busy

    def close(self) -> None:
        for it in (self.world, self.alone):
            if it is not None:
                it.close()
        self.world = self.alone = None


@dataclass
class Batch:
    """Lines that were answered, and whose they are."""

    parts: List[Tuple[Held, int]] = field(default_factory=list)
    places: List[int] = field(default_factory=list)
    ids: List[int] = field(default_factory=list)
    numbers: List[int] = field(default_factory=list)
    replies: List[bytes] = field(default_factory=list)
    size: int = 0

    def add(self, held: Held, ids: Sequence[int], lines: Sequence[bytes], replies: List[bytes]) -> None:
        """Adds the first lines of a document, which were answered. Questions get the number 0, and stay out of the log."""
        last = held.last
        for line, _ in zip(lines, replies):
            if is_question(line):
                self.numbers.append(0)
            else:
                last += 1
                self.numbers.append(last)
        self.parts.append((held, last))
        self.places += [held.document] * len(replies)
        self.ids += ids[: len(replies)]
        self.replies += replies
        self.size += sum(map(len, replies))


REFUSED = (OUT_OF_MEMORY, OUT_OF_TIME)
"""The replies to lines that were past the bounds of their document."""

RECORD = "select * from huckleport.record(%s, %s::bigint[], %s::bigint[], %s::bigint[], %s::bigint[], %s::bigint[], %s::bigint[], %b::bytea[])"


class LeaseEnded(Exception):
    """The lease ended before it was renewed: the documents may be another's."""


def give_memory_back() -> None:
    """Hands memory that is free to the system, where the C library can."""
    gc.collect()
    try:
        ctypes.CDLL(None).malloc_trim(0)
    except AttributeError:
        pass


class Tenure:
    """The time of a worker under one lease, on one connection. When either is lost its documents are dropped, and the next one begins."""

    def __init__(self, conninfo: str, bounds: Bounds, answered: int, woken: int) -> None:
        self.bounds, self.answered, self.woken = bounds, answered, woken
        name = f"{socket.gethostname()} {os.getpid()}"
        self.held: Dict[int, Held] = {}
        # Of these: whose logs were not replayed to the end, and the heavy ones. (So no turn looks at all.)
        self.loading: Dict[int, Held] = {}
        self.apart: Dict[int, Held] = {}
        self.due: Dict[int, None] = {}
        self.candidates: Set[int] = set()
        self.elsewhere: Dict[int, float] = {}
        self.avoided: Dict[int, float] = {}
        self.told: Tuple[List[Any], List[int]] = ([], [])
        # The piece of a log that was read ahead: whose, behind which number, and its row.
        self.ahead: Optional[Tuple[Held, int, Optional[Tuple[Any, ...]]]] = None
        self.sweep_due = self.forgot = self.dropped = 0.0
        self.memory, self.seconds = 0, 0.0
        self.connection = connected(conninfo, [sql.SQL("listen huckleport_requests")])
        self.connection.add_notify_handler(lambda it: self._notified(it.payload))
        self.id: int = self._row("select huckleport.register(%s, %s, make_interval(secs => %s))", name, PROGRAM, bounds.lease)[0]
        self.lease = Lease(conninfo, self.id, bounds.lease, lambda: (len(self.held), self.answered, resident()))

    def close(self) -> None:
        """Ends it, and hands all documents on at once if the database can be told."""
        self.lease.close()
        for it in self.held.values():
            it.close()
        self.held.clear()
        if not self.connection.closed:
            self._row("select huckleport.leave(%s)", self.id)
            self.connection.close()

    def _row(self, words: str, *parameters: Any) -> Tuple[Any, ...]:
        row: Optional[Tuple[Any, ...]] = self.connection.execute(words, parameters).fetchone()
        assert row is not None
        return row

    def _notified(self, payload: str) -> None:
        """Lines came for a document, or documents were handed on."""
        if not payload.isdecimal():
            self.elsewhere.clear()
            self.sweep_due = 0.0
        elif int(payload) in self.held:
            self.due[int(payload)] = None
        elif self.elsewhere.get(int(payload), 0.0) < time.monotonic():
            self.candidates.add(int(payload))

    def turn(self) -> None:
        """One turn: answers lines that wait, replays a piece, claims, sweeps; waits if there was nothing to do."""
        if self.lease.has_ended:
            raise LeaseEnded
        is_busy = self._collect() | self._serve() | self._replay() | self._replay_alone() | self._claim(sorted(self.candidates))
        if time.monotonic() > self.sweep_due:
            self._sweep_and_rest()
        elif not is_busy and not self._can_serve() and not self.told[0]:
            busy = [it.alone.fileno() for it in self.apart.values() if it.alone is not None and it.is_busy]
            ready(SWEEP, self.connection.fileno(), self.woken, *busy)
            self.connection.execute("select")

    # answering

    def _can_serve(self) -> bool:
        return any(self._is_ready(it) for it in self.due)

    def _is_ready(self, document: int) -> bool:
        held = self.held[document]
        return held.is_whole and not held.is_busy and not held.is_leaving

    def _serve(self) -> bool:
        """Takes lines that wait for some documents, and answers and records them."""
        documents = self._next_due()
        if not documents and not self.told[0]:
            return False
        most = max(FEWEST, self.bounds.lines // max(1, len(documents)))
        each = self.bounds.bytes // max(1, len(documents))
        told, self.told = self.told, ([], [])
        words = "select document, ids, lines from huckleport.take(%s::bigint[], %s, %s, %s::uuid[], %s::bigint[])"
        rows = self.connection.execute(words, (array(documents), most, each, *told), binary=True).fetchall()
        batch, until = Batch(), time.monotonic() + TURN
        for document, ids, lines in rows:
            held = self.held[document]
            if held.alone is not None:
                self._start_alone(held, ids, split(lines))
            elif batch.size > self.bounds.bytes or time.monotonic() > until:
                self.due[document] = None
            else:
                self._answer(batch, held, ids, split(lines), most, each)
        if batch.parts:
            self._record(batch)
        return bool(rows)

    def _next_due(self) -> List[int]:
        """Returns the documents that are served now. Lines that come for one from here on make it due again."""
        found = list(islice((it for it in self.due if self._is_ready(it)), max(1, self.bounds.lines // FEWEST)))
        for it in found:
            del self.due[it]
        return found

    def _answer(self, batch: Batch, held: Held, ids: List[int], lines: List[bytes], most: int, room: int) -> None:
        """Answers lines of one document, until their replies are more than there is room for, or one of them is heavy."""
        assert held.world is not None
        replies: List[bytes] = []
        held.size += sum(map(len, lines))
        watch, until = Watch(held.grown), time.monotonic() + TURN
        try:
            for line in lines:
                replies.append(held.world.answer(line))
                room -= len(replies[-1])
                held.is_heavy = watch.is_heavy()
                if held.is_heavy or room < 0 or time.monotonic() > until:
                    break
        except Unanswered:
            held.is_heavy = True
        held.grown = watch.grown
        if held.is_heavy or len(replies) < len(lines) or len(lines) >= most:
            self.due[held.document] = None
        if replies:
            batch.add(held, ids, lines, replies)
            # (if it is heavy, its process replays it once these lines are recorded)
            held.is_whole = not held.is_heavy
        elif held.is_heavy:
            self._move(held)

    def _start_alone(self, held: Held, ids: List[int], lines: List[bytes]) -> None:
        """Has a document's process answer lines."""
        assert held.alone is not None
        count = ALONE_LINES
        for count, size in enumerate(accumulate(map(len, lines)), 1):
            if size > ALONE_BYTES:
                break
        held.ids, held.lines = ids[:count], lines[:count]
        held.size += sum(map(len, held.lines))
        if len(held.lines) < len(lines) or len(lines) >= FEWEST:
            self.due[held.document] = None
        held.alone.answer(b"\n".join(held.lines), len(held.lines))

    def _collect(self) -> bool:
        """Records the lines that documents' own processes have answered, and goes on with those that have replayed some."""
        done = [it for it in self.apart.values() if it.alone is not None and it.is_busy and it.alone.is_done()]
        batch, over = Batch(), []
        for it in done:
            try:
                over += [it] if self._collect_one(batch, it) else []
            except Killed as fault:
                log.warning("document %d: %s", it.document, fault)
                it.deaths += 1
                over.append(it)
            except Unanswered as fault:
                self._give_up(it, str(fault))
        if batch.parts:
            self._record(batch)
        for it in over:
            if self.held.get(it.document) is it and it.deaths > MOST_DEATHS:
                self._give_up(it, "its process was killed again and again")
            elif self.held.get(it.document) is it:
                self._move(it)
        return bool(done)

    def _collect_one(self, batch: Batch, held: Held) -> bool:
        """Returns whether a document's process is to begin anew, since a line of it was past its bounds."""
        assert held.alone is not None
        if not held.is_whole:
            wrong = held.alone.difference()
            if wrong is not None:
                raise Unanswered(f"line {held.last + wrong + 1} has another reply when it is replayed")
            held.last = held.replayed
            return False
        replies = held.alone.replies()
        is_over = replies[-1] in REFUSED
        if is_over and held.alone.memory < self.memory:
            # (a worker with more memory may answer it)
            if len(replies) == 1:
                raise Unanswered(f"it needs more than the {held.alone.memory} bytes of memory that this worker may take (--memory)")
            del replies[-1]
        if is_over:
            log.warning("document %d: request refused by %s", held.document, replies[-1].decode())
        batch.add(held, held.ids, held.lines, replies)
        if len(replies) < len(held.lines):
            self.due[held.document] = None
        return is_over

    def _record(self, batch: Batch) -> None:
        """Records lines that were answered, of the documents that are still this worker's. The others are dropped."""
        held = [it for it, _ in batch.parts]
        mine = array(it.document for it in held), array(it.epoch for it in held), array(it.document for it in held if it.is_fresh)
        row = self._row(RECORD, self.id, *mine, array(batch.places), array(batch.ids), array(batch.numbers), batch.replies)
        kept, now = set(row[0] or []), time.monotonic()
        self.told = (self.told[0] + (row[1] or []), self.told[1] + (row[2] or []))
        self.answered += len(batch.replies)
        for it, last in batch.parts:
            it.last, it.used, it.is_fresh, it.deaths = last, now, False, 0
        self._drop([it for it in held if it.document not in kept], "claimed by another worker")
        for it in held:
            if it.document in kept and it.is_heavy and it.alone is None:
                self._move(it)

    # claiming and replaying

    def _claim(self, named: Optional[List[int]]) -> bool:
        """Claims some of the documents that are named, or any for which lines wait."""
        self.candidates.clear()
        room = min(CLAIM, self._room())
        if named == [] or room < 1:
            return False
        now = time.monotonic()
        self.avoided = {document: until for document, until in self.avoided.items() if until > now}
        words = "select id, epoch, numbers, line, attempts from huckleport.claim(%s, %s, %s, %s::bigint[], %s::bigint[], %s)"
        given = None if named is None else array(named)
        rows = self.connection.execute(words, (self.id, PROGRAM, room, given, array(self.avoided), self.bounds.adopts)).fetchall()
        for document, epoch, numbers, line, attempts in rows:
            if document in self.held:
                self._drop([self.held[document]], "claimed anew")
            self.held[document] = self.loading[document] = held = Held(document, epoch, numbers, line, now, is_heavy=attempts >= SUSPECT)
            if held.is_heavy:
                self.apart[document] = held
            else:
                held.world = World(numbers, line)
        self.elsewhere.update((it, now + ELSEWHERE) for it in named or () if it not in self.held)
        return bool(rows)

    def _move(self, held: Held) -> None:
        """Has a document replayed in a process of its own, which is made when there is room for it."""
        held.close()
        held.last, held.size, held.is_whole, held.is_heavy, held.is_leaving = 0, 0, False, True, False
        self.loading[held.document] = self.apart[held.document] = held

    def _replay_alone(self) -> bool:
        """Gives documents' own processes the next piece of their logs. A document without one gets it, if there is room."""
        waiting = [it for it in self.apart.values() if not it.is_whole and not it.is_busy]
        is_busy = False
        for it in waiting:
            if it.alone is None and self._has_process():
                self._begin_alone(it)
            if it.alone is not None:
                self._replay_piece_alone(it, it.alone)
                is_busy = True
        return is_busy

    def _begin_alone(self, held: Held) -> None:
        log.info("document %d gets a process of its own", held.document)
        try:
            held.alone = Alone(held.numbers, held.line, min(self.memory, self.bounds.memory), self.seconds)
        except (OSError, MemoryError) as fault:
            self._give_up(held, f"out of memory for a process: {fault}")

    def _has_process(self) -> bool:
        """Returns whether there is room for a process. If there is none, the document goes whose process was idle longest, if only for a second.
        If all are at work, the document that has had its process longest is given no more lines, and goes when it is not busy.
        """
        alone = [it for it in self.apart.values() if it.alone is not None]
        if len(alone) < self.bounds.processes:
            return True
        now = time.monotonic()
        free = [it for it in alone if it.is_whole and not it.is_busy]
        idle = [it for it in free if it.is_leaving or (it.document not in self.due and it.used < now - 1.0)]
        if idle:
            self._let_go([min(idle, key=lambda it: it.used)])
        elif not any(it.is_leaving for it in alone):
            shared = [it for it in alone if it.is_whole and it.whole_since < now - SHARE]
            if shared:
                min(shared, key=lambda it: it.whole_since).is_leaving = True
        return bool(idle)

    def _replay_piece_alone(self, held: Held, alone: Alone) -> None:
        words = "select count, last, lines, replies from huckleport.piece(%s, %s, %s, %s)"
        row = self.connection.execute(words, (held.document, held.last, PIECE_LINES, ALONE_BYTES), binary=True).fetchone()
        if row is None:
            self._is_loaded(held)
        elif row[1] != held.last + row[0]:
            self._give_up(held, f"a line behind {held.last} is missing")
        else:
            held.replayed = row[1]
            held.size += len(row[2])
            alone.replay(row[2], row[3], row[0])

    def _room(self) -> int:
        """Returns how many documents may be claimed. If there is no room, those go that were idle longest, if only for a second."""
        room = self.bounds.documents - len(self.held)
        if room > 0:
            return room
        self._evict(1.0, CLAIM)
        return self.bounds.documents - len(self.held)

    def _replay(self) -> bool:
        """Replays a piece of the logs of documents that were claimed, which are served once they have been to the end."""
        loading = [it for it in self.loading.values() if not it.is_heavy][:CLAIM]
        if len(loading) == 1:
            self._replay_one(loading[0])
        elif loading:
            self._replay_some(loading)
        return bool(loading)

    def _replay_some(self, loading: List[Held]) -> None:
        words = "select document, count, last, lines, replies from huckleport.log(%s::bigint[], %s::bigint[], %s, %s)"
        each = max(1, PIECE_LINES // len(loading)), PIECE_BYTES // len(loading)
        given = array(it.document for it in loading), array(it.last for it in loading), *each
        rows = {it[0]: it[1:] for it in self.connection.execute(words, given, binary=True).fetchall()}
        for it in loading:
            self._replay_row(it, rows.get(it.document), TURN / len(loading))

    def _replay_one(self, held: Held) -> None:
        """Replays a piece of the log of one document. If it is long, the database reads the next one meanwhile."""
        ahead, self.ahead = self.ahead, None
        if ahead is not None and ahead[0] is held and ahead[1] == held.last:
            row = ahead[2]
        else:
            row = self._piece(held, held.last).fetchone()
        if row is None or row[0] < AHEAD_LINES:
            self._replay_row(held, row, TURN)
            return
        with self.connection.pipeline():
            following = self._piece(held, row[1])
            self._replay_row(held, row, TURN)
            self.ahead = held, row[1], following.fetchone()

    def _piece(self, held: Held, behind: int) -> psycopg.Cursor[Any]:
        words = "select count, last, lines, replies from huckleport.piece(%s, %s, %s, %s)"
        return self.connection.execute(words, (held.document, behind, PIECE_LINES, PIECE_BYTES), binary=True)

    def _replay_row(self, held: Held, row: Optional[Tuple[Any, ...]], seconds: float) -> None:
        """Replays a piece of a log: how many lines, the last one's number, the lines and the replies. Without one the log is at its end."""
        if row is None:
            self._is_loaded(held)
        elif row[1] != held.last + row[0]:
            self._give_up(held, f"a line behind {held.last} is missing")
        else:
            self._replay_piece(held, split(row[2]), split(row[3]), seconds)

    def _is_loaded(self, held: Held) -> None:
        """Notes that a document's world has seen its whole log, so its lines are answered."""
        held.is_whole, held.whole_since = True, time.monotonic()
        self.loading.pop(held.document, None)
        self.due[held.document] = None

    def _replay_piece(self, held: Held, lines: List[bytes], replies: List[bytes], seconds: float) -> None:
        """Replays lines. Those that are left once the time is over are read again in another turn."""
        assert held.world is not None
        watch = Watch(held.grown)
        try:
            count, is_wrong = replay(held.world, lines, replies, watch, seconds)
        except Unanswered:
            self._move(held)
            return
        held.grown = watch.grown
        held.size += sum(map(len, lines[:count]))
        held.last += count
        if is_wrong:
            self._give_up(held, f"line {held.last + 1} has another reply when it is replayed")

    # releasing documents

    def _drop(self, dropped: Sequence[Held], why: str) -> None:
        for it in dropped:
            log.info("document %d: %s", it.document, why)
            for its in (self.held, self.loading, self.apart, self.due):
                its.pop(it.document, None)
            it.close()

    def _let_go(self, found: List[Held]) -> None:
        """Hands documents on that are idle."""
        self._row("select huckleport.release(%s, %s::bigint[])", self.id, array(it.document for it in found))
        self._drop(found, "idle")

    def _give_up(self, held: Held, fault: str) -> None:
        """Hands a document on that could not be answered here. Its waiting lines stay, and were not acknowledged."""
        log.warning("document %d is handed on: %s", held.document, fault)
        self.avoided[held.document] = time.monotonic() + AVOIDED
        self._drop([held], fault)
        give_memory_back()
        self._row("select huckleport.release(%s, %s::bigint[], %s)", self.id, array([held.document]), fault)

    def _evict(self, idle: float, most: int) -> None:
        """Releases documents that were idle for more than `idle` seconds, the longest first, and at most `most`."""
        since = time.monotonic() - idle
        free = (it for it in self.held.values() if it.used < since and it.is_whole and not it.is_busy and it.document not in self.due)
        found = sorted(free, key=lambda it: it.used)[:most]
        if found:
            self._let_go(found)
            give_memory_back()

    def _sweep_and_rest(self) -> None:
        """Sweeps. The next sweep is due after a while, or at once if documents were handed on meanwhile."""
        start = time.monotonic()
        self.sweep_due = start + SWEEP
        self._sweep(start)
        if self.sweep_due:
            end = time.monotonic()
            self.sweep_due = max(self.sweep_due, end + RESTS * (end - start))

    def _sweep(self, now: float) -> None:
        """Checks for the lines of lost notifications, and the bounds."""
        self.elsewhere.clear()
        self.memory, self.seconds = self._row("select memory, seconds from huckleport.settings")
        drops = now - self.dropped > DROP
        if drops:
            self.dropped = now
        for (document,) in self.connection.execute("select huckleport.sweep(%s, %s)", (self.id, drops)).fetchall():
            if document in self.held:
                self.due[document] = None
        self._claim(None)
        self._evict(self.bounds.idle, self.bounds.documents)
        if self._taken() > self.bounds.memory:
            self._shrink()
        if now - self.forgot > FORGET:
            self.forgot = now
            self._row("select huckleport.forget_answers()")

    def _taken(self) -> int:
        """Returns the bytes of memory that the worker has, with the processes of single documents."""
        return resident() + sum(it.alone.resident() for it in self.apart.values() if it.alone is not None)

    def _shrink(self) -> None:
        """Releases an eighth of the documents, of those for which no line waits. If that is not enough, it releases a large one."""
        give_memory_back()
        if self._taken() > self.bounds.memory:
            self._evict(0.0, len(self.held) // 8 + 1)
        if self._taken() > self.bounds.memory:
            self.give_up_largest("more memory than this worker may take")

    def give_up_largest(self, fault: str) -> None:
        """Hands on the document whose lines were the most bytes, of those with processes of their own if there are any."""
        if self.held:
            self._give_up(max(self.held.values(), key=lambda it: (it.alone is not None, it.size)), fault)


class Worker:
    """A worker of one database, until it is stopped."""

    def __init__(self, conninfo: str, bounds: Bounds = Bounds()) -> None:
        self.conninfo, self.bounds = conninfo, bounds
        self.is_stopped = False
        self._answered = 0
        self._left: List[int] = []
        # A pipe that ends a wait once it has a byte.
        self._woken, self._wake = os.pipe()

    def stop(self) -> None:
        """Ends it once the lines that it is answering are recorded. A signal handler may call this."""
        self.is_stopped = True
        os.write(self._wake, b".")

    def run(self) -> None:
        """Serves until it is stopped. After a failed statement, most often since the connection was lost, it does not know which lines were
        recorded. So it drops all documents, and claims and replays them again on a new connection.
        """
        bound_memory(self.bounds.memory)
        while not self.is_stopped:
            try:
                self._serve()
            except psycopg.Error as fault:
                log.warning("begins anew: %s", first_line(fault))
                time.sleep(0.2)
            except MemoryError:
                log.warning("begins anew: out of memory")
            except LeaseEnded:
                log.warning("begins anew: the lease ended before it was renewed")

    def _serve(self) -> None:
        tenure = Tenure(self.conninfo, self.bounds, self._answered, self._woken)
        try:
            for it in self._left:
                tenure.connection.execute("select huckleport.leave(%s)", (it,))
            self._left = [tenure.id]
            log.info("worker %d begins", tenure.id)
            while not self.is_stopped:
                tenure.turn()
        except MemoryError:
            tenure.give_up_largest("out of memory")
            raise
        finally:
            self._answered = tenure.answered
            tenure.close()
        self._left = []


def bound_memory(most: int) -> None:
    """Growths past a quarter more than the bound are refused: then a line is not answered here."""
    hard = resource.getrlimit(resource.RLIMIT_DATA)[1]
    wanted = most + most // 4
    resource.setrlimit(resource.RLIMIT_DATA, (wanted if hard < 0 else min(wanted, hard), hard))
