"""Clients: they send lines, read replies, and follow what others send."""

from __future__ import annotations

import time
import uuid
from collections import OrderedDict
from functools import partial
from itertools import groupby
from types import TracebackType
from typing import Any, Dict, Iterable, Iterator, List, NamedTuple, Optional, Sequence, Tuple, Type, Union

from psycopg import sql

from .links import Link, Setting, array, escaped
from .places import jumps
from .refusals import ClientFull, DocumentFull, NotAnswered, NotGranted, OtherLimits, Refused

CHUNK_LINES, CHUNK_BYTES = 500, 1 << 20
"""How much is handed in by one statement."""

WINDOW_LINES, WINDOW_BYTES = 4000, 8 << 20
"""How much of one document is on the way at most."""

# How long a client waits for a notification before it looks by itself, and before it hands in again the lines that were not answered.
LOOK, AGAIN = 0.25, 10.0

# How many replies are read at once, and those of how many documents.
READ_REPLIES, READ_DOCUMENTS = 1000, 50

# How many lines, and bytes of lines and replies, are read at once by whoever follows a document.
PAGE_LINES, PAGE_BYTES = 10_000, 4 << 20

SUBMIT = "select huckleport.submit(%b, %b, %b, %b::bytea[])"
REPLIES = "select document, request, reply from huckleport.replies_of(%s::bigint[], %s, %s::bigint[], %s)"
PAGE = "select last, clients, requests, lines, replies from huckleport.page(%s, %s, %s, %s)"


class Entry(NamedTuple):
    """A line of a document's log with its reply. Numbers go from 1 on without a gap."""

    number: int
    client: uuid.UUID
    request: int
    line: bytes
    reply: bytes


class Client:
    """A sender of lines to documents of one database, or of a list of them. A thread uses a client of its own.

    `client` is the id of a program that may be started anew, and then sends again the lines whose replies it does not have. Two processes
    can't use one id at once: the second one raises `ClientInUse`.
    """

    def __init__(
        self, *conninfo: str, client: Union[uuid.UUID, str, None] = None, timeout: float = 60.0, links: Optional[Sequence[Link]] = None
    ) -> None:
        self.id = uuid.uuid4() if client is None else uuid.UUID(str(client))
        self.timeout = timeout
        self._conninfo = conninfo or ("",)
        self._documents: Dict[str, Document] = {}
        # By the place of their database, and their id there.
        self._by_place: Dict[Tuple[int, str], Document] = {}
        self._links = self._linked() if links is None else links
        # By their database: the documents that were notified of replies, and not read since.
        self._notified: List[OrderedDict[Document, None]] = [OrderedDict() for _ in self._links]

    def _linked(self) -> List[Link]:
        """Returns connections of its own."""
        settings: List[Setting] = [
            sql.SQL("set synchronous_commit = off"),
            sql.SQL("select huckleport.enter({})").format(str(self.id)),
            sql.SQL("listen {}").format(sql.Identifier(f"huckleport_client_{self.id}")),
        ]
        return [Link(it, settings, partial(self._told, at)) for at, it in enumerate(self._conninfo)]

    def document(self, name: str, numbers: Optional[int] = None, line: Optional[int] = None) -> Document:
        """Returns the document of that name. If there is none it is made, with these limits or those of the program."""
        if name not in self._documents:
            self._documents[name] = self._opened(name, numbers, line)
        found = self._documents[name]
        if (numbers or found.numbers, line or found.line) != (found.numbers, found.line):
            raise OtherLimits(f"{escaped(name)} has {found.numbers} numbers and lines of {found.line} bytes, not {numbers or found.numbers} and {line or found.line}")
        return found

    def _opened(self, name: str, numbers: Optional[int], line: Optional[int]) -> Document:
        until = time.monotonic() + self.timeout
        count = len(self._links)
        places = jumps(name, count)
        asked = ((it, self._ask(it, "select huckleport.find(%s, %s)", (name, count), until)) for it in places)
        at, document = next((it for it in asked if it[1] is not None), (places[0], None))
        if document is None:
            words = "select huckleport.make(%s, %s, coalesce(%s, 4294967295), coalesce(%s, 1048576))"
            document = self._ask(at, words, (name, count, numbers, line), until)
        assert document is not None
        row = self._links[at].run("select numbers, line from huckleport.about(%s)", (document,), until).fetchone()
        assert row is not None
        made = Document(self, at, name, document, *row)
        self._by_place[at, str(document)] = made
        return made

    def _ask(self, at: int, words: str, parameters: Sequence[Any], until: float) -> Optional[int]:
        row = self._links[at].run(words, parameters, until).fetchone()
        return None if row is None else row[0]

    def _told(self, at: int, payload: str) -> None:
        if (at, payload) in self._by_place:
            self._notified[at][self._by_place[at, payload]] = None

    def close(self) -> None:
        for it in self._links:
            it.close()

    def __enter__(self) -> Client:
        return self

    def __exit__(self, kind: Optional[Type[BaseException]], fault: Optional[BaseException], trace: Optional[TracebackType]) -> None:
        self.close()


class Document:
    """A document, as one client uses it."""

    def __init__(self, client: Client, at: int, name: str, number: int, numbers: int, line: int) -> None:
        self.client, self.name, self.id, self.numbers, self.line = client, name, number, numbers, line
        self._link, self._conninfo, self._notified = client._links[at], client._conninfo[at], client._notified[at]
        # By their requests: the lines that were handed in and not answered, and the replies that nobody has taken.
        self._waiting: Dict[int, bytes] = {}
        self._answers: Dict[int, bytes] = {}
        self._next = self._last() + 1
        self._handed_in: Tuple[int, float] = (self._link.times, time.monotonic())

    def _last(self) -> int:
        """Returns the largest request of this client that waits or was answered."""
        until = time.monotonic() + self.client.timeout
        row = self._link.run("select huckleport.last_request(%s, %s)", (self.id, self.client.id), until).fetchone()
        return 0 if row is None else int(row[0])

    # sending

    def send(self, lines: Iterable[bytes], request: Optional[int] = None, timeout: Optional[float] = None) -> List[bytes]:
        """Sends lines, and returns their replies in order, without newlines. Raises `NotAnswered` once no reply has come for so long.

        `request` is the number of the first of these among this client's requests to this document, by default the one that follows. A line
        that waits or was answered under its number is not done again, and its reply is returned. Another line raises `OtherLine`, and so does
        a change under a number below those that are recorded. (Numbers may be left out, since those of questions are forgotten.)
        """
        given = [bytes(it) for it in lines]
        if request is None:
            return [self.reply(it, timeout) for it in self.post(given, timeout)]
        if request < 1:
            raise ValueError(f"the request {request} is below 1, the first number")
        self._waiting.clear()
        self._answers.clear()
        following, self._next = self._next, request
        try:
            requests = self.post(given, timeout)
        finally:
            self._next = max(following, self._next)
        return [self.reply(it, timeout) for it in requests]

    def ask(self, line: bytes, timeout: Optional[float] = None) -> bytes:
        """Sends one line, and returns its reply."""
        return self.send([line], None, timeout)[0]

    def post(self, lines: Sequence[bytes], timeout: Optional[float] = None) -> range:
        """Hands lines in, and returns their requests, for `reply`. It waits if too many are on the way.

        Raises `DocumentFull` or `ClientFull` if there is no room for them within the time limit.
        """
        first, at = self._next, 0
        broken = next((it for it in lines if b"\n" in it), None)
        if broken is not None:
            raise ValueError(f"a line has a newline in it: {broken[:40]!r}")
        # (a longer line is refused by its first byte too many, so the others need not be sent)
        given = [it[: self.line + 1] for it in lines]
        until = self._until(timeout)
        while at < len(given):
            self._wait_for_room(until)
            chunk = self._chunk(given, at)
            self._post_chunk(first + at, chunk, until)
            at += len(chunk)
        return range(first, first + len(given))

    def _post_chunk(self, first: int, chunk: List[bytes], until: float) -> None:
        """Hands in the lines of one statement. Those that are refused are forgotten."""
        self._waiting.update(zip(range(first, first + len(chunk)), chunk))
        self._next = first + len(chunk)
        try:
            self._hand_in_when_there_is_room(first, chunk, until)
        except Refused:
            for it in range(first, first + len(chunk)):
                self._waiting.pop(it, None)
            self._next = first
            raise

    def _hand_in_when_there_is_room(self, first: int, lines: List[bytes], until: float) -> None:
        pause = 0.05
        while True:
            try:
                return self._hand_in(first, lines, until)
            except (DocumentFull, ClientFull):
                if time.monotonic() + pause > until:
                    raise
            time.sleep(pause)
            pause = min(2 * pause, 1.0)

    def reply(self, request: int, timeout: Optional[float] = None) -> bytes:
        """Returns the reply to a request that was handed in, and waits for it."""
        until = self._until(timeout)
        while request not in self._answers:
            if request not in self._waiting:
                raise KeyError(f"the request {request} was not handed in, or its reply was taken")
            if self._read(until):
                until = self._until(timeout)
            elif time.monotonic() > until:
                raise NotAnswered(f"{escaped(self.name)}: request {request} of client {self.client.id} was not answered in time: it may be later")
            else:
                self._wait(until)
        return self._answers.pop(request)

    def _until(self, timeout: Optional[float]) -> float:
        return time.monotonic() + (self.client.timeout if timeout is None else timeout)

    @staticmethod
    def _chunk(lines: Sequence[bytes], at: int) -> List[bytes]:
        """Returns the next lines that one statement hands in."""
        size, end = 0, at
        while end < len(lines) and end - at < CHUNK_LINES and (end == at or size + len(lines[end]) <= CHUNK_BYTES):
            size += len(lines[end])
            end += 1
        return list(lines[at:end])

    def _hand_in(self, first: int, lines: List[bytes], until: float) -> None:
        self._link.run(SUBMIT, (self.id, self.client.id, first, lines), until)
        if len(self._waiting) == len(lines):
            self._handed_in = self._link.times, time.monotonic()

    def _wait_for_room(self, until: float) -> None:
        while len(self._waiting) > WINDOW_LINES - CHUNK_LINES or sum(map(len, self._waiting.values())) > WINDOW_BYTES - CHUNK_BYTES:
            if not self._read(until):
                self._wait(until)
            if time.monotonic() > until:
                raise NotAnswered(f"{escaped(self.name)}: {len(self._waiting)} requests of client {self.client.id} were not answered in time: they may be later")

    def _read(self, until: float) -> int:
        """Reads the replies that are there, and returns how many came. Those of other documents that were notified are read by the way."""
        if not self._waiting:
            return 0
        count, documents = len(self._waiting), self._to_read()
        try:
            self._read_all(documents, until)
        except NotGranted:
            if len(documents) == 1:
                raise
            self._read_all([self], until)
        return count - len(self._waiting)

    def _to_read(self) -> List[Document]:
        """Returns this document, and others that were notified and wait for replies. They are no longer noted as notified."""
        found = [self]
        self._notified.pop(self, None)
        while self._notified and len(found) < READ_DOCUMENTS:
            document = self._notified.popitem(last=False)[0]
            if document._waiting:
                found.append(document)
        return found

    def _read_all(self, documents: List[Document], until: float) -> None:
        behind = array(next(iter(it._waiting)) - 1 for it in documents)
        given = array(it.id for it in documents), self.client.id, behind, READ_REPLIES // len(documents)
        rows = self._link.run(REPLIES, given, until, binary=True).fetchall()
        by_id = {it.id: it for it in documents}
        for document, request, reply in rows:
            by_id[document]._take(request, reply)

    def _take(self, request: int, reply: bytes) -> None:
        """Keeps a reply that was read. (If the connection was lost meanwhile, another process may have used these numbers. To hand the lines in again
        finds it out.)
        """
        if self._handed_in[0] == self._link.times and self._waiting.pop(request, None) is not None:
            self._answers[request] = reply

    def _wait(self, until: float) -> None:
        """Waits for a notification. Lines that were handed in on a connection that was lost are handed in again."""
        times, then = self._handed_in
        if times != self._link.times or time.monotonic() - then > AGAIN:
            self._hand_in_again(until)
        end = min(time.monotonic() + LOOK, until)
        while self not in self._notified and time.monotonic() < end and self._link.wait(end - time.monotonic()):
            pass

    def _hand_in_again(self, until: float) -> None:
        self._handed_in = self._link.times, time.monotonic()
        for first, lines in runs(self._waiting):
            at = 0
            while at < len(lines):
                chunk = self._chunk(lines, at)
                self._link.run(SUBMIT, (self.id, self.client.id, first + at, chunk), until)
                at += len(chunk)

    # following

    def follow(self, behind: int = 0, timeout: Optional[float] = None) -> Iterator[Entry]:
        """Iterates over the log of the document behind a number, with the lines that come. Ends once none has come for so long.

        The log has the lines that may change a document. Questions are not in it. It has a connection of its own, which is made anew if
        it is lost.
        """
        for page in self.pages(behind, timeout):
            yield from page

    def pages(self, behind: int = 0, timeout: Optional[float] = None) -> Iterator[List[Entry]]:
        """Iterates over the same entries as `follow`, by lists of those that are there."""
        link = Link(self._conninfo, [sql.SQL("listen {}").format(sql.Identifier(f"huckleport_document_{self.id}"))])
        until = time.monotonic() + (float("inf") if timeout is None else timeout)
        clients: Dict[str, uuid.UUID] = {}
        last = behind
        try:
            while time.monotonic() < until:
                row = link.run(PAGE, (self.id, last, PAGE_LINES, PAGE_BYTES), max(until, self._until(None)), binary=True).fetchone()
                if row is None:
                    link.wait(min(1.0, until - time.monotonic()))
                    continue
                yield entries(last, row, clients)
                last = row[0]
                until = time.monotonic() + (float("inf") if timeout is None else timeout)
        finally:
            link.close()


def runs(waiting: Dict[int, bytes]) -> List[Tuple[int, List[bytes]]]:
    """Returns the lines whose requests follow one another, each list with the request of its first line.

    Between these lists are requests whose replies came. The replies to questions may be forgotten before they are read. Changes are recorded.
    """
    found = [list(its) for _, its in groupby(enumerate(waiting), lambda it: it[1] - it[0])]
    return [(its[0][1], [waiting[it] for _, it in its]) for its in found]


def entries(behind: int, row: Tuple[Any, ...], clients: Dict[str, uuid.UUID]) -> List[Entry]:
    """Returns the entries of a page, whose parts are joined."""
    last, names, requests, lines, replies = row
    ids = names.split(",")
    clients.update((it, uuid.UUID(it)) for it in set(ids) - clients.keys())
    fields = map(clients.__getitem__, ids), map(int, requests.split(",")), lines.split(b"\n"), replies.split(b"\n")
    return list(map(Entry._make, zip(range(behind + 1, last + 1), *fields)))


def connect(*conninfo: str, client: Union[uuid.UUID, str, None] = None, timeout: float = 60.0) -> Client:
    """Returns a client of the database with these connection words (libpq's; without them its variables are read), or of a list of databases."""
    return Client(*conninfo, client=client, timeout=timeout)
