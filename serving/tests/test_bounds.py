"""Limits, each at its bound and with the name of its refusal; and a handle that goes on behind a refusal."""

from __future__ import annotations

import itertools
import os
import subprocess
import tempfile
import time
import unittest
from typing import Any, List, Optional, Tuple

import psycopg
from lines import lines
from place import replies_of
from test_documents import Served

from huckleport_serving import ClientFull, DocumentFull, Refused, TooManyClients, connect
from huckleport_serving.client import SUBMIT
from huckleport_serving.commands import chunks
from huckleport_serving.refusals import refusal

try:
    from huckleport_serving.pool import Pool
except ImportError:
    Pool = None  # type: ignore

LONG = b'{"error":"line-too-long"}'
ELEMENT = b'["createElement",0,"p"]'


class Lines(Served):
    """Bytes of a line."""

    workers = 1

    def test_a_line_is_as_long_as_its_document_allows(self) -> None:
        document = self.client.document("bounded", line=30)
        given = [b" " * 30, b" " * 31, ELEMENT]
        self.assertEqual(document.send(given), replies_of(given, "--line", "30"))

    def test_the_longest_line(self) -> None:
        document = self.client.document("longest", line=1 << 24)
        given = [b" " * (1 << 24), b" " * ((1 << 24) + 1), ELEMENT]
        self.assertEqual(document.send(given, timeout=300), replies_of(given, "--line", str(1 << 24)))

    def test_a_handle_lives_on_behind_a_line_that_is_too_long(self) -> None:
        document = self.client.document("lives on")
        self.assertEqual(document.ask(b"x" * (17 << 20)), LONG)
        self.assertEqual([document.ask(ELEMENT) for _ in range(2)], [b'{"ok":1}', b'{"ok":2}'])
        words = "select huckleport.submit(%b, %b, 9, array[%b::bytea])"
        self.connection.execute(words, (document.id, self.client.id, b"x" * (17 << 20)))
        self.wait_until("select count(*) = 1 from huckleport.replies(%s, %s, 8) where reply = %b", document.id, self.client.id, LONG)

    def test_send_reads_long_lines(self) -> None:
        """Of a line that is too long nothing is kept behind its limit, so one of 48 MB takes no longer than to read it."""
        process = self.place.command("send", "long lines", stdin=subprocess.PIPE, stdout=subprocess.PIPE)
        given = b"x" * (48 << 20) + b"\n" + ELEMENT + b"\n" + b"y" * (2 << 20) + b"\n" + ELEMENT
        self.assertEqual(process.communicate(given, timeout=300)[0], b"".join(it + b"\n" for it in (LONG, b'{"ok":1}', LONG, b'{"ok":2}')))

    def test_a_long_line_is_read_in_linear_time(self) -> None:
        """A line of 64 MB takes little more processor time than 8 lines of 8 MB. (It was read in quadratic time once: 48 MB took 140 s.)"""
        with tempfile.TemporaryFile() as file:
            file.write((b"x" * (8 << 20) + b"\n") * 8 + b"y" * (64 << 20))
            file.seek(0)
            start = time.thread_time()
            found = [it for its in chunks(file, 1 << 24) for it in its]
            took = time.thread_time() - start
        self.assertEqual([len(it) for it in found[:8]], [8 << 20] * 8)
        self.assertGreater(len(found[8]), 1 << 24)
        self.assertLess(took, 5)

    def test_replies_are_those_of_the_pieces_that_come(self) -> None:
        given = [b"", b"x" * 70_000, *lines("pieces", 3000), b"y" * 140_000]
        process = self.place.command("send", "pieces", stdin=subprocess.PIPE, stdout=subprocess.PIPE)
        out = process.communicate(b"".join(it + b"\n" for it in given), timeout=300)[0]
        self.assertEqual(out.split(b"\n")[:-1], replies_of(given))


class Waits(Served):
    """Lines that wait, as no worker runs until they are refused; and connections."""

    def setUp(self) -> None:
        super().setUp()
        self.addCleanup(self.limited, **{it: "default" for it in ("document_lines", "document_bytes", "client_lines", "client_bytes", "connections")})
        self.addCleanup(self.place.stop_workers)

    def limited(self, **limits: Any) -> None:
        for name, it in limits.items():
            self.connection.execute(f"update huckleport.settings set {name} = {it}")

    def goes_on(self, name: str, replies: List[bytes]) -> None:
        """Behind the refusal the handle sends as before, and its numbers have no gap."""
        document = self.client.document(name)
        self.place.work(1)
        self.assertEqual([document.reply(it) for it in list(document._waiting)], replies)
        self.assertEqual(document.ask(ELEMENT), b'{"ok":%d}' % (len(replies) + 1))

    def test_lines_of_a_document(self) -> None:
        self.limited(document_lines=10)
        self.client.document("full").post([ELEMENT] * 7)
        other = self.connected().document("full")
        other.post([ELEMENT] * 3)
        for it in (self.client.document("full"), other):
            with self.assertRaises(DocumentFull):
                it.post([ELEMENT], timeout=0)
        self.client.document("another").post([ELEMENT] * 10)
        self.assertEqual(self.row("select count(*) from huckleport.requests where document = %s", other.id), (10,))
        self.goes_on("another", [b'{"ok":%d}' % it for it in range(1, 11)])

    def test_bytes_of_a_document(self) -> None:
        self.limited(document_bytes=10 * len(ELEMENT))
        self.client.document("full of bytes").post([ELEMENT] * 10)
        with self.assertRaises(DocumentFull):
            self.client.document("full of bytes").post([b""] * 9 + [b"x"], timeout=0)
        self.goes_on("full of bytes", [b'{"ok":%d}' % it for it in range(1, 11)])

    def test_lines_and_bytes_of_a_client(self) -> None:
        self.limited(client_lines=10)
        for it in "ab":
            self.client.document(f"of a client {it}").post([ELEMENT] * 5)
        with self.assertRaises(ClientFull):
            self.client.document("of a client c").post([ELEMENT], timeout=0)
        self.limited(client_lines="default", client_bytes=10 * len(ELEMENT))
        with self.assertRaises(ClientFull):
            self.client.document("of a client b").post([ELEMENT], timeout=0)
        self.connected().document("of a client b").post([ELEMENT] * 10)
        self.goes_on("of a client a", [b'{"ok":%d}' % it for it in range(1, 6)])

    def taken(self, documents: int, line: bytes) -> Tuple[int, Optional[Refused]]:
        """Hands lines in one at a time, to documents by turns, until one is refused. Returns how many were taken, and the refusal."""
        ids = [self.client.document(f"by turns {documents} {at} {len(line)}").id for at in range(documents)]
        for count in itertools.count():
            try:
                self.connection.execute(SUBMIT, (ids[count % documents], self.client.id, count + 1, [line]))
            except psycopg.DatabaseError as fault:
                return count, refusal(fault)
        raise AssertionError

    def test_large_limits_are_told_near_the_bound(self) -> None:
        """They are counted now and then, so more than the limit may wait; but never less, and never twice as much."""
        large = b"x" * 60_000
        for documents, limit, line, due, bound in (
            (1, {"document_bytes": 4 << 20}, large, DocumentFull, (4 << 20) // len(large)),
            (5, {"document_bytes": "default", "client_bytes": 8 << 20}, large, ClientFull, (8 << 20) // len(large)),
            (1, {"document_lines": 1000}, ELEMENT, DocumentFull, 1000),
        ):
            with self.subTest(limit):
                self.limited(**limit)
                count, found = self.taken(documents, line)
                self.assertIsInstance(found, due)
                self.assertTrue(bound <= count < 2 * bound, (bound, count))
                self.connection.execute("delete from huckleport.requests")

    def test_room_is_waited_for(self) -> None:
        self.limited(document_lines=10)
        document = self.client.document("waited for")
        document.post([ELEMENT] * 10)
        self.place.work(1)
        self.assertEqual(document.send([ELEMENT] * 10), [b'{"ok":%d}' % it for it in range(11, 21)])

    def test_connections(self) -> None:
        self.client.document("connected")
        (before,) = self.row("select count(*) from pg_locks where locktype = 'advisory' and classid = 18512")
        self.limited(connections=before + 1)
        with connect(self.place.conninfo) as one:
            one.document("connected")
            with self.assertRaises(TooManyClients), connect(self.place.conninfo, timeout=0) as two:
                two.document("connected")
        self.limited(connections=before + 2)
        with connect(self.place.conninfo) as two:
            two.document("connected")

    def test_the_command(self) -> None:
        ran = self.place.command("limits", "document_lines=123", stdout=subprocess.PIPE)
        self.assertIn(b"document_lines 123,", ran.communicate()[0])
        self.assertEqual(self.row("select document_lines from huckleport.settings"), (123,))
        self.assertEqual(self.place.command("limits", "nothing=1", stderr=subprocess.DEVNULL).wait(), 1)


@unittest.skipUnless(Pool, "there is no psycopg_pool (Debian has it as python3-psycopg-pool)")
class Pooled(Served):
    workers = 1
    clients = 2_000 if os.environ.get("HUCKLEPORT_WHOLE") else 60

    def test_many_clients_over_few_connections(self) -> None:
        """Each sends to a document that ten others share. All connections are lost meanwhile."""
        with Pool(self.place.conninfo, connections=4) as pool:
            documents = [pool.client().document(f"shared {at % (self.clients // 10)}") for at in range(self.clients)]
            posted = [it.post([ELEMENT] * 3) for it in documents]
            words = "select count(*), count(pg_terminate_backend(pid)) from pg_stat_activity where application_name = 'huckleport' and pid <> pg_backend_pid() and query like '%%submit%%'"
            self.assertLessEqual(self.row(words)[0], 4)
            replies = [it.reply(request) for it, requests in zip(documents, posted) for request in requests]
        self.assertEqual({it: replies.count(it) for it in set(replies)}, {b'{"ok":%d}' % it: self.clients // 10 for it in range(1, 31)})
