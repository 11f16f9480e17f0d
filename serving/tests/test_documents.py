"""Documents over one database, with workers that come and go as they should: replies, retries, followers, limits, bounds, versions."""

from __future__ import annotations

import os
import signal
import sys
import time
import unittest
import uuid
from typing import Any, ClassVar, List
from unittest.mock import patch

import psycopg
from lines import changes, lines
from place import ROOT, Place, replies_of

from huckleport_serving import Client, NotAnswered, OtherLimits, OtherLine, connect
from huckleport_serving.client import REPLIES as READ_REPLIES
from huckleport_serving.links import Link, connected, ready

sys.path.insert(0, os.path.join(ROOT, "tools"))
from running import Dialogue, dialogues

MADE = [b'["createElement",0,"p"]', b'["appendChild",0,1]', b'["tree",0]']
QUESTION = b'["root",0]'
REPLIES = [b'{"ok":1}', b'{"ok":1}', b'{"ok":[[0,0,9,"#document"],[1,1,1,"p",[]]]}']
LEASE = "3"


class Served(unittest.TestCase):
    """A database for all tests of a class, and its connection and client for each."""

    place: ClassVar[Place]
    workers: ClassVar[int] = 0

    @classmethod
    def setUpClass(cls) -> None:
        cls.place = cls.enterClassContext(Place())
        cls.place.work(cls.workers, "--lease", LEASE)

    def setUp(self) -> None:
        self.connection = self.enterContext(connected(self.place.conninfo))
        self.client = self.connected()

    def connected(self, **how: Any) -> Client:
        return self.enterContext(connect(self.place.conninfo, **{"timeout": 60, **how}))

    def row(self, words: str, *parameters: Any) -> tuple[Any, ...]:
        found = self.connection.execute(words, parameters).fetchone()
        assert found is not None
        return found

    def wait_until(self, words: str, *parameters: Any) -> None:
        """Waits until a question is answered by true."""
        until = time.monotonic() + 60
        while not self.row(words, *parameters)[0]:
            self.assertLess(time.monotonic(), until, words)
            time.sleep(0.05)


def lines_of(it: Dialogue) -> List[bytes]:
    return it.given.split(b"\n")[: -1 if it.given.endswith(b"\n") or not it.given else None]


class Replies(Served):
    workers = 2

    def test_replies_come_in_order(self) -> None:
        self.assertEqual(self.client.document("letter").send(MADE), REPLIES)
        self.assertEqual(self.client.document("letter").ask(b'["root",1]'), b'{"ok":0}')

    def test_each_dialogue(self) -> None:
        """All dialogues at once, each a document with the dialogue's limits, answered as they were written down from the rules."""
        found = dialogues([])
        limits = [dict(zip((word[2:] for word in it.words[::2]), map(int, it.words[1::2]))) for it in found]
        documents = [self.client.document(it.name, **words) for it, words in zip(found, limits)]
        posted = [document.post(lines_of(it)) for document, it in zip(documents, found)]
        for document, requests, it in zip(documents, posted, found):
            self.assertEqual(b"".join(document.reply(request) + b"\n" for request in requests), it.due, it.name)

    def test_any_bytes_but_a_newline(self) -> None:
        given = [b"", b"\r", b"\0", b"\xff\xfe", b'["data",0]\r', b" " * 1_100_000, bytes(it for it in range(256) if it != 10)]
        self.assertEqual(self.client.document("bytes").send(given), replies_of(given))
        with self.assertRaises(ValueError):
            self.client.document("bytes").send([b"\n"])

    def test_many_lines(self) -> None:
        given = lines("many", 12_000)
        self.assertEqual(self.client.document("many").send(given, timeout=300), replies_of(given))

    def test_limits_are_the_documents(self) -> None:
        small = self.client.document("small", numbers=2, line=30)
        given = [b'["createElement",0,"a"]', b'["createElement",0,"b"]', b'["createElement",0,"a name of thirty"]']
        self.assertEqual(small.send(given), replies_of(given, "--numbers", "2", "--line", "30"))
        self.assertEqual((self.connected().document("small").numbers, small.line), (2, 30))
        with self.assertRaises(OtherLimits):
            self.client.document("small", numbers=3)

    def test_a_retry_is_not_done_again(self) -> None:
        who = uuid.uuid4()
        with connect(self.place.conninfo, client=who) as first:
            self.assertEqual(first.document("retried").send(MADE), REPLIES)
        again = self.connected(client=who)
        self.assertEqual(again.document("retried").send([*MADE[1:], b'["root",1]'], request=2), [*REPLIES[1:], b'{"ok":0}'])
        self.assertEqual(self.row("select count(*) from huckleport.lines where client = %s", who), (2,))
        with self.assertRaises(OtherLine):
            again.document("retried").send([b'["root",0]'], request=1)
        with self.assertRaises(ValueError):
            again.document("retried").send([b'["root",0]'], request=0)

    def test_a_client_goes_on_behind_questions_that_were_forgotten(self) -> None:
        """It started anew, and knows more requests than the database, which keeps the numbers of changes alone."""
        who = uuid.uuid4()
        with connect(self.place.conninfo, client=who) as first:
            first.document("forgotten").send([MADE[0], *[b'["root",0]'] * 5])
        self.connection.execute("delete from huckleport.answers")
        again = self.connected(client=who).document("forgotten")
        self.assertEqual(again.send([MADE[0]], request=7), [b'{"ok":2}'])
        self.assertEqual(again.send([b'["root",0]'], request=3), [b'{"ok":0}'])
        with self.assertRaises(OtherLine):
            again.send([MADE[0]], request=4)
        self.assertEqual(again.ask(MADE[0]), b'{"ok":3}')

    def test_questions_that_were_forgotten_are_asked_again(self) -> None:
        """A client reads replies a minute after they came. It hands in the questions again, and no line between them."""
        document = self.client.document("read late")
        requests = document.post([QUESTION, MADE[0], QUESTION, MADE[0], MADE[0], QUESTION])
        self.wait_until("select count(*) = 0 from huckleport.requests where document = %s", document.id)
        self.connection.execute("delete from huckleport.answers where document = %s", (document.id,))
        with patch("huckleport_serving.client.AGAIN", 0.1):
            self.assertEqual([document.reply(it) for it in requests], [b'{"ok":%d}' % it for it in (0, 1, 0, 2, 3, 0)])
        self.assertEqual([it.request for it in document.follow(timeout=0.1)], [2, 4, 5])

    def test_replies_of_many_documents_are_read_at_once(self) -> None:
        """A client posts to many documents, and reads the replies to all that it was notified of by few statements."""
        given = {self.client.document(f"one of many {it}"): lines(f"one of many {it}", 12) for it in range(100)}
        posted = {it: it.post(its) for it, its in given.items()}
        self.wait_until("select count(*) = 0 from huckleport.requests")
        with patch.object(Link, "run", autospec=True, side_effect=Link.run) as run:
            for it, requests in posted.items():
                self.assertEqual([it.reply(request) for request in requests], replies_of(given[it]))
        self.assertLess([it.args[1] for it in run.call_args_list].count(READ_REPLIES), 20)

    def test_a_retry_that_comes_late_is_dropped(self) -> None:
        document = self.client.document("late")
        document.send(MADE)
        # (as if it was submitted before the lines were recorded, and seen after)
        words = "insert into huckleport.requests (document, client, request, line) values (%s, %s, 1, 'x')"
        self.connection.execute(words, (document.id, self.client.id))
        self.wait_until("select count(*) = 0 from huckleport.requests where document = %s", document.id)
        self.assertEqual(self.row("select count(*) from huckleport.lines where document = %s", document.id), (2,))

    def test_several_edit_and_each_follows(self) -> None:
        clients = [self.connected() for _ in range(3)]
        given = [lines(at, 300) for at in range(3)]
        for at in range(0, 300, 20):
            posted = [(it.document("shared"), it.document("shared").post(mine[at : at + 20])) for it, mine in zip(clients, given)]
            for document, requests in posted:
                for it in requests:
                    document.reply(it)
        entries = list(clients[0].document("shared").follow(timeout=0.5))
        self.assertEqual([it.number for it in entries], list(range(1, len(entries) + 1)))
        self.assertEqual([it.reply for it in entries], replies_of([it.line for it in entries]))
        for it, mine in zip(clients, given):
            self.assertEqual([entry.line for entry in entries if entry.client == it.id], changes(mine))
        self.assertEqual(list(clients[1].document("shared").follow(600, timeout=0.1)), entries[600:])

    def test_followers_are_told(self) -> None:
        """Lines wake who listens, so a follower need not look by itself to see them."""
        document = self.client.document("told")
        document.send(MADE[:1])
        heard: List[str] = []
        self.connection.add_notify_handler(lambda it: heard.append(it.channel))
        self.connection.execute(f"listen huckleport_document_{document.id}")
        document.send(MADE[1:2])
        self.assertTrue(ready(60, self.connection.fileno()))
        self.connection.execute("select")
        self.assertEqual(heard, [f"huckleport_document_{document.id}"])

    def test_by_statements_alone(self) -> None:
        """The statements of the page for a client in another language."""
        self.connection.execute("select huckleport.enter('00000000-0000-0000-0000-00000000002a')")
        self.connection.execute('listen "huckleport_client_00000000-0000-0000-0000-00000000002a"')
        (document,) = self.row("select huckleport.make('by statements')")
        client = uuid.UUID(int=42)
        self.connection.execute("select huckleport.submit(%s, %s, 1, array['[\"createElement\",0,\"p\"]', '[\"root\",1]']::bytea[])", (document, client))
        self.wait_until("select count(*) = 2 from huckleport.replies(%s, %s, 0)", document, client)
        words = "select request, convert_from(reply, 'UTF8') from huckleport.replies(%s, %s, 0)"
        self.assertEqual(self.connection.execute(words, (document, client)).fetchall(), [(1, '{"ok":1}'), (2, '{"ok":1}')])
        words = "select number, convert_from(reply, 'UTF8') from huckleport.entries(%s, 0)"
        self.assertEqual(self.connection.execute(words, (document,)).fetchall(), [(1, '{"ok":1}')])


class Fences(Served):
    """The refusals of a worker's calls. There is no worker here."""

    def worker(self) -> int:
        (found,) = self.row("select huckleport.register('a test', '0.0', interval '1 hour')")
        return int(found)

    def claimed(self, worker: int, name: str) -> tuple[int, int]:
        found = self.row("select id, epoch from huckleport.claim(%s, '0.0', 9, array(select id from huckleport.documents where name = %s), '{}')", worker, name)
        return found[0], found[1]

    def handed_in(self, name: str) -> int:
        document = self.client.document(name)
        document.post(MADE[:2])
        return document.id

    def recorded(self, worker: int, document: int, epoch: int) -> Any:
        ids = [it for it, in self.connection.execute("select id from huckleport.requests where document = %s order by id", (document,))]
        words = "select held from huckleport.record(%s, array[%s::bigint], array[%s::bigint], array[%s::bigint], array[%s::bigint, %s], %s, '{1,2}', '{a,b}')"
        return self.row(words, worker, document, epoch, document, document, document, ids)[0]

    def test_an_owner_that_was_overtaken_writes_nothing(self) -> None:
        document = self.handed_in("overtaken")
        first, second = self.worker(), self.worker()
        _, epoch = self.claimed(first, "overtaken")
        words = "select from huckleport.claim(%s, '0.0', 9, array[%s::bigint], '{}')"
        self.assertIsNone(self.connection.execute(words, (second, document)).fetchone())
        self.connection.execute("update huckleport.workers set until = clock_timestamp() - interval '1 s' where id = %s", (first,))
        self.assertEqual(self.claimed(second, "overtaken"), (document, epoch + 1))
        self.assertIsNone(self.recorded(first, document, epoch))
        self.assertIsNone(self.recorded(second, document, epoch))
        self.assertEqual(self.row("select count(*) from huckleport.lines where document = %s", document), (0,))
        self.assertEqual(self.recorded(second, document, epoch + 1), [document])
        self.assertEqual(self.row("select count(*) from huckleport.lines where document = %s", document), (2,))

    def test_of_two_documents_the_one_that_is_still_held_is_written(self) -> None:
        kept, lost = self.handed_in("kept"), self.handed_in("lost")
        worker, other = self.worker(), self.worker()
        (_, first), (_, second) = self.claimed(worker, "kept"), self.claimed(worker, "lost")
        self.connection.execute("update huckleport.documents set owner = %s, epoch = epoch + 1 where id = %s", (other, lost))
        rows = self.connection.execute("select document, id from huckleport.requests where document = any (%s) order by id", ([kept, lost],)).fetchall()
        words = "select held, answered from huckleport.record(%s, %s, %s, '{}', %s, %s, '{1,2,1,2}', '{a,b,c,d}')"
        given = [kept, lost], [first, second], [it for it, _ in rows], [it for _, it in rows]
        self.assertEqual(self.row(words, worker, *given), ([kept], [kept]))
        words = "select array_agg(l.reply order by l.number), (select count(*) from huckleport.requests r where r.document = %s) from huckleport.lines l where l.document = any (%s)"
        self.assertEqual(self.row(words, lost, [kept, lost]), ([b"a", b"b"], 2))

    def test_a_worker_reads_none_of_its_other_documents_as_it_records(self) -> None:
        """It has thousands of documents, and records lines of one."""
        document, worker = self.handed_in("one of thousands"), self.worker()
        self.connection.execute("insert into huckleport.documents (name, owner) select 'another ' || it, %s from generate_series(1, 3000) as it", (worker,))
        self.addCleanup(self.connection.execute, "delete from huckleport.documents where owner = %s", (worker,))
        _, epoch = self.claimed(worker, "one of thousands")
        with self.connection.transaction():
            words = "select seq_tup_read + idx_tup_fetch from pg_stat_xact_user_tables where schemaname = 'huckleport' and relname = 'documents'"
            (before,) = self.row(words)
            self.assertEqual(self.recorded(worker, document, epoch), [document])
            self.assertLess(self.row(words)[0] - before, 10)

    def test_a_lease_that_ended_is_not_renewed(self) -> None:
        worker = self.worker()
        renewed = "select huckleport.renew(%s, interval '1 hour', 0, 0, 0)"
        self.assertEqual(self.row(renewed, worker), (True,))
        self.connection.execute("update huckleport.workers set until = clock_timestamp() - interval '1 s' where id = %s", (worker,))
        self.assertEqual(self.row(renewed, worker), (None,))

    def test_lines_that_no_longer_wait_are_an_error(self) -> None:
        document = self.handed_in("gone")
        worker = self.worker()
        _, epoch = self.claimed(worker, "gone")
        with self.assertRaises(psycopg.errors.RaiseException):
            self.row("select held from huckleport.record(%s, array[%s::bigint], array[%s::bigint], '{}', array[%s::bigint], '{0}', '{1}', '{a}')", worker, document, epoch, document)
        self.assertEqual(self.row("select count(*) from huckleport.requests where document = %s", document), (2,))

    def test_a_document_that_takes_workers_down_is_held_back(self) -> None:
        document = self.handed_in("deadly")
        claims = 0
        start = time.monotonic()
        while claims < 4 and time.monotonic() - start < 10:
            worker = self.worker()
            claims += self.connection.execute("select from huckleport.claim(%s, '0.0', 9, array[%s::bigint], '{}')", (worker, document)).rowcount
            self.connection.execute("delete from huckleport.workers where id = %s", (worker,))
        self.assertGreater(time.monotonic() - start, 0.3)

    def test_another_versions_document_is_left_alone(self) -> None:
        document = self.handed_in("of another version")
        worker = self.worker()
        _, epoch = self.claimed(worker, "of another version")
        self.recorded(worker, document, epoch)
        self.handed_in("of another version")
        self.connection.execute("update huckleport.documents set owner = null where name = 'of another version'")
        words = "select from huckleport.claim(%s, '0.1', 9, array[%s::bigint], '{}')"
        self.assertIsNone(self.connection.execute(words, (self.worker(), document)).fetchone())


class Workers(Served):
    """Workers that are started by each test."""

    def tearDown(self) -> None:
        self.place.stop_workers()

    def work(self, *words: str) -> Any:
        return self.place.work(1, *words)[0]

    def test_one_that_stops_hands_on_at_once(self) -> None:
        first = self.work("--lease", "60")
        document = self.client.document("handed on")
        document.send(MADE)
        self.work("--lease", "60")
        for it in (signal.SIGTERM, signal.SIGINT):
            first.send_signal(it)
            start = time.monotonic()
            document.ask(b'["root",1]')
            self.assertLess(time.monotonic() - start, 30)
            self.assertEqual(first.wait(30), 0)
            self.work("--lease", "60")
            first = self.place.workers[-2]

    def test_what_is_idle_goes(self) -> None:
        self.work("--idle", "0.5")
        document = self.client.document("idle")
        document.send(MADE)
        self.wait_until("select owner is null from huckleport.documents where id = %s", document.id)
        self.assertEqual(document.ask(b'["root",1]'), b'{"ok":0}')

    def test_more_documents_than_it_may_have(self) -> None:
        self.work("--documents", "3")
        documents = [self.client.document(f"one of many {it}") for it in range(9)]
        for _ in range(2):
            for it in documents:
                it.post(MADE)
        for it in documents:
            self.assertEqual([it.reply(request) for request in range(1, 7)], replies_of(MADE * 2))
        # (a worker that lost its lease begins anew under another id, and what it had waits for that lease's end)
        named = "select count(*) as each from huckleport.documents where name like 'one of many %%' and owner is not null group by owner"
        (held,) = self.row(f"select max(each) from ({named}) as owners")
        self.assertLessEqual(held or 0, 3)

    def test_what_it_has_no_memory_for_is_another_ones(self) -> None:
        """A line that wants more than one worker may take is not acknowledged there; who may take more answers it."""
        self.work("--memory", "64")
        text = b'["createText",0,"' + b"x" * 900_000 + b'"]'
        document = self.client.document("large")
        document.send([text])
        with self.assertRaises(NotAnswered):
            document.send([text] * 120, timeout=4)
        self.wait_until("select fault like '%%memory%%' from huckleport.documents where id = %s", document.id)
        self.assertEqual(self.row("select count(*) from huckleport.lines where reply like '%%out-of-memory%%'"), (0,))
        self.work("--memory", "2000")
        replies = document.send([text] * 120, request=2, timeout=300)
        self.assertEqual(replies, [b'{"ok":%d}' % it for it in range(2, 122)])
        self.assertEqual(self.row("select fault from huckleport.documents where id = %s", document.id), (None,))

    def test_a_log_that_was_changed_is_not_gone_on_with(self) -> None:
        worker = self.work()
        document = self.client.document("changed")
        document.send(MADE)
        worker.terminate()
        worker.wait()
        self.connection.execute("update huckleport.lines set reply = '{\"ok\":7}' where document = %s and number = 2", (document.id,))
        self.work()
        document.post(MADE)
        self.wait_until("select fault is not null from huckleport.documents where id = %s", document.id)
        self.assertEqual(self.row("select fault from huckleport.documents where id = %s", document.id), ("line 2 has another reply when it is replayed",))
        self.assertEqual(self.row("select count(*) from huckleport.lines where document = %s", document.id), (2,))

    def test_connections_that_are_lost(self) -> None:
        """All connections are ended by the server, again and again, while a client sends and another follows."""
        self.work("--lease", LEASE)
        given = lines("lost", 600)
        document = self.client.document("lost")
        following = self.connected().document("lost").follow(timeout=5)
        replies: List[bytes] = []
        for at in range(0, 600, 100):
            posted = document.post(given[at : at + 100])
            self.connection.execute("select pg_terminate_backend(pid) from pg_stat_activity where pid <> pg_backend_pid() and application_name = 'huckleport'")
            replies += [document.reply(it) for it in posted]
        self.assertEqual(replies, replies_of(given))
        self.assertEqual([next(following).line for _ in changes(given)], changes(given))
        following.close()
