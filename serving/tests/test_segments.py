"""Old parts of logs in compressed segments: whoever reads a log, or sends a request again, sees no difference."""

from __future__ import annotations

import json
import subprocess
import threading
from typing import Any, Iterator, List, Tuple

from lines import changes, lines
from place import PROGRAM, replies_of, told
from test_documents import Served

from huckleport_serving import Entry, OtherLine, connect
from huckleport_serving.client import PAGE, entries

ODD = [b"", b"\0", b"\\", b"\xff\\001", b"\\n", b"a\rb", b"\\x0a,"]
"""Lines that are refused, and stand in the log with their replies."""

ELEMENT = b'["createElement",0,"p"]'


class Segments(Served):
    def tearDown(self) -> None:
        self.place.stop_workers()

    def compress(self, name: str, keep: int, most: int) -> int:
        """Moves lines by segments of a test's size."""
        count = 0
        while moved := self.row("select huckleport.compress(%s, %s, %s)", name, keep, most)[0]:
            count += moved
        return count

    def made(self, name: str, count: int) -> Tuple[Any, List[bytes], List[Tuple[Any, ...]]]:
        """A document, the lines that two clients sent to it, and its log as it is in the table."""
        self.place.work(1)
        document, other = self.client.document(name), self.connected().document(name)
        given: List[bytes] = []
        for at, its in enumerate((lines(name, count), ODD, lines("other", count), ODD)):
            self.assertEqual(len((other if at > 1 else document).send(its)), len(its))
            given += its
        rows = self.connection.execute("select number, client, request, line, reply from huckleport.lines where document = %s order by number", (document.id,))
        return document, given, rows.fetchall()

    def test_all_readers_see_the_same_log(self) -> None:
        document, given, log = self.made("read", 120)
        due = [Entry(*it) for it in log]
        self.assertEqual([(it.line, it.reply) for it in due], [it for it in zip(given, replies_of(given)) if changes([it[0]])])
        for keep, most in ((150, 30), (140, 1), (90, 9), (1, 20)):
            self.compress("read", keep, most)
            left = self.row("select count(*) from huckleport.lines where document = %s", document.id)[0]
            self.assertLess(left - keep, most)
            self.assertGreaterEqual(left, keep)
            self.check(document, due)
        self.assertGreater(self.row("select count(*) from huckleport.segments where document = %s", document.id)[0], 15)

    def check(self, document: Any, due: List[Entry]) -> None:
        words = "select number, client, request, line, reply from huckleport.log_lines where document = %s order by number"
        self.assertEqual([Entry(*it) for it in self.connection.execute(words, (document.id,))], due)
        self.assertEqual(list(document.follow(timeout=0.01)), due)
        for most, size in ((10_000, 1 << 22), (70, 1000), (7, 200)):
            for behind in (0, 29, 30, 100, len(due) - 1, len(due)):
                self.assertEqual(list(self.pages(document.id, behind, most, size)), due[behind:])
                self.assertEqual(list(self.pieces(document.id, behind, most, size)), [it[3:] for it in due[behind:]])
                words = "select * from huckleport.entries(%s, %s, %s)"
                self.assertEqual([Entry(*it) for it in self.connection.execute(words, (document.id, behind, most))], due[behind : behind + most])

    def pages(self, document: int, behind: int, most: int, size: int) -> Iterator[Entry]:
        while row := self.connection.execute(PAGE, (document, behind, most, size), binary=True).fetchone():
            found = entries(behind, row, {})
            behind += len(found)
            yield from found

    def pieces(self, document: int, behind: int, most: int, size: int) -> Iterator[Tuple[bytes, ...]]:
        """The log by `piece` and by `log`, which give the same."""
        words = "select count, last, lines, replies from huckleport.piece(%s, %s, %s, %s)"
        several = "select count, last, lines, replies from huckleport.log(array[%s::bigint, 0], array[%s::bigint, 0], %s, %s)"
        while row := self.connection.execute(words, (document, behind, most, size), binary=True).fetchone():
            (other,) = self.connection.execute(several, (document, behind, most, size), binary=True).fetchall()
            count = min(row[0], other[0])
            found = [list(zip(it[2].split(b"\n"), it[3].split(b"\n"))) for it in (row, other)]
            self.assertEqual([(it[0], it[1]) for it in (row, other)], [(len(it), behind + len(it)) for it in found])
            self.assertEqual(found[0][:count], found[1][:count])
            behind += row[0]
            yield from found[0]

    def test_requests_are_known(self) -> None:
        """Each request that was moved is its line as before, also behind a restart."""
        document, given, log = self.made("known", 300)
        mine = [it for it in log if it[1] == self.client.id]
        self.compress("known", 1, 40)
        for behind in (0, 5, 40, 299, 310):
            words = "select request, reply from huckleport.replies(%s, %s, %s, 50)"
            due = [(it[2], it[4]) for it in mine if it[2] > behind][:50]
            found = self.connection.execute(words, (document.id, self.client.id, behind)).fetchall()
            self.assertEqual([it for it in found if it[0] in {row[2] for row in mine}], due)
        who = self.client.id
        self.client.close()
        again = self.connected(client=who).document("known")
        self.assertEqual(again._next, mine[-1][2] + 1)
        for number, line, reply in [it[2:] for it in mine[::37]]:
            self.assertEqual(again.send([line], request=number), [reply])
            with self.assertRaises(OtherLine):
                again.send([ELEMENT + b" "], request=number)
        asked = next(at for at, it in enumerate(given, 1) if not changes([it]))
        with self.assertRaises(OtherLine):
            again.send([ELEMENT], request=asked)
        self.assertEqual(len(again.send([given[asked - 1]], request=asked)), 1)
        again.ask(ELEMENT)
        self.assertEqual(self.row("select count(*) from huckleport.log_lines where document = %s", document.id), (len(log) + 1,))

    def test_a_retry_that_comes_late_is_dropped(self) -> None:
        document, _, log = self.made("late", 100)
        self.compress("late", 1, 10)
        words = "insert into huckleport.requests (document, client, request, line) values (%s, %s, %s, 'x')"
        for it in log[::30]:
            self.connection.execute(words, (document.id, it[1], it[2]))
        self.assertTrue(document.ask(ELEMENT).startswith(b'{"ok":'))
        self.wait_until("select count(*) = 0 from huckleport.requests where document = %s", document.id)
        self.assertEqual(self.row("select count(*) from huckleport.log_lines where document = %s", document.id), (len(log) + 1,))

    def test_the_command_while_lines_come(self) -> None:
        """Lines are moved while a client sends, another follows and workers are replaced. Then the log is replayed from segments, by all who replay."""
        self.place.work(1)
        document, given = self.client.document("busy"), lines("busy", 6000)
        followed: List[Entry] = []
        following = threading.Thread(target=self.follow, args=(followed, len(changes(given))))
        following.start()
        replies: List[bytes] = []
        for at in range(0, len(given), 2000):
            replies += document.send(given[at : at + 2000])
            ran = self.place.command("compress", "busy", "--keep", "500", stdout=subprocess.PIPE)
            ran.communicate()
            self.assertEqual(ran.returncode, 0)
            self.place.stop_workers()
            self.place.work(1)
        following.join(300)
        self.assertEqual(replies, replies_of(given))
        self.assertEqual([it.line for it in followed], changes(given))
        ran = self.place.command("status", "busy", "--json", stdout=subprocess.PIPE)
        (found,) = json.loads(ran.communicate()[0])
        self.assertEqual((found["lines"], found["compressed"] == 4000), (len(changes(given)), True))
        for words in ([], ["--program", PROGRAM]):
            ran = self.place.command("verify", "busy", *words, stdout=subprocess.PIPE)
            self.assertEqual(ran.communicate()[0], b"busy: %d lines, each reply the same\n" % len(changes(given)))
        self.assertEqual(self.place.command("compress", "nowhere", stderr=subprocess.DEVNULL).wait(), 1)

    def follow(self, followed: List[Entry], count: int) -> None:
        with connect(self.place.conninfo) as client:
            for it in client.document("busy").follow(timeout=300):
                followed.append(it)
                if len(followed) == count:
                    return

    def test_it_is_smaller(self) -> None:
        document = self.client.document("small")
        words = """insert into huckleport.lines select %s, it, %s, it, convert_to('["createText",0,"' || it || '"]', 'UTF8'), convert_to('{"ok":' || it || '}', 'UTF8')
            from generate_series(1, 20000) as it"""
        self.connection.execute(words, (document.id, self.client.id))
        (before,) = self.row("select pg_total_relation_size('huckleport.lines')")
        self.assertEqual(self.compress("small", 1, 2000), 18_000)
        (after,) = self.row("select pg_total_relation_size('huckleport.segments') + pg_total_relation_size('huckleport.segment_clients')")
        told(f"18,000 lines: {before / 20_000:.0f} bytes each in the table, {after / 18_000:.0f} in segments")
        self.assertLess(after * 4, before * 0.9)

    def test_a_log_with_a_gap_is_left_alone(self) -> None:
        document, _, log = self.made("gap", 100)
        self.connection.execute("delete from huckleport.lines where document = %s and number = 33", (document.id,))
        with self.assertRaisesRegex(Exception, "has a gap"):
            self.compress("gap", 1, 50)
        self.assertEqual(self.row("select count(*) from huckleport.log_lines where document = %s", document.id), (len(log) - 1,))
