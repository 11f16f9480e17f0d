"""What an operator relies on: status, names, clocks, versions, metrics, logs, backups and upgrades."""

from __future__ import annotations

import importlib.util
import json
import os
import re
import shutil
import signal
import subprocess
import sys
import time
import unittest
import urllib.error
import urllib.request
import uuid
from typing import Any, Dict, List, Tuple

import psycopg
from lines import changes, lines
from place import HERE, ROOT, SMALL, Idle, Place, replies_of, told
from test_documents import Served, dialogues, lines_of

from huckleport_serving import connect, create_tables
from huckleport_serving.questions import NAMES, is_question
from huckleport_serving.trial import Server, programs, user
from huckleport_serving.worlds import PROGRAM as VERSION
from huckleport_serving.worlds import World

ELEMENT = b'["createElement",0,"p"]'
WHOLE = bool(os.environ.get("HUCKLEPORT_WHOLE"))
OLDER = "import sys, huckleport; huckleport.__version__ = '0.0.0'; from huckleport_serving.commands import main; sys.exit(main(sys.argv[1:]))"
"""The commands with a program that says it is an older one."""

TABLES = os.path.join(os.path.dirname(os.path.abspath(__file__)), "schema_1.sql")


def used(process: int) -> float:
    """Returns the seconds of processor time that a process has had."""
    with open(f"/proc/{process}/stat", encoding="ascii") as file:
        words = file.read().rpartition(") ")[2].split()
    return (int(words[11]) + int(words[12])) / os.sysconf("SC_CLK_TCK")


class Questions(unittest.TestCase):
    def test_each_is_a_command(self) -> None:
        with open(os.path.join(ROOT, "docs/commands.json"), encoding="utf-8") as file:
            commands = {it["name"] for it in json.load(file)["commands"]}
        self.assertEqual(set(NAMES.split("|")) - commands, set())
        for it in ("setTextContent", "nextNode", "walk", "takeRecords", "cloneContents", "notify", "createStaticRange"):
            self.assertFalse(is_question(b'["%s",0]' % it.encode()), it)

    def test_without_them_each_dialogue_is_the_same(self) -> None:
        """No question changes the reply to a line behind it: each dialogue without its questions has the same replies to the others."""
        left_out = 0
        for it in dialogues([]):
            given = lines_of(it)
            kept = [line for line in given if not is_question(line)]
            left_out += len(given) - len(kept)
            limits = dict(zip(it.words[::2], map(int, it.words[1::2])))
            world = World(limits.get("--numbers", 2**32 - 1), limits.get("--line", 2**20))
            due = [reply for line, reply in zip(given, it.due.split(b"\n")) if not is_question(line)]
            self.assertEqual([world.answer(line) for line in kept], due, it.name)
            world.close()
        self.assertGreater(left_out, 300)


class Operations(Served):
    def tearDown(self) -> None:
        self.place.stop_workers()
        for it in ("requests", "lines", "answers", "workers"):
            self.connection.execute(f"delete from huckleport.{it}")
        self.connection.execute("delete from huckleport.documents")

    def ran(self, *words: str, given: bytes = b"") -> Tuple[int, str, str]:
        process = self.place.command(*words, stdin=subprocess.PIPE, stdout=subprocess.PIPE, stderr=subprocess.PIPE)
        out, err = process.communicate(given, timeout=120)
        return process.returncode, out.decode(), err.decode()

    def work(self, *words: str) -> subprocess.Popen[bytes]:
        return self.place.work(1, *words)[0]

    # status

    def test_status_is_1_for_each_fault(self) -> None:
        self.work()
        document = self.client.document("letter")
        document.ask(ELEMENT)
        self.assertEqual([self.ran("status")[0], self.ran("status", "letter")[0]], [0, 0])
        self.connection.execute("update huckleport.documents set fault = 'a fault'")
        self.assertEqual([self.ran("status")[0], self.ran("status", "letter")[0]], [1, 1])
        self.connection.execute("update huckleport.documents set fault = null")
        self.place.stop_workers()
        document.post([ELEMENT])
        time.sleep(0.1)
        self.assertEqual([self.ran("status", "--still", "0.05")[0], self.ran("status", "letter", "--still", "0.05")[0]], [1, 1])
        self.work("--no-adopt")
        document.ask(ELEMENT)
        self.assertEqual(self.ran("status")[0], 0)
        self.connection.execute("update huckleport.documents set version = '0.0.0', owner = null, epoch = epoch + 1")
        document.post([ELEMENT])
        status, out, _ = self.ran("status", "--json")
        self.assertEqual((status, json.loads(out)[0]["not_adopted"], json.loads(out)[0]["faulty"]), (1, 1, 0))

    def test_control_characters_are_escaped(self) -> None:
        name = "a\x1b[31m\n\u0085\u202eb\\"
        self.client.document(name)
        for words in (("status", name), ("verify", name), ("status", name + "?"), ("send", name, "--line", "7")):
            _, out, err = self.ran(*words)
            self.assertIn("a\\x1b[31m\\n\\x85\\u202eb\\\\", out + err, words)
            self.assertFalse(set("\x1b\u0085\u202e") & set(out + err), words)

    # clocks

    def set_back(self, words: str) -> None:
        self.connection.execute(f"create or replace function huckleport.now() returns timestamptz language sql as $$ select clock_timestamp() {words} $$")

    def test_a_worker_dies_as_the_clock_is_set_back(self) -> None:
        self.addCleanup(self.set_back_for_good)
        first = self.work("--lease", "3")
        document = self.client.document("set back")
        document.ask(ELEMENT)
        first.kill()
        first.wait()
        self.set_back("- interval '1 hour'")
        self.assertGreater(self.row("select extract(epoch from until - huckleport.now()) from huckleport.workers")[0], 1800)
        self.work("--lease", "3")
        self.assertEqual(document.ask(ELEMENT, timeout=60), b'{"ok":2}')

    def set_back_for_good(self) -> None:
        with psycopg.connect(self.place.conninfo, autocommit=True) as connection:
            connection.execute("create or replace function huckleport.now() returns timestamptz language sql as 'select clock_timestamp()'")

    def test_workers_go_on_as_the_clock_is_set_back(self) -> None:
        self.addCleanup(self.set_back_for_good)
        self.work("--lease", "3")
        document = self.client.document("goes on")
        document.ask(ELEMENT)
        before = self.row("select max(id) from huckleport.workers")
        self.set_back("- interval '1 hour'")
        self.wait_until("select bool_and(huckleport.is_running(until, lease)) from huckleport.workers")
        self.assertEqual(document.ask(ELEMENT), b'{"ok":2}')
        self.assertEqual(self.row("select max(id) from huckleport.workers"), before)

    # versions

    def older(self, name: str) -> Any:
        """A document that a worker of an older version has answered, and for which a line waits."""
        document = self.client.document(name)
        words = "insert into huckleport.lines values (%s, 1, %s, 1, %b, '{\"ok\":1}')"
        self.connection.execute(words, (document.id, uuid.uuid4(), ELEMENT))
        self.connection.execute("update huckleport.documents set version = '0.0.0' where id = %s", (document.id,))
        document.post([ELEMENT])
        return document

    def test_older_documents_are_adopted_once_no_worker_has_their_version(self) -> None:
        (old,) = self.row("select huckleport.register('an old worker', '0.0.0', interval '1 hour')")
        document, wrong = self.older("older"), self.older("older and other")
        self.connection.execute("update huckleport.lines set reply = '7' where document = %s", (wrong.id,))
        self.work()
        newer = self.client.document("newer")
        self.assertEqual(newer.ask(ELEMENT), b'{"ok":1}')
        self.assertEqual(self.row("select count(*) from huckleport.documents where version = '0.0.0' and owner is null"), (2,))
        self.connection.execute("select huckleport.leave(%s)", (old,))
        self.assertEqual(document.reply(1), b'{"ok":2}')
        self.wait_until("select fault is not null from huckleport.documents where id = %s", wrong.id)
        self.assertEqual(self.row("select version, fault from huckleport.documents where id = %s", wrong.id), ("0.0.0", "line 1 has another reply when it is replayed"))
        self.assertEqual(self.row("select version, fault from huckleport.documents where id = %s", document.id), (VERSION, None))

    def work_as_older(self, *words: str) -> subprocess.Popen[bytes]:
        given = [sys.executable, "-c", OLDER, "--log", "warning", "--database", self.place.conninfo, "worker", *words]
        self.place.workers.append(subprocess.Popen(given, env=self.place.environment()))
        return self.place.workers[-1]

    def version(self, document: Any) -> str:
        return str(self.row("select version from huckleport.documents where id = %s", document.id)[0])

    def test_workers_of_two_versions(self) -> None:
        """The old worker answers its documents beside the new one, also those that it has to claim again. Once it is gone, the new worker adopts each
        document for which a line comes, and no other. An old worker that comes later takes none of these.
        """
        older = self.work_as_older("--idle", "0.5")
        olds = [self.client.document(f"old {it}") for it in range(5)]
        for it in olds:
            self.assertEqual(it.ask(ELEMENT), b'{"ok":1}')
        self.assertEqual({self.version(it) for it in olds}, {"0.0.0"})
        self.work()
        self.wait_until("select count(*) = 2 from huckleport.workers where huckleport.is_running(until, lease)")
        self.wait_until("select bool_and(owner is null) from huckleport.documents")
        for it in olds:
            self.assertEqual(it.ask(ELEMENT), b'{"ok":2}')
        self.assertEqual({self.version(it) for it in olds}, {"0.0.0"})
        news = [self.client.document(f"new {it}") for it in range(5)]
        for number in (1, 2):
            self.assertEqual([it.ask(ELEMENT) for it in news], [b'{"ok":%d}' % number] * 5)
        self.assertEqual(self.ran("status")[0], 0)
        older.terminate()
        self.assertEqual(older.wait(60), 0)
        for number, it in enumerate(olds[:3]):
            self.assertEqual(it.ask(ELEMENT), b'{"ok":3}')
            self.assertEqual([self.version(it) for it in olds], [VERSION] * (number + 1) + ["0.0.0"] * (4 - number))
        self.work_as_older()
        self.wait_until("select count(*) = 2 from huckleport.workers where huckleport.is_running(until, lease)")
        for it in olds:
            self.assertEqual(it.ask(ELEMENT), b'{"ok":%d}' % (4 if it in olds[:3] else 3))
        self.assertEqual([self.version(it) for it in olds], [VERSION] * 3 + ["0.0.0"] * 2)

    # watching

    @unittest.skipUnless(importlib.util.find_spec("prometheus_client"), "there is no prometheus_client (Debian has it as python3-prometheus-client)")
    def test_metrics_and_health(self) -> None:
        self.assertEqual(self.place.command("health").wait(), 1)
        self.work()
        self.client.document("watched").ask(ELEMENT)
        self.assertEqual(self.place.command("health").wait(), 0)
        monitor = self.place.command("monitor", "--listen", "127.0.0.1:0", "--still", "0.05", stdout=subprocess.PIPE)
        self.place.others.append(monitor)
        assert monitor.stdout is not None
        self.addCleanup(monitor.stdout.close)
        address = monitor.stdout.readline().decode().strip()
        self.assertEqual(self.asked(f"{address}/healthz"), (200, '{"faults": []}\n'))
        self.place.stop_workers()
        self.client.document("watched").post([ELEMENT] * 3)
        time.sleep(0.1)
        self.assertEqual(self.asked(f"{address}/healthz")[0], 503)
        status, text = self.asked(f"{address}/metrics")
        found = dict(re.findall(r'^huckleport_(\w+)\{database="0"\} (\S+)$', text, re.M))
        self.assertEqual(status, 200)
        due = {"waiting": 3, "documents_waiting": 1, "workers": 0, "faulty": 0, "documents": 1}
        self.assertEqual({it: float(found[it]) for it in due}, due)
        self.assertGreater(float(found["oldest_seconds"]), 0.05)
        self.assertTrue({"take_overs_total", "faults_total"} <= found.keys())
        self.assertEqual(self.asked(f"{address}/other")[0], 404)
        self.counts_take_overs(address)

    def counts_take_overs(self, address: str) -> None:
        worker = self.work("--lease", "1")
        self.client.document("watched").ask(ELEMENT)
        before = self.row("select last_value from huckleport.take_overs")[0]
        worker.kill()
        worker.wait()
        self.work()
        self.client.document("watched").ask(ELEMENT)
        self.assertIn(f'huckleport_take_overs_total{{database="0"}} {before + 1}.0', self.asked(f"{address}/metrics")[1])

    def asked(self, address: str) -> Tuple[int, str]:
        try:
            with urllib.request.urlopen(address, timeout=60) as found:
                return found.status, found.read().decode()
        except urllib.error.HTTPError as fault:
            return fault.code, fault.read().decode()

    def test_logs_are_objects_by_choice(self) -> None:
        words = ["--log-format", "json", "--log", "info", "--database", self.place.conninfo, "worker"]
        worker = self.place.command_of(words[:4], *words[4:], stderr=subprocess.PIPE)
        self.client.document("logged").ask(ELEMENT)
        worker.send_signal(signal.SIGTERM)
        found = [json.loads(it) for it in worker.communicate()[1].splitlines()]
        self.assertEqual({(it["level"], it["process"]) for it in found}, {("INFO", worker.pid)})
        self.assertTrue(any(re.fullmatch(r"worker \d+ begins", it["message"]) for it in found))

    # reading a long log

    def in_time(self, took: float, most: float, is_quiet: bool) -> str:
        """Checks how long a whole log took, unless other tests took processors from it. Returns a word about that."""
        if WHOLE and is_quiet:
            self.assertLess(took, most)
        return "" if is_quiet else ", beside other work"

    def test_a_long_log_is_followed(self) -> None:
        count = 1_000_000 if WHOLE else 25_000
        document = self.client.document("long")
        words = """insert into huckleport.lines select %s, it, %s, it, convert_to('["createText",0,"' || it || '"]', 'UTF8'), convert_to('{"ok":' || it || '}', 'UTF8')
            from generate_series(1, %s) as it"""
        self.connection.execute(words, (document.id, self.client.id, count))
        idle, start, seen = Idle(), time.monotonic(), 0
        for seen, it in enumerate(document.follow(timeout=0.05), 1):
            if it != (seen, self.client.id, seen, b'["createText",0,"%d"]' % seen, b'{"ok":%d}' % seen):
                self.fail(f"{it} is entry {seen}")
        self.assertEqual(seen, count)
        took = time.monotonic() - start
        told(f"{count:,} lines followed in {took:.1f} s{self.in_time(took, 10.0, idle.is_quiet(2))}")

    def test_a_long_log_is_taken_over(self) -> None:
        """A worker replays a long log, and serves another document in between."""
        count = 1_000_000 if WHOLE else 25_000
        document = self.client.document("long")
        words = """insert into huckleport.lines select %s, it, %s, it, convert_to('["createText",0,"' || it %% 100 || '"]', 'UTF8'), convert_to('{"ok":' || it || '}', 'UTF8')
            from generate_series(1, %s) as it"""
        self.connection.execute(words, (document.id, uuid.uuid4(), count))
        worker = self.work()
        other = self.client.document("another")
        other.ask(ELEMENT)
        idle, before, start = Idle(), used(worker.pid), time.monotonic()
        requests, waits = document.post([ELEMENT]), []
        while not self.connection.execute("select from huckleport.lines where document = %s and number > %s", (document.id, count)).fetchall():
            asked = time.monotonic()
            other.ask(ELEMENT)
            waits.append(time.monotonic() - asked)
        self.assertEqual(document.reply(requests[0]), b'{"ok":%d}' % (count + 1))
        seconds, took = time.monotonic() - start, used(worker.pid) - before
        beside = self.in_time(seconds, 3.0, idle.is_quiet(3))
        told(f"{count:,} lines replayed in {seconds:.1f} s{beside}, {took:.1f} s of the worker's processor time; another document waited {max(waits):.2f} s")
        # (on a quiet machine it is about a third of this)
        self.assertLess(took, 1 + 6e-6 * count)

    # backups

    def test_a_dump_is_restored(self) -> None:
        self.work()
        given = lines("dumped", 200)
        document = self.client.document("dumped")
        self.assertEqual(document.send(given), replies_of(given))
        # (half of the log is in a segment)
        self.assertEqual(self.row("select huckleport.compress('dumped', 1, 80)"), (80,))
        dump = os.path.join(self.place.folder, "dump")
        self.run_server_program("pg_dump", "--format=custom", "--no-unlogged-table-data", "--file", dump, "--dbname", self.place.conninfo)
        self.connection.execute("create database restored")
        restored = self.place.conninfo.replace("dbname=postgres", "dbname=restored")
        self.run_server_program("pg_restore", "--exit-on-error", "--dbname", restored, dump)
        self.goes_on(restored, "dumped", given)

    def run_server_program(self, name: str, *words: str) -> None:
        subprocess.run([os.path.join(programs(), name), *words], check=True)

    def goes_on(self, conninfo: str, name: str, given: List[bytes]) -> None:
        """A restored database has the document's log, replayed alike, and a worker of it goes on with the document."""
        words = ["--database", conninfo]
        ran = self.place.command_of(words, "verify", name, stdout=subprocess.PIPE)
        self.assertEqual(ran.communicate()[0].decode(), f"{name}: {len(changes(given))} lines, each reply the same\n")
        self.place.workers.append(self.place.command_of(words, "worker"))
        with connect(conninfo) as client:
            document = client.document(name)
            self.assertEqual([it.line for it in document.follow(timeout=0.1)], changes(given))
            self.assertEqual(document.send([ELEMENT, b'["node",0]']), replies_of([*given, ELEMENT, b'["node",0]'])[-2:])

    # the image

    def test_the_container_file(self) -> None:
        with open(os.path.join(HERE, "Containerfile"), encoding="utf-8") as file:
            text = re.sub(r"\\\n", " ", file.read())
        found: Dict[str, List[str]] = {}
        for word, rest in re.findall(r"^(\w+)\s+(.+)$", re.sub(r"(?m)^#.*\n", "", text), re.M):
            found.setdefault(word, []).append(rest)
        self.assertLessEqual(found.keys(), {"FROM", "RUN", "COPY", "USER", "HEALTHCHECK", "CMD"})
        self.assertRegex(found["FROM"][0], r"^\S+:[\w.-]+$")
        self.assertEqual(found["USER"], ["nobody"])
        self.assertTrue(all("rm -rf /var/lib/apt/lists" in it for it in found["RUN"] if "apt-get" in it))
        checked = json.loads(found["HEALTHCHECK"][0].partition("CMD ")[2])
        self.assertEqual(checked[:3], json.loads(found["CMD"][0])[:3])
        self.assertEqual(self.place.command(checked[3]).wait(), 1)


class PointInTime(unittest.TestCase):
    def test_a_base_backup_and_its_archive(self) -> None:
        """A database is restored as it was at a point behind the backup, and not as it was later."""
        with Place(settings={"archive_mode": "on", "wal_level": "replica", "archive_command": "cp %p ../archive/%f"}) as place:
            archive = os.path.join(place.primary.folder, "archive")
            os.mkdir(archive, 0o700)
            if user():
                os.chown(archive, user()["user"], user()["group"])
            restored = Server(os.path.join(place.folder, "r"), dict(SMALL))
            place.work(1)
            given = lines("in time", 150)
            with connect(place.conninfo) as client:
                client.document("in time").send(given[:100])
                self.back_up(place, restored)
                client.document("in time").send(given[100:])
                with psycopg.connect(place.conninfo, autocommit=True) as connection:
                    connection.execute("select pg_create_restore_point('a point')")
                    client.document("in time").send([ELEMENT] * 10)
                    connection.execute("select pg_switch_wal()")
            place.stop_workers()
            place.primary.stop()
            restored.settings.update(restore_command=f"cp {archive}/%f %p", recovery_target_name="a point", recovery_target_action="promote")
            self.check(place, restored, given)

    def back_up(self, place: Place, restored: Server) -> None:
        restored.make_standby_of(place.primary)
        os.rename(f"{restored.data}/standby.signal", f"{restored.data}/recovery.signal")

    def wait_until_promoted(self, restored: Server) -> None:
        for _ in range(600):
            try:
                with psycopg.connect(restored.conninfo, autocommit=True) as connection:
                    if connection.execute("select pg_is_in_recovery()").fetchone() == (False,):
                        return
            except psycopg.OperationalError:
                pass
            time.sleep(0.1)
        self.fail("the restored server takes no changes after a minute")

    def check(self, place: Place, restored: Server, given: List[bytes]) -> None:
        restored.start()
        try:
            self.wait_until_promoted(restored)
            ran = place.command_of(["--database", restored.conninfo], "verify", stdout=subprocess.PIPE)
            self.assertEqual(ran.communicate()[0].decode(), f"in time: {len(changes(given))} lines, each reply the same\n")
        finally:
            restored.stop()
            shutil.rmtree(restored.folder)


class Upgrade(unittest.TestCase):
    def test_tables_of_version_1(self) -> None:
        """A database of the tables before: its log with questions in it stays readable, lines that wait are answered, and clients go on."""
        server = Place()
        with server as place:
            with psycopg.connect(place.conninfo, autocommit=True) as connection:
                connection.execute("create database older")
            older = place.conninfo.replace("dbname=postgres", "dbname=older")
            given, who = lines("older", 300), uuid.uuid4()
            with psycopg.connect(older, autocommit=True) as connection, open(TABLES, encoding="utf-8") as file:
                connection.execute(file.read())
                self.fill(connection, given, who)
            ran = place.command_of(["--database", older], "status", stderr=subprocess.PIPE)
            self.assertIn(b"`create` upgrades", ran.communicate()[1])
            self.assertFalse(create_tables(older))
            self.assertFalse(create_tables(older))
            self.check(place, older, given, who)

    def test_tables_of_version_2(self) -> None:
        """They had no segments, and the rest as it is now."""
        with Place() as place:
            with psycopg.connect(place.conninfo, autocommit=True) as connection:
                connection.execute("create database older")
                older = place.conninfo.replace("dbname=postgres", "dbname=older")
                create_tables(older)
            with psycopg.connect(older, autocommit=True) as connection:
                connection.execute("drop table huckleport.segments, huckleport.segment_clients cascade")
                connection.execute("update huckleport.settings set tables = 2")
                connection.execute("select huckleport.make('older')")
            self.assertFalse(create_tables(older))
            with psycopg.connect(older) as connection, psycopg.connect(place.conninfo) as new:
                self.assertEqual(self.shape(connection), self.shape(new))
                self.assertEqual(connection.execute("select name from huckleport.documents").fetchall(), [("older",)])

    def test_tables_of_version_3(self) -> None:
        """They had other functions, and the same tables. Logs stay as they are, also their segments."""
        with Place() as place:
            with psycopg.connect(place.conninfo, autocommit=True) as connection:
                connection.execute("create database older")
                older = place.conninfo.replace("dbname=postgres", "dbname=older")
                create_tables(older)
            given, who = lines("older", 300), uuid.uuid4()
            with psycopg.connect(older, autocommit=True) as connection:
                self.fill(connection, given, who)
                self.assertEqual(connection.execute("select huckleport.compress('older', 1, 100)").fetchone(), (100,))
                connection.execute("drop function huckleport.replies_of")
                connection.execute("create function huckleport.of_version_3() returns void language sql as ''")
                connection.execute("update huckleport.settings set tables = 3")
            self.assertFalse(create_tables(older))
            self.check(place, older, given, who)

    def fill(self, connection: psycopg.Connection[Any], given: List[bytes], who: uuid.UUID) -> None:
        """A document as clients and workers of that version left it, and a line that waits."""
        connection.execute("select huckleport.make('older')")
        connection.execute("update huckleport.documents set version = %s", (VERSION,))
        with connection.cursor() as cursor:
            rows = [(it, who, it, line, reply) for it, (line, reply) in enumerate(zip(given, replies_of(given)), 1)]
            cursor.executemany("insert into huckleport.lines values (1, %s, %s, %s, %s, %s)", rows)
        connection.execute("select huckleport.submit(1, %s, 301, array[%b::bytea])", (who, ELEMENT))

    def check(self, place: Place, older: str, given: List[bytes], who: uuid.UUID) -> None:
        ran = place.command_of(["--database", older], "verify", stdout=subprocess.PIPE)
        self.assertEqual(ran.communicate()[0], b"older: 300 lines, each reply the same\n")
        place.workers.append(place.command_of(["--database", older], "worker"))
        due = replies_of([*given, ELEMENT, b'["root",0]'])
        with connect(older, client=who) as client:
            document = client.document("older")
            self.assertEqual(document.ask(b'["root",0]'), due[-1])
            self.assertEqual(document.send(given[:20], request=1), due[:20])
            self.assertEqual([it.line for it in document.follow(timeout=0.1)], [*given, ELEMENT])
        with psycopg.connect(older) as connection, psycopg.connect(place.conninfo) as new:
            self.assertEqual(self.shape(connection), self.shape(new))

    def shape(self, connection: psycopg.Connection[Any]) -> List[Any]:
        """The columns, constraints, functions and rights of the tables, without their order."""
        words = """
            select c.relname, a.attname, a.atttypid::regtype::text, a.attnotnull::text from pg_class c join pg_attribute a on a.attrelid = c.oid
                where c.relnamespace = 'huckleport'::regnamespace and a.attnum > 0 and not a.attisdropped and c.relkind in ('r', 'i', 'S')
            union all select conrelid::regclass::text, conname, pg_get_constraintdef(oid), '' from pg_constraint where connamespace = 'huckleport'::regnamespace
            union all select oid::regprocedure::text, prosrc, proacl::text, array_to_string(proconfig, ',') from pg_proc where pronamespace = 'huckleport'::regnamespace
            union all select relname, relacl::text, relpersistence::text, '' from pg_class where relnamespace = 'huckleport'::regnamespace and relkind = 'r'
            order by 1, 2, 3, 4"""
        return connection.execute(words).fetchall()
