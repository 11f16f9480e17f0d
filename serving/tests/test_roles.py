"""Who may do what; what a trial opens to others; and connections by TLS."""

from __future__ import annotations

import os
import shutil
import socket
import stat
import subprocess
import sys
import tempfile
import unittest
import uuid
from typing import Any, ClassVar, Dict, Set

import psycopg
from place import HERE, Place
from test_documents import Served

from huckleport_serving import NotGranted, connect
from huckleport_serving.trial import NoServer, Server

CLIENT = "'00000000-0000-0000-0000-000000000001'::uuid"
# A statement of each call and table, and the roles that may execute it. `mine` is a document that is granted to the client, `other` is not.
MAY: Dict[str, Set[str]] = {
    f"select huckleport.enter({CLIENT})": {"client", "operator"},
    "select huckleport.find('mine')": {"client", "operator"},
    "select huckleport.find('other')": {"operator"},
    "select huckleport.make('mine')": {"client", "operator"},
    "select huckleport.make('a new one')": {"operator"},
    "select huckleport.about({mine})": {"client", "operator"},
    "select huckleport.about({other})": {"operator"},
    "select huckleport.submit({mine}, " + CLIENT + ", 1, array['x'::bytea])": {"client", "operator"},
    "select huckleport.submit({other}, " + CLIENT + ", 1, array['x'::bytea])": {"operator"},
    "select huckleport.last_request({mine}, " + CLIENT + ")": {"client", "operator"},
    "select huckleport.last_request({other}, " + CLIENT + ")": {"operator"},
    "select huckleport.replies({mine}, " + CLIENT + ", 0)": {"client", "operator"},
    "select huckleport.replies({other}, " + CLIENT + ", 0)": {"operator"},
    "select huckleport.replies_of(array[{mine}], " + CLIENT + ", array[0], 9)": {"client", "operator"},
    "select huckleport.replies_of(array[{mine}, {other}], " + CLIENT + ", array[0, 0], 9)": {"operator"},
    "select huckleport.entries({mine}, 0)": {"client", "operator"},
    "select huckleport.entries({other}, 0)": {"operator"},
    "select huckleport.page({mine}, 0, 9, 9)": {"client", "operator"},
    "select huckleport.page({other}, 0, 9, 9)": {"operator"},
    "select huckleport.register('w', '0', interval '1 s')": {"worker"},
    "select huckleport.renew(0, interval '1 s', 0, 0, 0)": {"worker"},
    "select huckleport.claim(0, '0', 1, null, '{{}}')": {"worker"},
    "select huckleport.log(array[{mine}], array[0], 9, 9)": {"worker"},
    "select huckleport.piece({mine}, 0, 9, 9)": {"worker", "operator"},
    "select huckleport.take(array[{mine}], 9, 9, '{{}}', '{{}}')": {"worker"},
    "select huckleport.record(0, '{{}}', '{{}}', '{{}}', '{{}}', '{{}}', '{{}}', '{{}}')": {"worker"},
    "select huckleport.sweep(0)": {"worker"},
    "select huckleport.forget_answers()": {"worker"},
    "select huckleport.release(0, '{{}}')": {"worker"},
    "select huckleport.leave(0)": {"worker"},
    "select huckleport.grant_document('mine', 'client')": {"operator"},
    "select huckleport.revoke_document('mine', 'client')": {"operator"},
    "select huckleport.drop_line('mine', 0)": {"operator"},
    "select huckleport.compress('mine')": {"operator"},
    "select huckleport.check_same(0, " + CLIENT + ", 1, 1, '{{}}')": set(),
    "select huckleport.drop_answered(0)": set(),
    "select * from huckleport.settings": {"client", "worker", "operator"},
    **{f"select * from huckleport.{it}": {"operator"} for it in ("lines", "log_lines", "segments", "segment_clients", "requests", "answers", "documents", "grants", "workers", "faults")},
    "update huckleport.settings set connections = 9": {"operator"},
    "update huckleport.documents set version = '0'": {"operator"},
    "update huckleport.documents set owner = 0": set(),
    **{f"delete from huckleport.{it}": set() for it in ("lines", "segments", "segment_clients", "requests", "answers", "documents", "grants", "workers")},
    "update huckleport.lines set reply = ''": set(),
    "insert into huckleport.grants values ({other}, 'client')": set(),
    "create table huckleport.pwned ()": set(),
    "listen huckleport_requests": {"client", "worker", "operator", "stranger"},
}
ROLES = ("client", "worker", "operator", "stranger")

# Functions beside those of the table above that a role may call, and all rights on tables, columns and sequences.
# (An operator also reads each of them.)
HELPERS = {("operator", it) for it in ("opened", "now", "is_running", "is_operator")}
RIGHTS = {("client", "settings", "select"), ("worker", "settings", "select"), ("operator", "settings", "update"), ("operator", "documents.version", "update")}

GIVEN_FUNCTIONS = """
select r.role, p.proname from unnest(%s::text[]) as r (role) cross join pg_proc p
where p.pronamespace = 'huckleport'::regnamespace and has_function_privilege(r.role, p.oid, 'execute')
"""
GIVEN_RIGHTS = """
with roles as (select * from unnest(%s::text[]) as r (role)),
    named as (select c.oid, c.relname::text, c.relkind from pg_class c where c.relnamespace = 'huckleport'::regnamespace and c.relkind in ('r', 'v', 'S')),
    found as (
        select role, oid, relname, it from roles cross join named
        cross join unnest(array['select', 'insert', 'update', 'delete', 'truncate', 'references', 'trigger']) as it
        where relkind <> 'S' and has_table_privilege(role, oid, it))
select role, relname, it from found
union all
select role, relname, it from roles cross join named cross join unnest(array['select', 'update', 'usage']) as it
where relkind = 'S' and has_sequence_privilege(role, oid, it)
union all
select role, relname || '.' || attname, it from roles cross join named join pg_attribute a on a.attrelid = oid and a.attnum > 0 and not a.attisdropped
cross join unnest(array['select', 'insert', 'update', 'references']) as it
where relkind <> 'S' and has_column_privilege(role, oid, a.attnum, it)
    and not exists (select from found where found.role = roles.role and found.oid = named.oid and found.it = it.it)
union all
select role, 'huckleport', 'create' from roles where has_schema_privilege(role, 'huckleport', 'create')
"""


class Roles(Served):
    @classmethod
    def setUpClass(cls) -> None:
        super().setUpClass()
        with psycopg.connect(cls.place.conninfo, autocommit=True) as connection, connect(cls.place.conninfo) as client:
            cls.documents = {it: str(client.document(it).id) for it in ("mine", "other")}
            for it in ROLES:
                connection.execute(f"create role {it} login" + ("" if it == "stranger" else f" in role huckleport_{it}"))
        with open(os.path.join(cls.place.primary.data, "pg_ident.conf"), "a", encoding="ascii") as file:
            file.writelines(f"owner root {it}\n" for it in ROLES)
        cls.place.primary.reload()
        assert cls.place.command("grant", "mine", "client").wait() == 0

    documents: ClassVar[Dict[str, str]]

    def may(self, connection: psycopg.Connection[Any], words: str) -> bool:
        try:
            with connection.transaction(force_rollback=True):
                connection.execute(words)
        except psycopg.errors.InsufficientPrivilege:
            return False
        except psycopg.DatabaseError:
            pass
        return True

    def test_who_may_do_what(self) -> None:
        for role in ROLES:
            with psycopg.connect(self.place.conninfo, autocommit=True) as connection:
                connection.execute(f"set session authorization {role}")
                for words, due in MAY.items():
                    self.assertEqual(self.may(connection, words.format(**self.documents)), role in due, (role, words))

    def test_every_function_is_in_the_table(self) -> None:
        words = "select proname from pg_proc where pronamespace = 'huckleport'::regnamespace and prosecdef"
        named = {it.partition("huckleport.")[2].partition("(")[0] for it in MAY}
        self.assertEqual({it for it, in self.connection.execute(words)} - named, set())

    def test_there_is_no_other_right(self) -> None:
        """The database's own lists of rights name those of these tables, and no other one."""
        may = {(role, words.partition("huckleport.")[2].partition("(")[0]) for words, its in MAY.items() for role in its if words.startswith("select huckleport.")}
        self.assertEqual(set(self.connection.execute(GIVEN_FUNCTIONS, (list(ROLES),))), may | HELPERS)
        every = {it for it, in self.connection.execute("select relname::text from pg_class where relnamespace = 'huckleport'::regnamespace and relkind in ('r', 'v', 'S')")}
        found = self.connection.execute(GIVEN_RIGHTS, (list(ROLES),)).fetchall()
        self.assertEqual(len(found), len(set(found)))
        self.assertEqual(set(found), RIGHTS | {("operator", it, "select") for it in every})

    def as_role(self, role: str) -> str:
        return self.place.conninfo.replace("user=postgres", f"user={role}")

    @unittest.skipUnless(os.geteuid() == 0, "the database's roles are mapped to root here")
    def test_a_client_and_a_worker_of_their_roles(self) -> None:
        worker = self.place.command_of(["--database", self.as_role("worker")], "worker")
        self.place.workers.append(worker)
        with connect(self.as_role("client")) as client:
            self.assertEqual(client.document("mine").send([b'["createElement",0,"p"]', b'["root",1]']), [b'{"ok":1}', b'{"ok":1}'])
            self.assertEqual([it.reply for it in client.document("mine").follow(timeout=0.1)], [b'{"ok":1}'])
            for it in ("other", "of nobody"):
                with self.assertRaises(NotGranted):
                    client.document(it)
        words = ["--database", self.as_role("operator")]
        self.assertEqual(self.place.command_of(words, "status", "--json", stdout=subprocess.DEVNULL).wait(), 0)
        self.assertEqual(self.place.command_of(words, "grant", "mine", "client", "--revoke").wait(), 0)
        with connect(self.as_role("client")) as client, self.assertRaises(NotGranted):
            client.document("mine")
        self.assertEqual(self.place.command_of(words, "grant", "mine", "client").wait(), 0)
        self.assertEqual(self.place.command("grant", "nowhere", "client", stderr=subprocess.DEVNULL).wait(), 1)

    @unittest.skipUnless(os.geteuid() == 0, "the database's roles are mapped to root here")
    def test_a_document_that_is_no_longer_granted_keeps_no_other_from_its_replies(self) -> None:
        """A client has posted to two documents, and has been notified of the replies of both, as one is revoked."""
        self.assertEqual(self.place.command("grant", "other", "client").wait(), 0)
        with connect(self.as_role("client")) as client:
            documents = client.document("mine"), client.document("other")
            posted = [it.post([b'["root",0]']) for it in documents]
            self.place.work(1)
            self.wait_until("select count(*) = 0 from huckleport.requests")
            self.assertEqual(self.place.command("grant", "other", "client", "--revoke").wait(), 0)
            self.addCleanup(self.place.stop_workers)
            while documents[1] not in documents[0]._notified:
                documents[0]._link.wait(1)
            self.assertEqual(documents[0].reply(posted[0][0]), b'{"ok":0}')
            with self.assertRaises(NotGranted):
                documents[1].reply(posted[1][0])

    def test_an_id_is_a_uuid(self) -> None:
        with self.assertRaises(ValueError):
            connect(self.place.conninfo, client='x"; create table pwned(); --')
        who = uuid.uuid4()
        self.assertEqual(self.connected(client=str(who)).id, who)
        ran = self.place.command("send", "mine", "--client", 'x"; create table pwned(); --', stderr=subprocess.DEVNULL)
        self.assertEqual(ran.wait(), 2)
        self.assertEqual(self.row("select to_regclass('pwned')"), (None,))


class Trials(unittest.TestCase):
    def setUp(self) -> None:
        self.folder = self.enterContext(tempfile.TemporaryDirectory(prefix="hp-", dir="/tmp"))
        os.chmod(self.folder, 0o755)

    def test_a_folder_that_others_may_enter_is_refused_and_left_alone(self) -> None:
        for mode in (0o755, 0o711, 0o770):
            folder = os.path.join(self.folder, f"{mode:o}")
            os.mkdir(folder)
            os.chmod(folder, mode)
            before = os.stat(folder)
            with self.assertRaises(NoServer):
                Server(folder).make()
            after = os.stat(folder)
            self.assertEqual((after.st_uid, after.st_mode, os.listdir(folder)), (before.st_uid, before.st_mode, []))
        os.symlink("/tmp", os.path.join(self.folder, "link"))
        with self.assertRaises(NoServer):
            Server(os.path.join(self.folder, "link")).make()
        ran = subprocess.run([sys.executable, HERE, "try", os.path.join(self.folder, "755")], env=Place.environment(), stderr=subprocess.PIPE, check=False)
        self.assertEqual((ran.returncode, b"name a new one" in ran.stderr), (3, True))

    def test_only_its_user_connects(self) -> None:
        with Place() as place:
            self.assertEqual(stat.S_IMODE(os.stat(place.primary.folder).st_mode), 0o700)
            with open(os.path.join(place.primary.data, "pg_hba.conf"), encoding="ascii") as file:
                self.assertNotIn("trust", file.read())
            if os.geteuid() == 0:
                self.refuses_another_user(place)

    def refuses_another_user(self, place: Place) -> None:
        words = "import psycopg, sys; psycopg.connect(sys.argv[1])"
        ran = subprocess.run([sys.executable, "-c", words, place.primary.conninfo], user="nobody", cwd="/", stderr=subprocess.PIPE, check=False)
        self.assertIn(b"Permission denied", ran.stderr)
        # (also through the folder the server asks who it is)
        os.chmod(place.primary.folder, 0o755)
        os.chmod(os.path.join(place.primary.folder, ".s.PGSQL.5432"), 0o777)
        ran = subprocess.run([sys.executable, "-c", words, place.primary.conninfo], user="nobody", cwd="/", stderr=subprocess.PIPE, check=False)
        self.assertIn(b"Peer authentication failed", ran.stderr)


@unittest.skipUnless(shutil.which("openssl"), "there is no openssl")
class Encrypted(unittest.TestCase):
    def test_a_client_by_tls_with_a_certificate_of_ones_own(self) -> None:
        with socket.socket() as free:
            free.bind(("127.0.0.1", 0))
            port = str(free.getsockname()[1])
        settings = {"listen_addresses": "127.0.0.1", "port": "5432"}
        with Place(settings=settings) as place:
            data = place.primary.data
            words = ["-newkey", "ec", "-pkeyopt", "ec_paramgen_curve:prime256v1", "-nodes", "-days", "2", "-subj", "/CN=localhost", "-addext", "subjectAltName=DNS:localhost"]
            made = ["openssl", "req", "-x509", *words, "-keyout", f"{data}/server.key", "-out", f"{data}/server.crt"]
            subprocess.run(made, stderr=subprocess.DEVNULL, check=True)
            owner = os.stat(data)
            for it in ("server.key", "server.crt"):
                os.chown(f"{data}/{it}", owner.st_uid, owner.st_gid)
            with open(f"{data}/pg_hba.conf", "a", encoding="ascii") as file:
                file.write("hostssl all all 127.0.0.1/32 scram-sha-256\n")
            with psycopg.connect(place.conninfo, autocommit=True) as connection:
                connection.execute("create role carol login password 'a secret' in role huckleport_client")
                connection.execute("alter system set ssl = on")
            place.primary.stop()
            place.primary.settings["port"] = port
            place.primary.start()
            place.work(1)
            with connect(place.conninfo) as client:
                client.document("letter")
            self.assertEqual(place.command("grant", "letter", "carol").wait(), 0)
            self.check(f"hostaddr=127.0.0.1 port={port} dbname=postgres user=carol password='a secret' sslrootcert={data}/server.crt")

    def check(self, conninfo: str) -> None:
        with connect(f"{conninfo} host=localhost sslmode=verify-full") as client:
            self.assertEqual(client.document("letter").ask(b'["createElement",0,"p"]'), b'{"ok":1}')
        for wrong in ("host=localhost sslmode=disable", "host=another.name sslmode=verify-full", "host=localhost sslmode=verify-full sslrootcert=/dev/null"):
            with self.assertRaises(psycopg.OperationalError), connect(f"{conninfo} {wrong}", timeout=0) as client:
                client.document("letter")
