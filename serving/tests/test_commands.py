"""The commands, as an operator runs them."""

from __future__ import annotations

import contextlib
import io
import json
import os
import signal
import subprocess
import sys
import tempfile
import unittest
from typing import Any, ClassVar, Tuple

import psycopg
from lines import changes, lines
from place import HERE, PROGRAM, Place, replies_of

from huckleport_serving.commands import PARTS, main

LETTER = b'["createElement",0,"p"]\n["appendChild",0,1]\n["root",1]\n'


class Commands(unittest.TestCase):
    place: ClassVar[Place]

    @classmethod
    def setUpClass(cls) -> None:
        cls.place = cls.enterClassContext(Place())
        cls.place.work(1, "--lease", "3", "--no-adopt")

    def said(self, *words: str, given: bytes = b"") -> Tuple[int, bytes, bytes]:
        """The status of a command, and what it writes."""
        process = self.place.command(*words, stdin=subprocess.PIPE, stdout=subprocess.PIPE, stderr=subprocess.PIPE)
        out, err = process.communicate(given, timeout=120)
        return process.returncode, out, err

    def test_help(self) -> None:
        for part in PARTS:
            out = io.StringIO()
            with contextlib.redirect_stdout(out), self.assertRaises(SystemExit) as ended:
                main([part, "--help"])
            self.assertEqual((ended.exception.code, out.getvalue()[:6]), (0, "usage:"), part)
        for words in (["nothing"], ["worker", "--documents", "many"]):
            with contextlib.redirect_stderr(io.StringIO()), self.assertRaises(SystemExit) as ended:
                main(words)
            self.assertEqual(ended.exception.code, 2)

    def test_send_then_follow(self) -> None:
        self.assertEqual(self.said("send", "letter", given=LETTER), (0, b'{"ok":1}\n{"ok":1}\n{"ok":0}\n', b""))
        status, out, _ = self.said("follow", "letter", "--timeout", "0.3")
        self.assertEqual(status, 0)
        rows = [it.split(b"\t") for it in out.splitlines()]
        due = [(b"%d" % it, b"%d" % it, line) for it, line in enumerate(changes(LETTER.splitlines()), 1)]
        self.assertEqual([(row[0], row[2], row[3]) for row in rows], due)
        self.assertEqual(self.said("follow", "letter", "--lines", "--behind", "1", "--timeout", "0.3")[1], LETTER.splitlines(True)[1])

    def test_send_again(self) -> None:
        words = ["send", "again", "--client", "00000000-0000-0000-0000-000000000001", "--request", "1"]
        due = (0, b'{"ok":1}\n{"ok":1}\n{"ok":0}\n', b"")
        self.assertEqual([self.said(*words, given=LETTER), self.said(*words, given=LETTER)], [due, due])
        self.assertEqual(self.said(*words, given=b"another\n")[0], 3)

    def test_limits(self) -> None:
        given = lines("limits", 50)
        status, out, _ = self.said("send", "limited", "--numbers", "5", "--line", "30", given=b"".join(it + b"\n" for it in given))
        self.assertEqual((status, out.split(b"\n")[:-1]), (0, replies_of(given, "--numbers", "5", "--line", "30")))

    def test_verify(self) -> None:
        self.said("send", "to verify", given=b"".join(it + b"\n" for it in lines("verified", 500)))
        due = b"to verify: %d lines, each reply the same\n" % len(changes(lines("verified", 500)))
        for words in ([], ["--program", PROGRAM]):
            self.assertEqual(self.said("verify", "to verify", *words)[:2], (0, due))
        self.change("to verify", "update huckleport.lines set reply = reply || ' ' where document = %s and number = 77")
        status, out, _ = self.said("verify", "to verify")
        self.assertEqual(status, 1)
        self.assertIn(b"WRONG at 77:", out)
        self.change("to verify", "delete from huckleport.lines where document = %s and number = 78")
        self.change("to verify", "update huckleport.lines set reply = rtrim(reply, ' ') where document = %s and number = 77")
        self.assertIn(b"WRONG", self.said("verify", "to verify")[1])
        self.assertEqual(self.said("verify", "nowhere")[0], 1)
        self.change("to verify", "delete from huckleport.lines where document = %s")

    def test_adopt(self) -> None:
        self.said("send", "older", given=LETTER)
        self.change("older", "update huckleport.documents set version = '0.0.0', owner = null, epoch = epoch + 1 where id = %s")
        self.assertEqual(self.said("send", "older", "--timeout", "2", given=LETTER)[0], 3)
        self.assertEqual(self.said("verify", "older", "--adopt")[0], 0)
        self.assertEqual(self.said("send", "older", given=LETTER)[0], 0)

    def change(self, name: str, words: str) -> None:
        with psycopg.connect(self.place.conninfo) as connection:
            (document,) = connection.execute("select id from huckleport.documents where name = %s", (name,)).fetchone() or (0,)
            connection.execute(words, (document,))

    def test_status(self) -> None:
        self.said("send", "told of", given=LETTER)
        ((found,), (one,)) = [json.loads(self.said("status", *words, "--json")[1]) for words in ([], ["told of"])]
        self.assertEqual(len(found["workers"]), 1)
        self.assertGreater(found["workers"][0]["lease"], 0)
        self.assertEqual((one["lines"], one["waiting"], one["fault"]), (2, 0, None))
        self.assertIn(b"worker 1 ", self.said("status")[1])
        self.assertEqual(self.said("status", "nothing of that name")[0], 1)

    def test_no_database(self) -> None:
        ran = self.place.command_of(["--database", "host=/nowhere connect_timeout=1"], "status", stderr=subprocess.PIPE)
        self.assertIn(b"ERROR connection is bad", ran.communicate()[1])
        self.assertEqual(ran.returncode, 3)

    def test_no_tables(self) -> None:
        with psycopg.connect(self.place.conninfo, autocommit=True) as connection:
            connection.execute("create database empty")
        words = ["--database", self.place.conninfo.replace("dbname=postgres", "dbname=empty")]
        ran = self.place.command_of(words, "status", stderr=subprocess.PIPE)
        self.assertIn(b"`create` makes them", ran.communicate()[1])
        self.assertEqual([self.place.command_of(words, "create", stdout=subprocess.DEVNULL).wait() for _ in range(2)], [0, 0])
        self.assertEqual(self.place.command_of(words, "status", stdout=subprocess.DEVNULL).wait(), 0)


class Try(unittest.TestCase):
    def test_from_nothing(self) -> None:
        """The five minutes of the page: a database in a folder with two workers, a letter, and all of it stopped."""
        folder = tempfile.mkdtemp(prefix="hp-", dir="/tmp")
        os.chmod(folder, 0o755)
        here: Any = {"env": Place.environment(), "stdout": subprocess.PIPE}
        process = subprocess.Popen([sys.executable, HERE, "--log", "warning", "try", os.path.join(folder, "letters")], **here)
        assert process.stdout is not None
        conninfo = process.stdout.readline().decode().partition("'")[2].rpartition("'")[0]
        ran = subprocess.run([sys.executable, HERE, "--database", conninfo, "send", "letter"], input=LETTER, check=True, **here)
        self.assertEqual(ran.stdout, b'{"ok":1}\n{"ok":1}\n{"ok":0}\n')
        process.send_signal(signal.SIGINT)
        self.assertEqual(process.wait(30), 0)
        process.stdout.close()
        subprocess.run(["rm", "-r", folder], check=True)
