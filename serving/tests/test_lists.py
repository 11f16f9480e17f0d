"""A list of databases: a document's name decides which has it, and one more moves none."""

from __future__ import annotations

import unittest
from typing import ClassVar, Dict, List

import psycopg
from place import Place

from huckleport_serving import connect, create_tables
from huckleport_serving.links import connected
from huckleport_serving.places import jumps

NAMES = [f"document {it}" for it in range(200)]


class Jumps(unittest.TestCase):
    def test_one_more_takes_its_share_and_moves_no_other(self) -> None:
        for count in range(1, 20):
            before = {it: jumps(it, count)[0] for it in NAMES * 5}
            after = {it: jumps(it, count + 1)[0] for it in NAMES * 5}
            self.assertLessEqual({after[it] for it in NAMES if after[it] != before[it]}, {count})
        counts = [[jumps(f"name {it}", 10)[0] for it in range(5000)].count(place) for place in range(10)]
        self.assertTrue(all(400 < it < 600 for it in counts), counts)

    def test_a_place_that_it_had_is_looked_at(self) -> None:
        for it in NAMES:
            for count in range(1, 12):
                self.assertIn(jumps(it, count)[0], jumps(it, 12))


class Lists(unittest.TestCase):
    place: ClassVar[Place]

    @classmethod
    def setUpClass(cls) -> None:
        cls.place = cls.enterClassContext(Place())

    def database(self, name: str) -> str:
        with psycopg.connect(self.place.conninfo, autocommit=True) as connection:
            connection.execute(f"create database {name}")
        found = self.place.conninfo.replace("dbname=postgres", f"dbname={name}")
        create_tables(found)
        return found

    def tell(self, databases: List[str]) -> None:
        words = [word for it in databases for word in ("--database", it)]
        self.assertEqual(self.place.command_of(words, "create").wait(), 0)

    def places(self, databases: List[str]) -> Dict[str, str]:
        found = {}
        for it in databases:
            with connected(it) as connection:
                found.update((name, it) for name, in connection.execute("select name from huckleport.documents"))
        return found

    def test_one_more(self) -> None:
        databases = [self.database("first"), self.database("second")]
        self.tell(databases)
        with connect(*databases) as client:
            for it in NAMES[:100]:
                client.document(it)
        before = self.places(databases)
        self.assertEqual({before[it] for it in NAMES[:100]}, set(databases))
        databases.append(self.database("third"))
        self.tell(databases)
        with connect(*databases) as client:
            for it in NAMES:
                client.document(it)
        after = self.places(databases)
        self.assertEqual({it: after[it] for it in NAMES[:100]}, before)
        self.assertEqual({after[it] for it in NAMES[100:]}, set(databases))
        self.refuses_who_knows_fewer(databases)

    def refuses_who_knows_fewer(self, databases: List[str]) -> None:
        with connect(*databases[:2]) as client, self.assertRaises(psycopg.errors.DatabaseError):
            client.document("a new one")
        self.assertEqual(self.place.command_of(["--database", databases[0]], "create").wait(), 1)
