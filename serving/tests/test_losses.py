"""Workers, clients and a primary that are killed, and a worker that is stopped past its lease, while clients send and retry."""

from __future__ import annotations

import os
import random
import signal
import subprocess
import sys
import time
import unittest
from typing import Dict, List, Tuple

import psycopg
from editing import acknowledged, client_of, lines_of, name_of
from lines import changes
from place import PROGRAM, Place, told

from huckleport_serving.links import completed
from huckleport_serving.worlds import World

EDITING = os.path.join(os.path.dirname(os.path.abspath(__file__)), "editing.py")
LEASE = 3.0


class Scene:
    """Clients that each send to a share of the documents. Each document is several clients'."""

    def __init__(self, place: Place, documents: int, clients: int, lines: int, chunk: int, pause: float) -> None:
        self.place, self.documents, self.clients = place, documents, clients
        shared = 5
        self.each = lines // (documents * shared)
        self.chunk, self.pause = chunk, pause
        self.of = {client: [it for it in range(documents) if (it - client) % clients < shared] for client in range(clients)}
        self.total = sum(len(it) for it in self.of.values()) * self.each
        self.started: Dict[int, subprocess.Popen[bytes]] = {}

    def journal(self, client: int) -> str:
        return os.path.join(self.place.folder, f"client-{client}")

    def start(self, client: int) -> None:
        documents = [str(it) for it in self.of[client]]
        words = ["--database", self.place.conninfo, "--client", str(client), "--lines", str(self.each), "--chunk", str(self.chunk), "--pause", str(self.pause)]
        given = [sys.executable, EDITING, *words, "--journal", self.journal(client), "--documents", *documents]
        self.started[client] = subprocess.Popen(given)
        self.place.others.append(self.started[client])

    def done(self) -> int:
        """Returns how many lines were acknowledged."""
        return sum(len(replies) for client in range(self.clients) for replies in acknowledged(self.journal(client)).values())

    def wait_for(self, lines: int, seconds: float = 300) -> None:
        """Waits until `lines` lines were acknowledged."""
        until = time.monotonic() + seconds
        while self.done() < lines:
            if time.monotonic() > until:
                raise AssertionError(f"{self.done()} of {self.total} lines were acknowledged")
            time.sleep(0.1)


class Losses(unittest.TestCase):
    documents, clients, lines, chunk, pause = 20, 8, 5_000, 5, 0.05

    def test_nothing_is_lost_and_nothing_done_twice(self) -> None:
        with Place(with_standby=True) as place:
            scene = Scene(place, self.documents, self.clients, self.lines, self.chunk, self.pause)
            place.work(4, "--lease", str(LEASE))
            start = time.monotonic()
            for client in range(self.clients):
                scene.start(client)
            self.kill_workers(place, scene, 0.25)
            self.stop_one_past_its_lease(place, scene)
            self.kill_client(scene)
            self.kill_workers(place, scene, 0.7)
            self.lose_primary(place, scene)
            self.kill_workers(place, scene, 0.95)
            scene.wait_for(scene.total)
            self.assertEqual([it.wait(120) for it in scene.started.values()], [0] * self.clients)
            told(f"{scene.total:,} lines in {time.monotonic() - start:.0f} seconds, with {self.killed} workers killed, one stopped, a client killed, a primary lost")
            self.check(place, scene)

    def setUp(self) -> None:
        self.killed = 0
        self.drawn = random.Random(7)

    def kill_workers(self, place: Place, scene: Scene, share: float) -> None:
        """Kills a worker every two seconds, each time starting another, until a share of the lines was acknowledged; one at least.

        Some line is acknowledged between two of them, so that a slow machine comes to the end as well.
        """
        while True:
            time.sleep(2)
            worker = place.workers.pop(self.drawn.randrange(len(place.workers)))
            worker.kill()
            worker.wait()
            self.killed += 1
            place.work(1, "--lease", str(LEASE))
            done = scene.done()
            if done >= share * scene.total:
                return
            scene.wait_for(done + 1)

    def stop_one_past_its_lease(self, place: Place, scene: Scene) -> None:
        """Stops a worker that has documents until others have taken them, and then lets it continue."""
        with psycopg.connect(completed(place.conninfo), autocommit=True) as connection:
            number, process = self.busiest(place, connection)
            os.kill(process, signal.SIGSTOP)
            time.sleep(LEASE + 1)
            words = "select count(*) from huckleport.documents where owner = %s and id in (select document from huckleport.requests)"
            until = time.monotonic() + 60
            while connection.execute(words, (number,)).fetchone() != (0,):
                self.assertLess(time.monotonic(), until, "documents of a stopped worker for which lines wait")
                time.sleep(0.1)
            os.kill(process, signal.SIGCONT)

    def busiest(self, place: Place, connection: psycopg.Connection) -> Tuple[int, int]:
        """Returns the number and the process of the running worker that has the most documents."""
        words = "select w.id, w.name from huckleport.workers w join huckleport.documents d on d.owner = w.id group by w.id order by count(*) desc"
        running = {it.pid for it in place.workers}
        found = [(number, int(name.split()[1])) for number, name in connection.execute(words)]
        return next(it for it in found if it[1] in running)

    def kill_client(self, scene: Scene) -> None:
        scene.started[0].kill()
        scene.started[0].wait()
        scene.start(0)

    def lose_primary(self, place: Place, scene: Scene) -> None:
        assert place.standby is not None
        place.primary.kill()
        place.standby.promote()
        self.acknowledged_before = scene.done()

    def check(self, place: Place, scene: Scene) -> None:
        sent = {(client, document): lines_of(client, document, scene.each) for client, its in scene.of.items() for document in its}
        known = {client: acknowledged(scene.journal(client)) for client in scene.of}
        with psycopg.connect(completed(place.conninfo)) as connection:
            rows = connection.execute(
                "select d.name, l.number, l.client, l.request, l.line, l.reply from huckleport.lines l join huckleport.documents d on d.id = l.document order by d.name, l.number"
            ).fetchall()
        logs: Dict[str, List] = {}
        for name, *row in rows:
            logs.setdefault(name, []).append(row)
        self.assertEqual(len(rows), sum(len(changes(it)) for it in sent.values()))
        for document in range(self.documents):
            self.check_log(logs[name_of(document)], document, sent, known)

    def check_log(self, log: List, document: int, sent: Dict, known: Dict) -> None:
        """Each number once and in order; each client's lines as it sent them, each once and in order; and the replies of one process of the program."""
        self.assertEqual([row[0] for row in log], list(range(1, len(log) + 1)))
        ran = subprocess.run([PROGRAM], input=b"".join(row[3] + b"\n" for row in log), stdout=subprocess.PIPE, check=True)
        self.assertEqual(b"".join(row[4] + b"\n" for row in log), ran.stdout)
        asked = []
        for client in {row[1].int - 1 for row in log}:
            mine = {row[2]: row for row in log if row[1] == client_of(client)}
            self.assertEqual(list(mine), sorted(mine))
            place = 0
            for request, (line, reply) in enumerate(zip(sent[client, document], known[client][document], strict=True), 1):
                if changes([line]):
                    place = mine[request][0]
                    self.assertEqual((mine[request][3], mine[request][4]), (line, reply))
                else:
                    asked.append((place, line, reply))
        self.check_questions(log, asked)

    def check_questions(self, log: List, asked: List[Tuple[int, bytes, bytes]]) -> None:
        """Each question has the reply that the document gave behind the last line that its client had sent before, or later."""
        world = World(2**32 - 1, 2**20)
        waiting: List[Tuple[bytes, bytes]] = []
        for place, line in [(0, b""), *((row[0], row[3]) for row in log)]:
            if place:
                world.answer(line)
            waiting += [it[1:] for it in asked if it[0] == place]
            waiting = [it for it in waiting if world.answer(it[0]) != it[1]]
        world.close()
        self.assertEqual(waiting, [])


class Whole(Losses):
    documents, clients, lines, chunk, pause = 200, 20, 200_000, 20, 0.0


def load_tests(loader: unittest.TestLoader, *_: object) -> unittest.TestSuite:
    """Returns the tests of the small form, or of the whole one if it is asked for."""
    return loader.loadTestsFromTestCase(Whole if os.environ.get("HUCKLEPORT_WHOLE") else Losses)
