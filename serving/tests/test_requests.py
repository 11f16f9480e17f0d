"""A request is its line: whether it waits or is recorded, under whichever restarts of clients and workers."""

from __future__ import annotations

import itertools
import multiprocessing
import os
import subprocess
import time
import unittest
import uuid
from typing import Any, ClassVar, Dict, List, Optional, Sequence, Set, Tuple

from lines import changes
from place import Place, replies_of, told
from test_documents import Served

from huckleport_serving import Client, ClientInUse, NotAnswered, OtherLine, connect
from huckleport_serving.worker import CLAIM, Bounds, Tenure

ELEMENT, COMMENT, QUESTION = b'["createElement",0,"p"]', b'["createComment",0,"c"]', b'["tree",0]'
EMPTY = b'{"ok":[[0,0,9,"#document"]]}'
"""The reply to the question, as long as nothing is under the Document."""


class Waiting(Served):
    """No worker runs until a test starts one."""

    def tearDown(self) -> None:
        self.place.stop_workers()

    def test_a_line_behind_one_that_waits_is_another_request(self) -> None:
        """Two runs of `send` with one id: each line is in the log, and each run that is answered gets its own line's reply."""
        words = ["send", "behind", "--client", str(uuid.uuid4())]
        first = self.place.command(*words, "--timeout", "0.5", stdin=subprocess.PIPE, stderr=subprocess.DEVNULL)
        first.communicate(ELEMENT + b"\n")
        self.assertEqual(first.returncode, 3)
        self.place.work(1)
        second = self.place.command(*words, stdin=subprocess.PIPE, stdout=subprocess.PIPE)
        self.assertEqual(second.communicate(COMMENT + b"\n")[0], b'{"ok":2}\n')
        entries = list(self.client.document("behind").follow(timeout=0.1))
        self.assertEqual([(it.request, it.line, it.reply) for it in entries], [(1, ELEMENT, b'{"ok":1}'), (2, COMMENT, b'{"ok":2}')])

    def test_another_line_under_a_request_that_waits_is_refused(self) -> None:
        document = self.client.document("waits")
        document.post([ELEMENT])
        again = self.client.document("waits")
        with self.assertRaises(OtherLine):
            again.send([COMMENT], request=1, timeout=0.1)
        with self.assertRaises(NotAnswered):
            again.send([ELEMENT], request=1, timeout=0.1)
        self.assertEqual(self.row("select count(*) from huckleport.requests where document = %s", document.id), (1,))
        self.place.work(1)
        self.assertEqual(again.send([ELEMENT, QUESTION], request=1)[0], b'{"ok":1}')
        with self.assertRaises(OtherLine):
            again.send([COMMENT], request=1)
        with self.assertRaises(OtherLine):
            again.send([ELEMENT, COMMENT], request=1)
        self.assertEqual(again.ask(COMMENT), b'{"ok":2}')

    def test_a_question_has_no_line_in_the_log_and_keeps_its_number(self) -> None:
        self.place.work(1)
        document = self.client.document("asked")
        self.assertEqual(document.send([ELEMENT, QUESTION, COMMENT]), replies_of([ELEMENT, QUESTION, COMMENT]))
        self.assertEqual([it.line for it in document.follow(timeout=0.1)], [ELEMENT, COMMENT])
        with self.assertRaises(OtherLine):
            document.send([COMMENT], request=2)
        self.assertEqual(document.send([QUESTION], request=2), [EMPTY])
        self.assertEqual(document.ask(COMMENT), b'{"ok":3}')

    def test_two_processes_of_one_id(self) -> None:
        who = uuid.uuid4()
        first = self.connected(client=who)
        first.document("in use").post([ELEMENT])
        with self.assertRaises(ClientInUse), connect(self.place.conninfo, client=who, timeout=0.2) as second:
            second.document("in use")
        words = ["send", "in use", "--client", str(who), "--timeout", "0.2"]
        ran = self.place.command(*words, stdin=subprocess.PIPE, stderr=subprocess.PIPE)
        self.assertIn(b"is in use by another process", ran.communicate(COMMENT + b"\n")[1])
        self.assertEqual(ran.returncode, 3)
        first.close()
        self.assertEqual(self.connected(client=who).document("in use")._next, 2)


# A step of the property test. Client a or b sends a line; a asks a question, or sends another line under its last number. Client a takes the
# replies that are there, is started anew, and sends its last line again if it has no reply (r). Client b is started anew without a look at its
# replies, and sends its last line again (t). The worker serves (w), or is lost after it has claimed, and another one begins (s).
STEPS, RESTARTS = "abqortsw", "rts"
PROCESSES = 4


def does_something(steps: Sequence[str]) -> bool:
    """Returns whether each step of an order has something to act on. A client that did nothing before is not started anew and sends no other line.
    The worker serves only if lines may wait.

    (An order with an idle step is a shorter one. A shorter one ends as if a step `w` or `s` followed, since all are served and read at the end.
    So the orders of the full length cover the shorter ones.)
    """
    acted: Set[str] = set()
    waits = False
    for it in steps:
        if (it in "or" and not acted & {"a", "q"}) or (it == "t" and "b" not in acted) or (it == "w" and not waits):
            return False
        acted.add(it)
        waits = it in "abqrt" or (waits and it != "w")
    return True


class Orders(unittest.TestCase):
    """All orders of steps up to a length, each with a document of its own.

    Orders whose processes are started anew at the same steps share these processes, and take their steps together. In no other way does one
    order depend on another one.
    """

    place: ClassVar[Place]
    most: ClassVar[int] = 5 if os.environ.get("HUCKLEPORT_WHOLE") else 3

    @classmethod
    def setUpClass(cls) -> None:
        cls.place = cls.enterClassContext(Place(settings={"fsync": "off", "synchronous_commit": "off"}))

    def test_each_line_gets_its_own_reply(self) -> None:
        start, scenes = time.monotonic(), self.scenes()
        # (the time goes in waiting for the database, so some are played at once)
        shares = [sorted(scenes)[at::PROCESSES] for at in range(PROCESSES)]
        context = multiprocessing.get_context("fork")
        started = [context.Process(target=self.play_all, args=([scenes[it] for it in its],)) for its in shares]
        for it in started:
            it.start()
        for it in started:
            it.join()
        self.assertEqual([it.exitcode for it in started], [0] * PROCESSES)
        count = sum(map(len, scenes.values()))
        self.assertGreater(count, len(STEPS) ** (self.most - 1))
        told(f"{count:,} orders of {self.most} steps, {len(scenes)} times with new processes, in {time.monotonic() - start:.0f} s")

    def scenes(self) -> Dict[str, List[str]]:
        """Returns the orders by the steps at which which process is started anew."""
        found: Dict[str, List[str]] = {}
        for steps in itertools.product("abq", *[STEPS] * (self.most - 1)):
            if does_something(steps):
                found.setdefault("".join(it if it in RESTARTS else "-" for it in steps), []).append("".join(steps))
        return found

    def play_all(self, scenes: List[List[str]]) -> None:
        for it in scenes:
            self.play(it)

    def play(self, orders: List[str]) -> None:
        scene = Scene(self.place.conninfo, orders)
        try:
            for step in range(self.most):
                scene.step([(it, it[step]) for it in orders])
            scene.serve(orders)
            scene.take()
            scene.read()
            for it in orders:
                self.check(it, scene)
        finally:
            scene.close()

    def check(self, order: str, scene: Scene) -> None:
        """Checks that each accepted line is in the log once, under its number. Each reply is that of its line, and each other line was refused."""
        log = scene.logs[order]
        self.assertEqual([it[0] for it in log], list(range(1, len(log) + 1)), order)
        self.assertEqual([it[4] for it in log], [b'{"ok":%d}' % it for it in range(1, len(log) + 1)], order)
        sent = {(client, number): line for (name, client, number), line in scene.sent.items() if name == order}
        self.assertEqual({(it[1], it[2]): it[3] for it in log}, {key: it for key, it in sent.items() if changes([it])}, order)
        for client in scene.ids:
            mine = [it[2] for it in log if it[1] == client]
            self.assertEqual(mine, sorted(set(mine)), order)
        recorded = {(it[1], it[2]): it[4] for it in log}
        taken = {(client, number): it for (name, client, number), it in scene.taken.items() if name == order}
        self.assertEqual(taken, {key: recorded.get(key, EMPTY) for key in taken}, order)
        for client, restart in zip(scene.ids, "rt"):
            if restart not in order:
                self.assertEqual({it for it in sent if it[0] == client} - taken.keys(), set(), order)
        self.assertEqual(scene.refused[order], scene.due_refusals[order], order)


class Scene:
    """Documents, two clients of each, and the worker. A step at which a process is started anew is the same one for all documents."""

    def __init__(self, conninfo: str, orders: List[str]) -> None:
        self.conninfo, self.orders = conninfo, orders
        self.ids = [uuid.uuid4(), uuid.uuid4()]
        self.clients = [connect(conninfo, client=it, timeout=120) for it in self.ids]
        self.sent: Dict[Tuple[str, uuid.UUID, int], bytes] = {}
        self.refused = dict.fromkeys(orders, 0)
        self.due_refusals = dict.fromkeys(orders, 0)
        self.taken: Dict[Tuple[str, uuid.UUID, int], bytes] = {}
        self.made = 0
        self.ends = [os.pipe()]
        self.worker = self.new_worker()

    def new_worker(self) -> Tenure:
        return Tenure(self.conninfo, Bounds(lease=600.0), 0, self.ends[0][0])

    def step(self, steps: List[Tuple[str, str]]) -> None:
        kinds = {it for _, it in steps}
        if kinds & set(RESTARTS):
            assert len(kinds) == 1
            {"r": self.restart_a, "t": self.restart_b, "s": self.replace}[kinds.pop()]()
            return
        for name, it in steps:
            if it in "abqo":
                self.send(name, it)
        self.serve([name for name, it in steps if it == "w"])

    def send(self, name: str, kind: str) -> None:
        client = self.clients[kind == "b"]
        document = client.document(name)
        self.made += 1
        line = QUESTION if kind == "q" else b'["createText",0,"%d"]' % self.made
        if kind != "o":
            (number,) = document.post([line])
            self.sent[name, client.id, number] = line
        elif document._next > 1:
            self.send_other(name, document, line)

    def send_other(self, name: str, document: Any, line: bytes) -> None:
        """Sends another line under the last number, which is refused. (The replies are asked for by number at the end.)"""
        self.due_refusals[name] += 1
        waiting = dict(document._waiting)
        try:
            document.send([line], request=document._next - 1, timeout=0)
        except OtherLine:
            self.refused[name] += 1
        document._waiting.update(waiting)

    def restart_a(self) -> None:
        self.take(only=self.clients[0])
        self.restart(0)

    def restart_b(self) -> None:
        self.restart(1)

    def restart(self, at: int) -> None:
        """A client is another process now, which sends its last line of each document again if it has no reply."""
        self.clients[at].close()
        self.clients[at] = connect(self.conninfo, client=self.ids[at], timeout=120)
        last: Dict[str, int] = {}
        for name, client, number in self.sent:
            if client == self.ids[at]:
                last[name] = max(number, last.get(name, 0))
        for name, number in last.items():
            if (name, self.ids[at], number) not in self.taken:
                document = self.clients[at].document(name)
                document._next = number
                document.post([self.sent[name, self.ids[at], number]])

    def waiting(self, names: List[str]) -> List[int]:
        """Returns those of the documents for which lines wait."""
        words = "select distinct r.document from huckleport.requests r join huckleport.documents d on d.id = r.document where d.name = any (%s)"
        return [it for it, in self.worker.connection.execute(words, (names,))]

    def claim(self, documents: List[int]) -> None:
        for at in range(0, len(documents), CLAIM):
            self.worker._claim(documents[at : at + CLAIM])

    def serve(self, names: List[str]) -> None:
        """Has the worker answer the waiting lines of these documents."""
        while waiting := self.waiting(names):
            self.worker.due.update(dict.fromkeys(set(waiting) & self.worker.held.keys()))
            self.claim([it for it in waiting if it not in self.worker.held])
            while self.worker._replay():
                pass
            self.worker._serve()

    def replace(self) -> None:
        """The worker's process is lost after it has claimed all for which lines wait, and another one begins."""
        due = [it for it in self.waiting(self.orders) if it not in self.worker.held]
        self.claim(due)
        assert set(due) <= self.worker.held.keys()
        gone, self.worker = self.worker, self.new_worker()
        self.worker.connection.execute("update huckleport.workers set until = clock_timestamp() - interval '1 s' where id = %s", (gone.id,))
        gone.connection.close()
        gone.close()
        self.worker.connection.execute("update huckleport.documents set not_before = null, attempts = 0 where name = any (%s)", (self.orders,))

    def take(self, only: Optional[Client] = None) -> None:
        """Has the clients take the replies that are there."""
        for client in self.clients if only is None else [only]:
            for name, document in client._documents.items():
                document._read(time.monotonic() + 120)
                for number in list(document._answers):
                    self.taken[name, client.id, number] = document.reply(number)

    def read(self) -> None:
        """Reads the logs."""
        self.logs: Dict[str, List[Any]] = {it: [] for it in self.orders}
        words = """select d.name, l.number, l.client, l.request, l.line, l.reply from huckleport.lines l join huckleport.documents d on d.id = l.document
            where d.name = any (%s) order by l.document, l.number"""
        for name, *row in self.worker.connection.execute(words, (self.orders,), binary=True):
            self.logs[name].append(row)

    def close(self) -> None:
        for it in self.clients:
            it.close()
        self.worker.close()
        for it in self.ends[0]:
            os.close(it)
