"""A document whose lines take too much memory or time: its own lines are refused by name, and no other document waits for it."""

from __future__ import annotations

import json
import logging
import os
import subprocess
import sys
import threading
import time
import unittest
from typing import List

from lines import lines
from place import PROGRAM, Place, told
from test_documents import Served

from huckleport_serving import connect
from huckleport_serving.links import log

MADE = [b'["createElement",0,"p"]', b'["appendChild",0,1]']
REFUSED = {b'{"error":"out-of-memory"}', b'{"error":"out-of-time"}'}

# Whether the long forms run, by hand and alone.
WHOLE = bool(os.environ.get("HUCKLEPORT_WHOLE"))
QUIET = 0.1
"""A machine is quiet if a line that is sent alone is answered within this many seconds. Otherwise everybody waits for other work."""


def doubling(times: int) -> List[bytes]:
    """Lines that double a tree each time: its copy becomes a child of its root. Each copy has as many nodes as there were below the root."""
    found, numbers, nodes = list(MADE), 2, 1
    for _ in range(times):
        found += [b'["cloneNode",1,true]', b'["appendChild",1,%d]' % numbers]
        numbers, nodes = numbers + nodes, 2 * nodes
    return found


class Apart(Served):
    others = 200 if WHOLE else 20

    def tearDown(self) -> None:
        self.place.stop_workers()
        self.connection.execute("update huckleport.settings set memory = default, seconds = default")

    def limited(self, **limits: float) -> None:
        for name, it in limits.items():
            self.connection.execute(f"update huckleport.settings set {name} = %s", (it,))

    def test_one_that_takes_all_memory(self) -> None:
        """One worker for all. The others are answered meanwhile, and the worker goes on under the lease with which it began."""
        self.limited(memory=48 << 20)
        self.place.work(1, "--lease", "20")
        poison = self.client.document("poison")
        poison.ask(MADE[0])
        before = self.row("select id, started from huckleport.workers")
        waits: List[float] = []
        alone, ended = threading.Event(), threading.Event()
        asking = threading.Thread(target=self.ask_others, args=(waits, alone, ended))
        asking.start()
        try:
            alone.wait()
            count = len(waits)
            replies = poison.send(doubling(23)[1:], timeout=300)
        finally:
            ended.set()
            asking.join()
        self.assertIn(b'{"error":"out-of-memory"}', replies)
        quiet, found = max(waits[self.others : count]), waits[count:]
        told(f"{len(found)} lines of {self.others} other documents meanwhile; the longest wait was {max(found):.2f} s, the median {sorted(found)[len(found) // 2]:.3f} s")
        told(f"before, while nobody else sent, the longest wait was {quiet:.2f} s")
        self.assertGreater(len(found), self.others)
        # (in the gate other tests run beside this one, so there the bound is wide)
        self.assertLess(max(found), 1.0 if WHOLE and quiet < QUIET else 10.0)
        self.assertEqual(self.row("select id, started from huckleport.workers"), before)
        self.goes_on(poison, replies)

    def ask_others(self, waits: List[float], alone: threading.Event, ended: threading.Event) -> None:
        """Asks the other documents by turns: twice alone, and at least once beside the one that takes all memory."""
        with connect(self.place.conninfo, timeout=300) as client:
            documents = [client.document(f"other {it}") for it in range(self.others)]
            while not ended.is_set() or len(waits) <= 3 * self.others + 1:
                if len(waits) == 2 * self.others:
                    alone.set()
                document = documents[len(waits) % self.others]
                start = time.monotonic()
                document.ask(MADE[0])
                waits.append(time.monotonic() - start)

    def goes_on(self, document, replies: List[bytes]) -> None:
        """The document is as if the refused lines had not been sent, also for the program."""
        entries = list(document.follow(timeout=0.2))
        self.assertEqual([it.reply for it in entries[1:]], replies)
        kept = [it for it in entries if it.reply not in REFUSED]
        ran = subprocess.run([PROGRAM], input=b"".join(it.line + b"\n" for it in kept), stdout=subprocess.PIPE, check=True)
        self.assertEqual(ran.stdout.split(b"\n")[:-1], [it.reply for it in kept])
        self.assertEqual(document.ask(b'["root",0]', timeout=120), b'{"ok":0}')
        ran = self.place.command("verify", document.name, stdout=subprocess.PIPE)
        self.assertIn(b"each reply the same", ran.communicate()[0])

    def test_a_line_that_takes_too_long(self) -> None:
        self.limited(seconds=0.03)
        self.place.work(1)
        document = self.client.document("slow")
        replies = document.send(doubling(20), timeout=300)
        self.assertTrue(b'{"error":"out-of-time"}' in replies, replies[-1][:100])
        self.assertEqual(document.ask(b'["root",0]', timeout=120), b'{"ok":0}')

    def test_a_first_line_whose_reply_is_too_long(self) -> None:
        """A worker that has just replayed a document gets a question with a reply of 130 MB, and no line before it. A process of the document's own
        refuses it, and has the whole document then.
        """
        self.place.work(1)
        document = self.client.document("long reply")
        given, number = [MADE[0], b'["createText",0,"' + 170_000 * b"\\u0001" + b'"]', b'["appendChild",1,2]'], 3
        for _ in range(7):
            given += [b'["cloneNode",1,true]', b'["appendChild",1,%d]' % number]
            number = 2 * number - 1
        self.assertEqual(document.send(given, timeout=300)[-1], b'{"ok":%d}' % (number // 2 + 1))
        self.place.stop_workers()
        self.place.work(1)
        self.assertEqual(document.ask(b'["textContent",1]', timeout=300), b'{"error":"out-of-memory"}')
        self.assertEqual(document.ask(MADE[0], timeout=300), b'{"ok":%d}' % number)

    def test_an_operator_drops_a_line(self) -> None:
        document = self.client.document("dropped from")
        requests = document.post([MADE[0], MADE[1], b'["createText",0,"t"]'])
        ran = self.place.command("status", "dropped from", "--json", stdout=subprocess.PIPE)
        (found,) = json.loads(ran.communicate()[0])
        self.assertEqual([it["request"] for it in found["first_lines"]], [1, 2, 3])
        line = str(found["first_lines"][0]["line"])
        self.assertEqual([self.place.command("drop", "dropped from", line).wait() for _ in range(2)], [0, 1])
        self.assertEqual(document.reply(requests[0]), b'{"error":"dropped"}')
        self.place.work(1)
        self.assertEqual([document.reply(it) for it in requests[1:]], [b'{"error":"no-such-object"}', b'{"ok":1}'])
        self.assertEqual([it.reply for it in document.follow(timeout=0.1)], [b'{"error":"dropped"}', b'{"error":"no-such-object"}', b'{"ok":1}'])

    def children(self) -> List[int]:
        """Returns the processes of the worker that have not ended."""
        (worker,) = self.place.workers
        found = subprocess.run(["ps", "--ppid", str(worker.pid), "-o", "pid=,stat="], stdout=subprocess.PIPE, check=False).stdout.decode()
        return [int(it.split()[0]) for it in found.splitlines() if it.split()[1][0] != "Z"]

    def test_more_heavy_documents_than_processes(self) -> None:
        """One process is for three documents. One of them has lines without an end, and the others get their turns."""
        self.place.work(1, "--processes", "1")
        for at in range(3):
            self.client.document(f"heavy {at}").send(doubling(19), timeout=300)
            self.assertTrue(self.children())
        ended = threading.Event()
        sending = threading.Thread(target=self.send_until, args=("heavy 0", ended))
        sending.start()
        try:
            for _ in range(2):
                for at in (1, 2):
                    self.assertEqual(self.client.document(f"heavy {at}").ask(b'["length",0]', timeout=120), b'{"ok":1}')
            # (one that was killed is there until its memory is given back)
            until = time.monotonic() + 60
            while len(self.children()) > 1:
                self.assertLess(time.monotonic(), until)
                time.sleep(0.05)
        finally:
            ended.set()
            sending.join()

    def send_until(self, name: str, ended: threading.Event) -> None:
        with connect(self.place.conninfo, timeout=300) as client:
            document = client.document(name)
            posted = [document.post([b'["length",0]'] * 500)]
            while not ended.is_set():
                posted.append(document.post([b'["length",0]'] * 500))
                for it in posted.pop(0):
                    document.reply(it)

    def test_its_process_may_be_killed(self) -> None:
        """A heavy document's process that is killed is replaced, and its lines are answered."""
        self.place.work(1)
        document = self.client.document("heavy")
        document.send(doubling(19), timeout=300)
        (child,) = self.children()
        os.kill(child, 9)
        given = [it for it in lines("heavy", 30) if b"createRange" in it or b"Attribute" in it]
        self.assertEqual(len(document.send(given, timeout=300)), len(given))
        self.assertEqual(document.ask(b'["length",0]', timeout=120), b'{"ok":1}')


REFUSED_MEMORY = """
import resource
from huckleport_serving.worlds import Unanswered, World

world, limits, replies = World(2**32 - 1, 2**20), resource.getrlimit(resource.RLIMIT_AS), []
line = b'["createText",0,"' + b"x" * 900000 + b'"]'
with open("/proc/self/statm") as it:
    room = int(it.read().split()[0]) * resource.getpagesize()
resource.setrlimit(resource.RLIMIT_AS, (room + (24 << 20), limits[1]))
refused = 0
while refused < 3:
    try:
        replies.append(world.answer(line))
    except Unanswered:
        refused += 1
resource.setrlimit(resource.RLIMIT_AS, limits)
replies.append(world.answer(line))
print(len(replies) > 2, replies == [b'{"ok":%d}' % number for number in range(1, len(replies) + 1)])
"""


class Worlds(unittest.TestCase):
    def test_a_line_that_is_refused_memory_has_no_reply(self) -> None:
        """A worker does not take the reply of the line before for that of a refused line, which changed nothing."""
        ran = subprocess.run([sys.executable, "-c", REFUSED_MEMORY], env=Place.environment(), stdout=subprocess.PIPE, check=True)
        self.assertEqual(ran.stdout, b"True True\n")


class Messages(unittest.TestCase):
    def test_a_message_never_raises(self) -> None:
        class Short(logging.Handler):
            def emit(self, record: logging.LogRecord) -> None:
                raise MemoryError

        handler = Short()
        log.addHandler(handler)
        try:
            log.warning("begins anew: %s", "out of memory")
            log.warning("%d", "no number")
        finally:
            log.removeHandler(handler)
