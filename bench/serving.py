#!/usr/bin/env python3
"""Measures served documents on this machine, with a PostgreSQL of its own in /tmp: lines a second, take-over by length of log, memory of a worker,
processor time of the database.

Everything runs on this machine: the database, its standby where there is one, workers and clients.
"""
import argparse
import multiprocessing
import os
import subprocess
import sys
import time
import uuid

sys.dont_write_bytecode = True
sys.path.insert(0, os.path.join(os.path.dirname(os.path.dirname(os.path.abspath(__file__))), "serving/tests"))
from lines import changes, lines
from place import PROGRAM, Place

from huckleport_serving import connect
from huckleport_serving.links import connected

LEASE = 3.0
# How many documents, clients, lines to each document, and lines of each document on the way.
SPEEDS = [(1, 1, 40_000, 2_000), (100, 8, 2_000, 100), (10_000, 8, 20, 10)]
LENGTHS = (1_000, 10_000, 100_000, 1_000_000)


# ---- lines a second


def sends(conninfo, names, count, chunk, barrier, out):
    """Sends as many lines as the count to each of some documents, in turn, with a chunk of each on the way."""
    with connect(conninfo, timeout=300) as client:
        documents = [client.document(it) for it in names]
        given = {it: lines(number % 50, count) for number, it in enumerate(documents)}
        barrier.wait()
        start = time.time()
        for at in range(0, count, chunk):
            one_round(given, at, chunk)
        out.put((start, time.time()))


def one_round(given, at, chunk):
    posted = [(it, it.post(its[at : at + chunk])) for it, its in given.items()]
    for document, requests in posted:
        for it in requests:
            document.reply(it)


def speed(place, documents, clients, count, chunk):
    """Lines a second, from the first that is sent to the last that is answered."""
    names = [f"{documents} documents: {it}" for it in range(documents)]
    barrier, out = multiprocessing.Barrier(clients), multiprocessing.Queue()
    started = [multiprocessing.Process(target=sends, args=(place.conninfo, names[it::clients], count, chunk, barrier, out)) for it in range(clients)]
    for it in started:
        it.start()
    times = [out.get() for _ in started]
    seconds = max(end for _, end in times) - min(start for start, _ in times)
    total = documents * count
    print(f"{documents:,} documents, {clients} clients, {chunk} lines of each on the way: {total:,} lines, {total / seconds:,.0f} a second", flush=True)


def speeds(given):
    with Place(with_standby=given.standby) as place:
        print(f"-- {given.workers} workers, commits {'on the standby' if given.standby else 'on disk'}")
        place.work(given.workers)
        for it in given.speed or SPEEDS:
            speed(place, *it)
        alone(place)


def alone(place):
    """How long one line takes from its client and back, where nothing else is asked."""
    with connect(place.conninfo) as client:
        document = client.document("alone")
        times = sorted(timed(lambda: document.ask(b'["root",0]')) for _ in range(200))
    print(f"one line at a time: {1000 * times[100]:.1f} ms, and 95 of 100 within {1000 * times[190]:.1f} ms", flush=True)


def timed(call):
    start = time.perf_counter()
    call()
    return time.perf_counter() - start


# ---- take-over


def write_log(place, name, count):
    """Makes a document, with as many lines that change it as the count, as a worker would have recorded them."""
    given = changes(lines("a long log", count * 3 // 2))[:count]
    ran = subprocess.run([PROGRAM], input=b"".join(it + b"\n" for it in given), stdout=subprocess.PIPE, check=True)
    with connect(place.conninfo) as client, connected(place.conninfo) as connection:
        document = client.document(name).id
        words = "copy huckleport.lines (document, number, client, request, line, reply) from stdin with (format binary)"
        with connection.cursor() as cursor, cursor.copy(words) as copy:
            copy.set_types(["int8", "int8", "uuid", "int8", "bytea", "bytea"])
            for number, (line, reply) in enumerate(zip(given, ran.stdout.split(b"\n")), 1):
                copy.write_row((document, number, client.id, number, line, reply))


def take_over(place, count):
    """Kills the worker that has a document, and prints how long after the end of its lease the next line is answered."""
    name = f"{count} lines"
    write_log(place, name, count)
    first = place.work(1, "--lease", str(LEASE))[0]
    with connect(place.conninfo, timeout=300) as client, connected(place.conninfo) as connection:
        document = client.document(name)
        alone = timed(lambda: document.ask(b'["root",0]'))
        place.work(1, "--lease", str(LEASE))
        time.sleep(2)
        first.kill()
        (end,) = connection.execute("select extract(epoch from w.until)::float from huckleport.workers w join huckleport.documents d on d.owner = w.id where d.id = %s", (document.id,)).fetchone()
        document.ask(b'["root",0]')
        print(f"{count:,} lines: answered {time.time() - end:.2f} s after the lease's end; claimed at first within {alone:.2f} s", flush=True)
    place.stop_workers()


def take_overs(given):
    with Place() as place:
        print("-- take-over by length of log")
        for it in given.length or LENGTHS:
            take_over(place, it)


# ---- memory


def resident(process):
    with open(f"/proc/{process.pid}/statm", encoding="ascii") as file:
        return int(file.read().split()[1]) * os.sysconf("SC_PAGE_SIZE") / 2**20


def memories(_):
    with Place() as place:
        print("-- memory of one worker (resident)")
        worker = place.work(1, "--documents", "20000", "--idle", "3600")[0]
        with connect(place.conninfo) as client:
            client.document("first").ask(b"x")
        bare = resident(worker)
        print(f"one document: {bare:.0f} MB")
        speed(place, 10_000, 4, 20, 20)
        time.sleep(2)
        print(f"10,000 idle documents of 20 lines: {resident(worker):.0f} MB", flush=True)
        place.stop_workers()
        worker = place.work(1)[0]
        speed(place, 1_000, 4, 300, 50)
        print(f"1,000 busy documents of 300 lines, 50 of each on the way: {resident(worker):.0f} MB", flush=True)


# ---- processor time of the database


def used(process):
    """The seconds of processor time that a process has had."""
    with open(f"/proc/{process}/schedstat", encoding="ascii") as file:
        return int(file.read().split()[0]) / 1e9


class Calls:
    """The calls of clients and a worker for one document at a time, and the processor time that each took of the database for a line."""

    def __init__(self, connection):
        self.connection, self.times = connection, {}
        (self.process,) = connection.execute("select pg_backend_pid()").fetchone()
        (self.worker,) = connection.execute("select huckleport.register('bench', 'bench', interval '1 hour')").fetchone()

    def timed(self, name, count, words, *parameters):
        before = used(self.process)
        found = self.connection.execute(words, parameters, binary=True).fetchall()
        self.times.setdefault(name, []).append((used(self.process) - before) / count * 1e6)
        return found

    def round(self, document, client, chunk, given):
        """Lines of a document, from the client and back."""
        count = len(given)
        for at in range(0, count, chunk):
            words = "select huckleport.submit(%b, %b, %b, %b::bytea[])"
            self.timed(f"taking it in from the client, {chunk} lines at once", chunk, words, document, client, at + 1, given[at : at + chunk])
        self.connection.execute("select from huckleport.claim(%s, 'bench', 64, array[%s::bigint], '{}')", (self.worker, document))
        (epoch,) = self.connection.execute("select epoch from huckleport.documents where id = %s", (document,)).fetchone()
        words = "select ids from huckleport.take(array[%s::bigint], 4000, 16000000, '{}', '{}')"
        ((ids,),) = self.timed("handing it to the worker", count, words, document)
        words = "select from huckleport.record(%s, array[%s::bigint], array[%s::bigint], '{}', %s::bigint[], %s::bigint[], %s::bigint[], %s::bytea[])"
        numbers = list(range(1, count + 1))
        self.timed("recording it with its reply", count, words, self.worker, document, epoch, [document] * count, ids, numbers, [b'{"ok":1}'] * count)
        self.timed("handing the reply to the client", count, "select reply from huckleport.replies(%s, %s, 0)", document, client)


def statements(_):
    with Place(settings={"fsync": "off"}) as place, connected(place.conninfo) as connection:
        print("-- processor time of the database, microseconds a line (the least, and the median)")
        calls = Calls(connection)
        for number in range(30):
            (document,) = connection.execute("select huckleport.make(%s)", (f"document {number}",)).fetchone()
            calls.round(document, uuid.uuid4(), (10, 100, 1000)[number % 3], lines(number, 1000))
        for name, times in sorted(calls.times.items()):
            print(f"{name}: {min(times):.1f}, {sorted(times)[len(times) // 2]:.1f}", flush=True)


PARTS = {"speed": speeds, "take-over": take_overs, "memory": memories, "statements": statements}


def main():
    parser = argparse.ArgumentParser(description=__doc__, formatter_class=argparse.RawDescriptionHelpFormatter)
    parser.add_argument("parts", nargs="*", metavar="PART", help=f"the parts to measure, of {', '.join(PARTS)} (all)")
    parser.add_argument("--standby", action="store_true", help="for speed, with a synchronous standby on this machine")
    parser.add_argument("--workers", type=int, default=4, metavar="N", help="how many workers (4)")
    parser.add_argument("--speed", action="append", nargs=4, type=int, metavar=("DOCUMENTS", "CLIENTS", "LINES", "CHUNK"), help="another scene")
    parser.add_argument("--length", action="append", type=int, metavar="LINES", help="another length of a log")
    given = parser.parse_args()
    for it in given.parts or PARTS:
        if it not in PARTS:
            parser.error(f"there is no part {it}: the parts are {', '.join(PARTS)}")
        PARTS[it](given)


if __name__ == "__main__":
    main()
