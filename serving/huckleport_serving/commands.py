"""The commands: what an operator runs."""

from __future__ import annotations

import argparse
import json
import logging
import os
import signal
import socket
import subprocess
import sys
import uuid
from typing import Any, Callable, Dict, Iterator, List, Optional, Sequence, Tuple

import psycopg
from psycopg import sql

from . import __version__
from .client import Client, Entry
from .faults import faults_of, rows, told
from .links import WrongTables, connected, create_tables, escaped, log
from .refusals import NotAnswered, OtherLimits, Refused
from .trial import NoServer, Server
from .verifying import Verdict, adopt, replayed
from .worker import Bounds, Worker

MEGABYTE = 1 << 20


# ---- worker


def add_worker(parser: argparse.ArgumentParser) -> None:
    parser.add_argument("--documents", type=int, default=10_000, metavar="N", help="how many documents it has at most (10000)")
    parser.add_argument("--memory", type=int, default=2048, metavar="MB", help="how much memory it takes at most; growths past a quarter more are refused (2048)")
    parser.add_argument("--lines", type=int, default=4000, metavar="N", help="how many lines it answers before it records them (4000)")
    parser.add_argument("--processes", type=int, default=16, metavar="N", help="how many heavy documents have a process of their own at most (16)")
    parser.add_argument("--lease", type=float, default=10.0, metavar="SECONDS", help="how long the others wait before they replace it (10)")
    parser.add_argument("--idle", type=float, default=300.0, metavar="SECONDS", help="after how long without a line it lets a document go (300)")
    parser.add_argument("--no-adopt", action="store_true", help="leave documents of other versions alone, also if no worker has their version")


def worker(given: argparse.Namespace) -> int:
    if len(given.database) > 1:
        sys.exit("a worker serves one database: run one for each")
    bounds = Bounds(
        given.documents, given.memory * MEGABYTE, given.lines, processes=given.processes, lease=given.lease, idle=given.idle, adopts=not given.no_adopt
    )
    found = Worker(given.database[0], bounds)
    for it in (signal.SIGTERM, signal.SIGINT):
        signal.signal(it, lambda *_: found.stop())
    found.run()
    return 0


# ---- send and follow


def add_send(parser: argparse.ArgumentParser) -> None:
    parser.add_argument("name", help="the document; it is made where it is not there")
    parser.add_argument("--numbers", type=int, metavar="N", help="for a new document, how many numbers each kind of object has (4294967295)")
    parser.add_argument("--line", type=int, metavar="BYTES", help="for a new document, the longest line (1048576)")
    parser.add_argument("--client", type=uuid.UUID, metavar="UUID", help="who sends, for a program that may send again what it sent before")
    parser.add_argument("--request", type=int, metavar="N", help="the number of the first line among that client's; those that were answered are not done again")
    parser.add_argument("--timeout", type=float, default=60.0, metavar="SECONDS", help="how long a reply is waited for (60)")


def chunks(file: Any, longest: int, most: int = 1000) -> Iterator[List[bytes]]:
    """Yields the lines of a file as they arrive, at most `most` at once. A line past `longest` may be shortened, and stays longer than that."""
    parts: List[bytes] = []
    size = 0
    while read := os.read(file.fileno(), 1 << 16):
        *ended, rest = read.split(b"\n")
        if ended:
            found = [b"".join([*parts, ended[0]]), *ended[1:]]
            parts, size = [], 0
            for at in range(0, len(found), most):
                yield found[at : at + most]
        if rest and size <= longest:
            parts.append(rest)
            size += len(rest)
    if parts:
        yield [b"".join(parts)]


def send(given: argparse.Namespace) -> int:
    """Sends the lines of standard input, and writes the replies."""
    with Client(*given.database, client=given.client, timeout=given.timeout) as client:
        document, request = client.document(given.name, given.numbers, given.line), given.request
        for lines in chunks(sys.stdin.buffer, document.line):
            sys.stdout.buffer.writelines(it + b"\n" for it in document.send(lines, request))
            sys.stdout.buffer.flush()
            request = None if request is None else request + len(lines)
    return 0


def add_follow(parser: argparse.ArgumentParser) -> None:
    parser.add_argument("name", help="the document")
    parser.add_argument("--behind", type=int, default=0, metavar="N", help="the number behind which it begins (0)")
    parser.add_argument("--timeout", type=float, metavar="SECONDS", help="end once nothing has come for so long (never)")
    parser.add_argument("--lines", action="store_true", help="write the lines alone, as they were sent")


def shown(entry: Entry, is_bare: bool) -> bytes:
    if is_bare:
        return entry.line + b"\n"
    words = [str(entry.number), str(entry.client), str(entry.request)]
    return "\t".join(words).encode() + b"\t" + entry.line + b"\t" + entry.reply + b"\n"


def follow(given: argparse.Namespace) -> int:
    """Writes a document's lines as they come: number, client, request, line and reply, with tabs between."""
    with Client(*given.database) as client:
        for page in client.document(given.name).pages(given.behind, given.timeout):
            sys.stdout.buffer.writelines(shown(it, given.lines) for it in page)
            sys.stdout.buffer.flush()
    return 0


# ---- verify


def add_verify(parser: argparse.ArgumentParser) -> None:
    parser.add_argument("names", nargs="*", metavar="NAME", help="the documents (all)")
    parser.add_argument("--program", metavar="FILE", help="replay by this program (the library, in this process)")
    parser.add_argument("--adopt", action="store_true", help="hand those that replay to this version of the library, if another one answered them")


def verify(given: argparse.Namespace) -> int:
    """Replays documents and compares each reply byte for byte; the status is 1 where one differs, or is not there."""
    found = [it for conninfo in given.database for it in verified(conninfo, given)]
    missing = set(given.names) - {it.name for it in found}
    if missing:
        log.error("there is no document %s", ", ".join(map(escaped, sorted(missing))))
    return 1 if missing or any(it.wrong is not None for it in found) else 0


def verified(conninfo: str, given: argparse.Namespace) -> List[Verdict]:
    """What became of the documents of one database."""
    found = []
    with connected(conninfo, waits=False) as connection:
        names = [it for it, in connection.execute("select name from huckleport.documents order by name")]
        for name in names if not given.names else sorted(set(names) & set(given.names)):
            found.append(replayed(connection, name, given.program))
            print(found[-1], flush=True)
            if given.adopt and found[-1].wrong is None:
                adopt(connection, name)
    return found


# ---- compress


def add_compress(parser: argparse.ArgumentParser) -> None:
    parser.add_argument("names", nargs="*", metavar="NAME", help="the documents (all)")
    parser.add_argument("--keep", type=int, default=10_000, metavar="N", help="how many of the newest lines stay as they are (10000)")


def compress(given: argparse.Namespace) -> int:
    """Moves old lines of logs to compressed segments, and prints how many of each document."""
    found = set()
    for conninfo in given.database:
        with connected(conninfo) as connection:
            names = [it for it, in connection.execute("select name from huckleport.documents order by name")]
            for name in names if not given.names else sorted(set(names) & set(given.names)):
                found.add(name)
                count = compressed(connection, name, given.keep)
                if count:
                    print(f"{escaped(name)}: {count} lines moved", flush=True)
    missing = set(given.names) - found
    if missing:
        log.error("there is no document %s", ", ".join(map(escaped, sorted(missing))))
    return 1 if missing else 0


def compressed(connection: psycopg.Connection[Any], name: str, keep: int) -> int:
    """Moves all of a document's lines that are due, a few at a time, and returns how many they were."""
    count = 0
    while True:
        (moved,) = connection.execute("select huckleport.compress(%s, %s)", (name, keep)).fetchone() or (0,)
        if not moved:
            return count
        count += moved


# ---- drop, grant and limits


def add_drop(parser: argparse.ArgumentParser) -> None:
    parser.add_argument("name", help="the document")
    parser.add_argument("line", type=int, metavar="LINE", help="the waiting line, by its number as `status NAME` shows it")


def on_one(databases: List[str], query: str, *parameters: Any) -> List[Any]:
    """Executes a statement in each database, and returns the first columns of their rows."""
    found = []
    for conninfo in databases:
        with connected(conninfo) as connection:
            found += [row[0] for row in connection.execute(query, parameters)]
    return found


def drop(given: argparse.Namespace) -> int:
    """Answers a waiting line with `dropped`, and does not do it."""
    if any(on_one(given.database, "select huckleport.drop_line(%s, %s)", given.name, given.line)):
        return 0
    log.error("no line %d waits for a document %s", given.line, escaped(given.name))
    return 1


def add_grant(parser: argparse.ArgumentParser) -> None:
    parser.add_argument("name", metavar="DOCUMENT", help="the document")
    parser.add_argument("role", metavar="CLIENT", help="the role of the database, which is a member of huckleport_client")
    parser.add_argument("--revoke", action="store_true", help="take the right away")


def grant(given: argparse.Namespace) -> int:
    """Lets a role use a document, or no longer."""
    places = [it for it in given.database if on_one([it], "select true from huckleport.documents where name = %s", given.name)]
    if not places:
        log.error("there is no document %s", escaped(given.name))
        return 1
    words = "revoke_document" if given.revoke else "grant_document"
    on_one(places, f"select huckleport.{words}(%s, %s)", given.name, given.role)
    return 0


LIMITS = ("memory", "seconds", "document_lines", "document_bytes", "client_lines", "client_bytes", "connections")


def add_limits(parser: argparse.ArgumentParser) -> None:
    parser.add_argument("values", nargs="*", metavar="NAME=VALUE", help=f"a new value of {', '.join(LIMITS)}")


def limits(given: argparse.Namespace) -> int:
    """Prints the limits of a database's documents and clients, or sets some of them."""
    values = dict(it.partition("=")[::2] for it in given.values)
    for conninfo in given.database:
        with connected(conninfo) as connection:
            for name, value in values.items():
                if name not in LIMITS:
                    sys.exit(f"no limit is called {name}")
                connection.execute(sql.SQL("update huckleport.settings set {} = %s").format(sql.Identifier(name)), (value,))
            print(", ".join(f"{name} {it}" for name, it in rows(connection, f"select {', '.join(LIMITS)} from huckleport.settings")[0].items()))
    return 0


# ---- status


def add_status(parser: argparse.ArgumentParser) -> None:
    parser.add_argument("name", nargs="?", help="one document (the database)")
    parser.add_argument("--json", action="store_true", help="print it as JSON")
    parser.add_argument("--still", type=float, default=30.0, metavar="SECONDS", help="a line that waits for longer than this is a fault (30)")


def status(given: argparse.Namespace) -> int:
    """Prints the workers and documents of a database, and how many lines wait; or one document. The status is 1 if there is a fault."""
    found = [row for conninfo in given.database for row in told(conninfo, given.name)]
    if given.json:
        print(json.dumps(found))
    else:
        print("\n".join(line for it in found for line in shown_rows(it)))
    if not found:
        log.error("there is no document %s", escaped(given.name))
    faults = [fault for it in found for fault in faults_of(it, given.still)]
    for fault in faults:
        log.error("%s", fault)
    return 1 if faults or not found else 0


def shown_rows(found: Dict[str, Any]) -> Iterator[str]:
    words = ((name.replace("_", " "), "none" if it is None else it) for name, it in found.items() if not isinstance(it, list))
    yield ", ".join(f"{name} {escaped(str(it))}" for name, it in words)
    for it in found.get("workers", []):
        lease = f"lease {it['lease']:.1f} s" if it["is_running"] else "GONE"
        yield f"  worker {it['id']} ({escaped(it['name'])}), version {it['version']}, {lease}, {it['documents']} documents, {it['lines']} lines, {it['memory'] // MEGABYTE} MB"
    for it in found.get("first_lines", []):
        yield f"  line {it['line']} waits: {it['bytes']} bytes of client {it['client']}, request {it['request']}, for {it['age']:.1f} s"


def health(given: argparse.Namespace) -> int:
    """Returns 0 if a worker of this machine has a lease that is running."""
    words = "select exists (select from huckleport.workers w where w.name like %s and huckleport.is_running(w.until, w.lease))"
    return 0 if any(on_one(given.database, words, f"{socket.gethostname()} %")) else 1


def add_monitor(parser: argparse.ArgumentParser) -> None:
    parser.add_argument("--listen", default="127.0.0.1:9187", metavar="HOST:PORT", help="where it listens (127.0.0.1:9187)")
    parser.add_argument("--still", type=float, default=30.0, metavar="SECONDS", help="a line that waits for longer than this is a fault (30)")


def monitor(given: argparse.Namespace) -> int:
    """Serves /metrics for Prometheus, and /healthz."""
    from .monitor import serve

    host, _, port = given.listen.rpartition(":")
    serve(given.database, host, int(port), given.still)
    return 0


# ---- create, spread and try


def create(given: argparse.Namespace) -> int:
    """Makes the tables in each database, and tells each how many there are, from the first on."""
    made = [create_tables(it) for it in given.database]
    for it in given.database:
        tell_count(it, len(given.database))
    print(f"{len(given.database)} of {len(given.database)} have tables, {sum(made)} of them new")
    return 0


def tell_count(conninfo: str, count: int) -> None:
    with connected(conninfo) as connection:
        (before,) = connection.execute("select databases from huckleport.settings").fetchone() or (0,)
        if before > count:
            sys.exit(f"there are {before} databases already, and {count} are named: name all, in the order in which they came")
        connection.execute("update huckleport.settings set databases = %s where databases <> %s", (count, count))


def add_try(parser: argparse.ArgumentParser) -> None:
    parser.add_argument("folder", help="where the database is, or is made")
    parser.add_argument("--workers", type=int, default=2, metavar="N", help="how many workers are started (2)")


def attempt(given: argparse.Namespace) -> int:
    """Starts a database in a folder, and workers, until it is interrupted."""
    server = Server(os.path.abspath(given.folder))
    server.make()
    server.start()
    workers: List[subprocess.Popen[bytes]] = []
    # (SIGINT as well, which a shell has what it starts in the background ignore)
    for it in (signal.SIGTERM, signal.SIGINT):
        signal.signal(it, signal.default_int_handler)
    try:
        create_tables(server.conninfo)
        words = [sys.executable, *started_as(), "--database", server.conninfo, "worker"]
        workers += [subprocess.Popen(words, start_new_session=True) for _ in range(given.workers)]
        print(f"--database '{server.conninfo}'", flush=True)
        signal.pause()
    except KeyboardInterrupt:
        pass
    finally:
        end(workers)
        server.stop()
    return 0


def end(workers: List[subprocess.Popen[bytes]]) -> None:
    """Tells all to stop, and waits until they have."""
    for it in workers:
        it.terminate()
    for it in workers:
        it.wait()


def started_as() -> List[str]:
    """Returns the words that started this Python as these commands."""
    return ["-m", __package__] if sys.argv[0].endswith("__main__.py") else [sys.argv[0]]


PARTS: Dict[str, Tuple[Callable[[argparse.Namespace], int], Callable[[argparse.ArgumentParser], None], str]] = {
    "create": (create, lambda parser: None, "make or upgrade the tables in a database, or in each of a list"),
    "worker": (worker, add_worker, "serve a database's documents until it is stopped"),
    "send": (send, add_send, "send the lines of standard input to a document, and write the replies"),
    "follow": (follow, add_follow, "write a document's lines and replies as they come"),
    "verify": (verify, add_verify, "replay documents, and compare each reply byte for byte"),
    "status": (status, add_status, "print the workers and documents of a database, or one document; 1 if there is a fault"),
    "compress": (compress, add_compress, "move old lines of logs to compressed segments, which are read as before"),
    "drop": (drop, add_drop, "answer a waiting line by `dropped`, without doing it"),
    "grant": (grant, add_grant, "let a role of the database use a document"),
    "limits": (limits, add_limits, "print or set the limits of documents and clients"),
    "monitor": (monitor, add_monitor, "serve metrics for Prometheus, and /healthz"),
    "health": (health, lambda parser: None, "0 if a worker of this machine runs, for containers"),
    "try": (attempt, add_try, "start a database in a folder, and workers, for a try"),
}


def parser() -> argparse.ArgumentParser:
    found = argparse.ArgumentParser(prog="huckleport-serving", description="Documents that outlive a process and a machine, over PostgreSQL.")
    found.add_argument("--version", action="version", version=f"%(prog)s {__version__}")
    words = "libpq's words for a connection, as 'host=db1,db2 dbname=letters'; once for each of a list of databases (what PGHOST and the like say)"
    found.add_argument("--database", action="append", metavar="WORDS", help=words)
    found.add_argument("--log", default="info", choices=("debug", "info", "warning"), help="the least level of messages on standard error (info)")
    found.add_argument("--log-format", default="text", choices=("text", "json"), help="a line of text, or an object of JSON, for each message (text)")
    parts = found.add_subparsers(dest="part", metavar="COMMAND", required=True)
    for name, (_, add, about) in PARTS.items():
        add(parts.add_parser(name, help=about, description=about[0].upper() + about[1:] + "."))
    return found


class JsonLines(logging.Formatter):
    """Formats a message as an object on one line."""

    def format(self, record: logging.LogRecord) -> str:
        found = {"time": self.formatTime(record), "level": record.levelname, "process": record.process, "message": record.getMessage()}
        return json.dumps(found, ensure_ascii=True)


def begin_log(level: str, form: str) -> None:
    """Sends messages to standard error."""
    logging.raiseExceptions = False
    handler = logging.StreamHandler()
    handler.setFormatter(JsonLines() if form == "json" else logging.Formatter("%(asctime)s %(levelname)s %(message)s"))
    logging.basicConfig(level=level.upper(), handlers=[handler])


def main(words: Optional[Sequence[str]] = None) -> int:
    given = parser().parse_args(words)
    given.database = given.database or [os.environ.get("HUCKLEPORT_DATABASE", "")]
    begin_log(given.log, given.log_format)
    try:
        return PARTS[given.part][0](given)
    except (NotAnswered, OtherLimits, Refused, WrongTables, NoServer, psycopg.Error) as fault:
        log.error("%s", str(fault).strip())
        return 3
    except BrokenPipeError:
        return 3
    except KeyboardInterrupt:
        return 130
