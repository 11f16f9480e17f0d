"""Servers, workers and clients of their own, for tests and figures."""

from __future__ import annotations

import atexit
import functools
import os
import shutil
import signal
import subprocess
import sys
import tempfile
from dataclasses import dataclass, field
from typing import Any, Dict, List, Optional, Tuple

HERE = os.path.dirname(os.path.dirname(os.path.abspath(__file__)))
ROOT = os.path.dirname(HERE)
PROGRAM = os.environ.get("HUCKLEPORT_PROGRAM") or os.path.join(ROOT, "crates/domserve/out/domserve")
sys.path[:0] = [HERE, os.path.join(ROOT, "bindings/python")]

from huckleport_serving.links import create_tables
from huckleport_serving.trial import SYNCHRONOUS, Server

# The settings of a server whose data need not outlive the test's machine. Commits wait as by default.
SMALL = {"max_connections": "200", "shared_buffers": "256MB"}


def replies_of(given: List[bytes], *words: str) -> List[bytes]:
    """Returns the replies of one process of the program to lines."""
    ran = subprocess.run([PROGRAM, *words], input=b"".join(it + b"\n" for it in given), stdout=subprocess.PIPE, check=True)
    return ran.stdout.split(b"\n")[:-1]


def told(text: str) -> None:
    """Prints a test's measurement."""
    print(f"   {text}", flush=True)


class Idle:
    """Measures how idle this machine's processors are meanwhile. A bound of seconds holds on a quiet machine, and other tests may run beside."""

    def __init__(self) -> None:
        self._before = self._read()

    @staticmethod
    def _read() -> Tuple[int, int]:
        with open("/proc/stat", encoding="ascii") as file:
            found = [int(it) for it in file.readline().split()[1:9]]
        return found[3] + found[4], sum(found)

    def is_quiet(self, busy: int) -> bool:
        """Returns whether all processors but `busy` were idle, nearly always."""
        idle, total = (now - then for now, then in zip(self._read(), self._before))
        count = os.cpu_count() or 1
        return count > busy and idle > 0.8 * total * (count - busy) / count


@functools.lru_cache(maxsize=None)
def made() -> str:
    """Returns a folder with a server's data, for copies: to make them takes longer."""
    folder = tempfile.mkdtemp(prefix="hp-", dir="/tmp")
    atexit.register(shutil.rmtree, folder)
    os.chmod(folder, 0o755)
    server = Server(os.path.join(folder, "made"))
    server.make()
    return server.data


def copy_made(server: Server) -> None:
    server.make_folder()
    subprocess.run(["cp", "-a", made(), server.data], check=True)


@dataclass
class Place:
    """A folder with a database, a standby if one is wanted, and the workers of both."""

    with_standby: bool = False
    settings: Dict[str, str] = field(default_factory=dict)
    workers: List[subprocess.Popen[bytes]] = field(default_factory=list)
    others: List[subprocess.Popen[bytes]] = field(default_factory=list)

    def __enter__(self) -> Place:
        self.folder = tempfile.mkdtemp(prefix="hp-", dir="/tmp")
        os.chmod(self.folder, 0o755)
        self.primary = Server(os.path.join(self.folder, "a"), {**SMALL, **self.settings})
        self.standby: Optional[Server] = None
        try:
            self._start()
        except BaseException:
            self.__exit__()
            raise
        return self

    def _start(self) -> None:
        copy_made(self.primary)
        self.primary.start()
        create_tables(self.primary.conninfo)
        if self.with_standby:
            self.standby = Server(os.path.join(self.folder, "b"), {**SMALL, **self.settings})
            self.standby.make_standby_of(self.primary)
            self.standby.start()
            self.primary.stop()
            self.primary.settings.update(SYNCHRONOUS)
            self.primary.start()

    @property
    def conninfo(self) -> str:
        """Where the database is: at the primary, or at the standby once that was promoted."""
        folders = [it.folder for it in (self.primary, self.standby) if it]
        ports = ",".join([self.primary.settings.get("port", "5432"), "5432"][: len(folders)])
        # (a busy machine takes long to start a connection's process)
        return f"host={','.join(folders)} port={ports} dbname=postgres user=postgres connect_timeout=60"

    @staticmethod
    def environment() -> Dict[str, str]:
        paths = [it for it in (os.environ.get("SERVING_FIRST"), HERE, os.path.join(ROOT, "bindings/python"), os.environ.get("PYTHONPATH")) if it]
        return {**os.environ, "PYTHONPATH": os.pathsep.join(paths)}

    def command(self, *words: str, **how: Any) -> subprocess.Popen[bytes]:
        """Starts a command."""
        return self.command_of(["--database", self.conninfo], *words, **how)

    def command_of(self, databases: List[str], *words: str, **how: Any) -> subprocess.Popen[bytes]:
        given = [sys.executable, "-m", "huckleport_serving", "--log", "warning", *databases, *words]
        return subprocess.Popen(given, env=self.environment(), **how)

    def work(self, count: int = 1, *words: str) -> List[subprocess.Popen[bytes]]:
        """Starts workers."""
        found = [self.command("worker", *words) for _ in range(count)]
        self.workers += found
        return found

    def stop_workers(self) -> None:
        for it in self.workers:
            if it.poll() is None:
                it.send_signal(signal.SIGCONT)
                it.terminate()
        for it in self.workers:
            it.wait()
        self.workers.clear()

    def __exit__(self, *_: object) -> None:
        for it in self.others:
            it.kill()
            it.wait()
        self.stop_workers()
        for it in (self.primary, self.standby):
            if it:
                it.stop()
        shutil.rmtree(self.folder)
