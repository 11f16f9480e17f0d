"""A worker's lease, renewed by a thread with a connection of its own."""

from __future__ import annotations

import threading
from dataclasses import dataclass
from typing import Callable, Tuple

import psycopg
from psycopg import sql

from .links import LOST, connected, first_line, log

Figures = Tuple[int, int, int]
"""How many documents a worker has, how many lines it answered, and how many bytes of memory it takes."""


@dataclass
class Lease:
    """Renewed three times in its length. Once it has ended it stays so: what it stood for may be another's."""

    conninfo: str
    worker: int
    seconds: float
    figures: Callable[[], Figures]

    def __post_init__(self) -> None:
        self.has_ended = False
        self._over = threading.Event()
        self._thread = threading.Thread(target=self._keep, name="lease", daemon=True)
        self._thread.start()

    def close(self) -> None:
        self._over.set()
        self._thread.join(1.0)

    def _keep(self) -> None:
        while not self._over.is_set() and not self.has_ended:
            try:
                with connected(self.conninfo, [sql.SQL("set synchronous_commit = off")]) as connection:
                    self._renew(connection)
            except LOST as fault:
                log.warning("the lease's connection was lost: %s", first_line(fault))
                self._over.wait(0.2)
            except Exception as fault:
                log.error("the lease can't be renewed: %s", first_line(fault))
                self.has_ended = True

    def _renew(self, connection: psycopg.Connection[Tuple[bool]]) -> None:
        words = "select huckleport.renew(%s, make_interval(secs => %s), %s, %s, %s)"
        while not self._over.wait(self.seconds / 3):
            row = connection.execute(words, (self.worker, self.seconds, *self.figures())).fetchone()
            if row != (True,):
                self.has_ended = True
                return
