"""Many clients of one process over a few connections, by the library psycopg_pool (Debian: python3-psycopg-pool)."""

from __future__ import annotations

import time
from types import TracebackType
from typing import Any, List, Optional, Sequence, Type

import psycopg
from psycopg_pool import ConnectionPool

from .client import Client
from .links import BARRIER, Link, check_tables, completed

POLL = 0.05
"""How often a client of a pool looks for its replies, in seconds: it has no connection on which to be notified."""


class PooledLink(Link):
    """A client's use of a pool: each statement has whichever connection is free."""

    def __init__(self, conninfo: str, pool: ConnectionPool) -> None:
        super().__init__(conninfo)
        self._pool = pool
        self.times = 1

    def _execute(self, query: str, parameters: Sequence[Any], binary: bool) -> psycopg.Cursor[Any]:
        with self._pool.connection() as connection:
            return connection.execute(query, parameters, binary=binary)

    def wait(self, seconds: float) -> bool:
        time.sleep(max(0.0, min(seconds, POLL)))
        return False

    def _lose(self, fault: psycopg.Error, pause: float) -> None:
        # (lines that were handed in are handed in again)
        self.times += 1


class Pool:
    """Makes clients, each with an id that no other has, over a bounded number of connections to each database of a list."""

    def __init__(self, *conninfo: str, connections: int = 8) -> None:
        self._conninfo = conninfo or ("",)
        how: Any = {"min_size": 1, "max_size": connections, "configure": configured, "kwargs": {"autocommit": True}}
        self._pools: List[ConnectionPool] = [ConnectionPool(completed(it), **how) for it in self._conninfo]

    def client(self, timeout: float = 60.0) -> Client:
        return Client(*self._conninfo, timeout=timeout, links=[PooledLink(it, pool) for it, pool in zip(self._conninfo, self._pools)])

    def close(self) -> None:
        for it in self._pools:
            it.close()

    def __enter__(self) -> Pool:
        return self

    def __exit__(self, kind: Optional[Type[BaseException]], fault: Optional[BaseException], trace: Optional[TracebackType]) -> None:
        self.close()


def configured(connection: psycopg.Connection[Any]) -> None:
    """Prepares a connection of a pool as one of a client's own."""
    connection.execute(BARRIER)
    check_tables(connection)
    connection.execute("set synchronous_commit = off")
