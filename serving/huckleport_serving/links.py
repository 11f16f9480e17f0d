"""Connections to a database, and how they are made."""

from __future__ import annotations

import logging
import select
import time
from importlib import resources
from typing import Any, Callable, Iterable, Optional, Sequence, Union

import psycopg
from psycopg import sql
from psycopg.conninfo import conninfo_to_dict, make_conninfo

from .questions import QUESTIONS
from .refusals import ClientInUse, TooManyClients, refusal



class SafeLogger(logging.Logger):
    """A logger that never raises, also if memory is short or nobody reads what it writes."""

    def _log(self, *given: Any, **how: Any) -> None:
        try:
            super()._log(*given, **how)
        except Exception:  # noqa: BLE001 (a worker is not to end for a message)
            pass


def safe_logger(name: str) -> logging.Logger:
    before = logging.getLoggerClass()
    logging.setLoggerClass(SafeLogger)
    try:
        return logging.getLogger(name)
    finally:
        logging.setLoggerClass(before)


log = safe_logger("huckleport_serving")

Setting = Union[sql.SQL, sql.Composed]
"""A statement that is executed once for each connection."""

SETTLING = 5.0
"""For how long a client's first connection waits for another process of the same id to be gone, in seconds."""

TABLES = 4
"""The version of the tables."""

SCRIPTS = ("schema.sql", "added.sql", "segments.sql", "calls.sql", "roles.sql")
"""What makes the tables in a database that has none."""

UPGRADES = {1: ("dropped.sql", "upgrade_1.sql", *SCRIPTS[1:]), 2: ("dropped.sql", *SCRIPTS[2:]), 3: ("dropped.sql", *SCRIPTS[3:])}
"""What upgrades the tables of each older version. Version 4 has other functions than version 3, and the same tables."""

# Where a primary was lost, the hosts that are named are asked in turn for the one that takes writes.
DEFAULTS = {"target_session_attrs": "read-write", "connect_timeout": "5", "application_name": "huckleport", "keepalives_idle": "10", "tcp_user_timeout": "15000"}

# A commit of its own, which waits for the standby as each does. All that was committed before is then where it is due, also what a primary
# that crashed had not yet sent when it started again.
BARRIER = "select pg_logical_emit_message(true, 'huckleport', '')"

# What ends a call that another connection may make well: the connection was lost, or this server takes no writes any more.
LOST = (psycopg.OperationalError, psycopg.errors.ReadOnlySqlTransaction, psycopg.InterfaceError)


# Of those, the classes of what passes: no connection, a server that stops or starts, no room, a conflict, no writes.
PASSING = ("08", "57", "53", "40", "25006")


class WrongTables(Exception):
    """The database has no tables for documents, or those of another version."""


def array(numbers: Iterable[int]) -> str:
    """Returns numbers as PostgreSQL reads them."""
    return "{" + ",".join(map(str, numbers)) + "}"


def first_line(fault: Exception) -> str:
    return (str(fault).strip().splitlines() or [type(fault).__name__])[0]


def escaped(name: str) -> str:
    """Returns a name with its control characters escaped, for people and their terminals."""
    return "".join(it if it.isprintable() and it != "\\" else it.encode("unicode_escape", "backslashreplace").decode("ascii") for it in name)


def is_passing(fault: psycopg.Error) -> bool:
    """Whether it may be well the next time."""
    return fault.sqlstate is None or fault.sqlstate.startswith(PASSING)


def completed(conninfo: str) -> str:
    """Returns connection words with the defaults of this package."""
    return make_conninfo(conninfo, **{name: it for name, it in DEFAULTS.items() if name not in conninfo_to_dict(conninfo)})


def connected(conninfo: str, settings: Sequence[Setting] = (), waits: bool = True) -> psycopg.Connection[Any]:
    """Returns a connection whose statements are transactions by themselves. If it `waits`, all that the connection can see is safe."""
    connection = psycopg.connect(completed(conninfo), autocommit=True)
    try:
        if waits:
            connection.execute(BARRIER)
        check_tables(connection)
        for it in settings:
            connection.execute(it)
    except BaseException:
        connection.close()
        raise
    return connection


def check_tables(connection: psycopg.Connection[Any]) -> None:
    try:
        row = connection.execute("select tables from huckleport.settings").fetchone()
    except (psycopg.errors.UndefinedTable, psycopg.errors.InvalidSchemaName):
        raise WrongTables("the database has no tables for documents: the command `create` makes them") from None
    if row is None or row[0] != TABLES:
        raise WrongTables(f"the database has tables of version {row and row[0]}, and version {TABLES} is needed: the command `create` upgrades older ones")


def script(name: str) -> str:
    return resources.files(__package__).joinpath(name).read_text("utf-8")


def create_tables(conninfo: str) -> bool:
    """Makes the tables in a database, or upgrades older ones. Returns whether there were none."""
    with psycopg.connect(completed(conninfo)) as connection:
        # (two that make them at once would meet in the middle)
        connection.execute("select pg_advisory_xact_lock(hashtext('huckleport'))")
        is_new = connection.execute("select to_regnamespace('huckleport')").fetchone() == (None,)
        for it in SCRIPTS if is_new else upgrade(connection):
            connection.execute(script(it))
        connection.execute("update huckleport.settings set tables = %s where tables <> %s", (TABLES, TABLES))
        connection.execute("update huckleport.settings set questions = %s where questions <> %s", (QUESTIONS, QUESTIONS))
    return is_new


def upgrade(connection: psycopg.Connection[Any]) -> Sequence[str]:
    """Returns the scripts that upgrade the tables of a database: none if they are of this version."""
    row = connection.execute("select tables from huckleport.settings").fetchone()
    if row is not None and row[0] in UPGRADES:
        return UPGRADES[row[0]]
    check_tables(connection)
    return ()


def ready(seconds: float, *files: int) -> bool:
    """Waits until one of these can be read, at most so long, and returns whether one can."""
    return bool(select.select(files, [], [], max(0.0, seconds))[0])


class Link:
    """A connection that is made anew if it is lost, until a time is over."""

    def __init__(self, conninfo: str, settings: Sequence[Setting] = (), on_notify: Optional[Callable[[str], None]] = None) -> None:
        self._conninfo, self._settings, self._on_notify = conninfo, settings, on_notify
        self._connection: Optional[psycopg.Connection[Any]] = None
        self.times = 0
        """How often a connection was made."""

    def run(self, query: str, parameters: Sequence[Any] = (), until: float = float("inf"), binary: bool = False) -> psycopg.Cursor[Any]:
        """Executes a statement that may be executed twice, and on another connection if need be. Raises the fault once the time is over."""
        pause, first = 0.02, time.monotonic()
        while True:
            try:
                return self._execute(query, parameters, binary)
            except psycopg.Error as fault:
                self._pass(fault, pause, first, until)
            time.sleep(pause)
            pause = min(2 * pause, 1.0)

    def _execute(self, query: str, parameters: Sequence[Any], binary: bool) -> psycopg.Cursor[Any]:
        return self._connected().execute(query, parameters, binary=binary)

    def _pass(self, fault: psycopg.Error, pause: float, first: float, until: float) -> None:
        """Returns if the statement may be executed again, and raises otherwise."""
        refused = refusal(fault)
        if isinstance(refused, (ClientInUse, TooManyClients)):
            # (a process that was just ended still has its connection for a moment)
            self.close()
            if time.monotonic() + pause > (until if self.times else min(until, first + SETTLING)):
                raise refused from None
        elif refused is not None:
            raise refused from None
        elif isinstance(fault, LOST):
            self._lose(fault, pause)
            if not is_passing(fault) or time.monotonic() + pause > until:
                raise fault
        else:
            raise fault

    def wait(self, seconds: float) -> bool:
        """Waits until the server notifies, at most so long. Returns whether it is worth waiting on: not if the connection is lost."""
        if self._connection is None or self._connection.closed:
            return False
        if ready(seconds, self._connection.fileno()):
            return self._read_notifications(self._connection)
        return True

    def _read_notifications(self, connection: psycopg.Connection[Any]) -> bool:
        """Hands on notifications that came, without a statement."""
        try:
            connection.pgconn.consume_input()
        except psycopg.OperationalError:
            return False
        while it := connection.pgconn.notifies():
            if self._on_notify is not None:
                self._on_notify(it.extra.decode())
        return True

    def close(self) -> None:
        if self._connection is not None:
            self._connection.close()
            self._connection = None

    def _connected(self) -> psycopg.Connection[Any]:
        if self._connection is None:
            self._connection = connected(self._conninfo, self._settings)
            if self._on_notify is not None:
                notify = self._on_notify
                self._connection.add_notify_handler(lambda it: notify(it.payload))
            self.times += 1
        return self._connection

    def _lose(self, fault: psycopg.Error, pause: float) -> None:
        # (a server that starts again is not worth a word, one that is away for a second is)
        log.log(logging.WARNING if 0.5 < pause < 1.0 else logging.DEBUG, "no connection: %s", first_line(fault))
        self.close()
