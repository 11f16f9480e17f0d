"""The state of a database: its workers and documents, the lines that wait, and the faults that call for somebody."""

from __future__ import annotations

from typing import Any, Dict, Iterator, List, Optional

import psycopg

from .links import connected

WORKERS = """
select id, name, version, extract(epoch from until - huckleport.now())::float as lease, huckleport.is_running(until, lease) as is_running, documents, lines, memory
from huckleport.workers order by id
"""

# (A document of another version is not adopted as long as no running worker has its version, and lines wait for it.)
DATABASE = """
with running as (select id, version from huckleport.workers where huckleport.is_running(until, lease)),
    waiting as (select document, count(*) as lines, min(at) as first from huckleport.requests group by document)
select (select databases from huckleport.settings) as databases,
    (select count(*) from huckleport.documents) as documents,
    (select count(*) from huckleport.documents d join running on running.id = d.owner) as held,
    (select count(*) from huckleport.documents where fault is not null) as faulty,
    (select count(*) from huckleport.documents d join waiting on waiting.document = d.id
        where d.version is not null and d.version not in (select version from running)) as not_adopted,
    (select coalesce(sum(lines), 0)::bigint from waiting) as waiting,
    (select count(*) from waiting) as documents_waiting,
    (select coalesce(greatest(0, extract(epoch from huckleport.now() - min(first))), 0)::float from waiting) as oldest_seconds,
    (select last_value from huckleport.take_overs) as take_overs,
    (select last_value from huckleport.faults) as faults,
    (select count(*) from pg_stat_replication where sync_state in ('sync', 'quorum')) as standbys,
    current_setting('synchronous_standby_names') <> '' as waits_for_standby
"""
DOCUMENT = """
select d.name, d.version, d.numbers, d.line, d.made::text, d.epoch, d.attempts, d.fault,
    (select w.name from huckleport.workers w where w.id = d.owner and huckleport.is_running(w.until, w.lease)) as worker,
    (select coalesce(max(number), 0) from huckleport.lines where document = d.id) as lines,
    (select coalesce(max(last), 0) from huckleport.segments where document = d.id) as compressed,
    (select count(*) from huckleport.requests where document = d.id) as waiting,
    (select coalesce(greatest(0, extract(epoch from huckleport.now() - min(at))), 0)::float from huckleport.requests where document = d.id) as oldest_seconds
from huckleport.documents d where d.name = %s
"""
FIRST_LINES = """
select r.id as line, r.client::text, r.request, octet_length(r.line) as bytes, extract(epoch from huckleport.now() - r.at)::float as age
from huckleport.requests r join huckleport.documents d on d.id = r.document where d.name = %s order by r.id limit 10
"""


def rows(connection: psycopg.Connection[Any], query: str, *parameters: Any) -> List[Dict[str, Any]]:
    with connection.cursor(row_factory=psycopg.rows.dict_row) as cursor:
        return cursor.execute(query, parameters).fetchall()


def told(conninfo: str, name: Optional[str] = None) -> List[Dict[str, Any]]:
    """Returns the state of a database, or of a document, if it has it."""
    # (It does not wait for a standby, since it is asked why commits stand still.)
    with connected(conninfo, waits=False) as connection:
        if name is None:
            return [{**rows(connection, DATABASE)[0], "workers": rows(connection, WORKERS)}]
        return [{**it, "first_lines": rows(connection, FIRST_LINES, name)} for it in rows(connection, DOCUMENT, name)]


def faults_of(found: Dict[str, Any], still: float) -> Iterator[str]:
    """Iterates over the faults of a database or a document. A line that waits for longer than `still` seconds is one."""
    if found.get("faulty"):
        yield f"{found['faulty']} documents are faulty"
    if found.get("fault") is not None:
        yield f"it is faulty: {found['fault']}"
    if found.get("not_adopted"):
        yield f"{found['not_adopted']} documents are of a version that no worker has"
    if found["oldest_seconds"] > still:
        yield f"a line has been waiting for {found['oldest_seconds']:.0f} seconds"
    if found.get("waits_for_standby") and not found["standbys"]:
        yield "commits wait for a standby, and there is none"
