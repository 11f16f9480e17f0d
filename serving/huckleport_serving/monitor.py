"""Metrics for Prometheus, and /healthz, by the library prometheus_client (Debian: python3-prometheus-client)."""

from __future__ import annotations

import json
from typing import Any, Callable, Dict, Iterable, Iterator, List, Sequence, Tuple
from wsgiref.simple_server import WSGIRequestHandler, make_server

import psycopg
from prometheus_client import CollectorRegistry, make_wsgi_app
from prometheus_client.core import CounterMetricFamily, GaugeMetricFamily
from prometheus_client.exposition import ThreadingWSGIServer
from prometheus_client.registry import Collector

from .faults import faults_of, told
from .links import WrongTables, first_line

GAUGES = {
    "waiting": "Lines that wait for a reply",
    "documents_waiting": "Documents for which lines wait",
    "oldest_seconds": "Age of the oldest waiting line",
    "documents": "Documents of the database",
    "held": "Documents that a running worker has",
    "faulty": "Documents that no worker could serve",
    "not_adopted": "Documents with waiting lines whose version no running worker has",
    "standbys": "Synchronous standbys that are connected",
}
COUNTERS = {"take_overs": "Documents that were claimed after their worker was gone", "faults": "Documents that were handed on with a fault"}

Answer = Callable[[str, List[Tuple[str, str]]], Any]


class Database(Collector):
    """A collector of the metrics of databases."""

    def __init__(self, databases: Sequence[str]) -> None:
        self.databases = databases

    def collect(self) -> Iterator[Any]:
        states = [(str(at), it) for at, conninfo in enumerate(self.databases) for it in told(conninfo)]
        for name, about in GAUGES.items():
            yield family(GaugeMetricFamily(f"huckleport_{name}", about, labels=["database"]), name, states)
        for name, about in COUNTERS.items():
            yield family(CounterMetricFamily(f"huckleport_{name}", about, labels=["database"]), name, states)
        workers = GaugeMetricFamily("huckleport_workers", "Workers whose lease is running", labels=["database"])
        for database, state in states:
            workers.add_metric([database], sum(it["is_running"] for it in state["workers"]))
        yield workers


def family(metric: Any, name: str, states: List[Tuple[str, Dict[str, Any]]]) -> Any:
    for database, state in states:
        metric.add_metric([database], state[name])
    return metric


def faults(databases: Sequence[str], still: float) -> List[str]:
    """Returns the faults of the databases. One that does not answer is a fault."""
    try:
        return [fault for it in databases for state in told(it) for fault in faults_of(state, still)]
    except (psycopg.Error, WrongTables) as fault:
        return [first_line(fault)]


class Quiet(WSGIRequestHandler):
    """Logs no requests."""

    def log_message(self, format: str, *args: Any) -> None:
        pass


def application(databases: Sequence[str], still: float) -> Callable[[Dict[str, Any], Answer], Iterable[bytes]]:
    registry = CollectorRegistry(auto_describe=False)
    registry.register(Database(databases))
    metrics = make_wsgi_app(registry)

    def answered(environment: Dict[str, Any], answer: Answer) -> Iterable[bytes]:
        path = environment["PATH_INFO"]
        if path == "/metrics":
            found: Iterable[bytes] = metrics(environment, answer)
            return found
        if path != "/healthz":
            answer("404 Not Found", [("Content-Type", "text/plain")])
            return [b"/metrics and /healthz are here\n"]
        wrong = faults(databases, still)
        answer("503 Service Unavailable" if wrong else "200 OK", [("Content-Type", "application/json")])
        return [json.dumps({"faults": wrong}).encode() + b"\n"]

    return answered


def serve(databases: Sequence[str], host: str, port: int, still: float) -> None:
    """Serves until it is interrupted. Prints where it listens."""
    with make_server(host, port, application(databases, still), ThreadingWSGIServer, handler_class=Quiet) as server:
        print(f"http://{host}:{server.server_port}", flush=True)
        server.serve_forever()
