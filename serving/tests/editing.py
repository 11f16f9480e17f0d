#!/usr/bin/env python3
"""A client of a test: it sends its lines to each of its documents in turn, a few at a time, and writes the acknowledged replies to a journal.

If it is started again with the same words, it sends the lines without a reply in its journal again, under the same requests.
"""

from __future__ import annotations

import argparse
import os
import sys
import time
import uuid

import psycopg

sys.dont_write_bytecode = True
sys.path.insert(0, os.path.dirname(os.path.abspath(__file__)))
from lines import lines
import place  # noqa: F401 (it says where the package is)

from huckleport_serving import NotAnswered, connect


def name_of(number: int) -> str:
    return f"document-{number}"


def client_of(number: int) -> uuid.UUID:
    return uuid.UUID(int=number + 1)


def lines_of(client: int, document: int, count: int) -> list[bytes]:
    """Returns all lines that a client sends to a document."""
    return lines((client, document), count)


def acknowledged(path: str) -> dict[int, list[bytes]]:
    """Returns the replies of a journal, by their documents, without a last line that was cut off."""
    found: dict[int, list[bytes]] = {}
    if os.path.exists(path):
        with open(path, "rb") as file:
            for it in file.read().split(b"\n")[:-1]:
                document, _, reply = it.partition(b" ")
                found.setdefault(int(document), []).append(reply)
    return found


def main() -> None:
    parser = argparse.ArgumentParser(description=__doc__)
    parser.add_argument("--database", required=True)
    parser.add_argument("--client", type=int, required=True)
    parser.add_argument("--documents", type=int, nargs="+", required=True)
    parser.add_argument("--lines", type=int, required=True, help="to each document")
    parser.add_argument("--chunk", type=int, required=True)
    parser.add_argument("--pause", type=float, default=0.0)
    parser.add_argument("--journal", required=True)
    given = parser.parse_args()
    before = acknowledged(given.journal)
    if before or os.path.exists(given.journal):
        with open(given.journal, "rb+") as file:
            file.truncate(file.read().rfind(b"\n") + 1)
    todo = {it: lines_of(given.client, it, given.lines) for it in given.documents}
    done = {it: len(before.get(it, [])) for it in given.documents}
    with connect(given.database, client=client_of(given.client), timeout=5) as client, open(given.journal, "ab", buffering=0) as journal:
        while any(done[it] < given.lines for it in given.documents):
            for it in given.documents:
                turn(client, it, todo[it], done, given.chunk, journal)
            time.sleep(given.pause)


def turn(client, number, todo, done, chunk, journal):
    """Sends the next few lines to a document, and writes the replies to the journal. Without an answer the next turn sends them again."""
    part = todo[done[number] : done[number] + chunk]
    if not part:
        return
    try:
        replies = client.document(name_of(number)).send(part, request=done[number] + 1)
    except (NotAnswered, psycopg.OperationalError):
        return
    journal.write(b"".join(b"%d %s\n" % (number, it) for it in replies))
    done[number] += len(replies)


if __name__ == "__main__":
    main()
