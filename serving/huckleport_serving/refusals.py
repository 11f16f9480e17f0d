"""Exceptions of clients, each for a refusal that has a name."""

from __future__ import annotations

from typing import Dict, Optional, Type

import psycopg


class NotAnswered(TimeoutError):
    """The time limit has passed before all lines were answered. They may still be: it is safe to send them again under the same requests."""


class OtherLimits(ValueError):
    """The document has other limits."""


class Refused(Exception):
    """A call that the database refused. Nothing of it was done."""


class OtherLine(Refused, ValueError):
    """A request waits or was answered, and it is another line."""


class ClientInUse(Refused):
    """Another process uses this client id."""


class TooManyClients(Refused):
    """As many clients are connected as the setting `connections` allows."""


class DocumentFull(Refused):
    """As many lines wait for the document as the settings `document_lines` and `document_bytes` allow."""


class ClientFull(Refused):
    """As many lines of the client wait as the settings `client_lines` and `client_bytes` allow."""


class NotGranted(Refused, PermissionError):
    """The document, or the call, is not granted to this role."""


REFUSALS: Dict[str, Type[Refused]] = {
    "HP001": OtherLine,
    "HP003": ClientInUse,
    "HP004": TooManyClients,
    "HP005": DocumentFull,
    "HP006": ClientFull,
    "42501": NotGranted,
}


def refusal(fault: psycopg.Error) -> Optional[Refused]:
    """Returns the exception for an error of the database, if it has a name here."""
    kind = REFUSALS.get(fault.sqlstate or "")
    return None if kind is None else kind(fault.diag.message_primary)
