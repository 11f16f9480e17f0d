"""Documents that outlive a process and a machine, over PostgreSQL."""

from .client import Client, Document, Entry, connect
from .links import WrongTables, create_tables
from .refusals import ClientFull, ClientInUse, DocumentFull, NotAnswered, NotGranted, OtherLimits, OtherLine, Refused, TooManyClients

__version__ = "0.1.0"
__all__ = [
    "Client",
    "ClientFull",
    "ClientInUse",
    "Document",
    "DocumentFull",
    "Entry",
    "NotAnswered",
    "NotGranted",
    "OtherLimits",
    "OtherLine",
    "Refused",
    "TooManyClients",
    "WrongTables",
    "connect",
    "create_tables",
]
