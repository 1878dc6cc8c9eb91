"""Narthexmace from Python: an ordered table under snapshot isolation, which takes updates without touching its columns.

>>> import narthexmace
>>> table = narthexmace.open({"id": [10, 20], "name": ["Ann", "Bob"], "qty": [7, 2]}, key="id")
>>> with table.begin() as txn:  # commits at the end of the block, and aborts at an exception
...     txn.set(10, "qty", 2)
...     txn.insert((30, "Cid", 0))
>>> with table.read() as snapshot:  # reads only
...     print(snapshot.get(10), 30 in snapshot, len(snapshot), [sum(batch["qty"]) for batch in snapshot.scan(["qty"])])
(10, 'Ann', 2) True 3 [4]
>>> table.close()

That table is in memory. A database is a folder of durable tables, which survive the process and the machine:

>>> db = narthexmace.connect("shop")  # created if it isn't there
>>> items = db.create("items", "id:int:key,name:text,qty:int\\n")  # an empty table; later it is db["items"]
>>> with items.begin() as txn:
...     txn.insert((1, "ink", 7))  # durable when the block ends
>>> db.close()
>>> with narthexmace.connect("shop") as db:
...     orders = db.create("orders", {"id": [1], "qty": [0]}, key="id")
...     with db.begin() as txn:  # over all tables: both writes are committed, or none
...         txn["items"].set(1, "qty", 5)
...         txn["orders"].set(1, "qty", 2)
...     with db.read() as tables:  # all tables as of one moment
...         print(list(db), tables["items"][:], tables["orders"][:])
['items', 'orders'] [(1, 'ink', 5)] [(1, 2)]

Durability: in a database each acknowledged commit, as ``sync`` of ``connect`` says. A table outside a database is in
memory: ``Table.checkpoint`` writes the newest version into a folder, and ``recover`` opens it again. Commits since the
last checkpoint are lost with the process.

Threads: any threads may use a database, a table or a pin at once; one thread at a time uses a transaction or a
snapshot, which is checked. Several threads read one version side by side by a ``Pin``, each in a snapshot of its own.
Calls into the library release the interpreter's lock.

Change data capture: ``Table.changes`` returns what each commit changed, and ``Table.wait`` blocks until the next one.

Memory: what a call returns is Python's own, except for ``Snapshot.int_spans``, which returns views of the library's
memory (zero-copy), read-only, until the next write on the transaction or its end.

Errors: each is an ``Error``, with its ``code`` and a sentence, and also one of Python's own exceptions where one fits.
"""
from ._arrow import ArrowScan
from ._batches import Batch, IntSpans, Texts
from ._cells import Column
from ._database import Database, DatabaseCounts, Report, connect
from ._database_transaction import DatabaseSnapshot, DatabaseTransaction
from ._errors import (
    BadCheckpoint,
    BadLimit,
    BadTable,
    Borrowed,
    Conflict,
    Corrupt,
    DeviceFailed,
    Duplicate,
    Error,
    Exists,
    FileFailed,
    Full,
    Incomplete,
    Locked,
    Mismatch,
    Missing,
    Misuse,
    NewerFormat,
    NoCheckpoint,
    NoMemory,
    NotAscending,
    NotKept,
    OutcomeUnknown,
    ReadOnly,
    ReadOnlyDatabase,
    Superseded,
    TooLong,
    TooManyRows,
    TooOld,
    TooSmall,
    TypeMismatch,
    WritesFailed,
)
from ._layers import Entry
from ._pin import Pin
from ._snapshot import Rank, Snapshot
from ._table import Counts, Sizes, Table, open, recover, version
from ._transaction import Transaction
from ._version import __version__ as __version__

__all__ = [
    "ArrowScan",
    "BadCheckpoint",
    "BadLimit",
    "BadTable",
    "Batch",
    "Borrowed",
    "Column",
    "Conflict",
    "Corrupt",
    "Counts",
    "Database",
    "DatabaseCounts",
    "DatabaseSnapshot",
    "DatabaseTransaction",
    "DeviceFailed",
    "Duplicate",
    "Entry",
    "Error",
    "Exists",
    "FileFailed",
    "Full",
    "Incomplete",
    "IntSpans",
    "Locked",
    "Mismatch",
    "Missing",
    "Misuse",
    "NewerFormat",
    "NoCheckpoint",
    "NoMemory",
    "NotAscending",
    "NotKept",
    "OutcomeUnknown",
    "Pin",
    "Rank",
    "ReadOnly",
    "ReadOnlyDatabase",
    "Report",
    "Sizes",
    "Snapshot",
    "Superseded",
    "Table",
    "Texts",
    "TooLong",
    "TooManyRows",
    "TooOld",
    "TooSmall",
    "Transaction",
    "TypeMismatch",
    "WritesFailed",
    "connect",
    "open",
    "recover",
    "version",
]
