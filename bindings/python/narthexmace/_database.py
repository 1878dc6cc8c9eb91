"""Databases: folders of tables that last."""
from __future__ import annotations

import ctypes
import operator
import os
from ctypes import byref
from types import TracebackType
from typing import Any, Dict, Iterator, Mapping, NamedTuple, Optional, Type

from ._database_handles import DatabaseHandle, DatabaseTransactionHandle, name_of
from ._database_transaction import DatabaseSnapshot, DatabaseTransaction
from ._errors import BadLimit, Misuse, Path, TypeMismatch, OutcomeUnknown, check_files, check_made, check_opening
from ._handles import Single
from ._library import CHECKPOINT_ENTRIES, FOLD_ENTRIES, JOURNAL_BYTES, KEPT_BYTES, MAX_NAME, MAX_RECENT, MAX_ROWS
from ._library import DatabaseOptions, ReportOf, library
from ._opening import Calls, Formats, folder_of, open_table, options_of
from ._sentences import value_shown
from ._table import Table
from ._tables import KeyNames, TableSource

_SYNCS = {"full": 0, "normal": 1, "off": 2}


class Report(NamedTuple):
    """The report of a database's opening.

    Attributes
    ----------
    commits : int
        The number of the newest commit.
    replayed : int
        Commits that were replayed from the journal, since no checkpoint has them.
    torn_bytes : int
        Bytes at the journal's end that were no complete commit. None of them was acknowledged; they were cut off.
    """

    commits: int
    replayed: int
    torn_bytes: int


class DatabaseCounts(NamedTuple):
    """A database's counters since its opening, and what it has now.

    Attributes
    ----------
    commits : int
        The number of the newest commit.
    durable : int
        The number of the newest commit that is known to be on the device.
    batches : int
        Writes to the journal, each of one commit or several.
    syncs : int
        Syncs of the journal.
    folds : int
        Folds by maintenance.
    checkpoints : int
        Checkpoints by maintenance.
    faults : int
        How often maintenance failed.
    journal_bytes : int
        Bytes of the journal's files now.
    journal_files : int
        Files of the journal now.
    tables : int
        Tables now.
    kept_bytes : int
        Bytes of memory that the retained changes of commits take, an estimate.
    """

    commits: int
    durable: int
    batches: int
    syncs: int
    folds: int
    checkpoints: int
    faults: int
    journal_bytes: int
    journal_files: int
    tables: int
    kept_bytes: int


def connect(
    folder: Path,
    *,
    sync: str = "full",
    early_reads: bool = False,
    maintenance: bool = True,
    fold_entries: int = FOLD_ENTRIES,
    checkpoint_entries: int = CHECKPOINT_ENTRIES,
    journal_bytes: int = JOURNAL_BYTES,
    kept_bytes: int = KEPT_BYTES,
    mode: int = 0o666,
    read_only: bool = False,
) -> "Database":
    """Open the database in a folder, which is created if it isn't there: ``with narthexmace.connect("shop") as db:``.

    One process may have a database open, or several read-only. All tables, and the journal, are read into memory. A
    background thread folds, writes checkpoints of the tables and deletes files that are no longer needed.

    Parameters
    ----------
    folder : str, bytes or os.PathLike
        The folder. The folder above it exists.
    sync : {"full", "normal", "off"}, optional
        What an acknowledged commit survives. "full": a crash of the machine, since it is on the device; commits that
        wait at the same time share a sync. "normal": a kill of the process; it is on the device a second later, or
        sooner. "off": neither, until it is on the device, a second later or sooner, or at ``Database.close``.
    early_reads : bool, optional
        Whether a begin sees commits that aren't on the device yet, which a crash could still lose.
    maintenance : bool, optional
        False: there is no background thread. ``Database.maintain`` does its work, and makes durable what a ``sync``
        other than "full" has left for later.
    fold_entries : int, optional
        How many entries the newest changes of a table have when they are folded.
    checkpoint_entries : int, optional
        How many entries all changes of a table since its last checkpoint have when it gets another one, if they are a
        fiftieth of its rows too.
    journal_bytes : int, optional
        Bytes of the journal above which each table with an old checkpoint gets another one.
    kept_bytes : int, optional
        Bytes of memory for the changes of the last commits over all tables, which late commits and ``Table.changes``
        need; the oldest are freed first.
    mode : int, optional
        The mode of new files, less the umask. Folders get the right to search beside that to read.
    read_only : bool, optional
        Whether nothing in the folder is created or changed. It may then be on a read-only file system. Calls that would
        write raise ``ReadOnlyDatabase``.

    Returns
    -------
    Database
        The database.

    Raises
    ------
    Locked
        It is open already, in this process or another.
    Missing
        With ``read_only``: there is no database in the folder.
    Corrupt
        Durable data is corrupt: ``file`` or ``commit`` has the place.
    Incomplete
        A file or a commit is missing: ``file`` or ``commit`` has which.
    Mismatch
        The journal isn't the journal of these tables: ``file`` or ``commit`` has the place.
    BadCheckpoint
        The file of a table's column can't be read as one.
    BadTable
        The header of a table can't be read as one.
    NoCheckpoint
        The files of a table contain no complete checkpoint.
    NewerFormat
        A later version of the library wrote ``file``.
    FileFailed
        A file can't be created, written, synced or read: ``errno`` has the cause.
    BadLimit
        An option isn't valid.
    NoMemory
        Out of memory.
    Misuse
        The folder's name is empty or has a null character.

    Notes
    -----
    After an exception no file has changed, except that torn bytes at the journal's end may be cut off after
    ``FileFailed`` and ``NoMemory``.
    """
    limits = {
        "fold_entries": fold_entries,
        "checkpoint_entries": checkpoint_entries,
        "journal_bytes": journal_bytes,
        "kept_bytes": kept_bytes,
    }
    options = _options_of(sync, limits, mode)
    options.early_reads, options.no_maintenance, options.read_only = bool(early_reads), not maintenance, bool(read_only)
    handle, report, path = DatabaseHandle(folder), ReportOf(ctypes.sizeof(ReportOf)), folder_of(folder)
    if not path:
        raise Misuse("the folder of a database has a name")
    check_opening(library.pdt_database_open(path, byref(options), byref(handle.room), byref(report)), folder, report)
    return Database(handle, Report(report.commits, report.replayed, report.torn_bytes))


def _options_of(sync: str, limits: Dict[str, int], mode: int) -> DatabaseOptions:
    if sync not in _SYNCS:
        raise BadLimit(f'sync is {value_shown(sync)}: "full", "normal" or "off" is wanted')
    for name, limit in limits.items():
        if not 1 <= operator.index(limit) < 2**64:
            raise BadLimit(f"{name} is {limit}: 1 to 2**64 - 1 is wanted")
    if not 1 <= operator.index(mode) <= 0o777:
        raise BadLimit(f"mode is {mode:#o}: 0o1 to 0o777 is wanted")
    given = {name: operator.index(limit) for name, limit in limits.items()}
    return DatabaseOptions(size=ctypes.sizeof(DatabaseOptions), sync=_SYNCS[sync], mode=operator.index(mode), **given)


def _formats_of(formats: Formats) -> Any:
    """Formats for C."""
    given = [None if format_ is None else format_.encode() for format_ in formats]
    return (ctypes.c_char_p * max(len(given), 1))(*given)


class Database(Single):
    """A folder of durable tables. Acknowledged commits are there when the folder is opened again. From ``connect``.

    ``db["items"]`` is a ``Table`` by its name; ``db.create`` makes one. ``with db.begin() as txn:`` is a transaction
    over all tables, and ``with db.read() as tables:`` reads all of them as of one moment. ``for name in db`` and
    ``len(db)`` are about the tables.

    Any threads may use it at once. One process has it open, and a child of fork doesn't. With ``with`` it is closed at
    the end of the block. One that is dropped is closed too, once its tables and transactions are, with a
    ResourceWarning. Don't change anything in the folder by hand; it may be copied while it is closed.
    """

    __slots__ = ("_handle", "_report", "_tables", "__weakref__")

    def __init__(self, handle: DatabaseHandle, report: Report) -> None:
        self._handle = handle
        self._report = report
        self._tables: Dict[str, Table] = {}  # so that each is made once

    @property
    def report(self) -> Report:
        """The report of the opening."""
        return self._report

    # ---- tables

    def create(
        self,
        name: str,
        table: TableSource,
        *,
        key: Optional[KeyNames] = None,
        types: Optional[Mapping[str, str]] = None,
        recent: int = MAX_RECENT,
        row_limit: int = MAX_ROWS,
        conflicts: str = "column",
    ) -> Table:
        """Create a table over anything that ``open`` takes: a CSV text, its path, columns, or a stream of Arrow's.

        A header alone creates an empty table: ``db.create("items", "id:int:key,name:text\\n")``. The table is durable
        when this returns, with its options and with the columns that ``types`` declares: a crash leaves all of that, or
        no table.

        Parameters
        ----------
        name : str
            The table's name: 1 to 64 bytes of UTF-8 without control characters.
        table : str, bytes, os.PathLike, mapping, DataFrame or object with ``__arrow_c_stream__``
            The rows, as ``open`` takes them.
        key : str or sequence of str, optional
            The columns that are the key, as in ``open``.
        types : mapping of str to str, optional
            Types and formats of some columns, as in ``open``.
        recent : int, optional
            How many commits may come between a transaction's begin and its commit: 1 to 65,536.
        row_limit : int, optional
            How many rows the table may have: 1 to 2,147,483,647.
        conflicts : {"column", "row"}, optional
            Whether changes of two columns of one row conflict ("row") or not ("column").

        Returns
        -------
        Table
            The table.

        Raises
        ------
        Exists
            A table of this name exists.
        TypeMismatch
            The name isn't valid, or a value doesn't fit the type of its column.
        BadTable
            The text or the columns don't describe a table, as in ``open``.
        Duplicate
            Two rows of a stream have one key.
        DeviceFailed
            The stream failed, and the sentence has its message.
        TooManyRows
            More rows than ``row_limit``.
        BadLimit
            ``recent``, ``row_limit`` or ``conflicts`` isn't valid.
        FileFailed
            A file can't be written or synced: ``errno`` has the cause.
        WritesFailed
            An earlier write failed.
        Incomplete
            The next opening would miss a commit in what was to be written. Nothing was written.
        ReadOnlyDatabase
            The database was opened read-only.
        NoMemory
            Out of memory. Nothing changed.
        Misuse
            The database is closed.
        OSError
            The file of the text can't be read.
        TypeError
            ``table`` isn't one of these, or ``key`` or ``types`` are given beside a source that has its own.
        """
        options = options_of(recent, row_limit, conflicts)
        encoded = name_of(name)
        if encoded is None or len(encoded) > MAX_NAME or any(byte < 32 or byte == 127 for byte in encoded):
            wanted = f"1 to {MAX_NAME} bytes of UTF-8 without control characters are wanted"
            raise TypeMismatch(f"a table can't have the name {value_shown(name)}: {wanted}")
        room = ctypes.c_void_p()
        with self._handle as at:
            open_table(self._calls_in(at, name, encoded), table, key, types, options, room)
        return self[name]

    def _calls_in(self, at: int, name: str, encoded: bytes) -> Calls:
        """C's calls that make a table of a name."""

        def text(formats: Formats, csv: bytes, size: int, *given: Any) -> int:
            passed = _formats_of(formats)
            made = library.pdt_table_create_csv_declared(at, encoded, csv, size, passed, len(formats), *given)
            return check_made(made, self._handle.folder)

        def plain(csv: bytes, size: int, *given: Any) -> int:
            return check_made(library.pdt_table_create_plain(at, encoded, csv, size, *given), self._handle.folder)

        def columns(formats: Formats, columns: Any, count: int, keys: int, *given: Any) -> int:
            passed = _formats_of(formats)
            made = library.pdt_table_create_declared(at, encoded, columns, count, keys, passed, *given)
            return check_made(made, self._handle.folder)

        def arrow(stream: int, *given: Any) -> int:
            return check_made(library.pdt_table_create_arrow(at, encoded, stream, *given), self._handle.folder)

        return Calls(text, plain, columns, arrow)

    def __getitem__(self, name: str) -> Table:
        """Return a table by its name, the same object each time.

        Parameters
        ----------
        name : str
            The table's name.

        Returns
        -------
        Table
            The table.

        Raises
        ------
        Missing
            No table has this name. It is a KeyError.
        Misuse
            The database is closed.
        """
        handle = self._handle.table(name)
        table = self._tables.get(name)
        if table is None or not table._stands_for(handle):
            table = self._tables[name] = Table(handle)
        return table

    def __contains__(self, name: object) -> bool:
        """Return whether a table has this name.

        Parameters
        ----------
        name : str
            The name.

        Returns
        -------
        bool
            Whether there is such a table.

        Raises
        ------
        Misuse
            The database is closed.
        """
        return self._handle.has(name)

    def __iter__(self) -> Iterator[str]:
        """Iterate over the names of the tables, in the order of their creation.

        Returns
        -------
        iterator of str
            The names.

        Raises
        ------
        Misuse
            The database is closed.
        """
        return iter(self._handle.names())

    def __len__(self) -> int:
        """Return how many tables there are.

        Returns
        -------
        int
            The number of tables.

        Raises
        ------
        Misuse
            The database is closed.
        """
        return int(self._handle.counts().tables)

    def drop(self, name: str) -> None:
        """Drop a table. Calls on it then raise ``Misuse``.

        Parameters
        ----------
        name : str
            The table's name.

        Raises
        ------
        Missing
            No table has this name.
        Misuse
            A transaction or a snapshot is open over the table, a pin is open, or another thread is in a call of it. Or
            the database is closed.
        FileFailed
            A file can't be written or synced: ``errno`` has the cause. The table stays.
        WritesFailed
            An earlier write failed. The table stays.
        Incomplete
            The next opening would miss a commit in what was to be written. The table stays.
        ReadOnlyDatabase
            The database was opened read-only.
        NoMemory
            Out of memory. The table stays.
        """
        self._handle.drop(name)
        self._tables.pop(name, None)

    # ---- transactions over all tables

    def begin(self) -> DatabaseTransaction:
        """Begin a transaction over all tables, as of one moment: ``with db.begin() as txn:``.

        It waits for no commit.

        Returns
        -------
        DatabaseTransaction
            The transaction.

        Raises
        ------
        NoMemory
            Out of memory. Nothing changed.
        Misuse
            The database is closed.

        Examples
        --------
        >>> import narthexmace
        >>> with narthexmace.connect("shop") as db:
        ...     _ = db.create("items", "id:int:key,qty:int\\n1,5\\n"), db.create("orders", "id:int:key,qty:int\\n")
        ...     with db.begin() as txn:  # both writes, or none
        ...         txn["items"].set(1, "qty", 3)
        ...         txn["orders"].insert((1, 2))
        ...     print(db["items"].sizes().commits, db["orders"].sizes().commits)
        1 1
        """
        return DatabaseTransaction(DatabaseTransactionHandle(self._handle))

    def read(self) -> DatabaseSnapshot:
        """Take a snapshot of all tables, as of one moment: ``with db.read() as tables:``.

        It waits for no commit, and commits nothing.

        Returns
        -------
        DatabaseSnapshot
            The snapshot.

        Raises
        ------
        NoMemory
            Out of memory. Nothing changed.
        Misuse
            The database is closed.
        """
        return DatabaseSnapshot(DatabaseTransactionHandle(self._handle, reads=True))

    # ---- as a whole

    def maintain(self) -> None:
        """Do the maintenance that is due: folds, checkpoints and the deletion of files that are no longer needed.

        Commits before the call are durable when it returns.

        Raises
        ------
        FileFailed
            A file can't be written or synced: ``errno`` has the cause. It is due again.
        WritesFailed
            An earlier write failed, or the commits can't be made durable.
        Incomplete
            The next opening would miss a commit in what was to be written. Nothing was written.
        ReadOnlyDatabase
            The database was opened read-only.
        NoMemory
            Out of memory. It is due again.
        Misuse
            The database is closed.
        """
        with self._handle as at:
            check_files(library.pdt_maintain(at), self._handle.folder)

    def counts(self) -> DatabaseCounts:
        """Read the database's counters.

        Returns
        -------
        DatabaseCounts
            The counters.

        Raises
        ------
        Misuse
            The database is closed.
        """
        counts = self._handle.counts()
        return DatabaseCounts(*(getattr(counts, name) for name in DatabaseCounts._fields))

    def close(self) -> None:
        """Close the database and its tables. All commits are then durable. Closing again does nothing.

        Snapshots, pins and Arrow scans end with it, as those of ``Table.close`` do.

        Raises
        ------
        Misuse
            A transaction or an Arrow stream is open, an array is over memory that ``int_spans`` returned, or another
            thread is in a call: the database stays open.
        OutcomeUnknown
            The device failed: the database is closed, and whether its last commits are durable is unknown until it is
            opened again.
        """
        try:
            self._handle.close()
        except OutcomeUnknown:
            raise OutcomeUnknown(f"it is closed, and its last commits are there or not: {self._folder!r}", None, self._folder)

    def __enter__(self) -> "Database":
        return self

    def __exit__(self, kind: Optional[Type[BaseException]], error: Optional[BaseException], trace: Optional[TracebackType]) -> None:
        """Closes it; at an exception it is closed with the last of its transactions and pins."""
        if kind is None:
            self.close()
        else:
            self._handle.end()

    @property
    def _folder(self) -> str:
        return os.fsdecode(self._handle.folder)

    def __repr__(self) -> str:
        if not self._handle.is_open:
            return f"<Database {self._folder!r}, closed>"
        names = self._handle.names()
        tables = f" of {', '.join(names)}" if names else " without tables"
        return f"<Database {self._folder!r}{tables}, {self._handle.counts().commits} commits>"
