"""Tables: a table that takes commits, and what is done to it as a whole."""
from __future__ import annotations

import ctypes
import math
import operator
import time
from ctypes import byref, c_uint64
from itertools import chain
from types import TracebackType
from typing import Any, Dict, Iterator, List, Mapping, NamedTuple, Optional, Sequence, Tuple, Type

from ._arrow import BATCH, ArrowScan, Asked
from ._cells import Column, Key
from ._errors import Misuse, Missing, NotKept, Path, TypeMismatch, check, check_files, sentence_of
from ._handles import PinHandle, Single, LoneHandle, TransactionHandle
from ._layers import Entry, Layer
from ._library import MAX_RECENT, MAX_ROWS, CountsOf, SizesOf, library
from ._opening import calls_alone, folder_of, open_table, options_of
from ._pin import Pin
from ._snapshot import Snapshot
from ._tables import KeyNames, TableSource, formats_of
from ._transaction import Transaction


class Sizes(NamedTuple):
    """The sizes of those parts of a table that grow between folds and checkpoints.

    Attributes
    ----------
    commits : int
        The number of the newest version.
    write_entries : int
        Entries of the Write-PDT, which ``fold`` moves into the Read-PDT.
    read_entries : int
        Entries of the Read-PDT, which ``checkpoint`` moves into the stable table.
    open_transactions : int
        Open transactions and snapshots.
    """

    commits: int
    write_entries: int
    read_entries: int
    open_transactions: int


class Counts(NamedTuple):
    """A table's counters since its opening, and what it retains now.

    Attributes
    ----------
    begins : int
        Transactions and snapshots begun.
    commits : int
        Transactions committed that changed something.
    conflicts : int
        Commits refused with ``Conflict``.
    too_old : int
        Commits refused with ``TooOld``.
    full : int
        Commits refused with ``Full``.
    folds : int
        Folds by ``Table.fold``.
    checkpoints : int
        Checkpoints installed.
    superseded : int
        Checkpoints that a fold or another checkpoint came before.
    pins : int
        Pins that are open now.
    oldest_pin : int or None
        The version of the oldest of them.
    kept : int
        Commits whose changes are retained now.
    kept_entries : int
        Entries of these changes.
    waits : int
        How often a thread waited for the table's lock.
    longest_hold : float
        The longest time that a call held the table's lock, in seconds.
    packs : int
        How often a fold packed the Read-PDT for scans.
    """

    begins: int
    commits: int
    conflicts: int
    too_old: int
    full: int
    folds: int
    checkpoints: int
    superseded: int
    pins: int
    oldest_pin: Optional[int]
    kept: int
    kept_entries: int
    waits: int
    longest_hold: float
    packs: int


#: For how many seconds C waits at a time: Python looks for an interrupt in between.
_TURN = 0.1


def version() -> str:
    """Return the version of the library that runs.

    Returns
    -------
    str
        The version, as "0.3.0".
    """
    text: bytes = library.pdt_version()
    return text.decode()


def open(
    table: TableSource,
    *,
    key: Optional[KeyNames] = None,
    types: Optional[Mapping[str, str]] = None,
    recent: int = MAX_RECENT,
    row_limit: int = MAX_ROWS,
    conflicts: str = "column",
) -> "Table":
    """Open a table in memory over a CSV text, its path, columns, or a stream of Arrow's.

    All rows are read into memory, in any order of their keys, and nothing is written to the source. Commits are in
    memory until ``Table.checkpoint`` writes them.

    Parameters
    ----------
    table : str, bytes, os.PathLike, mapping, DataFrame or object with ``__arrow_c_stream__``
        A CSV text: ``bytes``, or a ``str`` with a line end. Its first record names the columns: with their types, as
        ``id:int:key,name:text``, or alone, as ``id,name``. Then a column is of ints or booleans if each of its cells in
        the first 1,000 records is an integer, or ``true`` or ``false``, and else of texts; a later cell that isn't of
        that type is refused. Any other ``str``, and an ``os.PathLike``, is the path of such a text. Columns: a
        mapping from names to lists or arrays, or a DataFrame of pandas. A stream: a table of pyarrow, a DataFrame of
        polars or any other object that has one, read batch by batch.
    key : str or sequence of str, optional
        The columns that are the key, which come first then. Needed for columns and streams. For a CSV text without
        types it is the first column by default; one with types has it in its header.
    types : mapping of str to str, optional
        Types of some columns: "int", "text" or "bool", or a format that ``Table.declare`` takes, as "g" for floats.
        Only for columns; a CSV text and a stream have types of their own.
    recent : int, optional
        How many commits may come between a transaction's begin and its commit, and how many commits ``changes``
        retains: 1 to 65,536.
    row_limit : int, optional
        How many rows the table may have: 1 to 2,147,483,647.
    conflicts : {"column", "row"}, optional
        Whether changes of two columns of one row conflict ("row") or not ("column").

    Returns
    -------
    Table
        The table.

    Raises
    ------
    BadTable
        The text isn't a table: ``record``, ``column`` and ``cause`` have its first fault. Or a name or the key of
        columns isn't valid, or two rows of columns have one key.
    TypeMismatch
        A value doesn't fit the type of its column, or there is no such column. For a stream ``row`` and ``column`` have
        the place.
    Duplicate
        Two rows of a stream have one key: ``row`` is the second one.
    DeviceFailed
        The stream failed, and the sentence has its message.
    TooManyRows
        More rows than ``row_limit``.
    BadLimit
        ``recent``, ``row_limit`` or ``conflicts`` isn't valid.
    NoMemory
        Out of memory.
    OSError
        The file can't be read.
    TypeError
        ``table`` isn't one of these, or ``key`` or ``types`` are given beside a source that has its own.
    """
    options, handle = options_of(recent, row_limit, conflicts), LoneHandle()
    open_table(calls_alone(), table, key, types, options, handle.room)
    return Table(handle)._with_declared(types)


def recover(folder: Path, *, recent: int = MAX_RECENT, row_limit: int = MAX_ROWS, conflicts: str = "column") -> "Table":
    """Open a table over a checkpoint in a folder, which ``Table.checkpoint`` wrote.

    The files are read whole and not changed. Later commits are in memory until a checkpoint writes them into another
    folder.

    Parameters
    ----------
    folder : str, bytes or os.PathLike
        The folder.
    recent : int, optional
        How many commits may come between a transaction's begin and its commit: 1 to 65,536.
    row_limit : int, optional
        How many rows the table may have: 1 to 2,147,483,647.
    conflicts : {"column", "row"}, optional
        Whether changes of two columns of one row conflict ("row") or not ("column").

    Returns
    -------
    Table
        The table.

    Raises
    ------
    FileFailed
        A file can't be read: ``errno`` has the cause.
    BadTable
        ``header.csv`` doesn't describe columns.
    BadCheckpoint
        The file of a column can't be read as one.
    NoCheckpoint
        The files contain no complete checkpoint.
    TooManyRows
        More rows than ``row_limit``.
    BadLimit
        ``recent``, ``row_limit`` or ``conflicts`` isn't valid.
    NoMemory
        Out of memory.

    Notes
    -----
    Truncated files and bytes that don't have a column's structure are found. Other damage isn't: a checkpoint has no
    checksum. A database has them.
    """
    options = options_of(recent, row_limit, conflicts)
    handle = LoneHandle()
    check_files(library.pdt_recover(folder_of(folder), byref(options), byref(handle.room)), folder)
    return Table(handle)


class Table(Single):
    """An ordered table that takes commits.

    Any threads may use it at once; each transaction is for one thread at a time.

    A table outside a database, from ``open`` or ``recover``, is in memory. Its checkpoints are durable. Commits since
    the last one are lost with the process, and with ``close``. It needs explicit maintenance: ``sizes`` reports what
    has grown.

    A table of a database, from ``connect``, is durable and needs no maintenance. Its numbers are those of the database:
    a commit that changed other tables takes a number here too.

    A table retains what the last ``recent`` commits changed, for ``changes`` and late commits, and doesn't grow with
    the number of commits.

    With ``with`` the table is closed at the end of the block. A table of a database is closed by its database.
    """

    __slots__ = ("_handle", "_shaping", "__weakref__")

    def __init__(self, handle: LoneHandle) -> None:
        self._handle = handle
        self._shaping = handle.shaping()

    def _with_declared(self, types: Optional[Mapping[str, str]]) -> "Table":
        """The table, whose columns are declared as their types say."""
        for column, format_ in formats_of(types).items():
            self.declare(column, format_)
        return self

    def _stands_for(self, handle: LoneHandle) -> bool:
        return self._handle is handle

    @property
    def columns(self) -> Tuple[Column, ...]:
        """The columns, the key columns first. They never change."""
        return self._shaping.columns

    def read(self) -> Snapshot:
        """Take a snapshot of the newest version, for reading: ``with table.read() as snapshot:``.

        It waits for no commit, fold or checkpoint, and takes no commit number, so that it makes no open transaction too
        old. One thread at a time uses it: threads that read one version side by side use ``pin``.

        Returns
        -------
        Snapshot
            The snapshot.

        Raises
        ------
        NoMemory
            Out of memory. Nothing changed.
        Misuse
            The table is closed.
        """
        return Snapshot(TransactionHandle(self._handle, reads=True), self._shaping)

    def begin(self) -> Transaction:
        """Begin a transaction over the newest version: ``with table.begin() as txn:``.

        It waits for no commit, fold or checkpoint.

        Returns
        -------
        Transaction
            The transaction.

        Raises
        ------
        NoMemory
            Out of memory. Nothing changed.
        Misuse
            The table is closed.
        """
        return Transaction(TransactionHandle(self._handle), self._shaping)

    def pin(self) -> Pin:
        """Pin the newest version, so that any threads read it until the pin is closed.

        ``with table.pin() as pin:``, and then ``with pin.read() as snapshot:`` in each thread.

        Returns
        -------
        Pin
            The pin.

        Raises
        ------
        NoMemory
            Out of memory. Nothing changed.
        Misuse
            The table is closed.

        Examples
        --------
        >>> import narthexmace
        >>> table = narthexmace.open("id:int:key,qty:int\\n1,5\\n")
        >>> with table.pin() as pin:
        ...     with table.begin() as txn:
        ...         txn.delete(1)
        ...     with pin.read() as snapshot:
        ...         print(pin.number, snapshot[:], table.sizes().commits)
        0 [(1, 5)] 1
        >>> table.close()
        """
        return Pin(PinHandle(self._handle), self._shaping)

    def arrow(
        self,
        columns: Optional[Sequence[str]] = None,
        start: int = 0,
        stop: Optional[int] = None,
        *,
        keys: Optional[Tuple[Optional[Key], Optional[Key]]] = None,
        as_types: Optional[Mapping[str, str]] = None,
        batch: int = BATCH,
    ) -> ArrowScan:
        """Return rows of the newest version for any library that reads Arrow.

        The scan has a pin of its own, so that each of its streams reads this version. The table can't be closed while a
        stream is open, and closing it ends the scan.

        Parameters
        ----------
        columns : sequence of str, optional
            The names of the columns; all of them by default.
        start : int, optional
            The position of the first row, from 0.
        stop : int, optional
            The position after the last row; the end by default.
        keys : tuple of two keys, optional
            The rows from the first key on and below the second, in place of positions. None for a key is no bound.
        as_types : mapping of str to str, optional
            Formats for some columns, as ``ArrowScan`` has them.
        batch : int, optional
            How many rows a batch has at most.

        Returns
        -------
        ArrowScan
            The scan.

        Raises
        ------
        TypeMismatch
            There is no such column, a format isn't valid for it, a column is named twice, a position is negative,
            positions and keys are given, or a key doesn't fit the key columns.
        NoMemory
            Out of memory. Nothing changed.
        Misuse
            The table is closed.
        """
        pin = self.pin()
        asked = Asked(start, stop, keys)
        return ArrowScan(pin._handle, self._shaping, pin._ranks, columns, asked, as_types, batch, pin)

    def __arrow_c_stream__(self, requested_schema: Any = None) -> Any:
        """Return all rows of the newest version as an Arrow stream capsule.

        Each call reads the version that is then the newest; ``arrow`` keeps one.

        Parameters
        ----------
        requested_schema : capsule, optional
            A schema, read only for whether texts have offsets of 32 or of 64 bits.

        Returns
        -------
        capsule
            A ``PyCapsule`` named "arrow_array_stream".

        Raises
        ------
        NoMemory
            Out of memory. Nothing changed.
        Misuse
            The table is closed.
        """
        return self.arrow().__arrow_c_stream__(requested_schema)

    def __arrow_c_schema__(self) -> Any:
        """Return the columns as an Arrow schema capsule.

        Returns
        -------
        capsule
            A ``PyCapsule`` named "arrow_schema".

        Raises
        ------
        NoMemory
            Out of memory. Nothing changed.
        Misuse
            The table is closed.
        """
        return self.arrow().__arrow_c_schema__()

    def declare(self, column: str, format: Optional[str]) -> None:
        """Declare what the numbers of an int column mean, as Arrow spells it: "tdD" for dates, "g" for doubles.

        Streams of Arrow's then have the column in this format, and streams that come in with another meaning are
        refused. In rows and keys its cells are

        - floats for "g",
        - dates for "tdD",
        - datetimes for "tsu:", "tsm:" and "tss:", of UTC with a time zone after the colon, as "tsu:UTC",
        - Decimals for "d:P,S", as "d:15,2",
        - also None, with "?" before any format; a key column can't have it. The least int64 is stored for None.

        Cells of other formats stay ints, and so do all cells in batches and spans. In a database the declaration is
        durable. No other thread may use the table meanwhile.

        Parameters
        ----------
        column : str
            The column's name.
        format : str or None
            The format, or None to remove the declaration.

        Raises
        ------
        TypeMismatch
            There is no such column, it isn't an int column, or the format isn't valid for it.
        FileFailed
            A file of the database can't be written: ``errno`` has the cause.
        ReadOnlyDatabase
            The database was opened read-only.
        Misuse
            The table is closed.
        """
        place = self._shaping.column(column)
        with self._handle as at:
            code = library.pdt_declare(at, place, format and format.encode())
        check_files(code, column)
        self._shaping.declare(place, format)

    @property
    def declared(self) -> Dict[str, str]:
        """The format of each column that is declared, by its name."""
        with self._handle as at:
            formats = {name: library.pdt_declared(at, place) for place, name in enumerate(self._shaping.names)}
        return {name: format.decode() for name, format in formats.items() if format is not None}

    def fold(self) -> None:
        """Fold the Write-PDT into the Read-PDT (a delta merge), so that later commits are applied to a small tree.

        No version changes. Commits wait for the time that it takes to merge the entries.

        Raises
        ------
        NoMemory
            Out of memory. Nothing changed.
        Misuse
            The table is closed.
        """
        with self._handle as at:
            check(library.pdt_fold(at))

    def trim(self) -> None:
        """Free what the last commits changed, before there are ``recent`` of them.

        A transaction that began before the newest commit gets ``TooOld`` if it commits a change, and reads on. One that
        began after it isn't affected. ``changes`` after an earlier number raises ``NotKept``.

        Raises
        ------
        Misuse
            The table is closed.
        """
        with self._handle as at:
            check(library.pdt_trim(at))

    def checkpoint(self, folder: Path) -> None:
        """Write the newest version into a folder that has no checkpoint. When it returns, that version is durable.

        ``recover`` opens it again. Later commits need another checkpoint, in another folder.

        Parameters
        ----------
        folder : str, bytes or os.PathLike
            A folder that exists.

        Raises
        ------
        Exists
            The folder has a checkpoint, or a part of one.
        FileFailed
            A file can't be written or synced, or the folder isn't there: ``errno`` has the cause.
        WritesFailed
            A commit of the table's database can't be made durable.
        NoMemory
            Out of memory.
        Misuse
            The table is closed.

        Notes
        -----
        After an exception the files that were written are deleted.
        """
        with self._handle as at:
            check_files(library.pdt_checkpoint(at, folder_of(folder)), folder)

    def sizes(self) -> Sizes:
        """Report what has grown since the last fold and checkpoint.

        Returns
        -------
        Sizes
            The sizes.

        Raises
        ------
        Misuse
            The table is closed.
        """
        sizes = SizesOf()
        with self._handle as at:
            check(library.pdt_size(at, byref(sizes)))
        return Sizes(sizes.commits, sizes.write_entries, sizes.read_entries, sizes.open_transactions)

    def counts(self) -> Counts:
        """Read the table's counters. Commits wait while it visits the retained commits.

        Returns
        -------
        Counts
            The counters.

        Raises
        ------
        Misuse
            The table is closed.
        """
        counts = CountsOf(ctypes.sizeof(CountsOf))
        with self._handle as at:
            check(library.pdt_count(at, byref(counts)))
        told = {name: getattr(counts, name) for name in Counts._fields}
        told["oldest_pin"] = counts.oldest_pin if counts.pins else None
        told["longest_hold"] = counts.longest_hold / 1e9
        return Counts(**told)

    def changes(self, after: int) -> Iterator[Tuple[int, List[Entry]]]:
        """Return what each commit after a number changed, up to the newest commit of this call.

        ``for number, entries in table.changes(after=n)``: the numbers are n + 1, n + 2 and so on, without a gap. The
        entries are over the version before their commit, and turn it into the version of their number. A replaced row
        is an insert and a delete of one key: a follower that keeps rows by key applies the deletes of a commit first.
        In a database a commit that changed other tables has no entries here.

        Parameters
        ----------
        after : int
            A version's number, as ``Pin.number`` or ``Snapshot.version``.

        Returns
        -------
        iterator of tuple of (int, list of Entry)
            The number of each commit and its entries.

        Raises
        ------
        NotKept
            At the call or at a later step: the next commit isn't retained, since more than ``recent`` commits came
            since, or a trim. Or ``after`` is above the newest number. Start again from a pin.
        NoMemory
            Out of memory.
        Misuse
            The table is closed, or ``after`` is negative.

        Examples
        --------
        >>> import narthexmace
        >>> table = narthexmace.open("id:int:key,qty:int\\n1,5\\n")
        >>> with table.begin() as txn:
        ...     txn.set(1, "qty", 7)
        ...     txn.insert((2, 0))
        >>> for number, entries in table.changes(after=0):
        ...     print(number, [(entry.kind, entry.values) for entry in entries])
        1 [('modify', (7,)), ('insert', (2, 0))]
        >>> table.close()
        """
        number, newest = _number(after), self._newest()
        if number == newest or number > newest and self._handle.has_numbered(number):
            return iter(())
        return self._changes(self._layer_of(number + 1, newest), number + 1, newest)

    def _newest(self) -> int:
        """The number of the table that begins take. A commit whose number is above it isn't to be seen yet."""
        commits = c_uint64()
        with self._handle as at:
            code = library.pdt_wait(at, 2**64 - 1, 0, byref(commits))  # it waits for nothing, and writes the number
        if code != Missing.code:
            check(code)
        return commits.value

    def _changes(self, layer: Layer, number: int, newest: int) -> Iterator[Tuple[int, List[Entry]]]:
        while True:
            yield number, list(layer)
            if number == newest:
                return
            number += 1
            layer = self._layer_of(number, newest)

    def _layer_of(self, number: int, newest: int) -> Layer:
        """The changes of the commit of a number. NotKept if they are no longer retained."""
        layer = Layer("commit", self._shaping)
        with self._handle as at:
            code = library.pdt_changes(at, number, byref(layer.room))
        if code == Missing.code:
            error = NotKept(f"{sentence_of(code)}, and {newest} is the newest one")
            error.number = number
            raise error
        check(code)
        return layer

    def wait(self, after: int, seconds: float) -> Optional[int]:
        """Block until the newest version has a number above ``after``. Other threads go on meanwhile.

        Parameters
        ----------
        after : int
            A version's number.
        seconds : float
            How long to wait at most.

        Returns
        -------
        int or None
            The newest version's number, or None if there was no commit in that time.

        Raises
        ------
        Misuse
            The table is closed, or ``after`` is negative.
        """
        number, commits, end = _number(after), c_uint64(), time.monotonic() + seconds
        with self._handle as at:
            while True:
                turn = min(max(end - time.monotonic(), 0), _TURN)
                code = library.pdt_wait(at, number, math.ceil(turn * 1000), byref(commits))
                if code != Missing.code:
                    check(code)
                    return commits.value
                if time.monotonic() >= end:
                    return None

    def layers(self) -> Iterator[Entry]:
        """Return the entries of the newest version's Read-PDT, and then of its Write-PDT, in order.

        They are as of the call, whatever is committed meanwhile.

        Returns
        -------
        iterator of Entry
            The entries.

        Raises
        ------
        NoMemory
            Out of memory. Nothing changed.
        Misuse
            The table is closed.
        """
        read, write = Layer("read", self._shaping), Layer("write", self._shaping)
        with self._handle as at:
            check(library.pdt_layers(at, byref(read.room), byref(write.room)))
        return chain(read, write)

    def close(self) -> None:
        """Close the table. Commits that no checkpoint has written are lost. Closing again does nothing.

        Snapshots, pins and Arrow scans end with it, and their calls then raise ``Misuse``. Memory that arrays read
        stays valid.

        Raises
        ------
        Misuse
            A transaction or an Arrow stream is open, an array is over memory that ``int_spans`` returned, or another
            thread is in a call: the table stays open. Or the table is in a database, which ``Database.close`` closes.
        """
        self._handle.close()

    def __enter__(self) -> "Table":
        return self

    def __exit__(self, kind: Optional[Type[BaseException]], error: Optional[BaseException], trace: Optional[TracebackType]) -> None:
        """Closes the table; at an exception it is closed with the last of its transactions and pins.

        A table of a database stays open.
        """
        if self._handle.name is not None:
            return
        if kind is None:
            self.close()
        else:
            self._handle.end()

    def __repr__(self) -> str:
        name = "" if self._handle.name is None else f" {self._handle.name!r}"
        return f"<Table{name} of {', '.join(self._shaping.names)}>"


def _number(number: int) -> int:
    """A number of a commit, or 0."""
    if not 0 <= operator.index(number) < 2**64 - 1:
        raise Misuse("the numbers of tables count from 0")
    return operator.index(number)
