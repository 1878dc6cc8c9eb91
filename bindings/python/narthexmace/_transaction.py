"""Transactions: what one writes, and reads over the table as it was when it began."""
from __future__ import annotations

from contextlib import contextmanager
from ctypes import byref, c_size_t, c_uint64
from types import TracebackType
from typing import Iterator, Mapping, Optional, Sequence, Type, Union

from ._arrow import check_columns, new_fault, stream_of
from ._cells import Cell, Key
from ._columns import PassedColumns
from ._errors import Duplicate, Missing, TypeMismatch, check, error_of
from ._layers import Entry, Layer
from ._library import NO_NUMBER, library
from ._sentences import quoted
from ._snapshot import Snapshot
from ._tables import Many, columns_for


#: The operation applied to each row: enum pdt_apply.
_INSERT, _UPSERT, _DELETE = 1, 2, 3


def check_commit(code: int, number: int) -> None:
    """Like ``check``, for a commit. If it has ended its transaction, ``number`` is that of the newest table."""
    if not code:
        return
    error = error_of(code)
    if number != NO_NUMBER:
        error.commits = number  # type: ignore[attr-defined]
    raise error


class Transaction(Snapshot):
    """A transaction: the version of its begin with its own writes, which a commit makes visible to others.

    One thread at a time uses it: a call while another thread is in one raises ``Misuse``, and so does a call once it is
    over. With ``with`` it commits at the end of the block, and aborts at an exception. One that is dropped while it is
    open is aborted. For reads alone use a ``Snapshot``, from ``Table.read``.
    """

    __slots__ = ()

    def commit(self) -> int:
        """Commit, and return the number of the new version.

        A transaction that changes nothing takes no number: it ends as by ``abort``, and returns ``version``. A commit
        outside a database is in memory until a checkpoint writes it; a commit of a database is as durable as its
        ``sync`` says.

        Returns
        -------
        int
            The number of the new version.

        Raises
        ------
        Conflict
            A concurrent commit modified the same data. The transaction is over: begin again, and repeat the work.
        TooOld
            The changes of a commit since the begin aren't retained any more. The transaction is over: begin again.
        Full
            The table would have more rows than ``row_limit``. The transaction is over.
        OutcomeUnknown
            In a database: I/O error while the commit was written. The transaction is over; whether it is durable is
            unknown until the database is reopened.
        NoMemory
            Out of memory. The transaction stays open, and may commit again.
        Borrowed
            An array or another view is over memory that ``int_spans`` returned. The transaction stays open.
        WritesFailed
            In a database: an earlier write failed. The transaction stays open.
        TooLong
            In a database: the changes take 4 GiB or more in the journal. The transaction stays open.
        ReadOnlyDatabase
            The database was opened read-only. The transaction stays open.
        Misuse
            The transaction is over, another thread is in a call of it, or it is part of a database transaction, which
            commits as a whole.
        """
        number = c_uint64()
        with self._handle:
            code = self._handle.end_by(library.pdt_commit, number)
        check_commit(code, number.value)
        return number.value

    def __exit__(self, kind: Optional[Type[BaseException]], error: Optional[BaseException], trace: Optional[TracebackType]) -> None:
        if not self.is_open:
            return
        if kind is not None:
            self.abort()
            return
        try:
            self.commit()
        finally:
            if self.is_open:
                self.abort()

    def _decide(self) -> None:
        """Decides as ``commit`` would, and raises what that would raise. Nothing is committed: it stays open as it was.

        Conflict, TooOld and Full end it. The decision holds until the table's next commit. Made where no interrupt
        comes, as in a thread that isn't the main one: the table's lock is held from one call of C to the next.
        """
        with self._handle:
            code = self._handle.decide()
        check(code)

    # ---- writes

    def insert(self, row: Union[Sequence[Cell], Mapping[str, Cell]]) -> None:
        """Insert a row.

        Parameters
        ----------
        row : sequence of cells, or mapping of str to cell
            The cells in the order of the columns, or by their names.

        Raises
        ------
        Duplicate
            A row with this key exists.
        Full
            The table would have more rows than ``row_limit``.
        TypeMismatch
            A cell doesn't fit its column, or there are too few or too many.
        Borrowed
            An array or another view is still over memory that ``int_spans`` returned.
        NoMemory
            Out of memory. Nothing changed.
        Misuse
            The transaction or snapshot is over, or another thread is in a call of it.
        """
        numbers, texts, count = self._shaping.row(row)
        with self._handle as at:
            self._handle.take_back()
            code = library.pdt_insert(at, numbers, texts, count)
            if code == Duplicate.code:
                raise Duplicate(self._told(code, self._shaping.key_in(row)))
            check(code)
            self._writes += 1

    def delete(self, key: Key) -> None:
        """Delete the row of a key.

        Parameters
        ----------
        key : cell or sequence of cells
            The cells of the key columns; the cell itself for a key of one column.

        Raises
        ------
        Missing
            No row has this key.
        TypeMismatch
            The key doesn't fit the key columns.
        Borrowed
            An array or another view is still over memory that ``int_spans`` returned.
        NoMemory
            Out of memory. Nothing changed.
        Misuse
            The transaction or snapshot is over, or another thread is in a call of it.
        """
        numbers, texts, count = self._shaping.key(key)
        with self._handle as at:
            self._handle.take_back()
            self._check_there(library.pdt_delete(at, numbers, texts, count), key)
            self._writes += 1

    def set(self, key: Key, column: str, value: Cell) -> None:
        """Set one cell of the row of a key.

        Parameters
        ----------
        key : cell or sequence of cells
            The cells of the key columns; the cell itself for a key of one column.
        column : str
            The column's name. It isn't a key column.
        value : cell
            The value.

        Raises
        ------
        Missing
            No row has this key.
        TypeMismatch
            The key doesn't fit the key columns, there is no such column, it is a key column, or the value doesn't fit
            it.
        Borrowed
            An array or another view is still over memory that ``int_spans`` returned.
        NoMemory
            Out of memory. Nothing changed.
        Misuse
            The transaction or snapshot is over, or another thread is in a call of it.
        """
        numbers, texts, count = self._shaping.key(key)
        place = self._shaping.column(column)
        if self._shaping.columns[place].key:
            raise TypeMismatch(f"column {quoted(column)} is a key column, which can't be set")
        number, text = self._shaping.cell(value, place)
        with self._handle as at:
            self._handle.take_back()
            self._check_there(library.pdt_set(at, numbers, texts, count, place, number, text), key)
            self._writes += 1

    def _check_there(self, code: int, key: Key) -> None:
        if code == Missing.code:
            raise Missing(self._told(code, key))
        check(code)

    def _told(self, code: int, key: Key) -> str:
        """The sentence of a refusal that names a key, and the table of a database that it is in."""
        sentence, name = self._shaping.told(code, key), self._handle.name
        return sentence if name is None else f"{sentence} in the table {quoted(name)}"

    def insert_many(self, rows: Many) -> int:
        """Insert the rows of columns: all of them, or none.

        Parameters
        ----------
        rows : mapping, DataFrame or object with ``__arrow_c_stream__``
            Columns with the names and types of the table's, in any order: a mapping from names to lists or arrays, a
            DataFrame of pandas, or any object that has a stream of Arrow's.

        Returns
        -------
        int
            How many rows were inserted.

        Raises
        ------
        Duplicate
            A row with the key of row ``row`` exists; ``row`` counts from 0.
        Full
            The table would have more rows than ``row_limit``.
        TypeMismatch
            The columns aren't those of the table, or a cell doesn't fit its column: ``row`` and ``column`` have the
            place.
        DeviceFailed
            The stream failed, and the sentence has its message.
        TooManyRows
            A batch of the stream has more than 2,147,483,647 rows.
        Borrowed
            An array or another view is still over memory that ``int_spans`` returned.
        NoMemory
            Out of memory. Nothing changed.
        Misuse
            The transaction or snapshot is over, or another thread is in a call of it.
        """
        return self._apply(rows, _INSERT)

    def upsert_many(self, rows: Many) -> int:
        """Insert the rows of columns, or set all other cells of the rows that have their keys: all of them, or none.

        Parameters
        ----------
        rows : mapping, DataFrame or object with ``__arrow_c_stream__``
            Columns, as ``insert_many`` takes them.

        Returns
        -------
        int
            How many rows were inserted or set.

        Raises
        ------
        Full
            The table would have more rows than ``row_limit``.
        TypeMismatch
            The columns aren't those of the table, or a cell doesn't fit its column: ``row`` and ``column`` have the
            place.
        DeviceFailed
            The stream failed, and the sentence has its message.
        TooManyRows
            A batch of the stream has more than 2,147,483,647 rows.
        Borrowed
            An array or another view is still over memory that ``int_spans`` returned.
        NoMemory
            Out of memory. Nothing changed.
        Misuse
            The transaction or snapshot is over, or another thread is in a call of it.
        """
        return self._apply(rows, _UPSERT)

    def delete_many(self, keys: Many) -> int:
        """Delete the rows of keys, in columns: all of them, or none.

        Parameters
        ----------
        keys : mapping, DataFrame or object with ``__arrow_c_stream__``
            Columns, as ``insert_many`` takes them. Columns that aren't in the key are ignored.

        Returns
        -------
        int
            How many rows were deleted.

        Raises
        ------
        Missing
            No row has the key of row ``row``, which counts from 0.
        TypeMismatch
            A key column is missing, or a cell doesn't fit its column: ``row`` and ``column`` have the place.
        DeviceFailed
            The stream failed, and the sentence has its message.
        TooManyRows
            A batch of the stream has more than 2,147,483,647 rows.
        Borrowed
            An array or another view is still over memory that ``int_spans`` returned.
        NoMemory
            Out of memory. Nothing changed.
        Misuse
            The transaction or snapshot is over, or another thread is in a call of it.
        """
        return self._apply(keys, _DELETE)

    def _apply(self, rows: Many, what: int) -> int:
        stream, fault, done = stream_of(rows), new_fault(), c_uint64()
        passed = None
        if stream is None:
            passed = PassedColumns(columns_for(rows, self._shaping, what == _DELETE))
        with self._handle as at:
            self._handle.take_back()
            self._writes += 1
            if stream is not None:
                code = library.pdt_apply_arrow(at, stream.at, what, byref(fault), byref(done))
            else:
                assert passed is not None
                columns = passed.columns
                code = library.pdt_apply_columns(at, columns, len(columns), what, byref(fault), byref(done))
        check_columns(code, fault)
        return done.value

    @contextmanager
    def savepoint(self) -> Iterator[None]:
        """Open a block whose writes are undone if an exception leaves it: ``with txn.savepoint():``.

        The exception is raised on, and the transaction stays open. Blocks nest. A scan that began before writes were
        undone ends with ``Misuse``, as after a write. If the block commits or aborts the transaction, nothing is
        undone. What ``int_spans`` returned stays valid.

        Yields
        ------
        None
            Nothing.

        Raises
        ------
        NoMemory
            Out of memory. Nothing changed.
        Misuse
            The transaction or snapshot is over, or another thread is in a call of it.

        Examples
        --------
        >>> import narthexmace
        >>> table = narthexmace.open("id:int:key,qty:int\\n1,5\\n")
        >>> with table.begin() as txn:
        ...     try:
        ...         with txn.savepoint():
        ...             txn.set(1, "qty", -1)
        ...             raise ValueError("sold out")
        ...     except ValueError:
        ...         print(txn.get(1))
        (1, 5)
        >>> table.close()
        """
        level = c_size_t()
        with self._handle as at:
            check(library.pdt_savepoint(at, byref(level)))
        try:
            yield
        except BaseException:
            self._end_savepoint(level.value, undo=True)
            raise
        self._end_savepoint(level.value, undo=False)

    def _end_savepoint(self, level: int, undo: bool) -> None:
        if not self._handle.is_open:
            return
        with self._handle as at:
            if undo:
                check(library.pdt_rollback_to(at, level))
                self._writes += 1
            check(library.pdt_release(at, level))

    def layer(self) -> Iterator[Entry]:
        """Return the entries of its own writes so far, in order, over the rows of the version that it began over.

        They are as of the call: later writes don't change them.

        Returns
        -------
        iterator of Entry
            The entries.

        Raises
        ------
        NoMemory
            Out of memory. Nothing changed.
        Misuse
            The transaction or snapshot is over, or another thread is in a call of it.
        """
        own = Layer("own", self._shaping)
        with self._handle as at:
            check(library.pdt_own_layer(at, byref(own.room)))
        return iter(own)
