"""Snapshots: what is read of a table as it was at one moment."""
from __future__ import annotations

import ctypes
import operator
from ctypes import byref, c_bool, c_size_t, c_uint64
from types import TracebackType
from typing import TYPE_CHECKING, Any, Callable, Iterator, List, Mapping, NamedTuple, Optional, Sequence, Tuple, Type
from typing import NoReturn, TypeVar, Union, overload

from ._arrow import ArrowScan, Asked
from ._batches import Batch, IntSpans
from ._cells import INT, Key, Row, Shaping
from ._errors import Misuse, Missing, ReadOnly, TypeMismatch, TooSmall, check
from ._frames import series_of
from ._handles import Single, TransactionHandle
from ._library import library
from ._reads import aligned, column_of, int_spans_of, runs_of
from ._sentences import quoted

if TYPE_CHECKING:
    from pandas import DataFrame

Self = TypeVar("Self", bound="Snapshot")
Names = Union[List[str], Tuple[str, ...]]

BATCH = 65_536
#: The calls that a transaction has, and a snapshot hasn't.
_WRITES = ("insert", "delete", "set", "insert_many", "upsert_many", "delete_many", "savepoint", "layer", "commit")


class Rank(NamedTuple):
    """Where a key is among the rows.

    Attributes
    ----------
    below : int
        How many rows have a smaller key: the position of the key's row, if there is one.
    there : bool
        Whether a row has this key.
    """

    below: int
    there: bool


class Snapshot(Single):
    """The rows of one version, for reading. From ``Table.read``, ``Pin.read`` or ``DatabaseSnapshot``.

    The rows are numbered from 0 in ascending key. Later commits aren't visible. A write raises ``ReadOnly``. One thread
    at a time uses it: a call while another thread is in one raises ``Misuse``, and so does a call once it is over. With
    ``with`` it ends with the block, and one that is dropped ends too.
    """

    __slots__ = ("_handle", "_shaping", "_writes", "_numbers", "_room", "__weakref__")

    def __init__(self, handle: TransactionHandle, shaping: Shaping) -> None:
        self._handle = handle
        self._shaping = shaping
        self._writes = 0  # how many were done: a scan goes on only while there is none more
        self._numbers = shaping.numbers()
        self._room = ctypes.create_string_buffer(1024)

    if not TYPE_CHECKING:  # a checker of types knows none of these names here

        def __getattr__(self, name: str) -> NoReturn:
            if name in _WRITES:
                raise ReadOnly(f"a snapshot is for reading, and has no {name}: Table.begin begins a transaction")
            raise AttributeError(f"a {type(self).__name__} has no {name!r}")

    @property
    def is_open(self) -> bool:
        """Whether it may still be used."""
        return self._handle.is_open

    @property
    def version(self) -> int:
        """The number of the version that it sees. ``Misuse`` once it is over."""
        number = c_uint64()
        with self._handle as at:
            check(library.pdt_txn_version(at, byref(number)))
        return number.value

    def abort(self) -> None:
        """End it without a commit. Aborting again does nothing.

        Raises
        ------
        Misuse
            It is part of a database transaction, which ends as a whole; or another thread is in a call of it.
        """
        self._handle.abort()

    def __enter__(self: Self) -> Self:
        self._handle.may_end_alone()
        return self

    def __exit__(self, kind: Optional[Type[BaseException]], error: Optional[BaseException], trace: Optional[TracebackType]) -> None:
        self.abort()

    # ---- reads of rows

    def get(self, key: Key, default: Any = None) -> Any:
        """Return the row of a key.

        Parameters
        ----------
        key : cell or sequence of cells
            The cells of the key columns; the cell itself for a key of one column.
        default : object, optional
            What to return if no row has this key.

        Returns
        -------
        tuple or object
            The row's cells in the order of the columns, or ``default``.

        Raises
        ------
        TypeMismatch
            The key doesn't fit the key columns.
        NoMemory
            Out of memory. Nothing changed.
        Misuse
            The transaction or snapshot is over, or another thread is in a call of it.
        """
        numbers, texts, count = self._shaping.key(key)

        def call(at: int, *room: Any) -> int:
            return int(library.pdt_get(at, numbers, texts, count, *room))

        row = self._row(call)
        return default if row is None else row

    def rank(self, key: Key) -> Rank:
        """Return how many rows have a smaller key, and whether a row has this key.

        A range of keys is the range of positions between two ranks.

        Parameters
        ----------
        key : cell or sequence of cells
            The cells of the key columns; the cell itself for a key of one column.

        Returns
        -------
        Rank
            ``below`` and ``there``.

        Raises
        ------
        TypeMismatch
            The key doesn't fit the key columns.
        NoMemory
            Out of memory. Nothing changed.
        Misuse
            The transaction or snapshot is over, or another thread is in a call of it.
        """
        numbers, texts, count = self._shaping.key(key)
        below, there = c_uint64(), c_bool()
        with self._handle as at:
            check(library.pdt_rank(at, numbers, texts, count, byref(below), byref(there)))
        return Rank(below.value, there.value)

    def __contains__(self, key: object) -> bool:
        """Return whether a row has a key: ``10 in snapshot``, ``("a", 1) in snapshot``.

        Parameters
        ----------
        key : cell or sequence of cells
            The cells of the key columns; the cell itself for a key of one column.

        Returns
        -------
        bool
            Whether there is such a row.

        Raises
        ------
        TypeMismatch
            The key doesn't fit the key columns.
        NoMemory
            Out of memory. Nothing changed.
        Misuse
            The transaction or snapshot is over, or another thread is in a call of it.
        """
        return self.rank(key).there

    def __len__(self) -> int:
        """Return how many rows there are.

        Returns
        -------
        int
            The number of rows.

        Raises
        ------
        Misuse
            The transaction or snapshot is over, or another thread is in a call of it.
        """
        rows = c_uint64()
        with self._handle as at:
            check(library.pdt_rows(at, byref(rows)))
        return rows.value

    @overload
    def __getitem__(self, position: int) -> Row:
        ...

    @overload
    def __getitem__(self, position: slice) -> List[Row]:
        ...

    def __getitem__(self, position: Union[int, slice]) -> Union[Row, List[Row]]:
        """Return the row at a position, or the rows of a slice.

        Parameters
        ----------
        position : int or slice
            A position from 0, or from the end if it is negative; or a slice of positions.

        Returns
        -------
        tuple or list of tuple
            The row, or the rows of the slice.

        Raises
        ------
        IndexError
            There is no row at the position.
        NoMemory
            Out of memory. Nothing changed.
        Misuse
            The transaction or snapshot is over, or another thread is in a call of it.
        """
        if isinstance(position, slice):
            return self._rows(position)
        place = operator.index(position)
        if place < 0:
            place += len(self)
        row = self._row(lambda at, *room: library.pdt_row_at(at, place, *room)) if 0 <= place < 2**64 else None
        if row is None:
            raise IndexError(f"there is no row at {position}")
        return row

    def _rows(self, places: slice) -> List[Row]:
        taken = range(len(self))[places]
        if not taken:
            return []
        low, high = min(taken[0], taken[-1]), max(taken[0], taken[-1]) + 1
        rows = [row for batch in self.scan(start=low, stop=high) for row in batch.rows()]
        return rows[:: taken.step]

    def __iter__(self) -> Iterator[Row]:
        """Iterate over the rows in ascending key. A write of the transaction ends it with ``Misuse``.

        Yields
        ------
        tuple
            The cells of each row in the order of the columns.

        Raises
        ------
        NoMemory
            Out of memory. Nothing changed.
        Misuse
            The transaction or snapshot is over, or another thread is in a call of it.
        """
        for batch in self.scan(batch=1024):
            yield from batch.rows()

    def _row(self, call: Callable[..., int]) -> Optional[Row]:
        """The row that a call puts into room, which grows to what it needs; None where there is no row."""
        needed = c_size_t()
        with self._handle as at:
            code = call(at, self._numbers, self._room, len(self._room), byref(needed))
            if code == TooSmall.code:
                self._room = ctypes.create_string_buffer(needed.value)
                code = call(at, self._numbers, self._room, len(self._room), byref(needed))
            if code == Missing.code:
                return None
            check(code)
            return self._shaping.row_of(self._numbers, memoryview(self._room))

    # ---- scans

    def scan(
        self,
        columns: Optional[Sequence[str]] = None,
        start: int = 0,
        stop: Optional[int] = None,
        batch: int = BATCH,
    ) -> Iterator[Batch]:
        """Return the rows between two positions in batches of columns.

        Each batch has memory of its own, into which C copies the cells once. A write between two batches would move the
        positions: the next batch raises ``Misuse``.

        Parameters
        ----------
        columns : sequence of str, optional
            The names of the columns; all of them by default.
        start : int, optional
            The position of the first row, from 0.
        stop : int, optional
            The position after the last row; the end by default.
        batch : int, optional
            How many rows a batch has at most.

        Returns
        -------
        iterator of Batch
            The batches, in order.

        Raises
        ------
        TypeMismatch
            There is no such column, ``columns`` is a str, a position is negative, or ``batch`` is less than 1.
        Misuse
            At a later step: the transaction has written since the scan began, or is over.
        NoMemory
            Out of memory.
        """
        if isinstance(columns, str):
            raise TypeMismatch("columns are a list of names")
        names = self._shaping.names if columns is None else tuple(columns)
        places = [self._shaping.column(name) for name in names]
        if batch < 1:
            raise TypeMismatch("a batch has one row or more")
        first, end = self._range(start, stop)
        return self._batches(dict(zip(names, places)), first, end, batch, self._writes)

    def _range(self, start: int, stop: Optional[int]) -> Tuple[int, int]:
        """Two positions up to the end, from what a caller names."""
        if start < 0 or (stop is not None and stop < 0):
            raise TypeMismatch("positions of a scan count from 0")
        length = len(self)
        return operator.index(start), length if stop is None else min(operator.index(stop), length)

    def _batches(self, columns: Mapping[str, int], start: int, stop: int, batch: int, writes: int) -> Iterator[Batch]:
        for first in range(start, stop, batch):
            yield self._batch(columns, first, min(batch, stop - first), writes)

    def _batch(self, columns: Mapping[str, int], first: int, count: int, writes: int) -> Batch:
        """``count`` rows from a position on. Misuse, where the transaction has written since ``writes``."""
        with self._handle as at:
            if self._writes != writes:
                raise Misuse("the transaction has written since the scan began")
            types = self._shaping.types
            cells = {it: column_of(at, types[place], place, first, count) for it, place in columns.items()}
        return Batch(first, count, cells, {it: self._shaping.declared[place] for it, place in columns.items()})

    @overload
    def int_spans(self, column: str, start: int = 0, stop: Optional[int] = None) -> IntSpans:
        ...

    @overload
    def int_spans(self, column: Names, start: int = 0, stop: Optional[int] = None) -> List[Tuple[memoryview, ...]]:
        ...

    def int_spans(self, column: Union[str, Names], start: int = 0, stop: Optional[int] = None) -> Any:
        """Return the int64 values of a column between two positions without a copy, as read-only views.

        For a list of columns each step has the same rows of all: ``for ids, sums in txn.int_spans(["id", "sum"])``. A
        span ends where a span of one of the columns does.

        The views are valid until the next write on the transaction, its commit or its end, which release them; reads
        leave them alone. While an array or another view is over one, a write or a commit raises ``Borrowed`` instead
        and does nothing; ``abort`` frees the transaction with the last of them.

        Parameters
        ----------
        column : str, or list or tuple of str
            An int column, or several.
        start : int, optional
            The position of the first row, from 0.
        stop : int, optional
            The position after the last row; the end by default.

        Returns
        -------
        IntSpans or list of tuple of memoryview
            The views of one column, or those of several columns side by side.

        Raises
        ------
        TypeMismatch
            There is no such column, it isn't an int column, or a position is negative.
        NoMemory
            Out of memory. Nothing changed.
        Misuse
            The transaction or snapshot is over, or another thread is in a call of it.

        Notes
        -----
        ``scan`` copies, and is faster from Python: a span has at most 1,024 rows.

        Examples
        --------
        >>> import narthexmace
        >>> table = narthexmace.open("id:int:key,qty:int\\n1,5\\n2,7\\n")
        >>> with table.read() as snapshot:
        ...     print([sum(span) for span in snapshot.int_spans("qty")])
        ...     for ids, qtys in snapshot.int_spans(["id", "qty"]):
        ...         print(ids.tolist(), qtys.tolist())
        [12]
        [1, 2] [5, 7]
        >>> table.close()
        """
        if isinstance(column, str):
            return IntSpans([view for (view,) in self._lend([self._int_column(column)], start, stop)])
        places = [self._int_column(name) for name in column]
        if not places:
            raise TypeMismatch("spans are of one column or more")
        return self._lend(places, start, stop)

    def _int_column(self, name: str) -> int:
        place = self._shaping.column(name)
        if self._shaping.types[place] != INT:
            raise TypeMismatch(f"column {quoted(name)} is not an int column")
        return place

    def _lend(self, places: Sequence[int], start: int, stop: Optional[int]) -> List[Tuple[memoryview, ...]]:
        """Views over the runs of some int columns, those of the same rows together."""
        first, end = self._range(start, stop)
        with self._handle as at:
            columns = aligned([runs_of(int_spans_of(at, place, first, end)) for place in places])
            return list(zip(*(self._handle.lend(runs) for runs in columns)))

    def to_pandas(self, columns: Optional[Sequence[str]] = None) -> "DataFrame":
        """Return the rows as a DataFrame of pandas.

        The dtype of a column depends on its format alone: int64, bool, and object for texts. In declared columns,
        doubles ("g") are float64; timestamps are datetime64[ns], of UTC if they have a time zone; dates and Decimals
        are Python's own values, of dtype object. Other ints are int64, and Int64 with "?" before their format. None is
        NaN, NaT or ``pandas.NA``.

        Parameters
        ----------
        columns : sequence of str, optional
            The names of the columns; all of them by default.

        Returns
        -------
        pandas.DataFrame
            The rows, in ascending key.

        Raises
        ------
        TypeMismatch
            There is no such column, or a timestamp is outside of what datetime64[ns] can hold, 1677 to 2262.
        ImportError
            There is no pandas.
        NoMemory
            Out of memory. Nothing changed.
        Misuse
            The transaction or snapshot is over, or another thread is in a call of it.
        """
        import pandas

        shaping = self._shaping
        names = shaping.names if columns is None else tuple(columns)
        places = [shaping.column(name) for name in names]
        rows = len(self)
        whole = self._batch(dict(zip(names, places)), 0, rows, self._writes) if rows else None
        given = ((name, shaping.types[place], shaping.formats[place]) for name, place in zip(names, places))
        return pandas.DataFrame({name: series_of(whole, name, type_, format_) for name, type_, format_ in given})

    def arrow(
        self,
        columns: Optional[Sequence[str]] = None,
        start: int = 0,
        stop: Optional[int] = None,
        *,
        keys: Optional[Tuple[Optional[Key], Optional[Key]]] = None,
        as_types: Optional[Mapping[str, str]] = None,
        batch: int = BATCH,
    ) -> ArrowScan:
        """Return its rows for any library that reads Arrow, with its own writes.

        Each stream of the scan copies all these rows when it is asked for. For a large table use ``Pin.arrow``, whose
        streams read batch by batch.

        Parameters
        ----------
        columns : sequence of str, optional
            The names of the columns; all of them by default.
        start : int, optional
            The position of the first row, from 0.
        stop : int, optional
            The position after the last row; the end by default.
        keys : tuple of two keys, optional
            The rows from the first key on and below the second, in place of positions. None for a key is no bound.
        as_types : mapping of str to str, optional
            Formats for some columns, as ``ArrowScan`` has them.
        batch : int, optional
            How many rows a batch has at most.

        Returns
        -------
        ArrowScan
            The scan.

        Raises
        ------
        TypeMismatch
            There is no such column, a format isn't valid for it, a column is named twice, a position is negative,
            positions and keys are given, or a key doesn't fit the key columns.
        NoMemory
            Out of memory. Nothing changed.
        Misuse
            The transaction or snapshot is over, or another thread is in a call of it.
        """
        asked = Asked(start, stop, keys)
        return ArrowScan(self._handle, self._shaping, self._ranks, columns, asked, as_types, batch)

    def _ranks(self, keys: Sequence[Key]) -> List[int]:
        return [self.rank(key).below for key in keys]

    def __arrow_c_stream__(self, requested_schema: Any = None) -> Any:
        """Return all rows, copied now, as an Arrow stream capsule.

        Parameters
        ----------
        requested_schema : capsule, optional
            A schema, read only for whether texts have offsets of 32 or of 64 bits.

        Returns
        -------
        capsule
            A ``PyCapsule`` named "arrow_array_stream".

        Raises
        ------
        NoMemory
            Out of memory. Nothing changed.
        Misuse
            The transaction or snapshot is over, or another thread is in a call of it.
        """
        return self.arrow().__arrow_c_stream__(requested_schema)

    def __arrow_c_schema__(self) -> Any:
        """Return the columns as an Arrow schema capsule.

        Returns
        -------
        capsule
            A ``PyCapsule`` named "arrow_schema".

        Raises
        ------
        NoMemory
            Out of memory. Nothing changed.
        Misuse
            The transaction or snapshot is over, or another thread is in a call of it.
        """
        return self.arrow().__arrow_c_schema__()

    def __repr__(self) -> str:
        names = ", ".join(self._shaping.names)
        return f"<{type(self).__name__} of {names}, {'open' if self.is_open else 'over'}>"
