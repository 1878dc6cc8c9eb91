"""Transactions over a table in ranges."""
from __future__ import annotations

from types import TracebackType
from typing import TYPE_CHECKING, Any, List, Mapping, Optional, Sequence, Type, Union

from ._cells import Cell, Key, Row
from ._errors import Error, Misuse
from ._handles import Single
from ._ranges_coordinator import Coordinator, Vector
from ._ranges_errors import RangesError

if TYPE_CHECKING:
    from ._ranges_table import Ranges


class RangesTransaction(Single):
    """A transaction over a table in ranges: one vector, with its own writes. From ``Ranges.begin``.

    Each write goes to the range of its key. It commits in all ranges that it has written, or in none. With ``with`` it
    commits at the end of the block, and aborts at an exception. One thread at a time uses it.

    Attributes
    ----------
    name : str
        Its name, for ``Ranges.outcome``.
    vector : tuple of int
        The versions that it sees.
    """

    def __init__(self, ranges: "Ranges", coordinator: Coordinator, vector: Vector) -> None:
        self._ranges, self._coordinator, self._layout = ranges, coordinator, ranges._layout
        #: The name by which ``Ranges.outcome`` knows it, and the versions that it sees.
        self.name = coordinator.name()
        self.vector: Vector = vector
        self._begun: List[int] = []  # the ranges in which it has begun
        self._wrote: List[int] = []
        self._open = True

    @property
    def is_open(self) -> bool:
        """Whether it may still be used."""
        return self._open

    def get(self, key: Key, default: Any = None) -> Any:
        """Return the row of a key.

        Parameters
        ----------
        key : cell or sequence of cells
            The cells of the key columns; the cell itself for a key of one column.
        default : object, optional
            What to return if no row has this key.

        Returns
        -------
        tuple or object
            The row's cells in the order of the columns, or ``default``.

        Raises
        ------
        TypeMismatch
            The key doesn't fit the key columns.
        TimedOut
            A range didn't respond in time, or none could be opened again.
        Gone
            A worker died with a version or a transaction that the call needs, or a version isn't retained any more.
        Misuse
            The transaction is over.
        """
        cells = self._layout.key_of(key)
        row = self._do(cells, "get", cells)
        return default if row is None else tuple(row)

    def insert(self, row: Union[Sequence[Cell], Mapping[str, Cell]]) -> None:
        """Insert a row.

        Parameters
        ----------
        row : sequence of cells, or mapping of str to cell
            The cells in the order of the columns, or by their names.

        Raises
        ------
        Duplicate
            A row with this key exists.
        Full
            The range would have more rows than ``row_limit``.
        TypeMismatch
            A cell doesn't fit its column, or there are too few or too many.
        TimedOut
            A range didn't respond in time, or none could be opened again.
        Gone
            A worker died with a version or a transaction that the call needs, or a version isn't retained any more.
        Misuse
            The transaction is over.
        """
        cells = self._layout.row_of(row)
        self._do(cells[: len(self._layout.key)], "insert", cells)

    def delete(self, key: Key) -> None:
        """Delete the row of a key.

        Parameters
        ----------
        key : cell or sequence of cells
            The cells of the key columns; the cell itself for a key of one column.

        Raises
        ------
        Missing
            No row has this key.
        TypeMismatch
            The key doesn't fit the key columns.
        TimedOut
            A range didn't respond in time, or none could be opened again.
        Gone
            A worker died with a version or a transaction that the call needs, or a version isn't retained any more.
        Misuse
            The transaction is over.
        """
        cells = self._layout.key_of(key)
        self._do(cells, "delete", cells)

    def set(self, key: Key, column: str, value: Cell) -> None:
        """Set one cell of the row of a key.

        Parameters
        ----------
        key : cell or sequence of cells
            The cells of the key columns; the cell itself for a key of one column.
        column : str
            The column's name. It isn't a key column.
        value : cell
            The value.

        Raises
        ------
        Missing
            No row has this key.
        TypeMismatch
            The key doesn't fit the key columns, there is no such column, it is a key column, or the value doesn't fit
            it.
        TimedOut
            A range didn't respond in time, or none could be opened again.
        Gone
            A worker died with a version or a transaction that the call needs, or a version isn't retained any more.
        Misuse
            The transaction is over.
        """
        cells = self._layout.key_of(key)
        self._do(cells, "set", cells, column, value)

    def _do(self, key: Row, call: str, *given: Any) -> Any:
        """A call in the range of a key, where the transaction begins with the first one."""
        self._check_open()
        place = self._layout.place_of(key)
        version = None if place in self._begun else self.vector[place]
        if place not in self._begun:
            self._begun.append(place)
        if call != "get" and place not in self._wrote:
            self._wrote.append(place)
        try:
            return self._ranges._ask(place, "do", self.name, version, call, given).answer(self._ranges._deadline())
        except RangesError:  # the range may have the write or not: it must not commit
            self.abort()
            raise

    def commit(self) -> Vector:
        """Commit in all ranges that it has written, or in none, and return a vector that has the commit.

        The transaction is over then.

        Returns
        -------
        tuple of int
            The vector.

        Raises
        ------
        Conflict
            A range refuses it: a concurrent commit modified the same data. Nothing is committed: begin again.
        TooOld
            A range refuses it: the changes of a commit since the begin aren't retained. Nothing is committed: begin
            again.
        Full
            A range would have more rows than ``row_limit``. Nothing is committed.
        Gone
            A range that it was in was lost. Nothing is committed.
        TimedOut
            A range didn't respond in time: ``outcome`` says what is known, and ``Ranges.outcome`` later.
        LogFailed
            The log of decisions can't be written: ``outcome`` says what is known, and ``Ranges.outcome`` later.
        Misuse
            The transaction is over.
        """
        self._check_open()
        self._open = False
        read = [place for place in self._begun if place not in self._wrote]
        self._coordinator.end(self.name, read)
        if not self._wrote:
            return self.vector
        return self._coordinator.commit(self.name, self._wrote)

    def abort(self) -> None:
        """End it without a commit. Aborting again does nothing."""
        if self._open:
            self._open = False
            self._coordinator.end(self.name, self._begun)

    def _check_open(self) -> None:
        if not self._open:
            raise Misuse("the transaction is over")

    def __enter__(self) -> "RangesTransaction":
        return self

    def __exit__(self, kind: Optional[Type[BaseException]], error: Optional[BaseException], trace: Optional[TracebackType]) -> None:
        if kind is not None or not self._open:
            self.abort()
        else:
            self.commit()

    def __del__(self) -> None:
        if getattr(self, "_open", False):
            try:
                self.abort()
            except (Error, RuntimeError):
                pass

    def __repr__(self) -> str:
        return f"<RangesTransaction {self.name} at {self.vector}, {'open' if self._open else 'over'}>"
