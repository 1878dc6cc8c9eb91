"""Pins: versions of a table that are kept, over which any threads begin."""
from __future__ import annotations

from types import TracebackType
from typing import Any, List, Mapping, Optional, Sequence, Tuple, Type

from ._arrow import BATCH, ArrowScan, Asked
from ._cells import Key, Shaping
from ._handles import PinHandle, Single, TransactionHandle
from ._snapshot import Snapshot
from ._transaction import Transaction


class Pin(Single):
    """A version of a table that is kept, over which transactions and snapshots begin. From ``Table.pin``.

    Any threads may use it at once. Several threads read one version side by side: each takes a snapshot by ``read``. A
    begin waits for no commit, fold or checkpoint.

    A pin keeps in memory what commits, folds and checkpoints have replaced since. With ``with`` it is closed at the end
    of the block, and one that is dropped is closed too. Closing its table closes it, and ends its snapshots.
    """

    __slots__ = ("_handle", "_shaping", "__weakref__")

    def __init__(self, handle: PinHandle, shaping: Shaping) -> None:
        self._handle = handle
        self._shaping = shaping

    @property
    def number(self) -> int:
        """The number of its version."""
        return self._handle.number

    @property
    def is_open(self) -> bool:
        """Whether it may still be used."""
        return self._handle.is_open

    def read(self) -> Snapshot:
        """Take a snapshot of its version, for one thread: ``with pin.read() as snapshot:``.

        Returns
        -------
        Snapshot
            The snapshot.

        Raises
        ------
        NoMemory
            Out of memory. Nothing changed.
        Misuse
            The pin is closed.
        """
        return Snapshot(TransactionHandle(self._handle.table, self._handle, reads=True), self._shaping)

    def begin(self) -> Transaction:
        """Begin a transaction over its version.

        It may write, and commits as one that began when this version was the newest: expect ``Conflict`` and
        ``TooOld``.

        Returns
        -------
        Transaction
            The transaction.

        Raises
        ------
        NoMemory
            Out of memory. Nothing changed.
        Misuse
            The pin is closed.
        """
        return Transaction(TransactionHandle(self._handle.table, self._handle), self._shaping)

    def arrow(
        self,
        columns: Optional[Sequence[str]] = None,
        start: int = 0,
        stop: Optional[int] = None,
        *,
        keys: Optional[Tuple[Optional[Key], Optional[Key]]] = None,
        as_types: Optional[Mapping[str, str]] = None,
        batch: int = BATCH,
    ) -> ArrowScan:
        """Return its rows for any library that reads Arrow.

        The streams read batch by batch. The pin may be closed while a stream is open; no new stream begins then.

        Parameters
        ----------
        columns : sequence of str, optional
            The names of the columns; all of them by default.
        start : int, optional
            The position of the first row, from 0.
        stop : int, optional
            The position after the last row; the end by default.
        keys : tuple of two keys, optional
            The rows from the first key on and below the second, in place of positions. None for a key is no bound.
        as_types : mapping of str to str, optional
            Formats for some columns, as ``ArrowScan`` has them.
        batch : int, optional
            How many rows a batch has at most.

        Returns
        -------
        ArrowScan
            The scan.

        Raises
        ------
        TypeMismatch
            There is no such column, a format isn't valid for it, a column is named twice, a position is negative,
            positions and keys are given, or a key doesn't fit the key columns.
        NoMemory
            Out of memory. Nothing changed.
        Misuse
            The pin is closed.
        """
        asked = Asked(start, stop, keys)
        return ArrowScan(self._handle, self._shaping, self._ranks, columns, asked, as_types, batch)

    def _ranks(self, keys: Sequence[Key]) -> List[int]:
        with self.read() as snapshot:
            return [snapshot.rank(key).below for key in keys]

    def __arrow_c_stream__(self, requested_schema: Any = None) -> Any:
        """Return all rows as an Arrow stream capsule. Several threads may have streams of one pin at once.

        Parameters
        ----------
        requested_schema : capsule, optional
            A schema, read only for whether texts have offsets of 32 or of 64 bits.

        Returns
        -------
        capsule
            A ``PyCapsule`` named "arrow_array_stream".

        Raises
        ------
        NoMemory
            Out of memory. Nothing changed.
        Misuse
            The pin is closed.
        """
        return self.arrow().__arrow_c_stream__(requested_schema)

    def __arrow_c_schema__(self) -> Any:
        """Return the columns as an Arrow schema capsule.

        Returns
        -------
        capsule
            A ``PyCapsule`` named "arrow_schema".

        Raises
        ------
        NoMemory
            Out of memory. Nothing changed.
        Misuse
            The pin is closed.
        """
        return self.arrow().__arrow_c_schema__()

    def close(self) -> None:
        """Release the version. Snapshots and transactions that began over it stay open. Closing again does nothing."""
        self._handle.abort()

    def __enter__(self) -> "Pin":
        return self

    def __exit__(self, kind: Optional[Type[BaseException]], error: Optional[BaseException], trace: Optional[TracebackType]) -> None:
        self.close()

    def __repr__(self) -> str:
        return f"<Pin of table {self.number}, {'open' if self.is_open else 'closed'}>"
