"""Transactions over all tables of a database, and what is read of all of them at one moment."""
from __future__ import annotations

from ctypes import c_uint64
from types import TracebackType
from typing import Dict, Iterator, Optional, Type, TypeVar

from ._database_handles import DatabaseTransactionHandle
from ._errors import Misuse, Missing
from ._handles import Single
from ._library import NO_NUMBER
from ._snapshot import Snapshot
from ._transaction import Transaction, check_commit

Self = TypeVar("Self", bound="DatabaseSnapshot")


class DatabaseSnapshot(Single):
    """All tables of a database as of one moment, for reading. From ``Database.read``.

    ``tables["items"]`` is the snapshot of a table. One thread at a time uses it with all its tables: a call while
    another thread is in one raises ``Misuse``, and so does a call once it is over. With ``with`` it ends with the
    block, and one that is dropped ends too. It commits nothing, and takes no commit number.
    """

    __slots__ = ("_handle", "_parts", "__weakref__")

    #: The type that it returns for a table.
    _kind: Type[Snapshot] = Snapshot

    def __init__(self, handle: DatabaseTransactionHandle) -> None:
        self._handle = handle
        self._parts: Dict[str, Snapshot] = {}

    @property
    def is_open(self) -> bool:
        """Whether it may still be used."""
        return self._handle.is_open

    def __getitem__(self, name: str) -> Snapshot:
        """Return the snapshot of a table, the same object each time. It ends with the whole, and not alone.

        Parameters
        ----------
        name : str
            The table's name.

        Returns
        -------
        Snapshot
            The snapshot.

        Raises
        ------
        Missing
            No table has this name, or it was created later. It is a KeyError.
        NoMemory
            Out of memory. Nothing changed.
        Misuse
            It is over, or another thread is in a call of it.
        """
        if not self.is_open:
            raise Misuse("the transaction is over")
        part = self._parts.get(name)
        if part is None:
            table = self._handle.database.table(name)
            part = self._parts[name] = self._kind(self._handle.part(table), table.shaping())
        return part

    def __contains__(self, name: object) -> bool:
        """Return whether it sees a table of this name.

        Parameters
        ----------
        name : str
            The name.

        Returns
        -------
        bool
            Whether there is such a table.

        Raises
        ------
        NoMemory
            Out of memory. Nothing changed.
        Misuse
            It is over, or another thread is in a call of it.
        """
        try:
            self[name]  # type: ignore[index]
        except Missing:
            return False
        return True

    def __iter__(self) -> Iterator[str]:
        """Iterate over the names of the tables that it sees, in the order of their creation.

        Returns
        -------
        iterator of str
            The names.

        Raises
        ------
        NoMemory
            Out of memory. Nothing changed.
        Misuse
            It is over, or another thread is in a call of it.
        """
        return (name for name in self._handle.database.names() if name in self)

    def abort(self) -> None:
        """End it without a commit. Aborting again does nothing.

        Raises
        ------
        Misuse
            Another thread is in a call of it.
        """
        self._handle.abort()

    def __enter__(self: Self) -> Self:
        return self

    def __exit__(self, kind: Optional[Type[BaseException]], error: Optional[BaseException], trace: Optional[TracebackType]) -> None:
        self.abort()

    def __repr__(self) -> str:
        tables = "".join(f" {name!r}," for name in self._parts)
        return f"<{type(self).__name__} over{tables} {'open' if self.is_open else 'over'}>"


class DatabaseTransaction(DatabaseSnapshot):
    """A transaction over all tables of a database, as of its begin, with its own writes. From ``Database.begin``.

    ``txn["items"]`` is the transaction on a table, with all its reads, writes and savepoints. Its writes to all
    tables are committed as one commit with one number, or not at all. With ``with`` it commits at the end of the block,
    and aborts at an exception. One that is dropped while it is open is aborted. One thread at a time uses it.
    """

    __slots__ = ()

    _kind = Transaction

    def __getitem__(self, name: str) -> Transaction:
        """Return the transaction on a table, the same object each time. It commits with the whole, and not alone.

        Parameters
        ----------
        name : str
            The table's name.

        Returns
        -------
        Transaction
            The transaction.

        Raises
        ------
        Missing
            No table has this name, or it was created after the begin. It is a KeyError.
        NoMemory
            Out of memory. Nothing changed.
        Misuse
            It is over, or another thread is in a call of it.
        """
        part = super().__getitem__(name)
        assert isinstance(part, Transaction)
        return part

    def commit(self) -> int:
        """Commit what was written into all tables, or nothing, and return the number of the commit.

        One that changes nothing takes no number: it ends as by ``abort``, and returns the number of what it saw. When
        this returns, the commit is as durable as ``sync`` of ``connect`` says.

        Returns
        -------
        int
            The number of the commit.

        Raises
        ------
        Conflict
            A concurrent commit modified the same data of a table. Nothing is committed, and the transaction is over:
            begin again, and repeat the work.
        TooOld
            The changes of a commit since the begin aren't retained any more. Nothing is committed, and the transaction
            is over.
        Full
            A table would have more rows than its ``row_limit``. Nothing is committed, and the transaction is over.
        OutcomeUnknown
            I/O error while the commit was written. The transaction is over; whether it is durable is unknown until the
            database is reopened.
        NoMemory
            Out of memory. The transaction stays open.
        Borrowed
            An array or another view is over memory that ``int_spans`` returned. The transaction stays open.
        WritesFailed
            An earlier write failed. The transaction stays open.
        TooLong
            The changes take 4 GiB or more in the journal. The transaction stays open.
        ReadOnlyDatabase
            The database was opened read-only. The transaction stays open.
        Misuse
            It is over, or another thread is in a call of it.
        """
        number = c_uint64(NO_NUMBER)
        check_commit(self._handle.commit(number), number.value)
        return number.value

    def __exit__(self, kind: Optional[Type[BaseException]], error: Optional[BaseException], trace: Optional[TracebackType]) -> None:
        if not self.is_open:
            return
        if kind is not None:
            self.abort()
            return
        try:
            self.commit()
        finally:
            if self.is_open:
                self.abort()
