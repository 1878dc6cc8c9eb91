"""The addresses of a database, its tables and its transactions: a call gets one for as long as it goes on."""
from __future__ import annotations

import ctypes
import os
import threading
import warnings
import weakref
from ctypes import byref, c_uint64, c_void_p
from typing import Any, Callable, Dict, List, Optional

from ._cells import Shaping, shaping_at
from ._errors import Misuse, Missing, Path, check, check_files
from ._handles import Address, Shared, Single, LoneHandle, TransactionHandle, call_into, take
from ._library import MAX_NAME, NO_NUMBER, DatabaseCountsOf, library
from ._sentences import quoted, value_shown


def name_of(name: object) -> Optional[bytes]:
    """A table's name for C, or None of what is the name of none."""
    try:
        encoded = name.encode() if isinstance(name, str) else b""
    except UnicodeEncodeError:
        return None
    return None if b"\0" in encoded or not encoded else encoded


class DatabaseHandle(Shared):
    """A database's address. A call on one of its tables is a call on it, too."""

    kind = "database"

    def __init__(self, folder: Path) -> None:
        self.folder = folder
        self._process = os.getpid()
        # those with references: a drop takes their addresses away
        self._tables: Dict[bytes, "weakref.ref[TableHandle]"] = {}
        self._tables_lock = threading.RLock()
        super().__init__()

    def __enter__(self) -> int:
        if os.getpid() != self._process:
            raise Misuse("a child of fork has nothing that its parent opened: connect again once that has closed it")
        return super().__enter__()

    @property
    def is_open(self) -> bool:
        """Whether it may be used: not by a child of fork."""
        return self.room.value is not None and not self._ending and os.getpid() == self._process

    def counts(self) -> DatabaseCountsOf:
        counts = DatabaseCountsOf(ctypes.sizeof(DatabaseCountsOf))
        with self as at:
            check(library.pdt_database_count(at, byref(counts)))
        return counts

    # ---- tables

    def names(self) -> List[str]:
        """The names of the tables, in the order in which they were made."""
        names: List[str] = []
        room = ctypes.create_string_buffer(MAX_NAME + 1)
        with self._tables_lock, self as at:  # no table is dropped meanwhile, which would move the others
            while True:
                code = library.pdt_table_name(at, len(names), room, len(room))
                if code == Missing.code:
                    return names
                check(code)
                names.append(room.value.decode())

    def has(self, name: object) -> bool:
        encoded, room = name_of(name), c_void_p()
        with self as at:
            code: int = Missing.code if encoded is None else library.pdt_table_open(at, encoded, byref(room))
        if code != Missing.code:
            check(code)
        return code == 0

    def table(self, name: object) -> "TableHandle":
        """The table of a name, the same object for as long as it has references. Missing if there is no such table."""
        encoded, room = name_of(name), c_void_p()
        with self._tables_lock, self as at:
            handle = None if encoded is None else self._had(encoded)
            if handle is not None:
                return handle
            code: int = Missing.code if encoded is None else library.pdt_table_open(at, encoded, byref(room))
            if code == Missing.code or encoded is None:
                raise self._missing(name)
            check(code)
            handle = TableHandle(self, encoded.decode(), room)
            self._tables[encoded] = weakref.ref(handle)
            return handle

    def _had(self, encoded: bytes) -> Optional["TableHandle"]:
        """The table of a name, if it has references."""
        kept = self._tables.get(encoded)
        return None if kept is None else kept()

    def _missing(self, name: object) -> Missing:
        return Missing(f"no table has the name {value_shown(name)}: {os.fsdecode(self.folder)!r}")

    def drop(self, name: object) -> None:
        """Drops a table, and takes its address from those who have it. Missing, Misuse, and those of files."""
        encoded = name_of(name)
        if encoded is None:
            raise self._missing(name)
        with self._tables_lock, self as at:
            table = self._had(encoded)
            given = library.pdt_table_drop, at, encoded
            code: int = given[0](*given[1:]) if table is None else table.dropped_by(*given)
            if code == 0:
                self._tables.pop(encoded, None)
        if code == Missing.code:
            raise self._missing(name)
        if code == Misuse.code:
            raise Misuse(f"a transaction, a snapshot or a stream is open over the table {name!r}, or a pin is kept")
        check_files(code, self.folder)

    # ---- the end

    @staticmethod
    def _freeing() -> Callable[[c_void_p], int]:
        return library.pdt_database_close

    def _end_reads(self) -> None:
        if os.getpid() == self._process:  # what a child of fork has is its parent's
            super()._end_reads()

    def _why_open(self) -> str:
        if os.getpid() != self._process:
            return "a child of fork can't close what its parent opened"
        return "a transaction or a stream of the database is open, or an array over what a snapshot borrowed"

    def dropped(self) -> None:
        try:
            if "room" in vars(self) and self.is_open:
                warnings.warn(f"an unclosed database: {os.fsdecode(self.folder)!r}", ResourceWarning, source=self)
        finally:  # where warnings are errors, too
            super().dropped()


class TableHandle(LoneHandle):
    """The address of a table, which its database frees. The handle keeps the database open."""

    kind = "table"

    def __init__(self, database: DatabaseHandle, name: str, room: c_void_p) -> None:
        super().__init__()
        vars(self)["dropped"] = int  # the database frees it
        self.database = database
        self.name: str = name
        self.room = room
        self._shaping = shaping_at(self.room.value)

    def __enter__(self) -> int:
        self.database.__enter__()
        try:
            return super().__enter__()
        except BaseException:
            self.database.__exit__()
            raise

    def _entered(self) -> int:
        at = self.room.value
        if at is None:
            with self._lock:  # another thread may try to drop it just now
                at = self.room.value
        if at is None:
            raise Misuse(f"the table {self.name!r} was dropped")
        return at

    def __exit__(self, *_: object) -> None:
        self.count_end()
        self.database.__exit__()

    def owner(self) -> Shared:
        return self.database

    def close(self) -> None:
        raise Misuse(f"the table {self.name!r} is closed with its database, and need not be closed")

    def end(self) -> None:
        """Does nothing: the database frees it."""

    def shaping(self) -> Shaping:
        return self._shaping  # columns never change

    def has_numbered(self, number: int) -> bool:
        return bool(number <= self.database.counts().commits)

    def dropped_by(self, call: Callable[..., int], *given: Any) -> int:
        """Makes C's call that drops it, and takes no more calls where C has done it. Misuse in another call."""
        with self._lock:
            at, told = self.room, [Misuse.code]
            try:
                self.room = c_void_p()  # before the call: after an interrupt it must not be used again
                if self.is_in_call():
                    raise Misuse(f"another thread is in a call of the table {self.name!r}")
                told.clear()
                call_into(told, call, *given)
                return told[-1]
            finally:
                if not told or told[-1] > 0:
                    self.room = at


# ---- database transactions


class _DatabaseTransactionAddress(Address):
    """The address of an open database transaction, which is aborted when the last reference to this goes."""

    __slots__ = ("database",)

    def __init__(self, database: DatabaseHandle) -> None:
        self.database = database
        super().__init__(library.pdt_dbtxn_abort, database)  # null where the database transaction has committed


class _PartAddress(Address):
    """The address of a database transaction's part over a table. It stays for as long as the database transaction does,
    which this keeps."""

    __slots__ = ("table", "dbtxn")

    def __init__(self, table: TableHandle, dbtxn: _DatabaseTransactionAddress) -> None:
        super().__init__(bool)  # C's database transaction frees it
        self.table = table
        self.dbtxn = dbtxn


class PartHandle(TransactionHandle):
    """The address of a database transaction's part over a table. One thread may have it, or that of another part, at a
    time."""

    def __init__(self, address: _PartAddress, lock: Any) -> None:
        self._address: Optional[_PartAddress] = address
        self.name = address.table.name
        self._lock = lock  # that of the database transaction
        self._lent = []

    def _at(self) -> Optional[int]:
        address = self._address
        return None if address is None or address.dbtxn.room.value is None else address.room.value

    def may_end_alone(self) -> None:
        raise Misuse("a table of a transaction over several ends with that: commit or abort the whole")

    def abort(self) -> None:
        self.may_end_alone()

    def let_go(self) -> None:
        """Takes no more calls. Made in a call of the database transaction, which ends: what is borrowed keeps its
        memory."""
        self._release_lent()
        self._address = None


class DatabaseTransactionHandle(Single):
    """A database transaction's address, which one thread may have at a time, and with it those of its parts."""

    def __init__(self, database: DatabaseHandle, *, reads: bool = False) -> None:
        """Begins a database transaction over all tables. One that only reads is ended by a close."""
        address = _DatabaseTransactionAddress(database)
        with database as at:
            check(library.pdt_dbtxn_begin(at, byref(address.room)))
        self.database, self.reads = database, reads
        self._address: Optional[_DatabaseTransactionAddress] = address
        self._lock = threading.RLock()  # which an interrupt may leave to its own thread, that takes it again
        self._parts: Dict[str, PartHandle] = {}
        database.note(self)

    @property
    def is_open(self) -> bool:
        return self._address is not None and self._address.room.value is not None

    def part(self, table: TableHandle) -> PartHandle:
        """The database transaction's part over a table. Missing where that was made after it began."""
        take(self._lock)
        try:
            if self._address is None or self._address.room.value is None:
                raise Misuse("the transaction is over")
            if table.name not in self._parts:
                address = _PartAddress(table, self._address)
                with table as at:
                    code = library.pdt_dbtxn_on(self._address.room, at, byref(address.room))
                if code == Missing.code:
                    raise Missing(f"the table {quoted(table.name)} was created after the database transaction began")
                check(code)
                self._parts[table.name] = PartHandle(address, self._lock)
            return self._parts[table.name]
        finally:
            self._lock.release()

    def commit(self, number: c_uint64) -> int:
        """Commits, and returns C's code. If C has written ``number``, the database transaction is over."""
        take(self._lock)
        try:
            if self._address is None or self._address.room.value is None:
                raise Misuse("the transaction is over")
            for part in self._parts.values():
                part.take_back()
            code = self._address.end_by(library.pdt_dbtxn_commit, number)
            if number.value != NO_NUMBER:
                self._let_go()
            return code
        finally:
            self._lock.release()

    def abort(self) -> None:
        """Ends the database transaction: at once, or once nothing reads what its parts borrowed."""
        take(self._lock)
        try:
            self._let_go()
        finally:
            self._lock.release()

    def _let_go(self) -> None:
        for part in self._parts.values():
            part.let_go()
        self._parts.clear()
        self._address = None
