"""The owner of a range: what an actor of Dask's does in the worker that has its database open."""
from __future__ import annotations

import asyncio
import time
import uuid
import weakref
from array import array
from collections import OrderedDict
from typing import Any, Callable, Dict, NamedTuple, Optional, Sequence, Tuple

from . import _ranges_steps as steps
from ._cells import INT, Column, Key, Row
from ._database import Database, connect
from ._errors import WritesFailed, Locked, OutcomeUnknown
from ._layers import DELETE, INSERT, MODIFY
from ._pin import Pin
from ._ranges_errors import Closed, Gone
from ._ranges_layout import kept, shown
from ._ranges_log import Effects
from ._snapshot import Snapshot
from ._transaction import Transaction

#: The tables of a range's database: its rows, and which transactions wrote them, each added by its own commit.
ROWS, INSTALLED = "rows", "installed"
#: A range keeps the versions of its last VERSIONS commits, and the names of the last NAMES transactions.
VERSIONS, NAMES = 64, 4096
#: The term that an owner serves: the epoch of its coordinator, and how often that had to reach a range anew.
Term = Tuple[int, int]


class First(NamedTuple):
    """The contents of a new range: its rows by columns, as they are kept, their formats, and its table's options."""

    columns: Dict[str, Any]
    key: Sequence[str]
    types: Dict[str, str]
    formats: Dict[str, str]
    options: Dict[str, Any]


class Status(NamedTuple):
    """How far a range is: the number of the newest transaction that it has, its name, and the version of its table."""

    last: int
    name: str
    version: int


#: The owners of this process, for tasks that read their ranges.
_HERE: "weakref.WeakValueDictionary[str, Owner]" = weakref.WeakValueDictionary()


def owner_here(key: str) -> Optional["Owner"]:
    """The owner of a key, where it is in this process."""
    return _HERE.get(key)


class Owner:
    """A range: its database, the transactions that are open over it, and its last versions.

    Its methods are called by one thread, one after the other, but for ``map``, which reads a version in threads of its
    own. Those that change what lasts carry the term of the coordinator's newest word: an older one is refused.
    """

    def __init__(self, folder: str, place: int, term: Term, seconds: float, first: Optional[First] = None) -> None:
        """Opens the range's database, once a dying owner's lock is gone. Locked, and those of ``connect``."""
        self._place, self._term = place, term
        self._db = _opened(folder, seconds)
        #: By which tasks of this process find it.
        self._key = uuid.uuid4().hex
        _HERE[self._key] = self
        if first is not None:
            for left in list(self._db):  # by a worker that died while it made them
                self._db.drop(left)
            rows = self._db.create(ROWS, first.columns, key=first.key, types=first.types, **first.options)
            for column, format_ in first.formats.items():  # there is no table in ranges before all of this is done
                rows.declare(column, format_)
            steps.reached("made", place)
            self._db.create(INSTALLED, "number:int:key,name:text\n")
        self._rows = self._db[ROWS]
        self._key_columns = sum(column.key for column in self._rows.columns)
        with self._db[INSTALLED].read() as table:
            self._names: "OrderedDict[int, str]" = OrderedDict((int(row[0]), str(row[1])) for row in table[:])
        self._open: Dict[str, Transaction] = {}
        self._versions: "OrderedDict[int, Pin]" = OrderedDict()
        self._kept: Dict[Tuple[str, int], Pin] = {}
        self._version = 0
        self._keep_version()

    # ---- the word of the coordinator

    def status(self, term: Term) -> Status:
        """Serves the coordinator of a term from now on, and says how far it is."""
        self._serves(term)
        self._term = term
        return Status(self._last, self._names.get(self._last, ""), self._version)

    def prepare(self, term: Term, name: str) -> Effects:
        """Votes for a transaction, by what it writes: it would commit now. Conflict, TooOld, Full, Gone end it.

        Nothing of the vote is kept: what it stands for can't change before the coordinator's next word, since there is
        no other commit.
        """
        self._serves(term)
        effects = self._decided(name)
        steps.reached("voted", self._place)
        return effects

    def install(self, term: Term, number: int, name: str, effects: Effects) -> int:
        """Does what is decided, if it isn't done, and answers the version."""
        self._serves(term)
        self.end(name)
        if number > self._last:
            steps.reached("installs", self._place)
            self._commit(number, name, effects)
            steps.reached("installed", self._place)
        return self._version

    def commit(self, term: Term, number: int, name: str) -> int:
        """Commits a transaction of this range alone, and answers the version. Conflict, TooOld, Full, Gone end it."""
        self._serves(term)
        effects = self._decided(name)
        steps.reached("commits", self._place)
        if effects:
            self._commit(number, name, effects)
        steps.reached("committed", self._place)
        return self._version

    def has(self, name: str) -> Optional[bool]:
        """Whether it has a transaction of a name; None where it may have forgotten that."""
        if name in self._names.values():
            return True
        return None if len(self._names) >= NAMES and next(iter(self._names)) > begun_at(name) else False

    @property
    def _last(self) -> int:
        """The number of the newest transaction that it has: numbers ascend."""
        return next(reversed(self._names), 0)

    def _is_there(self) -> None:
        if not self._db._handle.is_open:
            raise Closed(f"range {self._place} was closed")

    def _serves(self, term: Term) -> None:
        self._is_there()
        if tuple(term) < tuple(self._term):
            raise Gone(f"range {self._place} serves another coordinator, or a later word of this one")

    def _decided(self, name: str) -> Effects:
        """The writes of a transaction, which this ends. Conflict, TooOld, Full, Gone."""
        txn = self._open.pop(name, None)
        if txn is None:
            raise Gone(f"range {self._place} has no transaction of the name {name!r} any more")
        try:
            effects = _effects_of(txn, self._key_columns)
            if effects:
                txn._decide()
            return effects
        except WritesFailed:  # until the database is opened again, by the next owner
            self.close()
            raise
        finally:
            txn.abort()

    def _commit(self, number: int, name: str, effects: Effects) -> None:
        """Commits what was decided over the newest table, and the number with it, in one commit of the database."""
        dbtxn = self._db.begin()
        try:
            _write(dbtxn[ROWS], effects)
            dbtxn[INSTALLED].insert((number, name))
            if len(self._names) >= NAMES:
                dbtxn[INSTALLED].delete(next(iter(self._names)))
            dbtxn.commit()
        except (WritesFailed, OutcomeUnknown):  # the next owner finds out what is there
            self.close()
            raise
        finally:
            dbtxn.abort()
        self._names[number] = name
        if len(self._names) > NAMES:
            self._names.popitem(last=False)
        self._keep_version()

    # ---- versions

    def _keep_version(self) -> None:
        pin = self._rows.pin()
        self._version = pin.number
        self._versions[self._version] = pin
        if len(self._versions) > VERSIONS:
            self._versions.popitem(last=False)

    def _pin_of(self, version: int) -> Pin:
        self._is_there()
        kept = next((pin for (_, at), pin in list(self._kept.items()) if at == version), None)
        pin = self._versions.get(version, kept)
        if pin is None:
            raise Gone(f"range {self._place} does not keep version {version}, and its newest one is {self._version}")
        return pin

    def keep(self, name: str, version: int) -> None:
        """Keeps a version until ``let_go``. Gone, where it has it no more."""
        self._kept[name, version] = self._pin_of(version)

    def let_go(self, name: str, version: int) -> None:
        """Lets go of a version that was kept under a name."""
        self._kept.pop((name, version), None)

    # ---- transactions

    def do(self, name: str, version: Optional[int], call: str, given: Sequence[Any]) -> Any:
        """A read or a write of a transaction, which begins with it where a version is given."""
        if version is not None:
            self._open[name] = self._pin_of(version).begin()
        txn = self._open.get(name)
        if txn is None:
            raise Gone(f"range {self._place} has no transaction of the name {name!r} any more")
        return _CALLS[call](txn, *given)

    def end(self, name: str) -> None:
        """Ends a transaction without a trace."""
        txn = self._open.pop(name, None)
        if txn is not None:
            txn.abort()

    # ---- reads of a version

    def get(self, version: int, key: Key) -> Optional[Row]:
        """The row of a key, or None."""
        with self._pin_of(version).read() as table:
            row: Optional[Row] = table.get(key)
            return row

    async def map(self, version: int, function: Callable[..., Any], given: Sequence[Any]) -> Any:
        """The result of a function of a version's snapshot. It runs in another thread, while commits go on."""
        return await asyncio.get_running_loop().run_in_executor(None, self.read, version, function, given)

    def read(self, version: int, function: Callable[..., Any], given: Sequence[Any] = ()) -> Any:
        """Like ``map``, in the caller's thread."""
        with self._pin_of(version).read() as table:
            return function(table, *given)

    # ---- the end

    def here(self) -> str:
        """The key by which tasks of its process find it."""
        return self._key

    def close(self) -> None:
        """Closes the database, so that another owner opens it. Closing again is no error."""
        for txn in self._open.values():
            txn.abort()
        self._open.clear()
        self._versions.clear()
        self._kept.clear()
        self._db._handle.end()

    def __del__(self) -> None:
        if hasattr(self, "_versions"):
            self.close()


def begun_at(name: str) -> int:
    """The number that was the next one when a transaction of a name began: its own is that, or a later one."""
    return int(name.split("-")[0])


def _opened(folder: str, seconds: float) -> Database:
    """Opens a database that another process has for some time yet, since it is dying."""
    end = time.monotonic() + seconds
    while True:
        try:
            return connect(folder)
        except Locked:
            if time.monotonic() >= end:
                raise
            time.sleep(0.02)


def _get(txn: Transaction, key: Key) -> Optional[Row]:
    row: Optional[Row] = txn.get(key)
    return row


_CALLS: Dict[str, Callable[..., Any]] = {
    "get": _get,
    "insert": Transaction.insert,
    "delete": Transaction.delete,
    "set": Transaction.set,
}


def _effects_of(txn: Transaction, key_columns: int) -> Effects:
    """The writes of a transaction, by keys: deletes first, since a row that is replaced is a delete and an insert.

    Cells are as they are kept: the log has ints, texts and booleans.
    """
    effects: Effects = []
    kinds = tuple(txn._shaping.declared)
    for entry in txn.layer():
        if entry.kind == DELETE:
            effects.append([DELETE, kept(entry.values, kinds)])
        elif entry.kind == INSERT:
            effects.append([INSERT, kept(entry.values, kinds)])
        else:
            assert entry.column is not None  # each modify has one
            key, kind = kept(txn[entry.rid][:key_columns], kinds), kinds[txn._shaping.column(entry.column)]
            effects.append([MODIFY, key, entry.column, *kept(entry.values[:1], (kind,))])
    return sorted(effects, key=lambda effect: (DELETE, INSERT, MODIFY).index(effect[0]))


def _write(txn: Transaction, effects: Effects) -> None:
    """Does what was decided over the newest table. Nothing of it can be refused: it was decided over this one."""
    kinds = tuple(txn._shaping.declared)
    for what, cells, *given in effects:
        row = shown(cells, kinds)
        if what == DELETE:
            txn.delete(row)
        elif what == INSERT:
            txn.insert(row)
        else:
            column, cell = given
            txn.set(row, column, shown((cell,), (kinds[txn._shaping.column(column)],))[0])


def rows_between(table: Snapshot, start: int, stop: int) -> Dict[str, Any]:
    """The rows between two positions, by columns, as they are kept, and as they go to another process."""
    batch = next(table.scan(start=start, stop=stop, batch=max(stop - start, 1)), None)
    columns = table._shaping.columns
    return {it.name: [] if batch is None else _sent(batch[it.name], it) for it in columns}


def _sent(cells: Any, column: Column) -> Any:
    return array("q", bytes(cells)) if column.type == INT else cells.tolist()
