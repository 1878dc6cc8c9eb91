"""A table in ranges as its coordinator's process has it: transactions, pins, and reads at a vector."""
from __future__ import annotations

import os
import uuid
from contextlib import suppress
from types import TracebackType
from typing import TYPE_CHECKING, Any, Callable, List, Mapping, Optional, Sequence, Tuple, Type, Union

from distributed import Client, default_client

from ._cells import Column, Key, Row
from ._errors import Error, Exists, Path, TypeMismatch
from ._handles import Single
from ._library import MAX_RECENT, MAX_ROWS
from ._ranges_calls import Asked
from ._ranges_coordinator import Coordinator, Vector
from ._ranges_errors import Gone
from ._ranges_frame import frame_of
from ._ranges_layout import Layout, layout_at
from ._ranges_log import Log, sync_folder
from ._ranges_owner import First, rows_between
from ._ranges_transaction import RangesTransaction
from ._ranges_turns import Deadline
from ._table import open as open_table
from ._tables import KeyNames, TableSource

if TYPE_CHECKING:
    from dask.dataframe import DataFrame

#: How often a pin is tried, where other commits let go of the version first.
_TRIES = 5


def create(
    folder: Path,
    table: TableSource,
    *,
    bounds: Sequence[Key],
    key: Optional[KeyNames] = None,
    types: Optional[Mapping[str, str]] = None,
    recent: int = MAX_RECENT,
    row_limit: int = MAX_ROWS,
    conflicts: str = "column",
    client: Optional[Client] = None,
    seconds: float = 10.0,
    opening: float = 60.0,
) -> "Ranges":
    """Create a table in key ranges in a folder that all workers share, and open it as ``connect`` does.

    The rows go through this process: create a large table empty, and fill it by ``Ranges.begin``.

    Parameters
    ----------
    folder : str, bytes or os.PathLike
        An empty folder, or one to be created.
    table : str, bytes, os.PathLike, mapping, DataFrame or object with ``__arrow_c_stream__``
        The rows, as ``narthexmace.open`` takes them.
    bounds : sequence of keys
        Keys in ascending order. The first range has the rows below the first bound; each further range begins at a
        bound.
    key : str or sequence of str, optional
        The columns that are the key, as in ``narthexmace.open``.
    types : mapping of str to str, optional
        Types and formats of some columns, as in ``narthexmace.open``.
    recent : int, optional
        How many commits may come between a transaction's begin and its commit in a range: 1 to 65,536.
    row_limit : int, optional
        How many rows a range may have: 1 to 2,147,483,647.
    conflicts : {"column", "row"}, optional
        Whether changes of two columns of one row conflict ("row") or not ("column").
    client : distributed.Client, optional
        The client of the cluster; Dask's default client if there is none.
    seconds : float, optional
        How long a call waits for its ranges.
    opening : float, optional
        How long all ranges have to open, in seconds.

    Returns
    -------
    Ranges
        The table.

    Raises
    ------
    Exists
        The folder isn't empty.
    TypeMismatch
        A bound doesn't fit the key columns, the bounds don't ascend, or a value doesn't fit the type of its column.
    BadTable
        The text or the columns don't describe a table, as in ``narthexmace.open``.
    TooManyRows
        More rows than ``row_limit``.
    BadLimit
        ``recent``, ``row_limit`` or ``conflicts`` isn't valid.
    TimedOut
        A range didn't respond in time, or none could be opened again.
    Gone
        A worker died with a version or a transaction that the call needs, or a version isn't retained any more.
    Error
        An exception of ``narthexmace.open`` or, for a range, of ``narthexmace.connect``.
    """
    path, user = os.path.abspath(os.fsdecode(folder)), client or default_client()
    options = {"recent": recent, "row_limit": row_limit, "conflicts": conflicts}
    with open_table(table, key=key, types=types) as whole, whole.read() as rows:
        formats = whole.declared
        layout = Layout(whole.columns, tuple(formats.get(column.name) for column in whole.columns), ())
        layout = layout._replace(bounds=tuple(layout.key_of(bound) for bound in bounds))
        keys = [layout.order_of(bound) for bound in layout.bounds]
        if any(low >= high for low, high in zip(keys, keys[1:])):
            raise TypeMismatch("the bounds of the ranges ascend")
        edges = [0, *(rows.rank(bound).below for bound in layout.bounds), len(rows)]
        names = [column.name for column in layout.key]
        of_columns = {column.name: column.type for column in layout.columns}
        parts = [rows_between(rows, start, stop) for start, stop in zip(edges, edges[1:])]
    os.makedirs(path, exist_ok=True)
    if os.listdir(path):
        raise Exists(f"there is something in {path!r}", None, path)
    Log.make(path)
    sync_folder(os.path.dirname(path))
    firsts = [First(part, names, of_columns, formats, options) for part in parts]
    coordinator = Coordinator(user, path, seconds, opening, len(parts), firsts)
    try:
        layout.write(path)
    except BaseException:
        coordinator.close()
        raise
    return Ranges(coordinator, layout, path)


def connect(folder: Path, *, client: Optional[Client] = None, seconds: float = 10.0, opening: float = 60.0) -> "Ranges":
    """Open a table in ranges, with this process as its coordinator: ``with narthexmace.dask.connect(..) as table:``.

    A worker opens each range, and waits for the lock of an owner that is dying. Decided commits that aren't installed
    yet are installed.

    Parameters
    ----------
    folder : str, bytes or os.PathLike
        The folder, which all workers share by the same path.
    client : distributed.Client, optional
        The client of the cluster; Dask's default client if there is none.
    seconds : float, optional
        How long a call waits for its ranges.
    opening : float, optional
        How long all ranges have to open, in seconds.

    Returns
    -------
    Ranges
        The table.

    Raises
    ------
    Locked
        Another process is the coordinator, or has a range open.
    Incomplete
        A file is missing, as in a folder whose table was never created whole.
    Corrupt
        The log of decisions is corrupt.
    TimedOut
        A range didn't respond in time, or none could be opened again.
    Gone
        A worker died with a version or a transaction that the call needs, or a version isn't retained any more.
    Error
        For a range, an exception of ``narthexmace.connect``.
    """
    path = os.path.abspath(os.fsdecode(folder))
    layout = layout_at(path)
    coordinator = Coordinator(client or default_client(), path, seconds, opening, len(layout.bounds) + 1)
    return Ranges(coordinator, layout, path)


class Ranges(Single):
    """A table in key ranges, each owned by a worker of Dask, with this process as its coordinator.

    Any threads may use it at once. Commits of all threads take place one after the other, in one order; ``vector`` is
    the table after a prefix of them. Every call ends in ``seconds``, or a small multiple of it if a range is lost, with
    ``TimedOut`` or ``Gone``, whose ``outcome`` says what is known. A worker that dies is replaced at the next call that
    needs its range. With ``with`` it is closed at the end of the block.
    """

    def __init__(self, coordinator: Coordinator, layout: Layout, folder: str) -> None:
        self._coordinator, self._layout, self._folder = coordinator, layout, folder

    @property
    def columns(self) -> Tuple[Column, ...]:
        """The columns, the key columns first."""
        return self._layout.columns

    @property
    def bounds(self) -> Tuple[Row, ...]:
        """The least key of each range but the first."""
        return self._layout.bounds

    @property
    def vector(self) -> Vector:
        """The newest published version of each range: together, the table as of one moment."""
        return self._coordinator.vector

    @property
    def workers(self) -> Tuple[str, ...]:
        """The address of the worker that owns each range, or owned it last."""
        return tuple(it.address for it in self._coordinator.ranges)

    def begin(self) -> "RangesTransaction":
        """Begin a transaction over the newest vector.

        Returns
        -------
        RangesTransaction
            The transaction.

        Raises
        ------
        Misuse
            The table is closed.
        """
        self._coordinator.check_open()
        return RangesTransaction(self, self._coordinator, self.vector)

    def pin(self) -> "RangesPin":
        """Pin the newest vector, so that it can be read until the pin is closed, or a worker dies.

        Returns
        -------
        RangesPin
            The pin.

        Raises
        ------
        TimedOut
            A range didn't respond in time, or none could be opened again.
        Gone
            A worker died with a version or a transaction that the call needs, or a version isn't retained any more.
        Misuse
            The table is closed.
        """
        name, why = uuid.uuid4().hex, None
        for _ in range(_TRIES):
            vector = self.vector
            try:
                self._all("keep", {place: (name, version) for place, version in enumerate(vector)})
                return RangesPin(self._coordinator, name, vector)
            except Gone as let_go:
                why = let_go
        raise why or Gone("no vector could be kept")

    def get(self, key: Key, default: Any = None, *, at: Union["RangesPin", Vector, None] = None) -> Any:
        """Return the row of a key.

        Parameters
        ----------
        key : cell or sequence of cells
            The cells of the key columns; the cell itself for a key of one column.
        default : object, optional
            What to return if no row has this key.
        at : RangesPin or vector, optional
            The vector to read; the newest by default.

        Returns
        -------
        tuple or object
            The row's cells in the order of the columns, or ``default``.

        Raises
        ------
        TypeMismatch
            The key doesn't fit the key columns, or the vector hasn't a version for each range.
        TimedOut
            A range didn't respond in time, or none could be opened again.
        Gone
            A worker died with a version or a transaction that the call needs, or a version isn't retained any more.
        Misuse
            The table is closed.
        """
        cells = self._layout.key_of(key)
        place = self._layout.place_of(cells)
        row = self._all("get", {place: (self._vector_at(at)[place], cells)})[0]
        return default if row is None else tuple(row)

    def map(self, function: Callable[..., Any], *given: Any, at: Union["RangesPin", Vector, None] = None) -> List[Any]:
        """Call a function in each range, where the range is, and return the results in the order of the keys.

        Its first argument is the range's ``Snapshot``. It is called again if a worker dies meanwhile. An exception that
        it raises is raised here.

        Parameters
        ----------
        function : callable
            The function, which Dask carries to the workers.
        *given : object
            Further arguments.
        at : RangesPin or vector, optional
            The vector to read; the newest by default.

        Returns
        -------
        list of object
            What the function returned for each range.

        Raises
        ------
        TypeMismatch
            The vector hasn't a version for each range.
        TimedOut
            A range didn't respond in time, or none could be opened again.
        Gone
            A worker died with a version or a transaction that the call needs, or a version isn't retained any more.
        Misuse
            The table is closed.
        """
        vector = self._vector_at(at)
        return self._all("map", {place: (version, function, given) for place, version in enumerate(vector)})

    def frame(self, columns: Optional[Sequence[str]] = None, *, at: Union["RangesPin", Vector, None] = None) -> "DataFrame":
        """Return the table as a DataFrame of Dask, with a partition for each range, read when it is computed.

        All partitions are of one vector. It has to be there when the frame is computed: a pin keeps it. A key of one
        int or text that isn't declared is the index, with the bounds as divisions. The dtypes are those of
        ``Snapshot.to_pandas``. A range whose worker has died is opened again first.

        Parameters
        ----------
        columns : sequence of str, optional
            The names of the columns; all of them by default.
        at : RangesPin or vector, optional
            The vector to read; the newest by default.

        Returns
        -------
        dask.dataframe.DataFrame
            The frame.

        Raises
        ------
        TypeMismatch
            There is no such column, or the vector hasn't a version for each range.
        TimedOut
            A range didn't respond in time, or none could be opened again.
        Gone
            A worker died, here or when the frame is computed, or a version isn't retained any more.
        Misuse
            The table is closed.
        """
        self._all("here", {place: () for place in range(len(self.bounds) + 1)})  # a sign of each owner
        vector = self._vector_at(at)
        return frame_of(self._coordinator.ranges, self._layout, vector, columns)

    def outcome(self, name: str) -> str:
        """Return what is known of a transaction: "committed", "not committed", or "in doubt".

        It is known also after another opening. It is in doubt if a range can't be reached, or if the transaction began
        before the last 4,096 transactions of a range.

        Parameters
        ----------
        name : str
            The transaction's name, ``RangesTransaction.name``.

        Returns
        -------
        str
            The outcome.

        Raises
        ------
        Misuse
            The name isn't a transaction's.
        """
        return self._coordinator.outcome(name)

    def close(self) -> None:
        """Close the ranges, and stop being the coordinator. Closing again does nothing."""
        self._coordinator.close()

    def __enter__(self) -> "Ranges":
        return self

    def __exit__(self, kind: Optional[Type[BaseException]], error: Optional[BaseException], trace: Optional[TracebackType]) -> None:
        self.close()

    def __repr__(self) -> str:
        names = ", ".join(column.name for column in self.columns)
        return f"<Ranges {self._folder!r} of {names}, {len(self.bounds) + 1} of them, at {self.vector}>"

    # ---- calls of the ranges

    def _deadline(self) -> Deadline:
        return Deadline(self._coordinator.seconds)

    def _vector_at(self, at: Union["RangesPin", Vector, None]) -> Vector:
        vector = self.vector if at is None else at.vector if isinstance(at, RangesPin) else tuple(at)
        if len(vector) != len(self.bounds) + 1:
            raise TypeMismatch(f"a vector has {len(self.bounds) + 1} versions")
        return vector

    def _heal(self, places: Sequence[int]) -> None:
        """Has those of some ranges opened again that are known to be lost."""
        self._coordinator.check_open()
        if any(self._coordinator.ranges[place].suspect for place in places):
            self._coordinator.heal(places)

    def _ask(self, place: int, method: str, *given: Any) -> Asked:
        self._heal([place])
        return self._coordinator.ranges[place].ask(method, *given)

    def _all(self, method: str, given: Mapping[int, Tuple[Any, ...]]) -> List[Any]:
        """The replies of ranges to a read, each with its own arguments. They are asked again where a worker dies."""
        try:
            return self._once(method, given)
        except Gone:
            if not any(self._coordinator.ranges[place].suspect for place in given):
                raise
        return self._once(method, given)

    def _once(self, method: str, given: Mapping[int, Tuple[Any, ...]]) -> List[Any]:
        self._heal(list(given))
        asked = [self._coordinator.ranges[place].ask(method, *each) for place, each in given.items()]
        deadline, told, gone = self._deadline(), [], None
        for it in asked:
            try:
                told.append(it.answer(deadline))
            except Gone as why:  # the others are taken too, so that each range that is lost is known
                gone = gone or why
        if gone is not None:
            raise gone
        return told


class RangesPin(Single):
    """A vector that is kept, from ``Ranges.pin``. With ``with`` it is closed at the end of the block.

    A range whose worker has died doesn't have it any more: reads raise ``Gone``.

    Attributes
    ----------
    vector : tuple of int
        The version of each range.
    """

    def __init__(self, coordinator: Coordinator, name: str, vector: Vector) -> None:
        self._coordinator, self._name = coordinator, name
        #: The version of each range.
        self.vector: Vector = vector

    def close(self) -> None:
        """Release the vector. Closing again does nothing."""
        places = zip(self._coordinator.ranges, self.vector)
        asked = [it.ask("let_go", self._name, version) for it, version in places]
        deadline = Deadline(self._coordinator.seconds)
        for call in asked:
            with suppress(Error):  # one whose worker has died has let it go
                call.answer(deadline)

    def __enter__(self) -> "RangesPin":
        return self

    def __exit__(self, kind: Optional[Type[BaseException]], error: Optional[BaseException], trace: Optional[TracebackType]) -> None:
        self.close()
