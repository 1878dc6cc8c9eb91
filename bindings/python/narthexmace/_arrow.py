"""Arrow's C streams: what goes out to whatever reads Arrow, and what comes in from what has ``__arrow_c_stream__``."""
from __future__ import annotations

import ctypes
import re
from ctypes import byref, c_char, c_char_p, c_int64, c_size_t, c_uint64, c_void_p
from typing import Any, Callable, Dict, List, Mapping, NamedTuple, Optional, Protocol, Sequence, Tuple

from ._cells import Key, Shaping
from ._errors import Duplicate, Full, Misuse, Missing, NoMemory, TypeMismatch, check, error_of
from ._handles import Single
from ._library import library
from ._sentences import quoted

#: The names of the capsules, as the protocol has them.
STREAM, SCHEMA = b"arrow_array_stream", b"arrow_schema"
BATCH = 65_536
LAST = 2**64 - 1


class SchemaOf(ctypes.Structure):
    """struct ArrowSchema"""


SchemaOf._fields_ = [
    ("format", c_char_p),
    ("name", c_char_p),
    ("metadata", c_void_p),
    ("flags", c_int64),
    ("n_children", c_int64),
    ("children", ctypes.POINTER(ctypes.POINTER(SchemaOf))),
    ("dictionary", c_void_p),
    ("release", c_void_p),
    ("private_data", c_void_p),
]


class StreamOf(ctypes.Structure):
    """struct ArrowArrayStream"""

    _fields_ = [
        ("get_schema", c_void_p),
        ("get_next", c_void_p),
        ("get_last_error", c_void_p),
        ("release", c_void_p),
        ("private_data", c_void_p),
    ]


class ShownOf(ctypes.Structure):
    """pdt_arrow_column"""

    _fields_ = [("column", c_size_t), ("format", c_char_p)]


class ArrowFaultOf(ctypes.Structure):
    """pdt_arrow_fault"""

    _fields_ = [("size", c_size_t), ("row", c_uint64), ("column", c_uint64), ("cause", c_char * 256)]


# ---- capsules


class _Capsules:
    """The calls of CPython's that make capsules and look into them. A capsule's destructor is C's alone."""

    def __init__(self) -> None:
        api = ctypes.pythonapi
        self.new = api.PyCapsule_New
        self.new.restype, self.new.argtypes = ctypes.py_object, (c_void_p, c_char_p, c_void_p)
        self.pointer = api.PyCapsule_GetPointer
        self.pointer.restype, self.pointer.argtypes = c_void_p, (ctypes.py_object, c_char_p)
        self.room = api.PyMem_RawCalloc
        self.room.restype, self.room.argtypes = c_void_p, (c_size_t, c_size_t)
        for name in (STREAM, SCHEMA):  # which a capsule that outlives this module has still
            api.Py_IncRef(ctypes.py_object(name))
        library.pdt_capsules(*(ctypes.cast(call, c_void_p) for call in (self.pointer, api.PyMem_RawFree)))

    def made(self, kind: Any, name: bytes, destructor: Any) -> Tuple[Any, int]:
        """A capsule of a struct that is zeros, and the struct's address: it is released with the capsule."""
        at = self.room(1, ctypes.sizeof(kind))
        if at is None:
            raise NoMemory()
        return self.new(at, name, ctypes.cast(destructor, c_void_p)), at

    def stream(self) -> Tuple[Any, int]:
        return self.made(StreamOf, STREAM, library.pdt_end_stream_capsule)

    def schema(self) -> Tuple[Any, int]:
        return self.made(SchemaOf, SCHEMA, library.pdt_end_schema_capsule)


_made: List[_Capsules] = []


def _capsules() -> _Capsules:
    if not _made:
        if not hasattr(ctypes, "pythonapi"):
            raise Misuse("Arrow's capsules are those of CPython")
        _made.append(_Capsules())
    return _made[0]


# ---- out


class Source(Protocol):
    """A handle with rows: that of a pin, or of a transaction."""

    def arrow(self, *given: Any) -> int:
        """C's call that makes a stream of them."""


class Asked(NamedTuple):
    """The rows that go out: between two positions, or between two keys."""

    start: int
    stop: Optional[int]
    keys: Optional[Tuple[Optional[Key], Optional[Key]]]


class ArrowScan(Single):
    """Rows of a table for any library that reads Arrow. From ``arrow`` of a table, a pin or a snapshot.

    ``pyarrow.table(scan)``, ``polars.DataFrame(scan)`` and ``duckdb.sql("SELECT .. FROM scan")`` take it. Each stream
    of ``Table.arrow`` and ``Pin.arrow`` reads the same version, batch by batch, by a transaction of its own, and
    several threads may have streams at once. A stream of ``Snapshot.arrow`` copies the rows when it is asked for.

    Ints go out as int64, texts as large_string, bools as bool. ``as_types`` selects other formats by column, as Arrow's
    C data interface spells them: "tdD" is a date, "tsu:UTC" a timestamp in microseconds, "g" a double, "u" a string.
    With "?" before it the least int64 goes out as a null.
    """

    __slots__ = ("_source", "_shown", "_asked", "_ranks", "_batch", "_kept")

    def __init__(
        self,
        source: Source,
        shaping: Shaping,
        ranks: Callable[[Sequence[Key]], List[int]],
        columns: Optional[Sequence[str]],
        asked: Asked,
        as_types: Optional[Mapping[str, str]],
        batch: int,
        kept: Any = None,
    ) -> None:
        self._source, self._asked, self._ranks, self._kept = source, asked, ranks, kept
        self._shown = _shown(shaping, columns, as_types or {})
        if batch < 1:
            raise TypeMismatch("a batch has one row or more")
        if asked.keys is not None and (asked.start, asked.stop) != (0, None):
            raise TypeMismatch("rows are between two positions or between two keys")
        if asked.start < 0 or (asked.stop is not None and asked.stop < 0):
            raise TypeMismatch("positions count from 0")
        self._batch = min(batch, LAST)
        self.__arrow_c_schema__()  # it raises if a requested column or type isn't there

    def __arrow_c_stream__(self, requested_schema: Any = None) -> Any:
        """Return an Arrow stream capsule.

        Parameters
        ----------
        requested_schema : capsule, optional
            A schema, read only for whether texts have offsets of 32 or of 64 bits.

        Returns
        -------
        capsule
            A ``PyCapsule`` named "arrow_array_stream".

        Raises
        ------
        NoMemory
            Out of memory. Nothing changed.
        Misuse
            The table, pin or snapshot is closed or over.
        """
        shown = dict(self._shown)
        if requested_schema is not None:
            for name, format_ in _fields(requested_schema):
                if format_ in ("u", "U") and shown.get(name, (0, "?"))[1] in (None, "u", "U"):
                    shown[name] = shown[name][0], format_
        capsule, at = _capsules().stream()
        self._fill(shown, self._range(), at)
        return capsule

    def __arrow_c_schema__(self) -> Any:
        """Return the schema of its streams as an Arrow schema capsule.

        Returns
        -------
        capsule
            A ``PyCapsule`` named "arrow_schema".

        Raises
        ------
        NoMemory
            Out of memory. Nothing changed.
        Misuse
            The table, pin or snapshot is closed or over.
        """
        stream = StreamOf()
        capsule, at = _capsules().schema()
        self._fill(self._shown, (0, 0), ctypes.addressof(stream))
        try:
            _done(_GET_SCHEMA(stream.get_schema)(byref(stream), at))
        finally:
            _RELEASE(stream.release)(byref(stream))
        return capsule

    def _fill(self, shown: Mapping[str, Tuple[int, Optional[str]]], rows: Tuple[int, int], at: int) -> None:
        """Makes a stream at an address."""
        columns = (ShownOf * len(shown))(*(ShownOf(place, it and it.encode()) for place, it in shown.values()))
        code = self._source.arrow(columns, len(shown), *rows, self._batch, at)
        check(code)

    def _range(self) -> Tuple[int, int]:
        """The positions of the rows that go out."""
        if self._asked.keys is None:
            return min(self._asked.start, LAST), LAST if self._asked.stop is None else min(self._asked.stop, LAST)
        low, high = self._asked.keys
        ranks = iter(self._ranks([key for key in (low, high) if key is not None]))
        return 0 if low is None else next(ranks), LAST if high is None else next(ranks)

    def __repr__(self) -> str:
        return f"<ArrowScan of {', '.join(self._shown)}>"


_GET_SCHEMA = ctypes.CFUNCTYPE(ctypes.c_int, c_void_p, c_void_p)
_RELEASE = ctypes.CFUNCTYPE(None, c_void_p)


def _done(code: int) -> None:
    if code:
        raise NoMemory()  # the one thing that can be wrong with a schema of ours


def _shown(shaping: Shaping, columns: Optional[Sequence[str]], as_types: Mapping[str, str]) -> Dict[str, Tuple[int, Optional[str]]]:
    """The place of each column that goes out, and the format that is asked for, by its name."""
    if isinstance(columns, str):
        raise TypeMismatch("columns are a list of names")
    names = shaping.names if columns is None else tuple(columns)
    for name in as_types:
        if name not in names:
            raise TypeMismatch(f"there is no column {quoted(name)} among those that go out")
    if len(set(names)) < len(names):
        raise TypeMismatch("a column goes out once")
    return {name: (shaping.column(name), as_types.get(name)) for name in names}


def _fields(capsule: Any) -> List[Tuple[str, str]]:
    """The names and the formats of a requested schema."""
    schema = SchemaOf.from_address(_capsules().pointer(capsule, SCHEMA))
    fields = (schema.children[place].contents for place in range(schema.n_children))
    return [((field.name or b"").decode(errors="replace"), (field.format or b"").decode()) for field in fields]


# ---- in


class StreamIn:
    """A stream that was asked of an object, for a call of C's, which releases it."""

    def __init__(self, table: Any) -> None:
        self._capsule = table.__arrow_c_stream__()
        self.at: int = _capsules().pointer(self._capsule, STREAM)


def stream_of(table: object) -> Optional[StreamIn]:
    """The stream of what has one. None also of a DataFrame whose pandas would need pyarrow for it."""
    if not hasattr(table, "__arrow_c_stream__"):
        return None
    try:
        return StreamIn(table)
    except ImportError:
        if hasattr(table, "keys"):
            return None
        raise


def names_of(names: Sequence[str]) -> Any:
    """Names for C."""
    return (c_char_p * max(len(names), 1))(*(name.encode() for name in names))


def new_fault() -> ArrowFaultOf:
    return ArrowFaultOf(size=ctypes.sizeof(ArrowFaultOf))


def check_columns(code: int, fault: ArrowFaultOf) -> None:
    """As ``check``, of columns that come in: a fault says what is wrong, and where."""
    if not code:
        return
    error, cause = error_of(code), fault.cause.decode(errors="replace")
    if cause:
        is_cell = re.match(r'column "([^"\\]|\\.)*"(\.\.)?: ', cause)
        if is_cell or isinstance(error, (Duplicate, Missing, Full)):
            error = type(error)(f"row {fault.row}{', ' if is_cell else ': '}{error}")
        error.row, error.column = fault.row, fault.column
    raise error
