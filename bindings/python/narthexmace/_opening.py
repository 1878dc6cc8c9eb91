"""How a table is opened: over a CSV text, or over columns; as a table outside a database, or as a table of a
database."""
from __future__ import annotations

import ctypes
import operator
import os
from ctypes import byref, c_void_p
from typing import Any, Callable, List, Mapping, NamedTuple, Optional, Sequence

from ._arrow import StreamIn, check_columns, names_of, new_fault, stream_of
from ._columns import PassedColumns
from ._errors import BadLimit, BadTable, Misuse, NotAscending, Path, TypeMismatch, check, check_text
from ._library import MAX_RECENT, MAX_ROWS, FaultOf, Options, PlaceOf, PlainOf, library
from ._sentences import key_shown, value_shown
from ._tables import KeyNames, Named, TableSource, columns_of, declared_by, encoded, formats_of, named_columns
from ._tables import text_of_columns, text_of_table


class Calls(NamedTuple):
    """C's calls that open a table over a text, a text without types, columns and a stream: a table outside a database,
    or in a database, which has it.

    Those of a text and of columns take the formats of declared columns before their other arguments. For a table
    outside a database they don't use them: ``declare`` does.
    """

    text: Callable[..., int]
    plain: Callable[..., int]
    columns: Callable[..., int]
    arrow: Callable[..., int]


#: The declared format of each column, or None. Empty where no column is declared.
Formats = Sequence[Optional[str]]


def calls_alone() -> Calls:
    """Those that open a table outside a database."""

    def text(formats: Formats, *given: Any) -> int:
        return int(library.pdt_open_csv(*given))

    def columns(formats: Formats, *given: Any) -> int:
        return int(library.pdt_open_columns(*given))

    return Calls(text, library.pdt_open_plain, columns, library.pdt_open_arrow)


def open_table(
    calls: Calls,
    table: TableSource,
    key: Optional[KeyNames],
    types: Optional[Mapping[str, str]],
    options: Options,
    room: c_void_p,
) -> None:
    """Opens a table, whose address goes into room. BadTable, TypeMismatch, and those of C's calls."""
    is_frame = hasattr(table, "keys")  # whose columns have the types that are named, and else those of its stream
    stream = stream_of(table) if types is None or not is_frame else None
    if stream is not None:
        if types is not None:
            raise TypeError("a stream of Arrow's has types of its own")
        _over_stream(calls, stream, key, options, room)
        return
    columns = columns_of(table)
    if columns is not None:
        _over_columns(calls, columns, key, types, options, room)
        return
    if types is not None:
        raise TypeError("types go with columns; a CSV text names its own in its header, as id:int:key, or in no cell of it")
    text = text_of_table(table)
    if not _has_types(text):
        _over_plain(calls, text, key, options, room)
        return
    if key is not None:
        raise TypeError("the header of this CSV text names its key and its types: key goes with one that has neither")
    _over_text(calls, text, (), options, room)


def _has_types(text: bytes) -> bool:
    """Whether the header of a CSV text names types."""
    has = ctypes.c_bool()
    check(library.pdt_csv_has_types(text, len(text), byref(has)))
    return has.value


def _over_plain(calls: Calls, text: bytes, key: Optional[KeyNames], options: Options, room: c_void_p) -> None:
    """Opens a table over a CSV text whose header names columns alone."""
    names, fault = key_names(key), FaultOf()
    passed = names_of(names)
    plain = PlainOf(ctypes.sizeof(PlainOf), ctypes.addressof(passed), len(names), 0)
    check_text(calls.plain(text, len(text), byref(plain), byref(options), byref(fault), byref(room)), fault)


def _over_text(calls: Calls, text: bytes, formats: Formats, options: Options, room: c_void_p) -> None:
    fault = FaultOf()
    check_text(calls.text(formats, text, len(text), byref(options), byref(fault), byref(room)), fault)


def _over_stream(calls: Calls, stream: StreamIn, key: Optional[KeyNames], options: Options, room: c_void_p) -> None:
    names, fault = key_names(key), new_fault()
    check_columns(calls.arrow(stream.at, names_of(names), len(names), byref(options), byref(fault), byref(room)), fault)


def key_names(key: Optional[KeyNames]) -> List[str]:
    """The names of a key, which C can take. TypeMismatch."""
    names = [key] if isinstance(key, str) else list(key or ())
    for name in names:
        if "\0" in name:
            raise TypeMismatch("the name of a column has no null character: C would cut it there")
    return [encoded(name).decode() for name in names]


def _over_columns(
    calls: Calls,
    columns: Mapping[str, Any],
    key: Optional[KeyNames],
    types: Optional[Mapping[str, str]],
    options: Options,
    room: c_void_p,
) -> None:
    """Opens the table over columns. Rows in ascending key are read in place; others are sorted, by way of a text."""
    named = named_columns(columns, key, types)
    passed, place, keys = PassedColumns(named), PlaceOf(), sum(column.key for column in named)
    declared = formats_of(types)
    formats = [declared.get(column.name) for column in named]
    try:
        given = (byref(passed.columns), len(named), keys, byref(options), byref(place), byref(room))
        check(calls.columns(formats, *given))
    except NotAscending:
        _sorted(calls, named, formats, options, room)


def _sorted(calls: Calls, columns: Sequence[Named], formats: Formats, options: Options, room: c_void_p) -> None:
    """Opens a table over columns whose rows are in any order."""
    try:
        _over_text(calls, text_of_columns(columns), formats, options, room)
    except BadTable as fault:  # of the records only their keys can be refused: all cells were read before
        if fault.record is None:
            raise
        raise _repeated(columns, formats, fault.record - 2) from None


def _repeated(columns: Sequence[Named], formats: Formats, row: int) -> BadTable:
    """The exception of a row that has the key of an earlier one."""
    keys = [(column, declared_by(format_)) for column, format_ in zip(columns, formats) if column.key]
    cells = [list(column.cells)[row] for column, _ in keys]
    values = [cell if it is None else it.value(cell) for cell, (_, it) in zip(cells, keys)]
    error = BadTable(f"row {row}: the key {key_shown([it.name for it, _ in keys], values)} is that of an earlier row")
    error.row = row
    return error


def options_of(recent: int, row_limit: int, conflicts: str) -> Options:
    if not 1 <= recent <= MAX_RECENT:
        raise BadLimit(f"recent is {recent}: 1 to {MAX_RECENT:,} is wanted")
    if not 1 <= row_limit <= MAX_ROWS:
        raise BadLimit(f"row_limit is {row_limit}: 1 to {MAX_ROWS:,} is wanted")
    if conflicts not in ("column", "row"):
        raise BadLimit(f'conflicts is {value_shown(conflicts)}: "column" or "row" is wanted')
    size = ctypes.sizeof(Options)
    return Options(size, operator.index(recent), operator.index(row_limit), conflicts == "row")


def folder_of(folder: Path) -> bytes:
    path = os.fsencode(folder)
    if b"\0" in path:
        raise Misuse("a path has no null character")
    return path
