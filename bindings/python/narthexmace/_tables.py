"""Tables that a table is opened over: a CSV text as it is, a file, or columns, which are written as such a text."""
from __future__ import annotations

import os
from pathlib import Path
from typing import TYPE_CHECKING, AbstractSet, Any, Callable, Dict, Iterable, List, Mapping, NamedTuple, Optional
from typing import Protocol, Sequence, Union

from ._cells import BOOL, DECLARED, INT, TEXT, Column, Shaping, bytes_of, is_time, is_boolean, number_of, boolean_of
from ._declared import Declared, declared_as
from ._errors import BadTable, TypeMismatch
from ._sentences import quoted, value_shown

if TYPE_CHECKING:
    from pandas import DataFrame

Columns = Union[Mapping[str, Iterable[Any]], "DataFrame"]
TableSource = Union[str, bytes, "os.PathLike[str]", Columns, "HasStream"]
KeyNames = Union[str, Sequence[str]]


class HasStream(Protocol):
    """An object that hands out a stream of Arrow's."""

    def __arrow_c_stream__(self, requested_schema: Any = None) -> Any:
        ...


#: Rows that are applied at once.
Many = Union[Columns, HasStream]


def text_of_table(table: object) -> bytes:
    """The CSV text of a table that isn't given as columns."""
    if isinstance(table, (bytes, bytearray, memoryview)):
        return bytes(table)
    if isinstance(table, str) and "\n" in table:
        try:
            return table.encode()
        except UnicodeEncodeError:
            raise BadTable("the text is none that UTF-8 can write") from None
    if isinstance(table, (str, os.PathLike)):
        return Path(table).read_bytes()
    raise TypeError(f"a table is a CSV text, a path or columns, and no {type(table).__name__}")


class Named(NamedTuple):
    """A column that is handed over, with its name, its type and whether it belongs to the key."""

    name: str
    type: str
    cells: Iterable[Any]
    key: bool


def columns_of(table: object) -> Optional[Dict[str, Any]]:
    """The columns of a mapping or of a DataFrame, by their names; None of another table. A Series is numpy's array."""
    if not (hasattr(table, "keys") and hasattr(table, "__getitem__")):
        return None
    names = list(table.keys())
    for name in names:
        if not isinstance(name, str):
            raise TypeMismatch(f"a column has the name {value_shown(name)}, which is not a text")
    if len(set(names)) < len(names):
        raise TypeMismatch(f"two columns have the name {quoted(next(name for name in names if names.count(name) > 1))}")
    columns = {name: table[name] for name in names}
    for name, cells in columns.items():
        _check_listed(name, cells)
    return {name: cells.to_numpy() if hasattr(cells, "to_numpy") else cells for name, cells in columns.items()}


def _check_listed(name: str, cells: object) -> None:
    """TypeMismatch, of what has no cells one after the other, or has some of them behind a mask."""
    if isinstance(cells, (str, bytes, bytearray, AbstractSet, Mapping)):
        raise TypeMismatch(f"column {quoted(name)} is a {type(cells).__name__}: a column is a list or an array of cells")
    if hasattr(cells, "filled") and hasattr(cells, "mask"):  # numpy's masked arrays, whose memory has all cells
        raise TypeMismatch(
            f"column {quoted(name)} is a masked array: filled() makes an array of it, and a list may have None where types "
            "declare it, as '?l'"
        )


def named_columns(columns: Mapping[str, Any], key: Optional[KeyNames], types: Optional[Mapping[str, str]]) -> List[Named]:
    """The columns, those of the key first, in the order in which the key names them."""
    names, types = [key] if isinstance(key, str) else list(key or ()), types or {}
    for name in (*names, *types):
        if name not in columns:
            raise TypeMismatch(f"there is no column {value_shown(name)}")
    if not names or len(set(names)) < len(names):
        raise TypeMismatch("the key names the columns that are the key, each once")
    if any("\0" in name for name in columns):
        raise TypeMismatch("the name of a column has no null character: C would cut it there")
    listed = []
    for name in (*names, *(name for name in columns if name not in names)):
        declared = declared_by(types.get(name))
        if declared is not None:
            if name in names and types[name].startswith("?"):
                raise TypeMismatch(f"column {quoted(name)} is a key column, which has no None")
            column = Named(name, INT, (), name in names)
            listed.append(column._replace(cells=_numbers(column, declared, columns[name])))
            continue
        if is_time(columns[name]):
            raise TypeMismatch(f"column {quoted(name)} has dates or times, which types declare: as {DECLARED}")
        cells = array_of(columns[name]) or _listed(columns[name])
        type_ = types[name] if name in types else _type_of(name, cells)
        if type_ not in _WRITERS:
            raise TypeMismatch(
                f"column {quoted(name)} has the type {value_shown(type_)}: there are int, text and bool, and formats, as {DECLARED}"
            )
        if isinstance(cells, memoryview) and type_of_array(cells) != type_:
            cells = cells.tolist()
        listed.append(Named(name, type_, cells, name in names))
    _of_one_length(listed)
    return listed


def columns_for(rows: object, shaping: Shaping, keys_alone: bool) -> List[Named]:
    """Columns that are applied to a table of these columns, or those of its key alone."""
    columns = columns_of(rows)
    if columns is None:
        raise TypeError(f"rows are columns by names, or have __arrow_c_stream__: no {type(rows).__name__} is that")
    taken = [column for column in shaping.columns if column.key or not keys_alone]
    for column in taken:
        if column.name not in columns:
            raise TypeMismatch(f"column {quoted(column.name)} of the table isn't there")
    if not keys_alone and len(columns) > len(taken):
        raise TypeMismatch(f"the table has no column {quoted(next(iter(set(columns) - {it.name for it in taken})))}")
    listed = []
    for column in taken:
        given, declared = columns[column.name], shaping.declared[shaping.column(column.name)]
        cells: Iterable[Any]
        if declared is not None:
            cells = _numbers(column, declared, given)
        elif is_time(given):
            format_ = shaping.formats[shaping.column(column.name)]
            stands = f"is declared {format_!r}, whose values are ints" if format_ else f"isn't declared, as {DECLARED}"
            raise TypeMismatch(f"column {quoted(column.name)} has dates or times, and {stands}")
        else:
            cells = array_of(given) or _listed(given)
        if isinstance(cells, memoryview) and type_of_array(cells) != column.type:
            cells = cells.tolist()
        listed.append(Named(column.name, column.type, cells, column.key))
    _of_one_length(listed)
    return listed


def _of_one_length(columns: Sequence[Named]) -> None:
    lengths = sorted({len(column.cells) for column in columns})  # type: ignore[arg-type]
    if len(lengths) > 1:
        raise TypeMismatch(f"the columns have {' and '.join(map(str, lengths))} cells")


def _numbers(column: Union[Named, Column], declared: Declared, given: Any) -> List[int]:
    """The ints of a declared column's values. Dates and times of numpy are whole numbers of the column's unit."""
    if is_time(given):
        rounded = given.astype(f"datetime64[{declared.unit}]") if declared.unit and given.dtype.kind == "M" else None
        if rounded is None or ((rounded != given) & (rounded == rounded)).any():
            raise TypeMismatch(f"column {quoted(column.name)} has dates or times that are not values of it")
        given = rounded
    return [written(column, declared.number, cell) for cell in _listed(given)]


def declared_by(type_: Optional[str]) -> Optional[Declared]:
    """The declaration of a column whose type is a format of Arrow's, as "tdD"; None for other types."""
    return declared_as(type_) if type_ is not None and type_ not in _WRITERS else None


def formats_of(types: Optional[Mapping[str, str]]) -> Dict[str, str]:
    """The formats among the types of columns."""
    return {name: type_ for name, type_ in (types or {}).items() if declared_by(type_) is not None}


def text_of_columns(columns: Iterable[Named]) -> bytes:
    """Columns as a CSV text."""
    headings, fields = [], []
    for column in columns:
        headings.append(_field(encoded(f"{column.name}:{column.type}{':key' if column.key else ''}")))
        fields.append([written(column, _WRITERS[column.type], cell) for cell in column.cells])
    return b"\n".join([b",".join(headings), *map(b",".join, zip(*fields)), b""])


def type_of_array(array: memoryview) -> Optional[str]:
    """The type of an array whose values have C's layout; None for other arrays."""
    if array.ndim == 1 and array.c_contiguous:
        if array.format in ("q", "l") and array.itemsize == 8:
            return INT
        if array.format == "?":
            return BOOL
    return None


def array_of(cells: Iterable[Any]) -> Optional[memoryview]:
    """An array of 64-bit numbers or of booleans, zero-copy; None for other cells."""
    try:
        array = memoryview(cells)  # type: ignore[arg-type]
    except (TypeError, ValueError, BufferError):
        return None
    return array if type_of_array(array) and len(array) else None


def _listed(cells: Iterable[Any]) -> List[Any]:
    """The cells of a list or an array; an array of numbers hands out Python's own."""
    listed = cells.tolist() if hasattr(cells, "tolist") else list(cells)
    if not isinstance(listed, list):
        raise TypeMismatch("an array of no dimension is no column")
    return listed


def _type_of(name: str, cells: Sequence[Any]) -> str:
    """The type that all cells of a column have."""
    if isinstance(cells, memoryview):
        return str(type_of_array(cells))
    kinds = {_kind_of(cell) for cell in cells}
    if len(kinds) == 1 and None not in kinds:
        return str(kinds.pop())
    if not cells:
        raise TypeMismatch(f"column {quoted(name)} has no cells: types must name its type")
    raise TypeMismatch(
        f"the cells of column {quoted(name)} are not all ints, all texts or all booleans: types declare other values, as {DECLARED}"
    )


def _kind_of(cell: object) -> Optional[str]:
    if is_boolean(cell):
        return BOOL
    if isinstance(cell, str):
        return TEXT
    return INT if hasattr(cell, "__index__") else None


def written(column: Union[Named, Column], write: Callable[[Any], Any], cell: object) -> Any:
    """The written form of a cell; a fault names the column."""
    try:
        return write(cell)
    except TypeMismatch as fault:
        raise TypeMismatch(f"column {quoted(column.name)}: {fault}") from None


def encoded(text: str) -> bytes:
    try:
        return text.encode()
    except UnicodeEncodeError:
        raise TypeMismatch(f"{value_shown(text)} is not a text that UTF-8 can write") from None


def _field(text: bytes) -> bytes:
    """A field in quotes: it may have commas, quotes and ends of lines, and an empty one alone is still a record."""
    return b'"' + text.replace(b'"', b'""') + b'"'


_WRITERS: Dict[str, Callable[[Any], bytes]] = {
    INT: lambda cell: b"%d" % number_of(cell),
    TEXT: lambda cell: _field(bytes_of(cell)),
    BOOL: lambda cell: b"true" if boolean_of(cell) else b"false",
}
