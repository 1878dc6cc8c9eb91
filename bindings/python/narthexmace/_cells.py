"""Cells as C has them: a number for each, and the bytes of the texts, one after the other."""
from __future__ import annotations

import ctypes
import operator
from typing import Any, Iterable, List, Mapping, NamedTuple, Optional, Sequence, Tuple, Union

from ._declared import Declared, declared_as
from ._errors import Duplicate, TypeMismatch, sentence_of
from ._library import MAX_TEXT, library
from ._sentences import key_shown, many, quoted, value_shown, wanted

#: In a declared column also a float, a date, a datetime, a Decimal or None.
Cell = Union[int, str, bool, Any]
Row = Tuple[Cell, ...]
Key = Union[Cell, Sequence[Cell]]
#: The numbers of cells, the bytes of their texts, and how many these are.
Passed = Tuple[Any, bytes, int]

INT, TEXT, BOOL = "int", "text", "bool"
TYPES = {1: INT, 2: TEXT, 3: BOOL}
LEAST, MOST = -(2**63), 2**63 - 1


#: The formats that most columns of other values want, for people.
DECLARED = "'tdD' of dates, 'tsu:' of timestamps, 'g' of floats, 'd:15,2' of Decimals, and with '?' before it of None too"


class Column(NamedTuple):
    """A column of a table.

    Attributes
    ----------
    name : str
        Its name.
    type : {"int", "text", "bool"}
        Its type.
    key : bool
        Whether it is a key column.
    """

    name: str
    type: str
    key: bool


def shaping_at(table: Any) -> "Shaping":
    """The columns of a table at an address, and how their cells go there and come back."""
    shaping = Shaping(columns_at(table))
    for place in range(len(shaping.columns)):
        format_ = library.pdt_declared(table, place)
        shaping.declare(place, format_ and format_.decode())
    return shaping


def columns_at(table: Any) -> Tuple[Column, ...]:
    """The columns of a table at an address."""
    key_columns = library.pdt_key_columns(table)
    return tuple(
        Column(
            library.pdt_column_name(table, place).decode(),
            TYPES[library.pdt_column_type(table, place)],
            place < key_columns,
        )
        for place in range(library.pdt_columns(table))
    )


def is_boolean(value: object) -> bool:
    """Whether a value is a boolean, of Python or of numpy."""
    return isinstance(value, bool) or getattr(getattr(value, "dtype", None), "kind", None) == "b"


def is_time(value: object) -> bool:
    """Whether a value, or those of an array, are dates or times of numpy: their numbers say nothing without a unit."""
    return getattr(getattr(value, "dtype", None), "kind", None) in ("m", "M")


def number_of(value: object) -> int:
    """A value as a cell of an int column. A float is none, and neither is a boolean, or a date or time of numpy."""
    if is_time(value):
        raise TypeMismatch(f"{value_shown(value)} is not an int: a column of dates or times is declared, as {DECLARED}")
    if is_boolean(value):
        raise TypeMismatch(f"{value_shown(value)} is not an int")
    try:
        number = operator.index(value)  # type: ignore[arg-type]
    except TypeError:
        raise TypeMismatch(f"{value_shown(value)} is not an int") from None
    if not LEAST <= number <= MOST:
        raise TypeMismatch(f"{value_shown(number)} is not an int of 64 bits")
    return number


def bytes_of(value: object) -> bytes:
    """A value as a cell of a text column, in UTF-8."""
    if not isinstance(value, str):
        raise TypeMismatch(f"{value_shown(value)} is not a text")
    try:
        text = value.encode()
    except UnicodeEncodeError:
        raise TypeMismatch(f"{value_shown(value)} is not a text that UTF-8 can write") from None
    if len(text) > MAX_TEXT:
        raise TypeMismatch(f"the text has {len(text):,} bytes, and {MAX_TEXT:,} are the most")
    return text


def boolean_of(value: object) -> bool:
    """A value as a cell of a bool column. A number is none."""
    if not is_boolean(value):
        raise TypeMismatch(f"{value_shown(value)} is not a bool: True or False is wanted")
    return bool(value)


def other_columns(row: Mapping[str, Any], names: Sequence[str]) -> str:
    """Why a row by names has not the columns of a table."""
    for name in names:
        if name not in row:
            return f"the row has no column {quoted(name)}"
    return f"the table has no column {value_shown(next(name for name in row if name not in names))}"


class Shaping:
    """The columns of a table, and how cells go to C and come back."""

    def __init__(self, columns: Sequence[Column]) -> None:
        self.columns = tuple(columns)
        self.names = tuple(column.name for column in columns)
        self.types = tuple(column.type for column in columns)
        self.keys = sum(column.key for column in columns)
        #: The format that each column is declared as, and what its ints stand for.
        self.formats: List[Optional[str]] = [None] * len(columns)
        self.declared: List[Optional[Declared]] = [None] * len(columns)
        self.place = {name: place for place, name in enumerate(self.names)}
        self.numbers = ctypes.c_int64 * len(columns)

    def column(self, name: str) -> int:
        """The place of a column."""
        try:
            return self.place[name]
        except (KeyError, TypeError):
            raise TypeMismatch(f"there is no column {value_shown(name)}") from None

    def row(self, row: Union[Sequence[Cell], Mapping[str, Cell]]) -> Passed:
        """A row for C: its cells in the order of the columns, or by their names."""
        if isinstance(row, Mapping):
            if set(row) != set(self.names):
                raise TypeMismatch(other_columns(row, self.names))
            row = [row[name] for name in self.names]
        return self._passed(row, len(self.types), "row")

    def key(self, key: Key) -> Passed:
        """A key for C. Where it has one column it may be that cell itself."""
        if isinstance(key, (tuple, list)):
            return self._passed(key, self.keys, "key")
        return self._passed((key,), self.keys, "key")

    def _passed(self, cells: Sequence[Cell], count: int, what: str) -> Passed:
        if isinstance(cells, (str, bytes)):
            raise TypeMismatch(f"{value_shown(cells)} is not a {what}: {wanted(count)}")
        if len(cells) != count:
            raise TypeMismatch(f"the {what} has {many(len(cells), 'cell')}, and {wanted(count)}")
        numbers, texts = (ctypes.c_int64 * count)(), []
        for place, cell in enumerate(cells):
            numbers[place], text = self.cell(cell, place)
            texts.append(text)
        joined = b"".join(texts)
        return numbers, joined, len(joined)

    def declare(self, place: int, format_: Optional[str]) -> None:
        """Notes what a column is declared as."""
        self.formats[place] = format_
        self.declared[place] = None if format_ is None else declared_as(format_)

    def cell(self, cell: Cell, place: int) -> Tuple[int, bytes]:
        """A cell of a column for C: its number and its bytes. TypeMismatch, which names the column."""
        try:
            return self._written(cell, place)
        except TypeMismatch as fault:
            raise TypeMismatch(f"column {quoted(self.names[place])}: {fault}") from None

    def _written(self, cell: Cell, place: int) -> Tuple[int, bytes]:
        type_, declared = self.types[place], self.declared[place]
        if declared is not None:
            return declared.number(cell), b""
        if type_ == INT:
            return number_of(cell), b""
        if type_ == BOOL:
            return int(boolean_of(cell)), b""
        text = bytes_of(cell)
        return len(text), text

    def key_in(self, row: Union[Sequence[Cell], Mapping[str, Cell]]) -> Key:
        """The key of a row, as it is given."""
        cells = [row[name] for name in self.names[: self.keys]] if isinstance(row, Mapping) else row[: self.keys]
        return tuple(cells)

    def told(self, code: int, key: Key) -> str:
        """The sentence of a refusal that names a key, of the last call: with the values of declared columns, not with their ints."""
        if not any(self.declared[: self.keys]):
            return sentence_of(code)
        told = key_shown(self.names, key if isinstance(key, (tuple, list)) else (key,))
        return f"a row with the key {told} exists" if code == Duplicate.code else f"no row has the key {told}"

    def row_of(self, numbers: Iterable[int], texts: memoryview) -> Row:
        """The row whose cells C has put there."""
        return self.cells_of(numbers, texts, range(len(self.types)))

    def cells_of(self, numbers: Iterable[int], texts: memoryview, places: Iterable[int]) -> Row:
        """The cells of these columns that C has put there."""
        cells: List[Cell] = []
        at = 0
        for place, number in zip(places, numbers):
            type_, declared = self.types[place], self.declared[place]
            if declared is not None:
                cells.append(declared.value(number))
            elif type_ == INT:
                cells.append(number)
            elif type_ == BOOL:
                cells.append(number == 1)
            else:
                cells.append(str(texts[at : at + number], "utf-8"))
                at += number
        return tuple(cells)
