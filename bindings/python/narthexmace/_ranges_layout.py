"""Where the rows of a table in ranges belong: its columns, and the keys at which ranges begin."""
from __future__ import annotations

import json
import os
from bisect import bisect_right
from functools import lru_cache
from typing import Any, Callable, Dict, Mapping, NamedTuple, Optional, Sequence, Tuple, Union, cast

from ._cells import BOOL, INT, TEXT, Cell, Column, Key, Row, bytes_of, number_of, other_columns, boolean_of
from ._declared import Declared, declared_as
from ._errors import BadTable, Incomplete, TypeMismatch
from ._ranges_log import write_whole
from ._sentences import many, quoted, value_shown, wanted

#: The file of a folder that says it.
NAME = "ranges.json"


#: The declaration of each column, or None where it has none.
Kinds = Tuple[Optional[Declared], ...]


@lru_cache
def kinds_of(formats: Tuple[Optional[str], ...]) -> Kinds:
    """The declarations of columns with these formats."""
    return tuple(None if format_ is None else declared_as(format_) for format_ in formats)


class Layout(NamedTuple):
    """The columns of a table in ranges, what they are declared as, and the least key of each range but the first."""

    columns: Tuple[Column, ...]
    formats: Tuple[Optional[str], ...]
    bounds: Tuple[Row, ...]

    @property
    def key(self) -> Tuple[Column, ...]:
        return tuple(column for column in self.columns if column.key)

    def key_of(self, key: Key) -> Row:
        """A key as its cells. TypeMismatch."""
        columns = self.key
        cells = [key] if len(columns) == 1 and not isinstance(key, (tuple, list)) else key
        if not isinstance(cells, (tuple, list)):
            raise TypeMismatch(f"{value_shown(cells)} is not a key: {wanted(len(columns))}")
        if len(cells) != len(columns):
            raise TypeMismatch(f"the key has {many(len(cells), 'cell')}, and {wanted(len(columns))}")
        return tuple(map(_cell, cells, columns, kinds_of(self.formats)))

    def row_of(self, row: Union[Sequence[Cell], Mapping[str, Cell]]) -> Row:
        """A row, given in the order of the columns or by their names, as its cells. TypeMismatch."""
        if isinstance(row, Mapping):
            names = [column.name for column in self.columns]
            if set(row) != set(names):
                raise TypeMismatch(other_columns(row, names))
            row = [row[column.name] for column in self.columns]
        if len(row) != len(self.columns):
            raise TypeMismatch(f"the row has {many(len(row), 'cell')}, and {wanted(len(self.columns))}")
        return tuple(map(_cell, row, self.columns, kinds_of(self.formats)))

    def write(self, folder: str) -> None:
        """Writes it into a folder, which has a table in ranges from then on."""
        told = {"format": 1, "columns": self.columns, "bounds": self._ordered_bounds()}
        if any(self.formats):
            told = {**told, "format": 2, "formats": self.formats}
        write_whole(folder, NAME, json.dumps(told).encode())

    def order_of(self, key: Row) -> Row:
        """A key as the cells by which keys are in order: the ints of declared columns."""
        return kept(key, kinds_of(self.formats))

    def _ordered_bounds(self) -> Tuple[Row, ...]:
        return tuple(map(self.order_of, self.bounds))

    def place_of(self, key: Row) -> int:
        """The range of a key. One that equals a bound is in the range that begins there."""
        return bisect_right(self._ordered_bounds() if any(self.formats) else self.bounds, self.order_of(key))


def kept(cells: Sequence[Cell], kinds: Kinds) -> Row:
    """Cells as a table keeps them: the ints of declared columns."""
    return tuple(cell if kind is None else kind.number(cell) for cell, kind in zip(cells, kinds))


def shown(cells: Sequence[Cell], kinds: Kinds) -> Row:
    """Cells that a table keeps as what they stand for. Those of declared columns are ints."""
    return tuple(cell if kind is None else kind.value(cast(int, cell)) for cell, kind in zip(cells, kinds))


_CELLS: Dict[str, Callable[[Any], Cell]] = {INT: number_of, TEXT: lambda text: bytes_of(text).decode(), BOOL: boolean_of}


def _cell(value: Any, column: Column, kind: Optional[Declared]) -> Any:
    """A cell as it comes back. TypeMismatch, which names the column."""
    try:
        return _CELLS[column.type](value) if kind is None else kind.value(kind.number(value))
    except TypeMismatch as fault:
        raise TypeMismatch(f"column {quoted(column.name)}: {fault}") from None


def layout_at(path: str) -> Layout:
    """That of a folder. Incomplete, where there is no table in ranges; BadTable."""
    try:
        with open(os.path.join(path, NAME), "rb") as file:
            told = json.loads(file.read())
        if told["format"] not in (1, 2):
            raise ValueError("another format")
        columns = tuple(Column(*column) for column in told["columns"])
        formats = tuple(told["formats"]) if told["format"] == 2 else (None,) * len(columns)
        return Layout(columns, formats, tuple(shown(bound, kinds_of(formats)) for bound in told["bounds"]))
    except FileNotFoundError:
        raise Incomplete(f"there is no table in ranges: {path!r}", None, path) from None
    except (ValueError, KeyError, TypeError) as why:
        raise BadTable(f"{os.path.join(path, NAME)!r} does not say the ranges of a table") from why
