"""Columns in the form that C takes: the address of their numbers, their booleans, or the bytes of their texts."""
from __future__ import annotations

import ctypes
from array import array
from itertools import accumulate
from typing import TYPE_CHECKING, Any, List, Sequence, Union

from ._cells import BOOL, INT, bytes_of, number_of, boolean_of
from ._library import ColumnOf
from ._tables import Named, encoded, written

if TYPE_CHECKING:
    Values = Union["array[int]", bytes, memoryview]

#: The numbers of the types in C.
_TYPES = {"int": 1, "text": 2, "bool": 3}


class PassedColumns:
    """Columns for ``pdt_open_columns``. This object keeps the memory that they point to."""

    def __init__(self, columns: Sequence[Named]) -> None:
        self._kept: List[Any] = []
        self.columns = (ColumnOf * len(columns))()
        for place, column in enumerate(columns):
            self._pass(self.columns[place], column)

    def _pass(self, passed: ColumnOf, column: Named) -> None:
        """Hands a column over. Its rows are as many as are passed: what writes a cell may have changed the list."""
        passed.name, passed.type = encoded(column.name), _TYPES[column.type]
        if column.type == INT:
            given = column.cells
            numbers: Values = given if isinstance(given, memoryview) else array("q", self._cells(column, number_of))
            passed.rows, passed.numbers = len(numbers), self._place_of(numbers)
        elif column.type == BOOL:
            booleans = column.cells if isinstance(column.cells, memoryview) else bytes(self._cells(column, boolean_of))
            passed.rows, passed.bytes = len(booleans), self._place_of(booleans)
        else:
            texts = self._cells(column, bytes_of)
            joined = b"".join(texts)
            passed.rows = len(texts)
            passed.offsets = self._place_of(array("Q", accumulate(map(len, texts), initial=0)))
            passed.bytes, passed.len = self._place_of(joined), len(joined)

    @staticmethod
    def _cells(column: Named, write: Any) -> List[Any]:
        return [written(column, write, cell) for cell in column.cells]

    def _place_of(self, values: Values) -> int:
        """The address of values, which are kept. A read-only buffer is copied, since ctypes takes no address of one."""
        view = memoryview(values).cast("B")
        if not len(view):
            return 0
        bytes_ = ctypes.c_char * len(view)
        lent = bytes_.from_buffer_copy(view) if view.readonly else bytes_.from_buffer(view)
        self._kept.append(lent)
        return ctypes.addressof(lent)
