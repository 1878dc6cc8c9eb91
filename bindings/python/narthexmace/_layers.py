"""Layers: the entries that change the rows below them, by position."""
from __future__ import annotations

import ctypes
from ctypes import byref
from typing import Iterator, NamedTuple, Optional, Sequence

from ._cells import Row, Shaping
from ._errors import TooSmall, check
from ._handles import Address, Single
from ._library import EntryOf, library

INSERT, DELETE, MODIFY = "insert", "delete", "modify"
_KINDS = {1: INSERT, 2: DELETE, 3: MODIFY}


class Entry(NamedTuple):
    """An entry of a layer, which changes a row below it.

    Attributes
    ----------
    layer : {"read", "write", "own", "commit"}
        The Read-PDT, the Write-PDT, a transaction's own writes, or what a commit changed of the version before it.
    sid : int
        Its position among the rows below the layer.
    rid : int
        The position of its row among the rows above the layer; for a delete, where the row would be.
    kind : {"insert", "delete", "modify"}
        What it does.
    column : str or None
        The column that a modify sets.
    values : tuple
        The row that it inserts, the key of the row that it deletes, or the cell that it sets.
    """

    layer: str
    sid: int
    rid: int
    kind: str
    column: Optional[str]
    values: Row


class Layer(Single):
    """The entries of a layer as they stood when C filled its address. A loop over them is for one thread."""

    def __init__(self, name: str, shaping: Shaping) -> None:
        self._address = Address(library.pdt_layer_close)  # null where there is none
        self.room = self._address.room
        self._name = name
        self._shaping = shaping

    def __iter__(self) -> Iterator[Entry]:
        entry, numbers, texts = EntryOf(), self._shaping.numbers(), ctypes.create_string_buffer(1024)
        for index in range(library.pdt_layer_size(self.room)):
            code = library.pdt_entry_at(self.room, index, byref(entry), numbers, texts, len(texts))
            if code == TooSmall.code:
                texts = ctypes.create_string_buffer(entry.bytes)
                code = library.pdt_entry_at(self.room, index, byref(entry), numbers, texts, len(texts))
            check(code)
            values = self._shaping.cells_of(numbers, memoryview(texts), self._places_of(entry))
            column = self._shaping.names[entry.column] if _KINDS[entry.kind] == MODIFY else None
            yield Entry(self._name, entry.sid, entry.rid, _KINDS[entry.kind], column, values)

    @staticmethod
    def _places_of(entry: EntryOf) -> Sequence[int]:
        """The columns of an entry's cells."""
        return [entry.column] if _KINDS[entry.kind] == MODIFY else range(entry.cells)
