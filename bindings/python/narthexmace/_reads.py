"""How a column's cells are read from C: each type by the call that reads it fastest, into memory of Python's own."""
from __future__ import annotations

import ctypes
import sys
from array import array
from ctypes import byref, c_int64, c_size_t, c_uint8, c_uint64
from itertools import accumulate, compress
from operator import ne
from typing import Any, List, Sequence

from ._batches import Texts
from ._cells import BOOL, INT
from ._errors import Error, check
from ._library import IntSpan, library

#: The rows of a block of the stable table, whose texts are adjacent in memory.
BLOCK = 1024
#: Up to how many runs of a block are copied run by run: where rows were changed there are more.
FEW = 64
_WORD = 8


def column_of(at: int, type_: str, place: int, first: int, count: int) -> Any:
    """``count`` cells of a column from a position on, as ``Batch`` has them."""
    if type_ == INT:
        return _ints(at, place, first, count)
    return _truths(at, place, first, count) if type_ == BOOL else _texts(at, place, first, count)


def _all_there(got: int, count: int) -> None:
    if got != count:
        raise Error(f"the library handed out {got} cells of {count}")


def _ints(at: int, place: int, first: int, count: int) -> memoryview:
    """The numbers of an int column."""
    room, got = _room(8 * count), c_size_t(count)
    check(library.pdt_ints(at, place, first, (c_int64 * count).from_buffer(room), byref(got)))
    _all_there(got.value, count)
    return memoryview(room).cast("q")


def _truths(at: int, place: int, first: int, count: int) -> memoryview:
    """The booleans of a bool column, a byte each."""
    room, got = _room(count), c_size_t(count)
    check(library.pdt_bools(at, place, first, (c_uint8 * count).from_buffer(room), byref(got)))
    _all_there(got.value, count)
    return memoryview(room).cast("?")


def _texts(at: int, place: int, first: int, count: int) -> Texts:
    """The texts of a column. C returns their addresses, and adjacent texts are copied at once."""
    joined = _Joined()
    places, sizes = bytearray(_WORD * BLOCK), bytearray(_WORD * BLOCK)
    rooms = [(c_int64 * BLOCK).from_buffer(room) for room in (places, sizes)]
    while joined.count < count:
        done = joined.count
        got = c_size_t(min(BLOCK - (first + done) % BLOCK, count - done))
        check(library.pdt_texts(at, place, first + done, *rooms, byref(got)))
        if not got.value:
            _all_there(done, count)
        lie, have = bytes(places[: _WORD * got.value]), bytes(sizes[: _WORD * got.value])
        starts = _starts_of_runs(lie, have)
        if len(starts) <= FEW:
            joined.add_runs(starts, lie, have)
        else:
            joined.add(array("q", have), _copied(at, place, first + done, array("q", have)))
    return joined.texts()


def _copied(at: int, place: int, first: int, sizes: array[int]) -> bytes:
    """The bytes of texts of these sizes, copied by C one by one."""
    room, numbers = ctypes.create_string_buffer(sum(sizes)), (c_int64 * len(sizes))()
    got, used = c_size_t(len(sizes)), c_size_t()
    check(library.pdt_cells(at, place, first, numbers, byref(got), room, len(room), byref(used)))
    _all_there(got.value, len(sizes))
    return room.raw


class _Joined:
    """Texts that are put one after the other.

    A run's texts are added all at once, since Python takes long for each. Their addresses and sizes are summed up as
    one long number, in which each has a word. No sum of two carries into the next word.
    """

    def __init__(self) -> None:
        self.count = 0
        self._bytes: List[bytes] = []
        self._offsets = bytearray()
        self._end = 0

    def add_runs(self, starts: Sequence[int], places: bytes, sizes: bytes) -> None:
        """Adds texts, given their addresses and sizes in bytes, as words, and the start of each run of them."""
        address, size = memoryview(places).cast("q"), memoryview(sizes).cast("q")
        was, becomes = [], []
        for start, stop in zip(starts, [*starts[1:], len(address)]):
            length = address[stop - 1] + size[stop - 1] - address[start]
            self._bytes.append(ctypes.string_at(address[start], length))
            was.append(places[_WORD * start : _WORD * (start + 1)] * (stop - start))
            becomes.append(self._end.to_bytes(_WORD, sys.byteorder) * (stop - start))
            self._end += length
        offsets = _long(places) - _long(b"".join(was)) + _long(b"".join(becomes))
        self._offsets += offsets.to_bytes(len(places), sys.byteorder)
        self.count += len(address)

    def add(self, sizes: array[int], texts: bytes) -> None:
        """Adds texts by how many bytes they have, and their bytes."""
        self._offsets += memoryview(array("q", accumulate(sizes, initial=self._end)))[:-1]
        self._bytes.append(texts)
        self._end += len(texts)
        self.count += len(sizes)

    def texts(self) -> Texts:
        self._offsets += self._end.to_bytes(_WORD, sys.byteorder)
        return Texts(memoryview(self._offsets).cast("q"), b"".join(self._bytes))


def _long(words: bytes) -> int:
    return int.from_bytes(words, sys.byteorder)


def _starts_of_runs(places: bytes, sizes: bytes) -> List[int]:
    """Which texts don't begin where the one before ends; the first one is one of them."""
    ends = (_long(places) + _long(sizes)).to_bytes(len(places), sys.byteorder)
    due, there = ends[:-_WORD], places[_WORD:]
    if due == there:
        return [0]
    return [0, *compress(range(1, len(places) // _WORD), map(ne, array("q", due), array("q", there)))]


def int_spans_of(at: int, place: int, start: int, stop: int) -> Sequence[IntSpan]:
    """The spans of an int column between two positions."""
    room = (max(stop - start, 0) // 1024 + 2) * 2
    while True:
        spans, count, rows = (IntSpan * room)(), c_size_t(room), c_uint64()
        check(library.pdt_int_spans(at, place, start, stop, spans, byref(count), byref(rows)))
        if rows.value >= stop - start or count.value < room:
            return spans[: count.value]
        room *= 4


def runs_of(spans: Sequence[IntSpan]) -> List[Any]:
    """An array over the memory of each run of numbers; single numbers that came by value are put together."""
    runs: List[Any] = []
    singles: List[int] = []
    for span in spans:
        if span.at is None:
            singles.append(span.number)
            continue
        if singles:
            runs.append((c_int64 * len(singles))(*singles))
            singles = []
        runs.append((c_int64 * span.count).from_address(span.at))
    if singles:
        runs.append((c_int64 * len(singles))(*singles))
    return runs


def aligned(columns: Sequence[List[Any]]) -> Sequence[List[Any]]:
    """The runs of several columns, cut so that each has as many rows as those that are beside it."""
    if len(columns) == 1:
        return columns
    ends = sorted({end for runs in columns for end in accumulate(map(len, runs))})
    return [_cut_at(runs, ends) for runs in columns]


def _cut_at(runs: Sequence[Any], ends: Sequence[int]) -> List[Any]:
    """The same numbers in arrays that end at these rows. Each run ends at one of them."""
    cut: List[Any] = []
    upcoming, row = iter(ends), 0
    for run in runs:
        start, stop = row, row + len(run)
        while row < stop:
            end = next(upcoming)
            whole = end - row == len(run)
            cut.append(run if whole else (c_int64 * (end - row)).from_buffer(run, _WORD * (row - start)))
            row = end
    return cut


def _room(size: int) -> bytearray:
    """``size`` bytes for C to fill. CPython allocates them without writing zeros first."""
    made: bytearray = _make(None, size) if _make else bytearray(size)
    return made


def _room_maker() -> Any:
    if not hasattr(ctypes, "pythonapi"):
        return None
    make = ctypes.pythonapi.PyByteArray_FromStringAndSize
    make.restype, make.argtypes = ctypes.py_object, (ctypes.c_char_p, ctypes.c_ssize_t)
    return make


_make = _room_maker()
