"""The results of a scan: batches of columns, texts, and spans over the library's memory."""
from __future__ import annotations

from itertools import islice
from typing import Any, Dict, Iterator, List, Optional, Sequence, Tuple, Union, overload

from ._cells import Row
from ._declared import Declared


class Texts(Sequence[str]):
    """The texts of a column in a batch, decoded when they are asked for.

    ``numpy.asarray`` makes an array of objects, with all texts decoded.

    Attributes
    ----------
    data : memoryview
        The UTF-8 bytes of the texts, one after the other.
    offsets : memoryview
        int64, one more than there are texts: text i is ``data[offsets[i]:offsets[i + 1]]``.
    """

    __slots__ = ("data", "offsets", "_bytes")

    def __init__(self, offsets: memoryview, data: bytes) -> None:
        self._bytes = data
        self.data = memoryview(data)
        self.offsets = offsets

    def __len__(self) -> int:
        return len(self.offsets) - 1

    @overload
    def __getitem__(self, index: int) -> str:
        ...

    @overload
    def __getitem__(self, index: slice) -> List[str]:
        ...

    def __getitem__(self, index: Union[int, slice]) -> Union[str, List[str]]:
        if isinstance(index, slice):
            return [self._text(i) for i in range(*index.indices(len(self)))]
        if index < 0:
            index += len(self)
        if not 0 <= index < len(self):
            raise IndexError("there is no such text")
        return self._text(index)

    def _text(self, index: int) -> str:
        return self._bytes[self.offsets[index] : self.offsets[index + 1]].decode()

    def __iter__(self) -> Iterator[str]:
        return iter(self.tolist())

    def tolist(self) -> List[str]:
        """Decode all texts.

        Returns
        -------
        list of str
            The texts.
        """
        offsets, data = self.offsets.tolist(), self._bytes
        if data.isascii():  # a byte is a character, so that they are decoded at once
            decoded = data.decode("ascii")
            return [decoded[begin:end] for begin, end in zip(offsets, islice(offsets, 1, None))]
        return [data[begin:end].decode() for begin, end in zip(offsets, islice(offsets, 1, None))]

    def __array__(self, dtype: Any = None, copy: Optional[bool] = None) -> Any:
        """Decode all texts into an array of numpy's.

        Parameters
        ----------
        dtype : numpy.dtype, optional
            The dtype of the array; object by default.
        copy : bool, optional
            False isn't possible.

        Returns
        -------
        numpy.ndarray
            The texts.

        Raises
        ------
        ImportError
            There is no numpy.
        ValueError
            ``copy`` is False: decoding copies.
        """
        import numpy

        if copy is False:
            raise ValueError("an array of texts is a copy: they are decoded")
        return numpy.array(self.tolist(), dtype=object if dtype is None else dtype)

    def __repr__(self) -> str:
        return f"Texts({self.tolist()!r})"


class Batch:
    """Rows of a scan, column by column: ``batch["qty"]`` is a column's cells, ``len(batch)`` the number of rows.

    An int column is a memoryview of int64, a bool column a memoryview of bytes of 0 or 1, a text column a ``Texts``.
    The memory is the batch's own: it stays valid whatever becomes of the transaction, and ``numpy.asarray`` and
    ``numpy.frombuffer`` make arrays over it without a copy.

    Attributes
    ----------
    start : int
        The position of the first row.
    columns : tuple of str
        The names of the columns.
    """

    __slots__ = ("start", "columns", "_cells", "_rows", "_declared")

    def __init__(self, start: int, rows: int, cells: Dict[str, Any], declared: Dict[str, Optional[Declared]]) -> None:
        #: The position of the first row.
        self.start = start
        #: The names of the columns.
        self.columns: Tuple[str, ...] = tuple(cells)
        self._cells = cells
        self._rows = rows
        self._declared = declared

    def __len__(self) -> int:
        return self._rows

    def __getitem__(self, column: str) -> Any:
        return self._cells[column]

    def rows(self) -> List[Row]:
        """Return the rows, with the values that declared columns mean.

        Returns
        -------
        list of tuple
            The cells of each row in the order of the batch's columns.
        """
        if not self._cells:
            return [()] * self._rows
        return list(zip(*(self._values_of(name) for name in self._cells)))

    def _values_of(self, name: str) -> List[Any]:
        """The values of a column, as rows have them."""
        cells: List[Any] = self._cells[name].tolist()
        declared = self._declared[name]
        return cells if declared is None else [declared.value(cell) for cell in cells]

    def __repr__(self) -> str:
        return f"<Batch of the rows {self.start} to {self.start + self._rows} of {', '.join(self.columns)}>"


class IntSpans(Sequence[memoryview]):
    """The int64 values of a column, as read-only views without a copy. From ``Snapshot.int_spans``.

    There is a view for each contiguous run of rows. Only values of rows that were changed since the last checkpoint are
    copied. The views are valid until the next write on the transaction, its commit or its end, which release them: they
    raise ValueError then.
    """

    __slots__ = ("_views",)

    def __init__(self, views: List[memoryview]) -> None:
        self._views = views

    def __len__(self) -> int:
        return len(self._views)

    @overload
    def __getitem__(self, index: int) -> memoryview:
        ...

    @overload
    def __getitem__(self, index: slice) -> List[memoryview]:
        ...

    def __getitem__(self, index: Union[int, slice]) -> Any:
        return self._views[index]

    def __iter__(self) -> Iterator[memoryview]:
        return iter(self._views)

    def copy(self) -> memoryview:
        """Copy the values into memory of the caller's own.

        Returns
        -------
        memoryview
            All values, one after the other, as int64.
        """
        return memoryview(b"".join(self._views)).cast("q")

    def __repr__(self) -> str:
        return f"<{len(self)} spans>"
