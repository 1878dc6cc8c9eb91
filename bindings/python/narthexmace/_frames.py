"""Columns as pandas has them: one type for each format, whatever values are there."""
from __future__ import annotations

from typing import TYPE_CHECKING, Any, Optional

from ._cells import BOOL, INT, LEAST, MOST, TEXT
from ._declared import declared_as, unit_of
from ._errors import TypeMismatch
from ._sentences import quoted

if TYPE_CHECKING:
    from pandas import Series

    from ._batches import Batch

_TYPES = {INT: "int64", BOOL: "bool", TEXT: "object"}


def dtype_of(type_: str, format_: Optional[str]) -> str:
    """The type of a column, by what it is and what it is declared as: object of texts, dates and decimals."""
    if format_ is None:
        return _TYPES[type_]
    kind = format_[1:] if format_.startswith("?") else format_
    if kind == "g":
        return "float64"
    if unit_of(kind) is not None:
        return "datetime64[ns]" if kind.endswith(":") else "datetime64[ns, UTC]"
    if declared_as(kind) is not None:
        return "object"
    return "int64" if kind == format_ else "Int64"


def series_of(batch: "Optional[Batch]", name: str, type_: str, format_: Optional[str]) -> "Series":
    """A column of a batch, which is None where there is no row. TypeMismatch, of a timestamp that pandas can't have."""
    import numpy
    import pandas

    dtype = dtype_of(type_, format_)
    if batch is None:
        return pandas.Series([], dtype=dtype)
    if dtype == "object" and format_ is not None:
        return pandas.Series(numpy.array([*batch._values_of(name), None], dtype=object)[:-1])
    cells = numpy.asarray(batch[name])
    if format_ is None:
        return pandas.Series(cells, dtype=dtype)
    nulls = (cells == LEAST) & format_.startswith("?")
    if dtype == "float64":
        cells = _doubles_of(cells, nulls)
    elif dtype == "Int64":
        cells = pandas.arrays.IntegerArray(cells.astype(numpy.int64), nulls)
    elif dtype != "int64":
        moments = pandas.Series(_moments_of(cells, nulls, name, unit_of(format_.lstrip("?")) or 1))
        return moments if dtype == "datetime64[ns]" else moments.dt.tz_localize("UTC")
    return pandas.Series(cells)


def _doubles_of(cells: Any, nulls: Any) -> Any:
    """The doubles of a column, whose ints have their order: NaN of None."""
    doubles = (cells ^ ((cells >> 63) & MOST)).view("f8")
    doubles[nulls] = float("nan")
    return doubles


def _moments_of(cells: Any, nulls: Any, name: str, unit: int) -> Any:
    """The timestamps of a column, in nanoseconds: NaT of None. ``unit`` counts the microseconds of a unit."""
    most = MOST // (1000 * unit)
    if (((cells > most) | (cells < -most)) & ~nulls).any():
        raise TypeMismatch(f"column {quoted(name)} has a time outside of 1677 to 2262, which pandas' datetime64[ns] can't have")
    moments = (cells * (1000 * unit)).view("M8[ns]")
    moments[nulls] = "NaT"
    return moments
