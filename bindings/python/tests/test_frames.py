"""What columns are in pandas: a type for each format, whatever values there are, and each value as it was."""
import struct
import unittest
from datetime import date, datetime, timedelta, timezone
from decimal import Decimal
from typing import Any, Dict, List, Optional, Tuple

import narthexmace

try:
    import numpy
    import pandas
except ImportError:
    numpy = pandas = None  # type: ignore[assignment]

LEAST, MOST = -(2**63), 2**63 - 1
UTC = timezone.utc
EARLY, LATE = datetime(1677, 9, 22), datetime(2262, 4, 11)
NAN = struct.unpack("d", struct.pack("q", 0x7FF8000000000123))[0]

#: The type of each format, and values of it.
FORMATS: List[Tuple[str, str, List[Any]]] = [
    ("int", "int64", [LEAST, -1, 0, 2**60 + 1, MOST]),
    ("text", "object", ["", "ink", "é\n日本"]),
    ("bool", "bool", [True, False]),
    ("g", "float64", [-0.0, 0.0, 1.5, -2.5e-300, float("inf"), -float("inf"), NAN]),
    ("tdD", "object", [date(1, 1, 1), date(1969, 12, 31), date(9999, 12, 31)]),
    ("tss:", "datetime64[ns]", [EARLY, LATE, datetime(1969, 12, 31, 23, 59, 59)]),
    ("tsm:", "datetime64[ns]", [EARLY, LATE, datetime(2026, 1, 2, 3, 4, 5, 6000)]),
    ("tsu:", "datetime64[ns]", [EARLY, LATE, datetime(2026, 1, 2, 3, 4, 5, 6)]),
    ("tsu:UTC", "datetime64[ns, UTC]", [EARLY.replace(tzinfo=UTC), datetime(2026, 1, 2, 3, 4, 5, 6, UTC)]),
    ("tsm:Europe/Berlin", "datetime64[ns, UTC]", [LATE.replace(tzinfo=UTC), datetime(2026, 7, 1, tzinfo=UTC)]),
    ("d:15,2", "object", [Decimal("-1.25"), Decimal("0.00"), Decimal("9999999999999.99")]),
    ("ttu", "int64", [LEAST, 0, MOST]),
]
#: The types that have no None of their own: with "?" the column has another.
NULLABLE = {"int64": "Int64"}


def opened(format_: str, values: List[Any]) -> narthexmace.Table:
    columns = {"k": list(range(len(values))), "v": values}
    if format_ != "ttu":
        return narthexmace.open(columns, key="k", types={"k": "int", "v": format_})
    table = narthexmace.open(columns, key="k", types={"k": "int", "v": "int"})
    table.declare("v", format_)  # times of day, which stay ints
    return table


def given(value: Any) -> Any:
    """A value of a frame as rows have it."""
    if value is pandas.NA or value is pandas.NaT:
        return None
    if isinstance(value, numpy.integer):
        return int(value)
    return value.to_pydatetime() if isinstance(value, pandas.Timestamp) else value


def bits(value: Any) -> Any:
    """A value so that those that are the same are equal: the bits of a double."""
    return struct.pack("d", value) if isinstance(value, float) else (type(value), value)


@unittest.skipUnless(pandas, "pandas isn't there")
class Frames(unittest.TestCase):
    def column(self, format_: str, values: List[Any]) -> Any:
        with opened(format_, values) as table, table.read() as snapshot:
            frame = snapshot.to_pandas()
            self.assertEqual((list(frame.columns), frame["k"].tolist()), (["k", "v"], list(range(len(values)))))
            self.assertTrue(snapshot.to_pandas(["v"])["v"].equals(frame["v"]))
            return frame["v"]

    def test_each_format_has_one_type_and_its_values(self) -> None:
        for format_, type_, values in FORMATS:
            for some in ([], values[:1], values):
                with self.subTest(format=format_, values=some):
                    column = self.column(format_, some)
                    self.assertEqual(str(column.dtype), type_)
                    self.assertEqual([bits(given(it)) for it in column.tolist()], [bits(it) for it in some])

    def test_columns_with_none_have_one_type_and_their_values(self) -> None:
        for format_, type_, values in FORMATS:
            if format_ in ("text", "bool"):
                continue
            format_, type_ = format_.replace("int", "l"), NULLABLE.get(type_, type_)
            values = [it for it in values if it != LEAST]  # which stands for None
            for some in ([], values, [None], [None, *values, None]):
                with self.subTest(format=format_, values=some):
                    column = self.column(f"?{format_}", some)
                    self.assertEqual((str(column.dtype), len(column)), (type_, len(some)))
                    self.assertEqual(column.isna().tolist(), [it is None or it != it for it in some])
                    there = [(given(it), due) for it, due in zip(column.tolist(), some) if due is not None]
                    self.assertEqual([bits(it) for it, _ in there], [bits(due) for _, due in there])

    def test_a_time_that_pandas_has_not_is_refused_by_its_column(self) -> None:
        for format_ in ("tss:", "tsm:", "?tsu:", "tsu:UTC"):
            zone = UTC if "UTC" in format_ else None
            for wrong in (datetime(9999, 12, 31, tzinfo=zone), datetime(1, 1, 1, tzinfo=zone)):
                values = [datetime(2026, 1, 1, tzinfo=zone), wrong]
                with self.subTest(values=values), opened(format_, values) as table, table.read() as snapshot:
                    self.assertRaisesRegex(narthexmace.TypeMismatch, 'column "v" has a time outside', snapshot.to_pandas)
                    self.assertEqual(len(snapshot.to_pandas(["k"])), 2)

    def test_a_frame_has_memory_of_its_own(self) -> None:
        with opened("?l", [1, None]) as table, table.read() as snapshot:
            frame = snapshot.to_pandas()
            frame.loc[0, "v"] = 5
            self.assertEqual(snapshot[:], [(0, 1), (1, None)])
            self.assertEqual(snapshot.to_pandas()["v"].tolist()[0], 1)


class Columns(unittest.TestCase):
    """What is no column, though its letters, bytes or memory could be read as one."""

    def refused(self, cells: Any, why: str, types: Optional[Dict[str, str]] = None) -> None:
        columns = {"id": [1, 2, 3], "n": cells}
        with self.assertRaisesRegex(narthexmace.TypeMismatch, why):
            narthexmace.open(columns, key="id", types=types)
        with narthexmace.open({"id": [0], "n": [0]}, key="id") as table, table.begin() as txn:
            for call in (txn.insert_many, txn.upsert_many):
                self.assertRaisesRegex(narthexmace.TypeMismatch, why, call, columns)
            self.assertEqual(len(txn), 1)

    def test_texts_bytes_and_sets_are_no_columns(self) -> None:
        some = {1: 1, 2: 2, 3: 3}
        for cells in (b"abc", bytearray(b"abc"), "abc", {1, 2, 3}, frozenset((1, 2, 3)), some, some.keys()):
            self.refused(cells, 'column "n" is a ')

    @unittest.skipUnless(numpy, "numpy isn't there")
    def test_masked_arrays_are_no_columns(self) -> None:
        for mask in ([0, 1, 0], [0, 0, 0]):
            array = numpy.ma.array([1, 2, 3], mask=mask)
            self.refused(array, 'column "n" is a masked array')
            self.refused(array, 'column "n" is a masked array', {"n": "?l"})
        with narthexmace.open({"id": [1, 2, 3], "n": array.filled(0)}, key="id") as table, table.read() as snapshot:
            self.assertEqual(snapshot[:], [(1, 1), (2, 2), (3, 3)])


if __name__ == "__main__":
    unittest.main()
