"""Columns that are declared: what their ints stand for goes in and comes out, in rows, keys, columns and layers, in its order."""
import os
import random
import struct
import tempfile
import unittest
from datetime import date, datetime, timedelta, timezone
from decimal import Decimal
from typing import Any, List

import narthexmace

from . import arrow

try:
    import pandas
except ImportError:
    pandas = None

UTC = timezone.utc
#: Of each format, values in their order.
VALUES = {
    "g": [float("-inf"), -1e300, -1.0, -5e-324, -0.0, 0.0, 5e-324, 0.1, 3.0, 1e300, float("inf")],
    "tdD": [date(1, 1, 1), date(1969, 12, 31), date(1970, 1, 1), date(2026, 11, 29), date(9999, 12, 31)],
    "tss:": [datetime(1, 1, 1), datetime(1969, 12, 31, 23, 59, 59), datetime(1970, 1, 1), datetime(2026, 11, 29, 1, 2, 3)],
    "tsm:": [datetime(1969, 12, 31, 23, 59, 59, 999_000), datetime(1970, 1, 1), datetime(2026, 11, 29, 1, 2, 3, 4000)],
    "tsu:UTC": [datetime(1, 1, 1, tzinfo=UTC), datetime(1970, 1, 1, tzinfo=UTC), datetime(2026, 11, 29, 1, 2, 3, 456_789, tzinfo=UTC)],
    "d:15,2": [Decimal("-9999999999999.99"), Decimal("-0.01"), Decimal("0.00"), Decimal("12.50"), Decimal("9999999999999.99")],
    "d:5,-2": [Decimal("-99999E+2"), Decimal("0E+2"), Decimal("7E+2")],
    "d:3,5": [Decimal("-0.00999"), Decimal("0.00001")],
    "tsn:": [-(2**63), 0, 2**63 - 1],
    "tDu": [-5, 7],
}
#: And what is none of its values.
WRONG = {
    "g": ["1.5", None, True, b"x"],
    "tdD": ["2026-11-29", datetime(2026, 1, 1), 1.5, True],
    "tss:": [datetime(2026, 1, 1, 0, 0, 0, 1), datetime(2026, 1, 1, tzinfo=UTC), date(2026, 1, 1), 1.5],
    "tsm:": [datetime(2026, 1, 1, 0, 0, 0, 1), "x"],
    "tsu:UTC": [datetime(2026, 1, 1), None],
    "d:15,2": [Decimal("0.001"), Decimal("10000000000000"), Decimal("NaN"), Decimal("1E+90"), Decimal("1E-90"), 1.5, "1", True],
    "d:5,-2": [Decimal(150), Decimal("1E+8")],
    "d:3,5": [Decimal("0.01"), Decimal("0.000001")],
    "tsn:": [1.5, datetime(2026, 1, 1), 2**63],
    "tDu": [None, timedelta(1)],
}


def bits(values: List[Any]) -> List[Any]:
    """Floats by their bits: -0.0 is another one than 0.0."""
    return [struct.pack("d", value) if isinstance(value, float) else (type(value), value) for value in values]


class Declared(unittest.TestCase):
    def opened(self, format_: str) -> narthexmace.Table:
        """A table whose key and whose second column are declared."""
        table = narthexmace.open("k:int:key,v:int\n")
        self.addCleanup(table._handle.end)
        table.declare("k", format_.replace("?", ""))
        table.declare("v", format_)
        return table

    def test_values_go_in_and_come_out_in_their_order(self) -> None:
        for format_, values in VALUES.items():
            with self.subTest(format=format_):
                table, shuffled = self.opened(format_), values[:]
                random.Random(5).shuffle(shuffled)
                with table.begin() as txn:
                    for value in shuffled:
                        txn.insert((value, value))
                    self.assertEqual([bits(list(entry.values)) for entry in txn.layer()], [bits([value, value]) for value in values])
                with table.read() as snapshot:
                    self.assertEqual([bits(list(row)) for row in snapshot[:]], [bits([value, value]) for value in values])
                    for place, value in enumerate(values):
                        self.assertEqual(snapshot.rank(value), (place, True))
                        self.assertEqual(bits(snapshot.get([value])), bits([value, value]))
                        self.assertIn(value, snapshot)
                with table.begin() as txn:
                    txn.set(values[0], "v", values[-1])
                    txn.delete(values[-1])
                    self.assertEqual(txn.upsert_many({"v": values, "k": values}), len(values))
                    self.assertEqual(txn.delete_many({"k": values[:1]}), 1)
                    self.assertEqual(bits([row[1] for row in txn]), bits(values[1:]))
                again = narthexmace.open(table, key="k")
                self.assertEqual(again.declared, table.declared)
                with again.read() as snapshot:
                    self.assertEqual(bits([row[0] for row in snapshot]), bits(values[1:]))
                again.close()
                table.close()

    def test_what_is_no_value(self) -> None:
        for format_, wrong in WRONG.items():
            table = self.opened(format_)
            with table.begin() as txn:
                txn.insert((VALUES[format_][0], VALUES[format_][0]))
                for value in wrong:
                    with self.subTest(format=format_, value=value):
                        self.assertRaises(narthexmace.TypeMismatch, txn.insert, (VALUES[format_][1], value))
                        self.assertRaises(narthexmace.TypeMismatch, txn.set, VALUES[format_][0], "v", value)
                        self.assertRaises(narthexmace.TypeMismatch, txn.insert_many, {"k": [VALUES[format_][1]], "v": [value]})
                        self.assertRaises(narthexmace.TypeMismatch, txn.get, value)
                self.assertEqual(len(txn), 1)
            table.close()

    def test_nulls(self) -> None:
        for format_, values in VALUES.items():
            if format_ == "tsn:":
                values = [0, 7]
            table = self.opened("?" + format_)
            with table.begin() as txn:
                for value in values:
                    txn.insert((value, None))
                txn.set(values[0], "v", values[1])
            with table.read() as snapshot:
                self.assertEqual([row[1] for row in snapshot], [values[1], *[None] * (len(values) - 1)])
            self.assertEqual([value is None for _, value in arrow.rows_of(table)], [False, *[True] * (len(values) - 1)])
            table.close()
        table = self.opened("?l")
        with table.begin() as txn:
            txn.insert((1, None))
            self.assertRaises(narthexmace.TypeMismatch, txn.insert, (2, -(2**63)))
            self.assertRaises(narthexmace.TypeMismatch, txn.insert, (2, True))
            self.assertRaises(narthexmace.TypeMismatch, txn.insert, (None, 2))
            self.assertEqual(txn[:], [(1, None)])
        table.close()

    def test_numbers_that_python_has_no_value_for(self) -> None:
        for format_ in ("tdD", "tss:", "tsu:UTC"):
            table = narthexmace.open("k:int:key,v:int\n1,9223372036854775807\n2,-9223372036854775808\n")
            table.declare("v", format_)
            with table.begin() as txn:
                self.assertEqual(txn[:], [(1, 2**63 - 1), (2, -(2**63))])
                txn.insert((3, 2**63 - 1))  # and is taken back
            table.close()

    def test_columns_of_values(self) -> None:
        columns = {"x": [0.5, -1.0], "day": [date(2026, 1, 1), date(1970, 1, 1)], "n": [None, 3], "t": ["a", "b"]}
        types = {"x": "g", "day": "tdD", "n": "?l"}
        rows = [(-1.0, date(1970, 1, 1), 3, "b"), (0.5, date(2026, 1, 1), None, "a")]
        with narthexmace.open(columns, key="x", types=types) as table, table.read() as snapshot:
            self.assertEqual((table.declared, snapshot[:]), (types, rows))
        with tempfile.TemporaryDirectory() as folder:
            with narthexmace.connect(folder) as db:
                db.create("t", columns, key=["x", "day"], types=types)
            with narthexmace.connect(folder) as db, db.read() as tables:
                self.assertEqual((db["t"].declared, tables["t"][:]), (types, rows))
                self.assertEqual(tables["t"].get((0.5, date(2026, 1, 1)))[2], None)
        for wrong in ({"x": "float"}, {"n": "u"}, {"n": "l"}):
            with self.assertRaises(narthexmace.TypeMismatch):
                narthexmace.open(columns, key="x", types={**types, **wrong})
        with self.assertRaises(narthexmace.TypeMismatch):
            narthexmace.open({"k": [1, 2]}, key="k", types={"k": "?l"})

    def test_a_table_is_made_as_declared(self) -> None:
        """In one step: what declares columns of a table that is there writes a file of the name types-new."""
        types, place = {"k": "tdD", "v": "?g"}, f"tsu:{'x' * 60}"
        with tempfile.TemporaryDirectory() as folder, narthexmace.connect(folder) as db:
            os.mkdir(os.path.join(folder, "types-new"))
            for name, keys in (("ascending", [1, 2]), ("sorted", [2, 1])):
                days = [date(1970, 1, 1 + key) for key in keys]
                db.create(name, {"v": [None, 0.5], "k": days}, key="k", types=types)
                self.assertEqual(db[name].declared, types)
            for wrong in ({"k": "?l"}, {"v": place}):
                with self.assertRaises(narthexmace.TypeMismatch):
                    db.create("t", {"v": [], "k": []}, key="k", types=wrong)
                self.assertNotIn("t", db)

    def test_declared_and_taken_back(self) -> None:
        table = narthexmace.open("k:int:key,v:int\n1,20000\n")
        with table.pin() as pin:
            table.declare("v", "tdD")
            self.assertEqual(pin.read()[0], (1, date(2024, 10, 4)))
            table.declare("v", None)
            self.assertEqual(pin.read()[0], (1, 20000))
        table.close()

    def test_dates_and_times_of_numpy(self) -> None:
        try:
            import numpy
        except ImportError:
            self.skipTest("numpy isn't there")
        times = numpy.array(["2026-11-29T01:02:03.000004", "1969-12-31T23:59:59"], "datetime64[ns]")
        days = numpy.array(["2026-11-29", "NaT"], "datetime64[ns]")
        columns: Any = {"k": [1, 2], "at": times, "day": days}
        types = {"at": "tsu:", "day": "?tdD"}
        with narthexmace.open(columns, key="k", types=types) as table, table.begin() as txn:
            rows = [(1, datetime(2026, 11, 29, 1, 2, 3, 4), date(2026, 11, 29)), (2, datetime(1969, 12, 31, 23, 59, 59), None)]
            self.assertEqual(txn[:], rows)
            self.assertEqual(txn.upsert_many(columns), 2)
            self.assertEqual(txn[:], rows)
            for wrong in (dict(at=times + numpy.timedelta64(1, "ns")), dict(day=times), dict(k=days), dict(at=times - times[0])):
                with self.assertRaises(narthexmace.TypeMismatch):
                    txn.upsert_many({**columns, **wrong})

    def test_a_frame_of_pandas(self) -> None:
        if pandas is None:
            self.skipTest("pandas isn't there")
        table = self.opened("g")
        with table.begin() as txn:
            self.assertEqual(len(txn.to_pandas()), 0)
            txn.insert_many(pandas.DataFrame({"k": [1.5, -2.0], "v": [0.25, 3.0]}))
            frame = txn.to_pandas()
            self.assertEqual((str(frame.v.dtype), frame.k.tolist(), frame.v.tolist()), ("float64", [-2.0, 1.5], [3.0, 0.25]))


if __name__ == "__main__":
    unittest.main()
