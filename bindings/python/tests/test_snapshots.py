"""Snapshots: reads that commit nothing, and whether there is a row of a key."""
import unittest

import narthexmace
from narthexmace import Misuse, ReadOnly, TypeMismatch

TABLE = "id:int:key,name:text,qty:int\n10,Ann,7\n20,Bob,2\n"
ROWS = [(10, "Ann", 7), (20, "Bob", 2)]
# keys of two columns, of which each cell is in several
PAIRS = "k:text:key,n:int:key,ok:bool\na,1,true\na,3,true\nb,2,true\n"


class Snapshots(unittest.TestCase):
    def setUp(self) -> None:
        self.table = narthexmace.open(TABLE, recent=1)
        self.addCleanup(self.table._handle.end)

    def test_a_read_takes_no_number(self) -> None:
        old = self.table.begin()
        old.set(10, "qty", 1)
        for _ in range(5):
            with self.table.read() as snapshot:
                self.assertEqual(snapshot[:], ROWS)
        self.assertEqual(old.commit(), 1)  # it would be too old after two commits
        self.assertEqual(self.table.sizes()[::3], (1, 0))

    def test_a_snapshot_stays_as_it_was(self) -> None:
        table = self.table.read()
        with self.table.begin() as txn:
            txn.set(10, "qty", 1)
            txn.delete(20)
        self.table.fold()
        self.assertEqual((table[:], len(table), table.get(20), 20 in table), (ROWS, 2, ROWS[1], True))
        table.abort()
        with self.table.read() as table:
            self.assertEqual(table[:], [(10, "Ann", 1)])

    def test_a_write_on_a_snapshot_is_refused(self) -> None:
        with self.table.read() as table:
            for name in ("insert", "delete", "set", "savepoint", "commit", "layer"):
                with self.assertRaisesRegex(ReadOnly, f"{name}.*begin"):
                    getattr(table, name)
                self.assertFalse(hasattr(table, name))
                self.assertTrue(hasattr(narthexmace.Transaction, name))
            with self.assertRaises(Misuse):
                table.insert((30, "Cid", 1))  # type: ignore[attr-defined]
            with self.assertRaises(AttributeError) as caught:
                table.colour  # type: ignore[attr-defined]
            self.assertNotIsInstance(caught.exception, ReadOnly)
            self.assertNotIsInstance(table, narthexmace.Transaction)
        with self.table.read() as table:
            self.assertEqual(table[:], ROWS)

    def test_the_end_of_a_snapshot(self) -> None:
        with self.table.read() as table:
            self.assertEqual((table.is_open, repr(table)), (True, "<Snapshot of id, name, qty, open>"))
        with self.assertRaises(ZeroDivisionError), self.table.read() as other:
            1 / 0
        for over in (table, other):
            self.assertFalse(over.is_open)
            self.assertRaises(Misuse, len, over)
            over.abort()
        self.assertEqual(self.table.sizes().open_transactions, 0)
        self.table.read()  # one that is dropped is over
        self.assertEqual(self.table.sizes().open_transactions, 0)
        self.table.close()
        self.assertRaises(Misuse, self.table.read)


class Keys(unittest.TestCase):
    def test_whether_there_is_a_row_of_a_key(self) -> None:
        with narthexmace.open(TABLE) as table, table.begin() as txn:
            self.assertTrue(10 in txn and 20 in txn and (20,) in txn and [20] in txn)
            self.assertTrue(15 not in txn and 5 not in txn and 25 not in txn)
            txn.insert((15, "Amy", 0))
            txn.delete(20)
            self.assertTrue(15 in txn and 20 not in txn)
            txn.abort()
            with table.read() as snapshot:
                self.assertTrue(20 in snapshot and 15 not in snapshot)

    def test_a_key_of_several_columns(self) -> None:
        with narthexmace.open(PAIRS) as table, table.read() as snapshot:
            there = [(k, n) for k in ("a", "b", "c", "") for n in (0, 1, 2, 3) if (k, n) in snapshot]
            self.assertEqual(there, [("a", 1), ("a", 3), ("b", 2)])
            self.assertIn(["a", 3], snapshot)

    def test_what_is_no_key_is_refused(self) -> None:
        with narthexmace.open(PAIRS) as table, table.read() as snapshot:
            for key in ("a", 1, (1, "a"), ("a",), ("a", 1, True), ("a", 1.0), ("a", True), None):
                with self.assertRaises(TypeMismatch):
                    key in snapshot
        self.assertRaises(Misuse, lambda: ("a", 1) in snapshot)


if __name__ == "__main__":
    unittest.main()
