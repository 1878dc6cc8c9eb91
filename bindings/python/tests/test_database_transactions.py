"""Works: transactions over several tables, which commit all that they write or nothing; and reads of one moment."""
import gc
import threading
import unittest
from typing import Any, List
from unittest import mock

import narthexmace
from narthexmace import _library

from . import LIMIT
from .folders import Case, rows

NAMES = ("cash", "bank", "shares")
TABLE = "id:int:key,name:text,sum:int\n1,Ann,10\n2,Bob,20\n"
ROWS = [(1, "Ann", 10), (2, "Bob", 20)]


class Works(Case):
    """A database of three tables of two rows."""

    def setUp(self) -> None:
        super().setUp()
        self.db = self.connect()
        for name in NAMES:
            self.db.create(name, TABLE)

    def images(self) -> "list[Any]":
        with self.db.read() as tables:
            return [tables[name][:] for name in NAMES]

    def test_all_is_committed_at_once(self) -> None:
        with self.db.begin() as txn:
            txn["cash"].insert((3, "Cid", 30))
            txn["bank"].delete(1)
            txn["shares"].set(2, "sum", 21)
            self.assertEqual((len(txn["cash"]), txn["cash"].get(3), 1 in txn["bank"]), (3, (3, "Cid", 30), False))
            self.assertEqual(self.images(), [ROWS] * 3)
        due = [[*ROWS, (3, "Cid", 30)], ROWS[1:], [ROWS[0], (2, "Bob", 21)]]
        self.assertEqual((self.images(), self.db.counts().commits), (due, 1))
        self.db.close()
        self.db = self.connect()
        self.assertEqual((self.images(), self.db.report.commits), (due, 1))

    def test_a_commit_of_several_has_one_number(self) -> None:
        for number in range(1, 4):
            txn = self.db.begin()
            for name in NAMES[:number]:
                txn[name].set(1, "sum", number)
            self.assertEqual((txn.commit(), txn.is_open), (number, False))
        idle = self.db.begin()
        self.assertEqual(idle["cash"].get(1), (1, "Ann", 3))
        self.assertEqual((idle.commit(), self.db.begin().commit()), (3, 3))
        self.assertEqual([self.db[name].sizes().commits for name in NAMES], [3, 3, 3])
        self.assertEqual([len(entries) for _, entries in self.db["shares"].changes(after=2)], [1])

    def test_a_conflict_in_one_table_commits_nothing(self) -> None:
        for place in range(3):
            one, other = self.db.begin(), self.db.begin()
            for name in NAMES:
                other[name].set(2, "sum", 99)
            one[NAMES[place]].set(2, "name", "x")
            one[NAMES[place]].set(2, "sum", place)
            number = one.commit()
            before = self.images()
            fault = self.refused(narthexmace.Conflict, other.commit)
            self.assertEqual((fault.commits, other.is_open, self.images()), (number, False, before))
            self.refused(narthexmace.Misuse, other.commit)
            self.refused(narthexmace.Misuse, other.__getitem__, "cash")

    def test_a_table_that_is_full_and_a_begin_that_is_too_old_commit_nothing(self) -> None:
        self.db.create("small", TABLE, row_limit=3)
        self.db.create("young", TABLE, recent=1)
        one, other = self.db.begin(), self.db.begin()
        for txn, key in ((one, 3), (other, 4)):
            txn["cash"].insert((key, "Cid", 30))
            txn["small"].insert((key, "Cid", 30))
        one.commit()
        self.refused(narthexmace.Full, other.commit)
        old = self.db.begin()
        old["cash"].set(1, "sum", 5)
        old["young"].set(1, "sum", 5)
        for number in range(2):
            with self.db["young"].begin() as txn:
                txn.set(2, "sum", number)
        self.refused(narthexmace.TooOld, old.commit)
        self.assertEqual(rows(self.db["cash"]), [*ROWS, (3, "Cid", 30)])

    def test_an_exception_or_an_abort_commits_nothing(self) -> None:
        with self.assertRaises(ZeroDivisionError), self.db.begin() as txn:
            txn["cash"].delete(1)
            txn["bank"].delete(1)
            1 / 0
        with self.db.begin() as txn:
            txn["cash"].delete(1)
            txn.abort()
            txn.abort()
        with self.assertRaises(KeyError), self.db.begin() as txn:
            txn["cash"].delete(1)
            txn["no"].delete(1)
        txn = self.db.begin()
        txn["cash"].delete(1)
        del txn
        gc.collect()
        with self.db.begin() as txn:
            txn["bank"].set(1, "sum", 11)
            txn.commit()
        self.assertEqual((self.images(), self.db.counts().commits), ([ROWS, [(1, "Ann", 11), ROWS[1]], ROWS], 1))
        self.db.close()

    def test_a_part_has_all_that_a_transaction_has(self) -> None:
        txn = self.db.begin()
        cash = txn["cash"]
        self.assertIs(txn["cash"], cash)
        self.assertIsInstance(cash, narthexmace.Transaction)
        with self.assertRaises(ZeroDivisionError), cash.savepoint():
            cash.delete(1)
            1 / 0
        with cash.savepoint(), txn["bank"].savepoint():
            cash.set(1, "sum", 11)
            txn["bank"].set(1, "sum", 9)
        self.assertEqual((len(cash), cash[0], cash[-1], cash.rank(2), 2 in cash, cash.version),
                         (2, (1, "Ann", 11), ROWS[1], (1, True), True, 0))  # fmt: skip
        self.assertEqual([batch["sum"].tolist() for batch in cash.scan(["sum"])], [[11, 20]])
        self.assertEqual([entry[1:] for entry in cash.layer()], [(0, 0, "modify", "sum", (11,))])
        self.assertEqual(cash.int_spans("sum").copy().tolist(), [11, 20])
        batches = cash.scan(batch=1)
        next(batches)
        txn["bank"].delete(2)  # another table's write moves nothing here
        next(batches)
        batches = cash.scan(batch=1)
        next(batches)
        txn["cash"].delete(2)
        self.refused(narthexmace.Misuse, next, batches)
        self.assertEqual(repr(txn), "<DatabaseTransaction over 'cash', 'bank', open>")
        txn.commit()
        self.assertEqual(self.images(), [[(1, "Ann", 11)], [(1, "Ann", 9)], ROWS])

    def test_a_part_ends_with_the_whole(self) -> None:
        for opened in (self.db.begin, self.db.read):
            whole = opened()
            part = whole["cash"]
            self.refused(narthexmace.Misuse, part.abort)
            self.refused(narthexmace.Misuse, part.__enter__)
            if isinstance(part, narthexmace.Transaction):
                fault = self.refused(narthexmace.Misuse, part.commit)
                self.assertIn("commit or abort the whole", str(fault))
                part.set(1, "sum", 5)
            self.assertEqual((part.is_open, len(part)), (True, 2))
            whole.abort()
            self.assertEqual((part.is_open, whole.is_open), (False, False))
            self.refused(narthexmace.Misuse, part.get, 1)
            self.refused(narthexmace.Misuse, whole.__getitem__, "cash")
            self.assertRegex(repr(whole), r"^<(DatabaseTransaction|DatabaseSnapshot) over 'cash', over>$")
        self.assertEqual(self.images(), [ROWS] * 3)

    def test_the_tables_are_those_of_the_begin(self) -> None:
        with self.db.begin() as txn, self.db.read() as tables:
            self.db.create("late", TABLE)
            for whole in (txn, tables):
                for name in ("late", "no", "", "a\0b", 5):
                    self.assertIsInstance(self.refused(narthexmace.Missing, whole.__getitem__, name), KeyError)
                    self.assertFalse(name in whole)
                self.assertEqual((list(whole), "cash" in whole), (list(NAMES), True))
            self.refused(narthexmace.Misuse, self.db.drop, "bank")  # it may be read yet
            self.db.drop("late")
        self.db.drop("bank")
        with self.db.begin() as txn:
            self.assertEqual(list(txn), ["cash", "shares"])

    def test_all_tables_are_read_at_one_moment(self) -> None:
        with self.db.read() as tables:
            with self.db.begin() as txn:
                for name in NAMES:
                    txn[name].delete(1)
            self.assertEqual([tables[name][:] for name in NAMES], [ROWS] * 3)
            self.refused(narthexmace.ReadOnly, getattr, tables["cash"], "insert")
            self.refused(AttributeError, getattr, tables, "commit")
        self.assertEqual((self.images(), self.db.counts().commits), ([ROWS[1:]] * 3, 1))

    def test_what_is_lent_is_taken_back(self) -> None:
        txn = self.db.begin()
        view = memoryview(txn["bank"].int_spans("sum")[0])
        txn["cash"].set(1, "sum", 5)  # another table's write lets it be
        self.refused(narthexmace.Borrowed, txn["bank"].delete, 1)
        self.refused(narthexmace.Borrowed, txn.commit)
        self.assertEqual((txn.is_open, view.tolist()), (True, [10, 20]))
        txn.abort()
        self.assertEqual(view.tolist(), [10, 20])
        self.refused(narthexmace.Misuse, self.db.close)
        view.release()
        gc.collect()
        txn = self.db.begin()
        spans = txn["bank"].int_spans("sum")
        txn["bank"].set(1, "sum", 5)
        self.refused(ValueError, spans[0].tolist)
        txn.commit()
        self.db.close()

    def test_a_part_keeps_its_whole(self) -> None:
        part = self.db.begin()["cash"]
        gc.collect()
        part.set(1, "sum", 5)
        self.assertEqual(part.get(1), (1, "Ann", 5))
        self.refused(narthexmace.Misuse, self.db.close)
        del part
        gc.collect()
        self.assertEqual(self.images(), [ROWS] * 3)
        self.db.close()

    def test_one_thread_at_a_time_in_all_parts(self) -> None:
        txn = self.db.begin()
        cash, bank = txn["cash"], txn["bank"]
        entered, leave = threading.Event(), threading.Event()

        def slow(*_: Any) -> int:
            entered.set()
            leave.wait(LIMIT)
            return 0

        with mock.patch.object(_library.library, "pdt_delete", slow):
            thread = threading.Thread(target=cash.delete, args=(1,))
            thread.start()
            self.assertTrue(entered.wait(LIMIT))
            for call in (txn.commit, txn.abort, lambda: txn["shares"], lambda: bank.get(1), lambda: bank.delete(1)):
                self.refused(narthexmace.Misuse, call)
            leave.set()
            thread.join()
        self.assertEqual(len(bank), 2)
        txn.abort()

    def test_refused_memory_and_what_is_too_long_leave_it_open(self) -> None:
        for kind in (narthexmace.NoMemory, narthexmace.TooLong, narthexmace.WritesFailed):
            txn = self.db.begin()
            txn["cash"].set(1, "sum", 5)
            with mock.patch.object(_library.library, "pdt_dbtxn_commit", lambda *_: kind.code):
                self.refused(kind, txn.commit)
                self.assertTrue(txn.is_open and txn["cash"].is_open)
                with self.assertRaises(kind), txn:
                    pass
                self.assertFalse(txn.is_open)
        for name, call in [("pdt_dbtxn_begin", self.db.begin), ("pdt_dbtxn_on", lambda: self.db.begin()["cash"])]:
            with mock.patch.object(_library.library, name, lambda *_: narthexmace.NoMemory.code):
                self.refused(narthexmace.NoMemory, call)
        gc.collect()
        self.assertEqual(self.images(), [ROWS] * 3)
        self.db.close()

    def test_an_interrupt_in_a_begin_or_a_commit(self) -> None:
        for name in ("pdt_dbtxn_begin", "pdt_dbtxn_commit"):
            call = getattr(_library.library, name)

            def interrupted(*given: Any) -> int:
                call(*given)
                raise KeyboardInterrupt

            with mock.patch.object(_library.library, name, interrupted):
                with self.assertRaises(KeyboardInterrupt), self.db.begin() as txn:
                    txn["cash"].set(1, "sum", 5)
        self.assertFalse(txn.is_open)
        self.assertEqual(self.db.counts().commits, 1)
        self.db.close()


class Threads(Case):
    def test_a_follower_of_one_table_misses_nothing(self) -> None:
        """Other threads commit to two tables; who follows one has its rows from what changed, and never a gap."""
        for sync in ("full", "normal"):
            db = self.connect(sync=sync, fold_entries=5, checkpoint_entries=20)
            followed, other = (db.create(f"{name} {sync}", {"id": [0]}, key="id") for name in "ab")
            faults: List[BaseException] = []

            def client(number: int) -> None:
                try:
                    for key in range(number, 240, 4):
                        with (followed if key % 3 else other).begin() as txn:
                            txn.insert((key + 1,))
                except BaseException as fault:
                    faults.append(fault)

            threads = [threading.Thread(target=client, args=(number,)) for number in range(4)]
            with followed.pin() as pin, pin.read() as snapshot:
                seen, number = {row[0] for row in snapshot}, pin.number
            for thread in threads:
                thread.start()
            while len(seen) < 161:
                newest = followed.wait(number, LIMIT)
                assert newest is not None and not faults, faults
                for number, entries in followed.changes(after=number):
                    seen.update(int(entry.values[0]) for entry in entries)
                self.assertGreaterEqual(number, newest)
            for thread in threads:
                thread.join(LIMIT)
            self.assertEqual((faults, seen), ([], {row[0] for row in rows(followed)}))
            db.close()

    def test_money_moves_between_three_tables_and_none_is_lost(self) -> None:
        """Readers of all tables at one moment see the same sum, while maintenance folds and makes images."""
        clients, moves, each = 4, 60, 100
        for sync in ("full", "off"):
            db = self.connect(sync=sync, fold_entries=8, checkpoint_entries=30, journal_bytes=4000)
            for name in NAMES:
                if name not in db:
                    db.create(name, {"id": range(5), "sum": [each] * 5}, key="id")
            faults: List[BaseException] = []
            numbers: List[int] = []
            stop = threading.Event()

            def move(txn: narthexmace.DatabaseTransaction, place: int) -> None:
                for name, more in ((NAMES[place % 3], -1), (NAMES[(place + 1) % 3], 1)):
                    txn[name].set(place % 5, "sum", txn[name].get(place % 5)[1] + more)

            def mover(client: int) -> None:
                try:
                    for place in range(client, client + moves):
                        while True:
                            txn = db.begin()
                            move(txn, place)
                            try:
                                numbers.append(txn.commit())
                                break
                            except narthexmace.Conflict:
                                pass
                except BaseException as fault:
                    faults.append(fault)

            def reader() -> None:
                try:
                    while not stop.is_set():
                        with db.read() as tables:
                            sums = [sum(row[1] for row in tables[name]) for name in NAMES]
                            assert sum(sums) == 15 * each, sums
                        stop.wait(0.001)
                except BaseException as fault:
                    faults.append(fault)

            before = db.counts().commits
            movers = [threading.Thread(target=mover, args=(client,)) for client in range(clients)]
            readers = [threading.Thread(target=reader) for _ in range(2)]
            for thread in [*movers, *readers]:
                thread.start()
            for thread in movers:
                thread.join(LIMIT)
            stop.set()
            for thread in readers:
                thread.join(LIMIT)
            self.assertEqual(faults, [])
            self.assertEqual(sorted(numbers), list(range(before + 1, before + clients * moves + 1)))
            self.assertEqual(db.counts().faults, 0)
            images = [rows(db[name]) for name in NAMES]
            db.close()
            with self.connect() as db:
                self.assertEqual([rows(db[name]) for name in NAMES], images)
                self.assertEqual(sum(row[1] for image in images for row in image), 15 * each)


if __name__ == "__main__":
    unittest.main()
