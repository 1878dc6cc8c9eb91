"""Versions: tables that are pinned, what each commit changed, who waits for one, and what a table counts and keeps."""
import ctypes
import gc
import os
import random
import signal
import sys
import tempfile
import threading
import time
import unittest
from pathlib import Path
from typing import Any, Callable, List, Sequence, Tuple
from unittest import mock

import narthexmace
from narthexmace import Conflict, Entry, Borrowed, Misuse, NotKept, TypeMismatch, TooOld
from narthexmace._handles import LoneHandle
from narthexmace._library import library

from . import LIMIT, model

HERE = Path(__file__)
TABLE = "id:int:key,name:text,qty:int,new:bool\n10,Ann,7,true\n20,Bob,2,false\n"
LONG = "é" * 2048
Row = Tuple[Any, ...]


class Case(unittest.TestCase):
    """A table of two rows, of whose commits the changes of two are kept."""

    def setUp(self) -> None:
        self.table = narthexmace.open(TABLE, recent=2)
        self.addCleanup(self.table._handle.end)

    def put(self, qty: int, key: int = 10) -> int:
        """A commit that sets a cell, and its number."""
        txn = self.table.begin()
        txn.set(key, "qty", qty)
        return txn.commit()

    def together(self, *calls: Callable[[], Any]) -> None:
        """Makes calls in a thread each, and passes on what they raise."""
        faults: List[BaseException] = []

        def make(call: Callable[[], Any]) -> None:
            try:
                call()
            except BaseException as fault:
                faults.append(fault)

        threads = [threading.Thread(target=make, args=(call,)) for call in calls]
        for thread in threads:
            thread.start()
        for thread in threads:
            thread.join(LIMIT)
        self.assertEqual((faults, [thread for thread in threads if thread.is_alive()]), ([], []))


class Pins(Case):
    def test_a_pin_keeps_its_table(self) -> None:
        with self.table.pin() as first:
            self.assertEqual((first.number, self.put(1), self.put(2)), (0, 1, 2))
            second = self.table.pin()
            self.table.fold()
            self.put(3)
            self.table.trim()
            for pin, number, qty in [(first, 0, 7), (second, 2, 2)]:
                with pin.read() as snapshot, pin.begin() as txn:
                    self.assertEqual((pin.number, snapshot.version, txn.version), (number, number, number))
                    self.assertEqual((snapshot.get(10)[2], txn.get(10)[2]), (qty, qty))
            self.assertEqual((repr(second), second.is_open), ("<Pin of table 2, open>", True))
            with self.table.read() as snapshot:
                self.assertEqual((snapshot.version, snapshot.get(10)[2]), (3, 3))
        second.close()
        self.assertEqual((repr(first), first.is_open, second.is_open), ("<Pin of table 0, closed>", False, False))

    def test_a_transaction_at_a_pin_commits_as_one_that_began_then(self) -> None:
        with self.table.pin() as pin:
            self.put(1)
            same, other, row = pin.begin(), pin.begin(), pin.begin()
            same.set(10, "qty", 9)
            self.assertRaises(Conflict, same.commit)
            other.set(10, "name", "Amy")
            self.assertEqual(other.commit(), 2)
            row.insert((30, "Cid", 0, True))
            self.put(2)
            self.assertRaises(TooOld, row.commit)
            self.assertEqual(pin.begin().commit(), 0)  # of nothing
        with self.table.read() as snapshot:
            self.assertEqual(snapshot[:], [(10, "Amy", 2, True), (20, "Bob", 2, False)])

    def test_what_began_at_a_pin_goes_on_without_it(self) -> None:
        pin = self.table.pin()
        table, txn = pin.read(), pin.begin()
        pin.close()
        pin.close()
        self.put(1)
        self.assertEqual((table.get(10)[2], txn.get(10)[2]), (7, 7))
        for call in (pin.begin, pin.read):
            self.assertRaisesRegex(Misuse, "the pin is closed", call)
        table.abort()
        txn.abort()
        self.assertEqual(self.table.sizes().open_transactions, 0)

    def test_pins_and_snapshots_end_with_their_store(self) -> None:
        """As those that a notebook keeps; a transaction keeps it open, and them."""
        pins = [self.table.pin() for _ in range(3)]
        tables = [pins[0].read(), self.table.read(), pins[1].read()]
        pins[1].close()
        batch = next(tables[0].scan())
        txn = pins[0].begin()
        self.assertRaisesRegex(Misuse, "^a transaction or a stream of the table is open", self.table.close)
        self.assertEqual([len(table) for table in tables], [2] * 3)  # all goes on
        txn.abort()
        self.table.close()
        self.table.close()
        for pin in pins:
            self.assertRaisesRegex(Misuse, "the pin is closed", pin.read)
        for table in tables:
            self.assertRaisesRegex(Misuse, "the transaction is over", table.get, 10)
        self.assertEqual([it.is_open for it in (*pins, *tables)], [False] * 6)
        self.assertEqual(len(batch.rows()), 2)  # it has memory of its own
        self.assertRaises(Misuse, self.table.pin)

    def test_a_store_is_open_while_an_array_is_over_what_a_snapshot_lent(self) -> None:
        table = self.table.read()
        view = memoryview(table.int_spans("qty")[0])
        self.assertRaisesRegex(Misuse, "an array over what a snapshot borrowed", self.table.close)
        self.assertFalse(table.is_open)
        self.assertEqual(view.tolist(), [7, 2])
        view.release()
        del view
        gc.collect()
        self.table.close()

    def test_what_is_over_is_not_noted_for_ever(self) -> None:
        for _ in range(1000):
            with self.table.read() as snapshot:
                len(snapshot)
        self.assertLess(len(self.table._handle._opened), 200)

    def test_a_store_that_an_exception_leaves_is_closed_with_its_last_pin(self) -> None:
        with self.assertRaises(ZeroDivisionError), narthexmace.open(TABLE) as table:
            pin = table.pin()
            snapshot = pin.read()
            1 / 0
        self.assertRaisesRegex(Misuse, "the table is closed", pin.read)
        self.assertEqual(len(snapshot), 2)
        snapshot.abort()
        pin.close()
        self.assertIsNone(table._handle.room.value)

    def test_a_pin_is_closed_while_threads_begin_at_it(self) -> None:
        self.addCleanup(sys.setswitchinterval, sys.getswitchinterval())
        sys.setswitchinterval(1e-6)  # threads take turns within a call
        for _ in range(200):
            pin = self.table.pin()
            begun = threading.Barrier(4)

            def reads() -> None:
                begun.wait(LIMIT)
                end = time.monotonic() + LIMIT
                while time.monotonic() < end:
                    try:
                        with pin.read() as snapshot:
                            assert len(snapshot) == 2
                    except Misuse:
                        return
                raise AssertionError("the pin is never closed")

            self.together(reads, reads, reads, lambda: (begun.wait(LIMIT), pin.close()))
        self.assertEqual((self.table.counts().pins, self.table.sizes().open_transactions), (0, 0))

    def test_a_pin_that_is_closed_within_a_begin_stays_for_that(self) -> None:
        pin, enter = self.table.pin(), LoneHandle.__enter__

        def close_first(handle: LoneHandle) -> int:
            pin.close()
            return enter(handle)

        with mock.patch.object(LoneHandle, "__enter__", close_first):
            snapshot = pin.read()
        self.assertEqual((len(snapshot), pin.is_open, self.table.counts().pins), (2, False, 0))
        snapshot.abort()

    def test_threads_scan_one_pin_while_others_commit(self) -> None:
        """Each commit adds 1 to a sum and turns a boolean: of table n the sum is n, and n more booleans are odd or
        even."""
        rows = 6000
        table = narthexmace.open({"id": range(rows), "sum": [0] * rows, "odd": [False] * rows}, key="id", recent=64)
        stop, scans = threading.Event(), []

        def commits(first: int) -> None:
            draw = random.Random(first)
            while not stop.is_set():
                key = draw.randrange(0, rows, 3 if first else 1)
                try:
                    with table.begin() as txn:
                        _, sum_, odd = txn.get(key)
                        txn.set(key, "sum", sum_ + 1)
                        txn.set(key, "odd", not odd)
                except (Conflict, TooOld):
                    pass

        def keeps() -> None:
            while not stop.is_set():
                table.fold()
                table.trim()
                with tempfile.TemporaryDirectory() as folder:
                    table.checkpoint(folder)
                stop.wait(0.05)

        def scan(pin: narthexmace.Pin) -> None:
            for _ in range(3):
                with pin.read() as snapshot:
                    batches = list(snapshot.scan(["sum", "odd"], batch=1000))
                    sums = [sum(sum(batch["sum"]) for batch in batches)]
                    sums += [sum(sum(span) for span in snapshot.int_spans("sum"))]
                    sums += [sum(sum(span) for _, span in snapshot.int_spans(["id", "sum"]))]
                    booleans = sum(sum(batch["odd"]) for batch in batches)
                    assert (sums, booleans % 2) == ([pin.number] * 3, pin.number % 2), (pin, sums, booleans)
                    scans.append(pin.number)

        def reads() -> None:
            try:
                for _ in range(12):
                    with table.pin() as pin:
                        self.together(*[lambda: scan(pin)] * 4)
            finally:
                stop.set()

        self.together(lambda: commits(0), lambda: commits(1), keeps, reads)
        self.assertEqual(len(scans), 12 * 4 * 3)
        self.assertGreater(len(set(scans)), 6)
        table.close()


# ---- what commits changed


def applied(names: Sequence[str], rows: Sequence[Row], entries: Sequence[Entry]) -> List[Row]:
    """A table with a commit's entries over it: by their SIDs alone, each row that is before an entry goes first."""
    image: List[Row] = []
    below, at = list(rows), 0
    for entry in entries:
        image += below[at : entry.sid]
        at = max(at, entry.sid)
        assert entry.rid == len(image), entry
        if entry.kind == "insert":
            image.append(entry.values)
        elif entry.kind == "delete":
            assert below[at][: len(entry.values)] == entry.values, entry
            at += 1
        else:
            place = names.index(str(entry.column))
            below[at] = (*below[at][:place], *entry.values, *below[at][place + 1 :])
    return image + below[at:]


class Changes(Case):
    def changed(self, after: int) -> List[Tuple[int, List[Entry]]]:
        return list(self.table.changes(after=after))

    def not_kept(self, call: Callable[[], Any], number: int, newest: int) -> None:
        with self.assertRaisesRegex(NotKept, f"^the changes of commit {number} aren't retained, and {newest} is the newest one$") as caught:
            call()
        self.assertEqual(caught.exception.number, number)

    def test_what_a_commit_changed(self) -> None:
        with self.table.begin() as txn:
            txn.insert((15, LONG, 5, False))
            txn.set(20, "new", True)
            txn.delete(10)
            txn.insert((40, "Dee", 0, True))
            txn.delete(40)
        self.put(6, 15)
        first = [
            Entry("commit", 0, 0, "delete", None, (10,)),
            Entry("commit", 1, 0, "insert", None, (15, LONG, 5, False)),
            Entry("commit", 1, 1, "modify", "new", (True,)),
        ]
        second = [Entry("commit", 0, 0, "modify", "qty", (6,))]
        self.table.fold()
        self.assertEqual(self.changed(0), [(1, first), (2, second)])
        self.assertEqual((self.changed(1), self.changed(2)), ([(2, second)], []))

    def test_a_number_that_is_not_kept_is_named(self) -> None:
        self.assertEqual(self.changed(0), [])
        self.not_kept(lambda: self.table.changes(1), 2, 0)
        for qty in range(4):
            self.put(qty)
        self.assertEqual([number for number, _ in self.changed(2)], [3, 4])
        self.not_kept(lambda: self.table.changes(1), 2, 4)
        self.not_kept(lambda: self.table.changes(0), 1, 4)
        self.not_kept(lambda: self.table.changes(9), 10, 4)  # of another table, perhaps
        for number in (-1, 2**64 - 1):
            self.assertRaises(Misuse, self.table.changes, number)
        self.assertRaises(TypeError, self.table.changes, "1")

    def test_no_gap_where_commits_go_in_the_middle(self) -> None:
        self.put(1)
        self.put(2)
        changes, cut = self.table.changes(0), self.table.changes(0)
        self.assertEqual((next(changes)[0], next(cut)[0]), (1, 1))
        self.put(3)
        self.assertEqual(next(changes)[0], 2)
        self.assertRaises(StopIteration, next, changes)  # up to the newest one of the call
        self.put(4)
        self.not_kept(lambda: next(cut), 2, 2)
        self.table.trim()
        self.not_kept(lambda: self.table.changes(3), 4, 4)
        self.assertEqual(self.changed(4), [])
        self.put(5)
        self.assertEqual([number for number, _ in self.changed(4)], [5])

    def test_what_changes_nothing_takes_no_number(self) -> None:
        for _ in range(5):
            with self.table.begin() as txn:
                txn.insert((30, "Cid", 0, True))
                txn.delete(30)
            with self.table.begin() as txn:
                txn.get(10)
        self.assertEqual((self.table.sizes().commits, self.changed(0)), (0, []))
        self.put(1)
        self.assertEqual(self.table.begin().commit(), 1)

    def test_twenty_histories_replayed_from_their_changes(self) -> None:
        for seed in range(20):
            with self.subTest(seed=seed):
                self.replay(random.Random(seed), [0, 7, 2100][seed % 3])

    def replay(self, draw: random.Random, size: int) -> None:
        names = ["k", "n", "name", "ok", "qty"]

        def row() -> Row:
            text = draw.choice(["", "x", "é,\n", "Ann" * draw.randrange(9)])
            return draw.choice("ab€"), draw.randrange(30 + size), text, draw.random() < 0.5, draw.randrange(-9, 9)

        drawn = {it[:2]: it for it in (row() for _ in range(size))}
        by_row = draw.random() < 0.5
        same = model.Table(list(drawn.values()), 2, 2**31 - 1, 65_536, by_row)
        types = dict(zip(names, ("text", "int", "text", "bool", "int")))
        columns = {name: [it[place] for it in drawn.values()] for place, name in enumerate(names)}
        rows, open_ = same.image(), []
        conflicts = "row" if by_row else "column"
        with narthexmace.open(columns, key=["k", "n"], types=types, conflicts=conflicts) as table:
            for _ in range(60):
                open_.append((table.begin(), same.begin()))
                txn, other = draw.choice(open_)
                for _ in range(draw.randrange(8)):
                    new = row()
                    key = draw.choice(list(other.rows) or [new[:2]]) if draw.random() < 0.6 else new[:2]
                    verb = draw.choice(["insert", "delete", "set", "set"])
                    try:
                        if verb == "set":
                            place = draw.randrange(2, 5)
                            txn.set(key, names[place], new[place])
                            other.set(key, place, new[place])
                        else:
                            getattr(txn, verb)(new if verb == "insert" else key)
                            getattr(other, verb)(new if verb == "insert" else key)
                    except (narthexmace.Duplicate, narthexmace.Missing):
                        pass
                if len(open_) > 3:
                    open_.remove((txn, other))
                    try:
                        txn.commit()
                    except Conflict:
                        pass
                    other.commit()
                if draw.random() < 0.1:
                    table.fold()
            for txn, _ in open_:
                txn.abort()
            numbers = []
            for number, entries in table.changes(after=0):
                rows = applied(names, rows, entries)
                self.assertEqual(rows, same.image(number), number)
                numbers.append(number)
            self.assertEqual(numbers, list(range(1, len(same.commits) + 1)))
            self.assertGreater(len(numbers), 20)
            with table.read() as snapshot:
                self.assertEqual(snapshot[:], rows)


class Waits(Case):
    def test_a_wait_ends_with_a_commit(self) -> None:
        self.assertIsNone(self.table.wait(0, 0))
        self.assertIsNone(self.table.wait(0, -1))
        begun = time.monotonic()
        self.assertIsNone(self.table.wait(after=0, seconds=0.25))
        self.assertGreaterEqual(time.monotonic() - begun, 0.25)
        self.put(1)
        self.put(2)
        self.assertEqual((self.table.wait(0, LIMIT), self.table.wait(1, float("inf"))), (2, 2))
        self.assertRaises(Misuse, self.table.wait, -1, 1)

    def waiting(self, tell: Callable[[], Any]) -> Any:
        """Tells each time that a thread is about to wait in C."""
        wait = library.pdt_wait
        return mock.patch.object(library, "pdt_wait", lambda *given: (tell(), wait(*given))[1])

    def test_who_waits_is_woken(self) -> None:
        numbers: List[Any] = []
        follow = [lambda: numbers.append(self.table.wait(0, LIMIT))] * 3
        waits, begun = threading.Semaphore(0), time.monotonic()

        def comes(count: int) -> None:
            for _ in range(count):
                self.assertTrue(waits.acquire(timeout=LIMIT))

        def commit() -> None:
            comes(3)
            self.table.begin().commit()  # of nothing: it wakes nobody, and all wait again
            comes(6)
            self.assertEqual(numbers, [])
            self.put(1)

        with self.waiting(waits.release):
            self.together(*follow, commit)
        self.assertEqual(numbers, [1] * 3)
        self.assertLess(time.monotonic() - begun, LIMIT / 2)

    def test_a_store_is_not_closed_under_a_wait(self) -> None:
        waits = threading.Event()

        def close() -> None:
            self.assertTrue(waits.wait(LIMIT))
            self.assertRaisesRegex(Misuse, "another thread is in a call", self.table.close)
            self.put(1)

        with self.waiting(waits.set):
            self.together(lambda: self.table.wait(0, LIMIT), close)
        self.table.close()
        self.assertRaises(Misuse, self.table.wait, 0, LIMIT)

    def test_an_interrupt_ends_a_wait(self) -> None:
        def interrupt(*_: object) -> None:
            raise KeyboardInterrupt

        before = signal.signal(signal.SIGALRM, interrupt)
        self.addCleanup(signal.signal, signal.SIGALRM, before)
        begun = time.monotonic()
        timers = iter([0.2])  # the first wait begins it
        with self.waiting(lambda: [signal.setitimer(signal.ITIMER_REAL, seconds) for seconds in timers]):
            self.assertRaises(KeyboardInterrupt, self.table.wait, 0, LIMIT)
        self.assertLess(time.monotonic() - begun, LIMIT / 2)
        self.table.close()

    def test_a_follower_has_each_commit_once(self) -> None:
        """It begins anew at a pin where it has come too late, and ends with the newest table."""
        total, last, seen = 400, [0], []

        def follow() -> None:
            number, rows = 0, [(10, "Ann", 7, True), (20, "Bob", 2, False)]
            names = ["id", "name", "qty", "new"]
            while number < total:
                if self.table.wait(number, LIMIT) is None:
                    raise AssertionError("no commit came")
                try:
                    for number, entries in self.table.changes(after=number):
                        rows = applied(names, rows, entries)
                        assert rows[0][2] == number, (rows, number)
                        seen.append(number)
                except NotKept:
                    with self.table.pin() as pin, pin.read() as snapshot:
                        number, rows = pin.number, snapshot[:]
            last[0] = rows[0][2]

        def commit() -> None:
            for number in range(1, total + 1):
                self.assertEqual(self.put(number), number)
                if number % 7 == 0:
                    time.sleep(0.001)

        self.together(follow, commit)
        self.assertEqual((last[0], seen, len(set(seen))), (total, sorted(seen), len(seen)))


class Counts(Case):
    def test_what_is_counted(self) -> None:
        with narthexmace.open(TABLE, recent=2, row_limit=3) as table:
            none = table.counts()
            self.assertEqual(none, narthexmace.Counts(0, 0, 0, 0, 0, 0, 0, 0, 0, None, 0, 0, 0, none.longest_hold, 0))
            late, one, two = table.begin(), table.begin(), table.begin()
            one.insert((30, "Cid", 0, True))
            two.insert((40, "Dee", 0, True))
            late.set(20, "qty", 5)
            one.commit()
            self.assertRaises(narthexmace.Full, two.commit)
            pin = table.pin()
            begun = [table.begin() for _ in range(3)]
            for txn in begun:
                txn.set(10, "qty", 5)
            begun[0].set(10, "name", "Amy")
            begun[0].commit()
            for txn in begun[1:]:
                self.assertRaises(Conflict, txn.commit)
            with table.begin() as txn:
                txn.set(30, "qty", 5)
            self.assertRaises(TooOld, late.commit)
            with table.read(), table.pin():
                self.assertEqual(table.counts()[8:10], (2, 1))
            table.begin().commit()
            table.begin().abort()
            table.fold()
            with tempfile.TemporaryDirectory() as folder:
                table.checkpoint(folder)
            it = table.counts()
            self.assertEqual((it.begins, it.commits, it.conflicts, it.too_old, it.full), (10, 3, 2, 1, 1))
            self.assertEqual((it.folds, it.checkpoints, it.superseded, it.pins, it.oldest_pin), (1, 1, 0, 1, 1))
            self.assertEqual((it.kept, it.kept_entries, it.waits), (2, 3, 0))
            self.assertTrue(0 < it.longest_hold < 60)
            pin.close()
            table.trim()
            it = table.counts()
            self.assertEqual((it.pins, it.oldest_pin, it.kept, it.kept_entries), (0, None, 0, 0))

    def test_a_commit_is_waited_for_by_others_and_by_no_begin(self) -> None:
        """A thread keeps the lock as a long commit does, while one begins and two wait for it."""
        held, begun = threading.Event(), threading.Event()
        prepare, give_up = library.pdt_prepare, library.pdt_give_up
        prepare.argtypes, give_up.argtypes = [ctypes.c_void_p, ctypes.c_void_p], [ctypes.c_void_p]

        def hold() -> None:
            txn = self.table.begin()
            txn.set(10, "qty", 1)
            with txn._handle as at:
                self.assertEqual(prepare(at, None), 0)
                held.set()
                try:
                    self.assertTrue(begun.wait(LIMIT))
                    end = time.monotonic() + LIMIT
                    while self.table.counts().waits < 2 and time.monotonic() < end:
                        time.sleep(0.001)
                    time.sleep(0.3)
                finally:
                    self.assertEqual(give_up(at), 0)
            txn.abort()

        def begin() -> None:
            self.assertTrue(held.wait(LIMIT))
            with self.table.pin() as pin, self.table.begin() as txn, self.table.read() as snapshot, pin.read() as pinned:
                txn.set(10, "qty", 2)
                self.assertEqual((snapshot[0], txn.get(10)[2], pin.number), (pinned[0], 2, 0))
                self.assertIsNone(self.table.wait(0, 0))
                txn.abort()
            begun.set()

        def waits() -> None:
            self.assertTrue(begun.wait(LIMIT))
            self.table.fold()

        self.together(hold, begin, waits, waits)
        it = self.table.counts()
        self.assertEqual((it.waits, it.commits, it.pins), (2, 0, 0))
        self.assertGreater(it.longest_hold, 0.3)

    def test_the_version(self) -> None:
        header = (HERE.parents[3] / "libpdt/include/pdt.h").read_text()
        self.assertIn(f'#define PDT_VERSION "{narthexmace.version()}"', header)
        self.assertEqual((HERE.parents[3] / "VERSION").read_text().strip(), narthexmace.version())
        self.assertEqual(narthexmace.__version__, narthexmace.version().replace("-dev", ".dev0"))

    @unittest.skipUnless(os.path.exists("/proc/self/statm"), "no count of pages here")
    def test_what_is_kept_does_not_grow_with_the_commits(self) -> None:
        def pages() -> int:
            return int(Path("/proc/self/statm").read_text().split()[1])

        after = [0, 0]
        for turn in range(2):
            for number in range(15_000):
                self.put(number % 5)
            self.table.fold()
            after[turn] = pages()
        self.assertLess(after[1] - after[0], 512)
        self.assertEqual(self.table.counts()[10:12], (2, 2))


class IntSpans(unittest.TestCase):
    """IntSpans of several columns, and bools, beside lists."""

    def setUp(self) -> None:
        self.rows: List[Row] = [(i, i * 7 % 100, -i, i % 3 == 0, i % 7 == 0) for i in range(5000)]
        names = ["id", "a", "b", "ok", "new"]
        columns = {name: [row[place] for row in self.rows] for place, name in enumerate(names)}
        self.table = narthexmace.open(columns, key="id")
        self.addCleanup(self.table._handle.end)
        with self.table.begin() as txn:
            for key in range(0, 3000, 50):
                txn.set(key, "a", 1000 + key)
                txn.set(key + 3, "ok", key % 4 == 0)
            for key in range(1020, 1030):
                txn.set(key, "b", key)
                txn.delete(key + 500)
            for key in range(6000, 6010):
                txn.insert((key, 1, 2, True, False))
            self.rows = txn[:]
        self.txn = self.table.begin()
        self.addCleanup(self.txn.abort)

    def test_pieces_of_several_columns_have_the_same_rows(self) -> None:
        for start, stop in [(0, None), (0, 1), (7, 7), (1019, 1031), (1000, 4000), (4990, 5000), (2999, 6000)]:
            for names in (["id"], ["a", "id"], ("b", "a"), ["id", "a", "b", "a"]):
                places = [["id", "a", "b"].index(name) for name in names]
                row = start
                for views in self.txn.int_spans(names, start, stop):
                    rows = self.rows[row : row + len(views[0])]
                    due = [[it[place] for it in rows] for place in places]
                    self.assertEqual([view.tolist() for view in views], due)
                    row += len(rows)
                self.assertEqual(row, min(len(self.rows), len(self.rows) if stop is None else stop))

    def test_no_number_of_a_stable_run_is_copied(self) -> None:
        def place(view: memoryview) -> int:
            """Where a view lies: ctypes tells it of memory that may be written alone."""
            pointer = ctypes.py_object(view)
            room = (ctypes.c_char * 80)()
            call = ctypes.pythonapi.PyObject_GetBuffer
            call.argtypes = [ctypes.py_object, ctypes.c_void_p, ctypes.c_int]
            call(pointer, room, 0)
            ctypes.pythonapi.PyBuffer_Release(ctypes.byref(room))
            return int.from_bytes(room[:8], "little")

        ((ids, a),) = self.txn.int_spans(["id", "a"], 3500, 3560)
        self.assertEqual(place(ids), place(self.txn.int_spans("id", 3500, 3560)[0]))
        ((other, _),) = self.txn.int_spans(["id", "a"], 3510, 3560)
        self.assertEqual(place(other) - place(ids), 80)

    def test_they_are_read_only_and_taken_back(self) -> None:
        for end in (lambda: self.txn.set(5, "a", 1), lambda: self.txn.delete(6), self.txn.commit):
            beside = self.txn.int_spans(["id", "a", "b"], 40, 2000)
            for views in beside:
                for view in views:
                    self.assertTrue(view.readonly)
                    with self.assertRaises(TypeError):
                        view[0] = 7
            part = beside[3][1][:1]
            self.assertRaises(Borrowed, end)
            del part
            end()
            for views in beside:
                for view in views:
                    self.assertRaises(ValueError, view.tolist)
        with self.table.read() as snapshot:
            self.assertEqual((snapshot.get(5)[1], 6 in snapshot), (1, False))

    def test_what_is_no_column_of_ints_is_refused(self) -> None:
        for names in ([], ["id", "ok"], ["id", "no"], ("new",)):
            self.assertRaises(TypeMismatch, self.txn.int_spans, names)

    def test_truths_beside_lists(self) -> None:
        for start, stop in [(0, 1), (0, len(self.rows)), (1019, 1031), (5, 4999), (len(self.rows) - 1, len(self.rows))]:
            for batch in (1, 1000, 65_536) if stop - start < 100 else (1000, 65_536):
                ok, new = [], []
                for it in self.txn.scan(["new", "ok"], start, stop, batch):
                    self.assertEqual((it["ok"].format, it["new"].itemsize), ("?", 1))
                    ok += it["ok"].tolist()
                    new += it["new"].tolist()
                self.assertEqual((ok, new), tuple([row[place] for row in self.rows[start:stop]] for place in (3, 4)))


if __name__ == "__main__":
    unittest.main()
