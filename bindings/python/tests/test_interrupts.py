"""Ctrl-C at random moments of commits, database transactions, reads, openings and closes, as in a notebook that goes on
afterwards.

A timer raises KeyboardInterrupt at a drawn moment, as SIGINT does. Each interrupt has to come as KeyboardInterrupt, none is
lost; the rows are those of a commit that was made or wasn't, and in the end everything closes. NARTHEXMACE_INTERRUPTS is
how many there are of each test (else 300), NARTHEXMACE_SEED their seed. With NARTHEXMACE_TOLD it prints what was done.
"""
import gc
import os
import random
import signal
import sys
import tempfile
import unittest
import warnings
from collections import Counter
from contextlib import suppress
from pathlib import Path
from typing import Any, Callable, List, Optional

import narthexmace

COUNT = int(os.environ.get("NARTHEXMACE_INTERRUPTS", "300"))
SEED = int(os.environ.get("NARTHEXMACE_SEED", "1"))
#: Within how many seconds of its setting an interrupt comes.
SOONEST, LATEST = 0.00005, 0.002
ROWS = {"id": [10, 20], "qty": [0, 0], "name": ["ink", "pen"]}


class Interrupts(unittest.TestCase):
    """DatabaseTransaction that goes on until it is interrupted, over and over."""

    def setUp(self) -> None:
        place = tempfile.TemporaryDirectory()
        self.addCleanup(place.cleanup)
        self.folder = Path(place.name, "shop")
        self.draw = random.Random(f"{SEED} {self.id()}")
        self.raised = 0
        self.done: "Counter[str]" = Counter()
        self.lost: List[Any] = []
        before, hook = signal.signal(signal.SIGALRM, self.interrupt), sys.unraisablehook
        self.addCleanup(signal.signal, signal.SIGALRM, before)
        self.addCleanup(setattr, sys, "unraisablehook", hook)
        sys.unraisablehook = self.lost.append  # what an interrupt in a __del__ would be
        warned = warnings.catch_warnings()
        warned.__enter__()
        self.addCleanup(warned.__exit__, None, None, None)
        warnings.simplefilter("ignore", ResourceWarning)  # a database that is opened, and interrupted before its block

    def interrupt(self, *_: object) -> None:
        self.raised += 1
        raise KeyboardInterrupt

    def goes_on(self, dbtxn: Callable[[], None], then: Callable[[], None], latest: float = LATEST) -> None:
        """Does some work again and again until an interrupt ends it, and then something else without one; COUNT times."""
        for count in range(1, COUNT + 1):
            with suppress(KeyboardInterrupt):
                self.dbtxns(dbtxn, count, self.draw.uniform(SOONEST, latest))
            self.assertEqual((self.raised, [str(it.exc_value) for it in self.lost]), (count, []))
            then()
        if os.environ.get("NARTHEXMACE_TOLD"):
            print(f"{self.id()}: {self.raised} interrupts, {dict(self.done)}")

    def dbtxns(self, dbtxn: Callable[[], None], count: int, seconds: float) -> None:
        signal.setitimer(signal.ITIMER_REAL, seconds)
        while self.raised < count:
            dbtxn()
        self.fail("the interrupt is lost")

    def reads(self, table: narthexmace.Table) -> None:
        with table.read() as snapshot:
            self.assertEqual(snapshot.get(10)[1] + snapshot.get(20)[1], 0)
            self.assertEqual((len(snapshot), 10 in snapshot, snapshot.rank(20).below), (2, True, 1))
            self.assertEqual(snapshot[1][2], "pen")
            self.assertEqual([len(batch) for batch in snapshot.scan(["qty"])], [2])
        self.done["reads"] += 1

    def moves(self, txn: narthexmace.Transaction) -> None:
        """Moves something from one row to the other, so that their sum stays; now and then by other ways."""
        way = self.draw.randrange(4)
        number = self.draw.randrange(-99, 99)
        if way == 1:
            with txn.savepoint(), suppress(ZeroDivisionError):
                with txn.savepoint():
                    txn.set(10, "qty", 7)
                    1 // 0
        elif way == 2:
            txn.delete(10)
            txn.insert((10, 0, "ink"))
        txn.set(10, "qty", number)
        txn.set(20, "qty", -number)


class Stores(Interrupts):
    def test_commits(self) -> None:
        table = narthexmace.open(ROWS, key="id")

        def dbtxn() -> None:
            with table.begin() as txn:
                self.moves(txn)
            self.done["commits"] += 1

        self.goes_on(dbtxn, lambda: self.reads(table))
        self.assertEqual(table.sizes().open_transactions, 0)
        table.close()

    def test_reads(self) -> None:
        table = narthexmace.open(ROWS, key="id")
        txn = table.begin()

        def dbtxn() -> None:
            self.reads(table)
            txn.set(10, "qty", 5)
            self.assertEqual((txn.get(10), len(txn[:])), ((10, 5, "ink"), 2))
            list(txn.layer())
            table.fold()
            table.sizes()

        self.goes_on(dbtxn, lambda: self.reads(table))
        txn.commit()
        self.assertEqual(table.sizes().open_transactions, 0)
        table.close()

    def test_pins(self) -> None:
        table = narthexmace.open(ROWS, key="id")

        def dbtxn() -> None:
            with table.pin() as pin:
                with pin.read() as snapshot:
                    self.assertEqual(snapshot.get(10)[1] + snapshot.get(20)[1], 0)
                with pin.begin() as txn:
                    self.moves(txn)
            self.done["pins"] += 1

        self.goes_on(dbtxn, lambda: self.reads(table))
        self.assertEqual((table.sizes().open_transactions, table.counts().pins), (0, 0))
        table.close()

    def test_openings_and_closes(self) -> None:
        """What is opened when an interrupt comes is closed with its block, or when it is dropped."""
        kept: List[Optional[narthexmace.Table]] = [None]

        def dbtxn() -> None:
            with narthexmace.open(ROWS, key="id") as table:
                kept[0] = table
                with table.begin() as txn:
                    self.moves(txn)
            self.done["openings"] += 1

        def then() -> None:
            table, kept[0] = kept[0], None
            if table is not None:
                table.close()  # once more, whatever the interrupt left
                self.assertRaises(narthexmace.Misuse, table.begin)

        self.goes_on(dbtxn, then)
        gc.collect()
        self.assertEqual((narthexmace._handles._left, self.lost), ([], []))


class Databases(Interrupts):
    def test_commits_and_works(self) -> None:
        db = narthexmace.connect(self.folder, sync="off", maintenance=False)
        tables = [db.create(name, ROWS, key="id") for name in ("a", "b")]

        def dbtxn() -> None:
            with db.begin() as txn:
                for name in "ab":
                    self.moves(txn[name])
            with db.read() as seen:
                self.assertEqual(seen["a"].get(10)[1] + seen["a"].get(20)[1], 0)
            with tables[0].begin() as alone:
                self.moves(alone)
            self.done["works"] += 1

        def then() -> None:
            for table in tables:
                self.reads(table)

        self.goes_on(dbtxn, then, 4 * LATEST)
        self.assertEqual([table.sizes().open_transactions for table in tables], [0, 0])
        db.close()
        with narthexmace.connect(self.folder) as db:
            for name in "ab":
                self.reads(db[name])

    def test_openings_and_closes(self) -> None:
        """The folder opens again after each interrupt of an opening, of a table that is made or dropped, and of a close."""
        narthexmace.connect(self.folder).close()
        kept: List[Any] = [None]
        names = iter(range(10**9))

        def dbtxn() -> None:
            with narthexmace.connect(self.folder, sync="off", maintenance=False) as db:
                kept[0] = db
                name = f"t{next(names)}"
                table = db.create(name, ROWS, key="id")
                with table.begin() as txn:
                    self.moves(txn)
                for other in list(db):
                    if other != name:
                        db.drop(other)
            self.done["openings"] += 1

        def then() -> None:
            db, kept[0] = kept[0], None
            if db is not None:
                db.close()
            del db
            gc.collect()
            with narthexmace.connect(self.folder) as again:
                for name in list(again):
                    self.reads(again[name])
                    again.drop(name)  # so that there are never many, where no database transaction comes to its end

        self.goes_on(dbtxn, then, 10 * LATEST)
        self.assertEqual(narthexmace._handles._left, [])


if __name__ == "__main__":
    unittest.main()
