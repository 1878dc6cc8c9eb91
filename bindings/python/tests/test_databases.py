"""Databases: made, opened again, locked, damaged and closed, and their tables made, found and dropped."""
import errno
import gc
import os
import shutil
import sys
import threading
import unittest
import warnings
from array import array
from typing import Any, List
from unittest import mock

import narthexmace
from narthexmace import _library
from narthexmace._sentences import value_shown

from . import LIMIT
from .drawing import pandas
from .folders import HERE, ITEMS, Case, insert, rows

INK, PEN = (1, "ink", 7), (2, "pen", 2)
TRIES = """\
import sys, narthexmace
try:
    narthexmace.connect(sys.argv[1])
except narthexmace.Error as fault:
    print(type(fault).__name__)
"""
HOLDS = """\
import sys, narthexmace
with narthexmace.connect(sys.argv[1]):
    print("open")
    sys.stdin.read()
"""


class Openings(Case):
    def test_a_folder_is_made_and_opened_again(self) -> None:
        with self.connect() as db:
            self.assertEqual((db.report, len(db), list(db)), ((0, 0, 0), 0, []))
            self.assertEqual(repr(db), f"<Database {str(self.folder)!r} without tables, 0 commits>")
            items = db.create("items", ITEMS)
            orders = db.create("orders", {"id": [2, 1], "qty": [20, 10]}, key="id")
            insert(items, INK)
            insert(items, PEN)
            with orders.begin() as txn:
                txn.set(1, "qty", 11)
            self.assertEqual(db.counts().commits, 3)
        self.assertEqual(repr(db), f"<Database {str(self.folder)!r}, closed>")
        with self.connect() as db:
            self.assertEqual((list(db), len(db)), (["items", "orders"], 2))
            self.assertEqual(db.report, narthexmace.Report(commits=3, replayed=3, torn_bytes=0))
            self.assertEqual((rows(db["items"]), rows(db["orders"])), ([INK, PEN], [(1, 11), (2, 20)]))
            txn = db["orders"].begin()
            txn.set(2, "qty", 21)
            self.assertEqual(txn.commit(), 4)  # numbers go on
            self.assertEqual(repr(db), f"<Database {str(self.folder)!r} of items, orders, 4 commits>")

    def test_a_folder_that_is_only_read_is_left_as_it_is(self) -> None:
        fault = self.refused(narthexmace.Missing, narthexmace.connect, self.folder, read_only=True)
        self.assertFalse(self.folder.exists(), fault)
        with self.connect() as db:
            insert(db.create("items", ITEMS), INK)
            self.refused(narthexmace.Locked, narthexmace.connect, self.folder, read_only=True)
        before = {file.name: (file.stat().st_mtime_ns, file.stat().st_size) for file in self.folder.iterdir()}
        with self.connect(read_only=True) as one, self.connect(read_only=True) as other:
            self.assertEqual((rows(one["items"]), rows(other["items"])), ([INK], [INK]))
            self.refused(narthexmace.Locked, narthexmace.connect, self.folder)
            with self.assertRaises(narthexmace.ReadOnlyDatabase):
                one.create("more", ITEMS)
            self.refused(narthexmace.ReadOnlyDatabase, one.drop, "items")
            self.refused(narthexmace.ReadOnlyDatabase, one.maintain)
            with one["items"].begin() as txn:
                txn.insert(PEN)
                self.refused(narthexmace.ReadOnlyDatabase, txn.commit)
                self.assertEqual(len(txn), 2)  # it is still open
                txn.abort()
        self.assertEqual({file.name: (file.stat().st_mtime_ns, file.stat().st_size) for file in self.folder.iterdir()}, before)

    def test_files_are_made_by_a_mode(self) -> None:
        with self.connect(mode=0o600):
            self.assertEqual(self.folder.stat().st_mode & 0o777, 0o700)
            self.assertEqual({file.stat().st_mode & 0o777 for file in self.folder.iterdir()}, {0o600})

    def test_what_late_commits_need_is_bounded(self) -> None:
        with self.connect(maintenance=False, kept_bytes=20_000) as db:
            items = db.create("items", {"id": range(100), "qty": range(100)}, key="id")
            late = items.begin()
            late.insert((200, 0))
            for number in range(20):
                with items.begin() as txn:
                    for key in range(100):
                        txn.set(key, "qty", number)
            self.assertGreater(db.counts().kept_bytes, 40_000)
            db.maintain()
            self.assertLessEqual(db.counts().kept_bytes, 20_000)
            self.refused(narthexmace.TooOld, late.commit)

    def test_a_folder_of_the_program_becomes_a_database(self) -> None:
        shutil.copytree(HERE.parents[1] / "libpdt/tests/fixtures/run", self.folder)
        left = [(10, "a", False), (15, "x", True), (20, "bb", False), (40, "dd", True)]
        with self.connect() as db:
            self.assertEqual((list(db), db.report), (["table"], narthexmace.Report(commits=4, replayed=2, torn_bytes=0)))
            self.assertEqual(rows(db["table"]), left)
            txn = db["table"].begin()
            txn.set(10, "name", "b")
            self.assertEqual(txn.commit(), 5)  # numbers go on
        self.assertFalse((self.folder / "journal.pdt").exists())
        with self.connect() as db:
            self.assertEqual(db.report, narthexmace.Report(commits=5, replayed=1, torn_bytes=0))
            self.assertEqual(rows(db["table"]), [(10, "b", False), *left[1:]])

    def test_a_damaged_folder_of_the_program_is_told(self) -> None:
        shutil.copytree(HERE.parents[1] / "libpdt/tests/fixtures/run", self.folder)
        marks = self.folder / "images.pdt"
        marks.write_bytes(marks.read_bytes()[:-1])
        fault = self.refused(narthexmace.Mismatch, self.connect)
        self.assertEqual(fault.file, "images.pdt")

    def test_a_folder_is_named_as_paths_are(self) -> None:
        for folder in (str(self.folder), os.fsencode(self.folder), self.folder):
            with narthexmace.connect(folder) as db:  # type: ignore[arg-type]
                self.assertEqual(len(db), 0)
        self.refused(narthexmace.Misuse, narthexmace.connect, "")
        self.refused(narthexmace.Misuse, narthexmace.connect, "a\0b")
        self.refused(TypeError, narthexmace.connect, 5)

    def test_each_sync_keeps_what_was_committed(self) -> None:
        for sync in ("full", "normal", "off"):
            for early in (False, True):
                with self.subTest(sync=sync, early_reads=early), self.connect(sync=sync, early_reads=early) as db:
                    items = db["items"] if "items" in db else db.create("items", ITEMS)
                    number = len(rows(items))
                    insert(items, (number, sync, 0))
                    self.assertEqual(len(rows(items)), number + 1)
                    counts = db.counts()
                    self.assertEqual(counts.commits, number + 1)
                    if sync == "full":
                        self.assertEqual(counts.durable, number + 1)
                        self.assertGreater(counts.syncs, 0)
        with self.connect() as db:
            names = [name for sync in ("full", "normal", "off") for name in [sync, sync]]
            self.assertEqual([row[1] for row in rows(db["items"])], names)

    def test_what_a_sync_has_left_is_there_after_the_upkeep(self) -> None:
        for sync in ("normal", "off"):
            with self.connect(sync=sync, maintenance=False) as db:
                insert(db.create(sync, ITEMS), INK)
                number = db.counts().commits
                self.assertLess(db.counts().durable, number)
                db.maintain()
                self.assertEqual(db.counts().durable, number)

    def test_options_that_are_none(self) -> None:
        for words in [
            {"sync": "on"}, {"sync": None}, {"sync": 0}, {"fold_entries": 0}, {"checkpoint_entries": -1},
            {"journal_bytes": 2**64}, {"kept_bytes": 0}, {"mode": 0}, {"mode": 0o1000},
        ]:  # fmt: skip
            self.refused(narthexmace.BadLimit, narthexmace.connect, self.folder, **words)
        self.refused(TypeError, narthexmace.connect, self.folder, fold_entries="many")
        self.assertFalse(self.folder.exists())

    def test_the_options_that_are_taken_are_those_of_the_header(self) -> None:
        header = (HERE.parents[1] / "libpdt/include/pdt.h").read_text()
        for name, value in [
            ("fold_entries", _library.FOLD_ENTRIES), ("checkpoint_entries", _library.CHECKPOINT_ENTRIES),
            ("journal_bytes", _library.JOURNAL_BYTES), ("kept_bytes", _library.KEPT_BYTES),
        ]:  # fmt: skip
            self.assertRegex(header, rf"uint64_t {name}; .*: {value:,} \*/")

    def test_a_folder_that_cannot_be_made(self) -> None:
        fault = self.refused(narthexmace.FileFailed, narthexmace.connect, self.place / "no" / "shop")
        self.assertEqual((fault.errno, fault.filename), (errno.ENOENT, self.place / "no" / "shop"))
        self.folder.write_text("a file")
        fault = self.refused(narthexmace.FileFailed, narthexmace.connect, self.folder)
        self.assertEqual(fault.errno, errno.ENOTDIR)
        self.assertIn(str(self.folder), str(fault))

    def test_the_upkeep_of_ones_own(self) -> None:
        with self.connect(maintenance=False, fold_entries=4, checkpoint_entries=16, journal_bytes=200) as db:
            items = db.create("items", ITEMS)
            for key in range(6):
                insert(items, (key, "x", key))
            self.assertEqual((db.counts().folds, db.counts().checkpoints), (0, 0))
            sizes = items.sizes()
            db.maintain()
            self.assertGreater(db.counts().folds + db.counts().checkpoints, 0)
            self.assertGreater(sizes.write_entries, items.sizes().write_entries)
            for key in range(6, 40):
                insert(items, (key, "x", key))
                db.maintain()
            counts = db.counts()
            self.assertGreater(counts.checkpoints, 0)
            self.assertEqual((counts.faults, counts.tables, counts.commits), (0, 1, 40))
            self.assertGreater(counts.journal_files, 0)
            self.assertLess(counts.journal_bytes, 2000)  # the files that no image wants are taken away
        with self.connect() as db:
            self.assertEqual([row[0] for row in rows(db["items"])], list(range(40)))
            self.assertLess(db.report.replayed, 40)


class Locks(Case):
    def test_one_opening_at_a_time(self) -> None:
        with self.connect():
            fault = self.refused(narthexmace.Locked, narthexmace.connect, self.folder)
            self.assertIsInstance(fault, BlockingIOError)
            self.assertEqual((fault.errno, fault.filename), (errno.EWOULDBLOCK, self.folder))
            self.assertIn(str(self.folder), str(fault))
            self.assertEqual(self.told(TRIES), "Locked\n")
        child = self.started(HOLDS)
        assert child.stdout
        self.assertEqual(child.stdout.readline(), "open\n")
        self.refused(narthexmace.Locked, narthexmace.connect, self.folder)
        child.communicate(timeout=LIMIT)
        self.assertEqual(child.returncode, 0)
        self.connect().close()

    def test_a_child_of_fork_has_nothing_and_keeps_nothing(self) -> None:
        told, asks = os.pipe(), os.pipe()
        db = self.connect(maintenance=False)
        items = db.create("items", ITEMS)
        insert(items, INK)
        table, pin = items.read(), items.pin()
        child = os.fork()
        if not child:
            calls = [items.begin, items.read, db.begin, db.read, db.counts, db.close, db.maintain, lambda: db["items"]]
            kinds = []
            for call in calls:
                try:
                    call()
                except narthexmace.Misuse as fault:
                    kinds.append("child of fork" in str(fault))
                except BaseException:
                    kinds.append(False)
            kinds += [table.is_open, pin.is_open]  # the parent's, which a refused close doesn't end
            os.write(told[1], b"%d" % all(kinds))
            os.close(asks[1])
            os.read(asks[0], 1)  # until the parent is done
            os._exit(0)
        try:
            self.assertEqual(os.read(told[0], 1), b"1")
            db.close()
            with self.connect() as db:  # though the child goes on
                self.assertEqual(rows(db["items"]), [INK])
        finally:
            os.close(asks[1])
            os.waitpid(child, 0)
            for end in (*told, asks[0]):
                os.close(end)


class Tables(Case):
    def test_a_table_of_each_form(self) -> None:
        path = self.place / "items.csv"
        path.write_text(ITEMS + "1,ink,7\n")
        with self.connect() as db:
            due = {}
            for name, table, words in [
                ("text", ITEMS + "1,ink,7\n", {}),
                ("bytes", (ITEMS + "1,ink,7\n").encode(), {}),
                ("path", path, {}),
                ("name of a path", str(path), {}),
                ("columns", {"name": ["ink"], "id": [1], "qty": [7]}, {"key": "id"}),
                ("arrays", {"id": array("q", [1]), "name": ["ink"], "qty": array("q", [7])}, {"key": ["id"]}),
            ]:
                due[name] = rows(db.create(name, table, **words))  # type: ignore[arg-type]
                self.assertEqual(due[name], [INK])
            due["unsorted"] = rows(db.create("unsorted", {"a": [3, 1], "b": [True, False]}, key="a"))
            due["none"] = rows(db.create("none", {"a": []}, key="a", types={"a": "text"}))
            self.assertEqual((due["unsorted"], due["none"]), ([(1, False), (3, True)], []))
        with self.connect() as db:
            self.assertEqual({name: rows(db[name]) for name in db}, due)
            self.assertEqual([column.name for column in db["columns"].columns], ["id", "name", "qty"])
            self.assertEqual(repr(db["none"]), "<Table 'none' of a>")

    @unittest.skipIf(pandas is None, "pandas isn't there")
    def test_a_table_of_a_frame(self) -> None:
        frame = pandas.DataFrame({"id": [2, 1], "name": ["pen", "ink"], "qty": [2, 7]})
        with self.connect() as db:
            db.create("items", frame, key="id")
        with self.connect() as db, db["items"].read() as snapshot:
            self.assertEqual(snapshot[:], [INK, PEN])
            self.assertTrue(snapshot.to_pandas().equals(frame.sort_values("id").reset_index(drop=True)))

    def test_a_table_keeps_its_options(self) -> None:
        self.connect().close()
        for made in (True, False):
            with self.connect() as db:
                if made:
                    db.create("few", ITEMS, row_limit=1)
                    insert(db.create("rows", ITEMS, conflicts="row"), INK)
                    insert(db.create("young", ITEMS, recent=1), INK)
                    insert(db["few"], INK)
                with db["few"].begin() as txn:
                    self.refused(narthexmace.Full, txn.insert, PEN)
                one, other = db["rows"].begin(), db["rows"].begin()
                one.set(1, "qty", one.get(1)[2] + 1)
                other.set(1, "name", "x")
                one.commit()
                self.refused(narthexmace.Conflict, other.commit)
                old = db["young"].begin()
                old.set(1, "name", "x")
                for qty in (1, 2):
                    with db["young"].begin() as txn:
                        txn.set(1, "qty", qty)
                self.refused(narthexmace.TooOld, old.commit)

    def test_the_names(self) -> None:
        good = ["items", "é" * 32, "a b", "../x", "a/b", '"', "%s", "-1", " ", "x" * 64]
        with self.connect() as db:
            for name in good:
                db.create(name, ITEMS)
            for name in ["", "x" * 65, "é" * 33, "a\0b", "a\nb", "\x7f", "\t", "\ud800", 5, None, b"items"]:
                self.assertFalse(name in db)
                fault = self.refused(narthexmace.Missing, db.__getitem__, name)
                self.assertIsInstance(fault, KeyError)
                self.assertIn(f"no table has the name {value_shown(name)}", str(fault))
                self.refused(narthexmace.Missing, db.drop, name)
                self.refused(narthexmace.TypeMismatch, db.create, name, ITEMS)
            self.assertEqual((list(db), len(db), "items" in db), (good, len(good), True))
            self.assertIs(db["items"], db["items"])
        with self.connect() as db:
            self.assertEqual(list(db), good)

    def test_a_table_that_is_refused(self) -> None:
        with self.connect() as db:
            insert(db.create("items", ITEMS), INK)
            for table, words in [(ITEMS, {}), ({"id": [1]}, {"key": "id"})]:
                fault = self.refused(narthexmace.Exists, db.create, "items", table, **words)
                self.assertIsInstance(fault, FileExistsError)
                self.assertEqual((fault.errno, fault.filename), (errno.EEXIST, self.folder))
                self.assertIn('"items"', str(fault))
            for kind, table, words in [
                (narthexmace.BadTable, "id:int\n", {}),
                (narthexmace.BadTable, {"id": [1, 1]}, {"key": "id"}),
                (narthexmace.BadTable, {"a:b": [1]}, {"key": "a:b"}),
                (narthexmace.TypeMismatch, {"id": [1.5]}, {"key": "id"}),
                (narthexmace.BadLimit, ITEMS, {"recent": 0}),
                (narthexmace.TooManyRows, ITEMS + "1,a,1\n2,b,1\n", {"row_limit": 1}),
                (TypeError, ITEMS, {"key": "id"}),
                (FileNotFoundError, "no such table.csv", {}),
            ]:
                self.refused(kind, db.create, "new", table, **words)
            fault = self.refused(narthexmace.BadTable, db.create, "new", ITEMS + "1,ink,x\n")
            self.assertEqual((fault.record, fault.column), (2, 2))
            self.assertEqual((list(db), rows(db["items"])), (["items"], [INK]))

    def test_a_table_that_is_dropped(self) -> None:
        with self.connect() as db:
            items = db.create("items", ITEMS)
            insert(items, INK)
            db.create("orders", ITEMS)
            for opened in (items.begin, items.read, items.pin, db.begin, db.read):
                one = opened()
                self.refused(narthexmace.Misuse, db.drop, "items")
                self.assertEqual(rows(items), [INK])
                (one.close if isinstance(one, narthexmace.Pin) else one.abort)()
            db.drop("items")
            for call in (items.begin, items.read, items.pin, items.sizes, items.fold, lambda: items.wait(0, 0)):
                self.assertIn("was dropped", str(self.refused(narthexmace.Misuse, call)))
            self.assertEqual((list(db), "items" in db, items.columns[0].name), (["orders"], False, "id"))
            self.refused(narthexmace.Missing, db.drop, "items")
            again = db.create("items", ITEMS)
            self.assertEqual((rows(again), list(db)), ([], ["orders", "items"]))
            self.refused(narthexmace.Misuse, items.begin)
            insert(again, PEN)
            db.drop("orders")
        with self.connect() as db:
            self.assertEqual((list(db), rows(db["items"])), (["items"], [PEN]))

    def test_a_table_is_not_dropped_under_a_call(self) -> None:
        with self.connect() as db:
            items = db.create("items", ITEMS)
            entered, leave = threading.Event(), threading.Event()

            def slow(*_: Any) -> int:
                entered.set()
                leave.wait(LIMIT)
                return 0

            with mock.patch.object(_library.library, "pdt_fold", slow):
                thread = threading.Thread(target=items.fold)
                thread.start()
                self.assertTrue(entered.wait(LIMIT))
                try:
                    self.refused(narthexmace.Misuse, db.drop, "items")
                    self.refused(narthexmace.Misuse, db.close)
                finally:
                    leave.set()
                    thread.join()
            db.drop("items")

    def test_a_table_is_a_store(self) -> None:
        with self.connect() as db:
            items = db.create("items", ITEMS)
            self.assertIn("'items'", str(self.refused(narthexmace.Misuse, items.close)))
            with items:
                insert(items, INK)
            self.assertEqual(rows(items), [INK])  # the block has closed nothing
            with self.assertRaises(ZeroDivisionError), items:
                1 / 0
            with items.pin() as pin:
                insert(items, PEN)
                with pin.read() as snapshot:
                    self.assertEqual((snapshot[:], pin.number), ([INK], 1))
            with items.read() as snapshot:
                self.refused(narthexmace.ReadOnly, getattr, snapshot, "insert")
            one, other = items.begin(), db["items"].begin()
            one.set(1, "qty", 1)
            other.set(1, "qty", 2)
            self.assertEqual(one.commit(), 3)
            self.assertEqual(self.refused(narthexmace.Conflict, other.commit).commits, 3)
            self.assertEqual(items.counts().conflicts, 1)
            items.fold()
            copy = self.place / "copy"
            copy.mkdir()
            items.checkpoint(copy)
            with narthexmace.recover(copy) as table:
                self.assertEqual(rows(table), rows(items))

    def test_what_changed(self) -> None:
        with self.connect() as db:
            items, orders = db.create("items", ITEMS), db.create("orders", ITEMS)
            insert(items, INK)
            insert(orders, INK)
            insert(items, PEN)
            insert(orders, PEN)
            told = [(number, [entry.values for entry in entries]) for number, entries in items.changes(after=0)]
            self.assertEqual(told, [(1, [INK]), (2, []), (3, [PEN])])
            self.assertEqual([number for number, _ in orders.changes(after=0)], [1, 2, 3, 4])
            for after in (3, 4):  # the last commit was of the other table
                self.assertEqual(list(items.changes(after=after)), [])
            self.assertEqual(self.refused(narthexmace.NotKept, items.changes, 5).number, 6)
            self.assertEqual((items.wait(0, 0), items.wait(3, 0), orders.wait(3, 0)), (3, None, 4))
        with self.connect() as db:
            items = db["items"]
            self.refused(narthexmace.NotKept, items.changes, 3)  # what came before the opening isn't kept
            with items.pin() as pin:
                insert(db["orders"], (3, "pad", 1))
                insert(items, (3, "pad", 1))
                told = [(number, len(entries)) for number, entries in items.changes(after=pin.number)]
            self.assertEqual(told, [(5, 0), (6, 1)])


class Ends(Case):
    def test_a_transaction_keeps_a_database_open_and_what_reads_ends_with_it(self) -> None:
        db = self.connect()
        items = db.create("items", ITEMS)
        for opened in (items.begin, db.begin):
            one, pin, table, tables = opened(), items.pin(), items.read(), db.read()
            self.assertIn("is open", str(self.refused(narthexmace.Misuse, db.close)))
            self.assertEqual((len(table), len(pin.read()), len(tables["items"])), (0, 0, 0))  # all goes on
            one.abort()
        insert(items, INK)
        part, scan = tables["items"], items.arrow()
        db.close()
        db.close()
        for call in (lambda: len(table), lambda: len(part), lambda: tables["items"], pin.read, pin.begin,
                     scan.__arrow_c_stream__):  # fmt: skip
            self.refused(narthexmace.Misuse, call)
        self.assertEqual([it.is_open for it in (table, part, tables, pin)], [False] * 4)
        with narthexmace.connect(self.folder) as again:
            self.assertEqual(rows(again["items"]), [INK])
        for call in [
            db.begin, db.read, db.counts, db.maintain, lambda: db["items"], lambda: "items" in db, lambda: list(db),
            lambda: len(db), lambda: db.create("new", ITEMS), lambda: db.drop("items"), items.begin, items.read,
            items.sizes,
        ]:  # fmt: skip
            self.assertIn("is closed", str(self.refused(narthexmace.Misuse, call)))
        self.assertEqual((items.columns[0].name, db.report.commits), ("id", 0))

    def test_an_exception_closes_it_with_the_last_of_its_transactions(self) -> None:
        for opened in (lambda db: db["items"].begin(), lambda db: db.begin(), lambda db: db["items"].pin()):
            with self.assertRaises(ZeroDivisionError), self.connect() as db:
                if "items" not in db:
                    db.create("items", ITEMS)
                one = opened(db)
                1 / 0
            self.refused(narthexmace.Misuse, db.begin)
            self.refused(narthexmace.Locked, narthexmace.connect, self.folder)
            del one
            self.connect().close()

    def test_what_is_dropped_is_closed_with_a_warning(self) -> None:
        db = narthexmace.connect(self.folder)
        insert(db.create("items", ITEMS), INK)
        with self.assertWarnsRegex(ResourceWarning, "unclosed database.*shop"):
            del db
            gc.collect()
        items = narthexmace.connect(self.folder)["items"]  # which keeps it open
        gc.collect()
        insert(items, PEN)
        txn = items.begin()
        with self.assertWarns(ResourceWarning):
            del items
            gc.collect()
            self.assertEqual(txn.get(1), INK)
            self.refused(narthexmace.Locked, narthexmace.connect, self.folder)
            del txn
            gc.collect()
        with warnings.catch_warnings():
            warnings.simplefilter("error")
            with self.connect() as db:
                self.assertEqual(rows(db["items"]), [INK, PEN])
            del db
            gc.collect()

    def test_a_ring_is_let_go(self) -> None:
        db = narthexmace.connect(self.folder)
        db.create("items", ITEMS)
        ring: list = [db, db["items"].begin(), db.begin(), db["items"].pin()]
        ring[2]["items"].insert(INK)
        ring.append(ring)
        with self.assertWarns(ResourceWarning):
            del db, ring
            gc.collect()
        with self.connect() as db:
            self.assertEqual(rows(db["items"]), [])

    def test_what_stands_for_memory_of_this_process_is_not_copied(self) -> None:
        import copy
        import pickle

        with self.connect() as db, db.begin() as txn:
            for thing in (db, txn, db._handle, txn._handle):
                for call in (copy.copy, copy.deepcopy, pickle.dumps):
                    with self.assertRaisesRegex(TypeError, "can't be copied or pickled"):
                        call(thing)

    def test_one_that_is_dropped_is_closed_where_warnings_are_errors(self) -> None:
        """As in a run of tests with -W error: the warning is raised, and the folder isn't locked."""
        told: List[Any] = []
        with warnings.catch_warnings(), mock.patch.object(sys, "unraisablehook", told.append):
            warnings.simplefilter("error")
            db = narthexmace.connect(self.folder)
            del db
            gc.collect()
        self.assertEqual([type(it.exc_value) for it in told], [ResourceWarning])
        with narthexmace.connect(self.folder):
            pass

    def test_each_option_is_passed_on(self) -> None:
        """What ``connect`` is given, and what C has of it."""
        words = {"sync": 0, "early_reads": False, "no_maintenance": False, "fold_entries": 1024,
        "checkpoint_entries": 10_000,
                 "journal_bytes": 67_108_864}  # fmt: skip
        cases = [({}, {}), ({"sync": "normal"}, {"sync": 1}), ({"sync": "off"}, {"sync": 2}),
                 ({"early_reads": True}, {"early_reads": True}), ({"maintenance": False}, {"no_maintenance": True}),
                 ({"fold_entries": 7}, {"fold_entries": 7}), ({"checkpoint_entries": 8}, {"checkpoint_entries": 8}),
                 ({"journal_bytes": 9_000}, {"journal_bytes": 9_000})]  # fmt: skip
        opens, passed = _library.library.pdt_database_open, []

        def noted(path: bytes, options: Any, *given: Any) -> int:
            passed.append({name: getattr(options._obj, name) for name in words})
            return int(opens(path, options, *given))

        for given, due in cases:
            with self.subTest(given=given), mock.patch.object(_library.library, "pdt_database_open", noted):
                narthexmace.connect(self.folder, **given).close()  # type: ignore[arg-type]
                self.assertEqual(passed[-1], {**words, **due})

    def test_an_interrupt_in_an_opening_or_a_close(self) -> None:
        for name in ("pdt_database_open", "pdt_database_close"):
            call = getattr(_library.library, name)

            def interrupted(*given: Any) -> int:
                call(*given)
                raise KeyboardInterrupt

            db = narthexmace.connect(self.folder) if name == "pdt_database_close" else None
            with warnings.catch_warnings(), mock.patch.object(_library.library, name, interrupted):
                warnings.simplefilter("ignore", ResourceWarning)
                with self.assertRaises(KeyboardInterrupt):
                    narthexmace.connect(self.folder) if db is None else db.close()
                gc.collect()
            self.connect().close()


if __name__ == "__main__":
    unittest.main()
