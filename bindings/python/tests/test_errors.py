"""Each exception once, with its code and what stays; and that what is over or closed raises, and never crashes."""
import copy
import ctypes
import errno
import gc
import os
import pickle
import subprocess
import sys
import tempfile
import threading
import unittest
from contextlib import suppress
from datetime import datetime
from pathlib import Path
from typing import Any, Callable, Type
from unittest import mock

import narthexmace
from narthexmace import _handles, _library, _transaction

from . import LIMIT

TABLE = "id:int:key,name:text,qty:int,new:bool\n10,Ann,7,true\n20,Bob,2,false\n"
ROWS = [(10, "Ann", 7, True), (20, "Bob", 2, False)]


def codes() -> dict:
    """The codes of pdt.h, by name."""
    header = (Path(__file__).parents[3] / "libpdt/include/pdt.h").read_text()
    lines = header[: header.index("} pdt_code;")].splitlines()
    parts = (line.split("=") for line in lines if line.startswith("  PDT_") and "=" in line)
    return {name.strip(): int(value.split(",")[0].split("/")[0]) for name, value in parts}


class Codes(unittest.TestCase):
    def test_each_code_of_the_header_has_its_exception(self) -> None:
        names = {
            "PDT_NOMEM": "NoMemory", "PDT_CONFLICT": "Conflict", "PDT_TOO_OLD": "TooOld", "PDT_FULL": "Full",
            "PDT_DUPLICATE": "Duplicate", "PDT_MISSING": "Missing", "PDT_TYPE_MISMATCH": "TypeMismatch",
            "PDT_BAD_TABLE": "BadTable",
            "PDT_BAD_LIMIT": "BadLimit", "PDT_TOO_MANY_ROWS": "TooManyRows", "PDT_TOO_SMALL": "TooSmall",
            "PDT_BAD_CHECKPOINT": "BadCheckpoint", "PDT_NO_CHECKPOINT": "NoCheckpoint", "PDT_MISUSE": "Misuse",
            "PDT_IO": "FileFailed",
            "PDT_EXISTS": "Exists", "PDT_SUPERSEDED": "Superseded", "PDT_NOT_ASCENDING": "NotAscending",
            "PDT_DEVICE_FAILED": "DeviceFailed", "PDT_LOCKED": "Locked", "PDT_CORRUPT": "Corrupt",
            "PDT_INCOMPLETE": "Incomplete",
            "PDT_MISMATCH": "Mismatch", "PDT_OUTCOME_UNKNOWN": "OutcomeUnknown", "PDT_WRITES_FAILED": "WritesFailed",
            "PDT_TOO_LONG": "TooLong",
            "PDT_READONLY": "ReadOnlyDatabase", "PDT_NEWER_FORMAT": "NewerFormat",
        }  # fmt: skip
        there = codes()
        self.assertEqual(set(there), {"PDT_OK", *names})
        for name, kind in names.items():
            fault = narthexmace._errors.error_of(there[name])
            self.assertIs(type(fault), getattr(narthexmace, kind))
            self.assertEqual(fault.code, there[name])
            self.assertRegex(str(fault), r"\w+ \w+")
            self.assertIsInstance(fault, narthexmace.Error)
        self.assertEqual(type(narthexmace._errors.error_of(99)), narthexmace.Error)

    def test_an_exception_goes_through_pickle(self) -> None:
        refused = narthexmace.Conflict()
        refused.commits = 7
        file = narthexmace.FileFailed("a file failed", 2, "folder")
        unsure = narthexmace.OutcomeUnknown("the device failed", None, "folder")
        unsure.commits = 7
        locked = narthexmace.Locked("it is open", errno.EWOULDBLOCK, "folder")
        missing, bad = narthexmace.Missing(), narthexmace.BadTable("record 3, column 1: no value")
        bad.record, bad.column, bad.cause = 3, 1, "no value"
        for fault in (missing, bad, file, refused, unsure, locked):
            again = pickle.loads(pickle.dumps(fault))
            self.assertEqual((type(again), str(again), vars(again)), (type(fault), str(fault), vars(fault)))
        again = pickle.loads(pickle.dumps(file))
        self.assertEqual((again.errno, again.filename, again.strerror), (2, "folder", os.strerror(2)))

    def test_an_exception_is_one_of_pythons_own_where_there_is_a_class(self) -> None:
        for kind, own in [
            ("NoMemory", MemoryError), ("Missing", KeyError), ("TypeMismatch", ValueError), ("BadTable", ValueError),
            ("BadLimit", ValueError), ("TooManyRows", ValueError), ("BadCheckpoint", ValueError), ("Misuse",
            RuntimeError),
            ("Borrowed", BufferError), ("ReadOnly", AttributeError), ("FileFailed", OSError), ("Exists",
            FileExistsError),
            ("NotAscending", ValueError), ("Locked", BlockingIOError), ("Corrupt", OSError), ("Incomplete", OSError),
            ("Mismatch", OSError), ("OutcomeUnknown", OSError), ("WritesFailed", OSError),
        ]:  # fmt: skip
            self.assertTrue(issubclass(getattr(narthexmace, kind), own), kind)
        self.assertTrue(issubclass(narthexmace.NotKept, narthexmace.Missing))
        for kind in (narthexmace.Borrowed, narthexmace.ReadOnly):
            self.assertEqual((kind.code, issubclass(kind, narthexmace.Misuse)), (narthexmace.Misuse.code, True))


class Case(unittest.TestCase):
    """A table of two rows."""

    def setUp(self) -> None:
        self.table = narthexmace.open(TABLE)
        self.addCleanup(self.table._handle.end)

    def refused(self, kind: Type[Exception], call: Callable[..., Any], *arguments: Any, **words: Any) -> Exception:
        with self.assertRaises(kind) as caught:
            call(*arguments, **words)
        self.assertIs(type(caught.exception), kind)
        return caught.exception


class Writes(Case):
    def test_a_duplicate_a_missing_and_a_full_row(self) -> None:
        with narthexmace.open(TABLE, row_limit=2) as table, table.begin() as txn:
            self.refused(narthexmace.Duplicate, txn.insert, (10, "Amy", 1, True))
            self.refused(narthexmace.Full, txn.insert, (30, "Cid", 1, True))
            self.refused(narthexmace.Missing, txn.delete, 30)
            self.refused(narthexmace.Missing, txn.set, 30, "qty", 1)
            self.assertEqual(txn[:], ROWS)
            with self.assertRaises(KeyError) as caught:
                txn.delete(30)
            self.assertEqual(str(caught.exception), "no row has the key id=30")  # and not in quotes

    def test_refusals_name_the_key_and_the_column(self) -> None:
        """And the table of a database, also in a database transaction."""
        pairs = {"town": ["x", "y"], "there": [False, True], "n": [1, 2]}
        with narthexmace.open(pairs, key=["town", "there"]) as table, table.begin() as txn:
            for call, given, why in [
                (txn.insert, (("x", False, 3),), 'a row with the key town="x", there=false exists'),
                (txn.insert, ({"n": 3, "there": True, "town": "y"},), 'a row with the key town="y", there=true exists'),
                (txn.delete, (("x", True),), 'no row has the key town="x", there=true'),
                (txn.delete, (('a\n"\0', True),), 'no row has the key town="a\\n\\"\\x00", there=true'),
                (txn.set, (("z" * 4000, True), "n", 1), f'no row has the key town="{"z" * 64}".., there=true'),
                (txn.insert, ({"n": 3, "there": True},), 'the row has no column "town"'),
                (txn.insert, ({"n": 3, "there": True, "town": "", "m": 1},), 'the table has no column "m"'),
                (txn.insert, (("z", True),), "the row has 2 cells, and 3 are wanted"),
                (txn.delete, (("x",),), "the key has 1 cell, and 2 are wanted"),
                (txn.insert, (("z", True, 1.5),), 'column "n": 1.5 is not an int'),
                (txn.insert, (("z", True, 2**63),), 'column "n": 9223372036854775808 is not an int of 64 bits'),
                (txn.insert, ((7, True, 1),), 'column "town": 7 is not a text'),
                (txn.insert, (("x" * 5000, True, 1),), 'column "town": the text has 5,000 bytes, and 4,096 are the most'),
                (txn.insert, (("\ud800", True, 1),), 'column "town": "\\ud800" is not a text that UTF-8 can write'),
                (txn.delete, (("x", 1),), 'column "there": 1 is not a bool: True or False is wanted'),
                (txn.set, (("x", True), "n", "1"), 'column "n": "1" is not an int'),
                (txn.set, (("x", False), "m", 1), 'there is no column "m"'),
                (txn.set, (("x", False), "town", "z"), 'column "town" is a key column, which can\'t be set'),
            ]:
                with self.assertRaises(narthexmace.Error) as caught:
                    call(*given)
                self.assertEqual(str(caught.exception), why)
        with tempfile.TemporaryDirectory() as folder, narthexmace.connect(Path(folder, "shop")) as db:
            items = db.create("items", {"id": [1]}, key="id")
            with items.begin() as txn:
                self.assertRaisesRegex(narthexmace.Duplicate, '^a row with the key id=1 exists in the table "items"$', txn.insert, (1,))
            with db.begin() as dbtxn:
                self.assertRaisesRegex(narthexmace.Missing, '^no row has the key id=2 in the table "items"$', dbtxn["items"].delete, 2)

    def test_refusals_name_the_way_in_for_other_values(self) -> None:
        """Floats, dates and NULL are declared: no advice is false."""
        noon = datetime(2026, 1, 1, 12)
        for cells, format_ in (([1.5, -2.5], "g"), ([noon, noon], "tsu:"), ([noon.date()] * 2, "tdD"), ([1, None], "?l")):
            columns = {"id": [1, 2], "x": cells}
            with self.assertRaises(narthexmace.TypeMismatch) as caught:
                narthexmace.open(columns, key="id")
            self.assertIn("types declare", str(caught.exception))
            self.assertRaisesRegex(narthexmace.TypeMismatch, "'tdD' of dates", narthexmace.open, columns, key="id", types={"x": "float"})
            with narthexmace.open(columns, key="id", types={"x": format_}) as table, table.read() as snapshot:
                self.assertEqual([row[1] for row in snapshot], cells)

    def test_cells_that_do_not_fit(self) -> None:
        with self.table.begin() as txn:
            for row in [
                (30, "Cid", 1),
                (30, "Cid", 1, True, 5),
                ("30", "Cid", 1, True),
                (30, 5, 1, True),
                (30, b"Cid", 1, True),
                (30, "Cid", 1.0, True),
                (30, "Cid", None, True),
                (30, "Cid", True, True),
                (30, "Cid", 1, 1),
                (30, "Cid", 2**63, True),
                (30, "Cid", -(2**63) - 1, True),
                (30, "x" * 4097, 1, True),
                (30, "\ud800", 1, True),
                "row",
                {"id": 30, "name": "Cid", "qty": 1},
                {"id": 30, "name": "Cid", "qty": 1, "new": True, "old": True},
            ]:
                self.refused(narthexmace.TypeMismatch, txn.insert, row)
            for key in ["10", 10.0, None, True, (10, 20), ()]:
                self.refused(narthexmace.TypeMismatch, txn.get, key)
                self.refused(narthexmace.TypeMismatch, txn.rank, key)
                self.refused(narthexmace.TypeMismatch, txn.delete, key)
            self.refused(narthexmace.TypeMismatch, txn.set, 10, "id", 11)
            self.refused(narthexmace.TypeMismatch, txn.set, 10, "weight", 11)
            self.refused(narthexmace.TypeMismatch, txn.set, 10, "qty", "many")
            self.refused(narthexmace.TypeMismatch, txn.scan, ["weight"])
            self.refused(narthexmace.TypeMismatch, txn.scan, "qty")
            self.refused(narthexmace.TypeMismatch, txn.scan, ["qty"], start=-1)
            self.refused(narthexmace.TypeMismatch, txn.scan, ["qty"], batch=0)
            self.refused(narthexmace.TypeMismatch, txn.int_spans, "name")
            self.refused(IndexError, txn.__getitem__, 2)
            self.refused(IndexError, txn.__getitem__, -3)
            self.refused(IndexError, txn.__getitem__, 2**64)
            self.assertEqual(list(txn), ROWS)

    def test_c_refuses_what_python_would_let_through(self) -> None:
        numbers, texts, count = self.table._shaping.row((30, "Cid", 1, True))
        numbers[3] = 2
        with self.table.begin() as txn, txn._handle as at:
            self.assertEqual(_library.library.pdt_insert(at, numbers, texts, count), narthexmace.TypeMismatch.code)

    def test_the_edges_of_cells(self) -> None:
        row = (2**63 - 1, "é" * 2048, -(2**63), False)
        with self.table.begin() as txn:
            txn.insert(row)
            txn.set(10, "name", "")
            txn.set(20, "name", '\0,"\n')
            self.assertEqual((txn.get(2**63 - 1), txn.get(10)[1], txn.get(20)[1]), (row, "", '\0,"\n'))
        with self.table.begin() as txn:
            self.assertEqual((txn[-1], txn.get(7), txn.get(7, "none")), (row, None, "none"))


class Commits(Case):
    def test_a_conflict_and_what_is_no_conflict(self) -> None:
        for conflicts, kind in [("row", narthexmace.Conflict), ("column", None)]:
            with narthexmace.open(TABLE, conflicts=conflicts) as table:
                first, second = table.begin(), table.begin()
                first.set(10, "qty", 1)
                second.set(10, "name", "Amy")
                self.assertEqual(first.commit(), 1)
                if kind:
                    refused = self.refused(kind, second.commit)
                    self.assertEqual(refused.commits, 1)  # type: ignore[attr-defined]
                else:
                    self.assertEqual(second.commit(), 2)
                self.assertFalse(second.is_open)
                self.refused(narthexmace.Misuse, second.commit)
                with table.begin() as txn:
                    self.assertEqual(txn.get(10), (10, "Ann" if kind else "Amy", 1, True))

    def test_too_old_by_commits_and_by_a_cut(self) -> None:
        with narthexmace.open(TABLE, recent=1) as table:
            old, idle = table.begin(), table.begin()
            old.set(20, "qty", 1)
            for number in range(2):
                with table.begin() as txn:
                    txn.set(10, "qty", number)
            self.assertEqual(self.refused(narthexmace.TooOld, old.commit).commits, 2)  # type: ignore[attr-defined]
            self.assertEqual(idle.commit(), 0)  # it changes nothing, and can't be too old for that
            old = table.begin()
            old.set(20, "qty", 1)
            with table.begin() as txn:  # as many commits as may come
                txn.set(10, "qty", 5)
            table.trim()
            self.assertEqual((old.get(10), old.get(20)[2]), ((10, "Ann", 1, True), 1))  # it reads on
            self.refused(narthexmace.TooOld, old.commit)

    def test_a_cut_without_a_commit_since_the_begin_leaves_a_commit_as_it_is(self) -> None:
        with self.table.begin() as txn:
            txn.set(10, "qty", 1)
        begun = self.table.begin()
        begun.set(10, "qty", 2)
        self.table.trim()
        after = self.table.begin()
        after.set(20, "qty", 3)
        self.assertEqual((begun.commit(), after.commit()), (2, 3))
        begun = self.table.begin()
        begun.set(20, "qty", 5)
        with self.table.begin() as txn:
            txn.set(10, "qty", 4)
        self.table.trim()
        self.refused(narthexmace.TooOld, begun.commit)
        with self.table.read() as snapshot:
            self.assertEqual([row[2] for row in snapshot], [4, 3])

    def test_full_at_a_commit(self) -> None:
        with narthexmace.open(TABLE, row_limit=3) as table:
            one, other = table.begin(), table.begin()
            one.insert((30, "Cid", 1, True))
            other.insert((40, "Dee", 1, True))
            one.commit()
            self.assertEqual(self.refused(narthexmace.Full, other.commit).commits, 1)  # type: ignore[attr-defined]

    def test_with_commits_and_aborts(self) -> None:
        with self.table.begin() as txn:
            txn.set(10, "qty", 1)
        with self.assertRaises(ZeroDivisionError), self.table.begin() as txn:
            txn.set(10, "qty", 2)
            1 / 0
        with self.table.begin() as txn:
            txn.set(10, "qty", 3)
            txn.abort()
            txn.abort()
        with self.table.begin() as txn:
            self.assertEqual(txn.get(10)[2], 1)
        self.assertEqual(self.table.sizes().open_transactions, 0)

    def test_memory_that_is_refused_leaves_the_transaction_open(self) -> None:
        txn = self.table.begin()
        txn.set(10, "qty", 1)
        with mock.patch.object(_transaction.library, "pdt_commit", lambda *_: narthexmace.NoMemory.code):
            self.refused(narthexmace.NoMemory, txn.commit)
            self.assertTrue(txn.is_open)
            with self.assertRaises(MemoryError), self.table.begin() as other:
                other.delete(10)
            self.assertFalse(other.is_open)
        self.assertEqual((txn.commit(), self.table.sizes().open_transactions), (1, 0))

    def test_an_interrupt_in_a_commit(self) -> None:
        commit = _transaction.library.pdt_commit

        def interrupted(*arguments: Any) -> int:
            commit(*arguments)
            raise KeyboardInterrupt

        with mock.patch.object(_transaction.library, "pdt_commit", interrupted):
            with self.assertRaises(KeyboardInterrupt), self.table.begin() as txn:
                txn.set(10, "qty", 1)
        self.assertFalse(txn.is_open)  # C has freed it, and nothing frees it again
        self.assertEqual(self.table.sizes()[::3], (1, 0))

    def test_an_interrupt_in_a_begin(self) -> None:
        begin = _handles.library.pdt_begin

        def interrupted(*arguments: Any) -> int:
            begin(*arguments)
            raise KeyboardInterrupt

        with mock.patch.object(_handles.library, "pdt_begin", interrupted):
            with self.assertRaises(KeyboardInterrupt):
                self.table.begin()
        self.assertEqual(self.table.sizes().open_transactions, 0)

    def test_an_interrupt_in_a_close(self) -> None:
        close = _handles.library.pdt_close

        def interrupted(at: Any) -> int:
            close(at)
            raise KeyboardInterrupt

        with mock.patch.object(_handles.library, "pdt_close", interrupted):
            with self.assertRaises(KeyboardInterrupt):
                self.table.close()
        self.refused(narthexmace.Misuse, self.table.begin)
        self.table.close()


class Openings(Case):
    def test_texts_that_are_no_table(self) -> None:
        header = "id:int:key\n"
        for text in ["id:int\n", header + "1,2\n", header + "x\n", header + "1\n1\n", b"", b"\xff", "\n", "\ud800\n"]:
            self.refused(narthexmace.BadTable, narthexmace.open, text)

    def test_a_text_that_is_no_table_has_its_record_and_its_cause(self) -> None:
        header = "id:int:key,name:text,new:bool\n"
        for text, record, column in [
            ("id:int,name:text\n", 1, None),
            ("id:int:key,name:words\n", 1, 1),
            ("id:int:key,id:int\n", 1, 1),
            (header + "1,Ann\n", 2, None),
            (header + "1,Ann,true\n2,Bob,true,5\n", 3, None),
            (header + "1,Ann,true\nx,Bob,true\n", 3, 0),
            (header + "1,Ann,true\n2,Bob,true\n3,Cid,yes\n", 4, 2),
            (header + '1,"Ann\n,\n",true\n2,Bob,7\n', 3, 2),  # records, and no lines
            (header + "3,Ann,true\n1,Bob,true\n3,Cid,true\n", 4, None),
            (header.encode() + b"1,\xff,true\n", 2, 1),
            (header + f"1,{'x' * 4097},true\n", 2, 1),
        ]:
            fault = self.refused(narthexmace.BadTable, narthexmace.open, text)
            assert isinstance(fault, narthexmace.BadTable)
            self.assertEqual(fault.record, record, text[:60])
            if column is not None:
                self.assertEqual(fault.column, column, text[:60])
            self.assertRegex(str(fault.cause), r"\w+ \w+ \w+")
            self.assertRegex(str(fault), rf"^line ({fault.record}|\d+ \(record {fault.record}\))[:,] ")

    def test_columns_that_are_no_table_have_their_cause(self) -> None:
        for columns, why in [
            ({"a:b": [1]}, '^column 0 has the name "a:b": 1 to 64 bytes of UTF-8 without a colon are wanted$'),
            ({"": [1]}, '^column 0 has the name "": '),
            ({"é" * 33: [1]}, "64 bytes"),
            ({str(number): [1] for number in range(33)}, "there are 33 columns: 1 to 32 are wanted"),
        ]:
            with self.assertRaisesRegex(narthexmace.BadTable, why):
                narthexmace.open(columns, key=next(iter(columns)))
        with self.assertRaisesRegex(narthexmace.BadTable, "^the key has 5 columns: 1 to 4 are wanted$"):
            narthexmace.open({name: [1] for name in "abcde"}, key=list("abcde"))
        with self.assertRaisesRegex(narthexmace.BadTable, "^row 3: the key id=1 is that of an earlier row$"):
            narthexmace.open({"id": [3, 1, 2, 1]}, key="id")

    def test_limits(self) -> None:
        for words in [{"recent": 0}, {"recent": 65_537}, {"row_limit": 0}, {"row_limit": 2**31}, {"conflicts": "cell"}]:
            self.refused(narthexmace.BadLimit, narthexmace.open, TABLE, **words)
        self.refused(narthexmace.TooManyRows, narthexmace.open, TABLE, row_limit=1)

    def test_what_is_no_table_at_all(self) -> None:
        self.refused(FileNotFoundError, narthexmace.open, "no such table.csv")
        self.refused(TypeError, narthexmace.open, 5)
        self.refused(TypeError, narthexmace.open, TABLE, key="id")

    def test_columns_that_fit_no_table(self) -> None:
        for columns, words in [
            ({"id": [1, 2], "qty": [1]}, {"key": "id"}),
            ({"id": [1, 2.5]}, {"key": "id"}),
            ({"id": [1, "2"]}, {"key": "id"}),
            ({"id": [1, True]}, {"key": "id"}),
            ({"id": []}, {"key": "id"}),
            ({"id": [2**63]}, {"key": "id"}),
            ({"id": [1]}, {}),
            ({"id": [1]}, {"key": "no"}),
            ({"id": [1]}, {"key": ["id", "id"]}),
            ({"id": [1]}, {"key": "id", "types": {"no": "int"}}),
            ({"id": [1]}, {"key": "id", "types": {"id": "float"}}),
            ({"id": [1]}, {"key": "id", "types": {"id": "text"}}),
            ({"\ud800": [1]}, {"key": "\ud800"}),
            ({"a\0b": [1]}, {"key": "a\0b"}),
        ]:
            self.refused(narthexmace.TypeMismatch, narthexmace.open, columns, **words)
        for columns in [{"a:b": [1]}, {"": [1]}, {"x" * 65: [1]}, {"id": [1, 1]}]:
            self.refused(narthexmace.BadTable, narthexmace.open, columns, key=list(columns))

    def test_stores_that_cannot_be_recovered(self) -> None:
        with tempfile.TemporaryDirectory() as folder:
            fault = self.refused(narthexmace.FileFailed, narthexmace.recover, folder)
            assert isinstance(fault, OSError)
            self.assertEqual((fault.errno, fault.strerror, fault.filename), (2, os.strerror(2), folder))
            self.assertIn(os.strerror(2), str(fault))
            self.assertIn(folder, str(fault))
            self.refused(narthexmace.Misuse, narthexmace.recover, "a\0b")
            self.table.checkpoint(folder)
            fault = self.refused(narthexmace.Exists, self.table.checkpoint, folder)
            assert isinstance(fault, FileExistsError)
            self.assertEqual((fault.errno, fault.filename), (errno.EEXIST, folder))
            column = Path(folder, "column-2.pdt")
            whole = column.read_bytes()
            column.write_bytes(b"nonsense")
            self.refused(narthexmace.BadCheckpoint, narthexmace.recover, folder)
            column.write_bytes(whole[:5])
            self.refused(narthexmace.NoCheckpoint, narthexmace.recover, folder)
            column.write_bytes(whole)
            self.refused(narthexmace.TooManyRows, narthexmace.recover, folder, row_limit=1)
            Path(folder, "header.csv").write_text("id\n")
            self.refused(narthexmace.BadTable, narthexmace.recover, folder)

    def test_a_folder_that_is_not_there(self) -> None:
        with tempfile.TemporaryDirectory() as folder:
            self.refused(narthexmace.FileFailed, self.table.checkpoint, Path(folder, "no"))
            self.assertEqual(os.listdir(folder), [])
        with self.table.begin() as txn:
            self.assertEqual(txn[:], ROWS)

    def test_a_library_that_is_not_there_is_named(self) -> None:
        words = {**os.environ, _library.PLACE: "/no/libpdt.so", "PYTHONPATH": str(Path(__file__).parents[1])}
        told = subprocess.run([sys.executable, "-c", "import narthexmace"], env=words, capture_output=True, text=True)
        self.assertEqual(told.returncode, 1)
        self.assertIn("make libpdt", told.stderr)
        self.assertIn("/no/libpdt.so", told.stderr)


class Savepoints(Case):
    """Blocks of writes that are undone, or stay."""

    def test_an_exception_undoes_its_block_and_goes_on(self) -> None:
        with self.table.begin() as txn:
            txn.set(10, "qty", 5)
            with self.assertRaises(narthexmace.Duplicate), txn.savepoint():
                txn.delete(20)
                txn.insert((30, "Cid", 1, True))
                txn.insert((10, "Ann", 1, True))
            self.assertEqual([row[0] for row in txn], [10, 20])
            self.assertEqual(txn.get(10)[2], 5)
            with txn.savepoint():
                txn.delete(20)
        self.assertEqual(txn.is_open, False)
        with self.table.begin() as txn:
            self.assertEqual([row[0] for row in txn], [10])
            self.assertEqual(self.table.sizes().write_entries, 2)  # what was undone left nothing

    def test_blocks_nest(self) -> None:
        with self.table.begin() as txn:
            with self.assertRaises(ZeroDivisionError), txn.savepoint():
                txn.delete(10)
                with self.assertRaises(ZeroDivisionError), txn.savepoint():
                    txn.delete(20)
                    1 / 0
                self.assertEqual(len(txn), 1)
                with txn.savepoint():
                    txn.delete(20)
                self.assertEqual(len(txn), 0)
                1 / 0
            self.assertEqual(txn[:], ROWS)

    def test_an_end_in_a_block(self) -> None:
        for end in (narthexmace.Transaction.abort, narthexmace.Transaction.commit):
            txn = self.table.begin()
            with txn.savepoint():
                end(txn)
            txn = self.table.begin()
            with self.assertRaises(ZeroDivisionError), txn.savepoint():
                end(txn)
                1 / 0
        self.assertEqual(self.table.sizes().open_transactions, 0)

    def test_what_is_lent_does_not_keep_writes(self) -> None:
        with self.table.begin() as txn:
            with self.assertRaises(ZeroDivisionError), txn.savepoint():
                txn.delete(20)
                lent = memoryview(txn.int_spans("qty")[0])
                1 / 0
            self.assertEqual(lent.tolist(), [ROWS[0][2]])
            lent.release()
            self.assertEqual(txn[:], ROWS)

    def test_a_scan_ends_where_writes_are_undone(self) -> None:
        with self.table.begin() as txn:
            with self.assertRaises(ZeroDivisionError), txn.savepoint():
                txn.delete(10)
                batches = txn.scan(batch=1)
                1 / 0
            self.refused(narthexmace.Misuse, next, batches)

    def test_a_savepoint_that_is_refused(self) -> None:
        with self.table.begin() as txn:
            with mock.patch.object(_transaction.library, "pdt_savepoint", lambda *_: narthexmace.NoMemory.code):
                self.refused(narthexmace.NoMemory, txn.savepoint().__enter__)
            self.assertEqual(txn[:], ROWS)


class Copies(Case):
    def test_what_stands_for_memory_of_this_process_is_not_copied(self) -> None:
        with self.table.begin() as txn, self.table.read() as snapshot:
            txn.delete(10)
            things = [self.table, txn, snapshot, self.table._handle, txn._handle]
            with mock.patch.object(sys, "unraisablehook") as told:
                for thing in things:
                    for call in (copy.copy, copy.deepcopy, pickle.dumps, lambda it: copy.deepcopy([it])):
                        with self.assertRaisesRegex(TypeError, "can't be copied or pickled"):
                            call(thing)
                for layers in (self.table.layers(), txn.layer()):
                    for call in (copy.deepcopy, pickle.dumps):
                        self.assertRaises(TypeError, call, layers)
                gc.collect()
            self.assertEqual(told.call_args_list, [])
            self.assertEqual((len(txn), len(snapshot)), (1, 2))


class Ends(Case):
    """What is over, closed, or in use by another thread."""

    def calls(self, txn: narthexmace.Transaction) -> list:
        return [
            lambda: txn.insert((30, "Cid", 1, True)),
            lambda: txn.delete(10),
            lambda: txn.set(10, "qty", 1),
            lambda: txn.get(10),
            lambda: txn.rank(10),
            lambda: 10 in txn,
            lambda: len(txn),
            lambda: txn[0],
            lambda: txn[:],
            lambda: list(txn),
            lambda: txn.scan(),
            lambda: txn.int_spans("qty"),
            lambda: txn.savepoint().__enter__(),
            lambda: txn.commit(),
        ]

    def test_a_transaction_that_is_over(self) -> None:
        committed, aborted = self.table.begin(), self.table.begin()
        committed.commit()
        aborted.abort()
        for txn in (committed, aborted):
            for call in self.calls(txn):
                self.refused(narthexmace.Misuse, call)
            txn.abort()

    def test_a_store_that_is_closed(self) -> None:
        txn = self.table.begin()
        self.refused(narthexmace.Misuse, self.table.close)
        self.assertEqual(len(txn), 2)  # all goes on
        txn.abort()
        self.table.close()
        self.table.close()
        for call in (self.table.begin, self.table.fold, self.table.trim, self.table.sizes):
            self.refused(narthexmace.Misuse, call)
        self.refused(narthexmace.Misuse, self.table.checkpoint, "/")
        self.assertEqual(self.table.columns[0], narthexmace.Column("id", "int", True))

    def test_an_exception_closes_a_store_with_its_last_transaction(self) -> None:
        closed = []
        close = _handles.library.pdt_close
        with mock.patch.object(_handles.library, "pdt_close", lambda at: closed.append(close(at)) or closed[-1]):
            with self.assertRaises(ZeroDivisionError), narthexmace.open(TABLE) as table:
                txn = table.begin()
                1 / 0
            self.refused(narthexmace.Misuse, table.begin)
            self.assertEqual(txn.get(20), ROWS[1])
            txn.abort()
        self.assertEqual((closed[0], closed[-1], closed.count(0)), (narthexmace.Misuse.code, 0, 1))

    def test_what_is_dropped_is_let_go(self) -> None:
        txn = self.table.begin()
        txn.set(10, "qty", 1)
        del txn
        gc.collect()
        self.assertEqual(self.table.sizes().open_transactions, 0)
        closed = []
        close = _handles.library.pdt_close
        with mock.patch.object(_handles.library, "pdt_close", lambda at: closed.append(close(at)) or closed[-1]):
            table = narthexmace.open(TABLE)
            ring: list = [table, table.begin()]
            ring.append(ring)
            del table, ring
            gc.collect()
        self.assertEqual(closed[-1], 0)

    def test_a_scan_ends_where_its_transaction_writes(self) -> None:
        with self.table.begin() as txn:
            batches = txn.scan(batch=1)
            next(batches)
            txn.delete(10)
            self.refused(narthexmace.Misuse, next, batches)
            rows = iter(txn)
            self.assertEqual(next(rows), ROWS[1])

    def test_a_scan_ends_where_rows_are_written_at_once_or_undone(self) -> None:
        """Of insert_many, upsert_many, delete_many and a savepoint: rows would come twice, or not at all."""

        def undone(txn: narthexmace.Transaction) -> None:
            with suppress(KeyError), txn.savepoint():
                raise KeyError

        row = {"id": [1], "name": ["new"], "qty": [5], "new": [True]}
        columns = {name: cells for name, cells in row.items() if name in [it.name for it in self.table.columns]}
        writes = [lambda txn: txn.insert_many(columns), lambda txn: txn.upsert_many(columns), undone,
                  lambda txn: txn.delete_many({"id": [10]})]  # fmt: skip
        for write in writes:
            with self.table.begin() as txn:
                batches, rows, several = txn.scan(batch=1), iter(txn), txn.scan()
                next(batches), next(rows)
                write(txn)
                self.refused(narthexmace.Misuse, next, batches)
                self.refused(narthexmace.Misuse, next, several)
                txn.abort()

    def test_two_threads_in_one_transaction(self) -> None:
        txn = self.table.begin()
        entered, leave, told = threading.Event(), threading.Event(), []

        def slow(*_: Any) -> int:
            entered.set()
            leave.wait(LIMIT)
            return 0

        with mock.patch.object(_transaction.library, "pdt_delete", slow):
            thread = threading.Thread(target=lambda: told.append(txn.delete(10)))
            thread.start()
            self.assertTrue(entered.wait(LIMIT))
            for call in [*self.calls(txn), txn.abort]:
                self.refused(narthexmace.Misuse, call)
            leave.set()
            thread.join()
        self.assertEqual((told, len(txn)), ([None], 2))
        txn.abort()

    def test_a_call_within_a_call_of_one_thread(self) -> None:
        """As in a stream that Python makes, which C asks for its rows."""
        txn, told = self.table.begin(), []

        def asks(*_: Any) -> int:
            for call in [*self.calls(txn), txn.abort, self.table.close]:
                told.append(self.refused(narthexmace.Misuse, call))
            return 0

        with mock.patch.object(_transaction.library, "pdt_delete", asks):
            txn.delete(10)
        txn.abort()

        def closes(*_: Any) -> int:
            told.append(self.refused(narthexmace.Misuse, self.table.close))
            return 0

        with mock.patch.object(_handles.library, "pdt_fold", closes):
            self.table.fold()
        self.assertEqual(len(told), len(self.calls(txn)) + 3)

    def test_what_an_interrupt_leaves_of_a_call_is_no_call(self) -> None:
        """The lock of a transaction, and the count of calls of a table, where an interrupt came before their end."""
        txn = self.table.begin()
        txn._handle._lock.acquire()
        self.table._handle.count_call()
        txn.set(10, "qty", 1)
        txn.commit()
        self.table.close()
        self.refused(narthexmace.Misuse, self.table.begin)

    def under_a_call(self, check: Callable[[], None]) -> None:
        """Makes a check while another thread is in a call of the table."""
        entered, leave = threading.Event(), threading.Event()

        def slow(*_: Any) -> int:
            entered.set()
            leave.wait(LIMIT)
            return 0

        with mock.patch.object(_handles.library, "pdt_fold", slow):
            thread = threading.Thread(target=self.table.fold)
            thread.start()
            self.assertTrue(entered.wait(LIMIT))
            try:
                check()
            finally:
                leave.set()
                thread.join()

    def test_a_store_is_not_closed_under_a_call(self) -> None:
        self.under_a_call(lambda: self.refused(narthexmace.Misuse, self.table.close) and None)
        self.table.close()

    def test_an_exception_closes_a_store_after_the_calls_that_go_on(self) -> None:
        closed: list = []
        close = _handles.library.pdt_close

        def leave_by_an_exception() -> None:
            with self.assertRaises(ZeroDivisionError), self.table:
                1 / 0
            self.assertEqual(closed, [])

        with mock.patch.object(_handles.library, "pdt_close", lambda at: closed.append(close(at)) or closed[-1]):
            self.under_a_call(leave_by_an_exception)
        self.assertEqual(closed, [0])


if __name__ == "__main__":
    unittest.main()
