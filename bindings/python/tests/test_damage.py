"""What the files of a database are refused for: damage is named and never opened, and a torn end is cut off."""
import errno
import os
import pickle
import re
import shutil
import unittest
from pathlib import Path
from typing import Any
from unittest import mock

import narthexmace
from narthexmace import _library

from .folders import ITEMS, Case, insert, rows

ROWS = [(1, "ink", 7), (2, "pen", 2), (3, "pad", 5)]

#: How many bytes the last line of a manifest has.
LAST_LINE = 13

#: What of a manifest's lines is replaced, and by what: what it says stays the same, or wraps round to the same.
OTHERWISE = [
    (rb"\nat ", rb"\nat 0"),
    (rb"\nat ", rb"\nat +"),
    (rb"\nnext (\d+) ", rb"\nnext 0\1 "),
    (rb"\nnext (\d+) ", lambda found: b"\nnext %d " % (int(found[1]) + 2**32)),
    (rb"\ntable (\d+) ", lambda found: b"\ntable %d " % (int(found[1]) + 2**32)),
    (rb"\ntable (\d+) ", rb"\ntable 0x\1 "),
    (rb"\ndatabase [0-9a-f]+ [0-9a-f]+\n", lambda found: found[0].upper().replace(b"DATABASE", b"database")),
    (rb"\ndatabase ", rb"\ndatabase 0"),
    (rb" 0 3 items\n", rb" 00 3 items\n"),
    (rb" 0 3 items\n", rb" 2 3 items\n"),
    (rb" 0 3 items\n(\d+) ", rb" 0 3 items\n0\1 "),
    (rb" 0 3 items\n(\d+) ", rb" 0 3 items\n\1 0"),
]


def check_of(text: bytes) -> int:
    """The register of CRC-32C after the bytes, from all ones."""
    register = 0xFFFFFFFF
    for byte in text:
        register ^= byte
        for _ in range(8):
            register = register >> 1 ^ (0x82F63B78 if register & 1 else 0)
    return register


#: The device takes no more bytes than it has, and then as many as are asked for: Python ignores SIGXFSZ.
FAILING = """\
import resource, sys, narthexmace
db = narthexmace.connect(sys.argv[1], maintenance=False)
items = db.create("items", "id:int:key,name:text\\n")
with items.begin() as txn:
    txn.insert((1, "ink"))
soft, hard = resource.getrlimit(resource.RLIMIT_FSIZE)
resource.setrlimit(resource.RLIMIT_FSIZE, (db.counts().journal_bytes + 9, hard))
how = sys.argv[2]
txn = items.begin() if how == "table" else db.begin()
(txn if how == "table" else txn["items"]).insert((2, "pen"))
try:
    txn.commit()
except OSError as fault:
    print(type(fault).__name__, fault.commits, txn.is_open)
resource.setrlimit(resource.RLIMIT_FSIZE, (soft, hard))
with items.read() as table:
    print(table[:])
for begin in (items.begin, db.begin):
    txn = begin()
    (txn if begin == items.begin else txn["items"]).insert((3, "pad"))
    try:
        txn.commit()
    except OSError as fault:
        print(type(fault).__name__, txn.is_open)
    txn.abort()
for call in (lambda: db.create("new", "id:int:key\\n"), lambda: db.drop("items"), db.maintain):
    try:
        call()
    except OSError as fault:
        print(type(fault).__name__, fault.filename == sys.argv[1])
try:
    db.close()
except narthexmace.OutcomeUnknown as fault:
    print("closed", fault.filename == sys.argv[1])
with narthexmace.connect(sys.argv[1]) as db:
    with db["items"].begin() as txn:
        txn.insert((4, "cap"))
    with db["items"].read() as table:
        print(sorted({1, 4} - {row[0] for row in table}), db.report.torn_bytes)
"""


class Damage(Case):
    def setUp(self) -> None:
        super().setUp()
        with self.connect() as db:
            items = db.create("items", ITEMS + "1,ink,7\n")
            for row in ROWS[1:]:
                insert(items, row)

    def one(self, pattern: str) -> Path:
        """The file or folder of a name in the database."""
        (path,) = self.folder.glob(pattern)
        return path

    def turned(self, path: Path, place: int) -> None:
        """Turns a bit of a byte."""
        whole = bytearray(path.read_bytes())
        whole[place] ^= 1
        path.write_bytes(whole)

    def files(self) -> "dict[str, bytes]":
        return {str(it): it.read_bytes() for it in self.folder.rglob("*") if it.is_file()}

    def refused_opening(self, kind: type) -> Any:
        """The opening is refused, and changes no file."""
        before = self.files()
        fault = self.refused(kind, self.connect)
        self.assertEqual(self.files(), before)
        self.assertIsInstance(fault, OSError)
        self.assertIn(str(self.folder), str(fault))
        again = pickle.loads(pickle.dumps(fault))
        self.assertEqual((type(again), str(again), again.filename, vars(again)),
                         (kind, str(fault), fault.filename, vars(fault)))  # fmt: skip
        return fault

    def test_damage_of_a_column_names_its_file(self) -> None:
        for place in (0, 20, -1):
            for pattern in ("image-*/column-1.pdt", "image-*/header.csv"):
                path = self.one(pattern)
                whole = path.read_bytes()
                place = min(place, len(whole) - 1)
                self.turned(path, place)
                fault = self.refused_opening(narthexmace.Corrupt)
                self.assertEqual((fault.file, fault.commit), (str(path.relative_to(self.folder)), None))
                self.assertEqual(Path(fault.filename), path)
                self.assertIn(fault.file, str(fault))
                path.write_bytes(whole[:-1])
                self.assertEqual(self.refused_opening(narthexmace.Corrupt).file, fault.file)
                path.write_bytes(whole)
        with self.connect() as db:
            self.assertEqual(rows(db["items"]), ROWS)

    def test_damage_of_the_manifest(self) -> None:
        path = self.folder / "manifest"
        whole = path.read_bytes()
        for place in range(0, len(whole), 7):
            self.turned(path, place)
            self.assertEqual(self.refused_opening(narthexmace.Corrupt).file, "manifest")
            path.write_bytes(whole)

    def test_a_manifest_that_is_spelt_otherwise(self) -> None:
        path = self.folder / "manifest"
        whole = path.read_bytes()
        for old, new in OTHERWISE:
            body, changes = re.subn(old, new, whole[:-LAST_LINE], count=1)
            self.assertEqual(changes, 1, old)
            path.write_bytes(b"%send %08x\n" % (body, check_of(body)))
            self.assertEqual(self.refused_opening(narthexmace.Corrupt).file, "manifest")
        path.write_bytes(whole)
        self.connect().close()

    def test_a_file_that_is_missing(self) -> None:
        for pattern in ("image-*/column-0.pdt", "image-*/header.csv", "journal-*", "manifest"):
            path = self.one(pattern)
            path.rename(self.place / "away")
            fault = self.refused_opening(narthexmace.Incomplete)
            self.assertTrue(fault.file and str(path.relative_to(self.folder)).startswith(fault.file), fault)
            (self.place / "away").rename(path)
        self.connect().close()

    def test_damage_of_the_journal_before_what_was_safe(self) -> None:
        path = self.one("journal-*")
        self.turned(path, 50)  # in the first frame, behind which is a whole one
        fault = self.refused_opening(narthexmace.Corrupt)
        self.assertEqual(fault.commit, 1)
        self.assertIn("commit 1", str(fault))

    def test_another_ones_journal(self) -> None:
        path = self.one("journal-*")
        whole = path.read_bytes()
        with narthexmace.connect(self.place / "other") as db:
            insert(db.create("items", ITEMS), ROWS[0])
        shutil.copyfile(next((self.place / "other").glob("journal-*")), path)
        fault = self.refused_opening(narthexmace.Mismatch)
        self.assertEqual(fault.file, path.name)
        path.write_bytes(whole)
        self.connect().close()

    def test_a_torn_end_is_cut_off_and_told(self) -> None:
        path = self.one("journal-*")
        whole = path.read_bytes()
        with path.open("ab") as file:
            file.write(whole[36:50])
        with self.connect() as db:
            self.assertEqual((db.report.torn_bytes, db.report.commits, rows(db["items"])), (14, 2, ROWS))
            insert(db["items"], (4, "cap", 1))
        with self.connect() as db:
            self.assertEqual((db.report.torn_bytes, len(rows(db["items"]))), (0, 4))


class Devices(Case):
    def test_a_device_that_fails_over_a_commit(self) -> None:
        for how in ("table", "work"):
            told = self.told(FAILING, how).splitlines()
            self.assertEqual(told, [
                "OutcomeUnknown 2 False", "[(1, 'ink')]", *["WritesFailed True"] * 5, "closed True", "[] 9",
            ], how)  # fmt: skip
            shutil.rmtree(self.folder)

    def test_a_close_over_which_the_device_fails(self) -> None:
        db = self.connect()
        close = _library.library.pdt_database_close

        def unsure(at: Any) -> int:
            close(at)
            return narthexmace.OutcomeUnknown.code

        with mock.patch.object(_library.library, "pdt_database_close", unsure):
            fault = self.refused(narthexmace.OutcomeUnknown, db.close)
        self.assertEqual(fault.filename, str(self.folder))
        db.close()
        db = self.connect()
        with mock.patch.object(_library.library, "pdt_database_close", unsure):
            with self.assertWarnsRegex(RuntimeWarning, "closed, and the device failed"):
                with self.assertRaises(ZeroDivisionError), db:
                    1 / 0

    def test_files_that_fail_have_their_reason(self) -> None:
        def failing(*_: Any) -> int:
            _library.ctypes.set_errno(errno.ENOSPC)
            return narthexmace.FileFailed.code

        with self.connect() as db:
            db.create("items", ITEMS)
            for name, call in [
                ("pdt_maintain", db.maintain), ("pdt_table_drop", lambda: db.drop("items")),
                ("pdt_table_create_declared", lambda: db.create("new", {"id": [1]}, key="id")),
                ("pdt_table_create_csv_declared", lambda: db.create("new", ITEMS)),
            ]:  # fmt: skip
                with mock.patch.object(_library.library, name, failing):
                    fault = self.refused(narthexmace.FileFailed, call)
                self.assertEqual((fault.errno, fault.filename), (errno.ENOSPC, self.folder))
                self.assertIn(os.strerror(errno.ENOSPC), str(fault))
            self.assertEqual(rows(db["items"]), [])


if __name__ == "__main__":
    unittest.main()
