"""The sentences of exceptions: each one literally, and those of the library and of the package with the same words."""
from __future__ import annotations

import random
import tempfile
import threading
import unittest
from datetime import date
from decimal import Decimal
from pathlib import Path
from typing import Any, Callable, List

import narthexmace
from narthexmace._errors import error_of, sentence_of
from narthexmace._library import library
from narthexmace._sentences import key_shown, quoted, value_shown

TABLE = "id:int:key,name:text,new:bool\n7,Ann,true\n"


class Sentences(unittest.TestCase):
    def says(self, kind: type, sentence: str, call: Callable[..., Any], *given: Any, **words: Any) -> Any:
        with self.assertRaises(kind) as caught:
            call(*given, **words)
        self.assertEqual(str(caught.exception), sentence)
        return caught.exception


class Shown(Sentences):
    def test_texts_are_shown_as_the_library_shows_them(self) -> None:
        """Random texts of ASCII, control characters and others, as keys that are there."""
        draw = random.Random(1)
        letters = [chr(it) for it in (*range(0, 0x100), 0x3B1, 0x20AC, 0x1F93A)]
        texts = ["", "a\nb", 'say "no" \\', "x" * 64, "x" * 65, "\U0001F93A" * 70]
        texts += ["".join(draw.choices(letters, k=draw.randrange(80))) for _ in range(300)]
        with narthexmace.open("t:text:key\n") as table, table.begin() as txn:
            for text in dict.fromkeys(texts):
                txn.insert((text,))
                self.says(narthexmace.Duplicate, f"a row with the key t={quoted(text)} exists", txn.insert, (text,))
                self.assertEqual(key_shown(["t"], [text]), f"t={quoted(text)}")

    def test_names_are_shown_as_the_library_shows_them(self) -> None:
        for name in ("id", "a b", "ä", "µ", "a=1", 'c "d"', "x\ny", "日本"):
            with narthexmace.open({name: [1]}, key=name) as table, table.begin() as txn:
                self.says(narthexmace.Missing, f"no row has the key {key_shown([name], [2])}", txn.delete, 2)

    def test_values_are_shown(self) -> None:
        for value, shown in (("a\n", r'"a\n"'), (1.5, "1.5"), (None, "None"), (True, "True"), (b"x", "b'x'"), ("\ud800", r'"\ud800"')):
            self.assertEqual(value_shown(value), shown)
        self.assertLess(len(value_shown(list(range(10000)))), 100)
        self.assertLess(len(value_shown(10**1000)), 100)


class Refusals(Sentences):
    def test_a_key_of_declared_columns_has_their_values(self) -> None:
        columns = {"day": [date(2026, 1, 2)], "price": [Decimal("1.50")], "x": [0.5], "n": [1]}
        types = {"day": "tdD", "price": "d:5,2", "x": "g"}
        with narthexmace.open(columns, key=["day", "price", "x"], types=types) as table, table.begin() as txn:
            key = (date(2026, 1, 2), Decimal("1.50"), 0.5)
            self.says(narthexmace.Duplicate, "a row with the key day=2026-01-02, price=1.50, x=0.5 exists", txn.insert, (*key, 1))
            gone = (date(2026, 1, 2), Decimal("1.50"), 1.5)
            self.says(narthexmace.Missing, "no row has the key day=2026-01-02, price=1.50, x=1.5", txn.delete, gone)
            self.says(narthexmace.TypeMismatch, 'column "day": 7.5 is not a date', txn.delete, (7.5, Decimal(1), 0.5))
            self.says(narthexmace.TypeMismatch, 'column "x": "1" is not a float', txn.delete, (*key[:2], "1"))

    def test_a_repeated_key_has_its_row(self) -> None:
        days = {"day": [date(2026, 1, 2), date(2026, 1, 1), date(2026, 1, 2)], "on": [True, True, True]}
        sentence = "row 2: the key day=2026-01-02, on=true is that of an earlier row"
        fault = self.says(narthexmace.BadTable, sentence, narthexmace.open, days, key=["day", "on"], types={"day": "tdD"})
        self.assertEqual(fault.row, 2)

    def test_rows_of_columns_have_their_row(self) -> None:
        with narthexmace.open(TABLE) as table, table.begin() as txn:
            rows = {"id": [8, 7], "name": ["x", "y"], "new": [True, False]}
            fault = self.says(narthexmace.Duplicate, "row 1: a row with the key id=7 exists", txn.insert_many, rows)
            self.assertEqual((fault.row, fault.column), (1, 0))
            self.says(narthexmace.Missing, "row 0: no row has the key id=8", txn.delete_many, {"id": [8]})
            self.says(
                narthexmace.TypeMismatch,
                'column "new": "x" is not a bool: True or False is wanted',
                txn.insert_many,
                {**rows, "new": ["x", True]},
            )

    def test_formats_that_a_column_has_not(self) -> None:
        with narthexmace.open(TABLE) as table, table.read() as snapshot:
            self.says(
                narthexmace.TypeMismatch, 'column "name": a text column isn\'t declared, only an int column', table.declare, "name", "g"
            )
            self.says(narthexmace.TypeMismatch, 'column "id": "zz" is not a format of numbers', table.declare, "id", "zz")
            sentence = 'column "name": "tdD" isn\'t a format of its type'
            self.says(narthexmace.TypeMismatch, sentence, snapshot.arrow, as_types={"name": "tdD"})

    def test_openings(self) -> None:
        open_ = narthexmace.open
        self.says(narthexmace.BadLimit, "recent is 70000: 1 to 65,536 is wanted", open_, TABLE, recent=70000)
        self.says(narthexmace.BadLimit, "row_limit is 0: 1 to 2,147,483,647 is wanted", open_, TABLE, row_limit=0)
        self.says(narthexmace.TooManyRows, "the table has more rows than its limit, 1", open_, "id:int:key\n1\n2\n", row_limit=1)
        fault = self.says(
            narthexmace.BadTable,
            'line 3, column "id": "x" is not an int: a whole number of 64 bits is wanted',
            open_,
            "id:int:key\n1\nx\n",
        )
        self.assertEqual((fault.record, fault.column, fault.cause), (3, 0, "the cell is no value of the column's type"))

    def test_tables_of_a_database(self) -> None:
        with tempfile.TemporaryDirectory() as folder, narthexmace.connect(Path(folder, "shop")) as db:
            where = repr(str(Path(folder, "shop")))
            self.says(narthexmace.Missing, f'no table has the name "items": {where}', lambda: db["items"])
            db.create("items", {"id": [1]}, key="id")
            self.says(narthexmace.Exists, f'a table with the name "items" exists: {where}', db.create, "items", {"id": [1]}, key="id")
            wanted = "1 to 64 bytes of UTF-8 without control characters are wanted"
            self.says(narthexmace.TypeMismatch, f'a table can\'t have the name "a\\nb": {wanted}', db.create, "a\nb", {"id": [1]}, key="id")
            with db.begin() as dbtxn:
                db.create("late", {"id": [1]}, key="id")
                sentence = 'the table "late" was created after the database transaction began'
                self.says(narthexmace.Missing, sentence, dbtxn.__getitem__, "late")


class Calls(Sentences):
    def test_a_sentence_is_of_its_own_call(self) -> None:
        with narthexmace.open(TABLE) as table, table.begin() as txn:
            first = self.says(narthexmace.Missing, "no row has the key id=77", txn.delete, 77)
            self.says(narthexmace.Missing, "no row has the key id=78", txn.delete, 78)
            self.assertEqual(str(first), "no row has the key id=77")
            self.assertEqual(sentence_of(narthexmace.Duplicate.code), library.pdt_code_text(narthexmace.Duplicate.code).decode())
            self.assertEqual(str(error_of(99)), "no such code")

    def test_threads_have_sentences_of_their_own(self) -> None:
        """While others are refused other keys; and when the table is closed."""
        found: List[str] = []

        def refuse(key: int) -> None:
            for _ in range(200):
                with narthexmace.open(TABLE) as table, table.begin() as txn:
                    try:
                        txn.delete(key)
                    except narthexmace.Missing as fault:
                        if str(fault) != f"no row has the key id={key}":
                            found.append(str(fault))
                if sentence_of(narthexmace.Missing.code) != f"no row has the key id={key}":
                    found.append("after the close")

        threads = [threading.Thread(target=refuse, args=(key,)) for key in range(100, 104)]
        for thread in threads:
            thread.start()
        for thread in threads:
            thread.join()
        self.assertEqual(found, [])


if __name__ == "__main__":
    unittest.main()
