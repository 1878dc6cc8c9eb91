"""CSV texts whose header names columns and no types."""
from __future__ import annotations

import csv
import io
import os
import random
import tempfile
import unittest
from pathlib import Path
from typing import List, Sequence

import narthexmace

PEOPLE = "name,age,mail,new\nAnn,40,b@x,true\nBob,50,a@x,false\n"


def columns_of(table: narthexmace.Table) -> List[tuple[str, str, bool]]:
    return [(column.name, column.type, column.key) for column in table.columns]


def rows_of(table: narthexmace.Table) -> List[tuple[object, ...]]:
    with table.begin() as txn:
        return list(txn)


class Plain(unittest.TestCase):
    def test_types_are_found_and_the_first_column_is_the_key(self) -> None:
        table = narthexmace.open(PEOPLE)
        wanted = [("name", "text", True), ("age", "int", False), ("mail", "text", False), ("new", "bool", False)]
        self.assertEqual(wanted, columns_of(table))
        self.assertEqual([("Ann", 40, "b@x", True), ("Bob", 50, "a@x", False)], rows_of(table))

    def test_key_names_columns_that_come_first_then(self) -> None:
        table = narthexmace.open(PEOPLE.encode(), key="mail")
        self.assertEqual(["mail", "name", "age", "new"], [column.name for column in table.columns])
        self.assertEqual([("a@x", "Bob", 50, False), ("b@x", "Ann", 40, True)], rows_of(table))
        table = narthexmace.open(PEOPLE, key=["new", "age"])
        self.assertEqual([True, True, False, False], [column.key for column in table.columns])
        self.assertEqual([(False, 50, "Bob", "a@x"), (True, 40, "Ann", "b@x")], rows_of(table))

    def test_a_file_and_a_database_have_it(self) -> None:
        with tempfile.TemporaryDirectory() as folder:
            path = Path(folder) / "people.csv"
            path.write_text(PEOPLE)
            wanted = rows_of(narthexmace.open(path, key="mail"))
            with narthexmace.connect(os.path.join(folder, "db")) as db:
                db.create("people", path, key="mail")
            with narthexmace.connect(os.path.join(folder, "db")) as db:
                self.assertEqual(wanted, rows_of(db["people"]))
                with self.assertRaises(narthexmace.Exists):
                    db.create("people", path, key="mail")

    def test_faults_have_their_place(self) -> None:
        ints = "id,amount\n" + "".join(f"{i},{i}\n" for i in range(1000))
        cases = [
            (ints + "1000,many\n", None, 1002, 1),
            (ints + "7,1\n", None, 1002, 0),
            ("id,id\n1,2\n", None, 1, 1),
            ("id,\n1,2\n", None, 1, 1),
            ("id,a\n1\n", None, 2, 0),
            (PEOPLE, ["mail", "phone"], 1, 1),
            (PEOPLE, ["mail", "mail"], 1, 0),
            (PEOPLE, ["name", "age", "mail", "new", "name"], 1, 0),
            (",".join(f"c{i}" for i in range(33)), None, 1, 32),
            ("", None, 1, 0),
        ]
        for text, key, record, column in cases:
            with self.subTest(text[-20:], key=key), self.assertRaises(narthexmace.BadTable) as raised:
                narthexmace.open(text.encode(), key=key)
            self.assertEqual((record, column), (raised.exception.record, raised.exception.column))

    def test_a_header_with_types_takes_no_key(self) -> None:
        with self.assertRaises(TypeError):
            narthexmace.open("id:int:key,name:text\n1,Ann\n", key="id")
        with self.assertRaises(TypeError):
            narthexmace.open(PEOPLE, types={"age": "int"})
        with self.assertRaises(narthexmace.BadTable) as raised:
            narthexmace.open("id:int:key,name\n1,Ann\n")
        self.assertEqual((1, 1), (raised.exception.record, raised.exception.column))
        with self.assertRaises(narthexmace.TypeMismatch):
            narthexmace.open(PEOPLE, key="a\0b")

    def test_drawn_tables_are_those_of_their_columns(self) -> None:
        """A text that Python's csv writes, with the columns in any order, is the table of the same columns."""
        draw = random.Random(7)
        for _ in range(200):
            count = draw.randrange(1, 40)
            columns: dict[str, Sequence[object]] = {"id": draw.sample(range(-1000, 1000), count)}
            for i in range(draw.randrange(0, 6)):
                kind = draw.choice(["int", "text", "bool"])
                cells = {
                    "int": lambda: draw.choice([0, -1, 2**63 - 1, -(2**63), draw.randrange(1000)]),
                    "text": lambda: draw.choice(["", "a,b", 'say "x"', "two\nlines", "7 ", "é", "True"]),
                    "bool": lambda: draw.random() < 0.5,
                }[kind]
                columns[f"{kind} {i}"] = [cells() for _ in range(count)]
            names = draw.sample(list(columns), len(columns))
            out = io.StringIO()
            writer = csv.writer(out, lineterminator=draw.choice(["\n", "\r\n"]), quoting=csv.QUOTE_ALL)
            writer.writerow(names)
            for row in zip(*(columns[name] for name in names)):
                writer.writerow([str(cell).lower() if isinstance(cell, bool) else cell for cell in row])
            wanted = narthexmace.open({name: columns[name] for name in names}, key="id")
            found = narthexmace.open(out.getvalue().encode(), key="id")
            self.assertEqual(columns_of(wanted), columns_of(found))
            self.assertEqual(rows_of(wanted), rows_of(found))


if __name__ == "__main__":
    unittest.main()
