"""What Python has written, recovered by the program: `pdt recover FOLDER --table NAME` prints the table that Python reads.

It is tested where the program is built (`make run` builds it), and left out elsewhere.
"""
import csv
import io
import os
import random
import subprocess
import unittest
from typing import Dict, List, Tuple

import narthexmace

from . import LIMIT
from .folders import HERE, Case, rows

PROGRAM = HERE.parents[1] / "crates/pdt/out/pdt"
TURNS = int(os.environ.get("NARTHEXMACE_KILLS", "5"))
SEED = int(os.environ.get("NARTHEXMACE_SEED", "1"))

#: Two tables, by the header of each. The second is written seldom, so that its image stays old and wants old files of the journal.
TABLES = {"items": "id:int:key,name:text,qty:int\n", "seldom": "id:int:key,sure:bool\n"}

#: Commits until it has made so many, or is killed. What was answered is printed then, and whatever is printed is
#: durable.
WORKS = """\
import random, sys, narthexmace
folder, seed, commits = sys.argv[1], sys.argv[2], int(sys.argv[3])
draw = random.Random(seed)
with narthexmace.connect(folder, maintenance=False, fold_entries=4, checkpoint_entries=16) as db:
    for turn in range(commits):
        table = db["seldom" if draw.random() < 0.1 else "items"]
        with table.begin() as txn:
            key = draw.randrange(60)
            row = (key, draw.choice(["", "ink", "a,b", 'q"', "\\u00e9"]), draw.randrange(-99, 99))
            if txn.get(key) is None:
                txn.insert(row if len(table.columns) == 3 else (key, draw.random() < 0.5))
            elif draw.random() < 0.5:
                txn.delete(key)
            elif len(table.columns) == 3:
                txn.set(key, "qty", row[2])
            else:
                txn.set(key, "sure", draw.random() < 0.5)
        db.maintain()
        print("committed")
"""


def text_of(name: str, table: narthexmace.Table) -> str:
    """A table as CSV."""
    out = io.StringIO()
    written = [[str(cell).lower() if isinstance(cell, bool) else str(cell) for cell in row] for row in rows(table)]
    csv.writer(out, lineterminator="\n").writerows(written)
    return TABLES[name] + out.getvalue()


@unittest.skipUnless(PROGRAM.is_file(), "crates/pdt/out/pdt isn't there")
class Recovered(Case):
    def setUp(self) -> None:
        super().setUp()
        with self.connect() as db:
            for name, header in TABLES.items():
                db.create(name, header)

    def answer(self, *words: str) -> Tuple[int, str, str]:
        """What the program answers of the folder: its status, what it prints, and what it tells."""
        ran = subprocess.run([PROGRAM, "recover", self.folder, *words], capture_output=True, timeout=LIMIT, check=False)
        return ran.returncode, ran.stdout.decode(), ran.stderr.decode()

    def files(self) -> Dict[str, bytes]:
        return {str(it): it.read_bytes() for it in sorted(self.folder.rglob("*")) if it.is_file()}

    def numbers(self) -> List[int]:
        """The numbers of the journal's files."""
        return sorted(int(it.name.split("-")[1]) for it in self.folder.glob("journal-*"))

    def written(self, seed: int, commits: int, killed_after: int = 0) -> None:
        """A program writes, and is killed after so many answers, where there are any, or else closes the database."""
        child = self.started(WORKS, seed, commits)
        assert child.stdout
        for _ in range(killed_after):
            child.stdout.readline()
        if killed_after:
            child.kill()
        child.communicate(timeout=LIMIT)
        self.assertEqual(child.returncode, -9 if killed_after else 0)

    def check(self) -> None:
        """The program prints what Python reads then, says the same twice, and changes no file."""
        before = self.files()
        told = {name: self.answer("--table", name) for name in TABLES}
        self.assertEqual({name: self.answer("--table", name) for name in TABLES}, told)
        self.assertEqual(self.files(), before)
        with self.connect() as db:
            for name in TABLES:
                self.assertEqual(told[name], (0, text_of(name, db[name]), ""))

    def test_the_program_and_python_read_the_same_in_turn(self) -> None:
        draw, most = random.Random(SEED), 0
        self.check()
        for turn in range(TURNS):
            with self.subTest(turn=turn, seed=SEED):
                self.written(SEED + turn, 120)
                most = max(most, len(self.numbers()))
                self.check()
                self.written(SEED - turn, 10_000, killed_after=draw.choice([1, 5, 60]))
                self.check()
        # a checkpoint of one table had the journal go on in another file, while the other one's image wanted the first
        self.assertGreater(most, 1)
        self.assertGreater(max(int(it.name.split("-")[2]) for it in self.folder.glob("image-1-*")), 1)

    def test_an_open_database_is_read_as_it_was_at_a_moment(self) -> None:
        with self.connect() as db:
            with db["items"].begin() as txn:
                txn.insert((1, "ink", 7))
            self.assertEqual(self.answer("--table", "items"), (0, text_of("items", db["items"]), ""))

    def test_which_table_is_meant(self) -> None:
        self.assertEqual(self.answer(), (1, "", "pdt: store: NotNamed\n"))
        self.assertEqual(self.answer("--table", "item"), (1, "", "pdt: store: NoTable\n"))
        self.assertEqual(self.answer("--table", ""), (1, "", "pdt: store: NoTable\n"))
        with self.connect() as db:
            db.drop("seldom")
        self.assertEqual(self.answer(), (0, TABLES["items"], ""))
        (self.folder / "manifest").unlink()
        self.assertEqual(self.answer("--table", "items"), (1, "", "pdt: store: NoDatabase\n"))

    def test_what_is_damaged_or_missing_is_told(self) -> None:
        self.written(SEED, 120)
        numbers = self.numbers()
        image = next(self.folder.glob("image-1-*"))
        self.assertGreater(len(numbers), 1)
        for file, refusal in [
            (self.folder / "manifest", "DamagedManifest"),
            (image / "header.csv", "DamagedHeader"),
            (image / "column-1.pdt", "DamagedColumn 1"),
        ]:
            with self.subTest(file=file.name):
                whole = file.read_bytes()
                file.write_bytes(whole[:-1] + bytes([whole[-1] ^ 1]))
                self.assertEqual(self.answer("--table", "items"), (1, "", f"pdt: store: {refusal}\n"))
                file.write_bytes(whole)
        for number in numbers[:-1]:
            with self.subTest(number=number):
                file = self.folder / f"journal-{number}"
                file.rename(self.place / "elsewhere")
                self.assertEqual(self.answer("--table", "items"), (1, "", f"pdt: store: MissingJournal {number}\n"))
                (self.place / "elsewhere").rename(file)
        (image / "column-0.pdt").unlink()
        self.assertEqual(self.answer("--table", "items"), (1, "", "pdt: store: Unreadable\n"))


if __name__ == "__main__":
    unittest.main()
