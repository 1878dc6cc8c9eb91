"""Programs that are killed by SIGKILL: what was answered is there at the next opening, and nothing is there by halves.

Five programs, or as many as NARTHEXMACE_KILLS says, from the seed NARTHEXMACE_SEED on.
"""
import os
import random
import unittest
from typing import Dict, List, Tuple

from . import LIMIT
from .folders import Case, rows

KILLS = int(os.environ.get("NARTHEXMACE_KILLS", "5"))
SEED = int(os.environ.get("NARTHEXMACE_SEED", "1"))

#: What a newcomer writes. The folder is the first word.
FOUR_LINES = """\
import sys, narthexmace
db = narthexmace.connect(sys.argv[1])
items = db.create("items", "id:int:key,name:text,qty:int\\n")
with items.begin() as txn:
    txn.insert((1, "ink", 7))
print("committed")
sys.stdin.read()
"""

#: Each commit adds one row to each of three tables, and moves one piece; in between tables are made and dropped. What
#: was answered is printed then.
WORKS = """\
import random, sys, narthexmace
draw = random.Random(sys.argv[2])
db = narthexmace.connect(sys.argv[1], sync=sys.argv[3], fold_entries=20, checkpoint_entries=60, journal_bytes=3000)
names = ["a", "b", "c"]
for name in names:
    if name not in db:
        db.create(name, {"id": [-1], "sum": [100]}, key="id")
        print("made", name)
while True:
    chance = draw.random()
    more = f"t{draw.randrange(4)}"
    if chance < 0.02 and more not in db:
        print("makes", more)
        db.create(more, {"id": range(5)}, key="id")
        print("made", more)
    elif chance < 0.04 and more in db:
        print("drops", more)
        db.drop(more)
        print("dropped", more)
    else:
        txn = db.begin()
        for name in names:
            txn[name].insert((len(txn[name]) - 1, draw.randrange(9)))
        for name, one in zip(draw.sample(names, 2), (-1, 1)):
            txn[name].set(-1, "sum", txn[name].get(-1)[1] + one)
        print("commit", txn.commit())
"""


class Kills(Case):
    def test_the_newcomers_four_lines_survive_a_kill(self) -> None:
        child = self.started(FOUR_LINES)
        assert child.stdout
        self.assertEqual(child.stdout.readline(), "committed\n")
        child.kill()
        child.wait(LIMIT)
        with self.connect() as db:
            self.assertEqual((rows(db["items"]), db.report.commits, db.report.replayed), ([(1, "ink", 7)], 1, 1))

    def test_a_program_is_killed_again_and_again(self) -> None:
        draw, there, newest = random.Random(SEED), 0, 0
        tables: Dict[str, bool] = {}
        for kill in range(KILLS):
            sync = draw.choice(["full", "normal", "off"])
            child = self.started(WORKS, SEED + kill, sync)
            assert child.stdout
            told = [child.stdout.readline() for _ in range(draw.choice([1, 4, 40, 200]))]
            child.kill()
            told += child.stdout.readlines()
            child.wait(LIMIT)
            told = [line for line in told if line.endswith("\n")]  # the last one may be cut short
            with self.subTest(kill=kill, sync=sync, seed=SEED):
                newest, tables = self.due(told, newest, tables)
                newest = self.check(sync, there, newest, tables)
                there, tables = newest, {name: True for name in self.names}

    def due(self, told: List[str], newest: int, tables: Dict[str, bool]) -> Tuple[int, Dict[str, bool]]:
        """The number that was answered last, and whether each table is there; one that is left out may be."""
        known = dict(tables)
        for line in told:
            word, what = line.split()
            if word == "commit":
                newest = int(what)
            elif word in ("made", "dropped"):
                known[what] = word == "made"
            else:
                known.pop(what, None)
        return newest, known

    def check(self, sync: str, there: int, newest: int, tables: Dict[str, bool]) -> int:
        """Opens the folder again. With sync "off" the last commits may be gone; each is there whole, or not at all."""
        with self.connect() as db:
            self.names = list(db)
            number = db.report.commits
            self.assertGreaterEqual(number, there if sync == "off" else newest)
            for name, is_there in tables.items():
                self.assertEqual(name in db, is_there, name)
            images = [rows(db[name]) for name in ("a", "b", "c") if name in db]
            self.assertEqual(sum(image[0][1] for image in images), 100 * len(images))
            for image in images:
                self.assertEqual([row[0] for row in image], list(range(-1, number)))
            for name in self.names:
                if name.startswith("t"):
                    self.assertEqual(len(rows(db[name])), 5)
            return number


if __name__ == "__main__":
    unittest.main()
