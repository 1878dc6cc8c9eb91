"""The entries of layers: by hand, and merged by their positions into the image, for random writes."""
import random
import unittest
from typing import Dict, Iterable, List, Tuple

import narthexmace
from narthexmace import Entry, Misuse

TABLE = "k:text:key,n:int:key,name:text,ok:bool\na,1,Ann,true\na,2,Bob,false\nb,1,Cid,true\n"
LONG = "é" * 2048  # a text of 4,096 bytes, which the first room does not take


class ByHand(unittest.TestCase):
    """The first commit deletes a row, replaces one and inserts one, and is folded; the second one sets and deletes."""

    def setUp(self) -> None:
        self.table = narthexmace.open(TABLE)
        self.addCleanup(self.table._handle.end)
        with self.table.begin() as txn:
            txn.delete(("a", 1))
            txn.delete(("a", 2))
            txn.insert(("a", 2, "Bo", True))
            txn.insert(("c", -5, LONG, False))
        self.table.fold()
        with self.table.begin() as txn:
            txn.set(("b", 1), "ok", False)
            txn.set(("b", 1), "name", "")
            txn.delete(("c", -5))

    read = [
        Entry("read", 0, 0, "delete", None, ("a", 1)),
        Entry("read", 1, 0, "insert", None, ("a", 2, "Bo", True)),
        Entry("read", 1, 1, "delete", None, ("a", 2)),
        Entry("read", 3, 2, "insert", None, ("c", -5, LONG, False)),
    ]
    write = [
        Entry("write", 1, 1, "modify", "name", ("",)),
        Entry("write", 1, 1, "modify", "ok", (False,)),
        Entry("write", 2, 2, "delete", None, ("c", -5)),
    ]
    own = [
        Entry("own", 0, 0, "insert", None, ("a", 0, "Dee", True)),
        Entry("own", 1, 2, "modify", "name", ("Cy",)),
    ]

    def test_the_layers_of_the_newest_table(self) -> None:
        self.assertEqual(list(self.table.layers()), self.read + self.write)

    def test_the_layer_of_a_transaction(self) -> None:
        txn = self.table.begin()
        self.assertEqual(list(txn.layer()), [])
        txn.set(("b", 1), "name", "Cy")
        txn.insert(("a", 0, "Dee", True))
        self.assertEqual(list(txn.layer()), self.own)
        self.assertEqual([txn[entry.rid][:2] for entry in txn.layer()], [("a", 0), ("b", 1)])
        txn.abort()

    def test_a_layer_stays_as_it_stood(self) -> None:
        txn = self.table.begin()
        txn.set(("b", 1), "name", "Cy")
        txn.insert(("a", 0, "Dee", True))
        layers, own = self.table.layers(), txn.layer()
        self.assertEqual(next(layers), self.read[0])
        txn.delete(("a", 0))
        txn.commit()
        self.table.fold()
        self.table.close()
        self.assertEqual(list(layers), self.read[1:] + self.write)
        self.assertEqual(list(own), self.own)

    def test_what_is_over_has_no_layer(self) -> None:
        txn = self.table.begin()
        txn.abort()
        with self.assertRaises(Misuse):
            txn.layer()
        self.table.close()
        with self.assertRaises(Misuse):
            self.table.layers()


Rows = List[Tuple[int, int]]


def merged(below: Rows, entries: Iterable[Entry]) -> Rows:
    """Rows with the entries of a layer over them, which says where each entry's row is then."""
    above: Rows = []
    passed = 0
    gone: Dict[int, bool] = {}
    for entry in entries:
        above += [below[sid] for sid in range(passed, entry.sid) if sid not in gone]
        passed = max(passed, entry.sid)
        assert entry.rid == len(above), entry
        if entry.kind == "insert":
            above.append((int(entry.values[0]), int(entry.values[1])))
        elif entry.kind == "delete":
            gone[entry.sid] = True
        else:
            assert entry.column == "qty"
            below[entry.sid] = (below[entry.sid][0], int(entry.values[0]))
    return above + [below[sid] for sid in range(passed, len(below)) if sid not in gone]


class Drawn(unittest.TestCase):
    def test_layers_merge_to_the_image(self) -> None:
        draw = random.Random(7)
        for size in (0, 1, 40, 300):
            stable = [(10 * place, place) for place in range(size)]
            table = narthexmace.open({"id": [it[0] for it in stable], "qty": [it[1] for it in stable]}, key="id",
                                     types={"id": "int", "qty": "int"})  # fmt: skip
            for round_ in range(12):
                self.write(table, draw, 10 * size + 10)
                with self.subTest(size=size, round=round_):
                    self.compare(table, stable)
                if round_ % 5 == 4:
                    table.fold()
            table.close()

    def write(self, table: narthexmace.Table, draw: random.Random, most: int) -> None:
        with table.begin() as txn:
            for _ in range(12):
                key, verb = draw.randrange(-5, most), draw.randrange(3)
                try:
                    if verb == 0:
                        txn.insert((key, draw.randrange(99)))
                    elif verb == 1:
                        txn.delete(key)
                    else:
                        txn.set(key, "qty", draw.randrange(99))
                except (narthexmace.Duplicate, narthexmace.Missing):
                    pass

    def compare(self, table: narthexmace.Table, stable: Rows) -> None:
        entries = list(table.layers())
        sizes = table.sizes()
        self.assertEqual(len(entries), sizes.read_entries + sizes.write_entries)
        lower = merged(list(stable), (it for it in entries if it.layer == "read"))
        rows = merged(lower, (it for it in entries if it.layer == "write"))
        txn = table.begin()
        self.assertEqual(rows, list(txn))
        txn.insert((-9, 0))
        if len(txn) > 1:
            txn.set(txn[1][0], "qty", 100)
        self.assertEqual(merged(rows, txn.layer()), list(txn))
        txn.abort()


if __name__ == "__main__":
    unittest.main()
