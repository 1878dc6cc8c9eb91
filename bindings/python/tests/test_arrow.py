"""Arrow's streams: what goes out and what comes in, drawn and compared with the model; formats; whose memory it is; and threads."""
import ctypes
import gc
import os
import random
import struct
import subprocess
import sys
import threading
import unittest
from typing import Any, Dict, List, Tuple

import narthexmace

from . import arrow, model

try:
    import pandas
except ImportError:
    pandas = None

SEED = int(os.environ.get("NARTHEXMACE_SEED", "1"))
CASES = 100
LEAST, MOST = -(2**63), 2**63 - 1
#: The formats that each type comes in, and for a number what it may be.
SPANS = {
    "c": (-128, 127), "C": (0, 255), "s": (-(2**15), 2**15 - 1), "S": (0, 2**16 - 1), "i": (-(2**31), 2**31 - 1),
    "I": (0, 2**32 - 1), "l": (LEAST, MOST), "L": (0, MOST), "tdD": (-(2**31), 2**31 - 1), "tsu:UTC": (LEAST, MOST),
    "ttn": (0, 86_400 * 10**9), "tDm": (LEAST, MOST), "d:19,4": (LEAST, MOST),
}  # fmt: skip
FORMATS = {"int": list(SPANS), "text": ["u", "U", "vu"], "bool": ["b"]}
LETTERS = 'abzé€𐍈 ,"\n\0'


class Drawn:
    """Columns that are drawn, and rows of them."""

    def __init__(self, draw: random.Random) -> None:
        self.draw = draw
        self.keys = draw.choice([1, 1, 2])
        self.types = [draw.choice(["int", "text"]) for _ in range(self.keys)]
        self.types += [draw.choice(["int", "text", "bool"]) for _ in range(draw.randrange(4))]
        self.names = [f"c{place}" for place in range(len(self.types))]
        self.formats = [draw.choice(FORMATS[type_]) for type_ in self.types]

    def cell(self, place: int) -> Any:
        if self.types[place] == "bool":
            return self.draw.random() < 0.5
        if self.types[place] == "text":
            most = 2 if place < self.keys else self.draw.choice([0, 5, 13, 40])
            return "".join(self.draw.choice(LETTERS) for _ in range(self.draw.randrange(most + 1)))
        low, high = SPANS[self.formats[place]]
        if place < self.keys:
            return self.draw.randrange(max(low, -300), min(high, 300))
        return self.draw.choice([low, high, self.draw.randint(low, high)])

    def row(self) -> Tuple[Any, ...]:
        return tuple(self.cell(place) for place in range(len(self.types)))

    def rows(self, most: int) -> List[Tuple[Any, ...]]:
        """Rows of different keys, in no order."""
        rows = {row[: self.keys]: row for row in (self.row() for _ in range(self.draw.randrange(most)))}
        listed = list(rows.values())
        self.draw.shuffle(listed)
        return listed

    def producer(self, rows: List[Tuple[Any, ...]], places: List[int]) -> arrow.Producer:
        """A stream of such columns of these rows, in batches that are drawn, some of which are slices."""
        columns = []
        for place in places:
            by_index = self.types[place] == "text" and self.draw.random() < 0.3
            columns.append(arrow.Column(self.names[place], self.formats[place], self.draw.choice("sSiIlL") if by_index else None))
        batches, left = [], [[row[place] for place in places] for row in rows]
        while left or self.draw.random() < 0.2:
            size = self.draw.choice([0, 1, 7, 64, len(left)])
            batches.append(left[:size])
            left = left[size:]
        offsets = self.draw.choice([0, 0, 1, 9]), self.draw.choice([0, 0, 3, 8])
        return arrow.Producer(columns, batches, offsets, has_bits=self.draw.random() < 0.5)

    def places(self) -> List[int]:
        places = list(range(len(self.types)))
        self.draw.shuffle(places)
        return places


class Streams(unittest.TestCase):
    def opened(self, drawn: Drawn, rows: List[Tuple[Any, ...]]) -> narthexmace.Table:
        producer = drawn.producer(rows, list(range(len(drawn.types))))
        table = narthexmace.open(producer, key=drawn.names[: drawn.keys])
        self.addCleanup(table._handle.end)
        self.assertEqual(producer.live, 0)
        self.assertEqual([(c.name, c.type, c.key) for c in table.columns],
                         [(n, t, p < drawn.keys) for p, (n, t) in enumerate(zip(drawn.names, drawn.types))])  # fmt: skip
        for column in table.declared:  # the model knows ints alone
            table.declare(column, None)
        return table

    def applied(self, drawn: Drawn, txn: Any, client: model.Client, what: str) -> None:
        """Applies drawn rows, by a stream or as columns, to a transaction and to the model."""
        rows = drawn.rows(30)
        if what == "insert_many" and drawn.draw.random() < 0.8:
            rows = [row for row in rows if row[: drawn.keys] not in client.rows]
        if what == "delete_many":
            there = [row for row in client.rows.values()]
            rows = drawn.draw.sample(there, drawn.draw.randrange(min(len(there), 9) + 1))
            if drawn.draw.random() < 0.2:
                rows.append(drawn.row())
            if len({row[: drawn.keys] for row in rows}) < len(rows):
                rows.pop()
        saved, due = client.saved(), "Done"
        for place, row in enumerate(rows):
            key = row[: drawn.keys]
            if what == "delete_many":
                due = client.delete(key)
            elif what == "insert_many" or key not in client.rows:
                due = client.insert(row)
            else:
                for column in range(drawn.keys, len(row)):
                    client.set(key, column, row[column])
            if due != "Done":
                client.go_back(saved)
                break
        places = drawn.places()
        if what == "delete_many" and drawn.draw.random() < 0.5:
            places = [place for place in places if place < drawn.keys]
        given: Any = drawn.producer(rows, places)
        if drawn.draw.random() < 0.4:
            given = {drawn.names[at]: [row[at] for row in rows] for at in places}
        if due == "Done":
            self.assertEqual(getattr(txn, what)(given), len(rows))
        else:
            with self.assertRaises(getattr(narthexmace, due)) as caught:
                getattr(txn, what)(given)
            self.assertEqual(caught.exception.row, place)
        if isinstance(given, arrow.Producer):
            self.assertEqual(given.live, 0)

    def case(self, seed: int) -> None:
        draw = random.Random(seed)
        drawn = Drawn(draw)
        rows = drawn.rows(draw.choice([1, 40, 200, 3000]))
        store = self.opened(drawn, rows)
        table = model.Table(rows, drawn.keys, 2**31 - 1, 65536, False)
        self.assertEqual(arrow.rows_of(store), table.image())
        for _ in range(draw.randrange(3)):
            txn, client = store.begin(), table.begin()
            for _ in range(draw.randrange(5)):
                self.applied(drawn, txn, client, draw.choice(["insert_many", "upsert_many", "delete_many"]))
            self.assertEqual(arrow.rows_of(txn), client.image())
            if draw.random() < 0.3:
                txn.abort()
            else:
                self.assertEqual(txn.commit(), client.commit()[1])
            if draw.random() < 0.3:
                store.fold()
        with store.pin() as pin:
            image = table.image()
            self.assertEqual(arrow.rows_of(pin), image)
            start, stop = sorted(draw.randrange(len(image) + 3) for _ in range(2))
            places = draw.sample(range(len(drawn.types)), draw.randrange(1, len(drawn.types) + 1))
            some = pin.arrow([drawn.names[place] for place in places], start, stop, batch=draw.choice([1, 7, 64, 10**9]))
            wanted = [tuple(row[place] for place in places) for row in image]
            self.assertEqual(arrow.rows_of(some), wanted[start:stop])
            low, high = sorted((drawn.row()[: drawn.keys] for _ in range(2)), key=model.order)
            ours = [row for row in image if model.order(low) <= model.order(row[: drawn.keys]) < model.order(high)]
            self.assertEqual(arrow.rows_of(pin.arrow(keys=(low, high))), ours)
            below = [row for row in image if model.order(row[: drawn.keys]) < model.order(high)]
            self.assertEqual(arrow.rows_of(pin.arrow(keys=(None, high))), below)
            again = narthexmace.open(pin, key=drawn.names[: drawn.keys])
            self.assertEqual(arrow.rows_of(again), image)
            again.close()
        store.close()

    def test_drawn_nulls_are_told(self) -> None:
        for seed in range(SEED, SEED + CASES):
            drawn = Drawn(random.Random(seed))
            rows = drawn.rows(100) or [drawn.row()]
            places = drawn.places()
            producer = drawn.producer(rows, places)
            producer.has_bits = True
            none = [at for at, place in enumerate(places) if place < drawn.keys or drawn.types[place] != "int"]
            producer.null_at = drawn.draw.randrange(len(rows)), drawn.draw.choice(none)
            with self.subTest(seed=seed), self.assertRaises(narthexmace.TypeMismatch) as caught:
                narthexmace.open(producer, key=drawn.names[: drawn.keys])
            fault = caught.exception
            self.assertEqual(((fault.row, fault.column), producer.live), (producer.null_at, 0))
            name = producer.columns[producer.null_at[1]].name
            self.assertTrue(str(fault).endswith(f'column "{name}": a null isn\'t allowed'))

    def test_drawn_streams_are_the_models_rows(self) -> None:
        for seed in range(SEED, SEED + CASES):
            with self.subTest(seed=seed):
                self.case(seed)


class Formats(unittest.TestCase):
    def setUp(self) -> None:
        self.table = narthexmace.open(
            {"id": [LEAST, -1, 0, 1, MOST], "d": [-1, 0, 20_000, 2**31 - 1, -(2**31)], "t": ["", "é", "x", "y" * 13, "z"]}, key="id"
        )
        self.addCleanup(self.table._handle.end)

    def test_formats_that_are_asked_for(self) -> None:
        for format_ in ("l", "tss:", "tsm:UTC", "tsu:Europe/Berlin", "tsn:", "tdm", "ttu", "ttn", "tDs", "tDm", "tDu", "tDn", "d:19,0",
                        "d:38,-3"):  # fmt: skip
            scan = self.table.arrow(["id"], as_types={"id": format_})
            self.assertEqual(arrow.consumed(scan).fields, [("id", format_, 0)])
            self.assertEqual(arrow.rows_of(scan), [(LEAST,), (-1,), (0,), (1,), (MOST,)])
        for format_ in ("i", "tdD", "tts", "ttm", "d:10,1"):
            self.assertEqual(
                arrow.rows_of(self.table.arrow(["d"], as_types={"d": format_}))[2:], [(20_000,), (2**31 - 1,), (-(2**31),)]
            )
            with self.assertRaises(arrow.WritesFailed) as caught:
                arrow.rows_of(self.table.arrow(["id"], as_types={"id": format_}))
            self.assertIn("row 0, column id: -9223372036854775808 goes out as no " + format_, str(caught.exception))
        nullable = self.table.arrow(["id"], as_types={"id": "?l"})
        self.assertEqual(arrow.consumed(nullable).fields, [("id", "l", 2)])
        self.assertEqual(arrow.rows_of(nullable), [(None,), (-1,), (0,), (1,), (MOST,)])
        self.assertEqual(arrow.rows_of(self.table.arrow(["t"], as_types={"t": "u"})), [("",), ("é",), ("x",), ("y" * 13,), ("z",)])

    def test_what_is_no_format(self) -> None:
        for columns in ({"id": "tdX"}, {"id": "u"}, {"t": "l"}, {"t": "?U"}, {"id": "d:39,2"}, {"id": "tsx:"}, {"id": "L"}, {"nope": "l"}):
            with self.assertRaises(narthexmace.TypeMismatch):
                self.table.arrow(as_types=columns)
        for wrong in (dict(columns=["nope"]), dict(columns="id"), dict(columns=["id", "id"]), dict(start=-1), dict(batch=0),
                      dict(start=1, keys=(0, 1))):  # fmt: skip
            with self.assertRaises(narthexmace.TypeMismatch):
                self.table.arrow(**wrong)  # type: ignore[arg-type]

    def test_doubles_are_in_order_and_come_back(self) -> None:
        draw = random.Random(SEED)
        values = {float("-inf"), -1e308, -2.5, -1.0, -5e-324, 5e-324, 0.1, 1e308, float("inf")} | {draw.uniform(-9, 9) for _ in range(500)}
        doubles = sorted(values)
        zero = sum(value < 0 for value in doubles)
        doubles[zero:zero] = [-0.0, 0.0]
        doubles.append(float("nan"))
        shuffled = doubles[:]
        draw.shuffle(shuffled)
        producer = arrow.Producer([arrow.Column("x", "g"), arrow.Column("y", "f")], [[(x, 0.5) for x in shuffled]])
        with narthexmace.open(producer, key="x") as table:
            back = arrow.rows_of(table.arrow(as_types={"x": "g", "y": "g"}))
        self.assertEqual([struct.pack("d", x) for x, _ in back], [struct.pack("d", x) for x in doubles])
        self.assertEqual({y for _, y in back}, {0.5})

    def test_what_comes_in_goes_out_so(self) -> None:
        columns = [arrow.Column(*it) for it in (("id", "l"), ("x", "g"), ("y", "f"), ("day", "tdD"), ("at", "tsm:UTC"), ("d", "d:15,2"))]
        rows = [(1, 0.5, -0.25, 20_000, 7, 1250), (2, -1e300, 3.0, -1, -7, -5)]
        with narthexmace.open(arrow.Producer(columns, [rows]), key="id") as table:
            formats = {"x": "?g", "y": "?g", "day": "?tdD", "at": "?tsm:UTC", "d": "?d:15,2"}
            self.assertEqual((table.declared, arrow.rows_of(table)), (formats, rows))
            with table.begin() as txn:
                txn.upsert_many(arrow.Producer(columns, [[(3, 1.0, 2.0, 5, 6, 7)]]))
                columns[3].format = "tdm"
                with self.assertRaisesRegex(narthexmace.TypeMismatch, r'column "day" is declared as \?tdD, and comes in as tdm'):
                    txn.upsert_many(arrow.Producer(columns, [rows]))
            self.assertEqual(arrow.rows_of(table)[2], (3, 1.0, 2.0, 5, 6, 7))
            for column, format_ in (("id", "?l"), ("x", "u"), ("nope", "g")):
                with self.assertRaises(narthexmace.TypeMismatch):
                    table.declare(column, format_)

    def test_nulls_of_a_column_that_is_declared_with_them(self) -> None:
        with narthexmace.open("id:int:key,n:int\n1,5\n") as table:
            table.declare("n", "?g")
            rows = [(place, place / 4) for place in range(20)]
            producer = arrow.Producer([arrow.Column("id", "l"), arrow.Column("n", "g")], [rows], (3, 5), has_bits=True, null_at=(17, 1))
            with table.begin() as txn:
                self.assertEqual(txn.upsert_many(producer), 20)
            rows[17] = (17, None)
            consumer = arrow.consumed(table)
            self.assertEqual((consumer.fields, consumer.rows()), ([("id", "l", 0), ("n", "g", 2)], rows))
            consumer.close()
            with table.read() as snapshot:
                self.assertEqual(snapshot.get(17), (17, None))
            with narthexmace.open(table, key="id") as again:
                self.assertEqual((again.declared, arrow.rows_of(again)), ({"n": "?g"}, rows))

    def test_a_database_keeps_what_is_declared(self) -> None:
        import tempfile

        columns = [arrow.Column("id", "l"), arrow.Column("x", "g"), arrow.Column("day", "tdD")]
        rows = [(1, 0.5, 20_000), (2, -2.0, 3)]
        with tempfile.TemporaryDirectory() as folder:
            with narthexmace.connect(folder) as db:
                db.create("a", arrow.Producer(columns, [rows]), key="id")
                db.create("b", "id:int:key,n:int\n")
            self.assertEqual(sorted(name for name in os.listdir(folder) if name.startswith("types")), ["types-1"])
            with narthexmace.connect(folder) as db:
                self.assertEqual((db["a"].declared, db["b"].declared), ({"x": "?g", "day": "?tdD"}, {}))
                self.assertEqual(arrow.rows_of(db["a"]), rows)
                db["b"].declare("n", "?l")
                db["a"].declare("day", None)
            with narthexmace.connect(folder) as db:
                self.assertEqual((db["a"].declared, db["b"].declared), ({"x": "?g"}, {"n": "?l"}))
                db.drop("b")
            self.assertEqual(sorted(name for name in os.listdir(folder) if name.startswith("types")), ["types-1"])
            path = os.path.join(folder, "types-1")
            with open(path, "rb") as file:
                whole = file.read()
            for damaged in (whole[:-1], whole[1:], b"", b"end 00000000\n", bytes([whole[0] ^ 1]) + whole[1:]):
                with open(path, "wb") as file:
                    file.write(damaged)
                with self.assertRaises(narthexmace.Corrupt) as caught:
                    narthexmace.connect(folder)
                self.assertEqual(caught.exception.file, "types-1")
            os.remove(path)
            open(os.path.join(folder, "types-9"), "wb").close()  # of no table: it isn't the database's, and stays
            with narthexmace.connect(folder) as db:
                self.assertEqual((db["a"].declared, arrow.rows_of(db["a"].arrow(as_types={"x": "g"}))), ({}, rows))
            self.assertEqual([name for name in os.listdir(folder) if name.startswith("types")], ["types-9"])

    def test_what_is_requested(self) -> None:
        short = arrow.consumed(narthexmace.open({"t": ["x"], "id": [1]}, key="id").arrow(as_types={"t": "u"}))
        capsule = arrow._new(ctypes.addressof(short.schema), arrow.SCHEMA, None)
        consumer = arrow.consumed(self.table, capsule)
        self.assertEqual(consumer.fields, [("id", "l", 0), ("d", "l", 0), ("t", "u", 0)])
        consumer.close()
        short.close()

    def test_schemas(self) -> None:
        with self.table.begin() as txn, self.table.pin() as pin:
            for thing in (self.table, txn, pin, self.table.arrow(), txn.arrow()):
                capsule = thing.__arrow_c_schema__()
                schema = arrow.Schema.from_address(arrow.pointer_of(capsule, arrow.SCHEMA))
                self.assertEqual(arrow.fields_of(schema), [("id", "l", 0), ("d", "l", 0), ("t", "U", 0)])


class Memory(unittest.TestCase):
    def setUp(self) -> None:
        self.table = narthexmace.open({"id": list(range(5000)), "t": [f"n{i}" for i in range(5000)]}, key="id")
        self.addCleanup(self.table._handle.end)

    def open_transactions(self) -> int:
        return self.table.sizes().open_transactions

    def test_a_capsule_that_nobody_takes_is_released(self) -> None:
        capsule = self.table.__arrow_c_stream__()
        self.assertEqual(self.open_transactions(), 1)
        del capsule
        gc.collect()
        self.assertEqual((self.open_transactions(), self.table.counts().pins), (0, 0))

    def test_a_capsule_is_released_while_an_exception_is_on_its_way(self) -> None:
        for _ in range(3):
            with self.assertRaises(ZeroDivisionError):
                [self.table.__arrow_c_stream__(), self.table.__arrow_c_schema__(), 1 // 0]
            with self.assertRaises(TypeError):
                sorted([self.table.__arrow_c_stream__(), self.table.__arrow_c_stream__()])  # type: ignore[type-var]
        self.assertEqual(self.open_transactions(), 0)

    def test_a_capsule_outlives_the_interpreter(self) -> None:
        script = (
            "import narthexmace, sys; s = narthexmace.open('id:int:key\\n1\\n'); c = s.__arrow_c_stream__(); d = s.__arrow_c_schema__(); "
            "sys.kept = [c, d]; print('done')"
        )
        folder = os.path.dirname(os.path.dirname(narthexmace.__file__))
        done = subprocess.run([sys.executable, "-c", script], env={**os.environ, "PYTHONPATH": folder}, stdout=subprocess.PIPE)
        self.assertEqual((done.returncode, done.stdout.split()), (0, [b"done"]))

    def test_batches_outlive_all_else(self) -> None:
        pin = self.table.pin()
        consumer = arrow.consumed(pin)
        pin.close()
        with self.assertRaises(narthexmace.Misuse):
            self.table.close()
        batch = consumer.next()
        assert batch is not None
        consumer.close()
        self.table.close()
        self.assertEqual(consumer.cells(batch)[1][4999], "n4999")
        moved = arrow.Array()
        ctypes.memmove(ctypes.byref(moved), batch.children[0], ctypes.sizeof(moved))
        batch.children[0].contents.release = arrow.ENDS_ARRAY()
        batch.release(batch)
        self.assertEqual(arrow.cells_of("l", moved, 0, moved.length)[-1], 4999)
        moved.release(moved)

    def test_a_store_is_freed_with_the_last_stream_over_it(self) -> None:
        consumer = arrow.consumed(narthexmace.open({"id": [1, 2]}, key="id"))
        gc.collect()
        left = len(narthexmace._handles._left)
        self.assertGreaterEqual(left, 1)
        self.assertEqual(consumer.rows(), [(1,), (2,)])
        consumer.close()
        self.table.arrow()  # the next call that may free what is left
        self.assertLess(len(narthexmace._handles._left), left)

    def test_a_store_in_a_cycle_with_its_transaction_is_freed_once(self) -> None:
        for _ in range(20):
            table = narthexmace.open({"id": [1, 2]}, key="id")
            cycle: List[Any] = [table, table.begin(), table.pin()]
            table._handle.kept, cycle = cycle, []  # type: ignore[attr-defined]
            del table, cycle
            gc.collect()
        self.table.arrow()
        self.assertEqual(narthexmace._handles._left, [])

    def test_a_transactions_stream_is_of_its_moment(self) -> None:
        txn = self.table.begin()
        txn.insert((-1, "first"))
        consumer = arrow.consumed(txn)
        txn.delete(-1)
        txn.delete(0)
        txn.commit()
        self.table.close()
        rows = consumer.rows()
        consumer.close()
        self.assertEqual((len(rows), rows[:2]), (5001, [(-1, "first"), (0, "n0")]))

    def test_what_is_over(self) -> None:
        pin, txn = self.table.pin(), self.table.begin()
        scans = pin.arrow(), txn.arrow()
        pin.close()
        txn.abort()
        for thing in (*scans, pin, txn):
            with self.assertRaises(narthexmace.Misuse):
                thing.__arrow_c_stream__()
        with self.table.read() as snapshot, self.assertRaises(narthexmace.ReadOnly):
            snapshot.insert_many({"id": [1], "t": ["x"]})  # type: ignore[attr-defined]

    def test_threads_have_streams_of_one_pin(self) -> None:
        pin = self.table.pin()
        due, found, go = [(i, f"n{i}") for i in range(5000)], [], threading.Barrier(5)

        def reads() -> None:
            go.wait()
            for _ in range(5):
                found.append(arrow.rows_of(pin.arrow(batch=100)) == due)

        threads = [threading.Thread(target=reads) for _ in range(4)]
        for thread in threads:
            thread.start()
        go.wait()
        for number in range(30):
            with self.table.begin() as txn:
                txn.upsert_many({"id": range(number, number + 50), "t": ["other"] * 50})
                txn.delete_many({"id": [number + 100]})
        for thread in threads:
            thread.join()
        self.assertEqual(found, [True] * 20)
        pin.close()


class Refusals(unittest.TestCase):
    def refused(self, kind: type, columns: List[arrow.Column], rows: List[Any], row: Any, column: Any, said: str, **how: Any) -> None:
        producer = arrow.Producer(columns, [rows[:2], rows[2:]], **how)
        with self.assertRaises(kind) as caught:
            narthexmace.open(producer, key="id")
        self.assertEqual((caught.exception.row, caught.exception.column, producer.live), (row, column, 0))
        self.assertIn(said, str(caught.exception))

    def test_refusals_say_where(self) -> None:
        key, number = arrow.Column("id", "l"), arrow.Column("n", "L")
        rows = [(1, 1), (2, 2), (3, 2**63)]
        self.refused(narthexmace.TypeMismatch, [key, number], rows, 2, 1, 'column "n": the number is above 9,223,372,036,854,775,807')
        self.refused(narthexmace.Duplicate, [key], [(1,), (3,), (1,)], 2, 0, "the key id=1 is that of an earlier row")
        self.refused(narthexmace.DeviceFailed, [key], [(1,), (2,), (3,)], 2, 0, "made to fail", fails_at=1)
        self.refused(narthexmace.TypeMismatch, [key, arrow.Column("t", "u")], [(1, "a"), (2, "b"), (3, "x" * 4097)], 2, 1, "4,096")
        self.refused(narthexmace.BadTable, [arrow.Column("ID", "l")], [(1,)], 0, 0, 'there is no column "id"')
        with self.assertRaises(narthexmace.BadTable):
            narthexmace.open(arrow.Producer([key], []))
        with self.assertRaises(TypeError):
            narthexmace.open(arrow.Producer([key], []), key="id", types={"id": "int"})

    def test_rows_of_columns(self) -> None:
        with narthexmace.open("id:int:key,t:text\n1,a\n5,b\n") as table, table.begin() as txn:
            for columns, said in (
                ({"id": [2]}, 'column "t" of the table isn\'t there'),
                ({"id": [2], "t": ["x"], "z": [1]}, 'the table has no column "z"'),
                ({"id": [2, 3], "t": ["x"]}, "the columns have 1 and 2 cells"),
                ({"id": [2], "t": [7]}, "7 is not a text"),
            ):  # fmt: skip
                with self.assertRaisesRegex(narthexmace.TypeMismatch, said):
                    txn.insert_many(columns)
            with self.assertRaises(TypeError):
                txn.insert_many([(1, "x")])  # type: ignore[arg-type]
            with self.assertRaises(narthexmace.Missing) as caught:
                txn.delete_many({"id": [1, 4]})
            self.assertEqual((caught.exception.row, txn[:]), (1, [(1, "a"), (5, "b")]))
            self.assertEqual(txn.insert_many({"id": [], "t": []}), 0)

    def test_a_table_of_a_database(self) -> None:
        import tempfile

        with tempfile.TemporaryDirectory() as folder, narthexmace.connect(folder) as db:
            producer = arrow.Producer([arrow.Column("n", "i"), arrow.Column("id", "u")], [[(2, "b"), (1, "a")]])
            table = db.create("items", producer, key="id")
            self.assertEqual(arrow.rows_of(table), [("a", 1), ("b", 2)])
            with self.assertRaises(narthexmace.Exists):
                db.create("items", producer, key="id")
            with self.assertRaises(narthexmace.TypeMismatch):
                db.create("other", arrow.Producer([arrow.Column("id", "n")], []), key="id")
            with db.begin() as txn:
                txn["items"].insert_many({"id": ["c"], "n": [3]})
                self.assertEqual(arrow.rows_of(txn["items"]), [("a", 1), ("b", 2), ("c", 3)])
            with db.read() as tables:
                self.assertEqual(arrow.rows_of(tables["items"]), [("a", 1), ("b", 2), ("c", 3)])
            self.assertEqual((producer.live, list(db)), (0, ["items"]))

    def test_a_frame_with_a_stream(self) -> None:
        """A DataFrame that has both is read by its stream, where no types are named and its pandas can make one."""
        streams = arrow.Producer([arrow.Column("id", "i"), arrow.Column("x", "s")], [[(2, 5), (1, 15)]])

        class Frame(dict):  # type: ignore[type-arg]
            def __arrow_c_stream__(self, requested_schema: Any = None) -> Any:
                if not self["can"]:
                    raise ImportError("pyarrow")
                return streams.__arrow_c_stream__()

        for columns, types, due in (
            ({"can": [True]}, None, [(1, 15), (2, 5)]),
            ({"can": [True], "id": [7]}, {"can": "bool"}, [(7, True)]),
            ({"can": [], "id": []}, {"can": "bool", "id": "int"}, []),
        ):
            with narthexmace.open(Frame(columns), key="id", types=types) as table, table.read() as snapshot:
                self.assertEqual(snapshot[:], due)
        frame = Frame(can=[], id=[])
        with self.assertRaisesRegex(narthexmace.TypeMismatch, "types must name its type"):
            narthexmace.open(frame, key="id")
        self.assertEqual(streams.live, 0)

    def test_a_frame_of_pandas(self) -> None:
        if pandas is None:
            self.skipTest("pandas isn't there")
        frame = pandas.DataFrame({"id": [3, 1], "t": ["c", "a"], "b": [True, False]})
        with narthexmace.open(frame, key="id") as table, table.begin() as txn:
            txn.upsert_many(pandas.DataFrame({"t": ["z", "n"], "b": [False, True], "id": [3, 7]}))
            txn.delete_many(frame[frame.id == 1])
            self.assertEqual(txn[:], [(3, "z", False), (7, "n", True)])


class GDAL(unittest.TestCase):
    """A producer that isn't ours: GDAL's streams of a CSV file."""

    def test_a_stream_of_gdals(self) -> None:
        import ctypes.util
        import tempfile

        found = ctypes.util.find_library("gdal")
        if found is None:
            self.skipTest("GDAL isn't there")
        gdal = ctypes.CDLL(found)
        if not hasattr(gdal, "OGR_L_GetArrowStream"):
            self.skipTest("this GDAL has no streams")
        gdal.GDALOpenEx.restype = gdal.GDALDatasetGetLayer.restype = ctypes.c_void_p
        gdal.GDALDatasetGetLayer.argtypes = [ctypes.c_void_p, ctypes.c_int]
        gdal.OGR_L_GetArrowStream.argtypes = [ctypes.c_void_p, ctypes.c_void_p, ctypes.c_void_p]
        gdal.OGR_L_GetArrowStream.restype = ctypes.c_bool
        gdal.GDALClose.argtypes = [ctypes.c_void_p]
        gdal.GDALAllRegister()
        rows = [(i * 3, "näme" * (i % 5) + str(i), (-1) ** i * i * 10**11, i % 2 == 1) for i in range(20_000)]
        with tempfile.TemporaryDirectory() as folder:
            path = os.path.join(folder, "g.csv")
            with open(path, "w") as file:
                file.write("id,name,qty,ok\n" + "".join(f"{i},{n},{q},{int(k)}\n" for i, n, q, k in rows))
            with open(path + "t", "w") as file:
                file.write('"Integer","String","Integer64","Integer(Boolean)"\n')
            source = gdal.GDALOpenEx(path.encode(), 4, None, None, None)
            layer = gdal.GDALDatasetGetLayer(source, 0)
            options = (ctypes.c_char_p * 2)(b"INCLUDE_FID=NO", None)

            class Source:
                def __arrow_c_stream__(self, requested_schema: Any = None) -> Any:
                    stream = kept.setdefault("stream", arrow.Stream())
                    assert gdal.OGR_L_GetArrowStream(layer, ctypes.byref(stream), options)
                    return arrow._new(ctypes.addressof(stream), arrow.STREAM, None)

            kept: Dict[str, Any] = {}
            with narthexmace.open(Source(), key="id") as table:
                self.assertFalse(kept["stream"].release)
                self.assertEqual(arrow.rows_of(table), rows)
            gdal.GDALClose(source)


if __name__ == "__main__":
    unittest.main()
