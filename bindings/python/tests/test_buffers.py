"""What scans and spans hand out: whose memory it is, how long it stays, and what numpy and pandas make of it."""
import gc
import unittest
from array import array
from typing import Any, Callable, List
from unittest import mock

import narthexmace

try:
    import numpy
except ImportError:
    numpy = None
try:
    import pandas
except ImportError:
    pandas = None

ROWS = 10_000


def rows() -> List[tuple]:
    return [(i, f"n{i}" if i % 3 else f"é{i}", i * 7919 % 1000 - 500, i % 5 == 0) for i in range(ROWS)]


class Long(unittest.TestCase):
    """Comparisons of long lists."""

    def same(self, got: Any, due: Any) -> None:
        """Two long lists are equal, or the first place is told: unittest would take long to compare their lines."""
        apart = [place for place, (one, other) in enumerate(zip(got, due)) if one != other]
        self.assertEqual((len(got), apart[:1]), (len(due), []))


class Case(Long):
    """A table of 10,000 rows, and a transaction that has changed some of them."""

    def setUp(self) -> None:
        listed = rows()
        columns = {name: [row[place] for row in listed] for place, name in enumerate(["id", "name", "qty", "new"])}
        self.table = narthexmace.open(columns, key="id")
        self.addCleanup(self.table._handle.end)
        self.txn = self.table.begin()
        self.addCleanup(self.txn.abort)
        for key in range(0, ROWS, 100):
            self.txn.set(key, "qty", key)
        self.txn.delete(5)
        self.txn.insert((-1, "first", 1, False))
        changed = {row[0]: row if row[0] % 100 else (*row[:2], row[0], row[3]) for row in listed if row[0] != 5}
        self.rows = [(-1, "first", 1, False), *changed.values()]
        self.qty = [row[2] for row in self.rows]


class Openings(Long):
    def image(self, columns: dict, key: Any) -> List[tuple]:
        with narthexmace.open(columns, key=key) as table, table.read() as snapshot:
            return snapshot[:]

    def test_columns_from_where_they_lie(self) -> None:
        ids, booleans = array("q", range(ROWS)), memoryview(bytearray(i % 2 for i in range(ROWS))).cast("?")
        wanted = [(i, f"é{i}", i % 2 == 1) for i in range(ROWS)]
        names = [row[1] for row in wanted]
        for id_ in (ids, memoryview(ids), memoryview(bytes(ids)).cast("q"), list(ids), range(ROWS)):
            self.same(self.image({"id": id_, "name": names, "new": booleans}, "id"), wanted)
        self.assertEqual(self.image({"new": booleans, "name": names, "id": ids}, ["id", "new"])[1], (1, True, "é1"))
        self.assertEqual(ids.tolist(), list(range(ROWS)))
        ids.append(0)  # nothing lends it any more

    def test_rows_in_any_order(self) -> None:
        numbers = array("q", [3, 1, 2])
        self.assertEqual(self.image({"id": numbers, "n": ["c", "a", "b"]}, "id"), [(1, "a"), (2, "b"), (3, "c")])
        self.assertEqual(self.image({"id": memoryview(numbers)[::-1]}, "id"), [(1,), (2,), (3,)])
        with self.assertRaises(narthexmace.BadTable):
            narthexmace.open({"id": array("q", [1, 1])}, key="id")
        with self.assertRaises(narthexmace.TooManyRows):
            narthexmace.open({"id": array("q", [1, 2])}, key="id", row_limit=1)


class Scans(Case):
    def test_columns_as_buffers(self) -> None:
        batches = list(self.txn.scan(batch=3000))
        places = [(batch.start, len(batch)) for batch in batches]
        self.assertEqual(places, [(0, 3000), (3000, 3000), (6000, 3000), (9000, 1000)])
        self.assertEqual(batches[0].columns, ("id", "name", "qty", "new"))
        self.same([row for batch in batches for row in batch.rows()], self.rows)
        formats = [(batches[0][it].format, batches[0][it].itemsize) for it in ("qty", "new")]
        self.assertEqual(formats, [("q", 8), ("?", 1)])
        self.same(batches[1]["new"].tolist(), [row[3] for row in self.rows[3000:6000]])

    def test_texts_as_bytes_and_offsets(self) -> None:
        texts = next(self.txn.scan(["name"]))["name"]
        names = [row[1] for row in self.rows]
        self.same([*texts, *texts.tolist()], [*names, *names])
        self.assertEqual((texts[-1], texts[2:9:3]), (names[-1], names[2:9:3]))
        self.assertEqual(bytes(texts.data), "".join(names).encode())
        self.assertEqual(texts.offsets[:3].tolist(), [0, 5, 5 + len("é0".encode())])
        self.assertEqual(len(texts.offsets), len(names) + 1)
        for index in (len(names), -len(names) - 1):
            with self.assertRaises(IndexError):
                texts[index]

    def test_texts_that_fill_the_room(self) -> None:
        long = ["x" * 4096, "", "é" * 2048, "z"] * 20
        with narthexmace.open({"id": range(80), "t": long}, key="id") as table, table.begin() as txn:
            self.assertEqual(list(next(txn.scan(["t"]))["t"]), long)
            self.assertEqual([row[1] for row in txn], long)
            self.assertEqual(txn[2], (2, long[2]))

    def test_texts_lie_in_many_places(self) -> None:
        # blocks of 1,024 rows, and between their texts those of rows that were set, inserted and deleted
        names = [row[1] for row in self.rows]
        for key in (3, 1024, 2047, 2048, 8191, 8192, 8193):
            for text in ("", "changed", "é" * 2048):
                self.txn.set(key, "name", text)
                names[next(place for place, row in enumerate(self.rows) if row[0] == key)] = text
                self.same(next(self.txn.scan(["name"]))["name"].tolist(), names)
        self.compare_parts(names)

    def test_texts_of_which_many_were_changed(self) -> None:
        names = [row[1] for row in self.rows]
        for place in (*range(2000, 4000, 3), *range(4000, 6000, 17)):
            names[place] = "é" * (place % 40)
            self.txn.set(self.rows[place][0], "name", names[place])
        self.compare_parts(names)

    def compare_parts(self, names: List[str]) -> None:
        ends = [(0, 1), (1000, 1100), (1023, 1025), (2040, 9000), (8190, 8200), (ROWS - 1, ROWS), (0, ROWS)]
        for start, stop in ends:
            texts = next(self.txn.scan(["name"], start, stop))["name"]
            self.same(texts.tolist(), names[start:stop])
            self.assertEqual(bytes(texts.data), "".join(names[start:stop]).encode())

    def test_truths_of_every_length(self) -> None:
        booleans = [row[3] for row in self.rows]
        for start, stop in ((0, 1), (0, 8191), (0, 8192), (0, 8193), (5, ROWS), (ROWS - 1, ROWS)):
            cells = next(self.txn.scan(["new"], start, stop))["new"]
            self.same(cells.tolist(), booleans[start:stop])
            self.assertEqual(cells.nbytes, stop - start)

    def test_a_batch_outlives_its_transaction(self) -> None:
        batch = next(self.txn.scan(["qty"]))
        self.txn.delete(0)
        self.txn.abort()
        self.table.close()
        self.same(batch["qty"].tolist(), self.qty)

    def test_no_columns_and_no_rows(self) -> None:
        self.assertEqual(list(self.txn.scan(["qty"], 20, 20)), [])
        self.assertEqual(list(self.txn.scan(["qty"], ROWS + 5)), [])
        self.assertEqual(next(self.txn.scan([], 0, 2)).rows(), [(), ()])


class Lending(Case):
    def test_the_numbers_where_they_lie(self) -> None:
        spans = self.txn.int_spans("qty")
        self.same([number for span in spans for number in span], self.qty)
        self.same(spans.copy().tolist(), self.qty)
        self.assertEqual({(span.format, span.itemsize) for span in spans}, {("q", 8)})
        self.assertEqual(self.txn.int_spans("qty", 3, 150).copy().tolist(), self.qty[3:150])
        self.assertEqual(len(self.txn.int_spans("qty", 7, 7)), 0)

    def test_no_number_of_a_stable_run_is_copied(self) -> None:
        with self.table.read() as snapshot:
            views = [snapshot.int_spans("qty", 5001, 5090)[0], self.txn.int_spans("qty", 5001, 5090)[0]]
            self.assertEqual(address(views[0]), address(views[1]))  # both read one block

    def test_nobody_writes_through_a_piece(self) -> None:
        # a run that lies in the stable table, and numbers that came by value
        for spans in (self.txn.int_spans("qty", 5001, 5090), self.txn.int_spans("qty", 100, 102), self.txn.int_spans("id")):
            for span in spans:
                self.assertTrue(span.readonly)
                for view in (span, span[:1], memoryview(span), span.cast("B")):
                    with self.assertRaises(TypeError):
                        view[0] = 7
        with self.table.read() as snapshot:
            self.assertEqual(snapshot[5001], rows()[5001])

    def test_pieces_of_two_columns_are_read_beside_each_other(self) -> None:
        ids, quantities = self.txn.int_spans("id", 4000, 6000), self.txn.int_spans("qty", 4000, 6000)
        pairs = zip((it for span in ids for it in span), (it for span in quantities for it in span))
        self.same(list(pairs), [(row[0], row[2]) for row in self.rows[4000:6000]])

    def test_reads_leave_the_views_alone(self) -> None:
        span = self.txn.int_spans("qty")[3]
        numbers = span.tolist()
        for read in (
            lambda: len(self.txn), lambda: self.txn.get(7), lambda: self.txn.rank(7), lambda: self.txn[7],
            lambda: self.txn[7:9], lambda: list(self.txn), lambda: list(self.txn.scan()), lambda: 7 in self.txn,
            lambda: self.txn.int_spans("id").copy(), lambda: list(self.txn.layer()),
        ):  # fmt: skip
            read()
            self.same(span.tolist(), numbers)

    def test_each_write_and_each_end_takes_the_views_back(self) -> None:
        ends: List[Callable[[narthexmace.Transaction], Any]] = [
            lambda txn: txn.insert((-7, "x", 0, True)),
            lambda txn: txn.delete(7),
            lambda txn: txn.set(7, "qty", 0),
            narthexmace.Transaction.commit,
            narthexmace.Transaction.abort,
        ]
        for end in ends:
            txn = self.table.begin()
            spans = [*txn.int_spans("qty"), *txn.int_spans("id")]
            end(txn)
            for span in spans:
                with self.assertRaises(ValueError):
                    span[0]
            txn.abort()

    def test_what_a_snapshot_lends_stays_until_its_end(self) -> None:
        with self.table.read() as table:
            span = table.int_spans("qty", 5001, 5090)[0]
            self.table.fold()
            with self.table.begin() as txn:
                txn.set(5001, "qty", 7)
            self.assertEqual(span[0], rows()[5001][2])
        with self.assertRaises(ValueError):
            span[0]

    def test_a_view_that_is_in_use_is_named(self) -> None:
        part = self.txn.int_spans("qty", 5001, 5090)[0][:2]
        writes: List[Callable[[], Any]] = [
            self.txn.commit, lambda: self.txn.delete(1), lambda: self.txn.insert((-7, "x", 0, True)),
            lambda: self.txn.set(7, "qty", 0),
        ]  # fmt: skip
        for call in writes:
            with self.assertRaises(narthexmace.Borrowed) as caught:
                call()
            self.assertIsInstance(caught.exception, BufferError)
        self.same(self.txn[:], self.rows)
        self.assertEqual(part.tolist(), self.qty[5001:5003])
        del part
        self.txn.delete(1)

    def test_memory_stays_while_an_array_reads_it(self) -> None:
        part = self.txn.int_spans("qty", 5001, 5090)[0][:2]
        self.txn.abort()
        with self.assertRaises(narthexmace.Misuse):
            len(self.txn)
        self.assertEqual(self.table.sizes().open_transactions, 1)
        self.assertEqual(part.tolist(), self.qty[5001:5003])
        del part
        self.assertEqual(self.table.sizes().open_transactions, 0)

    def test_an_abort_takes_the_views_back(self) -> None:
        span = self.txn.int_spans("qty", 5001, 5090)[0]
        self.txn.abort()
        with self.assertRaises(ValueError):
            span[0]
        self.assertEqual(self.table.sizes().open_transactions, 0)

    def test_a_view_keeps_its_transaction(self) -> None:
        span = self.table.begin().int_spans("qty", 5001, 5090)[0]
        gc.collect()
        self.assertEqual(span.tolist(), [row[2] for row in rows()[5001:5090]][: len(span)])
        self.assertEqual(self.table.sizes().open_transactions, 2)
        del span
        self.assertEqual(self.table.sizes().open_transactions, 1)

    def test_with_ends_what_is_lent(self) -> None:
        with self.assertRaises(narthexmace.Borrowed), self.table.begin() as txn:
            txn.delete(1)
            part = txn.int_spans("qty")[0][:]
        self.assertFalse(txn.is_open)
        del part
        self.assertEqual(self.table.sizes().open_transactions, 1)
        self.assertEqual(self.table.sizes().commits, 0)


def address(view: memoryview) -> int:
    """Where the memory of a view lies, by the object under it."""
    import ctypes

    return ctypes.addressof(ctypes.c_char.from_buffer(view.obj))


@unittest.skipUnless(numpy, "numpy isn't there")
class Numpy(Case):
    def test_sums_without_a_copy(self) -> None:
        total = 0
        for batch in self.txn.scan(["qty", "new"], batch=3000):
            numbers = numpy.frombuffer(batch["qty"], dtype=numpy.int64)
            self.assertEqual(numbers.__array_interface__["data"][0], address(batch["qty"]))
            total += int(numbers.sum())
            self.assertEqual(numpy.asarray(batch["new"]).dtype, numpy.bool_)
        self.assertEqual(total, sum(self.qty))
        spans = self.txn.int_spans("qty")
        self.assertEqual(sum(int(numpy.frombuffer(span, numpy.int64).sum()) for span in spans), sum(self.qty))

    def test_no_array_writes_into_the_table(self) -> None:
        array = numpy.asarray(self.txn.int_spans("qty", 5001, 5090)[0])
        with self.assertRaises(ValueError):
            array += 1
        with self.assertRaises(ValueError):
            array.flags.writeable = True
        with self.table.read() as snapshot:
            self.assertEqual(snapshot[5001], rows()[5001])

    def test_texts_as_an_array(self) -> None:
        names = [row[1] for row in self.rows]
        array = numpy.asarray(next(self.txn.scan(["name"]))["name"])
        self.assertEqual(array.dtype, numpy.dtype(object))
        self.same(array.tolist(), names)
        ends = ["", "\0", "a\0", "é\0"]  # numpy's own texts would lose what stands at the end
        with narthexmace.open({"t": ends}, key="t") as table, table.read() as snapshot:
            self.assertEqual(numpy.asarray(next(snapshot.scan())["t"]).tolist(), sorted(ends))
            self.assertEqual(numpy.array(next(snapshot.scan())["t"], "U3").dtype, numpy.dtype("U3"))

    def test_an_array_over_a_piece_is_noticed(self) -> None:
        numbers = numpy.frombuffer(self.txn.int_spans("qty", 5001, 5090)[0], numpy.int64)
        with self.assertRaises(narthexmace.Borrowed):
            self.txn.delete(1)
        self.assertEqual(numbers.tolist(), self.qty[5001 : 5001 + len(numbers)])
        del numbers
        self.txn.delete(1)

    def test_numbers_of_numpy_as_positions(self) -> None:
        two, nine = numpy.int64(2), numpy.uint8(9)
        self.assertEqual((self.txn[two], self.txn[two:nine]), (self.rows[2], self.rows[2:9]))
        self.assertEqual(next(self.txn.scan(["qty"], two, nine, batch=nine))["qty"].tolist(), self.qty[2:9])
        self.assertEqual(self.txn.int_spans("qty", two, nine).copy().tolist(), self.qty[2:9])

    def test_arrays_as_columns(self) -> None:
        columns = {"id": numpy.arange(3), "new": numpy.array([True, False, True]), "n": numpy.int32([1, 2, 3])}
        with narthexmace.open(columns, key="id") as table, table.begin() as txn:
            txn.set(numpy.int64(1), "n", numpy.int32(7))
            txn.set(1, "new", numpy.bool_(True))
            self.assertEqual(txn[:2], [(0, True, 1), (1, True, 7)])
            self.assertEqual([column.type for column in table.columns], ["int", "bool", "int"])
        for column in (numpy.int64(3), numpy.zeros((2, 2), int), numpy.arange(2.0), numpy.array(["x"], "S")):
            with self.assertRaises(narthexmace.TypeMismatch):
                narthexmace.open({"id": column}, key="id")
        with self.assertRaises(narthexmace.TypeMismatch):
            narthexmace.open({"id": numpy.array([2**63], numpy.uint64)}, key="id")

    def test_dates_and_times_are_no_ints(self) -> None:
        for kind in ("timedelta64[ns]", "timedelta64[s]", "datetime64[ns]", "datetime64[D]"):
            times = numpy.array([1, 2], kind)
            for column in (times, list(times), times[::-1]):
                with self.assertRaisesRegex(narthexmace.TypeMismatch, "types declare"):
                    narthexmace.open({"id": column}, key="id")
                with self.assertRaises(narthexmace.TypeMismatch):
                    narthexmace.open({"id": column}, key="id", types={"id": "int"})
            for call in (lambda: self.txn.set(1, "qty", times[0]), lambda: self.txn.get(times[0])):
                with self.assertRaises(narthexmace.TypeMismatch):
                    call()
        with self.assertRaisesRegex(narthexmace.TypeMismatch, "dates or times"):
            narthexmace.open({"id": numpy.array([1], "timedelta64[ns]")}, key="id")
        with self.assertRaisesRegex(narthexmace.TypeMismatch, "dates or times"):
            self.txn.set(1, "qty", numpy.timedelta64(5, "ns"))


class Pandas(Case):
    @unittest.skipUnless(pandas, "pandas isn't there")
    def test_a_frame(self) -> None:
        frame = self.txn.to_pandas()
        self.same(list(frame.itertuples(index=False, name=None)), self.rows)
        self.assertEqual([str(it) for it in frame.dtypes], ["int64", "object", "int64", "bool"])
        self.assertEqual(list(self.txn.to_pandas(["qty"]).columns), ["qty"])
        with narthexmace.open("id:int:key,name:text,new:bool\n") as table, table.begin() as txn:
            self.assertEqual([str(it) for it in txn.to_pandas().dtypes], ["int64", "object", "bool"])
            self.assertEqual(len(txn.to_pandas()), 0)

    @unittest.skipUnless(pandas, "pandas isn't there")
    def test_columns_go_to_pandas_by_their_buffers(self) -> None:
        given, series = [], pandas.Series

        def noted(cells: Any, **words: Any) -> Any:
            given.append(type(cells))
            return series(cells, **words)

        with mock.patch.object(pandas, "Series", noted):
            self.assertEqual(len(self.txn.to_pandas()), ROWS)
        self.assertEqual(given, [numpy.ndarray] * 4)

    @unittest.skipUnless(pandas, "pandas isn't there")
    def test_a_frame_is_a_table(self) -> None:
        frame = self.txn.to_pandas()
        for given in (frame, frame[::-1], frame.sample(frac=1, random_state=7), frame[["new", "name", "qty", "id"]]):
            with narthexmace.open(given, key="id") as table, table.read() as snapshot:
                names = [column.name for column in table.columns]
                due = [tuple(dict(zip(frame.columns, row))[name] for name in names) for row in self.rows]
                self.same(snapshot[:], due)
                self.assertEqual(names[0], "id")
        with narthexmace.open(frame.astype({"name": "string", "qty": "Int64"}), key=["id", "qty"]) as table:
            self.assertEqual([column.type for column in table.columns], ["int", "int", "text", "bool"])

    @unittest.skipUnless(pandas, "pandas isn't there")
    def test_a_frame_that_is_no_table(self) -> None:
        frame = pandas.DataFrame({"id": [1, 2], "at": pandas.to_datetime(["2026-01-01", "2026-01-02"])})
        for given, why in [
            (frame, "dates or times"),
            (pandas.DataFrame([[1, 2]], columns=["id", "id"]), 'two columns have the name "id"'),
            (pandas.DataFrame([[1, 2]], columns=["id", 5]), "no text"),
            (pandas.DataFrame({"id": [1, None]}), "not all ints"),
            (pandas.DataFrame({"id": [1.0, 2.0]}), "not all ints"),
        ]:
            with self.assertRaisesRegex(narthexmace.TypeMismatch, why):
                narthexmace.open(given, key="id")

    @unittest.skipIf(pandas, "pandas is there")
    def test_without_pandas(self) -> None:
        with self.assertRaises(ImportError):
            self.txn.to_pandas()


class Tables(unittest.TestCase):
    """Openings over columns, texts and files."""

    def rows_of(self, *arguments: Any, **words: Any) -> List[tuple]:
        with narthexmace.open(*arguments, **words) as table, table.read() as snapshot:
            return snapshot[:]

    def test_columns_that_need_quotes(self) -> None:
        texts = ["", " ", ",", '"', "a\nb", "\r", "\r\n", "\ufeff", "é", "\0", "#", "'"]
        due = [(text, place) for place, text in enumerate(texts)]
        due.sort(key=lambda row: row[0].encode())
        self.assertEqual(self.rows_of({"n": array("q", range(len(texts))), "t": texts}, key=["t"]), due)
        self.assertEqual(self.rows_of({"t": texts}, key="t"), [(text,) for text, _ in due])

    def test_names_and_the_order_of_the_key(self) -> None:
        columns = {'a, "b"': [1, 2], "\ufeffk": ["y", "x"], "z\n": [True, False]}
        with narthexmace.open(columns, key=["z\n", "\ufeffk"]) as table, table.begin() as txn:
            due = (("z\n", "bool", True), ("\ufeffk", "text", True), ('a, "b"', "int", False))
            self.assertEqual(table.columns, due)
            self.assertEqual(txn[:], [(False, "x", 2), (True, "y", 1)])
            self.assertEqual(txn.rank([True, "a"]), (1, False))

    def test_a_list_that_shrinks_while_it_is_read(self) -> None:
        cells: List[Any] = []

        class First:
            def __index__(self) -> int:
                del cells[1:]
                return 7

        class Shrinking:
            def tolist(self) -> List[Any]:
                return cells

        cells += [First(), 8, 9]
        self.assertEqual(self.rows_of({"id": Shrinking()}, key="id"), [(7,)])

    def test_no_rows(self) -> None:
        self.assertEqual(self.rows_of({"id": [], "t": []}, key="id", types={"id": "int", "t": "text"}), [])

    def test_a_text_a_path_and_bytes(self) -> None:
        import tempfile
        from pathlib import Path

        text = 'id:int:key,t:text\n2,é\n1,"a,b"\n'
        due = [(1, "a,b"), (2, "é")]
        with tempfile.TemporaryDirectory() as folder:
            path = Path(folder, "table.csv")
            path.write_bytes(text.encode())
            for table in (text, text.encode(), path, str(path)):
                self.assertEqual(self.rows_of(table), due)


if __name__ == "__main__":
    unittest.main()
