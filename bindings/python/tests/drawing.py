"""Calls on a transaction or a snapshot that are drawn: each answers what it got, and what the model says is due."""
import pickle
import random
import struct
from array import array
from typing import Any, Callable, Dict, List, Sequence, Tuple

import narthexmace

from . import arrow, model

try:
    import numpy
except ImportError:
    numpy = None
try:
    import pandas
except ImportError:
    pandas = None

LETTERS = "abzé€𐍈 ,;\"'\n\r\0"
Cell = Any
Row = Tuple[Cell, ...]
Pair = Tuple[Any, Any]
#: The calls that a snapshot has too, and how often each is drawn.
READS = {
    "get": 4, "contains": 3, "rank": 3, "at": 2, "length": 1, "slice": 2, "loop": 1, "scan": 2, "batch": 2, "texts": 2,
    "pieces": 2, "beside": 2, "numpy": 1, "pandas": 1, "arrow": 2, "looks": 1, "refused": 2,
}  # fmt: skip
WRITES = {
    "insert": 6, "delete": 5, "set": 8, "many": 3, "savepoint": 4, "layer": 2, "broken_scan": 1, "lent": 1, "refused_write": 1,
}  # fmt: skip


class Undone(Exception):
    """Leaves a block whose writes are undone."""


class Client:
    """An open transaction or snapshot, the model's, and the rows that it began over."""

    def __init__(self, txn: Any, same: model.Client) -> None:
        self.txn, self.model, self.version = txn, same, same.image()


class Calls:
    """The columns of a table, what is drawn of them, and the calls."""

    def __init__(self, draw: random.Random, raised: Callable[[BaseException], None]) -> None:
        self.draw, self.raised = draw, raised
        self.key_columns = draw.choice([1, 1, 2, 3])
        self.types = [draw.choice(["int", "text", "bool"]) for _ in range(self.key_columns)]
        if self.key_columns == 1:
            self.types = [draw.choice(["int", "int", "text"])]
        self.types += ["int", "text", "bool", draw.choice(["int", "text", "bool"])]
        self.names = [f"c{place}" for place in range(len(self.types))]
        self.span = draw.choice([4, 20, 3000])  # how many numbers a key may have

    # ---- what is drawn

    def chance(self, share: float) -> bool:
        return self.draw.random() < share

    def text(self, most: int) -> str:
        return "".join(self.draw.choice(LETTERS) for _ in range(self.draw.randrange(most + 1)))

    def cell(self, place: int) -> Cell:
        type_ = self.types[place]
        if type_ == "bool":
            return self.chance(0.5)
        if place < self.key_columns:
            return self.draw.randrange(-self.span, self.span) if type_ == "int" else self.text(2)
        if type_ == "int":
            return self.draw.choice([0, -(2**63), 2**63 - 1, self.draw.randrange(-(2**63), 2**63)])
        return "x" * 4096 if self.chance(0.002) else self.text(self.draw.choice([0, 3, 40]))

    def row(self) -> Row:
        return tuple(self.cell(place) for place in range(len(self.types)))

    def key(self, client: Client) -> Row:
        """A key: mostly one that is there."""
        if client.model.rows and self.chance(0.7):
            # of a few, so that the clients meet
            keys = client.model.keys()
            return self.draw.choice(keys[: self.draw.choice([3, len(keys)])])
        return self.row()[: self.key_columns]

    def given(self, key: Row) -> Any:
        """A key as a caller may give it: a cell, a list, a tuple, or with cells of numpy."""
        if numpy and self.chance(0.2):
            key = tuple(numpy.bool_(it) if isinstance(it, bool) else numpy.int64(it) if isinstance(it, int) else it
                        for it in key)  # fmt: skip
        return key[0] if len(key) == 1 and self.chance(0.5) else self.draw.choice([list, tuple])(key)

    def positions(self, client: Client) -> Tuple[int, int]:
        first, second = sorted(self.draw.randrange(len(client.model.rows) + 2) for _ in range(2))
        return first, second

    def column(self, type_: str) -> int:
        """A column of a type, which is none of the key's."""
        return self.types.index(type_, self.key_columns)

    def refuses(self, kind: type, call: Callable[[], Any]) -> bool:
        """Whether a call raises just this exception, which is counted."""
        try:
            call()
        except kind as fault:
            self.raised(fault)
            return type(fault) is kind
        return False

    # ---- writes

    def do_insert(self, client: Client) -> Pair:
        row = self.row()
        given: Any = dict(zip(self.names, row)) if self.chance(0.3) else self.draw.choice([list, tuple])(row)
        return self.reply(lambda: client.txn.insert(given)), client.model.insert(row)

    def do_delete(self, client: Client) -> Pair:
        key = self.key(client)
        return self.reply(lambda: client.txn.delete(self.given(key))), client.model.delete(key)

    def do_set(self, client: Client) -> Pair:
        key, place = self.key(client), self.draw.randrange(self.key_columns, len(self.types))
        cell = self.cell(place)
        got = self.reply(lambda: client.txn.set(self.given(key), self.names[place], cell))
        return got, client.model.set(key, place, cell)

    def do_many(self, client: Client) -> Pair:
        """Rows that are applied at once, all of them or none: as columns, or by a stream of Arrow's."""
        what = self.draw.choice(["insert_many", "upsert_many", "delete_many"])
        rows = [self.row() for _ in range(self.draw.randrange(6))]
        if what != "insert_many":
            rows = [(*self.key(client), *row[self.key_columns :]) for row in rows]
        saved, due = client.model.saved(), ("Done", len(rows))
        for place, row in enumerate(rows):
            reply = self.applied(client.model, what, row)
            if reply != "Done":
                client.model.go_back(saved)
                due = reply, place
                break
        places = self.draw.sample(range(len(self.types)), len(self.types))
        if what == "delete_many" and self.chance(0.5):
            places = [place for place in places if place < self.key_columns]
        given: Any = {self.names[place]: [row[place] for row in rows] for place in places}
        if self.chance(0.5):
            given = self.stream_of(rows, places)
            if self.chance(0.1) and due[0] == "Done":
                client.model.go_back(saved)
                given.fails_at, due = len(given.batches), ("DeviceFailed", len(rows))
        try:
            got = "Done", getattr(client.txn, what)(given)
        except (narthexmace.Duplicate, narthexmace.Missing, narthexmace.Full, narthexmace.DeviceFailed) as fault:
            self.raised(fault)
            got = type(fault).__name__, fault.row
        return (got, getattr(given, "live", 0)), (due, 0)

    def applied(self, client: model.Client, what: str, row: Row) -> str:
        """What the model answers to one of such rows."""
        key = row[: self.key_columns]
        if what == "delete_many":
            return client.delete(key)
        if what == "insert_many" or key not in client.rows:
            return client.insert(row)
        for place in range(self.key_columns, len(row)):
            client.set(key, place, row[place])
        return "Done"

    def stream_of(self, rows: Sequence[Row], places: Sequence[int]) -> arrow.Producer:
        """These columns of rows as a stream of Arrow's, in batches."""
        formats = {"int": ["l"], "text": ["u", "U", "vu"], "bool": ["b"]}
        columns = [arrow.Column(self.names[place], self.draw.choice(formats[self.types[place]])) for place in places]
        cells, size = [[row[place] for place in places] for row in rows], self.draw.choice([1, 2, 100])
        return arrow.Producer(columns, [cells[at : at + size] for at in range(0, len(cells), size)])

    def reply(self, call: Callable[[], None]) -> str:
        try:
            call()
            return "Done"
        except (narthexmace.Duplicate, narthexmace.Missing, narthexmace.Full) as fault:
            self.raised(fault)
            return type(fault).__name__

    def do_savepoint(self, client: Client) -> Pair:
        """A block of writes, in which other blocks may be; an exception leaves each second one."""
        saved, answers = client.model.saved(), []
        try:
            with client.txn.savepoint():
                for _ in range(self.draw.randrange(4)):
                    name = self.draw.choice(["insert", "insert", "delete", "set", "set", "savepoint"])
                    answers.append(getattr(self, f"do_{name}")(client))
                if self.chance(0.5):
                    raise Undone
        except Undone:
            client.model.go_back(saved)
        rows = client.model.image()
        answers.append((client.txn[:], rows) if len(rows) < 100 else (len(client.txn), len(rows)))
        return [got for got, _ in answers], [due for _, due in answers]

    def do_layer(self, client: Client) -> Pair:
        """The transaction's own entries, merged by their positions over the rows that it began on."""
        entries = list(client.txn.layer())
        image = self.merged(client.version, entries)
        return (image, {it.layer for it in entries} <= {"own"}), (client.model.image(), True)

    def merged(self, below: Sequence[Row], entries: Sequence[narthexmace.Entry]) -> List[Row]:
        """Rows with the entries of a layer over them, which says where each entry's row is then."""
        rows, above, passed, gone = list(below), [], 0, set()
        for entry in entries:
            above += [rows[sid] for sid in range(passed, entry.sid) if sid not in gone]
            passed = max(passed, entry.sid)
            assert entry.rid == len(above), entry
            if entry.kind == "insert":
                above.append(entry.values)
            elif entry.kind == "delete":
                assert entry.values == rows[entry.sid][: self.key_columns], entry
                gone.add(entry.sid)
            else:
                place = self.names.index(str(entry.column))
                rows[entry.sid] = (*rows[entry.sid][:place], *entry.values, *rows[entry.sid][place + 1 :])
        return above + [rows[sid] for sid in range(passed, len(rows)) if sid not in gone]

    def do_broken_scan(self, client: Client) -> Pair:
        """A write ends the scans and loops that go on."""
        scans = [client.txn.scan(batch=1), iter(client.txn)]
        there = [next(scan, None) is not None for scan in scans]
        got, due = self.do_set(client)
        if due != "Done" or len(client.model.rows) < 2:
            return (got, there), (due, [bool(client.model.rows)] * 2)
        refused = self.refuses(narthexmace.Misuse, lambda: next(scans[0]))
        return (got, refused), (due, True)

    def do_lent(self, client: Client) -> Pair:
        """While a view over a span is in use no write is done, and each writes where none is."""
        place, rows = self.column("int"), client.model.image()
        spans = client.txn.int_spans(self.names[place])
        if not rows:
            return len(spans), 0
        part = spans[0][:]
        writes = [
            lambda: client.txn.insert(self.row()),
            lambda: client.txn.delete(self.given(self.key(client))),
            lambda: client.txn.set(rows[0][: self.key_columns], self.names[place], 0),
            client.txn.commit,
        ]
        refused = [self.refuses(narthexmace.Borrowed, write) for write in writes]
        numbers = part.tolist()
        del part
        return (refused, numbers, client.txn[:]), ([True] * 4, [row[place] for row in rows][: len(numbers)], rows)

    def do_refused_write(self, client: Client) -> Pair:
        """Writes whose cells don't fit."""
        txn, row, key = client.txn, list(self.row()), self.key(client)
        place = self.draw.randrange(len(row))
        wrong = self.misfit(place)
        calls = [
            lambda: txn.insert(row[:-1]),
            lambda: txn.insert([*row, 1]),
            lambda: txn.insert([*row[:place], wrong, *row[place + 1 :]]),
            lambda: txn.insert({"no": 1}),
            lambda: txn.delete((*key, 1)),
            lambda: txn.set(key, self.names[0], row[0]),
            lambda: txn.set(key, "no", 1),
            lambda: txn.set(key, self.names[-1], self.misfit(len(self.types) - 1)),
        ]
        return [self.refuses(narthexmace.TypeMismatch, call) for call in calls], [True] * len(calls)

    def misfit(self, place: int) -> Any:
        """A value that is no cell of a column."""
        wrong: Dict[str, List[Any]] = {
            "int": [1.5, "1", True, None, 2**63, -(2**63) - 1],
            "text": [1, b"x", None, True, "x" * 4097, "\ud800"],
            "bool": [1, 0, "true", None],
        }
        if numpy:
            wrong["int"] += [numpy.timedelta64(5, "ns"), numpy.datetime64(5, "D"), numpy.float64(1), numpy.bool_(True)]
        return self.draw.choice(wrong[self.types[place]])

    # ---- reads

    def do_get(self, client: Client) -> Pair:
        key = self.key(client)
        if self.chance(0.5):
            return typed(client.txn.get(self.given(key))), typed(client.model.rows.get(key))
        return client.txn.get(self.given(key), default="none"), client.model.rows.get(key, "none")

    def do_contains(self, client: Client) -> Pair:
        """Keys that are there, keys that aren't, and keys whose cells are there apart."""
        keys = [self.key(client) for _ in range(3)]
        keys.append(tuple(self.draw.choice(keys)[place] for place in range(self.key_columns)))
        return [self.given(key) in client.txn for key in keys], [key in client.model.rows for key in keys]

    def do_rank(self, client: Client) -> Pair:
        key = self.key(client)
        rank = client.txn.rank(key=self.given(key))
        return (rank.below, rank.there), client.model.rank(key)

    def do_at(self, client: Client) -> Pair:
        place, image = self.draw.randrange(-3, len(client.model.rows) + 2), client.model.image()
        return at(client.txn, place), at(image, place)

    def do_length(self, client: Client) -> Pair:
        return len(client.txn), len(client.model.rows)

    def do_loop(self, client: Client) -> Pair:
        return list(client.txn), client.model.image()

    def do_slice(self, client: Client) -> Pair:
        places = slice(*self.positions(client), self.draw.choice([None, 1, 2]))
        if self.chance(0.2):
            places = slice(None, None, -1)
        return list(map(typed, client.txn[places])), list(map(typed, client.model.image()[places]))

    def scanned(self, client: Client) -> Tuple[List[int], int, int, List[narthexmace.Batch]]:
        """Some columns, two positions, and the batches between them."""
        start, stop = self.positions(client)
        places = self.draw.sample(range(len(self.types)), self.draw.randrange(1, len(self.types)))
        batch = self.draw.choice([1, 3, 1000, 65_536]) if stop - start < 100 else 1000
        names = [self.names[place] for place in places]
        if self.chance(0.8):
            return places, start, stop, list(client.txn.scan(names, start, stop, batch))
        stop = len(client.model.rows)
        if self.chance(0.5):
            return places, start, stop, list(client.txn.scan(names, start=start))
        return list(range(len(self.types))), 0, stop, list(client.txn.scan(batch=1000))

    def do_scan(self, client: Client) -> Pair:
        places, start, stop, batches = self.scanned(client)
        due = [tuple(row[place] for place in places) for row in client.model.image()[start:stop]]
        return [row for batch in batches for row in batch.rows()], due

    def do_batch(self, client: Client) -> Pair:
        """Each batch with its place, its columns and their buffers."""
        places, start, stop, batches = self.scanned(client)
        image, got, due = client.model.image()[start:stop], [], []
        for batch in batches:
            rows = image[batch.start - start : batch.start - start + len(batch)]
            got.append((batch.columns, len(batch) > 0, repr(batch)))
            names = tuple(self.names[place] for place in places)
            named = f"<Batch of the rows {batch.start} to {batch.start + len(rows)} of {', '.join(names)}>"
            due.append((names, True, named))
            for place in places:
                cells = batch[self.names[place]]
                got.append((cells.tolist(), getattr(cells, "format", None)))
                due.append(([row[place] for row in rows], {"int": "q", "bool": "?", "text": None}[self.types[place]]))
        return got, due

    def do_texts(self, client: Client) -> Pair:
        """The texts of a column by each way to them."""
        place = self.column("text")
        due = [row[place] for row in client.model.image()]
        batch = next(client.txn.scan([self.names[place]], batch=max(len(due), 1)), None)
        if batch is None:
            return [], due
        texts, index = batch[self.names[place]], self.draw.randrange(-len(due), len(due))
        ways = [texts[index], texts[index:], list(texts), texts.tolist(), len(texts), bytes(texts.data)]
        data, ends = bytes(texts.data), texts.offsets.tolist()
        ways += [[data[begin:end].decode() for begin, end in zip(ends, ends[1:])], repr(texts), at(texts, len(due))]
        by_hand = [due[index], due[index:], due, due, len(due), "".join(due).encode(), due, f"Texts({due!r})", "none"]
        return ways, by_hand

    def do_arrow(self, client: Client) -> Pair:
        return self.streamed(client.txn, client.model.image())

    def streamed(self, thing: Any, image: List[Row]) -> Pair:
        """A stream of Arrow's, of what has these rows: of all, or of some columns between two positions or two keys."""
        if self.chance(0.2):
            return arrow.rows_of(thing), image
        places = self.draw.sample(range(len(self.types)), self.draw.randrange(1, len(self.types) + 1))
        names = [self.names[place] for place in places]
        types = {name: "u" for name, place in zip(names, places) if self.types[place] == "text"}
        if self.chance(0.5):
            start, stop = sorted(self.draw.randrange(len(image) + 2) for _ in range(2))
            scan = thing.arrow(names, start, stop, batch=3 if stop - start < 50 else 1000)
            rows = image[start:stop]
        else:
            some = [row[: self.key_columns] for row in (self.row(), self.row(), *image[:3])]
            low, high = sorted(self.draw.sample(some, 2), key=model.order)
            scan = thing.arrow(columns=names, keys=(self.given(low), self.given(high)), as_types=types)
            rows = [row for row in image if model.order(low) <= model.order(row[: self.key_columns]) < model.order(high)]
        got = (arrow.rows_of(scan), repr(scan))
        return got, ([tuple(row[place] for place in places) for row in rows], f"<ArrowScan of {', '.join(names)}>")

    def do_beside(self, client: Client) -> Pair:
        """IntSpans of several columns at once: in each the same rows of all."""
        ints = [place for place, type_ in enumerate(self.types) if type_ == "int"]
        places = [self.draw.choice(ints) for _ in range(self.draw.randrange(1, 4))]
        start, stop = self.positions(client)
        names = self.draw.choice([list, tuple])(self.names[place] for place in places)
        row, got, due = start, [], []
        for views in client.txn.int_spans(names, start, stop):
            got.append([(view.tolist(), view.format, view.readonly and frozen_piece(view)) for view in views])
            rows = client.model.image()[row : row + len(views[0])]
            due.append([([it[place] for it in rows], "q", True) for place in places])
            row += len(views[0])
        return (got, row), (due, min(max(stop, start), len(client.model.rows)) if row > start else start)

    def do_pieces(self, client: Client) -> Pair:
        """IntSpans of two columns beside each other, with reads in between, and nobody writes through them."""
        places = [place for place, type_ in enumerate(self.types) if type_ == "int"]
        one, other = self.draw.choice(places), self.draw.choice(places)
        start, stop = self.positions(client)
        lent = [client.txn.int_spans(self.names[place], start, stop=stop) for place in (one, other)]
        read = self.do_get(client)
        got = [[number for span in spans for number in span] for spans in lent]
        copied = [number for index in range(len(lent[0])) for number in lent[0][index]], lent[1].copy().tolist()
        frozen = all(span.readonly and frozen_piece(span) for spans in lent for span in spans)
        rows = client.model.image()[start:stop]
        due = [[row[one] for row in rows], [row[other] for row in rows]]
        named = repr(lent[0]) == f"<{len(lent[0])} spans>"
        return (got, copied, frozen, named, read[0]), (due, tuple(due), True, True, read[1])

    def do_numpy(self, client: Client) -> Pair:
        """Arrays over columns: theirs are the types, and those over spans can't be written."""
        if numpy is None:
            return None, None
        image, got, due = client.model.image(), [], []
        for batch in client.txn.scan(batch=4096):
            for place, name in enumerate(self.names):
                array_ = numpy.asarray(batch[name])
                got.append((array_.dtype.kind, array_.tolist()))
                rows = image[batch.start : batch.start + len(batch)]
                due.append(({"int": "i", "bool": "b", "text": "O"}[self.types[place]], [row[place] for row in rows]))
        place = self.column("int")
        arrays = [numpy.asarray(span) for span in client.txn.int_spans(self.names[place])]
        got.append((any(it.flags.writeable for it in arrays), [number for it in arrays for number in it.tolist()]))
        due.append((False, [row[place] for row in image]))
        return got, due

    def do_pandas(self, client: Client) -> Pair:
        if pandas is None:
            return None, None
        places = self.draw.sample(range(len(self.types)), self.draw.randrange(1, len(self.types)))
        frame = client.txn.to_pandas([self.names[place] for place in places])
        if self.chance(0.3):
            places, frame = list(range(len(self.types))), client.txn.to_pandas()
        types = [{"int": "int64", "text": "object", "bool": "bool"}[self.types[place]] for place in places]
        due = [tuple(row[place] for place in places) for row in client.model.image()]
        names = [self.names[place] for place in places]
        rows = list(frame.itertuples(index=False, name=None))
        return (list(frame.columns), [str(it) for it in frame.dtypes], rows), (names, types, due)

    def do_looks(self, client: Client) -> Pair:
        """Whether it is open, and how it is shown; and it is not copied."""
        kind = "Transaction" if isinstance(client.txn, narthexmace.Transaction) else "Snapshot"
        got = client.txn.is_open, client.txn.version, repr(client.txn)
        due = True, client.model.version, f"<{kind} of {', '.join(self.names)}, open>"
        return (got, raises(TypeError, lambda: pickle.dumps(client.txn))), (due, True)

    def do_refused(self, client: Client) -> Pair:
        """Reads whose arguments don't fit, and writes on a snapshot."""
        txn, key = client.txn, self.key(client)
        wrong = (*key[:-1], self.misfit(self.key_columns - 1))
        calls: List[Callable[[], Any]] = [
            lambda: txn.get(wrong),
            lambda: txn.rank((*key, 1)),
            lambda: wrong in txn,
            lambda: () in txn,
            lambda: txn.scan(["no"]),
            lambda: txn.scan(self.names[0]),
            lambda: txn.scan(start=-1),
            lambda: txn.scan(stop=-1),
            lambda: txn.scan(batch=0),
            lambda: txn.int_spans(self.names[self.column("text")]),
            lambda: txn.int_spans("no"),
            lambda: txn.int_spans([]),
            lambda: txn.int_spans([self.names[self.column("int")], self.names[self.column("text")]]),
        ]
        got = [self.refuses(narthexmace.TypeMismatch, call) for call in calls]
        if not isinstance(txn, narthexmace.Transaction):
            name = self.draw.choice(["insert", "delete", "set", "savepoint", "layer", "commit"])
            got.append(self.refuses(narthexmace.ReadOnly, lambda: getattr(txn, name)))
        return got, [True] * len(got)

    def over(self, client: Client) -> Pair:
        """Every call on what is over."""
        txn, key = client.txn, self.key(client)
        calls: List[Callable[[], Any]] = [
            lambda: txn.get(key), lambda: txn.rank(key), lambda: key in txn, lambda: len(txn), lambda: txn[0],
            lambda: txn[:], lambda: list(txn), lambda: txn.scan(),
            lambda: txn.int_spans(self.names[self.column("int")]),
            lambda: txn.version,
        ]  # fmt: skip
        if isinstance(txn, narthexmace.Transaction):
            calls += [
                lambda: txn.insert(self.row()), lambda: txn.delete(key), lambda: txn.savepoint().__enter__(),
                lambda: txn.set(key, self.names[-1], self.cell(len(self.types) - 1)), txn.layer, txn.commit,
            ]  # fmt: skip
        got = [self.refuses(narthexmace.Misuse, call) for call in calls]
        return (txn.is_open, txn.abort(), got), (False, None, [True] * len(got))

    # ---- tables

    def table_of(self, rows: Sequence[Row]) -> Tuple[Any, Dict[str, Any]]:
        """Rows in some order as a table that `open` takes, and what else it takes with that."""
        columns = {name: [row[place] for row in rows] for place, name in enumerate(self.names)}
        words: Dict[str, Any] = {"key": self.names[: self.key_columns], "types": dict(zip(self.names, self.types))}
        if self.key_columns == 1 and self.chance(0.5):
            words["key"] = self.names[0]
        if rows and self.chance(0.3):
            del words["types"]
        kind = self.draw.choice(["lists", "arrays", "text", "bytes", "frame"])
        if kind in ("text", "bytes"):
            text = self.csv_of(rows)
            return text if kind == "text" else text.encode(), {}
        if kind == "arrays":
            for name, type_ in zip(self.names, self.types):
                if type_ == "int":
                    columns[name] = array("q", columns[name])
                elif type_ == "bool":
                    columns[name] = memoryview(struct.pack(f"{len(rows)}?", *columns[name])).cast("?")
        if kind == "frame" and pandas is not None:
            return pandas.DataFrame(columns, columns=self.names), words
        return columns, words

    def csv_of(self, rows: Sequence[Row]) -> str:
        """Rows as a CSV text, with each field in quotes."""
        heads = [f"{name}:{type_}{':key' if place < self.key_columns else ''}"
                 for place, (name, type_) in enumerate(zip(self.names, self.types))]  # fmt: skip
        fields = [[str(it).lower() if isinstance(it, bool) else str(it) for it in row] for row in rows]
        quoted = [['"' + it.replace('"', '""') + '"' for it in record] for record in [heads, *fields]]
        return "".join(",".join(record) + "\n" for record in quoted)


def typed(row: Any) -> Any:
    """A row with the types of its cells, since True is 1."""
    return row and [(type(cell), cell) for cell in row]


def frozen_piece(span: memoryview) -> bool:
    """Whether a write through a span is refused."""
    try:
        span[0] = 7
    except TypeError:
        return True
    return False


def raises(kind: type, call: Callable[[], Any]) -> bool:
    try:
        call()
    except kind:
        return True
    return False


def at(rows: Any, place: int) -> Any:
    try:
        return rows[place]
    except IndexError:
        return "none"
