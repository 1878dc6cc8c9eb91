"""Random calls of several clients and threads, each answered as the model answers it, and none of the package left out.

10,000 calls, or as many as NARTHEXMACE_CALLS says, from the seed NARTHEXMACE_SEED on. NARTHEXMACE_TOLD=1 prints how
often each name was drawn.
"""
import copy
import os
import random
import tempfile
import threading
import unittest
from collections import Counter
from pathlib import Path
from typing import Any, Callable, Dict, List, Tuple

import narthexmace

from . import LIMIT, arrow, drawing, model
from .drawing import READS, WRITES, Calls, Client, Pair, Row, Undone, numpy, pandas
from .watching import Watch, wanted

CALLS = int(os.environ.get("NARTHEXMACE_CALLS", "10000"))
SEED = int(os.environ.get("NARTHEXMACE_SEED", "1"))
CLIENTS = 4
STORE = {
    "fold": 3, "cut": 2, "checkpoint": 1, "sizes": 1, "layers": 2, "columns": 1, "read": 4, "block": 4, "threads": 1,
    "opened": 1, "openings": 1, "folders": 1, "closed": 1, "pin": 6, "changes": 6, "counts": 2, "wait": 1, "arrow": 4,
}  # fmt: skip
#: What no drawn call raises: memory is refused in test_errors alone, and the rest is for calls that the package lacks.
NEVER = {"NoMemory", "TooSmall", "NotAscending", "Superseded", "Error"}
#: What is behind no name of its own.
CLAUSES = {
    "commit Committed", "commit Conflict", "commit TooOld", "commit Full", "block committed", "block aborted",
    "block Conflict", "block ended inside", "commit after a trim", "commit of nothing", "commit at a pin Committed",
    "commit at a pin Conflict", "commit at a pin TooOld", "changes of several", "changes of none", "changes cut off",
}  # fmt: skip


class Run(Calls):
    """One table with one key, drawn, and the calls on it."""

    def __init__(self, seed: int, watch: Watch) -> None:
        super().__init__(random.Random(seed), watch.raised)
        self.note = lambda clause: watch.drawn.update([clause])
        draw = self.draw
        by_row = self.chance(0.5)
        rows = {row[: self.key_columns]: row for row in (self.row() for _ in range(draw.choice([0, 5, 40, 2500])))}
        limit = draw.choice([narthexmace._library.MAX_ROWS, len(rows) + 3, len(rows) + 1])
        recent = draw.choice([1, 3, 64, 65_536])
        self.model = model.Table(list(rows.values()), self.key_columns, limit, recent, by_row)
        self.options = dict(recent=recent, row_limit=limit, conflicts="row" if by_row else "column")
        self.stable, self.folded, self.checkpointed = self.model.image(), 0, 0
        self.table = self.opened(list(rows.values()))
        self.open: Dict[int, Client] = {}
        self.readers: List[Client] = []
        self.pins: List[narthexmace.Pin] = []
        self.told: "Counter[str]" = Counter()  # what the table has counted

    def opened(self, rows: List[Row]) -> narthexmace.Table:
        """A table over rows that are given in some order and in some form."""
        self.draw.shuffle(rows)
        table, words = self.table_of(rows)
        if isinstance(table, (str, bytes)) and self.chance(0.5):
            with tempfile.TemporaryDirectory() as folder:
                path = Path(folder, "table.csv")
                path.write_bytes(table.encode() if isinstance(table, str) else table)
                return narthexmace.open(self.draw.choice([path, str(path)]), **words, **self.options)
        return narthexmace.open(table, **words, **self.options)

    # ---- a call

    def step(self) -> Tuple[str, Any, Any]:
        """Makes a call: its name, what it was answered, and what is due."""
        if self.chance(0.06):
            name = self.draw.choices(list(STORE), list(STORE.values()))[0]
            return (name, *getattr(self, f"on_{name}")())
        if self.readers and self.chance(0.15):
            return self.on_reader()
        number = self.draw.randrange(CLIENTS)
        if number not in self.open:
            pin = self.draw.choice(self.pins) if self.pins and self.chance(0.3) else None
            txn = pin.begin() if pin else self.table.begin()
            self.open[number] = Client(txn, self.model.begin(pin and pin.number))
            return "begin", (txn.is_open, txn.version), (True, self.open[number].model.version)
        client = self.open[number]
        calls = {**READS, **WRITES, "commit": 4, "abort": 1}
        name = self.draw.choices(list(calls), list(calls.values()))[0]
        if name in ("commit", "abort"):
            del self.open[number]
        got, due = getattr(self, f"do_{name}")(client)
        if name in ("commit", "abort") and self.chance(0.2):
            over, due_over = self.over(client)
            return name, (got, over), (due, due_over)
        return name, got, due

    def on_reader(self) -> Tuple[str, Any, Any]:
        """A read of a snapshot, or its end."""
        place = self.draw.randrange(len(self.readers))
        reader = self.readers[place]
        if self.chance(0.2):
            del self.readers[place]
            got = self.draw.choice([reader.txn.abort, lambda: reader.txn.__exit__(None, None, None)])()
            return ("end of a snapshot", (got, *self.over(reader)[:1]), (None, *self.over(reader)[1:]))
        name = self.draw.choices(list(READS), list(READS.values()))[0]
        return (f"{name} of a snapshot", *getattr(self, f"do_{name}")(reader))

    def do_commit(self, client: Client) -> Pair:
        try:
            got: Tuple[str, int] = "Committed", client.txn.commit()
        except (narthexmace.Conflict, narthexmace.TooOld, narthexmace.Full) as refused:
            self.raised(refused)
            got = type(refused).__name__, refused.commits
            self.told[got[0]] += 1
        if client.model.version < len(self.model.commits) == self.model.base:
            self.note("commit after a trim")
        due = client.model.commit()
        self.note(f"commit {due[0]}")
        if client.model.effects and any(pin.number == client.model.version for pin in self.pins):
            self.note(f"commit at a pin {due[0]}")
        elif not client.model.effects:
            self.note("commit of nothing")
        return got, due

    def do_abort(self, client: Client) -> Pair:
        return client.txn.abort(), None

    # ---- calls on the table

    def on_fold(self) -> Pair:
        self.folded = len(self.model.commits)
        self.told["folds"] += 1
        return self.table.fold(), None

    def on_cut(self) -> Pair:
        self.model.trim()
        return self.table.trim(), None

    def on_sizes(self) -> Pair:
        sizes = self.table.sizes()
        opened = len(self.open) + len(self.readers)
        no_entries = sizes.write_entries == 0 or self.folded < len(self.model.commits)
        got = (sizes.commits, sizes.open_transactions, no_entries, sizes.read_entries >= 0)
        return got, (len(self.model.commits), opened, True, True)

    def on_layers(self) -> Pair:
        """The layers of the newest table, merged by their positions over the stable table."""
        entries = list(self.table.layers())
        sizes = self.table.sizes()
        read = [entry for entry in entries if entry.layer == "read"]
        write = [entry for entry in entries if entry.layer == "write"]
        image = self.merged(self.merged(self.stable, read), write)
        return (image, [*read, *write], len(read), len(write)), (
            self.model.image(), entries, sizes.read_entries, sizes.write_entries
        )  # fmt: skip

    def on_columns(self) -> Pair:
        columns = [(column.name, column.type, column.key) for column in self.table.columns]
        due = [(name, self.types[place], place < self.key_columns) for place, name in enumerate(self.names)]
        return (columns, repr(self.table)), (due, f"<Table of {', '.join(self.names)}>")

    def on_read(self) -> Pair:
        if len(self.readers) < 3 and self.chance(0.5):
            self.readers.append(Client(self.table.read(), self.model.begin()))
            return self.readers[-1].txn.is_open, True
        with self.table.read() as snapshot:
            rows = snapshot[:]
        return (rows, snapshot.is_open), (self.model.image(), False)

    def on_pin(self) -> Pair:
        """A table is pinned, or read at a pin, or a pin is closed."""
        how = self.draw.choice(["pin", "read", "close"])
        if how == "pin" and len(self.pins) < 4:
            self.pins.append(self.table.pin())
            number = len(self.model.commits)
            pin = self.pins[-1]
            return (pin.number, pin.is_open, repr(pin)), (number, True, f"<Pin of table {number}, open>")
        if not self.pins:
            with self.table.pin() as pin, pin.read() as snapshot:
                rows = snapshot[:]
            return (rows, pin.is_open), (self.model.image(), False)
        pin = self.draw.choice(self.pins)
        if how == "close":
            self.pins.remove(pin)
            ends = [pin.close, lambda: pin.__exit__(None, None, None)]
            got = [end() for end in self.draw.sample(ends, 2)]
            refused = [self.refuses(narthexmace.Misuse, call) for call in (pin.begin, pin.read)]
            return (got, refused, repr(pin)), ([None] * 2, [True] * 2, f"<Pin of table {pin.number}, closed>")
        if len(self.readers) < 3:
            self.readers.append(Client(pin.read(), self.model.begin(pin.number)))
            return self.readers[-1].txn.version, pin.number
        with pin.read() as snapshot:
            return snapshot[:], self.model.image(pin.number)

    def on_arrow(self) -> Pair:
        """Streams of Arrow's, of the newest table or of a pin's; a table that is opened over one; and declared
        columns."""
        if self.chance(0.2):
            place, format_ = self.column("int"), self.draw.choice(["tsu:UTC", "tDn", "g", "d:38,2"])
            self.table.declare(self.names[place], format=format_)
            fields = arrow.consumed(self.table).fields
            declared = self.table.declared
            self.table.declare(self.names[place], None)
            refused = self.refuses(narthexmace.TypeMismatch, lambda: self.table.declare(self.names[0], "?x"))
            return (fields[place], declared, self.table.declared, refused), (
                (self.names[place], format_, 0), {self.names[place]: format_}, {}, True
            )  # fmt: skip
        if self.chance(0.3):
            rows = self.model.image()
            producer = self.stream_of(self.draw.sample(rows, len(rows)), range(len(self.types)))
            with narthexmace.open(producer, key=self.names[: self.key_columns], **self.options) as table:
                return (arrow.rows_of(table), producer.live), (rows, 0)
        if self.pins and self.chance(0.6):
            pin = self.draw.choice(self.pins)
            return self.streamed(pin, self.model.image(pin.number))
        return self.streamed(self.table, self.model.image())

    def on_changes(self) -> Pair:
        """What the commits after a number changed, each merged by its positions over the table before."""
        newest, kept = len(self.model.commits), self.model.kept()
        after = self.draw.choice([0, newest, newest + self.draw.randrange(9), max(newest - kept + 1, 0),
                                  max(newest - kept - 1, 0), max(newest - self.draw.randrange(6), 0)])  # fmt: skip
        if self.chance(0.9):
            after = max(after, newest - 9)
        got, rows = [], self.model.image(after) if after <= newest else []
        try:
            for number, entries in self.table.changes(after=after):
                assert {entry.layer for entry in entries} == {"commit"}
                rows = self.merged(rows, entries)
                got.append((number, rows))
        except narthexmace.NotKept as fault:
            self.raised(fault)
            self.note("changes cut off")
            return (got, fault.number), ([], after + 1 if after > newest or after < newest - kept else None)
        self.note("changes of none" if after == newest else "changes of several" if after + 1 < newest else "change")
        due = [(number, self.model.image(number)) for number in range(after + 1, newest + 1)]
        return (got, newest - kept <= after <= newest), (due, True)

    def on_counts(self) -> Pair:
        """What the table has counted, beside what was done."""
        before = self.table.counts().begins
        for call in (self.table.begin, self.table.read):
            call().abort()
        it, newest, kept = self.table.counts(), len(self.model.commits), self.model.kept()
        entries = sum(len(changed) for _, changed in self.table.changes(newest - kept))
        got = (it.begins - before, it.commits, it.conflicts, it.too_old, it.full, it.folds, it.checkpoints)
        told = self.told
        due = (2, newest, *(told[it] for it in ("Conflict", "TooOld", "Full", "folds", "checkpoints")))
        oldest = min((pin.number for pin in self.pins), default=None)
        lock = it.waits >= 0, 0 < it.longest_hold < 60, it.packs <= it.folds, narthexmace.version() > "0"
        rest = (it.superseded, it.pins, it.oldest_pin, it.kept, it.kept_entries)
        return (got, rest, lock), (due, (0, len(self.pins), oldest, kept, entries), (True, True, True, True))

    def on_wait(self) -> Pair:
        newest = len(self.model.commits)
        got = [self.table.wait(newest, seconds=0), self.table.wait(after=newest + 5, seconds=0.001)]
        if newest:
            got.append(self.table.wait(self.draw.randrange(newest), LIMIT))
        refused = [self.refuses(narthexmace.Misuse, lambda: self.table.wait(-1, 60)),
                   self.refuses(narthexmace.Misuse, lambda: self.table.changes(-1))]  # fmt: skip
        return (got, refused), ([None, None, *([newest] if newest else [])], [True, True])

    def on_checkpoint(self) -> Pair:
        """The rows that a checkpoint writes, and where there is one, or no folder, there will be none."""
        with tempfile.TemporaryDirectory() as folder:
            self.table.checkpoint(folder)
            self.stable = self.model.image()
            self.folded = self.checkpointed = len(self.model.commits)
            self.told["checkpoints"] += 1
            refused = [
                self.refuses(narthexmace.Exists, lambda: self.table.checkpoint(folder=Path(folder))),
                self.refuses(narthexmace.FileFailed, lambda: self.table.checkpoint(Path(folder, "no"))),
            ]
            files = {"header.csv", *(f"column-{place}.pdt" for place in range(len(self.names)))}
            with narthexmace.recover(folder, **self.options) as table, table.read() as snapshot:
                return (snapshot[:], refused, set(os.listdir(folder))), (self.model.image(), [True, True], files)

    def on_folders(self) -> Pair:
        """Folders that hold no table, or a part of one."""
        with tempfile.TemporaryDirectory() as name, self.opened(self.model.image()) as table:
            folder = Path(name)
            got = [self.refuses(narthexmace.FileFailed, lambda: narthexmace.recover(folder=folder))]
            table.checkpoint(folder)
            column = folder / f"column-{self.draw.randrange(len(self.names))}.pdt"
            whole = column.read_bytes()
            for kind, damaged in [(narthexmace.BadCheckpoint, b"nonsense"), (narthexmace.NoCheckpoint, whole[:5])]:
                column.write_bytes(damaged)
                got.append(self.refuses(kind, lambda: narthexmace.recover(folder)))
            column.unlink()
            try:
                narthexmace.recover(folder)
            except narthexmace.FileFailed as fault:
                got.append(isinstance(fault, FileNotFoundError) or (fault.errno, fault.filename) == (2, folder))
        return got, [True] * len(got)

    def on_opened(self) -> Pair:
        """The newest rows, given to another table in some order and form."""
        with self.opened(self.model.image()) as table, table.read() as snapshot:
            return snapshot[:], self.model.image()

    def on_openings(self) -> Pair:
        """What is no table, or has other limits."""
        rows = self.model.image() or [self.row()]
        text, columns = self.csv_of(rows), {name: [row[place] for row in rows] for place, name in enumerate(self.names)}
        key, types = self.names[: self.key_columns], dict(zip(self.names, self.types))
        twice = {name: [*cells, cells[0]] for name, cells in columns.items()}
        colons = {f"{name}:": cells for name, cells in columns.items()}
        misfits = {**columns, "c0": [self.misfit(0)] * len(rows)}
        more: Any = ({**columns, "more": []}, {**types, "more": "int"})
        bad: List[Tuple[type, Callable[[], Any]]] = [
            (narthexmace.BadTable, lambda: narthexmace.open(self.csv_of([*rows, rows[0]]))),
            (narthexmace.BadTable, lambda: narthexmace.open(text + "x" * 4097 + "\n")),
            (narthexmace.BadTable, lambda: narthexmace.open(twice, key=key, types=types)),
            (narthexmace.BadTable, lambda: narthexmace.open(colons, key="c0:")),
            (narthexmace.TypeMismatch, lambda: narthexmace.open(columns, types=types)),
            (narthexmace.TypeMismatch, lambda: narthexmace.open(more[0], key=key, types=more[1])),
            (narthexmace.TypeMismatch, lambda: narthexmace.open(columns, key="no")),
            (narthexmace.TypeMismatch, lambda: narthexmace.open(misfits, key=key, types=types)),
            (narthexmace.BadLimit, lambda: narthexmace.open(text, recent=self.draw.choice([0, 65_537]))),
            (narthexmace.BadLimit, lambda: narthexmace.open(text, row_limit=self.draw.choice([0, 2**31]))),
            (narthexmace.BadLimit, lambda: narthexmace.open(text, conflicts="cell")),
            (TypeError, lambda: narthexmace.open(text, key=key)),
            (TypeError, lambda: narthexmace.open(5)),  # type: ignore[arg-type]
            (FileNotFoundError, lambda: narthexmace.open("no such table")),
        ]
        if len(rows) > 1:
            bad.append((narthexmace.TooManyRows, lambda: narthexmace.open(text, row_limit=len(rows) - 1)))
        got: List[Any] = [self.refuses(kind, call) for kind, call in bad]
        try:
            narthexmace.open(self.csv_of([*rows, rows[0]]))
        except narthexmace.BadTable as fault:  # at the last record
            got.append(fault.record)
        return got, [*[True] * len(bad), len(rows) + 2]

    def on_closed(self) -> Pair:
        """A table with an open transaction stays open; one that is closed takes no call."""
        table = self.opened(self.model.image())
        txn, snapshot, pin = table.begin(), table.read(), table.pin()
        got = [self.refuses(narthexmace.Misuse, table.close)]
        got += [len(it) == len(self.model.rows) for it in (txn, snapshot, pin.read())]
        txn.abort()
        table.close()
        got += [self.refuses(narthexmace.Misuse, call) for call in (pin.read, lambda: len(snapshot))]
        calls: List[Callable[[], Any]] = [
            table.begin,
            table.read,
            table.fold,
            table.trim,
            table.sizes,
            table.layers,
            table.pin,
            table.counts,
            lambda: table.wait(0, 9),
            lambda: table.changes(0),
        ]
        got += [self.refuses(narthexmace.Misuse, call) for call in [*calls, lambda: table.checkpoint("/")]]
        table.close()
        got.append(self.refuses(narthexmace.Misuse, lambda: narthexmace.recover("a\0b")))
        return got, [True] * len(got)

    def on_block(self) -> Pair:
        """A transaction as a block: it commits at the end, or an exception aborts it, or it has ended inside."""
        same, how = self.model.begin(), self.draw.choice(["end", "end", "exception", "abort"])
        got: List[Any] = []
        due: List[Any] = []
        try:
            with self.table.begin() as txn:
                client = Client(txn, same)
                for _ in range(self.draw.randrange(5)):
                    name = self.draw.choice(["insert", "delete", "set", "savepoint", "get"])
                    answer = getattr(self, f"do_{name}")(client)
                    got.append(answer[0])
                    due.append(answer[1])
                if self.chance(0.3):  # another one commits the same row first
                    self.commit_beside(client)
                if how == "exception":
                    raise Undone
                if how == "abort":
                    txn.abort()
            ended = "committed" if how == "end" else "ended inside"
        except Undone:
            ended = "aborted"
        except (narthexmace.Conflict, narthexmace.TooOld, narthexmace.Full) as refused:
            self.raised(refused)
            ended = type(refused).__name__
            self.told[ended] += 1
        reply = same.commit()[0] if how == "end" else ""
        self.note(f"block {ended}")
        due_end = {"exception": "aborted", "abort": "ended inside", "end": reply.replace("Committed", "committed")}[how]
        return (got, ended, txn.is_open), (due, due_end, False)

    def commit_beside(self, client: Client) -> None:
        """Another transaction sets a cell of a row, as the first one may have."""
        keys = client.model.keys()
        if not keys:
            return
        place = self.column("int")
        other, same = self.table.begin(), self.model.begin()
        if keys[0] in same.rows:
            other.set(keys[0], self.names[place], 5)
            same.set(keys[0], place, 5)
        if client.model.set(keys[0], place, 6) == "Done":
            client.txn.set(keys[0], self.names[place], 6)
        assert self.do_commit(Client(other, same))[0][0] == "Committed"

    def on_threads(self) -> Pair:
        """Each open client makes calls in a thread of its own, while another one folds and reads sizes."""
        answers: List[Pair] = []
        faults: List[BaseException] = []
        names = [name for name in {**READS, **WRITES} if name != "pandas"]
        newest = len(self.model.commits)

        def calls(own: "Run", client: Client) -> None:
            try:
                for _ in range(6):
                    calls_ = READS if client in self.readers else names
                    answers.append(getattr(own, f"do_{own.draw.choice(list(calls_))}")(client))
            except BaseException as fault:
                faults.append(fault)

        def folds() -> None:
            try:
                for _ in range(3):
                    self.table.fold()
                    answers.append((self.table.sizes().commits, len(self.model.commits)))
                    self.told["folds"] += 1
                    with self.table.read() as snapshot, self.table.pin() as pin, pin.read() as pinned:
                        answers.append(((len(snapshot), len(pinned), pin.number), (*[len(self.model.rows)] * 2, newest)))
            except BaseException as fault:
                faults.append(fault)

        threads = [threading.Thread(target=folds)]
        for client in [*self.open.values(), *self.readers]:
            own = copy.copy(self)
            own.draw = random.Random(self.draw.random())
            threads.append(threading.Thread(target=calls, args=(own, client)))
        for thread in threads:
            thread.start()
        for thread in threads:
            thread.join(LIMIT)
        self.folded = len(self.model.commits)
        return (faults, [got for got, _ in answers]), ([], [due for _, due in answers])

    def end(self) -> List[Row]:
        """Ends what is open, and answers the newest rows."""
        for client in [*self.open.values(), *self.readers]:
            client.txn.abort()
        for pin in self.pins:
            pin.close()
        with self.table, self.table.read() as snapshot:
            return list(snapshot)


def names_to_draw() -> "set[str]":
    """The public names that have to be drawn, of what this machine has."""
    names = wanted() - NEVER
    if pandas is None:
        names = {name for name in names if "to_pandas" not in name}
    if numpy is None:
        names -= {"Texts.__array__"}
    return names | CLAUSES


class Drawn(unittest.TestCase):
    def test_each_call_is_answered_as_the_model_answers_it(self) -> None:
        made, seed = 0, SEED
        with Watch(__file__, drawing.__file__) as watch:
            while made < CALLS:
                run = Run(seed, watch)
                for call in range(random.Random(seed).choice([40, 200, 400])):
                    name, got, due = run.step()
                    self.compare(f"seed {seed}, call {call}, {name}", got, due)
                    made += 1
                self.compare(f"seed {seed}, at the end", run.end(), run.model.image())
                seed += 1
        if os.environ.get("NARTHEXMACE_TOLD"):
            print(f"\n{made} calls, seeds {SEED} to {seed - 1}", *sorted(watch.drawn.items()), sep="\n")
        if CALLS >= 10_000:
            self.assertEqual(names_to_draw() - set(watch.drawn), set(), "names that were never drawn")
            self.assertEqual(NEVER & set(watch.drawn), set(), "names that are drawn, and said never to be")

    def compare(self, where: str, got: Any, due: Any) -> None:
        if got != due:  # both may have thousands of rows
            self.fail(f"{where}: {repr(got)[:2000]}, and due is {repr(due)[:2000]}")


if __name__ == "__main__":
    unittest.main()
