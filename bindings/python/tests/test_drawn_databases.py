"""Random calls on databases: a table of one is a table as any other, and works over several commit all or nothing.

5,000 calls of each kind, or as many as NARTHEXMACE_CALLS says, from the seed NARTHEXMACE_SEED on.
"""
import os
import random
import tempfile
import unittest
from pathlib import Path
from typing import Any, Callable, Dict, List, Optional, Tuple

import narthexmace

from . import model
from .test_drawn import Run
from .watching import Watch, wanted_of_databases

CALLS = int(os.environ.get("NARTHEXMACE_CALLS", "5000"))
SEED = int(os.environ.get("NARTHEXMACE_SEED", "1"))
#: What no drawn call raises: test_damage has files that are damaged, and devices that fail.
NEVER = {"Corrupt", "Incomplete", "Mismatch", "OutcomeUnknown", "WritesFailed", "TooLong", "NewerFormat"}
#: What is behind no name of its own.
CLAUSES = {
    "commit Committed", "commit Conflict", "commit TooOld", "commit Full", "commit of nothing", "commit of several",
    "block committed", "block aborted", "opened again", "opened again after commits",
}  # fmt: skip
Pair = Tuple[Any, Any]
Row = Tuple[Any, ...]
KEYS, CLIENTS, TABLES = 5, 3, ("a", "b", "c d", "é")
HEADER = "id:int:key,n:int,name:text\n"
SYNCS = ["full", "normal", "off"]
#: Where folders are made: in memory, where there is such a place, since nothing is asked of a device here.
PLACE = "/dev/shm" if os.access("/dev/shm", os.W_OK) else None


class Alone(Run):
    """The calls of ``test_drawn`` on the table of a database, which nobody folds in between."""

    def opened(self, rows: List[Row]) -> narthexmace.Table:
        """The first table is the database's, and the others are alone."""
        if hasattr(self, "db"):
            return super().opened(rows)
        self.place = tempfile.TemporaryDirectory(dir=PLACE)
        self.db = narthexmace.connect(self.place.name, sync=self.draw.choice(SYNCS), maintenance=False)
        self.draw.shuffle(rows)
        table, words = self.table_of(rows)
        return self.db.create("it", table, **words, **self.options)

    def on_columns(self) -> Pair:
        return self.table.columns, self.db["it"].columns

    def end(self) -> List[Row]:
        """What is there when the folder is opened again."""
        rows = super().end()
        self.db.close()
        with narthexmace.connect(self.place.name) as db, db["it"].read() as snapshot:
            assert (rows, db.report.commits) == (snapshot[:], len(self.model.commits))
        self.place.cleanup()
        return rows


class Client:
    """An open work or moment, and the model's clients of the tables that it sees."""

    def __init__(self, txn: Any, tables: Dict[str, model.Table]) -> None:
        self.txn = txn
        self.models = {name: table.begin() for name, table in tables.items()}


class Several:
    """A database of several tables, drawn, and the calls on it."""

    def __init__(self, seed: int, watch: Watch) -> None:
        self.draw, self.note, self.raised = random.Random(seed), lambda it: watch.drawn.update([it]), watch.raised
        self.place = tempfile.TemporaryDirectory(dir=PLACE)
        self.folder = Path(self.place.name) / "shop"
        self.models: Dict[str, model.Table] = {}  # in the order in which they were made
        self.commits = 0
        self.open: Dict[int, Client] = {}
        self.readers: List[Client] = []
        self.connect()
        for _ in range(6):
            assert self.on_create()[1][0] in ("", "Exists")

    def chance(self, share: float) -> bool:
        return self.draw.random() < share

    def connect(self) -> None:
        draw = self.draw
        self.db = narthexmace.connect(
            folder=self.folder, sync=draw.choice(SYNCS), early_reads=self.chance(0.3), maintenance=self.chance(0.5),
            fold_entries=draw.choice([1, 5, 100]), checkpoint_entries=draw.choice([1, 20, 1000]),
            journal_bytes=draw.choice([1, 900, 100_000]), kept_bytes=2**28, mode=0o640,
        )  # fmt: skip

    def step(self) -> Tuple[str, Any, Any]:
        """Makes a call: its name, what it was answered, and what is due."""
        calls = {
            "begin": 16, "write": 40, "read": 12, "look": 4, "commit": 12, "abort": 1, "block": 5, "moment": 5,
            "create": 3, "drop": 2, "tables": 3, "maintenance": 2, "counts": 2, "again": 1, "locked": 1, "close": 1,
        }  # fmt: skip
        name = self.draw.choices(list(calls), list(calls.values()))[0]
        return (name, *getattr(self, f"on_{name}")())

    def refused(self, call: Callable[[], Any]) -> str:
        """What a call raises, which is counted, or nothing."""
        try:
            call()
        except narthexmace.Error as fault:
            self.raised(fault)
            return type(fault).__name__
        return ""

    # ---- database transactions

    def on_begin(self) -> Pair:
        number = self.draw.randrange(CLIENTS)
        if number not in self.open:
            self.open[number] = Client(self.db.begin(), self.models)
        it = self.open[number].txn
        return (it.is_open, isinstance(it, narthexmace.DatabaseTransaction)), (True, True)

    def one(self) -> Optional[Client]:
        return self.draw.choice(list(self.open.values())) if self.open else None

    def write(self, client: Client) -> Pair:
        """A write into a table, which may be one that the database transaction doesn't see."""
        name = self.draw.choice([*TABLES, *client.models, *client.models])
        key, n = self.draw.randrange(KEYS), self.draw.randrange(3)
        if name not in client.models:
            return self.refused(lambda: client.txn[name]), "Missing"
        same, verb = client.models[name], self.draw.choice(["insert", "insert", "set", "set", "delete"])
        calls: Dict[str, Tuple[Callable[[], Any], Callable[[], str]]] = {
            "insert": (lambda: client.txn[name].insert((key, n, "x" * n)), lambda: same.insert((key, n, "x" * n))),
            "set": (lambda: client.txn[name].set(key, "n", n), lambda: same.set((key,), 1, n)),
            "delete": (lambda: client.txn[name].delete(key), lambda: same.delete((key,))),
        }
        return self.refused(calls[verb][0]) or "Done", calls[verb][1]()

    def on_write(self) -> Pair:
        client = self.one()
        return self.write(client) if client else (None, None)

    def seen(self, client: Client) -> Pair:
        """All tables that it sees."""
        return {name: client.txn[name][:] for name in client.models}, {it: c.image() for it, c in client.models.items()}

    def on_read(self) -> Pair:
        clients = [*self.open.values(), *self.readers]
        return self.seen(self.draw.choice(clients)) if clients else (None, None)

    def on_look(self) -> Pair:
        clients = [*self.open.values(), *self.readers]
        if not clients:
            return None, None
        client = self.draw.choice(clients)
        kind = "DatabaseTransaction" if isinstance(client.txn, narthexmace.DatabaseTransaction) else "DatabaseSnapshot"
        names = [name for name in self.models if name in client.models]
        got = (list(client.txn), [name in client.txn for name in TABLES], repr(client.txn)[: len(kind) + 2])
        return got, (names, [name in client.models for name in TABLES], f"<{kind} ")

    def due(self, client: Client) -> Tuple[str, int]:
        """What a commit is answered: that of the first table that refuses it, or of all of them."""
        changed = {name: one for name, one in client.models.items() if one.effects}
        if not changed:
            self.note("commit of nothing")
            return "Committed", -1
        saved = {name: (t.rows, len(t.commits), len(t.versions)) for name, t in self.models.items()}
        for name in (it for it in self.models if it in changed):
            answer = changed[name].commit()[0]
            if answer != "Committed":
                for it, (rows, commits, versions) in saved.items():
                    table = self.models[it]
                    table.rows = rows
                    del table.commits[commits:], table.versions[versions:]
                return answer, self.commits
        self.commits += 1
        if len(changed) > 1:
            self.note("commit of several")
        return "Committed", self.commits

    def on_commit(self) -> Pair:
        if not self.open:
            return None, None
        client = self.open.pop(self.draw.choice(list(self.open)))
        try:
            got: Tuple[str, int] = "Committed", client.txn.commit()
        except (narthexmace.Conflict, narthexmace.TooOld, narthexmace.Full) as refused:
            self.raised(refused)
            got = type(refused).__name__, refused.commits
        due = self.due(client)
        self.note(f"commit {due[0]}")
        over = self.refused(lambda: client.txn["a"]), client.txn.is_open
        if due[1] < 0:  # what it saw
            return (got[0], got[1] <= self.commits, over), (due[0], True, ("Misuse", False))
        return (got, over), (due, ("Misuse", False))

    def on_abort(self) -> Pair:
        if self.readers and self.chance(0.5):
            client = self.readers.pop()
        elif self.open:
            client = self.open.pop(self.draw.choice(list(self.open)))
        else:
            return None, None
        client.txn.abort()
        return client.txn.is_open, False

    def on_block(self) -> Pair:
        got: List[Any] = []
        due: List[Any] = []
        fails = self.chance(0.4)
        try:
            with self.db.begin() as txn:
                client = Client(txn, self.models)
                for _ in range(3):
                    answer = self.write(client)
                    got.append(answer[0])
                    due.append(answer[1])
                if fails:
                    raise ZeroDivisionError
            got.append("Committed")
        except ZeroDivisionError:
            self.note("block aborted")
            return (got, txn.is_open), (due, False)
        except narthexmace.Full as fault:
            got.append(type(fault).__name__)
        due.append(self.due(client)[0])
        self.note("block committed")
        return (got, txn.is_open), (due, False)

    def on_moment(self) -> Pair:
        if len(self.readers) < 2 and self.chance(0.5):
            self.readers.append(Client(self.db.read(), self.models))
            return self.readers[-1].txn.is_open, True
        with self.db.read() as tables:
            got, due = self.seen(Client(tables, self.models))
        return (got, tables.is_open), (due, False)

    # ---- tables

    def on_create(self) -> Pair:
        name, row = self.draw.choice(TABLES), (self.draw.randrange(KEYS), 1, "x")
        recent, limit, by_row = self.draw.choice([1, 2, 65_536]), self.draw.choice([2, 3, 4, 1000]), self.chance(0.5)
        words = dict(recent=recent, row_limit=limit, conflicts="row" if by_row else "column")
        bad = [self.refused(lambda: self.db.create(it, HEADER)) for it in ("", "a\n", "x" * 65)]
        if self.chance(0.5):
            answer = self.refused(lambda: self.db.create(name=name, table=HEADER + "%d,%d,%s\n" % row, **words))
        else:
            columns = {"n": [row[1]], "id": [row[0]], "name": [row[2]]}
            types = {"id": "int", "name": "text"}
            answer = self.refused(lambda: self.db.create(name, columns, key="id", types=types, **words))
        due = "Exists" if name in self.models else ""
        if not due:
            self.models[name] = model.Table([row], 1, limit, recent, by_row)
        return (answer, bad), (due, ["TypeMismatch"] * 3)

    def on_drop(self) -> Pair:
        name = self.draw.choice(TABLES)
        clients = [*self.open.values(), *self.readers]
        due = "" if name in self.models else "Missing"
        if any(name in client.models for client in clients):
            due = "Misuse"
        got = self.refused(lambda: self.db.drop(name))
        if not due:
            del self.models[name]
        return got, due

    def on_tables(self) -> Pair:
        db, names = self.db, list(self.models)
        got = (list(db), len(db), [name in db for name in TABLES], self.refused(lambda: db["no"]))
        rows = {name: [table[:] for table in [db[name].read()]][0] for name in names}
        told = f"{self.commits} commits>"
        due = (names, len(names), [name in names for name in TABLES], "Missing")
        return (got, rows, repr(db)[-len(told) :]), (due, {it: t.image() for it, t in self.models.items()}, told)

    # ---- as a whole

    def on_maintenance(self) -> Pair:
        return self.db.maintain(), None

    def on_counts(self) -> Pair:
        it = self.db.counts()
        told = (it.batches, it.syncs, it.folds, it.checkpoints, it.journal_bytes, it.kept_bytes)
        got = (it.commits, it.tables, it.faults, it.durable <= it.commits, min(told) >= 0, it.journal_files > 0)
        return got, (self.commits, len(self.models), 0, True, True, True)

    def on_locked(self) -> Pair:
        return self.refused(lambda: narthexmace.connect(self.folder)), "Locked"

    def on_close(self) -> Pair:
        """It is closed once no transaction is open, and takes no call then."""
        if self.open:
            return self.refused(self.db.close), "Misuse"
        got = [self.refused(call) for call in (self.db.close, self.db.close, self.db.begin)]
        self.on_again()
        return got, ["", "", "Misuse"]

    def on_again(self) -> Pair:
        """It is closed as a block, and opened again: what was committed is there."""
        for client in [*self.open.values(), *self.readers]:
            client.txn.abort()
        self.open.clear()
        self.readers.clear()
        with self.db:
            before = self.db.report.commits
        with narthexmace.connect(self.folder, read_only=True) as reader:
            shown = {name: reader[name].read()[:] for name in reader}
            refused = self.refused(lambda: reader.create("no", HEADER))
        self.connect()
        self.note("opened again after commits" if before < self.commits else "opened again")
        for table in self.models.values():  # those that began before are gone, and so is what changed
            table.base = len(table.commits)
        report = self.db.report
        got = (report.commits, report.torn_bytes, report.replayed <= self.commits, refused, shown)
        due = (self.commits, 0, True, "ReadOnlyDatabase", {name: table.image() for name, table in self.models.items()})
        return got, due

    def end(self) -> Pair:
        self.on_again()
        with self.db:
            got = {name: self.db[name].read()[:] for name in self.db}
        self.place.cleanup()
        return got, {name: table.image() for name, table in self.models.items()}


class Drawn(unittest.TestCase):
    def compare(self, where: str, got: Any, due: Any) -> None:
        if got != due:
            self.fail(f"{where}: {repr(got)[:2000]}, and due is {repr(due)[:2000]}")

    def tell(self, made: int, seed: int) -> None:
        if os.environ.get("NARTHEXMACE_TOLD"):
            print(f"\n{made} calls, seeds {SEED} to {seed - 1}")

    def test_a_table_of_a_database_is_a_store(self) -> None:
        made, seed = 0, SEED
        with Watch() as watch:
            while made < CALLS:
                run = Alone(seed, watch)
                for call in range(random.Random(seed).choice([40, 200, 400])):
                    name, got, due = run.step()
                    self.compare(f"seed {seed}, call {call}, {name}", got, due)
                    made += 1
                self.compare(f"seed {seed}, at the end", run.end(), run.model.image())
                seed += 1
        self.tell(made, seed)

    def test_works_are_answered_as_the_model_answers_them(self) -> None:
        made, seed = 0, SEED
        with Watch(__file__) as watch:
            while made < CALLS:
                run = Several(seed, watch)
                for call in range(random.Random(seed).choice([40, 200, 400])):
                    name, got, due = run.step()
                    self.compare(f"seed {seed}, call {call}, {name}", got, due)
                    made += 1
                self.compare(f"seed {seed}, at the end", *run.end())
                seed += 1
        self.tell(made, seed)
        if CALLS >= 5000:
            names = (wanted_of_databases() - NEVER) | CLAUSES
            self.assertEqual(names - set(watch.drawn), set(), "names that were never drawn")
            self.assertEqual(NEVER & set(watch.drawn), set(), "names that are drawn, and said never to be")


if __name__ == "__main__":
    unittest.main()
