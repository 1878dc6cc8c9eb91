"""Several connections over one table, beside a dict with snapshots: what each reads, and whose commit is refused.

    clients.py STEPS [SEED]

Then threads with a connection each add to the same cells, and try again where a commit is refused: no addition is lost.
"""
import random
import sys
import tempfile
import threading
from pathlib import Path

from sql import Connection, Error, memory_used

CONSTRAINT, BUSY_SNAPSHOT = 19, 517
KEYS = range(12)
COLUMNS = ["a", "b"]


class Model:
    """The newest rows by key, and what each commit has changed."""

    def __init__(self, by_row):
        self.by_row, self.rows, self.commits = by_row, {key: (0, 0) for key in KEYS if key % 2}, []

    def conflicts(self, mine, theirs):
        """Whether two changes of one key do: columns that were set, or anything else."""
        if isinstance(mine, set) and isinstance(theirs, set):
            return self.by_row or bool(mine & theirs)
        return True


class Client:
    """A connection, and its transaction in the model."""

    def __init__(self, model, connection):
        self.model, self.connection = model, connection
        self.open, self.rows = False, None

    def enter(self):
        """The snapshot is taken at the first read or write."""
        if self.rows is None:
            self.rows, self.base, self.start = dict(self.model.rows), dict(self.model.rows), len(self.model.commits)
            self.sets, self.deleted = {}, set()

    def changes(self):
        """What the transaction changes of each key: the columns that it sets, or None for any other change."""
        found = {}
        for key in KEYS:
            before, after = key in self.base, key in self.rows
            if before and after and key not in self.deleted:
                if self.sets.get(key):
                    found[key] = self.sets[key]
            elif before or after:
                found[key] = None
        return found

    def commit(self):
        """Whether the model's table takes the transaction."""
        if self.rows is None:
            return True
        mine = self.changes()
        for theirs in self.model.commits[self.start :]:
            if any(self.model.conflicts(mine[key], theirs[key]) for key in mine.keys() & theirs.keys()):
                return False
        for key in mine:
            self.merge(key, mine[key])
        if mine:
            self.model.commits.append(mine)
        return True

    def merge(self, key, change):
        """Takes one key's change over into the newest rows."""
        if key not in self.rows:
            del self.model.rows[key]
        elif change is None:
            self.model.rows[key] = self.rows[key]
        else:
            old, new = self.model.rows[key], self.rows[key]
            self.model.rows[key] = tuple(new[i] if name in change else old[i] for i, name in enumerate(COLUMNS))

    def end(self):
        self.open, self.rows = False, None

    def code(self, sql):
        """The code of a statement that shows nothing."""
        try:
            assert self.connection.run(sql) == [], sql
            return 0
        except Error as error:
            return error.code

    def read(self):
        self.enter()
        wanted = [(key, *self.rows[key]) for key in sorted(self.rows)]
        found = self.connection.run("SELECT * FROM t")
        assert found == wanted, f"found {found}, wanted {wanted}"

    def write(self, draw):
        """A write of one row."""
        self.enter()
        key, value, i = draw.choice(KEYS), draw.randrange(1000), draw.randrange(2)
        kind = draw.choice(["insert", "replace", "set", "set", "delete"])
        if kind in ("insert", "replace"):
            wanted = CONSTRAINT if kind == "insert" and key in self.rows else 0
            sql = f"{'INSERT' if kind == 'insert' else 'REPLACE'} INTO t VALUES ({key}, {value}, 0)"
            if not wanted:
                if key in self.rows:
                    self.deleted.add(key)
                self.rows[key] = (value, 0)
        else:
            wanted = 0
            verb = f"UPDATE t SET {COLUMNS[i]} = {value}" if kind == "set" else "DELETE FROM t"
            sql = f"{verb} WHERE id = {key}"
            if kind == "set" and key in self.rows:
                self.sets.setdefault(key, set()).add(COLUMNS[i])
                row = list(self.rows[key])
                row[i] = value
                self.rows[key] = tuple(row)
            elif kind == "delete" and key in self.rows:
                del self.rows[key]
                self.deleted.add(key)
        found = self.code(sql)
        assert found == wanted, f"{sql}: found {found}, wanted {wanted}"

    def step(self, draw):
        """One statement; outside a transaction each is one of its own. Whether a commit was refused."""
        x, refused = draw.random(), False
        if x < 0.35:
            self.read()
        elif x < 0.75:
            self.write(draw)
        elif not self.open:
            assert self.code("BEGIN") == 0, "BEGIN"
            self.open = True
            return False
        elif x < 0.95:
            refused = not self.commit()
            found = self.code("COMMIT")
            assert found == (BUSY_SNAPSHOT if refused else 0), f"COMMIT: found {found}, refused {refused}"
            self.end()
        else:
            assert self.code("ROLLBACK") == 0, "ROLLBACK"
            self.end()
        if not self.open and self.rows is not None:
            assert self.commit(), "a statement of its own"
            self.end()
        return refused


def drawn(seed, folder):
    """A run of four clients; how many commits and how many refusals there were."""
    draw = random.Random(seed)
    model = Model(by_row=draw.random() < 0.5)
    Path(folder, "t.csv").write_text("id:int:key,a:int,b:int\n" + "".join(f"{key},0,0\n" for key in model.rows))
    connections, rule = [Connection() for _ in range(4)], "row" if model.by_row else "column"
    for connection in connections:
        connection.run(f"CREATE VIRTUAL TABLE t USING pdt('{folder}/t.csv', conflicts={rule})")
    clients = [Client(model, connection) for connection in connections]
    refusals = 0
    try:
        for _ in range(300):
            refusals += draw.choice(clients).step(draw)
            if draw.random() < 0.02:
                connections[0].run("SELECT pdt_fold('t')")
    except AssertionError:
        print("seed", seed)
        raise
    for connection in connections:
        connection.close()
    return len(model.commits), refusals


def add(folder, cells, times, failures):
    """Adds to each cell as many times, in a transaction each."""
    try:
        connection = Connection()
        connection.run(f"CREATE VIRTUAL TABLE t USING pdt('{folder}/t.csv')")
        for i in range(times):
            while True:
                try:
                    connection.run(f"UPDATE t SET a = a + 1 WHERE id = {i % cells}")
                    break
                except Error as error:
                    assert error.code == BUSY_SNAPSHOT, error
        connection.close()
    except Exception as error:
        failures.append(error)


def threads(folder):
    """Eight threads, 400 additions each, to three cells."""
    Path(folder, "t.csv").write_text("id:int:key,a:int\n0,0\n1,0\n2,0\n")
    keeper, failures = Connection(), []
    keeper.run(f"CREATE VIRTUAL TABLE t USING pdt('{folder}/t.csv')")
    workers = [threading.Thread(target=add, args=(folder, 3, 400, failures)) for _ in range(8)]
    for worker in workers:
        worker.start()
    for worker in workers:
        worker.join()
    assert not failures, failures
    assert keeper.run("SELECT sum(a) FROM t") == [(3200,)], "an addition was lost"
    keeper.close()


def main():
    steps, seed = int(sys.argv[1]), int(sys.argv[2]) if len(sys.argv) > 2 else 1
    commits = refusals = 0
    for seed in range(seed, seed + max(1, steps // 300)):
        with tempfile.TemporaryDirectory() as folder:
            done, refused = drawn(seed, folder)
        commits, refusals = commits + done, refusals + refused
    assert commits and refusals, "no commit, or no conflict"
    with tempfile.TemporaryDirectory() as folder:
        threads(folder)
    assert memory_used() == 0, memory_used()
    print(f"{commits} commits and {refusals} conflicts as wanted, and no addition of eight threads lost")


if __name__ == "__main__":
    main()
