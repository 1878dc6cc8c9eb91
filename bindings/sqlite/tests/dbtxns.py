"""Several connections over two tables of a database, beside a dict with snapshots: what each reads, and whose commit is refused.

    dbtxns.py STEPS [SEED]

Between two runs the database is closed and opened, and has the rows that it had. Then processes that commit to both tables are
killed: of each commit both have it or neither, and both have each that was answered.
"""
import os
import random
import select
import signal
import sys
import tempfile
import time

from clients import BUSY_SNAPSHOT, COLUMNS, CONSTRAINT, Client, Model
from sql import Connection, memory_used

TABLES = ["t", "u"]
KEYS = [(table, key) for table in TABLES for key in range(8)]
LIMIT = 120  # seconds, after which what a process should tell doesn't come
MAKE = "CREATE VIRTUAL TABLE {table} USING pdt(database='{folder}', table='{table}', {words}id INTEGER PRIMARY KEY, a INTEGER, b INTEGER)"


def connect(folder, words=""):
    """A connection with both tables."""
    connection = Connection()
    for table in TABLES:
        connection.run(MAKE.format(table=table, folder=folder, words=words))
    return connection


class Tables(Model):
    """The rows of both tables by table and key."""

    def __init__(self, by_row, rows):
        super().__init__(by_row)
        self.rows = rows


class Worker(Client):
    """A connection whose transactions are over both tables, with savepoints."""

    def __init__(self, model, connection):
        super().__init__(model, connection)
        self.marks = []

    def changes(self):
        found = {}
        for key in KEYS:
            before, after = key in self.base, key in self.rows
            if before and after and key not in self.deleted:
                if self.sets.get(key):
                    found[key] = set(self.sets[key])
            elif before or after:
                found[key] = None
        return found

    def kept(self):
        """What a savepoint goes back to; where nothing was read yet, the snapshot that was taken since."""
        sets = {key: set(columns) for key, columns in self.sets.items()}
        return dict(self.rows), sets, set(self.deleted)

    def mark(self):
        self.marks.append(self.kept() if self.rows is not None else None)
        assert self.code(f"SAVEPOINT s{len(self.marks) - 1}") == 0, "SAVEPOINT"

    def back(self, level):
        assert self.code(f"ROLLBACK TO s{level}") == 0, "ROLLBACK TO"
        if self.rows is not None:
            rows, sets, deleted = self.marks[level] or (dict(self.base), {}, set())
            self.rows, self.sets, self.deleted = dict(rows), {key: set(of) for key, of in sets.items()}, set(deleted)
        del self.marks[level + 1 :]

    def release(self, level):
        assert self.code(f"RELEASE s{level}") == 0, "RELEASE"
        del self.marks[level:]

    def end(self):
        super().end()
        self.marks = []

    def rows_of(self, table):
        return [(key, *self.rows[of, key]) for of, key in sorted(self.rows) if of == table]

    def read_tables(self, draw):
        self.enter()
        first, second = draw.sample(TABLES, 2)
        if draw.random() < 0.5:
            found, wanted = self.connection.run(f"SELECT * FROM {first}"), self.rows_of(first)
        else:
            found = self.connection.run(f"SELECT x.id, x.a, y.b FROM {first} AS x JOIN {second} AS y ON x.id = y.id ORDER BY x.id")
            there = {row[0]: row for row in self.rows_of(second)}
            wanted = [(key, a, there[key][2]) for key, a, _ in self.rows_of(first) if key in there]
        assert found == wanted, f"found {found}, wanted {wanted}"

    def put(self, key, row):
        if key in self.rows:
            self.deleted.add(key)
        self.rows[key] = row

    def insert(self, draw, table, verb):
        """Rows of one statement: all of them, or none where one is there already."""
        keys, value = draw.sample(range(8), draw.randrange(1, 4)), draw.randrange(1000)
        rows = ", ".join(f"({key}, {value}, 0)" for key in keys)
        is_refused = verb == "INSERT" and any((table, key) in self.rows for key in keys)
        if not is_refused:
            for key in keys:
                self.put((table, key), (value, 0))
        return f"{verb} INTO {table} VALUES {rows}", CONSTRAINT if is_refused else 0

    def update(self, draw, table):
        low, i, value = draw.randrange(8), draw.randrange(2), draw.randrange(1000)
        for key in sorted(self.rows):
            if key[0] == table and low <= key[1] < low + 3:
                row = list(self.rows[key])
                row[i] = value
                self.rows[key] = tuple(row)
                self.sets.setdefault(key, set()).add(COLUMNS[i])
        return f"UPDATE {table} SET {COLUMNS[i]} = {value} WHERE id BETWEEN {low} AND {low + 2}", 0

    def delete(self, draw, table):
        low = draw.randrange(8)
        for key in list(self.rows):
            if key[0] == table and low <= key[1] < low + 2:
                del self.rows[key]
                self.deleted.add(key)
        return f"DELETE FROM {table} WHERE id BETWEEN {low} AND {low + 1}", 0

    def copy(self, draw, table):
        """Rows of one table replace those of the other."""
        other, low = TABLES[1 - TABLES.index(table)], draw.randrange(8)
        for key, a, b in self.rows_of(other):
            if low <= key < low + 2:
                self.put((table, key), (a, b))
        return f"REPLACE INTO {table} SELECT * FROM {other} WHERE id BETWEEN {low} AND {low + 1}", 0

    def write_tables(self, draw):
        self.enter()
        table, kind = draw.choice(TABLES), draw.choice(["INSERT", "REPLACE", "update", "update", "delete", "copy"])
        if kind in ("INSERT", "REPLACE"):
            sql, wanted = self.insert(draw, table, kind)
        else:
            sql, wanted = getattr(self, kind)(draw, table)
        found = self.code(sql)
        assert found == wanted, f"{sql}: found {found}, wanted {wanted}"

    def step(self, draw):
        """One statement; outside a transaction each is one of its own. Whether a commit was refused."""
        x, refused = draw.random(), False
        if not self.open and x < 0.4:
            x = 1
        if x < 0.3:
            self.read_tables(draw)
        elif x < 0.65:
            self.write_tables(draw)
        elif self.open and x < 0.75:
            self.mark()
        elif self.open and x < 0.85 and self.marks:
            level = draw.randrange(len(self.marks))
            if draw.random() < 0.6:
                self.back(level)
            else:
                self.release(level)
        elif not self.open:
            assert self.code("BEGIN") == 0, "BEGIN"
            self.open = True
            return False
        elif x < 0.97:
            refused = not self.commit()
            found = self.code("COMMIT")
            assert found == (BUSY_SNAPSHOT if refused else 0), f"COMMIT: found {found}, refused {refused}"
            self.end()
        else:
            assert self.code("ROLLBACK") == 0, "ROLLBACK"
            self.end()
        if not self.open and self.rows is not None:
            assert self.commit(), "a statement of its own"
            self.end()
        return refused


def drawn(seed, folder, steps=300):
    """Runs of three connections over one database; how many commits, commits of both tables, and refusals there were."""
    draw = random.Random(seed)
    by_row, sync = draw.random() < 0.5, draw.choice(["full", "normal", "off"])
    words = f"sync={sync}, conflicts={'row' if by_row else 'column'}, "
    rows, counts = {}, [0, 0, 0]
    try:
        for _ in range(3):
            model = Tables(by_row, dict(rows))
            workers = [Worker(model, connect(folder, words)) for _ in range(3)]
            for _ in range(steps // 3):
                counts[2] += draw.choice(workers).step(draw)
                if draw.random() < 0.02:
                    workers[0].connection.run(f"SELECT pdt_fold('{draw.choice(TABLES)}')")
            for worker in workers:
                if worker.open:
                    assert worker.code("ROLLBACK") == 0, "ROLLBACK"
                worker.connection.close()
            rows = model.rows
            counts[0] += len(model.commits)
            counts[1] += sum(len({key[0] for key in commit}) == 2 for commit in model.commits)
    except AssertionError:
        print("seed", seed)
        raise
    return counts


def commit_on(folder, told, words):
    """Commits one number after the other to both tables, and tells each that was answered."""
    connection = connect(folder, words)
    number = connection.run("SELECT max(a) FROM t")[0][0] or 0
    while True:
        number += 1
        for sql in ["BEGIN", f"REPLACE INTO t VALUES (1, {number}, 0)", f"REPLACE INTO u VALUES (1, {number}, 0)", "COMMIT"]:
            connection.run(sql)
        os.write(told, number.to_bytes(8, "little"))


def killed(folder, draw, words, commits):
    """A process is killed at some moment, after its first commit or before; the last number that it told, or 0."""
    read, write = os.pipe()
    child = os.fork()
    if child == 0:
        try:
            os.close(read)
            commit_on(folder, write, words)
        finally:
            os._exit(1)
    os.close(write)
    if commits:
        assert select.select([read], [], [], LIMIT)[0], "no commit is told"
    time.sleep(draw.uniform(0.01, 0.25))
    os.kill(child, signal.SIGKILL)
    status = os.waitpid(child, 0)[1]
    assert os.WIFSIGNALED(status) and os.WTERMSIG(status) == signal.SIGKILL, f"the child ended by itself: {status}"
    with open(read, "rb") as pipe:
        return int.from_bytes(pipe.read()[-8:], "little")


def kills(seed):
    """How many numbers there were. Every other process is killed once it has committed, however slow the machine is."""
    draw, number = random.Random(seed), 0
    for sync in ("full", "normal"):
        with tempfile.TemporaryDirectory() as folder:
            words, number = f"sync={sync}, ", 0
            for kill in range(5):
                told = killed(f"{folder}/shop", draw, words, kill % 2) or number
                connection = connect(f"{folder}/shop", words)
                found = connection.run("SELECT (SELECT max(a) FROM t), (SELECT max(a) FROM u)")[0]
                connection.close()
                assert found[0] == found[1], f"{sync}: {found}"
                number = found[0] or 0
                assert told <= number <= told + 1, f"{sync}: told {told}, found {number}"
    return number


def main():
    steps, seed = int(sys.argv[1]), int(sys.argv[2]) if len(sys.argv) > 2 else 1
    totals = [0, 0, 0]
    for run in range(seed, seed + max(1, steps // 300)):
        with tempfile.TemporaryDirectory() as folder:
            totals = [total + count for total, count in zip(totals, drawn(run, f"{folder}/shop"))]
    assert all(totals), f"commits, those of both tables, conflicts: {totals}"
    last = kills(seed)
    assert last, "nothing was committed before the kills"
    assert memory_used() == 0, memory_used()
    print(f"{totals[0]} commits, {totals[1]} of them of both tables, and {totals[2]} conflicts as wanted; killed up to commit {last}")


if __name__ == "__main__":
    main()
