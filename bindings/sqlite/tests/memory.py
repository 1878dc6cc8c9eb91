"""Each allocation of a session refused in turn: a statement answers NOMEM or does its database transaction, and nothing is half done.

    memory.py EXTENSION     which is linked with refusing.c
"""
import ctypes
import sys
import tempfile
from pathlib import Path

from sql import Connection, Error, memory_used

NOMEM = 7
CSV = "id:int:key,slot:text:key,name:text,qty:int\n" + "".join(f"{i},s,name {i},{i}\n" for i in range(0, 90, 3))
PLAIN = "CREATE TABLE t (id INTEGER, slot TEXT, name TEXT, qty INTEGER, PRIMARY KEY (id, slot)) WITHOUT ROWID"
BLOCKS = [  # each as one: all of its statements, or none
    ["INSERT INTO t VALUES (1, 's', 'one', 1), (2, 's', 'two', 2)"],
    ["REPLACE INTO t VALUES (3, 's', 'three', 3)"],
    ["UPDATE t SET qty = qty + 1, name = name || 'x' WHERE id BETWEEN 10 AND 40"],
    ["UPDATE t SET id = id + 1000, slot = 'moved' WHERE id = 12"],
    ["UPDATE OR REPLACE t SET id = 15 WHERE id = 18"],
    ["DELETE FROM t WHERE id > 60 AND id < 1000"],
    ["BEGIN", "DELETE FROM t WHERE id = 21", "INSERT INTO t VALUES (21, 't', '', 0)", "UPDATE t SET qty = 7", "COMMIT"],
    [
        "SAVEPOINT a",
        "UPDATE t SET qty = 8",
        "SAVEPOINT b",
        "REPLACE INTO t VALUES (3, 's', '', 3)",
        "DELETE FROM t WHERE id > 9",
        "ROLLBACK TO b",
        "UPDATE t SET name = 'y', qty = 9 WHERE id > 30",
        "RELEASE a",
    ],
    [
        "BEGIN",
        "UPDATE t SET qty = 6 WHERE id = 30",
        "SAVEPOINT a",
        "DROP TABLE t",
        "ROLLBACK TO a",
        "DELETE FROM t WHERE id = 33",
        "COMMIT",
    ],
    [
        "BEGIN",
        "SAVEPOINT a",
        "CREATE temp.x",
        "SELECT * FROM x",
        "INSERT INTO x VALUES (1, 1)",
        "ROLLBACK TO a",
        "DELETE FROM t WHERE id = 36",
        "COMMIT",
    ],
    [
        "BEGIN",
        "CREATE temp.x",
        "SAVEPOINT a",
        "INSERT INTO x VALUES (1, 1)",
        "ROLLBACK TO a",
        "DROP TABLE x",
        "DELETE FROM t WHERE id = 39",
        "COMMIT",
    ],
]
TEMPORARY = "CREATE temp.x"  # stands for a temporary table, which each connection has in a way of its own
PAIR = "CREATE TABLE {} (id INTEGER PRIMARY KEY, qty REAL) WITHOUT ROWID"
MAKE = "CREATE VIRTUAL TABLE {table} USING pdt(database='{folder}', table='{table}', sync=off, id INTEGER PRIMARY KEY, qty REAL NULL)"
PAIRS = [  # the same over both tables of a database
    ["INSERT INTO t VALUES (1, 1), (2, 2), (3, 3)"],
    ["BEGIN", "INSERT INTO u SELECT id + 10, qty FROM t", "UPDATE t SET qty = qty + 1", "COMMIT"],
    [
        "SAVEPOINT a",
        "DELETE FROM t WHERE id = 1",
        "SAVEPOINT b",
        "DELETE FROM u",
        "ROLLBACK TO b",
        "UPDATE u SET id = id + 100",
        "RELEASE a",
    ],
    [
        "BEGIN",
        "DELETE FROM u WHERE id = 112",
        "UPDATE t SET qty = 7 WHERE id = 2",
        "SAVEPOINT a",
        "DROP TABLE t",
        "ROLLBACK TO a",
        "COMMIT",
    ],
]
READS = ["SELECT * FROM t ORDER BY id DESC, slot DESC", "SELECT sum(qty) FROM t WHERE id > 20"]
READS += ["SELECT qty FROM t WHERE id = 21 AND slot IN ('s', 't')"]
READS += ["SELECT pdt_fold('t')", "SELECT * FROM pdt_layers('t')"]


def is_done(connection, block, temporary=""):
    """Whether all of a block was done; if not, memory was refused, and none was."""
    try:
        for sql in block:
            connection.run(temporary if sql == TEMPORARY else sql)
        return True
    except Error as error:
        assert error.code == NOMEM or error.text.endswith("memory was refused"), error
    try:
        connection.run("ROLLBACK")
    except Error:
        pass  # SQLite has rolled back itself
    return False


def session(extension, folder, refuse, n):
    """A session in which the n-th allocation is refused; whether there were so many."""
    virtual, plain = Connection(extension=extension), Connection(extension=None)
    refuse(n)
    create = f"CREATE VIRTUAL TABLE t USING pdt('{folder}/t.csv')"
    try:
        virtual.run(create)
    except Error as error:
        assert error.code == NOMEM or error.text.endswith("memory was refused"), error
        virtual.run(create)
    plain.run(PLAIN)
    for line in CSV.splitlines()[1:]:
        number, slot, name, qty = line.split(",")
        plain.run(f"INSERT INTO t VALUES ({number}, '{slot}', '{name}', {qty})")
    for i, block in enumerate(BLOCKS):
        if is_done(virtual, block, f"CREATE VIRTUAL TABLE temp.x USING pdt('{folder}/x.csv')"):
            assert is_done(plain, block, "CREATE TABLE temp.x (id INTEGER PRIMARY KEY, n INTEGER) WITHOUT ROWID"), block
        is_done(virtual, [READS[i % len(READS)]])
    left = refuse(0)
    found, wanted = virtual.run("SELECT * FROM t"), plain.run("SELECT * FROM t")
    assert found == wanted, f"allocation {n}: found {found}, wanted {wanted}"
    virtual.close()
    plain.close()
    assert memory_used() == 0, f"allocation {n} leaves {memory_used()} bytes"
    return left == 0


def make(connection, create):
    """Makes a table, at once or at a second time."""
    try:
        connection.run(create)
    except Error as error:
        assert error.code == NOMEM or error.text.endswith("memory was refused"), error
        connection.run(create)


def of_database(extension, folder, refuse, n):
    """The same over two tables of a database, which is closed and opened behind it."""
    virtual, plain = Connection(extension=extension), Connection(extension=None)
    refuse(n)
    for table in ("t", "u"):
        make(virtual, MAKE.format(table=table, folder=folder))
        plain.run(PAIR.format(table))
    for block in PAIRS:
        if is_done(virtual, block):
            assert is_done(plain, block), block
        is_done(virtual, ["SELECT * FROM t JOIN u ON u.id = t.id + 10"])
    left = refuse(0)
    for _ in range(2):
        for table in ("t", "u"):
            found, wanted = virtual.run(f"SELECT * FROM {table}"), plain.run(f"SELECT * FROM {table}")
            assert found == wanted, f"allocation {n}: found {found}, wanted {wanted}"
        virtual.close()
        virtual = Connection(extension=extension)
        for table in ("t", "u"):
            virtual.run(MAKE.format(table=table, folder=folder))
    virtual.close()
    plain.close()
    assert memory_used() == 0, f"allocation {n} leaves {memory_used()} bytes"
    return left == 0


def main():
    extension = Path(sys.argv[1]).resolve()
    refuse = ctypes.CDLL(str(extension)).refuse
    refuse.argtypes, refuse.restype = [ctypes.c_long], ctypes.c_long
    n = 1
    with tempfile.TemporaryDirectory() as folder:
        Path(folder, "t.csv").write_text(CSV)
        Path(folder, "x.csv").write_text("id:int:key,n:int\n")
        while session(extension, folder, refuse, n):
            n += 1
    assert n > 100, f"only {n} allocations"
    last = 1
    while True:
        with tempfile.TemporaryDirectory() as folder:
            if not of_database(extension, f"{folder}/shop", refuse, last):
                break
        last += 1
    assert last > 100, f"only {last} allocations of a database"
    print(f"{n - 1} allocations refused in turn, and {last - 1} of a database")


if __name__ == "__main__":
    main()
