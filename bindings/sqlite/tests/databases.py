"""Tables of databases: what lasts, commits of several tables, what is seen at one moment, and each refusal.

    databases.py
"""
import os
import resource
import signal
import threading
import traceback

from room import ABORT, BLIND, BUSY, BUSY_SNAPSHOT, CONSTRAINT, ERROR, IN_CONFLICT, done, refused, run, shows
from sql import Connection, Error

LOCKED, IOERR, CANTOPEN, CORRUPT_VTAB = 6, 10, 14, 267
IN = "CREATE VIRTUAL TABLE {table} USING pdt(database='{folder}', table='{table}'{words})"
ITEMS = ", id INTEGER PRIMARY KEY, name TEXT, qty INTEGER, sold BOOLEAN"
SALES = ", item INTEGER, day TEXT, qty INTEGER, PRIMARY KEY (item, day)"
THREE = "INSERT INTO items VALUES (10, 'Ann', 1, 0), (20, 'Bob', 2, 1), (30, 'Cid', 3, 1)"
TWO = "INSERT INTO sales VALUES (10, 'mon', 4), (20, 'tue', 5)"
SUMS = "SELECT (SELECT sum(qty) FROM items), (SELECT sum(qty) FROM sales)"


def make(connection, folder, words="", columns=True, tables=("items", "sales")):
    """Makes the virtual tables of a database, whose columns are declared or not."""
    for table in tables:
        of_table = {"items": ITEMS, "sales": SALES}[table] if columns else ""
        done(connection, IN.format(table=table, folder=folder, words=words + of_table))


def shop(room, path=":memory:", **words):
    """A connection with the two tables."""
    connection = room.connect(path, tables=False)
    make(connection, room.folder / "shop", **words)
    return connection


def filled(room, path=":memory:", **words):
    """A connection with the two tables, of three rows and two."""
    connection = shop(room, path, **words)
    done(connection, "BEGIN", THREE, TWO, "COMMIT")
    return connection


def closed(room):
    """Ends all connections, and with them the databases."""
    room.close()
    room.connections.clear()


def in_child(work, kill=False):
    """Does something in a process of its own, which is killed then, or ends without closing anything."""
    child = os.fork()
    if child == 0:
        try:
            work()
            if kill:
                os.kill(os.getpid(), signal.SIGKILL)
            os._exit(0)
        except BaseException:
            traceback.print_exc()
        finally:
            os._exit(1)
    status = os.waitpid(child, 0)[1]
    assert (os.WIFSIGNALED(status) and os.WTERMSIG(status) == signal.SIGKILL) if kill else status == 0, status


def a_table_lasts(room):
    filled(room)
    closed(room)
    c = shop(room, columns=False)
    shows(c, "SELECT * FROM items", (10, "Ann", 1, 0), (20, "Bob", 2, 1), (30, "Cid", 3, 1))
    shows(c, "SELECT * FROM sales", (10, "mon", 4), (20, "tue", 5))
    done(c, "DELETE FROM items WHERE id = 10", "UPDATE sales SET day = 'wed' WHERE item = 10")
    closed(room)
    c = shop(room)  # the columns may be declared of a table that is there
    shows(c, "SELECT id FROM items", (20,), (30,))
    shows(c, "SELECT day FROM sales", ("wed",), ("tue",))


def what_was_committed_outlives_its_process(room):
    """Of each sync, where the process ends without closing anything or is killed right after COMMIT."""
    for sync in ("full", "normal"):
        for kill in (False, True):
            folder = room.folder / f"{sync}{kill}"

            def work():
                c = room.connect(tables=False)
                make(c, folder, f", sync='{sync}'")
                done(c, "BEGIN", THREE, TWO, "COMMIT", "UPDATE items SET qty = 7 WHERE id = 10")
                done(c, "BEGIN", "DELETE FROM items", "DELETE FROM sales")

            in_child(work, kill)
            c = room.connect(tables=False)
            make(c, folder, columns=False)
            shows(c, "SELECT qty FROM items", (7,), (2,), (3,))
            shows(c, SUMS, (12, 9))
            closed(room)


def a_database_in_a_file_has_the_declarations(room):
    path = room.folder / "some.db"
    filled(room, path)
    closed(room)
    c, d = room.connect(path, tables=False), room.connect(path, tables=False)
    shows(c, SUMS, (6, 9))
    done(d, "INSERT INTO items VALUES (40, 'Dee', 4, 0)")
    shows(c, SUMS, (10, 9))

    def work():
        other = room.connect(path, tables=False)
        taken = "the database is open already, by another process or beside SQLite"
        refused(other, SUMS, BUSY, f"pdt: {room.folder}/shop: {taken}")

    in_child(work)
    closed(room)
    in_child(lambda: shows(room.connect(path, tables=False), SUMS, (10, 9)))


def columns_are_declared(room):
    c, folder = room.connect(tables=False), room.folder / "wide"
    words = """ , "a ""b" int PRIMARY  KEY NOT NULL, [c d] TEXT NOT NULL,\n`e` Bool, limit integer, table TEXT"""
    done(c, f"CREATE VIRTUAL TABLE t USING pdt ( database = '{folder}' , table = \"it's\"{words}, recent=7)")
    found = [(row[1], row[2], row[3], row[5]) for row in c.run("PRAGMA table_info(t)")]
    assert found == [('a "b', "INT", 1, 1), ("c d", "TEXT", 1, 0), ("e", "BOOLEAN", 1, 0), ("limit", "INTEGER", 1, 0),
                     ("table", "TEXT", 1, 0)], found  # fmt: skip
    done(c, "INSERT INTO t VALUES (1, 'x', 1, 2, 'y')")
    refused(c, "INSERT INTO t VALUES (2, 'x', 7, 2, 'y')", CONSTRAINT, 'pdt: column "e": 7 is not a bool: 0 or 1 is wanted')
    done(c, "DROP TABLE t", f"CREATE VIRTUAL TABLE t USING pdt(database='{folder}', table='it''s')")
    shows(c, "SELECT * FROM t", (1, "x", 1, 2, "y"))
    key = ", b TEXT, a INTEGER, c BOOLEAN, d INTEGER, v TEXT, PRIMARY KEY(b,a , c, d)"
    done(c, f"CREATE VIRTUAL TABLE u USING pdt(database='{folder}', table='u'{key})")
    done(c, "INSERT INTO u VALUES ('x', 2, 0, 1, ''), ('x', 1, 1, 1, ''), ('a', 9, 0, 0, '')")
    shows(c, "SELECT b, a FROM u", ("a", 9), ("x", 1), ("x", 2))
    of_file = f"'{room.folder}/t.csv', database='{folder}', table='rows'"
    done(c, f"CREATE VIRTUAL TABLE r USING pdt({of_file})", "DELETE FROM r WHERE id = 20")
    done(c, "DROP TABLE r", f"CREATE VIRTUAL TABLE r USING pdt({of_file})")  # the file is of a table that is made
    shows(c, "SELECT id FROM r", (10,), (30,))


def declarations_are_refused(room):
    c, folder = room.connect(tables=False), room.folder
    bad, wide = folder / "bad.csv", folder / "wide.csv"
    bad.write_text("id:int:key\n7\nx\n")
    wide.write_text("id:int:key,ID:int\n1,2\n")
    in_new, columns = f"database='{folder}/new', table='x'", "id INTEGER PRIMARY KEY"
    many = ", ".join(f"c{i} INTEGER" for i in range(32))
    types = "is INTEGER, REAL, DATE, TIMESTAMP, TEXT or BOOLEAN, not"
    comma, quotes = "a comma is missing before", ", or quotes around what has a blank"
    for words, text in [
        (f"database='{folder}/new'", "name a table of the database, as pdt(database='DIR', table='NAME')"),
        (f"database='{folder}/new', database='x'", "a table has one database, and one name there"),
        (f"{in_new}, checkpoint='{folder}'", "a table is a checkpoint's or a database's"),
        (f"{in_new}, '{folder}/t.csv', {columns}", "a table is made of columns or of a file"),
        (f"{in_new}, sync=fast", "sync is full, normal or off, not fast"),
        (f"{in_new}, name BLOB, {columns}", f"column name {types} BLOB"),
        (f"{in_new}, id PRIMARY KEY", f"column id {types} PRIMARY"),
        (f"{in_new}, {columns} DESC", "column id is NOT NULL and may be PRIMARY KEY, and not DESC"),
        (f"{in_new}, {columns}, name TEXT DEFAULT ''", "column name is NOT NULL and may be PRIMARY KEY, and not DEFAULT ''"),
        (f"{in_new}, name TEXT, {columns}", "the columns of the key come first, in its order"),
        (f"{in_new}, a TEXT, b TEXT, PRIMARY KEY (b, a)", "the columns of the key come first, in its order"),
        (f"{in_new}, a TEXT, PRIMARY KEY (a, b)", "the columns of the key come first, in its order"),
        (f"{in_new}, PRIMARY KEY (a)", "the columns of the key come first, in its order"),
        (f"{in_new}, a TEXT, PRIMARY KEY a", "a key is declared as PRIMARY KEY (a, b), not as PRIMARY KEY a"),
        (f"{in_new}, a TEXT, PRIMARY KEY (a) x", "a key is declared as PRIMARY KEY (a, b), not as PRIMARY KEY (a) x"),
        (f"{in_new}, {columns}, PRIMARY KEY (id)", "a table has one key; of several columns it is PRIMARY KEY (a, b)"),
        (f"{in_new}, {columns}, b TEXT PRIMARY KEY", "a table has one key; of several columns it is PRIMARY KEY (a, b)"),
        (f"{in_new}, PRIMARY KEY (a, b, c, d, e)", "a key has at most 4 columns"),
        (f"{in_new}, id INTEGER, name TEXT",
         "declare the key, as id INTEGER PRIMARY KEY, or behind the columns as PRIMARY KEY (a, b)"),
        (f"{in_new}, {columns}, ID TEXT", "duplicate column name: ID"),
        (f"{in_new}, {columns}, {many}", "a table has at most 32 columns"),
        (f'{in_new}, {columns}, "a:b" TEXT', "a column's name has 1 to 64 bytes and no colon"),
        (f'{in_new}, {columns}, {"n" * 65} TEXT', "a column's name has 1 to 64 bytes and no colon"),
        (f"{in_new}, {columns}, colour", "no such word: colour"),
        (f"{in_new} qty INTEGER, {columns}", f"{comma} qty INTEGER{quotes}"),
        (f"{in_new[:-1]}''y' || 'z', {columns}", f"{comma} || 'z'{quotes}"),
        (f"database='{folder}/new' garbage, table='x', {columns}", f"{comma} garbage{quotes}"),
        (f"database={folder}/new table='x', {columns}", f"{comma} table='x'{quotes}"),
        (f"{in_new}, sync='off' q INTEGER, {columns}", f"{comma} q INTEGER{quotes}"),
        (f"{in_new}, sync=off q INTEGER, {columns}", f"{comma} q INTEGER{quotes}"),
        (f"checkpoint='{folder}' recent=7", f"{comma} recent=7{quotes}"),
        (f"{in_new}, {columns} q INTEGER", "column id is NOT NULL and may be PRIMARY KEY, and not q INTEGER"),
        (f"{in_new}, {columns}, recent=7 limit=8", "recent is a number from 1 on, not 7 limit=8"),
        (f"{in_new}, {columns}, conflicts=row limit=8", "conflicts is row or column, not row limit=8"),
        (f"{in_new}, a TEXT, PRIMARY KEY (a) b TEXT", "a key is declared as PRIMARY KEY (a, b), not as PRIMARY KEY (a) b TEXT"),
        (f"'{folder}/t.csv' recent=7", f"column {folder}/t.csv is INTEGER, REAL, DATE, TIMESTAMP, TEXT or BOOLEAN, not recent"),
        (f"'{folder}/t.csv', {columns}",
         "a table's name, sync and columns are those of a database, as pdt(database='DIR', table='NAME')"),
        (f"checkpoint='{folder}', sync=off",
         "a table's name, sync and columns are those of a database, as pdt(database='DIR', table='NAME')"),
    ]:  # fmt: skip
        refused(c, f"CREATE VIRTUAL TABLE x USING pdt({words})", ERROR, "pdt: " + text)
    nowhere = f"pdt: {folder}/new: a file failed: No such file or directory"
    refused(c, f"CREATE VIRTUAL TABLE x USING pdt({in_new})", CANTOPEN, nowhere)
    assert not (folder / "new").exists()
    (folder / "new").mkdir()
    no_database = f"pdt: {folder}/new has no manifest, and so is no database"
    refused(c, f"CREATE VIRTUAL TABLE x USING pdt({in_new})", CANTOPEN, no_database)
    refused(c, f"SELECT pdt_drop('{folder}/new', 'x')", CANTOPEN, no_database)
    assert not list((folder / "new").iterdir())
    make(c, folder / "shop")
    for words, text in [
        (f"database='{folder}/shop', table='x'",
         f"{folder}/shop has no table x, and no columns are declared to make it with"),
        (f"database='{folder}/shop', table='Items', {columns}, recent=65537",
         f"Items in {folder}/shop: recent is 65537: 1 to 65,536 is wanted"),
        (f"database='{folder}/shop', table='items', {columns}", f"items in {folder}/shop has other columns"),
        (f"database='{folder}/shop', table='items'", f"the connection has a table of items in {folder}/shop"),
        (f"database='{folder}/shop', table='x', sync='off', {columns}", f"{folder}/shop is open with another sync"),
        (f"database='{folder}/shop', table='', {columns}",
         "a table's name has 1 to 64 bytes of UTF-8, and no control characters"),
        (
            f"'{bad}', database='{folder}/shop', table='x'",
            f'{bad}: line 3, column "id": "x" is not an int: a whole number of 64 bits is wanted',
        ),
        (f"'/dev/zero', database='{folder}/shop', table='x'", "/dev/zero is no regular file"),
        (f"'{wide}', database='{folder}/shop', table='x'", f"{wide}: duplicate column name: ID"),
        (f"'{folder}/none.csv', database='{folder}/shop', table='x'",
         f"{folder}/none.csv: a file failed: No such file or directory"),
    ]:  # fmt: skip
        try:
            c.run(f"CREATE VIRTUAL TABLE x USING pdt({words})")
            raise AssertionError(words)
        except Error as error:
            is_told = error.text.startswith("pdt: " + text) if text.endswith(" ") else error.text == "pdt: " + text
            assert error.code == ERROR and is_told, error
    refused(c, f"CREATE VIRTUAL TABLE x USING pdt(database='{folder}/shop', table='x')", ERROR,
            f"pdt: {folder}/shop has no table x, and no columns are declared to make it with")  # fmt: skip
    missing = f"pdt: {folder}/none/new: a file failed: No such file or directory"
    refused(c, f"CREATE VIRTUAL TABLE x USING pdt(database='{folder}/none/new', table='x', {columns})", CANTOPEN, missing)


def a_commit_is_of_all_tables_or_none(room):
    a, b = filled(room), shop(room)
    done(a, "BEGIN", "UPDATE items SET qty = qty + 100", "DELETE FROM sales WHERE item = 10")
    shows(a, SUMS, (306, 5))
    shows(b, SUMS, (6, 9))
    done(a, "COMMIT")
    shows(b, SUMS, (306, 5))
    done(a, "BEGIN", "UPDATE items SET qty = 0", "DELETE FROM sales")
    shows(a, SUMS, (0, None))
    done(a, "ROLLBACK")
    shows(a, SUMS, (306, 5))
    shows(b, SUMS, (306, 5))
    # a conflict in one table is none of the other's, and all is refused
    for loser in ("UPDATE items SET qty = 1 WHERE id = 10", "UPDATE sales SET qty = 1 WHERE item = 20"):
        done(a, "BEGIN", "UPDATE items SET qty = 2 WHERE id = 10", "UPDATE sales SET qty = 2 WHERE item = 20")
        done(b, loser)
        refused(a, "COMMIT", BUSY_SNAPSHOT, IN_CONFLICT)
        assert a.is_over()
        shows(a, SUMS, *b.run(SUMS))
    shows(a, SUMS, (1 + 102 + 103, 1))
    # other rows of the same tables are no conflict
    done(a, "BEGIN", "UPDATE items SET qty = 2 WHERE id = 10", "INSERT INTO sales VALUES (30, 'wed', 2)")
    done(b, "BEGIN", "UPDATE items SET qty = 2 WHERE id = 20", "INSERT INTO sales VALUES (30, 'thu', 2)", "COMMIT")
    done(a, "COMMIT")
    shows(b, SUMS, (2 + 2 + 103, 5))


def reads_are_of_one_moment(room):
    a, b = filled(room), shop(room)
    done(a, "BEGIN")
    shows(a, "SELECT sum(qty) FROM items", (6,))
    done(b, "BEGIN", "UPDATE items SET qty = 0", "UPDATE sales SET qty = 0", "COMMIT")
    shows(a, "SELECT sum(qty) FROM sales", (9,))  # first read after that commit, and as of before it
    shows(a, SUMS, (6, 9))
    done(a, "COMMIT")
    shows(a, SUMS, (0, 0))
    # outside a transaction a statement that is open keeps both tables, and a write has a moment of its own
    reading = a.rows("SELECT id, item FROM items, sales ORDER BY id, item")
    found = [next(reading)]
    done(b, "BEGIN", "DELETE FROM items WHERE id > 10", "DELETE FROM sales WHERE item > 10", "COMMIT")
    done(a, "INSERT INTO items SELECT id + 1, name, 77, sold FROM items")
    done(a, "INSERT INTO sales SELECT item + 1, day, 77 FROM sales")
    assert found + list(reading) == [(i, j) for i in (10, 20, 30) for j in (10, 20)]
    shows(a, "SELECT id, qty FROM items", (10, 0), (11, 77))
    shows(b, "SELECT item, qty FROM sales", (10, 0), (11, 77))
    # a host that has taken the trace callback away gets no older table unawares, of whichever table
    a.trace()
    done(a, "BEGIN")
    shows(a, "SELECT count(*) FROM items", (2,))
    done(b, "DELETE FROM sales WHERE item = 10")
    done(a, "COMMIT", "BEGIN")
    refused(a, "SELECT count(*) FROM sales", ERROR, BLIND)
    refused(a, "SELECT count(*) FROM items", ERROR, BLIND)
    done(a, "ROLLBACK")
    shows(a, "SELECT count(*) FROM sales", (1,))


def a_statement_with_triggers_is_of_one_moment(room):
    """Another connection commits between the programs of its triggers, and between its own reads."""
    a, b, seen = filled(room), shop(room), []
    count = "SELECT count(*) FROM items"
    a.function("commits", lambda: b.run("INSERT INTO items SELECT max(id) + 1, '', 0, 0 FROM items"))
    a.function("reads", lambda: seen.extend(a.run(count)))
    done(a, "CREATE TABLE plain (k)", "CREATE TABLE log (items, sales)", "CREATE TRIGGER on_plain AFTER INSERT ON plain BEGIN "
            f"INSERT INTO log SELECT ({count}), (SELECT count(*) FROM sales); SELECT commits(); SELECT reads(); END")  # fmt: skip
    done(a, "INSERT INTO plain VALUES (1), (2), (3)")
    shows(a, f"-- of a later moment, since a comment is no program of a trigger\n{count}", (6,))
    shows(a, "SELECT * FROM log", (3, 2), (3, 2), (3, 2))
    assert seen == [(3,), (3,), (3,)], seen
    shows(a, f"SELECT ({count}), commits(), ({count}), reads(), ({count}) UNION ALL SELECT ({count}), 0, 0, 0, ({count})",
          (6, None, 6, None, 6), (6, 0, 0, 0, 6))  # fmt: skip
    assert seen[3:] == [(6,)], seen
    shows(a, count, (7,))
    # one that writes a table in each program sees its own writes, and another's commit after it
    done(a, "CREATE TRIGGER on_log AFTER INSERT ON log BEGIN INSERT INTO sales VALUES (new.items, 'x', (SELECT count(*) FROM items)); END")
    done(a, "DELETE FROM sales", "DELETE FROM log", "DROP TRIGGER on_plain", "INSERT INTO log VALUES (1, commits()), (2, commits())")
    shows(a, "SELECT item, qty FROM sales", (1, 7), (2, 7))
    shows(a, count, (9,))
    done(a, "BEGIN", "INSERT INTO log VALUES (3, commits()), (4, commits())", "COMMIT")
    shows(a, "SELECT item, qty FROM sales WHERE item > 2", (3, 9), (4, 9))


def skewed(room, name, words, begin, last):
    """Two connections on one file read what two rows have, and then each takes 15. The code that the second one ends with, and the rows."""
    path = room.folder / f"{name}.db"
    a, b = room.connect(path, tables=False), room.connect(path, tables=False)
    shows(a, "PRAGMA journal_mode = WAL", ("wal",))
    in_shop = f"database='{room.folder}/shop', table='{name}'{words}, id INTEGER PRIMARY KEY, a INTEGER, b INTEGER"
    done(a, "CREATE TABLE t (id INTEGER PRIMARY KEY, a, b)" if "own" in name else f"CREATE VIRTUAL TABLE t USING pdt({in_shop})")
    done(a, "INSERT INTO t VALUES (1, 10, 10), (2, 10, 10)")
    a.run(begin), shows(a, "SELECT sum(a + b) FROM t", (40,))
    code = None
    try:
        b.run(begin), shows(b, "SELECT sum(a + b) FROM t", (40,))
        done(a, "UPDATE t SET a = a - 15 WHERE id = 1", "COMMIT")
        done(b, *last, "COMMIT")
    except Error as error:
        code = error.code
    for connection in (a, b):
        connection.is_over() or done(connection, "ROLLBACK")
    return code, a.run("SELECT a, b FROM t")


def two_writers_of_what_both_have_read_commit_but_for_these_rules(room):
    columns, rows = ["UPDATE t SET b = b - 15 WHERE id = 1"], ["UPDATE t SET a = a - 15 WHERE id = 2"]
    conflict = (BUSY_SNAPSHOT, [(-5, 10), (10, 10)])
    for name, words, begin, last, wanted in [
        ("own", "", "BEGIN", columns, conflict),
        ("own2", "", "BEGIN", rows, conflict),
        ("t1", "", "BEGIN", columns, (None, [(-5, -5), (10, 10)])),
        ("t2", "", "BEGIN", rows, (None, [(-5, 10), (-5, 10)])),
        ("t3", ", conflicts=row", "BEGIN", columns, conflict),
        ("t4", ", conflicts=row", "BEGIN", rows, (None, [(-5, 10), (-5, 10)])),
        ("t5", "", "BEGIN", ["UPDATE t SET a = a", *rows], conflict),
        ("t6", "", "BEGIN IMMEDIATE", columns, (BUSY, [(10, 10), (10, 10)])),  # the second one doesn't begin
    ]:
        assert (found := skewed(room, name, words, begin, last)) == wanted, (name, found)


def what_no_schema_has_any_more_is_let_go(room):
    """A database that was detached, and a table that another connection has dropped, whatever statements are kept."""
    path, folder = room.folder / "some.db", room.folder / "shop"
    off = IN.format(table="items", folder=folder, words=", sync=off" + ITEMS)
    a = room.connect(path, tables=False)
    done(a, f"ATTACH '{room.folder}/more.db' AS more", IN.format(table="more.items", folder=folder, words=ITEMS).replace("='more.", "='"))
    kept = [a.prepare("SELECT id FROM items"), a.prepare("DELETE FROM items WHERE id = 1")]
    assert list(a.step(kept[0])) == [] == list(a.step(kept[1]))
    done(a, THREE, "DETACH more", "SELECT 1 WHERE 0")
    done(room.connect(tables=False), off, "DROP TABLE items")  # opened with another sync, since it was closed
    done(a, off)
    shows(a, "SELECT count(*) FROM items", (3,))
    # by the connection's next table, or its next call of a function of pdt
    b = room.connect(path, tables=False)
    drop = f"SELECT pdt_drop('{folder}', 'items')"
    for lets_go in (
        f"SELECT pdt_fold('x') FROM (SELECT 1) WHERE 0; {drop}",
        off.replace("TABLE items", "TABLE temp.x").replace("'items'", "'x'"),
    ):
        shows(b, "SELECT count(*) FROM items", *a.run("SELECT count(*) FROM items"))
        kept.append(a.prepare("SELECT id FROM items"))
        done(b, "DROP TABLE items")
        refused(b, drop, LOCKED, f"pdt: items in {folder} is a table of a connection: drop that first")
        refused(a, "SELECT * FROM items", ERROR, "no such table: items")
        a.run(lets_go.rpartition("; ")[2])
        if "temp.x" in lets_go:
            shows(b, drop, (None,))
        done(a, off)
        shows(a, "SELECT count(*) FROM items", (0,))
    for statement in kept:
        a.finalize(statement)


def a_foreign_key_to_a_table_is_a_mismatch(room):
    """As to one of R-Tree or FTS5, and no damage of SQLite's file."""
    c = filled(room)
    shows(c, "PRAGMA foreign_keys = ON")
    done(c, "CREATE TABLE child (x REFERENCES items(id))", "CREATE TABLE more (x, y, FOREIGN KEY (x, y) REFERENCES sales(item, day))")
    for table, of in (("child", "items"), ("more", "sales")):
        mismatch = f'foreign key mismatch - "{table}" referencing "{of}"'
        refused(c, f"INSERT INTO {table} (x) VALUES (10)", ERROR, mismatch)
        refused(c, f"PRAGMA foreign_key_check({table})", ERROR, mismatch)
    done(c, "DELETE FROM items WHERE id = 10", "UPDATE items SET id = 11 WHERE id = 20")
    shows(c, "SELECT id FROM items", (11,), (30,))
    shows(c, "SELECT name, pk FROM pragma_table_info('items') WHERE pk", ("id", 1))
    shows(c, "SELECT id FROM items WHERE id = '11 '", *c.run("SELECT 11 WHERE 11 = CAST('11 ' AS INTEGER)"))
    done(c, IN.format(table="words", folder=room.folder / "shop", words=", word TEXT PRIMARY KEY"))
    done(c, "INSERT INTO words VALUES ('a'), ('a ')")
    shows(c, "SELECT count(*), count(DISTINCT word) FROM words", (2, 2))
    shows(c, "SELECT count(*) FROM words WHERE word = 'a'", (1,))
    shows(c, "SELECT DISTINCT word FROM words ORDER BY word DESC", ("a ",), ("a",))


def savepoints_are_of_all_tables(room):
    c = filled(room)
    done(c, "BEGIN", "UPDATE items SET qty = 10 WHERE id = 10", "SAVEPOINT a", "DELETE FROM sales WHERE item = 10")
    done(c, "SAVEPOINT b", "DELETE FROM items WHERE id = 30", "INSERT INTO sales VALUES (30, 'wed', 7)")
    shows(c, SUMS, (12, 12))
    done(c, "ROLLBACK TO b")
    shows(c, SUMS, (15, 5))
    done(c, "INSERT INTO sales VALUES (40, 'thu', 1)", "RELEASE b", "ROLLBACK TO a")
    shows(c, SUMS, (15, 9))
    done(c, "INSERT INTO sales VALUES (50, 'fri', 1)", "RELEASE a", "COMMIT")
    shows(c, SUMS, (15, 10))
    # where all that was written is undone nothing is, and a table that first is written below a savepoint goes with it
    done(c, "SAVEPOINT a", "DELETE FROM items", "SAVEPOINT b", "DELETE FROM sales", "ROLLBACK TO a", "RELEASE a")
    shows(c, SUMS, (15, 10))
    # a statement that fails half-way is undone in both
    done(c, "CREATE TABLE plain (k INTEGER PRIMARY KEY)")
    done(c, "CREATE TRIGGER on_plain AFTER INSERT ON plain BEGIN UPDATE items SET qty = qty + 1 WHERE id = 10; "
            "INSERT INTO sales VALUES (new.k, 'x', 1); END")  # fmt: skip
    done(c, "INSERT INTO plain VALUES (1), (2)")
    shows(c, SUMS, (17, 12))
    done(c, "BEGIN", "INSERT INTO plain VALUES (3)")
    twice = 'pdt: a row with the key item=5, day="x" exists'
    done(c, "INSERT INTO sales VALUES (5, 'x', 1)")
    refused(c, "INSERT INTO plain VALUES (4), (5)", CONSTRAINT, twice)
    shows(c, SUMS, (18, 14))
    shows(c, "SELECT k FROM plain", (1,), (2,), (3,))
    done(c, "COMMIT")
    refused(c, "INSERT INTO plain VALUES (4), (5)", CONSTRAINT, twice)
    shows(c, SUMS, (18, 14))


def sqlites_own_tables_are_in_the_transaction(room):
    path = room.folder / "some.db"
    c = filled(room, path)
    done(c, "CREATE TABLE own (k INTEGER PRIMARY KEY, of REFERENCES own DEFERRABLE INITIALLY DEFERRED)")
    done(c, "BEGIN", "INSERT INTO own (k) VALUES (1)", "DELETE FROM sales", "ROLLBACK")
    shows(c, "SELECT (SELECT count(*) FROM own), (SELECT count(*) FROM sales)", (0, 2))
    done(c, "BEGIN", "INSERT INTO own (k) VALUES (1)", "UPDATE items SET qty = 5", "DELETE FROM sales WHERE item = 10", "COMMIT")
    shows(c, "SELECT (SELECT count(*) FROM own), (SELECT count(*) FROM sales)", (1, 1))
    # what SQLite refuses before it asks for the commit commits nothing
    shows(c, "PRAGMA foreign_keys = ON")
    done(c, "BEGIN", "INSERT INTO own VALUES (2, 77)", "DELETE FROM sales")
    refused(c, "COMMIT", CONSTRAINT | 3 << 8, "FOREIGN KEY constraint failed")
    done(c, "ROLLBACK")
    shows(c, "SELECT (SELECT count(*) FROM own), (SELECT count(*) FROM sales)", (1, 1))
    # and a conflict, of which SQLite hears first, undoes its own tables' writes
    other = shop(room)
    done(c, "BEGIN", "INSERT INTO own (k) VALUES (2)", "UPDATE items SET qty = 6 WHERE id = 10")
    done(other, "UPDATE items SET qty = 7 WHERE id = 10")
    refused(c, "COMMIT", BUSY_SNAPSHOT, IN_CONFLICT)
    shows(c, "SELECT k FROM own", (1,))


def what_sqlite_cant_commit_after_it_stands(room):
    """A reader of the same file holds up SQLite's own commit, which comes after that of the tables."""
    path = room.folder / "some.db"
    a, b = filled(room, path), room.connect(path, tables=False)
    done(a, "CREATE TABLE own (k)")
    for end in ("COMMIT", "ROLLBACK"):
        done(b, "BEGIN")
        wanted = b.run("SELECT k FROM own")
        done(a, "BEGIN", f"INSERT INTO own VALUES ('{end}')", "UPDATE items SET qty = qty + 1", "DELETE FROM sales")
        refused(a, "COMMIT", BUSY, "database is locked")
        shows(shop(room), SUMS, (a.run("SELECT sum(qty) FROM items")[0][0], None))
        done(a, "INSERT INTO sales VALUES (1, 'x', 8)")  # SQLite's transaction is open still: the next write begins anew
        done(b, "COMMIT")
        done(a, end)
        shows(b, "SELECT k FROM own", *(wanted if end == "ROLLBACK" else [(end,)]))
        shows(b, "SELECT qty FROM sales", *([] if end == "ROLLBACK" else [(8,)]))
        done(a, "DELETE FROM sales")
    shows(b, "SELECT sum(qty) FROM items", (12,))
    # a commit hook is asked after it too
    done(a, "BEGIN", "INSERT INTO own VALUES ('hook')", "UPDATE items SET qty = 0")
    a.refuse_commits(True)
    refused(a, "COMMIT", CONSTRAINT | 2 << 8, "constraint failed")
    a.refuse_commits(False)
    shows(a, "SELECT k, (SELECT sum(qty) FROM items) FROM own", ("COMMIT", 0))


def one_database_is_written_in_a_transaction(room):
    c, other = filled(room), room.folder / "other"
    done(c, f"CREATE VIRTUAL TABLE far USING pdt(database='{other}', table='far', id INTEGER PRIMARY KEY)")
    done(c, f"CREATE VIRTUAL TABLE t USING pdt('{room.folder}/t.csv')")
    only = "pdt: a transaction writes tables of one database of pdt, or one table alone, and this one has written "
    for first, last, name in [
        ("DELETE FROM items", "INSERT INTO far VALUES (1)", "items"),
        ("INSERT INTO far VALUES (1)", "DELETE FROM sales", "far"),
        ("DELETE FROM sales", "DELETE FROM t", "sales"),
        ("DELETE FROM t", "DELETE FROM items", "t"),
    ]:
        done(c, "BEGIN", first)
        refused(c, last, ERROR, only + name)
        shows(c, "SELECT count(*) FROM far", *c.run("SELECT count(*) FROM far"))  # each may be read
        done(c, "ROLLBACK")
    shows(c, "SELECT (SELECT count(*) FROM items), (SELECT count(*) FROM far), (SELECT count(*) FROM t)", (3, 0, 3))
    done(c, "BEGIN", "SAVEPOINT a", "DELETE FROM items", "ROLLBACK TO a", "INSERT INTO far VALUES (1)", "COMMIT")
    shows(c, "SELECT id FROM far", (1,))


def a_drop_leaves_the_table_in_its_database(room):
    a, folder = filled(room), room.folder / "shop"
    drop = f"SELECT pdt_drop('{folder}', 'items')"
    refused(a, drop, LOCKED, f"pdt: items in {folder} is a table of a connection: drop that first")
    done(a, "DROP TABLE items")
    make(a, folder, columns=False, tables=["items"])
    shows(a, SUMS, (6, 9))
    # what was written before a drop isn't committed, and what was written beside it is
    b = shop(room)
    done(a, "BEGIN", "DELETE FROM items", "DELETE FROM sales WHERE item = 10", "DROP TABLE items", "COMMIT")
    shows(b, SUMS, (6, 5))
    make(a, folder, columns=False, tables=["items"])
    # a drop that is undone brings its writes back
    done(a, "BEGIN", "DELETE FROM items WHERE id = 10", "SAVEPOINT a", "DROP TABLE items", "ROLLBACK TO a", "COMMIT")
    shows(b, SUMS, (5, 5))
    # one that is made anew where it was written can't be told from it
    done(a, "BEGIN", "DELETE FROM items WHERE id = 20", "SAVEPOINT a", "DROP TABLE items")
    make(a, folder, columns=False, tables=["items"])
    again = "pdt: the transaction has written items before it was dropped: commit that first"
    refused(a, "SELECT * FROM items", ERROR, again)
    done(a, "ROLLBACK TO a")
    shows(a, "SELECT id FROM items", (30,))
    done(a, "ROLLBACK")
    # where it was read alone it has writes of its own, which go with its making
    done(a, "BEGIN", "DELETE FROM sales", "SAVEPOINT z", "INSERT OR IGNORE INTO items VALUES (20, 'there', 0, 0)", "RELEASE z")
    shows(a, "SELECT count(*) FROM items", (2,))
    done(a, "SAVEPOINT a", "DROP TABLE items")
    make(a, folder, columns=False, tables=["items"])
    done(a, "INSERT INTO items VALUES (1, '', 9, 1)", "SAVEPOINT b", "INSERT INTO items VALUES (2, '', 1, 1)", "ROLLBACK TO b")
    shows(a, SUMS, (14, None))
    done(a, "ROLLBACK TO a")
    shows(a, SUMS, (5, None))
    done(a, "COMMIT")
    shows(b, SUMS, (5, None))
    # the function drops what nobody has
    done(a, "DROP TABLE items")
    done(b, "DROP TABLE items", "BEGIN")
    shows(b, "SELECT count(*) FROM sales", (0,))
    refused(a, drop, LOCKED, f"pdt: {folder}: a transaction is open over its tables")
    done(b, "COMMIT")
    shows(b, "SELECT count(*) FROM sales", (0,))
    shows(a, drop, (None,))
    refused(a, drop, ERROR, f"pdt: {folder} has no table items")
    closed(room)
    c = room.connect(tables=False)
    shows(c, f"SELECT pdt_drop('{folder}', 'sales')", (None,))
    refused(c, f"SELECT pdt_drop('{folder}', NULL)", ERROR, "pdt: name a folder and a table, as pdt_drop('DIR', 'NAME')")
    make(c, folder)
    shows(c, SUMS, (None, None))


def a_making_that_is_undone_takes_its_table_away(room):
    a, folder = room.connect(tables=False), room.folder / "shop"
    has_none = f"pdt: {folder} has no table items, and no columns are declared to make it with"
    make(a, folder, tables=["sales"])
    ask = IN.format(table="items", folder=folder, words="")
    for undo in (["ROLLBACK"], ["ROLLBACK TO a", "COMMIT"]):
        done(a, "BEGIN", "SAVEPOINT a")
        make(a, folder, tables=["items"])
        done(a, *undo)
        refused(a, ask, ERROR, has_none)
    # also where it was written; its database transaction has it, and so it stays where the transaction goes on
    done(a, "BEGIN")
    make(a, folder, tables=["items"])
    done(a, THREE, TWO)
    shows(a, SUMS, (6, 9))
    done(a, "ROLLBACK")
    refused(a, ask, ERROR, has_none)
    done(a, "BEGIN", "SAVEPOINT a")
    make(a, folder, tables=["items"])
    done(a, THREE, "ROLLBACK TO a", TWO, "COMMIT")
    make(a, folder, tables=["items"])
    shows(a, SUMS, (None, 9))
    # what somebody else has by then stays, with its commits
    done(a, "DROP TABLE items")
    shows(a, f"SELECT pdt_drop('{folder}', 'items')", (None,))
    done(a, "BEGIN")
    make(a, folder, tables=["items"])
    b = shop(room)
    done(b, THREE)
    done(a, "ROLLBACK")
    shows(b, SUMS, (6, 9))
    closed(room)
    shows(shop(room, columns=False), SUMS, (6, 9))
    closed(room)
    # also where that one only reads
    path = room.folder / "some.db"
    shop(room, path)
    closed(room)
    a = room.connect(tables=False)
    shows(a, f"SELECT pdt_drop('{folder}', 'items')", (None,))
    done(a, "BEGIN")
    make(a, folder, tables=["items"])
    b = room.connect(path, tables=False)
    shows(b, SUMS, (None, 9))
    done(a, "ROLLBACK")
    closed(room)
    shows(room.connect(path, tables=False), SUMS, (None, 9))
    closed(room)
    # what is kept is there; so is what was written in the transaction that made it
    c, new = room.connect(tables=False), room.folder / "new"
    done(c, "BEGIN")
    make(c, new)
    done(c, THREE, TWO, "COMMIT")
    closed(room)
    c = room.connect(tables=False)
    make(c, new, columns=False)
    shows(c, SUMS, (6, 9))


def a_table_that_is_made_later_waits_for_the_next_transaction(room):
    c, folder = room.connect(tables=False), room.folder / "shop"
    make(c, folder, tables=["items"])
    done(c, "BEGIN", THREE)
    make(c, folder, tables=["sales"])
    later = "pdt: sales was made after its database was first read or written here: end that first"
    refused(c, TWO, ERROR, later)
    refused(c, "SELECT * FROM sales", ERROR, later)
    done(c, "COMMIT", TWO)
    shows(c, SUMS, (6, 9))


def statements_half_way(room):
    c = filled(room)
    done(c, "BEGIN", "UPDATE items SET qty = 0")
    writes, reads = c.rows("SELECT id FROM items"), c.rows("SELECT item FROM sales")
    next(writes), next(reads)
    done(c, "COMMIT")  # the database transaction is over, and what it has read too
    for rows in (writes, reads):
        try:
            next(rows)
            raise AssertionError("a row of a transaction that is over")
        except Error as error:
            assert (error.code, error.text) == (ABORT, "pdt: the transaction that this statement read in is over")
    done(c, "BEGIN", "UPDATE items SET qty = 9")
    reads = c.rows("SELECT item FROM sales")
    found = [next(reads)]
    done(c, "ROLLBACK")  # what only was read is as it was
    assert found + list(reads) == [(10,), (20,)]
    done(c, "BEGIN")
    reads = c.rows("SELECT item FROM sales")
    found = [next(reads)]
    done(c, "COMMIT", "DELETE FROM sales WHERE item = 20")  # nothing was written: it reads on
    assert found + list(reads) == [(10,), (20,)]
    shows(c, SUMS, (0, 4))
    # a row is written for each that is read
    for (item,) in c.rows("SELECT item FROM sales"):
        done(c, f"INSERT INTO items VALUES ({item} + 1, 'new', {item}, 1)")
    done(c, "BEGIN")
    for (key,) in c.rows("SELECT id FROM items ORDER BY id"):
        done(c, f"INSERT INTO sales VALUES ({key} + 100, 'x', 1)")
    done(c, "COMMIT")
    shows(c, SUMS, (10, 8))


def a_table_whose_making_is_undone_has_no_reader(room):
    """Whatever is made in its place, and written there."""
    c, folder = filled(room), room.folder / "shop"
    done(c, "DROP TABLE sales", "BEGIN", "SAVEPOINT a")
    make(c, folder, columns=False, tables=["sales"])
    reads = c.rows("SELECT item FROM sales")
    assert next(reads) == (10,)
    done(c, "ROLLBACK TO a")
    make(c, folder, columns=False, tables=["sales"])
    done(c, "DELETE FROM sales WHERE item = 20")
    try:
        raise AssertionError(f"what is read of it is {list(reads)}")
    except Error as error:
        assert error.code & 255 == ABORT, error
    done(c, "COMMIT")
    shows(c, "SELECT item FROM sales", (10,))


def two_connections_share_a_database(room):
    (room.folder / "away").mkdir()
    here = os.getcwd()
    a = room.connect(tables=False)
    try:
        os.chdir(room.folder)
        make(a, "shop")
        os.chdir(room.folder / "away")
        done(a, THREE, "BEGIN", "CREATE TABLE z (x)", "ROLLBACK", "VACUUM")
        shows(a, SUMS, (6, None))
        b = room.connect(tables=False)
        make(b, "../shop", columns=False)
        os.symlink(room.folder / "shop", "link")
        c = room.connect(tables=False)
        make(c, "link", columns=False)
    finally:
        os.chdir(here)
    done(b, TWO)
    for connection in (a, b, c):
        shows(connection, SUMS, (6, 9))
    for connection in (a, b):
        done(connection, "DROP TABLE items", "DROP TABLE sales")
    shows(c, SUMS, (6, 9))
    done(c, "DROP TABLE items", "DROP TABLE sales")
    # nobody has it: it is closed, and opened with another sync
    make(a, room.folder / "shop", ", sync='off'")
    shows(a, SUMS, (6, 9))
    other_sync = f"pdt: {room.folder}/shop is open with another sync"
    refused(b, IN.format(table="items", folder=room.folder / "shop", words=""), ERROR, other_sync)
    done(a, "UPDATE items SET qty = 3")
    closed(room)
    shows(shop(room), SUMS, (9, 9))


def one_that_another_process_has_is_busy(room):
    filled(room)
    closed(room)
    ready, go_on = os.pipe(), os.pipe()
    child = os.fork()
    if child == 0:
        try:
            c = shop(room)
            os.write(ready[1], b"x")
            os.read(go_on[0], 1)
            c.close()
            os._exit(0)
        finally:
            os._exit(1)
    os.read(ready[0], 1)
    c, folder = room.connect(tables=False), room.folder / "shop"
    taken = f"pdt: {folder}: the database is open already, by another process or beside SQLite"
    refused(c, IN.format(table="items", folder=folder, words=""), BUSY, taken)
    refused(c, f"SELECT pdt_drop('{folder}', 'items')", BUSY, taken)
    os.write(go_on[1], b"x")
    assert os.waitpid(child, 0)[1] == 0
    make(c, folder)
    shows(c, SUMS, (6, 9))
    for end in ready + go_on:
        os.close(end)


def damage_is_named(room):
    filled(room)
    closed(room)
    folder, c = room.folder / "shop", room.connect(tables=False)
    ask = IN.format(table="items", folder=folder, words="")
    files = sorted(file for file in folder.rglob("*") if file.is_file() and file.name not in ("lock", "manifest-new"))
    named = set()
    for file in files:
        kept = file.read_bytes()
        if not kept:
            continue
        middle = len(kept) // 2
        file.write_bytes(kept[:middle] + bytes([kept[middle] ^ 16]) + kept[middle + 1 :])
        try:
            c.run(ask)
            assert file.name.startswith("journal-"), file  # a last commit that is damaged is one that was cut short
            done(c, "DROP TABLE items")
        except Error as error:
            assert error.code == CORRUPT_VTAB and error.text.startswith(f"pdt: {folder}"), (file, error)
            named.add(error.text)
        file.write_bytes(kept)
    assert f"pdt: {folder}/manifest: a file of the database is damaged" in named, named
    assert any("/image-" in text for text in named), named
    make(c, folder)
    shows(c, SUMS, (6, 9))
    done(c, "CREATE TABLE own (k)", "INSERT INTO own VALUES (1)")  # SQLite's own are none the worse
    closed(room)
    (folder / "manifest").rename(folder / "gone")
    d = room.connect(tables=False)
    refused(d, ask, CANTOPEN, f"pdt: {folder} has no manifest, and so is no database")
    refused(d, IN.format(table="items", folder=folder, words=ITEMS), CORRUPT_VTAB,
            f"pdt: {folder}/manifest: a commit, or a file of the database, is missing")  # fmt: skip
    (folder / "gone").rename(folder / "manifest")
    make(d, folder)
    for qty in range(5):
        done(d, f"UPDATE items SET qty = {qty} WHERE id = 10")
    closed(room)
    # a commit that isn't the last one is missed: those behind it say that it was safe
    (journal,) = [file for file in folder.glob("journal-*") if file.stat().st_size]
    kept = journal.read_bytes()
    journal.write_bytes(kept[:80] + bytes([kept[80] ^ 16]) + kept[81:])
    damaged = f"pdt: {folder}, at commit 1: a file of the database is damaged"
    refused(room.connect(tables=False), ask, CORRUPT_VTAB, damaged)


def a_device_that_fails_takes_no_commit(room):
    """No file of this process may grow any more: what is half written is nothing, and nothing comes after it."""
    filled(room)
    closed(room)
    unsure = "pdt: the device failed over the commit, which is there or not"
    failed = "pdt: the device has failed, and nothing is written until the database is opened again"

    def work():
        c = shop(room)
        done(c, "CREATE TABLE own (k)")
        size = max(file.stat().st_size for file in (room.folder / "shop").glob("journal-*"))
        signal.signal(signal.SIGXFSZ, signal.SIG_IGN)
        resource.setrlimit(resource.RLIMIT_FSIZE, (size + 20, resource.RLIM_INFINITY))
        for text in (unsure, failed, failed):
            done(c, "BEGIN", "INSERT INTO own VALUES (1)", "UPDATE items SET qty = 100", "UPDATE sales SET qty = 100")
            refused(c, "COMMIT", IOERR, text)
            assert c.is_over()
            shows(c, "SELECT count(*) FROM own", (0,))
            shows(c, SUMS, (6, 9))
        refused(c, f"CREATE VIRTUAL TABLE x USING pdt(database='{room.folder}/shop', table='x', id INTEGER PRIMARY KEY)",
                IOERR, f"pdt: x in {room.folder}/shop: {failed[5:]}")  # fmt: skip
        c.close()
        resource.setrlimit(resource.RLIMIT_FSIZE, (resource.RLIM_INFINITY, resource.RLIM_INFINITY))
        d = shop(room)
        shows(d, SUMS, (6, 9))
        done(d, "UPDATE items SET qty = 1", "UPDATE sales SET qty = 1")

    in_child(work)
    shows(shop(room), SUMS, (3, 2))


def functions(room):
    c, copy = filled(room), room.folder / "copy"
    copy.mkdir()
    shows(c, "SELECT pdt_fold('items'), pdt_trim('sales')", (None, None))
    done(c, "BEGIN", "UPDATE items SET qty = 8 WHERE id = 20")
    shows(c, "SELECT layer, kind, cells FROM pdt_layers('items') WHERE layer = 'own'", ("own", "modify", "qty=8"))
    refused(c, f"SELECT pdt_checkpoint('items', '{copy}')", ERROR, "pdt: commit what was written in items first")
    done(c, "COMMIT")
    shows(c, f"SELECT pdt_checkpoint('items', '{copy}')", (None,))
    done(c, "DELETE FROM items", f"CREATE VIRTUAL TABLE copied USING pdt(checkpoint='{copy}')")
    shows(c, "SELECT qty FROM copied", (1,), (8,), (3,))
    done(c, "BEGIN", "DELETE FROM sales WHERE item = 10")
    other = shop(room)
    done(other, "DELETE FROM sales WHERE item = 20")
    shows(other, "SELECT pdt_trim('sales')", (None,))
    refused(c, "COMMIT", BUSY_SNAPSHOT, "pdt: the transaction began before the commits that are kept")


def add(folder, times, failures):
    """Moves one from a table to the other, as many times, in a transaction each."""
    try:
        c = Connection()
        make(c, folder, ", sync='normal'", columns=False)
        for i in range(times):
            while True:
                try:
                    done(c, "BEGIN", f"UPDATE items SET qty = qty + 1 WHERE id = {10 * (i % 3 + 1)}",
                         "UPDATE sales SET qty = qty - 1 WHERE item = 10", "COMMIT")  # fmt: skip
                    break
                except Error as error:
                    assert error.code == BUSY_SNAPSHOT and c.is_over(), error
        c.close()
    except Exception as error:
        failures.append(error)


def threads(room):
    """Four threads move, and another reads: the sum of both tables is what it was, at each moment."""
    keeper, failures = filled(room, words=", sync='normal'"), []
    workers = [threading.Thread(target=add, args=(room.folder / "shop", 60, failures)) for _ in range(4)]
    for worker in workers:
        worker.start()
    while any(worker.is_alive() for worker in workers):
        shows(keeper, "SELECT (SELECT sum(qty) FROM items) + (SELECT sum(qty) FROM sales)", (6 + 9,))
    for worker in workers:
        worker.join()
    assert not failures, failures
    shows(keeper, SUMS, (6 + 240, 9 - 240))


def main():
    tests = [a_table_lasts, what_was_committed_outlives_its_process, a_database_in_a_file_has_the_declarations]
    tests += [columns_are_declared, declarations_are_refused, a_commit_is_of_all_tables_or_none, reads_are_of_one_moment]
    tests += [savepoints_are_of_all_tables, sqlites_own_tables_are_in_the_transaction, what_sqlite_cant_commit_after_it_stands]
    tests += [one_database_is_written_in_a_transaction, a_drop_leaves_the_table_in_its_database]
    tests += [a_making_that_is_undone_takes_its_table_away, a_table_that_is_made_later_waits_for_the_next_transaction]
    tests += [a_table_whose_making_is_undone_has_no_reader, a_statement_with_triggers_is_of_one_moment]
    tests += [two_writers_of_what_both_have_read_commit_but_for_these_rules]
    tests += [what_no_schema_has_any_more_is_let_go, a_foreign_key_to_a_table_is_a_mismatch]
    tests += [statements_half_way, two_connections_share_a_database, one_that_another_process_has_is_busy, damage_is_named]
    run(tests + [a_device_that_fails_takes_no_commit, functions, threads])


if __name__ == "__main__":
    main()
