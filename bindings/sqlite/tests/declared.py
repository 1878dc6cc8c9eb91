"""Columns of doubles, dates, timestamps and NULLs: sessions that are worked out by hand, what Python and SQL hand each other,
and random SQL over a database's tables of such columns and over plain tables of the same rows, with the same answers.

    declared.py STATEMENTS [SEED [LEAST]]

Each statement goes, as the same text, to both. Where one fails, it fails in both with the same code; after each write all rows
are compared. A range or an order of the key is one that a plan has taken, LEAST times or more.
"""
import random
import sys
import tempfile
from collections import Counter
from datetime import date, datetime
from pathlib import Path

from databases import closed, in_child
from draws import CHECKS, OTHER, Drawn, has_wrong_value, quoted
from room import CONSTRAINT, ERROR, MISMATCH, done, refused, run, shows
from sql import Connection, Error, memory_used

sys.path.append(str(Path(__file__).resolve().parents[2] / "python"))  # PYTHONPATH says it where the tests were copied
import narthexmace  # noqa: E402

MAKE = "CREATE VIRTUAL TABLE {} USING pdt(database='{}', table='t'{})"

# ---- worked out by hand

ALL = ", price REAL PRIMARY KEY, day DATE, at TIMESTAMP NULL, n INTEGER NULL, name TEXT"


def values_are_shown(room):
    c, folder = room.connect(tables=False), room.folder / "shop"
    done(c, MAKE.format("t", folder, ALL))
    found = [(row[1], row[2], row[3], row[5]) for row in c.run("PRAGMA table_info(t)")]
    assert found == [("price", "REAL", 1, 1), ("day", "DATE TEXT", 1, 0), ("at", "TIMESTAMP TEXT", 0, 0), ("n", "INTEGER", 0, 0),
                     ("name", "TEXT", 1, 0)], found  # fmt: skip
    done(c, "INSERT INTO t VALUES (1, '2024-02-29', NULL, NULL, 'a'), ('0.1', '0000-01-01', '2024-01-01T01:02:03.5', -5.0, 'b')")
    done(c, "INSERT INTO t VALUES (-9e999, '9999-12-31', '9999-12-31', 0, 'c'), (5e-324, '1969-12-31', '1969-12-31 23:59', 3, 'd')")
    rows = [
        (float("-inf"), "9999-12-31", "9999-12-31 00:00:00", 0, "c"),
        (5e-324, "1969-12-31", "1969-12-31 23:59:00", 3, "d"),
        (0.1, "0000-01-01", "2024-01-01 01:02:03.500000", -5, "b"),
        (1.0, "2024-02-29", None, None, "a"),
    ]
    shows(c, "SELECT * FROM t", *rows)
    shows(c, "SELECT * FROM t ORDER BY price DESC", *rows[::-1])
    shows(c, "SELECT typeof(price), typeof(day), typeof(at) FROM t WHERE n = 3", ("real", "text", "text"))
    shows(c, "SELECT name FROM t WHERE at IS NULL", ("a",))
    shows(c, "SELECT name FROM t WHERE n IS NOT NULL AND at < '2024'", ("d",))
    shows(c, "SELECT date(day, '+1 day'), julianday(at) FROM t WHERE price = 0.1", ("0000-01-02", julian(c, rows[2][2])))
    done(c, "UPDATE t SET at = NULL, n = n + 1, day = date(day, '+1 day') WHERE name = 'b'")
    shows(c, "SELECT at, n, day FROM t WHERE price BETWEEN 0.01 AND 0.9", (None, -4, "0000-01-02"))
    cells = [row[0] for row in c.run("SELECT cells FROM pdt_layers('t') WHERE kind = 'insert'")]
    assert cells[1:] == ["4.94065645841247e-324,1969-12-31,1969-12-31 23:59:00,3,d", "0.1,0000-01-02,NULL,-4,b",
                         "1.0,2024-02-29,NULL,NULL,a"], cells  # fmt: skip


def julian(connection, text):
    return connection.run(f"SELECT julianday('{text}')")[0][0]


def wrong_values_are_refused(room):
    c = room.connect(tables=False)
    done(c, MAKE.format("t", room.folder / "shop", ALL), "INSERT INTO t VALUES (1, '2024-02-29', NULL, NULL, '')")
    day, at = 'pdt: column "day": {} is not a date as 2024-12-31', 'pdt: column "at": {} is not a timestamp as 2024-12-31 23:59:59 or NULL'
    for value in ["NULL", "20000", "1.5", "x'61'"]:
        refused(c, f"UPDATE t SET day = {value}", CONSTRAINT, day.format(value))
        if value != "NULL":
            refused(c, f"UPDATE t SET at = {value}", CONSTRAINT, at.format(value))
    for text in ["", "2023-02-29", "1900-02-29", "2024-13-01", "2024-00-01", "2024-1-1", "2024-04-31", "2024-01-00", "24-01-01",
                 "-2024-01-01", "12024-01-01", "2024-01-01 ", "2024-01-01 00:00:00", "2024/01/01"]:  # fmt: skip
        refused(c, f"UPDATE t SET day = '{text}'", CONSTRAINT, day.format(f'"{text}"'))
    for text in ["2023-02-29", "2024-01-01 ", "2024-01-01 1:00", "2024-01-01 24:00", "2024-01-01 00:60", "2024-01-01 00:00:60",
                 "2024-01-01 00:00:00.", "2024-01-01 00:00:00.1234567", "2024-01-01 00:00.5", "2024-01-01 00:00:00Z",
                 "2024-01-01_00:00"]:  # fmt: skip
        refused(c, f"UPDATE t SET at = '{text}'", CONSTRAINT, at.format(f'"{text}"'))
    refused(c, "UPDATE t SET day = '2024-01-01' || char(0) || 'x'", CONSTRAINT, day.format('"2024-01-01\\x00x"'))
    for value, found in [("NULL", "NULL"), ("9e999 - 9e999", "NULL"), ("'x'", '"x"'), ("x'61'", "x'61'")]:
        sql = f"INSERT INTO t VALUES ({value}, '2024-02-29', NULL, NULL, '')"
        refused(c, sql, CONSTRAINT, f'pdt: column "price": {found} is not a number')
    for value, found in [("-9223372036854775808", "-9223372036854775808"), ("1.5", "1.5"), ("'x'", '"x"')]:
        refused(c, f"UPDATE t SET n = {value}", CONSTRAINT, f'pdt: column "n": {found} is not an int or NULL')
    twice = "pdt: a row with the key price=1.0 exists"
    refused(c, "INSERT INTO t VALUES ('1', '2024-02-28', NULL, NULL, '')", CONSTRAINT, twice)
    shows(c, "SELECT * FROM t", (1.0, "2024-02-29", None, None, ""))


def a_key_that_is_there_has_its_values(room):
    c = room.connect(tables=False)
    words = ', day DATE, at TIMESTAMP, price REAL, "on" BOOLEAN, n INTEGER, PRIMARY KEY (day, at, price, "on")'
    done(c, MAKE.format("t", room.folder / "shop", words))
    row = "'2024-02-29', '2024-02-29 12:30', 0.5, 1"
    done(c, f"INSERT INTO t VALUES ({row}, 1)")
    twice = "pdt: a row with the key day=2024-02-29, at=2024-02-29 12:30:00, price=0.5, on=true exists"
    refused(c, f"INSERT INTO t VALUES ({row}, 2)", CONSTRAINT, twice)
    done(c, f"INSERT INTO t VALUES ({row.replace('29', '28')}, 2)")
    refused(c, "UPDATE t SET day = '2024-02-29', at = '2024-02-29 12:30' WHERE n = 2", CONSTRAINT, twice)
    refused(c, f"INSERT INTO t VALUES ({row.replace('0.5', 'NULL')}, 2)", CONSTRAINT, 'pdt: column "price": NULL is not a number')


def a_zero_has_no_sign(room):
    c = room.connect(tables=False)
    done(c, MAKE.format("t", room.folder / "shop", ", price REAL PRIMARY KEY, n REAL"), "INSERT INTO t VALUES (-0.0, -0.0)")
    refused(c, "INSERT INTO t VALUES (0, 0)", CONSTRAINT, "pdt: a row with the key price=0.0 exists")
    shows(c, "SELECT printf('%g', price), printf('%g', n) FROM t WHERE price = 0", ("0", "0"))
    done(c, "UPDATE t SET n = -0.0 WHERE price = -0.0", "DELETE FROM t WHERE price >= 0 AND price <= -0.0")
    shows(c, "SELECT * FROM t")


def declarations(room):
    c, folder = room.connect(tables=False), room.folder / "shop"
    only = "column {} is NOT NULL and may be PRIMARY KEY, and not "
    for words, text in [
        ("id REAL NULL PRIMARY KEY", "column id is of the key, and so NOT NULL"),
        ("id INTEGER, d DATE NULL, PRIMARY KEY (id, d)", "column d is of the key, and so NOT NULL"),
        ("id REAL PRIMARY KEY, a TEXT NULL", only.format("a") + "NULL"),
        ("id REAL PRIMARY KEY, b BOOLEAN NULL", only.format("b") + "NULL"),
        ("id REAL PRIMARY KEY, b REAL NULL NOT NULL", only.format("b") + "NOT NULL"),
        ("id REAL PRIMARY KEY, b REAL NOT NULL NULL", only.format("b") + "NULL"),
        ("id DOUBLE PRIMARY KEY", "column id is INTEGER, REAL, DATE, TIMESTAMP, TEXT or BOOLEAN, not DOUBLE"),
    ]:
        refused(c, MAKE.format("t", folder, ", " + words), ERROR, "pdt: " + text)
    done(c, MAKE.format("t", folder, ", id INT PRIMARY KEY, a real NOT NULL, b Date null, c INTEGER NULL"), "DROP TABLE t")
    other = f"pdt: t in {folder} has other columns"
    for words in ["a REAL NULL, b DATE NULL, c INTEGER NULL", "a DATE, b DATE NULL, c INTEGER", "a INTEGER NULL, b DATE NULL, c INTEGER"]:
        refused(c, MAKE.format("t", folder, ", id INT PRIMARY KEY, " + words), ERROR, other)
    for words in ["a REAL, b DATE NULL, c INTEGER", "a INTEGER, b INTEGER, c INTEGER NULL"]:
        done(c, MAKE.format("t", folder, ", id INT PRIMARY KEY, " + words), "INSERT INTO t VALUES (1, 2, '2024-01-01', NULL)")
        shows(c, "SELECT * FROM t", (1, 2.0, "2024-01-01", None))
        done(c, "DELETE FROM t", "DROP TABLE t")


def what_was_made_lasts(room):
    """Also a table whose making was undone, and one that is made anew with other types."""
    path, folder = room.folder / "some.db", room.folder / "shop"

    def make():
        c = room.connect(path, tables=False)
        done(c, "BEGIN", MAKE.format("t", folder, ", id REAL PRIMARY KEY"), "ROLLBACK")
        done(c, MAKE.format("t", folder, ", day DATE, at TIMESTAMP, v REAL NULL, PRIMARY KEY (day, at)"))
        done(c, "INSERT INTO t VALUES ('2024-01-01', '2024-01-01 10:00:00', NULL), ('2024-01-02', '2024-01-01 10:00:00', 0.1)")

    in_child(make, kill=True)
    c, d = room.connect(path, tables=False), room.connect(path, tables=False)
    shows(c, "SELECT v FROM t WHERE day > '2024-01-01'", (0.1,))
    done(d, "UPDATE t SET v = v * 2, day = '2025-01-01' WHERE day >= '2024-01-02' AND at < '2025'")
    shows(c, "SELECT * FROM t WHERE v IS NOT NULL", ("2025-01-01", "2024-01-01 10:00:00", 0.2))


def a_table_is_made_as_declared(room):
    """In one step: what declares columns of a table that is there writes a file of the name types-new, which isn't wanted."""
    folder = room.folder / "shop"
    (folder / "types-new").mkdir(parents=True)
    done(room.connect(tables=False), MAKE.format("t", folder, ", id REAL PRIMARY KEY, day DATE NULL"))
    closed(room)
    with narthexmace.connect(folder) as db:
        assert db["t"].declared == {"id": "g", "day": "?tdD"}, db["t"].declared


def plans(room):
    """A bound that the key's type has, and one that it hasn't, is taken."""
    c = room.connect(tables=False)
    done(c, MAKE.format("t", room.folder / "shop", ", day DATE, v REAL, id INTEGER, PRIMARY KEY (day, v, id)"))
    for where, plan in [
        ("WHERE day >= '2024' AND day < '2025' ORDER BY day", "day>=? AND day<? ORDER BY KEY"),
        ("WHERE day = '2024-01-01' AND v > 5 ORDER BY day, v", "day=? AND v>? ORDER BY KEY"),
        ("WHERE day IN ('2024-01-01', 'x', 7)", "day IN ?"),
    ]:
        found = c.run(f"EXPLAIN QUERY PLAN SELECT * FROM t {where}")[0][3]
        assert found.partition(":")[2] == plan, found
    sorts = [c.run(f"EXPLAIN QUERY PLAN SELECT * FROM t ORDER BY {by}")[-1][3] for by in ["day, v", "day, v, id", "day DESC, v DESC"]]
    assert ["SORT" in word or "TEMP" in word for word in sorts] == [False, True, False], sorts


def bounds_between_doubles(room):
    """Whole numbers that no double is, and those past all whole numbers."""
    c, far, most = room.connect(tables=False), 2.0**53, 2.0**63
    done(c, MAKE.format("t", room.folder / "shop", ", v REAL PRIMARY KEY"))
    done(c, f"INSERT INTO t VALUES ({far}), ({far + 2}), ({most}), ({-most}), (9e999), (-9e999)")
    for where, *wanted in [
        ("v BETWEEN 0 AND 9007199254740993", far),
        ("v > 0 AND v < 9007199254740993", far),
        ("v = 9007199254740993",),
        ("v >= 9007199254740993 AND v < 1e18", far + 2),
        ("v > 9007199254740993 AND v <= 9007199254740994", far + 2),
        ("v > 9223372036854775807", most, float("inf")),
        ("v >= 9223372036854775807 AND v < 9e999", most),
        ("v <= -9223372036854775808", float("-inf"), -most),
        ("v < -9223372036854775807", float("-inf"), -most),
        ("v < 'x' AND v > '9007199254740993'", far + 2, most, float("inf")),
        ("v > x'00'",),
    ]:
        shows(c, f"SELECT v FROM t WHERE {where}", *((v,) for v in wanted))


def lists_in_order(room):
    c = room.connect(tables=False)
    done(c, MAKE.format("t", room.folder / "shop", ", day DATE, id INTEGER, PRIMARY KEY (day, id)"))
    done(c, "INSERT INTO t VALUES ('2024-03-01', 1), ('2024-01-01', 2), ('2024-01-01', 3), ('2024-02-01', 4), ('1950-01-01', 5)")
    among = "SELECT id FROM t WHERE day IN ('2024-03-01', '2024-01-01', 'x', '1950-01-01', '2024-01-01 ', NULL, x'00') ORDER BY day"
    shows(c, f"{among}, id", (5,), (2,), (3,), (1,))
    shows(c, f"{among} DESC, id DESC", (1,), (3,), (2,), (5,))
    shows(c, "SELECT id FROM t WHERE day IN ('2024-03-01', 2024)", (1,))


def python_writes_and_sql_reads(room):
    folder = str(room.folder / "shop")
    with narthexmace.connect(folder) as db:
        t = db.create("t", "k:int:key,day:int,at:int,n:int\n")
        for name, format_ in [("k", "g"), ("day", "tdD"), ("at", "tsu:"), ("n", "?l")]:
            t.declare(name, format_)
        with t.begin() as txn:
            for n, k in enumerate([1.5, -0.0, 2.5]):
                txn.insert((k, date(2024, 2, 29), datetime(1, 1, 1), n))
            txn.insert((float("-inf"), date(1, 1, 1), datetime(9999, 12, 31, 23, 59, 59, 999_999), None))
    c = room.connect(tables=False)
    done(c, MAKE.format("t", folder, ""))
    shows(c, "SELECT * FROM t WHERE k < 1", (float("-inf"), "0001-01-01", "9999-12-31 23:59:59.999999", None),
          (-0.0, "2024-02-29", "0001-01-01 00:00:00", 1))  # fmt: skip
    done(c, "UPDATE t SET day = '1970-01-01', at = '1970-01-01 00:00:00.000001' WHERE k = 0", "DELETE FROM t WHERE k = 1.5")
    done(c, "INSERT INTO t VALUES (0.1, '9999-12-31', '2024-01-01 12:30', NULL)")
    closed(room)
    with narthexmace.connect(folder) as db:
        with db["t"].begin() as txn:
            found = txn[:]
            wanted = [(-0.0, date(1970, 1, 1), datetime(1970, 1, 1, 0, 0, 0, 1)), (0.1, date(9999, 12, 31), datetime(2024, 1, 1, 12, 30))]
            assert [row[:3] for row in found[1:3]] == wanted and found[2][3] is None, found
            txn.insert((float("nan"), date(2024, 1, 1), datetime(1, 1, 1), None))
    c = room.connect(tables=False)
    done(c, MAKE.format("t", folder, ""), "DELETE FROM t WHERE k = 0")
    shows(c, "SELECT k FROM t WHERE k >= 0", (0.1,), (2.5,))
    refused(c, "SELECT k FROM t", MISMATCH, f'pdt: column "k" has the number {0x7FF8 << 48}, which is a NaN in the key')


def zeros_of_both_signs(room):
    """They are equal to SQLite, and two keys, which Python may write."""
    folder = str(room.folder / "shop")
    with narthexmace.connect(folder) as db:
        t, u = db.create("t", "price:int:key,name:text:key,id:int\n"), db.create("u", "price:int:key,id:int\n")
        for store in (t, u):
            store.declare("price", "g")
        with t.begin() as txn:
            txn.insert((-0.0, "b", 5))
            txn.insert((0.0, "a", 3))
            txn.insert((1.0, "a", 1))
        with u.begin() as txn:
            txn.insert((-0.0, 5))
            txn.insert((0.0, 3))
    c = room.connect(tables=False)
    done(c, MAKE.format("t", folder, ""), f"CREATE VIRTUAL TABLE u USING pdt(database='{folder}', table='u')")
    shows(c, "SELECT id FROM t ORDER BY price, name", (3,), (5,), (1,))
    shows(c, "SELECT id FROM t WHERE price = 0 ORDER BY name", (3,), (5,))
    shows(c, "SELECT id FROM t WHERE price = 0 ORDER BY price DESC, name DESC", (5,), (3,))
    shows(c, "SELECT id FROM t WHERE price = -0.0 AND name IN ('a', 'b', 'c') ORDER BY name", (3,), (5,))
    shows(c, "SELECT id FROM t WHERE price >= 0 AND price < 1 AND name = 'b'", (5,))
    shows(c, "SELECT id FROM t WHERE price > 0", (1,))
    shows(c, "SELECT id FROM u WHERE price = 0", (5,), (3,))
    shows(c, "SELECT id FROM u ORDER BY price, id", (3,), (5,))
    done(c, "UPDATE t SET id = id + 10 WHERE price = 0")
    shows(c, "SELECT id FROM t", (15,), (13,), (1,))
    done(c, "DELETE FROM t WHERE name = 'b'", "UPDATE t SET price = -price WHERE price = 0")
    shows(c, "SELECT id FROM t", (13,), (1,))
    for sql in ["DELETE FROM u WHERE price = 0", "DELETE FROM u WHERE id = 5", "UPDATE u SET id = 7"]:
        refused(c, sql, ERROR, "pdt: u has a row of -0.0 and one of 0.0, and SQLite has them equal")
    shows(c, "SELECT id FROM u", (5,), (3,))
    closed(room)
    with narthexmace.connect(folder) as db:
        with db["u"].begin() as txn:
            txn.delete(0.0)
    c = room.connect(tables=False)
    done(c, f"CREATE VIRTUAL TABLE u USING pdt(database='{folder}', table='u')", "UPDATE u SET id = 6 WHERE price = 0")
    shows(c, "SELECT id FROM u", (6,))
    done(c, "DELETE FROM u")
    shows(c, "SELECT id FROM u")


def what_has_no_value_is_told(room):
    folder = str(room.folder / "shop")
    with narthexmace.connect(folder) as db:
        for name, format_ in [("t", "tdD"), ("seconds", "tss:UTC"), ("millis", "tsm:"), ("nanos", "tsn:"), ("real", "?g"), ("double", "g")]:
            t = db.create(name, {"k": [2932896, 1, 2, 0], "v": [2932896, 1, 2, 0]}, key="k")
            t.declare("v", format_)
            if name == "t":
                t.declare("k", "tdD")
            with t.begin() as txn:
                txn.insert_many({"k": [2932897], "v": [2932897]}) if name == "t" else None
                txn.insert((7, float("nan"))) if name in ("real", "double") else None
    c = room.connect(tables=False)
    for name in ["t", "seconds", "millis", "nanos", "real", "double"]:
        done(c, f"CREATE VIRTUAL TABLE {name} USING pdt(database='{folder}', table='{name}')")
    wrong = "has the number 2932897, which is no date of the years 0000 to 9999"
    refused(c, "SELECT k FROM t", MISMATCH, f'pdt: column "k" {wrong}')
    shows(c, "SELECT k FROM t WHERE k > '1970-01-02'", ("1970-01-03",), ("9999-12-31",))
    shows(c, "SELECT count(*) FROM t", (5,))
    shows(c, "SELECT v FROM seconds WHERE k < 2", ("1970-01-01 00:00:00",), ("1970-01-01 00:00:01",))
    shows(c, "SELECT v FROM seconds WHERE k > 2", ("1970-02-03 22:41:36",))
    shows(c, "SELECT v FROM millis WHERE k < 2", ("1970-01-01 00:00:00",), ("1970-01-01 00:00:00.001",))
    shows(c, "SELECT v FROM nanos WHERE k = 2", (2,))
    shows(c, "SELECT v FROM real WHERE v IS NULL", (None,))
    shows(c, "SELECT k, v FROM double WHERE v IS NULL", (7, None))
    shows(c, "SELECT k FROM double WHERE v IS NOT NULL", (0,), (1,), (2,), (2932896,))
    shows(c, "SELECT count(*), count(v) FROM double", (5, 4))
    wrong = 'pdt: column "v": "{}" is not a timestamp as 2024-12-31 23:59:59'
    for table, text in [("seconds", "2024-01-01 00:00:00.5"), ("millis", "2024-01-01 00:00:00.0005")]:
        refused(c, f"UPDATE {table} SET v = '{text}'", CONSTRAINT, wrong.format(text))


SESSIONS = [
    values_are_shown,
    wrong_values_are_refused,
    a_key_that_is_there_has_its_values,
    a_zero_has_no_sign,
    declarations,
    what_was_made_lasts,
]
SESSIONS += [a_table_is_made_as_declared, plans]
SESSIONS += [bounds_between_doubles, lists_in_order]
SESSIONS += [python_writes_and_sql_reads, zeros_of_both_signs, what_has_no_value_is_told]

# ---- drawn

TABLES = [  # columns, and how many of them are the key; ? where NULL is taken
    ([("price", "real"), ("day", "date?"), ("at", "time"), ("n", "int?"), ("name", "text")], 1),
    ([("day", "date"), ("price", "real?"), ("at", "time?")], 1),
    ([("at", "time"), ("id", "int"), ("price", "real")], 2),
    ([("price", "real"), ("day", "date"), ("id", "int"), ("name", "text")], 3),
    ([("id", "int"), ("price", "real"), ("day", "date?")], 2),
    ([("name", "text"), ("day", "date"), ("v", "real?"), ("w", "int?")], 2),
]
TYPES = {"int": "INTEGER", "text": "TEXT", "real": "REAL", "date": "DATE", "time": "TIMESTAMP"}
DAY = "({0} >= '0' AND {0} IS date({0}, '+0 days'))"
FRACTION = f"(length({{0}}) = 19 OR substr({{0}}, 20) GLOB '.{'[0-9]' * 6}')"
STAMP = f"({{0}} >= '0' AND substr({{0}}, 1, 19) IS datetime(substr({{0}}, 1, 19), '+0 days') AND {FRACTION})"
OWN = {
    "int": CHECKS["int"],
    "text": CHECKS["text"],
    "real": "REAL NOT NULL CHECK (typeof({0}) = 'real')",
    "date": f"TEXT NOT NULL CHECK {DAY}",
    "time": f"TEXT NOT NULL CHECK {STAMP}",
    "int?": "INTEGER CHECK (typeof({0}) IN ('integer', 'null') AND {0} IS NOT -9223372036854775808)",
    "real?": "REAL CHECK (typeof({0}) IN ('real', 'null'))",
    "date?": f"TEXT CHECK ({{0}} IS NULL OR {DAY})",
    "time?": f"TEXT CHECK ({{0}} IS NULL OR {STAMP})",
}
REALS = ["0.1", "-0.1", "9e999", "-9e999", "5e-324", "-5e-324", "2.2250738585072014e-308", "1e308", "-1e308", "0.0", "-0.0", "3", "7",
         "'2.5'", "9007199254740993", "-9007199254740993", "9223372036854775807", "1e15", "1.5"]  # fmt: skip
DATES = ["0000-01-01", "0001-01-01", "1582-10-10", "1969-12-31", "1970-01-01", "2000-02-29", "2024-02-29", "2024-03-01", "9999-12-31"]
TIMES = ["00:00:00", "00:00:00.000001", "01:02:03.500000", "23:59:59", "23:59:59.999999"]
ODD = ["2024", "2024-02", "2024-02-29 ", "2024-02-29T", "2024-02-29 00:00:00.5", "2024-02-30", "x", "", "1", "9999-12-31 23:59:60", "~"]
KINDS = [
    "range of a key",
    "order of a key",
    "list",
    "failed",
    "wrong value",
    "BEGIN",
    "COMMIT",
    "ROLLBACK",
    "SAVEPOINT",
    "ROLLBACK TO",
    "reopened",
]


class DeclaredDrawn(Drawn):
    """Draws statements over such a table."""

    def date(self):
        return self.draw.choice(DATES) if self.draw.random() < 0.5 else f"2024-0{self.draw.randrange(1, 4)}-1{self.draw.randrange(10)}"

    def cell(self, kind):
        if kind[-1] == "?" and self.draw.random() < 0.3:
            return "NULL"
        kind = kind.rstrip("?")
        if kind == "int":
            return str(self.draw.randrange(-9, 30))
        if kind == "real":
            return self.draw.choice([str(self.draw.randrange(-20, 20) / 4), self.draw.choice(REALS)])
        if kind == "date":
            return quoted(self.date())
        return quoted(f"{self.date()} {self.draw.choice(TIMES)}") if kind == "time" else super().cell(kind)

    def bad_cell(self):
        return self.draw.choice(["NULL", "x'61'", "'x'", "'2024-02-30'", "'2023-02-29 00:00:00'", "2460000.5", "-9223372036854775808"])

    def bound(self, kind):
        x = self.draw.random()
        if x < 0.2:
            return self.draw.choice(["NULL", "x'61'", "2024", "0", "1e400", "-1e400", "9007199254740992", "9007199254740993.0"])
        if x < 0.4:
            return quoted(self.draw.choice(ODD))
        return self.cell(self.draw.choice([kind] * 6 + ["real", "date", "time"]))

    def comparison(self, may_collate=True):
        if self.draw.random() < 0.2:
            name = self.draw.choice(self.columns[: len(self.keys)] + self.columns)[0]
            lists = [f" IN ({', '.join(self.bound(kind) for _ in range(3))})" for kind in ["date", "time", "real"]]
            return name + self.draw.choice(lists + [" IS NULL", " IS NOT NULL", " LIKE '2024%'", " GLOB '2024-0*'", " GLOB '1*'"])
        return super().comparison(may_collate)

    def sets(self):
        name, kind = self.draw.choice(self.values)
        own = {"date": f"date({name}, '+1 day')", "time": f"datetime({name}, '-1 hour')", "text": f"substr({name} || 'x', 1, 60)"}
        value = self.draw.choice([self.cell(kind), own.get(kind.rstrip("?"), f"{name} / 2 + 1")])
        return f"{name} = {self.bad_cell() if self.draw.random() < 0.05 else value}"


def by_value(row):
    """An order of rows that is the same for equal ones: -0.0 and 0.0 are."""
    ranks = {type(None): 0, int: 1, float: 1, str: 2, bytes: 3}
    return [(ranks[type(cell)], 0 if cell is None else cell) for cell in row]


def outcome(connection, sql, ordered):
    try:
        rows = connection.run(sql)
    except Error as error:
        return error.code & 255, error.text
    return (rows if ordered else sorted(rows, key=by_value)), ""


class Run:
    """A run of statements over a pair of tables."""

    def __init__(self, seed, folder, kinds):
        self.seed, self.draw, self.kinds, self.count = seed, random.Random(seed), kinds, 0
        self.columns, self.keys = TABLES[seed % len(TABLES)]
        self.drawn = DeclaredDrawn(self.draw, self.columns, self.keys, Counter(), most=4)
        self.path, self.folder, self.done, self.saved = Path(folder) / "virtual.db", Path(folder) / "shop", [], False
        self.virtual, self.own = self.connect(), Connection(extension=None)
        names = ", ".join(self.drawn.keys)
        declared = "".join(f", {name} {TYPES[kind.rstrip('?')]}{' NULL' if kind[-1] == '?' else ''}" for name, kind in self.columns)
        self.virtual.run(MAKE.format("t", self.folder, f"{declared}, PRIMARY KEY ({names}), sync=off"))
        checks = ", ".join(f"{name} {OWN[kind].format(name)}" for name, kind in self.columns)
        self.own.run(f"CREATE TABLE t ({checks}, PRIMARY KEY ({names})) WITHOUT ROWID")
        self.both(f"CREATE TABLE {OTHER}")
        self.both("INSERT INTO other VALUES (5, 'Ann', 2.5), (7, '2024-02-29', 7.5), (NULL, 'a', NULL), (0, '2024', 0.1), "
                  "(0.25, '2024-02-11 00:00:00', -0.25)")  # fmt: skip
        for _ in range(30):
            self.both(f"INSERT OR IGNORE INTO t VALUES {self.drawn.row()}")

    def connect(self):
        connection = Connection(self.path)
        connection.run("PRAGMA synchronous = OFF")
        return connection

    def both(self, sql, ordered=True):
        self.count += 1
        self.done.append(sql)
        found, text = outcome(self.virtual, sql, ordered)
        is_wrong = has_wrong_value(self.own, sql)
        self.kinds["wrong value"] += is_wrong
        wanted, _ = (MISMATCH, "") if is_wrong else outcome(self.own, sql, ordered)
        if found != wanted:
            tail = "\n".join(self.done[-40:])
            raise AssertionError(f"{self.columns}\n{tail}\nfound {found} {text}\nwanted {wanted}")
        self.kinds["failed"] += isinstance(found, int)
        return found

    def select(self):
        sql, ordered = self.drawn.select()
        self.both(sql, ordered)
        plan = "".join(row[3] for row in self.virtual.run("EXPLAIN QUERY PLAN " + sql))
        self.kinds["range of a key"] += any(op in plan for op in "<>")
        self.kinds["order of a key"] += "ORDER BY KEY" in plan
        self.kinds["list"] += " IN ?" in plan

    def write(self):
        x = self.draw.random()
        if "id" in self.drawn.keys and x < 0.2:
            sql = self.drawn.shift()[3]
            sql = sql if "REPLACE" not in sql else self.drawn.insert()  # one that comes to its own rows is refused
        else:
            sql = self.drawn.insert() if x < 0.4 else self.drawn.write()
        self.both(sql.replace("qty = qty / 2 + 1", "price = price / 2"))
        self.both("SELECT * FROM t")

    def control(self):
        is_open = not self.own.is_over()
        verb = self.draw.choice(["COMMIT", "ROLLBACK", "SAVEPOINT", "ROLLBACK TO"] if is_open else ["BEGIN"])
        self.kinds[verb] += 1
        self.both(f"{verb} a" if verb in ("SAVEPOINT", "ROLLBACK TO") else verb)
        if not is_open and self.draw.random() < 0.2:
            self.both("ROLLBACK")
        self.both("SELECT * FROM t")

    def reopen(self):
        if not self.own.is_over():
            return
        self.kinds["reopened"] += 1
        self.virtual.close()
        self.virtual = self.connect()
        self.both("SELECT * FROM t")

    def go(self, statements):
        while self.count < statements:
            self.draw.choices([self.select, self.write, self.control, self.reopen], [50, 35, 12, 3])[0]()
        self.both("SELECT * FROM t")
        self.virtual.close()
        self.own.close()


def main():
    words = [int(word) for word in sys.argv[1:]]
    statements, seed, least = words + [1, 1][len(words) - 1 :]
    run(SESSIONS)
    total, kinds = 0, Counter()
    while total < statements:
        with tempfile.TemporaryDirectory() as folder:
            drawn = Run(seed, folder, kinds)
            try:
                drawn.go(300)
            except Exception:
                print("seed", seed)
                raise
        total, seed = total + drawn.count, seed + 1
    assert memory_used() == 0, memory_used()
    never = [kind for kind in KINDS if kinds[kind] < least]
    assert not never, f"never drawn, or too few times: {', '.join(never)}"
    print(f"{total} statements alike; {', '.join(f'{kinds[kind]} {kind}' for kind in KINDS)}")


if __name__ == "__main__":
    main()
