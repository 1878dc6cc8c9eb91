"""Statements worked out by hand, or beside tables of SQLite's own: what they find, what they refuse, and what stays of them.

    statements.py
"""
from room import BUSY_SNAPSHOT, CONSTRAINT, ERROR, FULL, MISMATCH, Beside, done, outcome, refused, run, shows

FULL_TABLE = "pdt: the table has as many rows as its limit"
TOO_OLD = "pdt: the transaction began before the commits that are kept"
MET = "pdt: UPDATE OR REPLACE came to a row that it has put in the place of another"


def an_in_over_a_text_key_finds_what_sqlites_own_finds(room):
    beside = Beside(room)
    beside.alike("CREATE w", "CREATE TABLE plain (k INTEGER, r REAL, s TEXT, n)")
    beside.alike("INSERT INTO w VALUES ('05', 1), ('5', 2), ('5.0', 3), ('5x', 4), ('6', 5), ('a', 6), ('', 7)")
    beside.alike("INSERT INTO plain VALUES (5, 5.0, '5', 5), (6, 6.5, 'a', '6'), (NULL, NULL, NULL, NULL)")
    for column in ["k", "r", "s", "n", "k + 0", "s || ''", "CAST(k AS TEXT)"]:
        for verb in ["SELECT * FROM w", "SELECT count(*) FROM w"]:
            beside.alike(f"{verb} WHERE word IN (SELECT {column} FROM plain)")
            beside.alike(f"{verb} WHERE word NOT IN (SELECT {column} FROM plain WHERE k)")
            beside.alike(f"{verb} WHERE word IN (SELECT {column} FROM plain) AND word > '5' ORDER BY word DESC")
    for words in ["5, 6", "'5', 6.0", "'05', NULL", "5.0", "x'35'", "'a', '', 'none'"]:
        beside.alike(f"SELECT * FROM w WHERE word IN ({words})")
        beside.alike(f"SELECT * FROM w WHERE word IN ({words}) ORDER BY word DESC")
    # reals with a fraction alone: those without one are handed out as integers
    beside.alike("CREATE TABLE halves (r REAL)", "INSERT INTO halves VALUES (2.5), (7.5), (NULL)")
    beside.alike("INSERT INTO w VALUES ('2.5', 8), ('2.50', 9), ('7.5', 10), ('7.5x', 11)")
    for words in ["SELECT r FROM halves", "2.5, 7.5", "2.5, '7.5x'", "SELECT r FROM halves WHERE r > 3"]:
        for verb in ["IN", "NOT IN"]:
            beside.alike(f"SELECT * FROM w WHERE word {verb} ({words})", f"SELECT * FROM w WHERE word {verb} ({words}) ORDER BY word DESC")
    beside.alike("SELECT * FROM w JOIN plain ON word = k", "SELECT * FROM w JOIN plain ON word = s AND word IN ('a', 5)")
    beside.alike("UPDATE w SET qty = 0 WHERE word IN (SELECT k FROM plain)", "SELECT * FROM w")
    beside.alike("DELETE FROM w WHERE word IN (SELECT r FROM plain)", "SELECT * FROM w")


def a_list_behind_other_columns_is_searched_in_their_rows(room):
    (room.folder / "both.csv").write_text("id:int:key,name:text:key,word:text:key\n1,a,x\n1,b,x\n1,b,y\n2,a,x\n3,5,x\n")
    c = room.connect(tables=False)
    done(c, f"CREATE VIRTUAL TABLE both USING pdt('{room.folder}/both.csv')")
    for condition, rows in [
        ("id = 1 AND name IN ('b', 'a', 'c')", [(1, "a", "x"), (1, "b", "x"), (1, "b", "y")]),
        ("id = 1 AND name IN ('b', 'a') AND word = 'x'", [(1, "a", "x"), (1, "b", "x")]),
        ("id = 1 AND name = 'b' AND word IN ('y', 'z')", [(1, "b", "y")]),
        ("id IN (1, 2) AND name IN ('a', x'62')", [(1, "a", "x"), (2, "a", "x")]),
        ("id = 1.5 AND name IN ('a', 'b')", []),
        ("id = 'x' AND name IN ('a', 'b')", []),
        ("id = NULL AND name IN ('a', 'b')", []),
        ("id = 3 AND name = 5 AND word IN ('x', 'y')", [(3, "5", "x")]),
        ("id = 3 AND name IN (5)", [(3, "5", "x")]),
        ("id = 3 AND name IN (SELECT 5)", [(3, "5", "x")]),
        ("id = 1 AND name IN ('b', NULL)", [(1, "b", "x"), (1, "b", "y")]),
        ("id = 1 AND name IN (NULL)", []),
        ("id = 1 AND name IN (SELECT 'a' WHERE false)", []),
        ("id = 1 AND name IN (CAST(x'ff' AS TEXT), 'a')", [(1, "a", "x")]),
    ]:
        shows(c, f"SELECT * FROM both WHERE {condition} ORDER BY id, name, word", *rows)
        shows(c, f"SELECT * FROM both WHERE {condition} ORDER BY id DESC, name DESC, word DESC", *rows[::-1])


def a_cursor_over_a_list_comes_to_what_is_there_at_its_turn(room):
    cases = [
        ("a", "INSERT INTO w VALUES ('c', 1), ('b', 1), ('Z', 1)"),
        ("a", "DELETE FROM w WHERE word = 'e'; INSERT INTO w VALUES ('c', 1)"),
        ("e", "DELETE FROM w WHERE word >= 'e'; INSERT INTO w VALUES ('c', 1), ('g', 1)"),
        ("e", "SAVEPOINT a; DELETE FROM w; ROLLBACK TO a; UPDATE w SET word = 'c' WHERE word = 'a'"),
        ("e", "SAVEPOINT a; INSERT INTO w VALUES ('c', 1), ('g', 1); ROLLBACK TO a"),
        ("a", "SAVEPOINT a; DELETE FROM w WHERE word = 'a'; ROLLBACK TO a; DELETE FROM w WHERE word = 'i'"),
    ]
    number = 0
    for at, text in cases:
        for order in ["ORDER BY word", "ORDER BY word DESC"]:
            number += 1
            beside = Beside(room, f"list{number}")
            beside.alike("CREATE w", "INSERT INTO w VALUES ('a', 1), ('e', 1), ('i', 1), ('x', 1)", "BEGIN")
            beside.alike("UPDATE w SET qty = 2")
            sql = f"SELECT * FROM w WHERE word IN ('i', 'g', 'e', 'c', 'a', 'none') {order}"
            found, wanted = (visited(c, sql, at, text) for c in (beside.virtual, beside.own))
            assert found == wanted, f"{order} at {at}: {text}: found {found}, wanted {wanted}"
            beside.alike("SELECT * FROM w", "ROLLBACK")


def an_update_that_meets_a_row_that_it_has_put_there_is_refused_whole(room):
    (room.folder / "three.csv").write_text("id:int:key,q:int,x:int\n1,10,1\n2,20,2\n3,30,3\n7,70,7\n")
    c = room.connect(tables=False)
    done(c, f"CREATE VIRTUAL TABLE three USING pdt('{room.folder}/three.csv')", "CREATE TABLE plain (k)", "BEGIN")
    before = [(1, 10, 1), (2, 20, 2), (3, 30, 3), (7, 70, 7)]
    done(c, "INSERT INTO plain VALUES (1)")
    refused(c, "UPDATE OR REPLACE three SET id = id + 1, q = q + 1", ERROR, MET)
    refused(c, "UPDATE OR REPLACE three SET id = id + 1 WHERE id < 3", ERROR, MET)
    shows(c, "SELECT * FROM three", *before)
    # one that meets none is done: it replaces rows that it doesn't come to, or has come to
    done(c, "UPDATE OR REPLACE three SET id = id + 1, q = q + 1 WHERE id = 2")
    shows(c, "SELECT * FROM three", (1, 10, 1), (3, 21, 2), (7, 70, 7))
    done(c, "UPDATE OR REPLACE three SET id = 4 - id, q = q + 1 WHERE id = 3")
    shows(c, "SELECT * FROM three", (1, 22, 2), (7, 70, 7))
    done(c, "UPDATE OR REPLACE three SET id = id + 6, q = q + 1 WHERE id = 1", "UPDATE three SET id = id - 1", "COMMIT")
    shows(c, "SELECT * FROM three", (6, 23, 2))
    shows(c, "SELECT * FROM plain", (1,))
    # what an earlier statement has replaced is met by none
    done(c, "INSERT INTO three VALUES (7, 1, 1)", "UPDATE OR REPLACE three SET id = 7 WHERE id = 6")
    done(c, "UPDATE three SET id = 8, q = 0")
    shows(c, "SELECT * FROM three", (8, 0, 2))


def a_full_table_is_a_constraint_of_its_statement(room):
    c = room.connect(words=", limit=4")
    done(c, "CREATE TABLE plain (k)", "BEGIN", "INSERT INTO plain VALUES (1)", "INSERT INTO t VALUES (40, '', 0, 0)")
    refused(c, "INSERT INTO t VALUES (50, '', 0, 0)", CONSTRAINT, FULL_TABLE)
    refused(c, "INSERT INTO t SELECT id + 100, name, qty, sold FROM t", CONSTRAINT, FULL_TABLE)
    refused(c, "INSERT OR REPLACE INTO t VALUES (50, '', 0, 0)", CONSTRAINT, FULL_TABLE)
    refused(c, "INSERT OR IGNORE INTO t VALUES (40, '', 0, 0), (50, '', 0, 0)", ERROR, FULL_TABLE)
    done(c, "INSERT OR IGNORE INTO t VALUES (40, '', 0, 0)", "INSERT OR REPLACE INTO t VALUES (40, 'x', 0, 0)")
    done(c, "UPDATE t SET id = 41 WHERE id = 40", "COMMIT")
    shows(c, "SELECT id, name FROM t WHERE id > 20", (30, "Cid"), (41, "x"))
    shows(c, "SELECT * FROM plain", (1,))
    done(c, "DELETE FROM t WHERE id = 41", "BEGIN", "INSERT INTO plain VALUES (2)")
    refused(c, "INSERT OR FAIL INTO t VALUES (50, '', 0, 0), (60, '', 0, 0)", CONSTRAINT, FULL_TABLE)
    shows(c, "SELECT count(*), max(id) FROM t", (4, 50))
    refused(c, "INSERT OR ROLLBACK INTO t VALUES (60, '', 0, 0)", CONSTRAINT, FULL_TABLE)
    shows(c, "SELECT count(*), max(id) FROM t", (3, 30))
    shows(c, "SELECT * FROM plain", (1,))
    # rows of two transactions that don't fit together: the second commit is refused, and SQLite has rolled back
    other = room.connect(words=", limit=4")
    done(c, "BEGIN", "INSERT INTO plain VALUES (3)", "INSERT INTO t VALUES (40, '', 0, 0)")
    done(other, "INSERT INTO t VALUES (50, '', 0, 0)")
    refused(c, "COMMIT", FULL, FULL_TABLE)
    refused(c, "ROLLBACK", ERROR, "cannot rollback - no transaction is active")
    shows(c, "SELECT id FROM t", (10,), (20,), (30,), (50,))
    shows(c, "SELECT * FROM plain", (1,))


def a_value_that_is_not_taken_goes_by_the_or_of_its_statement(room):
    """But OR IGNORE passes over a NULL alone, as in a STRICT table: another value ends the statement, and nothing of it is done."""
    for number, rule in enumerate(["", " OR ABORT", " OR FAIL", " OR IGNORE", " OR REPLACE", " OR ROLLBACK"]):
        beside = Beside(room, f"rule{number}")
        beside.alike("CREATE t", "CREATE TABLE plain (k)", "INSERT INTO t VALUES (1, 1), (2, 2), (3, 3)")
        past = ["-9223372036854775808.0", "9223372036854775808.0", "'9223372036854775808'"]
        for value in ["NULL", "1.5", "'x'", "x'61'", *past]:
            beside.alike("BEGIN", "INSERT INTO plain VALUES (1)")
            for sql in [
                f"INSERT{rule} INTO t VALUES (4, 4), ({value}, 5), (6, 6)",
                f"UPDATE{rule} t SET qty = CASE id WHEN 2 THEN {value} ELSE 9 END",
                f"UPDATE{rule} t SET id = CASE id WHEN 2 THEN {value} ELSE -id END",
            ]:
                if "IGNORE" not in rule or value == "NULL":
                    beside.alike(sql)
                else:
                    assert outcome(beside.virtual, sql) == MISMATCH, sql
                beside.alike("SELECT * FROM t")
            beside.alike("ROLLBACK", "SELECT * FROM t", "SELECT * FROM plain")
    beside.alike("INSERT INTO t VALUES (-9223372036854775808, '-9223372036854775808'), ('7', 8.0)", "SELECT * FROM t")


def the_last_rowid_is_the_key_where_that_is_one_number(room):
    """As of an INTEGER PRIMARY KEY; any other key leaves it, as that of a table WITHOUT ROWID does."""
    c, last = room.connect(), "SELECT last_insert_rowid()"
    (room.folder / "flags.csv").write_text("flag:bool:key,qty:int\n")
    done(c, f"CREATE VIRTUAL TABLE flags USING pdt('{room.folder}/flags.csv')")
    for name, kind in [("prices", "REAL"), ("days", "DATE"), ("times", "TIMESTAMP"), ("words", "TEXT"), ("numbers", "INTEGER")]:
        declared = f"database='{room.folder}/shop', table='{name}', sync='off', k {kind} PRIMARY KEY, qty INTEGER"
        done(c, f"CREATE VIRTUAL TABLE {name} USING pdt({declared})")
    done(c, "CREATE TABLE plain (id INTEGER PRIMARY KEY, x)", "CREATE TABLE lines (of_plain INTEGER)")
    for rowid, sql in [
        (3, "INSERT INTO plain (x) VALUES ('a'), ('b'), ('c')"),
        (3, "INSERT INTO parts VALUES ('c', 1, 'rod')"),
        (3, "INSERT INTO flags VALUES (1, 1)"),
        (3, "INSERT INTO words VALUES ('5', 1)"),
        (3, "INSERT INTO prices VALUES (7.5, 1)"),
        (3, "INSERT INTO days VALUES ('2024-12-31', 1)"),
        (3, "INSERT INTO times VALUES ('2024-12-31 23:59:59', 1)"),
        (77, "INSERT INTO t VALUES (77, '', 0, 0)"),
        (-2, "INSERT INTO numbers VALUES (5, 1), (-9223372036854775808, 1), ('-2', 1)"),
        (-2, "INSERT OR IGNORE INTO numbers VALUES (5, 9), (-2, 9)"),
        (5, "INSERT OR REPLACE INTO numbers VALUES (-2, 9), (5, 9)"),
        (5, "UPDATE numbers SET k = 6 WHERE k = 5"),
        (4, "INSERT INTO plain (x) VALUES ('d')"),
        (4, "DELETE FROM numbers WHERE k = 6"),
    ]:
        done(c, sql)
        shows(c, last, (rowid,))
    refused(c, "INSERT INTO numbers VALUES (8, 1), (-2, 9)", CONSTRAINT, "pdt: a row with the key k=-2 exists")
    # what a trigger inserts is forgotten at its end, as of any table
    done(c, "CREATE TRIGGER on_plain AFTER INSERT ON plain BEGIN INSERT INTO numbers VALUES (new.id + 100, 0); "
            "INSERT INTO lines VALUES (last_insert_rowid()); END", "INSERT INTO plain VALUES (9, '')")  # fmt: skip
    shows(c, f"{last} UNION ALL SELECT of_plain FROM lines", (9,), (109,))


def a_text_key_that_is_set_to_itself_leaves_the_texts_after_it(room):
    (room.folder / "texts.csv").write_text("k:text:key,a:text,b:text,n:int\nkey,one,two,1\nkey 2,,x,2\n")
    c = room.connect(tables=False)
    done(c, f"CREATE VIRTUAL TABLE texts USING pdt('{room.folder}/texts.csv')")
    done(c, "UPDATE texts SET k = k, b = 'second'")
    shows(c, "SELECT * FROM texts", ("key", "one", "second", 1), ("key 2", "", "second", 2))
    done(c, "UPDATE texts SET k = 'key', a = 'longer than it was', n = 3 WHERE n = 1")
    shows(c, "SELECT * FROM texts WHERE k = 'key'", ("key", "longer than it was", "second", 3))
    done(c, "UPDATE texts SET k = k, a = b, b = a, n = 4 WHERE k = 'key'")
    shows(c, "SELECT * FROM texts WHERE k = 'key'", ("key", "second", "longer than it was", 4))


def the_longest_keys_are_in_their_ranges(room):
    (room.folder / "long.csv").write_text("id:int:key,name:text:key,word:text:key\n1,a,b\n2,a,b\n")
    c = room.connect(tables=False)
    done(c, f"CREATE VIRTUAL TABLE long USING pdt('{room.folder}/long.csv')")
    greatest = "replace(hex(zeroblob(512)), '0', CAST(x'f48fbfbf' AS TEXT))"  # 1,024 of the last character
    shows(c, f"SELECT length({greatest}), length(CAST({greatest} AS BLOB))", (1024, 4096))
    for id, name, word in [(1, greatest, greatest), (1, greatest, "'x'"), (1, "'x'", greatest), (3, "''", "''")]:
        done(c, f"INSERT INTO long VALUES ({id}, {name}, {word})")
    lengths = "SELECT length(name), length(word) FROM long WHERE id = 1"
    shows(c, f"{lengths} ORDER BY id, name, word", (1, 1), (1, 1024), (1024, 1), (1024, 1024))
    shows(c, f"{lengths} AND name > 'a' ORDER BY id, name, word", (1, 1024), (1024, 1), (1024, 1024))
    shows(c, f"{lengths} AND name = 'x' AND word > 'b'", (1, 1024))
    shows(c, f"{lengths} AND name >= {greatest} ORDER BY id, name, word", (1024, 1), (1024, 1024))
    shows(c, f"{lengths} AND name > {greatest}")
    shows(c, "SELECT id FROM long WHERE id > 1 ORDER BY id", (2,), (3,))
    shows(c, "SELECT count(*) FROM long WHERE id <= 1", (4,))
    done(c, f"UPDATE long SET id = 2 WHERE name = {greatest}", f"DELETE FROM long WHERE id = 2 AND word = {greatest}")
    shows(c, "SELECT id, length(name), length(word) FROM long WHERE id = 2", (2, 1, 1), (2, 1024, 1))


def a_transaction_that_wrote_nothing_leaves_no_record(room):
    a, b = room.connect(words=", recent=1"), room.connect(words=", recent=1")
    done(a, "BEGIN", "DELETE FROM t WHERE id = 10")
    nothing = ["UPDATE t SET qty = 0 WHERE id = 5", "DELETE FROM t WHERE id > 90"]
    for sql in [*nothing, "INSERT OR IGNORE INTO t VALUES (20, '', 0, 0)"]:
        done(b, sql, "BEGIN", sql, "COMMIT", "BEGIN", "DELETE FROM t", "ROLLBACK")
        done(b, "SAVEPOINT a", "DELETE FROM t", "ROLLBACK TO a", "RELEASE a")
    done(a, "COMMIT")
    done(a, "BEGIN", "DELETE FROM t WHERE id = 20")
    done(b, "UPDATE t SET qty = 0 WHERE id = 30", "UPDATE t SET qty = 1 WHERE id = 30")  # these are two records
    refused(a, "COMMIT", BUSY_SNAPSHOT, TOO_OLD)


def a_cursor_comes_to_the_rows_that_sqlites_own_comes_to(room):
    cases = [  # when the cursor stands at a row, statements are run
        (30, "REPLACE INTO t VALUES (30, 2)"),  # with other cells SQLite's own comes to its new row again, or not
        (20, "REPLACE INTO t VALUES (30, 3)"),
        (10, "REPLACE INTO t VALUES (30, 3); DELETE FROM t WHERE id = 20; REPLACE INTO t VALUES (30, 4)"),
        (10, "UPDATE t SET id = id + 10 WHERE id >= 20"),
        (20, "UPDATE t SET id = CASE id WHEN 30 THEN 31 ELSE 10 END WHERE id >= 20"),
        (20, "INSERT INTO t VALUES (25, 1), (35, 1), (36, 1), (41, 1)"),
        (30, "INSERT INTO t VALUES (35, 1); INSERT INTO t VALUES (33, 1), (5, 1), (4, 1)"),
        (20, "DELETE FROM t WHERE id = 20; INSERT INTO t VALUES (20, 2)"),
        (20, "DELETE FROM t WHERE id = 20; INSERT INTO t VALUES (19, 7), (21, 7)"),
        (30, "DELETE FROM t WHERE id = 30; INSERT INTO t VALUES (29, 7), (31, 7)"),
        (10, "DELETE FROM t; INSERT INTO t VALUES (9, 1), (11, 1), (40, 1), (42, 1)"),
        (20, "SAVEPOINT a; DELETE FROM t WHERE id >= 20; ROLLBACK TO a"),
        (20, "SAVEPOINT a; DELETE FROM t WHERE id <= 20; ROLLBACK TO a"),
        (20, "DELETE FROM t WHERE id = 30; SAVEPOINT a; INSERT INTO t VALUES (33, 3), (8, 8); ROLLBACK TO a"),
        (20, "SAVEPOINT a; DELETE FROM t WHERE id = 20; INSERT INTO t VALUES (21, 1), (19, 1); ROLLBACK TO a"),
        (20, "DELETE FROM t WHERE id = 20; SAVEPOINT a; INSERT INTO t VALUES (20, 2), (21, 1); ROLLBACK TO a"),
        (20, "INSERT INTO t VALUES (26, 1), (10, 1), (27, 1); INSERT INTO t VALUES (28, 1)"),
        (25, "DELETE FROM t"),
    ]
    ways = ["", "WHERE id BETWEEN 10 AND 40", "WHERE id > 10 AND id <= 30", "WHERE id < 36", "WHERE id > 9 AND id < 42"]
    number = 0
    for at, text in cases:
        for way in ways:
            for order in ["ORDER BY id", "ORDER BY id DESC"]:
                number += 1
                beside = Beside(room, f"cursor{number}")
                beside.alike("CREATE t", "INSERT INTO t VALUES (10, 1), (20, 1), (25, 1), (30, 1)", "BEGIN")
                beside.alike("UPDATE t SET qty = 2")
                sql = f"SELECT * FROM t {way} {order}"
                found, wanted = (visited(c, sql, at, text) for c in (beside.virtual, beside.own))
                assert found == wanted, f"{way} {order} at {at}: {text}: found {found}, wanted {wanted}"
                beside.alike("SELECT * FROM t", "ROLLBACK")
                room.close()
                room.connections.clear()


def a_row_that_is_read_whole_is_the_one_that_is_there(room):
    """Its cells are those after a write that one of them is made by: here it is at another position, or was away in between."""
    c = room.connect()
    (room.folder / "texts.csv").write_text("k:text:key,n:int:key,a:text,m:int,b:text\nkey,1,one,7,\nkey,2,,8,two\n")
    done(c, f"CREATE VIRTUAL TABLE texts USING pdt('{room.folder}/texts.csv')", "BEGIN", "UPDATE t SET qty = 5 WHERE id = 20")
    for name, text, qty, after in [
        ("adds", "UPDATE t SET qty = qty + 1 WHERE id = 20", 5, 6),
        ("moves", "INSERT INTO t VALUES (1, 'first', 0, 0)", 6, 6),
        ("moves_back", "DELETE FROM t WHERE id < 20", 6, 6),
        ("returns", "DELETE FROM t WHERE id = 20; INSERT INTO t VALUES (20, 'Bob', 50, 1)", 6, 50),
        ("undoes", "SAVEPOINT a; UPDATE t SET qty = 9; INSERT INTO t VALUES (1, '', 0, 0); ROLLBACK TO a; RELEASE a", 50, 50),
    ]:
        c.function(name, lambda text=text: done(c, *text.split("; ")))
        shows(c, f"SELECT id, name, qty, {name}(), qty, name, id FROM t WHERE id = 20", (20, "Bob", qty, None, after, "Bob", 20))
    shows(c, "SELECT id, qty FROM t WHERE id IN (30, 20, 25)", (20, 50), (30, 3))
    done(c, "ROLLBACK")
    # texts among numbers, and keys of several columns
    shows(c, "SELECT b, m, a, n, k FROM texts WHERE k = 'key' AND n = 2", ("two", 8, "", 2, "key"))
    shows(c, "SELECT x.a, y.b FROM texts AS x JOIN texts AS y ON y.k = x.k AND y.n = x.n + 1", ("one", "two"))
    done(c, "UPDATE texts SET a = b || 'x', b = a || 'y', m = m + 1 WHERE k = 'key' AND n = 2")
    shows(c, "SELECT * FROM texts WHERE n = 2", ("key", 2, "twox", 9, "y"))
    shows(c, "SELECT b, a FROM texts WHERE _rowid_ = (SELECT _rowid_ FROM texts WHERE n = 1)", ("", "one"))
    shows(c, "SELECT a, b FROM texts WHERE k = 'none' AND n = 1")


def visited(connection, sql, at, text):
    """The rows that a statement shows, where others are run once it is at a row; at most as many as end it."""
    rows = []
    for row in connection.rows(sql):
        rows.append(row)
        if row[0] == at and rows.count(row) == 1:
            rows += [outcome(connection, other) for other in text.split("; ")]
        if len(rows) > 30:
            break
    return rows


def functions_take_a_schemas_name(room):
    c = room.connect()
    done(c, "ATTACH ':memory:' AS more")
    (room.folder / "more.csv").write_text("id:int:key,qty:int\n1,1\n")
    done(c, f"CREATE VIRTUAL TABLE more.t USING pdt('{room.folder}/more.csv')", "UPDATE main.t SET qty = 5 WHERE id = 10")
    done(c, "UPDATE more.t SET qty = 6")
    several = "pdt: t is a table of several schemas"
    for name in ["fold", "trim"]:
        shows(c, f"SELECT pdt_{name}('main.t'), pdt_{name}('More.T'), pdt_{name}('parts')", (None, None, None))
        refused(c, f"SELECT pdt_{name}('t')", ERROR, several)
        refused(c, f"SELECT pdt_{name}('none.t')", ERROR, "pdt: no such table: none.t")
        refused(c, f"SELECT pdt_{name}('temp.t')", ERROR, "pdt: no such table: temp.t")
    shows(c, "SELECT layer, cells FROM pdt_layers('more.t')", ("read", "qty=6"))
    shows(c, "SELECT layer, cells FROM pdt_layers('main.t')", ("read", "qty=5"))
    (room.folder / "table").mkdir()
    shows(c, f"SELECT pdt_checkpoint('more.t', '{room.folder}/table')", (None,))
    done(c, f"CREATE VIRTUAL TABLE \"a.b\" USING pdt(checkpoint='{room.folder}/table')")
    shows(c, "SELECT pdt_fold('a.b'), pdt_fold('main.a.b')", (None, None))
    shows(c, 'SELECT * FROM "a.b"', (1, 6))


def a_join_searches_by_the_first_column_of_a_key(room):
    """The rows of one value are few, though the table is large; where they are many it is scanned once."""
    few = "".join(f"{i // 4},{i},0\n" for i in range(4000))
    many = "".join(f"{i // 1000},{i},0\n" for i in range(4000))
    c = room.connect(tables=False)
    done(c, "CREATE TABLE plain (k INTEGER)", "WITH n(i) AS (SELECT 0 UNION ALL SELECT i + 1 FROM n WHERE i < 99) "
         "INSERT INTO plain SELECT i FROM n", "ANALYZE")  # fmt: skip
    for name, rows in [("few", few), ("many", many)]:
        (room.folder / f"{name}.csv").write_text("a:int:key,b:int:key,n:int\n" + rows)
        done(c, f"CREATE VIRTUAL TABLE {name} USING pdt('{room.folder}/{name}.csv')")
    plan = [row[3] for row in c.run("EXPLAIN QUERY PLAN SELECT count(*) FROM plain JOIN few ON a = k")]
    assert plan == ["SCAN plain", "SCAN few VIRTUAL TABLE INDEX 1:a=?"], plan
    shows(c, "SELECT count(*), sum(b) FROM plain JOIN few ON a = k", (400, sum(range(400))))
    plan = [row[3] for row in c.run("EXPLAIN QUERY PLAN SELECT * FROM few JOIN many ON few.a = many.a")]
    assert plan == ["SCAN many VIRTUAL TABLE INDEX 0:", "SCAN few VIRTUAL TABLE INDEX 1:a=?"], plan
    shows(c, "SELECT count(*) FROM many JOIN few ON few.a = many.a", (4 * 1000 * 4,))


def main():
    tests = [an_in_over_a_text_key_finds_what_sqlites_own_finds]
    tests += [a_list_behind_other_columns_is_searched_in_their_rows]
    tests += [a_cursor_over_a_list_comes_to_what_is_there_at_its_turn]
    tests += [an_update_that_meets_a_row_that_it_has_put_there_is_refused_whole]
    tests += [a_full_table_is_a_constraint_of_its_statement]
    tests += [a_value_that_is_not_taken_goes_by_the_or_of_its_statement, the_last_rowid_is_the_key_where_that_is_one_number]
    tests += [a_text_key_that_is_set_to_itself_leaves_the_texts_after_it, the_longest_keys_are_in_their_ranges]
    tests += [a_transaction_that_wrote_nothing_leaves_no_record, a_cursor_comes_to_the_rows_that_sqlites_own_comes_to]
    tests += [a_row_that_is_read_whole_is_the_one_that_is_there]
    tests += [functions_take_a_schemas_name, a_join_searches_by_the_first_column_of_a_key]
    run(tests)


if __name__ == "__main__":
    main()
