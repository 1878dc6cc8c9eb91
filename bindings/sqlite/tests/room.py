"""What the sessions that are worked out by hand share: two tables, connections to them, and what a statement shows.
"""
import tempfile
from pathlib import Path

from sql import Connection, Error, memory_used

ERROR, ABORT, BUSY, FULL, CONSTRAINT, MISMATCH, BUSY_SNAPSHOT = 1, 4, 5, 13, 19, 20, 517
CSV = 'id:int:key,name:text,qty:int,sold:bool\n30,Cid,3,true\n10,"Ann, Jr",1,false\n20,Bob,2,true\n'
PARTS = "bin:text:key,slot:int:key,what:text\na,1,nut\na,2,bolt\nb,-5,gear\nb,3,cog\n"
BLIND = "pdt: its trace callback was replaced, and it may have missed the end of a transaction. It is set again: end this one, and "
BLIND += "begin anew"
IN_CONFLICT = "pdt: a commit since the transaction began is in conflict with it"


class Room:
    """A folder with the two tables, and the connections that a test opens."""

    def __init__(self, folder):
        self.folder, self.connections = Path(folder), []
        (self.folder / "t.csv").write_text(CSV)
        (self.folder / "parts.csv").write_text(PARTS)

    def connect(self, path=":memory:", words="", tables=True, **how):
        """A connection, in which t and parts are the two tables."""
        connection = Connection(path, **how)
        self.connections.append(connection)
        if tables:
            connection.run(f"CREATE VIRTUAL TABLE t USING pdt('{self.folder}/t.csv'{words})")
            connection.run(f"CREATE VIRTUAL TABLE parts USING pdt('{self.folder}/parts.csv')")
        return connection

    def close(self):
        for connection in self.connections:
            connection.close()


def shows(connection, sql, *rows):
    found = connection.run(sql)
    assert found == list(rows), f"{sql}: found {found}"


def done(connection, *statements):
    for sql in statements:
        shows(connection, sql)


def refused(connection, sql, code, text):
    try:
        found = connection.run(sql)
    except Error as error:
        assert (error.code, error.text) == (code, text), f"{sql}: {error}"
        return
    raise AssertionError(f"{sql}: found {found}")


PAIR = "id INTEGER NOT NULL CHECK (typeof(id) = 'integer') PRIMARY KEY, qty INTEGER NOT NULL CHECK (typeof(qty) = 'integer')"
WORDS = "word TEXT NOT NULL PRIMARY KEY, qty INTEGER NOT NULL"
HEADERS = {"t": "id:int:key,qty:int", "u": "id:int:key,qty:int", "w": "word:text:key,qty:int"}


class Beside:
    """Two databases: in one `CREATE t` makes a virtual table, in the other one of SQLite's own."""

    def __init__(self, room, name="beside", words=""):
        self.room, self.words, self.done = room, words, []
        self.virtual = room.connect(room.folder / f"{name}.db", tables=False)
        self.own = room.connect(room.folder / f"{name}.own.db", tables=False)
        for connection in (self.virtual, self.own):
            connection.run("PRAGMA synchronous = OFF")
            connection.run("PRAGMA journal_mode = MEMORY")
        for table, header in HEADERS.items():
            (room.folder / f"{name}.{table}.csv").write_text(header + "\n")
        self.files = f"{room.folder}/{name}"

    def texts(self, sql):
        """A statement for the virtual table, and the one for SQLite's own."""
        verb, _, name = sql.partition(" ")
        table = name.rpartition(".")[2]  # behind that of its schema, as in temp.u
        if verb != "CREATE" or table not in HEADERS:
            return sql, sql
        columns = WORDS if table == "w" else PAIR
        virtual = f"CREATE VIRTUAL TABLE {name} USING pdt('{self.files}.{table}.csv'{self.words})"
        return virtual, f"CREATE TABLE {name} ({columns}) WITHOUT ROWID"

    def alike(self, *statements):
        """Each statement has the same rows in both, or fails with the same code."""
        for sql in statements:
            self.done.append(sql)
            virtual, own = self.texts(sql)
            found, wanted = outcome(self.virtual, virtual), outcome(self.own, own)
            assert found == wanted, f"{'; '.join(self.done)}: found {found}, wanted {wanted}"


def outcome(connection, sql):
    """The rows of a statement, or the code that it fails with."""
    try:
        return connection.run(sql)
    except Error as error:
        return error.code & 255


def run(tests):
    """Each test in a room of its own, of which nothing is left."""
    for test in tests:
        with tempfile.TemporaryDirectory() as folder:
            room = Room(folder)
            try:
                test(room)
            except BaseException:
                print(f"failed: {test.__name__}")
                raise
            room.close()
            assert memory_used() == 0, f"{test.__name__} leaves {memory_used()} bytes"
    print(f"{len(tests)} sessions as worked out")
