"""SQLite by ctypes: a python3 may have a sqlite3 module that loads no extension, while the library itself does."""
import ctypes
import ctypes.util
from pathlib import Path

ROW, DONE = 100, 101
INTEGER, FLOAT, TEXT, BLOB, NULL = 1, 2, 3, 4, 5
EXTENSION = Path(__file__).resolve().parents[1] / "out/pdt.so"

_lib = ctypes.CDLL(ctypes.util.find_library("sqlite3") or "libsqlite3.so.0")
_NAMES = {
    "sqlite3_errmsg": ctypes.c_char_p,
    "sqlite3_column_int64": ctypes.c_int64,
    "sqlite3_column_double": ctypes.c_double,
    "sqlite3_column_blob": ctypes.c_void_p,
    "sqlite3_memory_used": ctypes.c_int64,
}
for _name, _type in _NAMES.items():
    getattr(_lib, _name).restype = _type


class Error(Exception):
    """What SQLite has refused: its extended code, and its sentence."""

    def __init__(self, code, text):
        super().__init__(f"{text} ({code})")
        self.code, self.text = code, text


def memory_used():
    """How many bytes SQLite's allocator, from which the extension has its objects too, has lent."""
    return _lib.sqlite3_memory_used()


def is_compiled_with(option):
    """Whether SQLite was compiled with an option."""
    return bool(_lib.sqlite3_compileoption_used(option.encode()))


def load_automatically(extension=EXTENSION):
    """From now on each connection has the extension from its opening on; answers what ends that."""
    start = ctypes.cast(ctypes.CDLL(str(extension)).sqlite3_pdt_init, ctypes.c_void_p)
    assert _lib.sqlite3_auto_extension(start) == 0
    return _lib.sqlite3_reset_auto_extension


class Connection:
    """A connection that has loaded the extension."""

    def __init__(self, path=":memory:", extension=EXTENSION, read_only=False):
        self._db, self._functions = ctypes.c_void_p(), []
        flags = 1 if read_only else 2 | 4  # SQLITE_OPEN_READONLY; else .._READWRITE and .._CREATE
        if _lib.sqlite3_open_v2(str(path).encode(), ctypes.byref(self._db), flags, None):
            raise Error(1, "can't open")
        _lib.sqlite3_extended_result_codes(self._db, 1)
        if extension:
            self.load(extension)

    def load(self, extension):
        """Loads an extension, as .load of the shell does."""
        why = ctypes.c_char_p()
        _lib.sqlite3_enable_load_extension(self._db, 1)
        if code := _lib.sqlite3_load_extension(self._db, str(extension).encode(), None, ctypes.byref(why)):
            raise Error(code, why.value.decode())

    def error(self):
        """The last error."""
        return Error(_lib.sqlite3_extended_errcode(self._db), _lib.sqlite3_errmsg(self._db).decode())

    def prepare(self, sql):
        """A statement, which is kept until it is finalized."""
        statement = ctypes.c_void_p()
        if _lib.sqlite3_prepare_v2(self._db, sql.encode(), -1, ctypes.byref(statement), None):
            raise self.error()
        return statement

    def step(self, statement):
        """The rows of a statement, one at a time, and then it can be stepped again."""
        try:
            while (code := _lib.sqlite3_step(statement)) == ROW:
                yield tuple(self._cell(statement, i) for i in range(_lib.sqlite3_column_count(statement)))
            if code != DONE:
                raise self.error()
        finally:
            _lib.sqlite3_reset(statement)

    @staticmethod
    def finalize(statement):
        _lib.sqlite3_finalize(statement)

    def rows(self, sql):
        """The rows of a statement, one at a time; the statement is open until the last."""
        statement = self.prepare(sql)
        try:
            yield from self.step(statement)
        finally:
            self.finalize(statement)

    def run(self, sql):
        """All rows of a statement."""
        return list(self.rows(sql))

    def is_over(self):
        """Whether no transaction is open."""
        return bool(_lib.sqlite3_get_autocommit(self._db))

    def trace(self):
        """Takes the connection's one trace callback away from whoever has it."""
        _lib.sqlite3_trace_v2(self._db, 0, None, None)

    def refuse_commits(self, is_on):
        """Sets a commit hook that refuses each commit of SQLite's own, or none."""
        self._hook = ctypes.CFUNCTYPE(ctypes.c_int, ctypes.c_void_p)(lambda _: 1) if is_on else None
        _lib.sqlite3_commit_hook(self._db, self._hook, None)

    def function(self, name, call):
        """Makes a function of SQL with no argument, which has Python called, and is NULL."""
        called = ctypes.CFUNCTYPE(None, ctypes.c_void_p, ctypes.c_int, ctypes.c_void_p)(lambda *_: call())
        self._functions.append(called)
        assert _lib.sqlite3_create_function(self._db, name.encode(), 0, 1, None, called, None, None) == 0

    def close(self):
        """Closes the connection, in which no statement is open."""
        if _lib.sqlite3_close(self._db):
            raise self.error()

    @staticmethod
    def _cell(statement, i):
        kind = _lib.sqlite3_column_type(statement, i)
        if kind == INTEGER:
            return _lib.sqlite3_column_int64(statement, i)
        if kind == FLOAT:
            return _lib.sqlite3_column_double(statement, i)
        if kind == NULL:
            return None
        found = ctypes.string_at(_lib.sqlite3_column_blob(statement, i) or b"", _lib.sqlite3_column_bytes(statement, i))
        return found.decode() if kind == TEXT else found
