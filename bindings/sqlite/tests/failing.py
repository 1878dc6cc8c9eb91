"""Calls of the library that answer what no run of a test gets from it: what SQL says of each, and what stays.

    failing.py EXTENSION     which is linked with failing.c
"""
import ctypes
import sys
from pathlib import Path

from databases import IN, ITEMS, SUMS, closed, filled, make
from room import ABORT, done, refused, run, shows

NOMEM, MISUSE, TOO_LONG, TOOBIG = 1, 14, 26, 18  # of the library, but for the last
fail_once = ctypes.CDLL(str(Path(sys.argv[1]).resolve())).fail_once


def a_commit_that_is_too_long_for_the_journal_is_too_big(room):
    c = filled(room)
    done(c, "CREATE TABLE own (k)", "BEGIN", "INSERT INTO own VALUES (1)", "DELETE FROM sales", "UPDATE items SET qty = 0")
    fail_once(b"pdt_dbtxn_commit", TOO_LONG)
    refused(c, "COMMIT", TOOBIG, "pdt: what the transaction changes is too long for the journal")
    assert c.is_over()
    shows(c, SUMS, (6, 9))
    shows(c, "SELECT count(*) FROM own", (0,))
    done(c, "UPDATE items SET qty = 1")
    shows(c, SUMS, (3, 9))


def writes_of_a_dropped_table_that_cant_be_undone_refuse_the_commit(room):
    c = filled(room)
    done(c, "BEGIN", "UPDATE items SET qty = 100", "DELETE FROM sales WHERE item = 10", "DROP TABLE items")
    fail_once(b"pdt_rollback_to", NOMEM)
    refused(c, "COMMIT", ABORT, "pdt: writes of a table couldn't be undone: only ROLLBACK is left")
    assert c.is_over()
    shows(c, SUMS, (6, 9))
    closed(room)
    c = room.connect(tables=False)
    make(c, room.folder / "shop", columns=False)
    shows(c, SUMS, (6, 9))


def a_database_that_cant_be_closed_is_there_for_whoever_comes_next(room):
    filled(room)
    fail_once(b"pdt_database_close", MISUSE)
    closed(room)
    folder, c = room.folder / "shop", room.connect(tables=False)
    make(c, folder, columns=False)
    shows(c, SUMS, (6, 9))
    closed(room)  # and now it is closed: it is opened with another sync
    c = room.connect(tables=False)
    done(c, IN.format(table="items", folder=folder, words=", sync=off" + ITEMS))
    shows(c, "SELECT sum(qty) FROM items", (6,))


def main():
    tests = [a_commit_that_is_too_long_for_the_journal_is_too_big]
    tests += [writes_of_a_dropped_table_that_cant_be_undone_refuse_the_commit]
    run(tests + [a_database_that_cant_be_closed_is_there_for_whoever_comes_next])


if __name__ == "__main__":
    main()
