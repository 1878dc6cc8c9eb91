"""``python -m narthexmace show TABLE.csv [--script SCRIPT.csv]``: a table, and what a script's calls make of it.

With a script it prints the replies, in the words of the program ``pdt``, and then, side by side, what is after the
last call: the stable table, the Read-PDT, the Write-PDT, the newest image, and the entries of each open transaction.
But a ``cut`` has no count here, and a commit that changes nothing takes no number: it has that of the table it saw.
``+25,Dee,4 at 2`` is an insert, ``-20 at 1`` a delete, ``qty=5 at 0`` a cell that is set; the number is the SID, the
position among the rows below the layer. Each line has one key, or says how many lines more there are.

A terminal gets colours, unless NO_COLOR is set, and lines that are cut to its width.
"""
from __future__ import annotations

import argparse
import csv
import sys
from functools import partial
from itertools import islice
from pathlib import Path
from typing import Dict, Iterable, Iterator, List, Optional, Sequence, TextIO

from . import Conflict, Entry, Error, Full, Table, TooOld, Transaction, open
from ._cells import BOOL, INT, LEAST, MOST, TEXT, Cell, Row
from ._library import MAX_ROWS, MAX_TEXT
from ._pictures import Line, Terminal, laid, layers_beside, spelled, table_block

Answer = List[Cell]


class BadScript(Exception):
    """A record of a script that is no call."""


class Script:
    """A script's calls on a store, one after the other."""

    def __init__(self, table: Table) -> None:
        self.table = table
        self.columns = table.columns
        self.key = [column for column in table.columns if column.key]
        self.open: Dict[str, Transaction] = {}

    def replies(self, records: Sequence[Sequence[str]]) -> Iterator[Answer]:
        """Makes each call, and answers its lines."""
        for record in records:
            client, verb, *words = record
            for answer in self.call(client, verb, words):
                yield [client, verb, *answer]

    def check(self, records: Sequence[Sequence[str]]) -> None:
        """BadScript where a record is no call."""
        for number, record in enumerate(records, 1):
            try:
                _, verb, *words = record
                self.arguments(verb, words)
            except (ValueError, KeyError) as fault:
                raise BadScript(f"record {number} is no call: {fault}") from None

    def arguments(self, verb: str, words: Sequence[str]) -> List[Cell]:
        """The cells, positions and names of a call. ValueError where they aren't those of its verb."""
        if verb in ("begin", "len", "commit", "abort", "fold", "cut"):
            wanted: List[str] = []
        elif verb == "insert":
            wanted = [column.type for column in self.columns]
        elif verb in ("delete", "get", "rank"):
            wanted = [column.type for column in self.key]
        elif verb == "set":
            named = words[len(self.key)] if len(words) > len(self.key) else ""
            wanted = [column.type for column in self.key] + [TEXT, self.type_of(named)]
        elif verb in ("at", "scan"):
            wanted = ["position"] * (2 if verb == "scan" else 1)
        else:
            raise ValueError(f"there is no verb {verb!r} here")
        if len(words) != len(wanted):
            raise ValueError(f"{verb} takes {len(wanted)} arguments")
        return [cell_of(word, type_) for word, type_ in zip(words, wanted)]

    def type_of(self, name: str) -> str:
        for column in self.columns:
            if column.name == name:
                return column.type
        raise ValueError(f"there is no column {name!r}")

    def call(self, client: str, verb: str, words: Sequence[str]) -> List[Answer]:
        """The lines of a call's reply."""
        if verb in ("fold", "cut"):
            (self.table.trim if verb == "cut" else self.table.fold)()
            return [["Done"]]
        if verb == "begin":
            if client in self.open:
                return [["AlreadyOpen"]]
            self.open[client] = self.table.begin()
            return [["Begun"]]
        if client not in self.open:
            return [["NotOpen"]]
        cells = self.arguments(verb, words)
        refusal = self.refusal(verb, cells)
        if refusal:
            return [refusal]
        try:
            return self.in_transaction(self.open[client], client, verb, cells)
        except (Conflict, TooOld, Full) as refused:
            return [[type(refused).__name__, refused.commits] if verb == "commit" else [type(refused).__name__]]
        except Error as refused:
            return [[type(refused).__name__]]

    def refusal(self, verb: str, cells: List[Cell]) -> Optional[Answer]:
        """The reply to a call whose cells have the right types but can't be taken; None if they can."""
        if verb not in ("insert", "delete", "set", "get", "rank"):
            return None
        for place, cell in enumerate(cells[: len(self.key)] if verb == "set" else cells):
            if is_too_long(cell):
                return ["TextTooLong", place]
        if verb != "set":
            return None
        place = [column.name for column in self.columns].index(str(cells[-2]))
        if self.columns[place].key:
            return ["KeyColumn"]
        return ["TextTooLong", place] if is_too_long(cells[-1]) else None

    def in_transaction(self, txn: Transaction, client: str, verb: str, cells: List[Cell]) -> List[Answer]:
        if verb in ("insert", "delete", "set"):
            return [[self.write(txn, verb, cells)]]
        if verb == "commit":
            del self.open[client]
            return [["Committed", txn.commit()]]
        if verb == "abort":
            del self.open[client]
            txn.abort()
            return [["Aborted"]]
        return self.read(txn, verb, cells)

    @staticmethod
    def write(txn: Transaction, verb: str, cells: List[Cell]) -> str:
        if verb == "insert":
            txn.insert(cells)
        elif verb == "delete":
            txn.delete(cells)
        else:
            *key, column, cell = cells
            txn.set(key, str(column), cell)
        return "Done"

    @staticmethod
    def read(txn: Transaction, verb: str, cells: List[Cell]) -> List[Answer]:
        if verb == "get":
            row = txn.get(cells)
            return [["Missing"] if row is None else ["Row", *row]]
        if verb == "rank":
            return [["Place", *txn.rank(cells)]]
        if verb == "len":
            return [["Rows", len(txn)]]
        start, stop = int(cells[0]), int(cells[-1])
        if verb == "at":
            return [["Row", *txn[start]] if start < len(txn) else ["None"]]
        rows = txn[start:stop]
        return [*(["Row", *row] for row in rows), ["End", len(rows)]]

    def end(self) -> None:
        """Aborts what the script has left open."""
        for txn in self.open.values():
            txn.abort()
        self.open.clear()


def is_too_long(cell: Cell) -> bool:
    return isinstance(cell, str) and len(cell.encode()) > MAX_TEXT


def cell_of(word: str, type_: str) -> Cell:
    """A cell that a script's word spells. ValueError where it spells none of the type."""
    if type_ == TEXT:
        return word
    if type_ == BOOL:
        if word not in ("true", "false"):
            raise ValueError(f"{word!r} is no truth")
        return word == "true"
    digits = word[1:] if type_ == INT and word[:1] in ("+", "-") else word
    if not (digits.isascii() and digits.isdigit()):
        raise ValueError(f"{word!r} is no number")
    least, most = (LEAST, MOST) if type_ == INT else (0, 2**64 - 1)
    if not least <= int(word) <= most:
        raise ValueError(f"{word} is out of range")
    return int(word)


def read_script(path: Path) -> List[List[str]]:
    with path.open(encoding="utf-8-sig", newline="") as file:
        return [record for record in csv.reader(file, strict=True) if record]


def newest(table: Table, most: Optional[int]) -> List[Row]:
    """The first rows of the newest table, or all."""
    with table.read() as snapshot:
        return list(islice(snapshot, most))


def pictured(script: Script, stable: Sequence[Row]) -> List[Line]:
    """The stable rows, the layers over them, the newest image, and what each open transaction has written."""
    table, key = script.table, len(script.key)
    image, entries = newest(table, None), list(table.layers())
    layers = [
        laid("Read-PDT", (it for it in entries if it.layer == "read"), lambda it: stable[it.sid], key),
        laid("Write-PDT", (it for it in entries if it.layer == "write"), lambda it: image[it.rid], key),
    ]
    own = [laid(f"{spelled(client)}'s own", txn.layer(), partial(changed_row, txn), key) for client, txn in script.open.items()]
    return layers_beside(table.columns, stable, layers, image, own)


def changed_row(txn: Transaction, entry: Entry) -> Row:
    """The row of a transaction that one of its own modifies changes."""
    return txn[entry.rid]


# ---- the command


def show(words: argparse.Namespace, out: TextIO) -> None:
    """Prints the table, and what the script makes of it."""
    with open(words.table, recent=words.recent, row_limit=words.limit, conflicts=words.conflicts) as table:
        if words.script is None:
            rows = newest(table, words.rows)
            Terminal(out).write(table_block(table.columns, rows), newest_length(table) - len(rows))
            return
        stable, script, records = newest(table, None), Script(table), read_script(words.script)
        script.check(records)
        write_lines(script.replies(records), out)
        print(file=out)
        lines = pictured(script, stable)
        Terminal(out).write(lines[: words.rows + 2], len(lines) - words.rows - 2)
        script.end()
        commits, write_entries, read_entries, _ = table.sizes()
        print("", f"commits {commits}, Read-PDT {read_entries}, Write-PDT {write_entries}", sep="\n", file=out)


def write_lines(lines: Iterable[Sequence[Cell]], out: TextIO) -> None:
    """Writes lines as the program writes them."""
    writer = csv.writer(out, lineterminator="\n")
    for line in lines:
        writer.writerow([str(cell).lower() if isinstance(cell, bool) else cell for cell in line])


def newest_length(table: Table) -> int:
    with table.read() as snapshot:
        return len(snapshot)


def main(arguments: Optional[Sequence[str]] = None) -> int:
    about = "Narthexmace: a table, its layers and its image"
    parser = argparse.ArgumentParser(prog="python -m narthexmace", description=about)
    commands = parser.add_subparsers(required=True, metavar="show")
    command = commands.add_parser("show", help="prints a table, and the layers that a script makes over it")
    command.add_argument("table", type=Path, help="a table as CSV")
    command.add_argument("--script", type=Path, help="a script of calls")
    command.add_argument("--recent", type=int, default=64, help="commits between a begin and its commit")
    command.add_argument("--limit", type=int, default=MAX_ROWS, help="how many rows the table may have")
    command.add_argument("--conflicts", choices=["column", "row"], default="column", help="what conflicts")
    command.add_argument("--rows", type=int, default=40, help="how many rows are printed at most")
    words = parser.parse_args(arguments)
    try:
        show(words, sys.stdout)
    except (Error, BadScript, OSError, csv.Error, UnicodeDecodeError) as fault:
        print(f"narthexmace: {fault}", file=sys.stderr)
        return 1
    return 0


if __name__ == "__main__":
    sys.exit(main())
