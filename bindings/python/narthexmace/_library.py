"""The C library: where it is found, and what its calls take and return. ``libpdt/include/pdt.h`` and
``libpdt/include/pdt_arrow.h`` say what each call does.
"""
from __future__ import annotations

import ctypes
import os
from ctypes import c_bool, c_char, c_char_p, c_int, c_int64, c_size_t, c_uint32, c_uint64, c_void_p
from pathlib import Path
from typing import NoReturn

#: The environment variable that names another library than the one that was packed.
PLACE = "NARTHEXMACE_LIBRARY"
#: The environment variable by which the package is imported without a library, so that its documentation can be read.
ABSENT = "NARTHEXMACE_WITHOUT_LIBRARY"

#: A number that no commit has.
NO_NUMBER = 2**64 - 1
MAX_NAME = 64
MAX_TEXT = 4096
MAX_RECENT = 65_536
MAX_ROWS = 2_147_483_647

# The defaults of a database's options.
FOLD_ENTRIES = 1024
CHECKPOINT_ENTRIES = 10_000
JOURNAL_BYTES = 67_108_864
KEPT_BYTES = 268_435_456


class Options(ctypes.Structure):
    """pdt_options"""

    _fields_ = [("size", c_size_t), ("recent", c_size_t), ("row_limit", c_uint64), ("by_row", c_bool)]


class SizesOf(ctypes.Structure):
    """pdt_sizes"""

    _fields_ = [
        ("commits", c_uint64),
        ("write_entries", c_size_t),
        ("read_entries", c_size_t),
        ("open_transactions", c_size_t),
    ]


class CountsOf(ctypes.Structure):
    """pdt_counts"""

    _fields_ = [
        ("size", c_size_t),
        ("begins", c_uint64),
        ("commits", c_uint64),
        ("conflicts", c_uint64),
        ("too_old", c_uint64),
        ("full", c_uint64),
        ("folds", c_uint64),
        ("checkpoints", c_uint64),
        ("superseded", c_uint64),
        ("pins", c_size_t),
        ("oldest_pin", c_uint64),
        ("kept", c_size_t),
        ("kept_entries", c_uint64),
        ("waits", c_uint64),
        ("longest_hold", c_uint64),
        ("packs", c_uint64),
    ]


class EntryOf(ctypes.Structure):
    """pdt_entry"""

    _fields_ = [
        ("sid", c_uint64),
        ("rid", c_uint64),
        ("column", c_size_t),
        ("cells", c_size_t),
        ("bytes", c_size_t),
        ("kind", c_uint32),
    ]


class IntSpan(ctypes.Structure):
    """pdt_int_span"""

    _fields_ = [("at", c_void_p), ("count", c_uint64), ("number", c_int64)]


class ColumnOf(ctypes.Structure):
    """pdt_column"""

    _fields_ = [
        ("name", c_char_p),
        ("type", c_int),
        ("rows", c_uint64),
        ("numbers", c_void_p),
        ("offsets", c_void_p),
        ("bytes", c_void_p),
        ("len", c_size_t),
    ]


class PlaceOf(ctypes.Structure):
    """pdt_place"""

    _fields_ = [("row", c_uint64), ("column", c_uint64)]


class FaultOf(ctypes.Structure):
    """pdt_fault"""

    _fields_ = [("row", c_uint64), ("column", c_uint64), ("cause", c_char_p)]


class PlainOf(ctypes.Structure):
    """pdt_plain"""

    _fields_ = [("size", c_size_t), ("key", c_void_p), ("key_count", c_size_t), ("sample", c_size_t)]


class DatabaseOptions(ctypes.Structure):
    """pdt_database_options"""

    _fields_ = [
        ("size", c_size_t),
        ("sync", c_int),
        ("early_reads", c_bool),
        ("no_maintenance", c_bool),
        ("read_only", c_bool),
        ("fold_entries", c_uint64),
        ("checkpoint_entries", c_uint64),
        ("journal_bytes", c_uint64),
        ("kept_bytes", c_uint64),
        ("mode", c_uint32),
    ]


class ReportOf(ctypes.Structure):
    """pdt_report"""

    _fields_ = [
        ("size", c_size_t),
        ("commits", c_uint64),
        ("replayed", c_uint64),
        ("torn_bytes", c_uint64),
        ("fault", c_uint64),
        ("file", c_char * 64),
    ]


class DatabaseCountsOf(ctypes.Structure):
    """pdt_database_counts"""

    _fields_ = [
        ("size", c_size_t),
        ("commits", c_uint64),
        ("durable", c_uint64),
        ("batches", c_uint64),
        ("syncs", c_uint64),
        ("folds", c_uint64),
        ("checkpoints", c_uint64),
        ("faults", c_uint64),
        ("journal_bytes", c_uint64),
        ("journal_files", c_size_t),
        ("tables", c_size_t),
        ("kept_bytes", c_uint64),
    ]


# Each call's result, and its arguments. A pointer to what the call fills is a void pointer here, so that an array, a
# part of one and a number by reference can all be passed.
_CELLS = [c_void_p, c_char_p, c_size_t]  # numbers, texts, and how many bytes the texts have
_CALLS = {
    "version": (c_char_p, []),
    "code_text": (c_char_p, [c_int]),
    "errmsg": (c_char_p, [c_int]),
    "open_csv": (c_int, [c_char_p, c_size_t, c_void_p, c_void_p, c_void_p]),
    "csv_has_types": (c_int, [c_char_p, c_size_t, c_void_p]),
    "open_plain": (c_int, [c_char_p, c_size_t, c_void_p, c_void_p, c_void_p, c_void_p]),
    "open_columns": (c_int, [c_void_p, c_size_t, c_size_t, c_void_p, c_void_p, c_void_p]),
    "recover": (c_int, [c_char_p, c_void_p, c_void_p]),
    "close": (c_int, [c_void_p]),
    "columns": (c_size_t, [c_void_p]),
    "key_columns": (c_size_t, [c_void_p]),
    "column_type": (c_int, [c_void_p, c_size_t]),
    "column_name": (c_char_p, [c_void_p, c_size_t]),
    "size": (c_int, [c_void_p, c_void_p]),
    "count": (c_int, [c_void_p, c_void_p]),
    "fold": (c_int, [c_void_p]),
    "trim": (c_int, [c_void_p]),
    "checkpoint": (c_int, [c_void_p, c_char_p]),
    "begin": (c_int, [c_void_p, c_void_p]),
    "txn_version": (c_int, [c_void_p, c_void_p]),
    "pin": (c_int, [c_void_p, c_void_p, c_void_p]),
    "begin_at": (c_int, [c_void_p, c_void_p]),
    "unpin": (None, [c_void_p]),
    "abort": (None, [c_void_p]),
    "commit": (c_int, [c_void_p, c_void_p]),
    "prepare": (c_int, [c_void_p, c_void_p]),
    "give_up": (c_int, [c_void_p]),
    "insert": (c_int, [c_void_p, *_CELLS]),
    "delete": (c_int, [c_void_p, *_CELLS]),
    "set": (c_int, [c_void_p, *_CELLS, c_size_t, c_int64, c_char_p]),
    "savepoint": (c_int, [c_void_p, c_void_p]),
    "rollback_to": (c_int, [c_void_p, c_size_t]),
    "release": (c_int, [c_void_p, c_size_t]),
    "rows": (c_int, [c_void_p, c_void_p]),
    "rank": (c_int, [c_void_p, *_CELLS, c_void_p, c_void_p]),
    "get": (c_int, [c_void_p, *_CELLS, c_void_p, c_void_p, c_size_t, c_void_p]),
    "row_at": (c_int, [c_void_p, c_uint64, c_void_p, c_void_p, c_size_t, c_void_p]),
    "cells": (c_int, [c_void_p, c_size_t, c_uint64, c_void_p, c_void_p, c_void_p, c_size_t, c_void_p]),
    "texts": (c_int, [c_void_p, c_size_t, c_uint64, c_void_p, c_void_p, c_void_p]),
    "ints": (c_int, [c_void_p, c_size_t, c_uint64, c_void_p, c_void_p]),
    "bools": (c_int, [c_void_p, c_size_t, c_uint64, c_void_p, c_void_p]),
    "int_spans": (c_int, [c_void_p, c_size_t, c_uint64, c_uint64, c_void_p, c_void_p, c_void_p]),
    "layers": (c_int, [c_void_p, c_void_p, c_void_p]),
    "own_layer": (c_int, [c_void_p, c_void_p]),
    "changes": (c_int, [c_void_p, c_uint64, c_void_p]),
    "wait": (c_int, [c_void_p, c_uint64, c_uint64, c_void_p]),
    "layer_close": (None, [c_void_p]),
    "layer_size": (c_size_t, [c_void_p]),
    "entry_at": (c_int, [c_void_p, c_size_t, c_void_p, c_void_p, c_void_p, c_size_t]),
    "database_open": (c_int, [c_char_p, c_void_p, c_void_p, c_void_p]),
    "database_close": (c_int, [c_void_p]),
    "database_count": (c_int, [c_void_p, c_void_p]),
    "maintain": (c_int, [c_void_p]),
    "table_open": (c_int, [c_void_p, c_char_p, c_void_p]),
    "table_name": (c_int, [c_void_p, c_size_t, c_void_p, c_size_t]),
    "table_drop": (c_int, [c_void_p, c_char_p]),
    "dbtxn_begin": (c_int, [c_void_p, c_void_p]),
    "dbtxn_on": (c_int, [c_void_p, c_void_p, c_void_p]),
    "dbtxn_commit": (c_int, [c_void_p, c_void_p]),
    "dbtxn_abort": (None, [c_void_p]),
    "arrow": (c_int, [c_void_p, c_void_p, c_size_t, c_uint64, c_uint64, c_size_t, c_void_p]),
    "txn_arrow": (c_int, [c_void_p, c_void_p, c_size_t, c_uint64, c_uint64, c_size_t, c_void_p]),
    "open_arrow": (c_int, [c_void_p, c_void_p, c_size_t, c_void_p, c_void_p, c_void_p]),
    "table_create_arrow": (c_int, [c_void_p, c_char_p, c_void_p, c_void_p, c_size_t, c_void_p, c_void_p, c_void_p]),
    "apply_arrow": (c_int, [c_void_p, c_void_p, c_int, c_void_p, c_void_p]),
    "apply_columns": (c_int, [c_void_p, c_void_p, c_size_t, c_int, c_void_p, c_void_p]),
    "declare": (c_int, [c_void_p, c_size_t, c_char_p]),
    "declared": (c_char_p, [c_void_p, c_size_t]),
    "table_create_declared": (
        c_int,
        [c_void_p, c_char_p, c_void_p, c_size_t, c_size_t, c_void_p, c_void_p, c_void_p, c_void_p],
    ),
    "table_create_csv_declared": (
        c_int,
        [c_void_p, c_char_p, c_char_p, c_size_t, c_void_p, c_size_t, c_void_p, c_void_p, c_void_p],
    ),
    "table_create_plain": (c_int, [c_void_p, c_char_p, c_char_p, c_size_t, c_void_p, c_void_p, c_void_p, c_void_p]),
    "capsules": (None, [c_void_p, c_void_p]),
    "end_stream_capsule": (None, [c_void_p]),
    "end_schema_capsule": (None, [c_void_p]),
}


def _places() -> list[Path]:
    """Where the library may be: at the path that the environment names; or else in the package, or where `make libpdt`
    builds it."""
    named = os.environ.get(PLACE)
    if named:
        return [Path(named)]
    here = Path(__file__).resolve()
    return [here.parent / "libpdt.so", here.parents[2].parent / "libpdt/out/libpdt.so"]


def _load() -> ctypes.CDLL:
    for place in _places():
        if place.is_file():
            break
    else:
        raise ImportError(
            f"libpdt.so isn't there: {' nor '.join(map(str, _places()))}. `make libpdt` in the repository of Narthexmace "
            "builds it, and `pip install ./bindings/python` packs it"
        )
    # The interpreter's lock is given up in each call, and errno is kept for this thread.
    library = ctypes.CDLL(str(place), use_errno=True)
    for name, (result, arguments) in _CALLS.items():
        call = getattr(library, f"pdt_{name}")
        call.restype, call.argtypes = result, arguments
    return library


class _Absent(ctypes.CDLL):
    """No library: each of its calls raises ImportError."""

    def __init__(self) -> None:
        """Loads nothing."""

    def __getattr__(self, name: str) -> NoReturn:
        if name.startswith("__"):
            raise AttributeError(name)
        raise ImportError(f"{ABSENT} is set, so that no library is loaded, and {name} can't be called")


library: ctypes.CDLL = _Absent() if os.environ.get(ABSENT) else _load()
