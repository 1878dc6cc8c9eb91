"""A table in key ranges on the workers of a Dask cluster, for tables larger than one machine.

Dask runs the workers, replaces one that dies, and carries the calls. Each range is a database as
``narthexmace.connect`` opens it, in a folder that all workers share, and one worker at a time owns it. The process that
opens the table is its coordinator: it orders all commits, and logs what it decides. For example::

    import narthexmace.dask
    from distributed import Client
    client = Client("tcp://scheduler:8786", direct_to_workers=True)
    table = narthexmace.dask.create("/shared/sales", {"id": [1, 2000], "sum": [5, 7]}, key="id", bounds=[1000])
    with table.begin() as txn:  # in both ranges, or in neither
        txn.set(1, "sum", 4)
        txn.set(2000, "sum", 8)
    with table.pin() as pin:
        print(table.frame(at=pin)["sum"].sum().compute())

``docs/RANGES.md`` has the steps of a commit and what a crash after each leaves. None of it is proved.

Errors: those of ``narthexmace``, and TimedOut, Gone and LogFailed, whose ``outcome`` says what is known of the
transaction. Every call has a time limit.
"""
from __future__ import annotations

try:
    from ._ranges_coordinator import Vector
    from ._ranges_errors import COMMITTED, IN_DOUBT, NOT_COMMITTED, Gone, LogFailed, RangesError, TimedOut
    from ._ranges_table import Ranges, RangesPin, connect, create
    from ._ranges_transaction import RangesTransaction
except ImportError as missing:
    raise ImportError(
        "narthexmace.dask needs Dask, its scheduler and pandas: apt-get install python3-dask python3-distributed "
        "python3-pandas, or pip install 'dask[dataframe,distributed]'"
    ) from missing

__all__ = [
    "COMMITTED",
    "Gone",
    "IN_DOUBT",
    "LogFailed",
    "NOT_COMMITTED",
    "Ranges",
    "RangesError",
    "RangesPin",
    "RangesTransaction",
    "TimedOut",
    "Vector",
    "connect",
    "create",
]
