"""Measures a table in ranges on workers of this machine, as docs/RANGES.md has it. It takes about a minute.

    python3 ranges.py [SECONDS]

Money moves within one range and between two, alone and from four threads; single rows and whole sums are read
meanwhile. Then a larger table is summed by Dask's dataframes, and one of its workers is killed.
"""
import os
import random
import signal
import sys
import tempfile
import threading
import time
from typing import Any, Callable, List

import numpy
from distributed import Client, LocalCluster

import narthexmace
import narthexmace.dask

RANGES, ROWS, MANY = 4, 1_000, 500_000


def sums(table: narthexmace.Snapshot) -> int:
    return sum(sum(batch["sum"]) for batch in table.scan(["sum"]))


def process(table: narthexmace.Snapshot) -> int:
    return os.getpid()


def create(client: Client, rows: int) -> "narthexmace.dask.Ranges":
    """A table of so many rows a range, in a new folder."""
    columns = {"id": numpy.arange(RANGES * rows), "sum": numpy.arange(RANGES * rows) % 97}
    bounds = [rows * place for place in range(1, RANGES)]
    folder = os.path.join(tempfile.mkdtemp(), "table")
    return narthexmace.dask.create(folder, columns, key="id", bounds=bounds, client=client, opening=300)


class DatabaseTransaction:
    """What threads do to the small table, each of them one kind of thing."""

    def __init__(self, table: "narthexmace.dask.Ranges") -> None:
        self.table, self.stop = table, threading.Event()
        self.times: List[float] = []

    def within(self, draw: random.Random) -> None:
        first = draw.randrange(RANGES) * ROWS
        self.moves(*(first + it for it in draw.sample(range(ROWS), 2)))

    def between(self, draw: random.Random) -> None:
        self.moves(*(place * ROWS + draw.randrange(ROWS) for place in draw.sample(range(RANGES), 2)))

    def moves(self, source: int, target: int) -> None:
        with self.table.begin() as txn:
            txn.set(source, "sum", txn.get(source)[1] - 1)
            txn.set(target, "sum", txn.get(target)[1] + 1)

    def row(self, draw: random.Random) -> None:
        self.table.get(draw.randrange(RANGES * ROWS))

    def whole(self, draw: random.Random) -> None:
        sum(self.table.map(sums))

    def goes_on(self, call: Callable[[random.Random], None], seed: int) -> None:
        draw = random.Random(seed)
        while not self.stop.is_set():
            start = time.perf_counter()
            try:
                call(draw)
                self.times.append(time.perf_counter() - start)
            except narthexmace.Conflict:
                pass


def measure(table: "narthexmace.dask.Ranges", what: str, call: str, threads: int, seconds: float) -> None:
    dbtxn = DatabaseTransaction(table)
    given = [(getattr(dbtxn, call), seed) for seed in range(threads)]
    running = [threading.Thread(target=dbtxn.goes_on, args=each) for each in given]
    for thread in running:
        thread.start()
    time.sleep(seconds)
    dbtxn.stop.set()
    for thread in running:
        thread.join()
    times = sorted(dbtxn.times)
    middle, late = times[len(times) // 2] * 1000, times[len(times) * 99 // 100] * 1000
    often = len(times) / seconds
    print(f"{what}, {threads} threads: {often:.0f} a second, median {middle:.1f} ms, 99 of 100 {late:.1f} ms")


def timed(what: str, call: Callable[[], Any]) -> Any:
    start = time.perf_counter()
    answer = call()
    print(f"{what}: {time.perf_counter() - start:.2f} s")
    return answer


def main(seconds: float) -> None:
    print(f"load {os.getloadavg()[0]:.1f} on {os.cpu_count()} processors")
    with LocalCluster(n_workers=RANGES + 1, threads_per_worker=2, dashboard_address=":0", silence_logs=60) as cluster:
        with Client(cluster, direct_to_workers=True) as client:
            with create(client, ROWS) as table:
                for threads in (1, 4):
                    measure(table, "transfers within a range", "within", threads, seconds)
                    measure(table, "transfers between two ranges", "between", threads, seconds)
                    measure(table, "reads of a row", "row", threads, seconds)
                    measure(table, f"sums of {RANGES} ranges of {ROWS:,} rows", "whole", threads, seconds)
            with timed(f"a table of {RANGES * MANY:,} rows is made", lambda: create(client, MANY)) as table:
                with table.pin() as pin:
                    frame = table.frame(at=pin)
                    for _ in range(2):
                        timed("its dataframe is summed", lambda: int(frame["sum"].sum().compute()))
                    timed("and grouped", lambda: frame.groupby(frame["sum"] % 7)["sum"].mean().compute())
                os.kill(table.map(process)[1], signal.SIGKILL)
                timed("a row of a range whose worker was killed is read", lambda: table.get(MANY + 1))


if __name__ == "__main__":
    main(float(sys.argv[1]) if len(sys.argv) > 1 else 4.0)
