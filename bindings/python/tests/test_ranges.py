"""Tables in key ranges on the workers of a Dask cluster: money that moves while workers are killed, deaths at a step.

Workers are killed three times while money moves, or as often as NARTHEXMACE_KILLS says, from the seed
NARTHEXMACE_SEED. With NARTHEXMACE_TELLS it prints how much was moved.
"""
import itertools
import os
import random
import shutil
import signal
import subprocess
import sys
import tempfile
import threading
import time
import unittest
import warnings
from contextlib import contextmanager, suppress
from datetime import date, datetime, timezone
from decimal import Decimal
from pathlib import Path
from typing import Any, Callable, Dict, Iterator, List, Optional, Set, Tuple, Type
from unittest import mock

import narthexmace
from narthexmace import Conflict, Duplicate, Exists, Incomplete, Locked, Missing, TypeMismatch
from narthexmace import _ranges_log, _ranges_owner, _ranges_steps

from . import LIMIT, test_docs
from .folders import HERE

try:
    import dask
    import distributed
    import pandas
    import narthexmace.dask as ranges
    from narthexmace import _ranges_calls, _ranges_frame
except ImportError:
    distributed = None  # type: ignore[assignment]

KILLS = int(os.environ.get("NARTHEXMACE_KILLS", "3"))
SEED = int(os.environ.get("NARTHEXMACE_SEED", "1"))
#: How long a call waits for its ranges; where workers are killed while others go on, and where one is stopped.
SECONDS, KILLED, STOPPED = LIMIT, 8.0, 1.5
#: The ranges of the bank, how far apart they begin, and what is in each account.
PLACES, APART, ACCOUNTS, START = 4, 1_000_000, 50, 100

#: A coordinator in a process of its own, which ends itself at a step of a transfer from the first range to the third.
COORDINATOR = """\
import os, sys, distributed
from narthexmace import _ranges_steps
import narthexmace.dask
address, folder, step, seconds = sys.argv[1:]
def hook(reached, place):
    if reached == step:
        os._exit(9)
client = distributed.Client(address, direct_to_workers=True)
table = narthexmace.dask.connect(folder, client=client, seconds=float(seconds))
_ranges_steps.hook = hook
txn = table.begin()
print(txn.name, flush=True)
txn.set(0, "sum", 90)
txn.set(20, "sum", 10)
txn.commit()
"""

needs_dask = unittest.skipIf(distributed is None, "dask isn't there (apt-get install python3-dask python3-distributed)")


@needs_dask
class Document(unittest.TestCase):
    def test_the_example_of_the_document(self) -> None:
        blocks = test_docs.BLOCK.findall((test_docs.TOP / "docs/RANGES.md").read_text())
        self.assertEqual(len(blocks), 1)
        cluster_and_client()  # its workers' environment
        with warnings.catch_warnings():
            warnings.simplefilter("ignore", DeprecationWarning)  # Dask's own
            self.assertGreater(test_docs.Documents.run_examples(self, "docs/RANGES.md", blocks[0]), 5)  # type: ignore


# ---- what is called in a worker


def dies_at(step: str, place: int) -> None:
    """Has the worker end itself, as by a kill, at a step of a range."""

    def hook(reached: str, at: Optional[int]) -> None:
        if (reached, at) == (step, place):
            os._exit(9)

    _ranges_steps.hook = hook


def process_of(table: narthexmace.Snapshot) -> int:
    return os.getpid()


def raises(*_: object) -> None:
    raise KeyboardInterrupt


def keeps_names(count: int) -> None:
    """Has ranges keep the names of so many transactions."""
    _ranges_owner.NAMES = count


def fetches(*given: Any) -> Any:
    """A part of a frame, read by a worker that doesn't own it."""
    return _ranges_frame._part(*given).compute(scheduler="synchronous")


def rows_of(table: narthexmace.Snapshot) -> List[Tuple[Any, ...]]:
    return table[:]


def sums_of(table: narthexmace.Snapshot) -> int:
    return sum(sum(batch["sum"]) for batch in table.scan(["sum"]))


#: The cluster of all tests, and a client of it that is not Dask's default one.
_shared: List[Any] = []


def cluster_and_client() -> Tuple[Any, Any]:
    """A cluster of more workers than ranges, each a process: one that is killed is started again by Dask.

    By default Dask gives a worker up for good that isn't back in 15 seconds, and a call that doesn't come through in 30.
    Where it has not started one for some time, as where a worker ends while it starts, there is another cluster.
    """
    if _shared:
        try:
            _shared[1].wait_for_workers(PLACES + 1, timeout=LIMIT)
        except (TimeoutError, distributed.TimeoutError):
            tearDownModule()
    if not _shared:
        limits = ("deploy.lost-worker-timeout", "comm.timeouts.connect", "comm.timeouts.tcp")
        dask.config.set({f"distributed.{name}": f"{10 * LIMIT:.0f}s" for name in limits})
        os.environ["PYTHONPATH"] = str(HERE)  # of the workers
        cluster = distributed.LocalCluster(
            n_workers=PLACES + 2, threads_per_worker=2, processes=True, dashboard_address=":0", silence_logs=60
        )
        _shared.extend([cluster, distributed.Client(cluster, direct_to_workers=True, set_as_default=False)])
    return _shared[0], _shared[1]


def tearDownModule() -> None:
    while _shared:
        _shared.pop().close()


@needs_dask
class Clusters(unittest.TestCase):
    """A table in ranges, in a folder of its own, over the cluster."""

    def setUp(self) -> None:
        place = tempfile.TemporaryDirectory()
        self.addCleanup(place.cleanup)
        self.folder = str(Path(place.name, "table"))
        self.cluster, self.client = cluster_and_client()

    def create(self, table: Any, **words: Any) -> "ranges.Ranges":
        made = ranges.create(self.folder, table, **{"client": self.client, "seconds": SECONDS, "opening": LIMIT, **words})
        self.addCleanup(made.close)
        return made

    def connect(self, folder: str = "") -> "ranges.Ranges":
        table = ranges.connect(folder or self.folder, client=self.client, seconds=SECONDS, opening=LIMIT)
        self.addCleanup(table.close)
        return table

    def refused(self, kind: Type[BaseException], call: Callable[..., Any], *given: Any) -> Any:
        with self.assertRaises(kind) as caught:
            call(*given)
        self.assertIs(type(caught.exception), kind)
        return caught.exception

    def rows(self, table: "ranges.Ranges", at: Any = None) -> List[Tuple[Any, ...]]:
        return [row for part in table.map(rows_of, at=at) for row in part]

    def process(self, table: "ranges.Ranges", place: int) -> int:
        """The process of a range's worker."""
        return int(table.map(process_of)[place])

    def kill(self, table: "ranges.Ranges", place: int) -> None:
        """Kills the worker of a range."""
        os.kill(self.process(table, place), signal.SIGKILL)

    @contextmanager
    def dies_while_it_opens(self, place: int) -> Iterator[List[str]]:
        """The first worker that is to open a range is stopped before it can, and killed then. It is in the list."""
        opens, killed = _ranges_calls.Range.opens, []

        def opens_and_kills(it: Any, address: str, *given: Any) -> None:
            if it.place != place or killed:
                return opens(it, address, *given)
            killed.append(address)
            process = self.client.run(os.getpid, workers=[address])[address]
            os.kill(process, signal.SIGSTOP)
            opens(it, address, *given)
            os.kill(process, signal.SIGKILL)

        with mock.patch.object(_ranges_calls.Range, "opens", opens_and_kills):
            yield killed
        self.assertEqual(len(killed), 1, "no worker was to open it")

    def until_answered(self, call: Callable[[], Any]) -> Any:
        """What a call answers once its range is reached."""
        end = time.monotonic() + LIMIT
        while True:
            try:
                return call()
            except (ranges.TimedOut, ranges.Gone):
                if time.monotonic() > end:
                    raise


class Reads(Clusters):
    def test_keys_at_the_edges_of_ranges(self) -> None:
        least, most = -(2**63), 2**63 - 1
        keys = [least, -1, 0, 9, 10, 11, 19, 20, most]
        table = self.create({"id": keys, "sum": range(9)}, key="id", bounds=[0, 10, 20, most])
        self.assertEqual([len(part) for part in table.map(rows_of)], [2, 2, 3, 1, 1])
        for place, key in enumerate(keys):
            self.assertEqual(table.get(key), (key, place))
        self.assertIsNone(table.get(12))
        with table.begin() as txn:
            for key in (least, 10, most):
                txn.set(key, "sum", 100)
            txn.insert({"sum": 5, "id": 12})
            txn.delete(20)
            self.refused(Duplicate, txn.insert, (12, 0))
            self.refused(Missing, txn.delete, 20)
            self.refused(TypeMismatch, txn.set, "10", "sum", 1)
            self.refused(TypeMismatch, txn.insert, (1,))
            self.assertEqual((txn.get(12), txn.get(20)), ((12, 5), None))
        due = [(least, 100), (-1, 1), (0, 2), (9, 3), (10, 100), (11, 5), (12, 5), (19, 6), (most, 100)]
        self.assertEqual(self.rows(table), due)
        frame = table.frame().compute(scheduler=self.client)
        self.assertEqual(list(zip(frame.index.tolist(), frame["sum"].tolist())), due)
        self.assertEqual(table.frame().divisions, (least, 0, 10, 20, most, most))
        table.close()
        self.assertEqual(self.rows(self.connect()), due)

    def test_keys_of_texts_and_of_several_columns(self) -> None:
        words = ["", "a", "b", "ba", "z", "é", "日本", "\U0010ffff"]
        table = self.create({"word": words, "n": range(8)}, key="word", bounds=["b", "é"])
        self.assertEqual([len(part) for part in table.map(rows_of)], [2, 3, 3])
        frame = table.frame(["n"])
        self.assertEqual(frame.loc["b"].compute(scheduler=self.client)["n"].tolist(), [2])
        self.assertEqual(frame.loc["z":].compute(scheduler=self.client)["n"].tolist(), [4, 5, 6, 7])
        table.close()
        shutil.rmtree(self.folder)
        pairs = {"town": ["x", "x", "y", "y"], "there": [False, True, False, True], "n": [1, 2, 3, 4]}
        table = self.create(pairs, key=["town", "there"], bounds=[("x", True), ("y", True)])
        self.assertEqual([len(part) for part in table.map(rows_of)], [1, 2, 1])
        with table.begin() as txn:
            txn.set(("x", True), "n", 20)
            txn.insert(("y", False, 0)) if txn.get(("y", False)) is None else txn.delete(("y", False))
        self.assertEqual(self.rows(table), [("x", False, 1), ("x", True, 20), ("y", True, 4)])
        frame = table.frame()
        whole = frame.compute(scheduler=self.client)
        self.assertEqual((frame.known_divisions, whole.values.tolist()), (False, [list(it) for it in self.rows(table)]))
        self.assertRaises(narthexmace.Misuse, frame.compute, scheduler="synchronous")
        self.refused(TypeMismatch, table.get, "x")

    def test_columns_that_are_declared(self) -> None:
        """Keys and cells are values, and the order of keys and what the log has are the ints that stand for them."""
        types = {"day": "tdD", "x": "?g", "at": "?tsu:UTC", "n": "?l", "price": "d:9,2"}
        noon = datetime(2026, 1, 1, 12, tzinfo=timezone.utc)
        days = [date(1969, 12, 30), date(1970, 1, 1), date(2026, 2, 28)]
        columns = {"day": days, "x": [-0.0, None, 0.5], "at": [noon, None, noon], "n": [None, 2**60 + 1, 3]}
        columns["price"] = [Decimal("0.50"), Decimal("-1.25"), Decimal(7)]
        bounds = [date(1969, 12, 31), date(2000, 1, 1)]
        table = self.create(columns, key="day", types=types, bounds=bounds)
        due = [tuple(row) for row in zip(*columns.values())]
        self.assertEqual((self.rows(table), [len(part) for part in table.map(rows_of)]), (due, [1, 1, 1]))
        for _ in range(2):
            self.assertEqual((table.bounds, table.get(days[1])), (tuple((it,) for it in bounds), due[1]))
            self.refused(TypeMismatch, table.get, 1.5)
            table.close()
            table = self.connect()
        later = date(2030, 5, 5)
        with table.begin() as txn:  # in two ranges, so that it is in the log
            txn.set(days[0], "x", float("inf"))
            txn.set(days[0], "at", None)
            txn.insert((later, 0.25, noon, None, Decimal("3.10")))
            txn.delete(days[2])
            self.refused(TypeMismatch, txn.set, days[0], "price", 0.5)
            self.refused(TypeMismatch, txn.insert, {"day": "2030", "x": 0.0, "at": None, "n": 1, "price": Decimal(1)})
            self.assertEqual(txn.get(later), (later, 0.25, noon, None, Decimal("3.10")))
        due = [(days[0], float("inf"), None, None, Decimal("0.50")), due[1], (later, 0.25, noon, None, Decimal("3.10"))]
        self.assertEqual(self.rows(table), due)
        whole = table.frame().compute(scheduler=self.client)
        told = [str(it) for it in whole.dtypes]
        self.assertEqual(told, ["object", "float64", "datetime64[ns, UTC]", "Int64", "object"])
        numbers = [None if it is pandas.NA else it for it in whole["n"].tolist()]
        self.assertEqual([whole["day"].tolist(), numbers], [[row[at] for row in due] for at in (0, 3)])
        self.assertEqual(whole["price"].tolist(), [row[4] for row in due])
        table.close()
        self.assertEqual(self.rows(self.connect()), due)

    def test_what_is_no_table_in_ranges_is_refused(self) -> None:
        columns = {"id": [1], "sum": [5]}
        for bounds in ([2, 2], [3, 2]):
            with self.assertRaises(TypeMismatch):
                self.create(columns, key="id", bounds=bounds)
        self.refused(Incomplete, self.connect)
        table = self.create(columns, key="id", bounds=[1])
        self.refused(Locked, self.connect)
        table.close()
        with self.assertRaises(Exists):
            self.create(columns, key="id", bounds=[1])
        self.refused(narthexmace.Misuse, table.begin)
        Path(self.folder, "ranges.json").write_text("[]")
        self.refused(narthexmace.BadTable, self.connect)

    def test_frames_of_old_and_of_new_vectors(self) -> None:
        table = self.create({"id": range(4000), "sum": [1] * 4000}, key="id", bounds=[1000, 2000, 3000])
        old = table.pin()
        frame = table.frame(at=old)
        vectors = [table.vector]
        for step in range(5):
            with table.begin() as txn:
                txn.set(step, "sum", 11)
                txn.set(3000 + step, "sum", 101)
            vectors.append(table.vector)
        for step, vector in enumerate(vectors):
            self.assertEqual(int(table.frame(at=vector)["sum"].sum().compute(scheduler=self.client)), 4000 + 110 * step)
        self.assertEqual(table.get(0, at=old), (0, 1))
        for _ in range(_ranges_owner.VERSIONS):  # of the first range alone
            with table.begin() as txn:
                txn.set(0, "sum", txn.get(0)[1] + 1)
        self.refused(ranges.Gone, self.rows, table, vectors[1])
        self.assertEqual(int(frame["sum"].sum().compute(scheduler=self.client)), 4000)
        self.assertEqual(sum(row[1] for row in self.rows(table, old)), 4000)
        self.assertEqual(int(table.frame()["sum"].sum().compute(scheduler=self.client)), 4550 + _ranges_owner.VERSIONS)
        groups = table.frame(at=old).groupby("sum").size().compute(scheduler=self.client)
        self.assertEqual(groups.to_dict(), {1: 4000})
        parts = self.client.persist(table.frame())
        for part in distributed.futures_of(parts):
            part.result(timeout=LIMIT)
        held = self.client.who_has(parts).values()
        self.assertEqual(sorted(it for those in held for it in those), sorted(table.workers))
        first, elsewhere = table._coordinator.ranges[0], [table.workers[1]]
        given = (first.key, first.address, first.task.key, table.vector[0], ["sum"], "id")
        fetched = self.client.submit(fetches, *given, workers=elsewhere, pure=False).result(timeout=LIMIT)
        self.assertEqual((len(fetched), list(fetched.index[:2])), (1000, [0, 1]))
        old.close()
        self.refused(ranges.Gone, self.rows, table, old)
        self.assertRaises(ranges.Gone, frame["sum"].sum().compute, scheduler=self.client)


class Deaths(Clusters):
    """What is done next when a worker has died."""

    def test_a_frame_after_a_worker_has_died(self) -> None:
        table = self.create({"id": range(400), "sum": [1] * 400}, key="id", bounds=[100, 200, 300])
        before = table.frame()
        self.kill(table, 1)
        with self.assertRaises(ranges.Gone):  # the coordinator does not hear of it
            before["sum"].sum().compute(scheduler=self.client)
        self.assertEqual(int(table.frame()["sum"].sum().compute(scheduler=self.client)), 400)
        self.kill(table, 2)
        self.assertEqual(int(table.frame()["sum"].sum().compute(scheduler=self.client)), 400)

    def test_a_worker_that_dies_while_it_opens_a_range(self) -> None:
        """Of a table that is made, of one that is opened, and of one that heals: another worker opens it each time."""
        columns = {"id": [0, 10, 20, 30], "sum": [100, 0, 0, 0]}
        with self.dies_while_it_opens(1):
            table = self.create(columns, key="id", bounds=[10, 20, 30])
        due = list(zip(*columns.values()))
        self.assertEqual(self.rows(table), due)
        table.close()
        with self.dies_while_it_opens(2):
            table = self.connect()
        self.assertEqual(self.rows(table), due)
        self.kill(table, 3)
        with self.dies_while_it_opens(3):  # the other one may have a range, too
            self.assertEqual(self.until_answered(lambda: self.rows(table)), due)

    def test_a_range_is_made_by_another_worker_where_one_dies_in_the_midst(self) -> None:
        opens, opened = _ranges_calls.Range.opens, []

        def opens_and_dies(it: Any, address: str, *given: Any) -> None:
            if it.place == 1:
                opened.append(address)
                if len(opened) == 1:
                    self.client.run(dies_at, "made", 1, workers=[address])
            opens(it, address, *given)

        with mock.patch.object(_ranges_calls.Range, "opens", opens_and_dies):
            table = self.create({"id": [0, 10, 20], "sum": [1, 2, 3]}, key="id", bounds=[10, 20])
        self.assertGreater(len(opened), 1)
        self.assertEqual(self.rows(table), [(0, 1), (10, 2), (20, 3)])

    def test_a_worker_that_dies_while_an_opening_installs_what_was_decided(self) -> None:
        table = self.create({"id": [0, 10, 20], "sum": [5, 6, 7]}, key="id", bounds=[10, 20])
        with mock.patch.object(table._coordinator, "_install", raises), suppress(KeyboardInterrupt):
            with table.begin() as txn:
                txn.set(0, "sum", 1)
                txn.set(20, "sum", 2)
        self.assertEqual(self.rows(table), [(0, 5), (10, 6), (20, 7)])
        table.close()
        opens, opened = _ranges_calls.Range.opens, []

        def opens_and_dies(it: Any, address: str, *given: Any) -> None:
            if it.place == 2:
                opened.append(address)
                if len(opened) == 1:
                    self.client.run(dies_at, "installs", 2, workers=[address])
            opens(it, address, *given)

        with mock.patch.object(_ranges_calls.Range, "opens", opens_and_dies):
            table = self.connect()
        self.assertGreater(len(opened), 1)
        self.assertEqual(self.rows(table), [(0, 1), (10, 6), (20, 2)])
        self.assertEqual(table.outcome(txn.name), "committed")

    def test_a_commit_goes_by_the_next_worker_where_two_die(self) -> None:
        table = self.create({"id": [0, 10], "sum": [5, 7]}, key="id", bounds=[10])
        for number, (step, there) in enumerate((("commits", False), ("committed", True)), 1):
            self.client.run(dies_at, step, 1, workers=[table.workers[1]])
            txn = table.begin()
            txn.set(10, "sum", number)
            with self.subTest(step=step), self.dies_while_it_opens(1):
                if there:
                    self.assertEqual(txn.commit(), table.vector)
                else:
                    self.assertEqual(self.refused(ranges.Gone, txn.commit).outcome, "not committed")
            self.assertEqual(table.get(10), (10, number if there else 7))

    def test_a_worker_that_had_several_ranges_dies(self) -> None:
        """The first call over all ranges is right: all that are lost are known, and opened, before it is made again."""
        count = 2 * (PLACES + 2)
        table = self.create({"id": range(count), "sum": [1] * count}, key="id", bounds=range(1, count))
        owned = max(table.workers.count(address) for address in table.workers)
        self.assertGreater(owned, 1)
        due = [(place, 1) for place in range(count)]
        self.kill(table, 0)
        self.assertEqual(self.rows(table), due)
        place = next(it for it, address in enumerate(table.workers) if table.workers.count(address) > 1)
        self.kill(table, place)
        with table.pin() as pin:
            self.assertEqual(self.rows(table, pin), due)
        place = next(it for it, address in enumerate(table.workers) if table.workers.count(address) > 1)
        self.kill(table, place)
        self.assertEqual(int(table.frame()["sum"].sum().compute(scheduler=self.client)), count)

    def test_a_range_that_comes_back_with_another_version_is_refused(self) -> None:
        table = self.create({"id": [0, 10], "sum": [5, 7]}, key="id", bounds=[10])
        first = table._coordinator.ranges[1]
        first.ask("close").answer(table._deadline())
        with narthexmace.connect(f"{self.folder}/range-1") as db, db["rows"].begin() as txn:
            txn.set(10, "sum", 8)
        for _ in range(2):
            error = self.refused(narthexmace.Mismatch, table.get, 10)
            self.assertIn("range 1 has version", str(error))
        self.assertEqual(table.get(0), (0, 5))


class Commits(Clusters):
    def bank(self) -> "ranges.Ranges":
        columns = {"id": [0, 10, 20, 30], "sum": [100, 0, 0, 0]}
        return self.create(columns, key="id", bounds=[10, 20, 30])

    def test_the_first_committer_wins_and_a_refused_part_aborts_the_whole(self) -> None:
        table = self.bank()
        first, second, third = table.begin(), table.begin(), table.begin()
        for txn, key in ((first, 10), (second, 10), (third, 30)):
            txn.set(0 if txn is not third else 20, "sum", 1)
            txn.set(key, "sum", 2)
        vector = first.commit()
        self.assertEqual(vector, table.vector)
        self.refused(Conflict, second.commit)
        self.refused(narthexmace.Misuse, second.get, 0)
        third.commit()
        self.assertEqual(self.rows(table), [(0, 1), (10, 2), (20, 1), (30, 2)])
        self.assertEqual([table.outcome(txn.name) for txn in (first, second, third)],
                         ["committed", "not committed", "committed"])  # fmt: skip
        part, whole = table.begin(), table.begin()  # a conflict in one range of two
        part.set(0, "sum", 5)
        whole.set(0, "sum", 6)
        whole.set(30, "sum", 6)
        part.commit()
        self.refused(Conflict, whole.commit)
        with table.begin() as txn:  # nothing is kept of the part that was prepared
            txn.set(30, "sum", 7)
        txn = table.begin()
        txn.set(10, "sum", 9)
        txn.abort()
        with table.begin() as txn:
            self.assertEqual(txn.get(10), (10, 2))
        self.assertEqual(self.rows(table), [(0, 5), (10, 2), (20, 1), (30, 7)])

    def test_writes_that_undo_one_another_and_replaced_rows(self) -> None:
        table = self.bank()
        vector = table.vector
        with table.begin() as txn:
            txn.insert((1, 1))
            txn.delete(1)
            txn.insert((21, 1))
            txn.delete(21)
        self.assertEqual(table.vector, vector)
        with table.begin() as other, table.begin() as txn:
            txn.delete(0)
            txn.insert((0, 7))
            txn.set(20, "sum", 1)
            txn.set(20, "sum", 2)
            txn.insert((25, 25))
            other.insert((1, 1))
        self.assertEqual(self.rows(table), [(0, 7), (1, 1), (10, 0), (20, 2), (25, 25), (30, 0)])

    def test_a_worker_that_dies_at_any_step_of_a_commit(self) -> None:
        cases = [("voted", 2, True, False), ("installs", 2, True, True), ("installed", 2, True, True),
                 ("commits", 2, False, False), ("committed", 2, False, True)]  # fmt: skip
        table = self.bank()
        for number, (step, place, several, there) in enumerate(cases, 1):
            with self.subTest(step=step):
                before = self.rows(table)
                self.client.run(dies_at, step, place, workers=[table.workers[place]])
                txn = table.begin()
                if several:
                    txn.set(0, "sum", 100 - number)
                txn.set(20, "sum", number)
                if there:
                    self.assertEqual(txn.commit(), table.vector)
                else:
                    self.assertEqual(self.refused(ranges.Gone, txn.commit).outcome, "not committed")
                after = self.rows(table)
                due = [(0, 100 - number if several else before[0][1]), before[1], (20, number), before[3]]
                self.assertEqual(after, due if there else before)
                self.assertEqual(table.outcome(txn.name), "committed" if there else "not committed")
        table.close()
        self.assertEqual(self.rows(self.connect()), after)

    def test_a_worker_that_dies_after_its_vote_or_after_the_decision(self) -> None:
        table = self.bank()
        self.addCleanup(setattr, _ranges_steps, "hook", None)
        for number, step in enumerate(("prepared", "decided"), 1):
            process = self.process(table, 2)

            def kill(reached: str, place: Optional[int], step: str = step, process: int = process) -> None:
                if reached == step:
                    os.kill(process, signal.SIGKILL)

            _ranges_steps.hook = kill
            with self.subTest(step=step), table.begin() as txn:
                txn.set(0, "sum", 100 - number)
                txn.set(20, "sum", number)
            self.assertEqual((table.get(0)[1], table.get(20)[1]), (100 - number, number))
        _ranges_steps.hook = None
        table.close()
        self.assertEqual([row[1] for row in self.rows(self.connect())], [98, 0, 2, 0])

    def test_an_interrupt_of_a_commit_ends_its_wait_alone(self) -> None:
        """It goes on, and its outcome is known; the next commits are none the worse."""
        table = self.bank()
        self.addCleanup(setattr, _ranges_steps, "hook", None)
        self.addCleanup(signal.signal, signal.SIGUSR1, signal.signal(signal.SIGUSR1, raises))
        for number, step in enumerate(("prepared", "written", "decided", "taken"), 1):
            caught = threading.Event()

            def interrupts(reached: str, at: Optional[int], step: str = step, caught: Any = caught) -> None:
                if reached == step and not caught.is_set():
                    signal.pthread_kill(threading.main_thread().ident or 0, signal.SIGUSR1)
                    caught.wait(LIMIT)

            with self.subTest(step=step):
                txn = table.begin()
                txn.set(0, "sum", 100 - number)
                txn.set(20, "sum", number)
                _ranges_steps.hook = interrupts
                try:
                    self.assertRaises(KeyboardInterrupt, txn.commit)
                finally:
                    caught.set()
                self.assertEqual(table.outcome(txn.name), "committed")
                self.assertEqual(self.rows(table), [(0, 100 - number), (10, 0), (20, number), (30, 0)])
        _ranges_steps.hook = None
        with table.begin() as txn:
            txn.set(0, "sum", 1)
            txn.set(30, "sum", 99)
        self.assertEqual(self.rows(table), [(0, 1), (10, 0), (20, 4), (30, 99)])
        table.close()
        self.assertEqual(self.rows(self.connect()), [(0, 1), (10, 0), (20, 4), (30, 99)])

    def test_a_long_log_is_written_anew_and_old_names_are_forgotten(self) -> None:
        table, most, names = self.bank(), _ranges_log.MOST_BYTES, _ranges_owner.NAMES
        self.addCleanup(setattr, _ranges_log, "MOST_BYTES", most)
        self.addCleanup(self.client.run, keeps_names, names)
        _ranges_log.MOST_BYTES = 1000
        self.client.run(keeps_names, 3)
        told = []
        for number in range(12):
            with table.begin() as txn:
                txn.set(0, "sum", number)
                txn.set(20 + 10 * (number % 2), "sum", number)
            told.append(txn.name)
            self.assertLess(Path(self.folder, "decisions.log").stat().st_size, 1300)
        with table.begin() as undone:
            undone.abort()
        for _ in range(2):
            outcomes = [table.outcome(name) for name in (told[0], *told[-3:], undone.name)]
            self.assertEqual(outcomes, ["in doubt", *["committed"] * 3, "not committed"])
            self.refused(narthexmace.Misuse, table.outcome, "a name")
            self.assertEqual(self.rows(table), [(0, 11), (10, 0), (20, 10), (30, 11)])
            table.close()
            table = self.connect()

    def test_a_coordinator_that_dies_at_any_step_of_a_commit(self) -> None:
        before = [(0, 100), (10, 0), (20, 0), (30, 0)]
        after = [(0, 90), (10, 0), (20, 10), (30, 0)]
        self.bank().close()
        made = f"{self.folder}-made"
        shutil.copytree(self.folder, made)
        for step, due in (("prepared", before), ("written", after), ("decided", after), ("taken", after)):
            with self.subTest(step=step):
                shutil.rmtree(self.folder)
                shutil.copytree(made, self.folder)
                child = subprocess.run(
                    [sys.executable, "-c", COORDINATOR, self.cluster.scheduler_address, self.folder, step, str(SECONDS)],
                    stdout=subprocess.PIPE, text=True, timeout=LIMIT,
                )  # fmt: skip
                self.assertEqual(child.returncode, 9)
                name = child.stdout.strip()
                with self.connect() as table:
                    outcome = "committed" if due is after else "not committed"
                    self.assertEqual((self.rows(table), table.outcome(name)), (due, outcome))
                    with table.begin() as txn:
                        txn.set(0, "sum", txn.get(0)[1] + 1)
                        txn.set(30, "sum", 1)
                with self.connect() as table:  # and nothing is done twice
                    self.assertEqual(self.rows(table), [(0, due[0][1] + 1), *due[1:3], (30, 1)])

    def test_a_decision_that_is_torn_is_none_and_one_that_is_whole_is_done(self) -> None:
        table = self.bank()
        coordinator = table._coordinator
        install = coordinator._install
        coordinator._install = self.stops  # type: ignore[assignment]
        with table.begin() as txn, suppress(KeyboardInterrupt):
            txn.set(0, "sum", 90)
            txn.set(20, "sum", 10)
            txn.commit()
        self.assertEqual(self.rows(table), [(0, 100), (10, 0), (20, 0), (30, 0)])
        coordinator._install = install  # type: ignore[assignment]
        table.close()
        log = Path(self.folder, "decisions.log")
        content = log.read_bytes()
        self.assertEqual(content.count(b"\n"), 2)
        for cut, due in ((1, (100, 0)), (content.index(b"\n"), (100, 0)), (0, (90, 10))):
            log.write_bytes(content[: len(content) - cut])
            with self.subTest(cut=cut), self.connect() as table:
                self.assertEqual((table.get(0)[1], table.get(20)[1]), due)

    def stops(self, deadline: Any) -> None:
        raise KeyboardInterrupt

    @contextmanager
    def stopped(self, table: "ranges.Ranges", place: int, then: int = signal.SIGCONT) -> Iterator[None]:
        """A range's worker is stopped, and goes on in the end, or is killed."""
        process = self.process(table, place)
        os.kill(process, signal.SIGSTOP)
        try:
            yield
        finally:
            os.kill(process, then)

    @contextmanager
    def waits_for(self, table: "ranges.Ranges", seconds: float) -> Iterator[None]:
        """Calls wait for so long, and not for as long as others."""
        table._coordinator.seconds, start = seconds, time.monotonic()
        yield
        table._coordinator.seconds = SECONDS
        self.assertLess(time.monotonic() - start, SECONDS / 2)

    def test_a_worker_that_is_stopped_is_told_in_time(self) -> None:
        table = self.bank()
        over, alone = table.begin(), table.begin()
        over.set(0, "sum", 99)
        over.set(20, "sum", 1)
        alone.set(20, "sum", 5)
        with self.stopped(table, 2):
            start = time.monotonic()
            with self.waits_for(table, STOPPED):
                self.refused(ranges.TimedOut, table.get, 20)
            self.assertGreaterEqual(time.monotonic() - start, STOPPED)
            for txn in (alone, over):  # the range is suspect, and it isn't asked
                with self.waits_for(table, STOPPED):
                    self.assertEqual(self.refused(ranges.TimedOut, txn.commit).outcome, "not committed")
            self.assertEqual(table.get(0), (0, 100))
            with table.begin() as txn:  # other ranges go on
                txn.set(0, "sum", 50)
                txn.set(10, "sum", 50)
        self.assertEqual(self.until_answered(lambda: table.get(20)), (20, 0))
        with table.begin() as txn:
            txn.set(20, "sum", 3)
        self.assertEqual(self.rows(table), [(0, 50), (10, 50), (20, 3), (30, 0)])

    def test_a_commit_whose_answer_does_not_come_is_in_doubt_until_its_range_is_reached(self) -> None:
        table = self.bank()
        for place, key, then in ((1, 10, signal.SIGCONT), (3, 30, signal.SIGKILL)):
            txn = table.begin()
            txn.set(key, "sum", 5)
            with self.stopped(table, place, then):
                with self.waits_for(table, STOPPED):
                    self.assertEqual(self.refused(ranges.TimedOut, txn.commit).outcome, "in doubt")
                with self.waits_for(table, STOPPED):
                    self.assertEqual(table.outcome(txn.name), "in doubt")
                other = table.begin()
                other.set(0, "sum", 1)
                with self.waits_for(table, STOPPED):
                    self.assertEqual(self.refused(ranges.TimedOut, other.commit).outcome, "not committed")
            outcome = self.until_answered(lambda: self.known(table, txn.name))
            self.assertEqual(table.get(key), (key, 5 if outcome == "committed" else 0))

    def known(self, table: "ranges.Ranges", name: str) -> str:
        outcome = table.outcome(name)
        if outcome == "in doubt":
            raise ranges.TimedOut()
        return outcome


class Bank(Clusters):
    """Money that moves between four ranges, with a receipt in each of both, while their workers are killed."""

    def test_money_moves_while_workers_are_killed(self) -> None:
        ids = [place * APART + account for place in range(PLACES) for account in range(ACCOUNTS)]
        columns = {"id": ids, "sum": [START] * len(ids), "memo": [""] * len(ids)}
        self.table = self.create(columns, key="id", bounds=[place * APART for place in range(1, PLACES)])
        self.table._coordinator.seconds = KILLED
        self.whole, self.stop = START * len(ids), threading.Event()
        self.told: Dict[str, str] = {}  # the outcome of each transfer, by its name
        self.counts = {"moved": 0, "refused": 0, "lost": 0, "sums": 0, "newest": 0}
        self.wrong: Dict[str, List[int]] = {"vector": [], "newest": []}
        self.numbers = itertools.count(ACCOUNTS)
        self.failed: List[BaseException] = []
        dbtxns = [*[(self.moves, seed) for seed in range(3)], (self.sums, 0), (self.newest, 0)]
        threads = [threading.Thread(target=self.goes_on, args=dbtxn) for dbtxn in dbtxns]
        for thread in threads:
            thread.start()
        draw, times = random.Random(SEED), []
        for _ in range(KILLS):
            moved = self.counts["moved"]
            self.goes_until(lambda: self.counts["moved"] > moved + 10)
            place = draw.randrange(PLACES)
            with suppress(ranges.RangesError):
                os.kill(self.process(self.table, place), signal.SIGKILL)
            start = time.monotonic()
            while not self.stop.is_set():
                with suppress(ranges.RangesError):
                    self.table.get(place * APART)
                    break
            times.append(time.monotonic() - start)
        self.goes_until(self.has_enough)
        self.stop.set()
        for thread in threads:
            thread.join(LIMIT)
        if self.failed:
            raise self.failed[0]
        back, wrong = ", ".join(f"{it:.2f}" for it in times), len(self.wrong["newest"])
        told = f"{self.counts}, back in {back} s, wrong sums of the newest versions: {wrong}"
        if os.environ.get("NARTHEXMACE_TELLS"):
            print(told)
        self.assertEqual(self.wrong["vector"], [], told)
        self.assertTrue(self.has_enough(), told)
        self.assertTrue(self.wrong["newest"], f"the test can't fail: {told}")
        self.table._coordinator.seconds = SECONDS
        self.check(self.until_answered(lambda: self.rows(self.table)))
        self.table.close()
        with self.connect() as table:
            self.check(self.rows(table))
            self.assertEqual(table.outcome(next(iter(self.told))), self.told[next(iter(self.told))])

    def goes_until(self, holds: Callable[[], bool]) -> None:
        """Waits until something holds of the threads, or one of them has failed."""
        end = time.monotonic() + 2 * LIMIT
        while not holds() and time.monotonic() < end and not self.stop.is_set():
            time.sleep(0.05)

    def has_enough(self) -> bool:
        """Whether so much was moved and read that it says something."""
        return min(self.counts["moved"], self.counts["sums"]) > 30 and bool(self.wrong["newest"])

    def goes_on(self, call: Callable[[random.Random], None], seed: int) -> None:
        draw = random.Random(f"{SEED} {call.__name__} {seed}")
        while not self.stop.is_set():
            try:
                call(draw)
            except ranges.RangesError:
                self.counts["lost"] += 1
                time.sleep(0.02)
            except BaseException as why:
                self.failed.append(why)
                self.stop.set()

    def moves(self, draw: random.Random) -> None:
        """One transfer: its receipts, in the ranges of both accounts, have its name."""
        source, target = draw.sample(range(PLACES), 2)
        amount, number = draw.randrange(1, 20), next(self.numbers)
        txn = self.table.begin()
        try:
            for place, span in ((source, -amount), (target, amount)):
                account = place * APART + draw.randrange(ACCOUNTS)
                txn.set(account, "sum", txn.get(account)[1] + span)
                txn.insert((place * APART + number, 0, txn.name))
            txn.commit()
        except Conflict:
            self.told[txn.name] = "not committed"
            self.counts["refused"] += 1
        except ranges.RangesError as why:
            self.told[txn.name] = why.outcome
            raise
        else:
            self.told[txn.name] = "committed"
            self.counts["moved"] += 1
        finally:
            txn.abort()

    def sums(self, draw: random.Random) -> None:
        """The money of all ranges at one vector."""
        whole = sum(self.table.map(sums_of))
        self.counts["sums"] += 1
        if whole != self.whole:
            self.wrong["vector"].append(whole)

    def newest(self, draw: random.Random) -> None:
        """The money at the newest version of each range, whatever is published: as no reader should read."""
        whole = 0
        for it in self.table._coordinator.ranges:
            version = it.ask("status", it.term).answer(self.table._deadline())[2]
            whole += it.ask("map", version, sums_of, ()).answer(self.table._deadline())
        self.counts["newest"] += 1
        if whole != self.whole:
            self.wrong["newest"].append(whole)

    def check(self, rows: List[Tuple[Any, ...]]) -> None:
        """The money is all there; each acknowledged transfer has its receipts, and none has one of two."""
        self.assertEqual(sum(row[1] for row in rows), self.whole)
        receipts = [row[2] for row in rows if row[2]]
        there: Set[str] = set(receipts)
        self.assertEqual(sorted(receipts), sorted([*there, *there]))
        for name, outcome in self.told.items():
            if outcome == "in doubt":
                outcome = self.table.outcome(name) if not self.table._coordinator._log.is_closed else outcome
            if outcome != "in doubt":
                self.assertEqual(name in there, outcome == "committed", (name, outcome))


if __name__ == "__main__":
    unittest.main()
