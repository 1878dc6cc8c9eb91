"""Eight threads add to the same rows, and try again at a conflict: the sums are those of all that was added."""
import threading
import unittest
from typing import List

import narthexmace

from . import LIMIT

THREADS, ADDS, ROWS = 8, 250, 10


def add(table: narthexmace.Table, row: int) -> int:
    """Adds 1 to a row, and answers how many tries were in conflict."""
    tries = 0
    while True:
        try:
            with table.begin() as txn:
                txn.set(row, "sum", txn.get(row)[1] + 1)
            return tries
        except narthexmace.Conflict:
            tries += 1


class Threads(unittest.TestCase):
    def test_the_sums_are_those_of_all_that_was_added(self) -> None:
        table = narthexmace.open({"id": range(ROWS), "sum": [0] * ROWS}, key="id")
        wanted, faults, conflicts = [0] * ROWS, [], []
        start, stop = threading.Barrier(THREADS + 1), threading.Event()

        def adds(client: int) -> None:
            try:
                start.wait(LIMIT)
                for i in range(ADDS):
                    conflicts.append(add(table, (7 * i + client) % ROWS))
            except BaseException as fault:
                faults.append(fault)

        def keeps() -> None:
            """Folds, cuts and reads meanwhile: each read sees whole transactions."""
            try:
                start.wait(LIMIT)
                while not stop.is_set():
                    table.fold()
                    with table.read() as snapshot:
                        sums = next(snapshot.scan(["sum"]))["sum"].tolist()
                        assert sums == [row[1] for row in snapshot] and sum(sums) <= THREADS * ADDS
                    table.sizes()
                    stop.wait(0.002)
            except BaseException as fault:
                faults.append(fault)

        threads: List[threading.Thread] = [threading.Thread(target=adds, args=(client,)) for client in range(THREADS)]
        keeper = threading.Thread(target=keeps)
        for thread in [*threads, keeper]:
            thread.start()
        for client, thread in enumerate(threads):
            thread.join(LIMIT)
            for i in range(ADDS):
                wanted[(7 * i + client) % ROWS] += 1
        stop.set()
        keeper.join(LIMIT)
        self.assertEqual(faults, [])
        with table:
            sizes = table.sizes()
            self.assertEqual((sizes.commits, sizes.open_transactions), (THREADS * ADDS, 0))
            with table.read() as snapshot:
                self.assertEqual(snapshot[:], list(enumerate(wanted)))

    def test_each_thread_reads_its_own_snapshot(self) -> None:
        table = narthexmace.open({"id": range(2000), "n": [0] * 2000}, key="id")
        faults: List[BaseException] = []

        def client(number: int) -> None:
            try:
                txn = table.begin()
                before = next(txn.scan(["n"]))["n"].tolist()
                for key in range(number, 2000, 8):
                    txn.set(key, "n", number + 1)
                after = [number + 1 if key % 8 == number else n for key, n in enumerate(before)]
                assert next(txn.scan(["n"]))["n"].tolist() == after
                assert txn.int_spans("n").copy().tolist() == after
                txn.commit()
            except BaseException as fault:
                faults.append(fault)

        threads = [threading.Thread(target=client, args=(number,)) for number in range(8)]
        for thread in threads:
            thread.start()
        for thread in threads:
            thread.join(LIMIT)
        self.assertEqual(faults, [])
        with table, table.read() as snapshot:
            self.assertEqual([row[1] for row in snapshot], [key % 8 + 1 for key in range(2000)])


if __name__ == "__main__":
    unittest.main()
