"""What tables in ranges are made of, without Dask: the log of decisions, the owner of a range, and how it votes."""
import os
import random
import resource
import signal
import subprocess
import sys
import tempfile
import threading
import unittest
from pathlib import Path
from typing import Any, Dict, List, Optional
from unittest import mock

import narthexmace
from narthexmace import Conflict, Incomplete, Locked, Corrupt
from narthexmace import _ranges_errors, _ranges_layout, _ranges_log, _ranges_owner, _ranges_turns
from narthexmace._ranges_owner import First, Owner, Status

from . import LIMIT
from .folders import HERE, Case


class Logs(unittest.TestCase):
    """The decision log alone, which needs no Dask."""

    def setUp(self) -> None:
        place = tempfile.TemporaryDirectory()
        self.addCleanup(place.cleanup)
        self.folder = place.name
        self.path = Path(place.name, "decisions.log")
        _ranges_log.Log.make(self.folder)

    def open(self) -> "_ranges_log.Log":
        log = _ranges_log.Log(self.folder)
        self.addCleanup(log.close)
        return log

    def decision(self, number: int) -> "_ranges_log.Decision":
        parts: Dict[int, Any] = {0: [["set", [number], "sum", -1]], 2: [["insert", [7, "ink\nünd", True]]]}
        return _ranges_log.Decision(number, f"t{number}", parts)

    def test_a_log_has_what_was_appended_and_counts_epochs(self) -> None:
        for epoch in (1, 2, 3):
            log = self.open()
            self.assertEqual((log.epoch, log.next), (epoch, 2 * epoch - 1))
            self.assertEqual(log.decisions, [self.decision(number) for number in range(1, 2 * epoch - 1)])
            for number in (log.next, log.next + 1):
                log.append(self.decision(number))
            log.close()
        log = self.open()
        log.rewrite([])
        log.close()
        self.assertEqual((self.open().next, self.path.read_bytes().count(b"\n")), (7, 1))

    def test_a_last_record_that_is_torn_at_any_byte_is_no_decision(self) -> None:
        log = self.open()
        log.append(self.decision(1))
        before = self.path.stat().st_size
        log.append(self.decision(2))
        log.close()
        content = self.path.read_bytes()
        for size in range(before, len(content) + 1):
            for tail in (b"", bytes(len(content) - size), b"\xff" * (len(content) - size)):
                self.path.write_bytes(content[:size] + tail)
                log = self.open()
                log.close()
                due = 2 if content[:size] + tail == content else 1
                self.assertEqual([it.number for it in log.decisions], [1, 2][:due], (size, tail))

    def test_a_record_that_is_damaged_before_the_last_one_is_told(self) -> None:
        log = self.open()
        for number in (1, 2, 3):
            log.append(self.decision(number))
        log.close()
        content = self.path.read_bytes()
        last = content[:-1].rindex(b"\n") + 1
        for place in range(last):
            damaged = bytearray(content)
            damaged[place] ^= 1 << place % 8
            self.path.write_bytes(damaged)
            with self.subTest(place=place), self.assertRaises(Corrupt):
                _ranges_log.Log(self.folder)
        self.path.write_bytes(b"")
        self.assertRaises(Incomplete, _ranges_log.Log, self.folder)
        self.path.unlink()
        self.assertRaises(Incomplete, _ranges_log.Log, self.folder)

    def test_one_process_has_it(self) -> None:
        log = self.open()
        self.assertRaises(Locked, _ranges_log.Log, self.folder)
        log.close()
        self.open()

    def test_what_does_not_fit_is_no_decision_and_what_cannot_be_synced_is_in_doubt(self) -> None:
        log = self.open()
        log.append(self.decision(1))
        size = self.path.stat().st_size
        before, soft = signal.signal(signal.SIGXFSZ, signal.SIG_IGN), resource.getrlimit(resource.RLIMIT_FSIZE)
        resource.setrlimit(resource.RLIMIT_FSIZE, (size + 10, soft[1]))
        try:
            with self.assertRaises(_ranges_errors.LogFailed) as caught:
                log.append(self.decision(2))
        finally:
            resource.setrlimit(resource.RLIMIT_FSIZE, soft)
            signal.signal(signal.SIGXFSZ, before)
        self.assertEqual((caught.exception.outcome, self.path.stat().st_size), ("not committed", size))
        log.append(self.decision(3))
        sync = os.fsync
        os.fsync = self.fails  # type: ignore[assignment]
        try:
            with self.assertRaises(_ranges_errors.LogFailed) as caught:
                log.append(self.decision(4))
        finally:
            os.fsync = sync
        self.assertEqual(caught.exception.outcome, "in doubt")
        self.assertRaises(_ranges_errors.LogFailed, log.append, self.decision(5))
        log.close()
        self.assertEqual([it.number for it in self.open().decisions], [1, 3, 4])

    def fails(self, file: int) -> None:
        raise OSError(5, "failed")

    def test_a_long_log_says_so(self) -> None:
        log = self.open()
        while not log.is_long:
            log.append(_ranges_log.Decision(log.next, "t", {0: [["insert", ["x" * 400_000]]]}))
        self.assertGreater(self.path.stat().st_size, _ranges_log.MOST_BYTES)
        log.rewrite([])
        self.assertLess(self.path.stat().st_size, 100)
        log.append(self.decision(log.next))
        log.close()
        self.assertEqual(len(self.open().decisions), 1)


class Synced(unittest.TestCase):
    """What a crash leaves of a file that is put into the place of another."""

    def test_a_file_is_on_the_device_before_it_has_its_name(self) -> None:
        """``ranges.json`` and the log of decisions, which a power cut would leave empty under their names."""
        with tempfile.TemporaryDirectory() as folder:
            synced: Dict[str, bytes] = {}  # what the device has of each file
            renamed: List[str] = []

            def sync(file: int) -> None:
                path = os.readlink(f"/proc/self/fd/{file}")
                synced[path] = b"" if os.path.isdir(path) else Path(path).read_bytes()

            def replace(source: str, target: str) -> None:
                self.assertEqual(synced.get(source), Path(source).read_bytes(), source)
                rename(source, target)
                renamed.append(os.path.basename(target))
                synced.pop(folder, None)

            rename = os.replace
            with mock.patch.object(os, "fsync", sync), mock.patch.object(os, "replace", replace):
                _ranges_layout.Layout((narthexmace.Column("id", "int", True),), (None,), ((7,),)).write(folder)
                self.assertIn(folder, synced, "the name isn't on the device")
                _ranges_log.Log.make(folder)
                log = _ranges_log.Log(folder)
                self.addCleanup(log.close)
                log.rewrite([])
                self.assertIn(folder, synced, "the name isn't on the device")
            self.assertEqual(renamed, ["ranges.json", *["decisions.log"] * 3])


class TurnsOfOne(unittest.TestCase):
    """The thread that makes the calls of a coordinator."""

    def setUp(self) -> None:
        self.turns = _ranges_turns.Turns()
        self.addCleanup(self.turns.end)
        self.going, self.most, self.done = 0, 0, 0

    def call(self) -> int:
        self.going += 1
        self.most = max(self.most, self.going)
        self.done += 1
        self.going -= 1
        return self.done

    def do(self, call: Any, seconds: float = LIMIT) -> Any:
        return self.turns.do(call, _ranges_turns.Deadline(seconds))

    def test_calls_are_made_one_at_a_time_and_answered(self) -> None:
        threads = [threading.Thread(target=lambda: [self.do(self.call) for _ in range(200)]) for _ in range(4)]
        for thread in threads:
            thread.start()
        for thread in threads:
            thread.join(LIMIT)
        self.assertEqual((self.most, self.done, self.going), (1, 800, 0))
        self.assertRaises(ZeroDivisionError, self.do, lambda: 1 // 0)
        self.assertEqual(self.do(self.call), 801)

    def test_a_call_whose_turn_does_not_come_in_time_is_not_made(self) -> None:
        begun, go_on = threading.Event(), threading.Event()
        first = threading.Thread(target=self.do, args=(lambda: (begun.set(), go_on.wait(LIMIT)),))
        first.start()
        self.assertTrue(begun.wait(LIMIT))
        with self.assertRaises(_ranges_errors.TimedOut) as caught:
            self.do(self.call, 0.01)
        self.assertEqual(caught.exception.outcome, "not committed")
        go_on.set()
        first.join(LIMIT)
        self.assertEqual(self.do(self.call), 1)

    def test_interrupts_at_random_moments_end_no_call(self) -> None:
        def interrupt(*_: object) -> None:
            raise KeyboardInterrupt

        before, draw, interrupts = signal.signal(signal.SIGALRM, interrupt), random.Random(7), 0
        self.addCleanup(signal.signal, signal.SIGALRM, before)
        while interrupts < 300:
            try:
                signal.setitimer(signal.ITIMER_REAL, draw.uniform(0.00005, 0.0006))
                while True:
                    self.do(self.call)
            except KeyboardInterrupt:
                interrupts += 1
        self.assertEqual((self.do(lambda: self.going), self.most), (0, 1))


#: Opens the database of a range, and has it until it is told to end.
HOLDER = """\
import sys, narthexmace
db = narthexmace.connect(sys.argv[1])
print("open", flush=True)
sys.stdin.read()
db.close()
"""


class Owners(Case):
    """A range alone, which needs no Dask."""

    def owner(self, first: Optional[First] = None, seconds: float = 1.0) -> Owner:
        owner = Owner(str(self.folder), 0, (1, 1), seconds, first)
        self.addCleanup(owner.close)
        return owner

    def made(self) -> Owner:
        return self.owner(First({"id": [1, 2], "sum": [5, 7]}, ["id"], {"id": "int", "sum": "int"}, {}, {}))

    def rows(self, owner: Owner, version: int) -> List[Any]:
        return list(owner.read(version, list))

    def test_what_is_installed_again_is_done_once(self) -> None:
        owner, effects = self.made(), [["modify", [1], "sum", 6], ["insert", [3, 0]]]
        before = owner.status((1, 1)).version
        version = owner.install((1, 1), 3, "3-a", effects)
        for _ in range(2):
            self.assertEqual(owner.install((1, 1), 3, "3-a", effects), version)
            self.assertEqual(owner.install((1, 1), 2, "2-b", [["delete", [2]]]), version)
            self.assertEqual(owner.status((1, 1)), Status(3, "3-a", version))
            self.assertEqual(self.rows(owner, version), [(1, 6), (2, 7), (3, 0)])
            self.assertEqual((owner.has("3-a"), owner.has("2-b")), (True, False))
            owner.close()
            owner = self.owner()
        self.refused(_ranges_errors.Gone, owner.read, before, list)
        self.assertEqual(owner.install((1, 1), 4, "4-c", [["delete", [1]], ["insert", [1, 9]]]), version + 1)
        self.assertEqual(self.rows(owner, version), [(1, 6), (2, 7), (3, 0)])
        self.assertEqual(self.rows(owner, version + 1), [(1, 9), (2, 7), (3, 0)])

    def test_a_vote_is_what_a_transaction_writes_and_changes_nothing(self) -> None:
        owner = self.made()
        version = owner.status((1, 1)).version
        for name, key in (("1-a", 1), ("1-b", 1), ("1-c", 2)):
            owner.do(name, version, "set", [key, "sum", 9])
        owner.do("1-a", None, "delete", [2])
        owner.do("1-a", None, "insert", [(2, 8)])
        owner.do("1-a", None, "insert", [(3, 8)])
        owner.do("1-a", None, "delete", [3])
        votes = owner.prepare((1, 1), "1-a")
        self.assertEqual(votes, [["delete", (2,)], ["insert", (2, 8)], ["modify", (1,), "sum", 9]])
        self.assertEqual(owner.status((1, 1)).version, version)
        self.refused(_ranges_errors.Gone, owner.prepare, (1, 1), "1-a")
        owner.install((1, 1), 1, "1-a", votes)
        for name in ("1-b", "1-c"):
            self.refused(Conflict, owner.prepare, (1, 1), name)
        owner.do("2-d", version + 1, "set", [1, "sum", 10])
        self.assertEqual(owner.commit((1, 1), 2, "2-d"), version + 2)
        self.assertEqual(self.rows(owner, version + 2), [(1, 10), (2, 8)])

    def test_words_of_an_older_term_are_refused(self) -> None:
        owner = self.made()
        version = owner.status((2, 5)).version
        owner.do("1-a", version, "set", [1, "sum", 9])
        for term in ((2, 4), (1, 9)):
            self.refused(_ranges_errors.Gone, owner.status, term)
            self.refused(_ranges_errors.Gone, owner.prepare, term, "1-a")
            self.refused(_ranges_errors.Gone, owner.commit, term, 1, "1-a")
            self.refused(_ranges_errors.Gone, owner.install, term, 1, "1-a", [["delete", [1]]])
        self.assertEqual(owner.commit((2, 5), 1, "1-a"), version + 1)
        owner.close()
        self.refused(_ranges_errors.Closed, owner.status, (3, 1))

    def test_it_waits_for_the_lock_of_who_is_ending(self) -> None:
        self.made().close()
        child = self.started(HOLDER)
        assert child.stdout and child.stdin
        self.assertEqual(child.stdout.readline(), "open\n")
        self.refused(Locked, Owner, str(self.folder), 0, (1, 1), 0.1)
        tries: List[str] = []

        def connect(folder: str) -> narthexmace.Database:
            tries.append(folder)
            if len(tries) == 3:
                child.kill()
            return narthexmace.connect(folder)

        with mock.patch.object(_ranges_owner, "connect", connect):
            owner = self.owner(seconds=LIMIT)
        self.assertEqual(len(self.rows(owner, owner.status((1, 1)).version)), 2)
        self.assertGreaterEqual(len(tries), 3)


class Imports(unittest.TestCase):
    def test_without_dask_the_import_says_what_to_install(self) -> None:
        program = "import sys; sys.modules['dask'] = None\nimport narthexmace.dask"
        environment = {**os.environ, "PYTHONPATH": str(HERE)}
        told = subprocess.run([sys.executable, "-c", program], env=environment, stderr=subprocess.PIPE, text=True)
        self.assertIn("apt-get install python3-dask python3-distributed python3-pandas", told.stderr)


class Decides(unittest.TestCase):
    """``Transaction._decide``, by which a range votes."""

    def test_it_tells_what_a_commit_would_and_commits_nothing(self) -> None:
        with narthexmace.open({"id": [1, 2], "sum": [5, 7]}, key="id", row_limit=3) as table:
            first, second, full, other = (table.begin() for _ in range(4))
            first.set(1, "sum", 6)
            second.set(1, "sum", 8)
            full.insert((3, 0))
            other.insert((4, 0))
            for txn in (first, second, full, other, first):
                txn._decide()
            self.assertEqual((table.sizes().commits, first.get(1), first.is_open), (0, (1, 6), True))
            first.commit()
            self.assertRaises(Conflict, second._decide)
            self.assertRaises(narthexmace.Misuse, second.get, 1)
            full.commit()
            self.assertRaises(narthexmace.Full, other._decide)
            self.assertEqual((other.is_open, table.sizes().commits), (False, 2))
            with table.begin() as txn:  # no lock is left
                txn.delete(3)


if __name__ == "__main__":
    unittest.main()
