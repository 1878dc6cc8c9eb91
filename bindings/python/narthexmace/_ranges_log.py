"""The decision log: which transactions over several ranges are decided, with all that they write."""
from __future__ import annotations

import fcntl
import json
import os
import warnings
import zlib
from typing import Any, Dict, List, NamedTuple, Sequence, Tuple

from . import _ranges_steps as steps
from ._errors import Incomplete, Locked, Mismatch, Corrupt
from ._ranges_errors import IN_DOUBT, NOT_COMMITTED, LogFailed

NAME, LOCK = "decisions.log", "coordinator.lock"
#: A log of more bytes is written anew, without the decisions that all ranges have.
MOST_BYTES = 1 << 20

#: The writes of a transaction to one range, by keys: ["delete", key], ["insert", row], ["modify", key, column, cell].
Effects = List[List[Any]]


class Decision(NamedTuple):
    """A transaction that is decided: its number in the one order, its name, and what it writes into each range."""

    number: int
    name: str
    parts: Dict[int, Effects]


def line_of(record: object) -> bytes:
    """A record as a line: a check and a length, each of eight hexadecimal digits, and JSON in ASCII."""
    text = json.dumps(record, separators=(",", ":")).encode()
    return b"%08x %08x %s\n" % (zlib.crc32(text), len(text), text)


def record_of(line: bytes) -> Any:
    """The record in a whole line; None for a line that is cut short or damaged."""
    text = line[18:-1]
    return json.loads(text) if line == b"%08x %08x %s\n" % (zlib.crc32(text), len(text), text) else None


def _is_torn(line: bytes) -> bool:
    """Whether a last line that is no whole one may be one that was being written: not a whole one and then more."""
    try:
        length = int(line[9:17], 16)
    except ValueError:
        return True
    return len(line) <= 19 + length or record_of(line[: 18 + length] + b"\n") is None


def records_of(content: bytes, path: str) -> List[Any]:
    """The records of a log. A last line that is no whole one is no record, since each is synced before the next."""
    *lines, rest = content.split(b"\n")
    lines = [line + b"\n" for line in lines] + ([rest] if rest else [])
    records = [record_of(line) for line in lines]
    if records and records[-1] is None and _is_torn(lines[-1]):
        records.pop()
    if not records:
        raise Incomplete(f"the log of decisions has no header: {path!r}", None, path)
    if None in records:
        raise Corrupt(f"line {records.index(None) + 1} of the log of decisions is damaged: {path!r}", None, path)
    return records


class Log:
    """The log of a folder, which one process has at a time. A decision counts once ``append`` has synced it."""

    def __init__(self, folder: str) -> None:
        """Takes the lock, reads what is decided, and writes the log anew under the next epoch.

        Locked: another coordinator has it. Incomplete, Corrupt, OSError.
        """
        self._folder, self._path = folder, os.path.join(folder, NAME)
        self._lock = os.open(os.path.join(folder, LOCK), os.O_RDWR | os.O_CREAT | os.O_CLOEXEC, 0o644)
        self._file = -1  # last, so that who has it has the others
        try:
            self._take_lock()
            with open(self._path, "rb") as file:
                header, *records = records_of(file.read(), self._path)
            if header.get("format") != 1:
                raise Mismatch(f"the log of decisions has another format: {self._path!r}", None, self._path)
            #: How many coordinators there were, with this one. A message of an earlier one is refused by it.
            self.epoch: int = header["epoch"] + 1
            self.decisions = [_decision_of(record) for record in records]
            #: The number of the next transaction.
            self.next: int = max([header["next"], *(it.number + 1 for it in self.decisions)])
            #: Whether it takes no more decisions, and whether it is to be written anew.
            self.failed = self.is_long = False
            self.rewrite(self.decisions)
        except FileNotFoundError:
            self.close()
            raise Incomplete(f"the log of decisions is missing: {self._path!r}", None, self._path) from None
        except BaseException:
            self.close()
            raise

    def _take_lock(self) -> None:
        try:
            fcntl.flock(self._lock, fcntl.LOCK_EX | fcntl.LOCK_NB)
        except BlockingIOError as why:
            raise Locked(f"another coordinator has these ranges: {self._folder!r}", why.errno, self._folder) from None

    @staticmethod
    def make(folder: str) -> None:
        """Makes an empty log. It is on the device when this returns."""
        _replace(folder, [line_of({"format": 1, "epoch": 0, "next": 1})])

    def append(self, decision: Decision) -> None:
        """Adds a decision, and syncs it: it counts from then on. LogFailed, whose ``outcome`` says whether it does."""
        if self.failed:
            raise LogFailed("the log of decisions has failed: open the ranges again")
        line, size = line_of(decision), os.fstat(self._file).st_size
        self.failed = True  # until it is known what the device has
        try:
            written = os.write(self._file, line)
            while written < len(line):
                written += os.write(self._file, line[written:])
        except OSError as why:
            self._take_back(size, why)
        steps.reached("written")
        try:
            os.fsync(self._file)
        except OSError as why:  # only the next opening can see what the device has
            raise LogFailed(f"the log of decisions can't be synced: {why}", IN_DOUBT) from why
        self.next, self.is_long = decision.number + 1, size + len(line) > MOST_BYTES
        self.failed = False

    def _take_back(self, size: int, why: OSError) -> None:
        """Cuts off a record that was not written whole, so that it is no decision."""
        try:
            os.ftruncate(self._file, size)
            os.fsync(self._file)
            self.failed = False
        except OSError:  # what is there of it is torn, and no line may come behind it
            pass
        raise LogFailed(f"the log of decisions can't be written: {why}", NOT_COMMITTED) from why

    def rewrite(self, decisions: Sequence[Decision]) -> None:
        """Writes the log anew, with these decisions alone. OSError: it takes no more decisions then."""
        header = {"format": 1, "epoch": self.epoch, "next": self.next}
        self.failed = True  # until the file that is open is the one of the name again
        _replace(self._folder, [line_of(header), *map(line_of, decisions)])
        if self._file >= 0:
            os.close(self._file)
        self._file = os.open(self._path, os.O_WRONLY | os.O_APPEND | os.O_CLOEXEC)
        self.failed = self.is_long = False

    @property
    def is_closed(self) -> bool:
        """Whether it was let go."""
        return self._lock < 0

    def close(self) -> None:
        """Lets the lock go. Closing again is no error."""
        for file in (self._file, self._lock):
            if file >= 0:
                os.close(file)
        self._file = self._lock = -1

    def __del__(self) -> None:
        if hasattr(self, "_file") and not self.is_closed:
            warnings.warn(f"unclosed ranges: {self._folder!r}", ResourceWarning, source=self)
            self.close()


def _decision_of(record: Tuple[int, str, Dict[str, Effects]]) -> Decision:
    number, name, parts = record
    return Decision(number, name, {int(place): effects for place, effects in parts.items()})


def _replace(folder: str, lines: Sequence[bytes]) -> None:
    write_whole(folder, NAME, b"".join(lines))


def write_whole(folder: str, name: str, content: bytes) -> None:
    """Puts a file into a folder, or another into its place: a crash leaves the one or the other, whole."""
    path = os.path.join(folder, name)
    with open(f"{path}.new", "wb") as file:
        file.write(content)
        file.flush()
        os.fsync(file.fileno())
    os.replace(f"{path}.new", path)
    sync_folder(folder)


def sync_folder(folder: str) -> None:
    """Has the device take the names of a folder."""
    at = os.open(folder, os.O_RDONLY | os.O_DIRECTORY)
    try:
        os.fsync(at)
    finally:
        os.close(at)
