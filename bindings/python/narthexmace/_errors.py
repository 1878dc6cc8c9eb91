"""The exceptions that a call raises where the library returns another code than PDT_OK."""
from __future__ import annotations

import ctypes
import errno
import os
from typing import Any, Dict, Optional, Tuple, Type, Union

from ._library import FaultOf, ReportOf, library

Path = Union[str, bytes, "os.PathLike[str]"]


class Error(Exception):
    """An error of the library, with the code of ``pdt.h`` and a sentence with the cause.

    Errors that one of Python's own exceptions describes are of that class too, as ``Missing`` is a KeyError.
    docs/ERRORS.md has all of them, with what to do.

    Attributes
    ----------
    code : int
        The code of ``pdt.h``.
    row : int or None
        The row, from 0, at which columns were refused; None for other calls.
    column : int or None
        The column of that row, from 0, or the column of a CSV text.
    """

    code = -1
    #: Where the rows of columns were refused: the row, which counts from 0, and the column; None of other calls.
    row: Optional[int] = None
    column: Optional[int] = None

    def __init__(self, sentence: Optional[str] = None) -> None:
        super().__init__(sentence or library.pdt_code_text(self.code).decode())

    def __str__(self) -> str:
        return str(self.args[0])


class NoMemory(Error, MemoryError):
    """Out of memory. The table and the transaction are unchanged."""

    code = 1


class _CommitRefused(Error):
    """A commit that was refused. The transaction is over, and left no trace: begin again, and do the work again."""

    #: The number of the newest table.
    commits: int = 0


class Conflict(_CommitRefused):
    """A concurrent commit modified the same data. The transaction is over: begin again.

    Attributes
    ----------
    commits : int
        The number of the newest version.
    """

    code = 2


class TooOld(_CommitRefused):
    """The changes of a commit since the begin aren't retained any more. The transaction is over: begin again.

    Attributes
    ----------
    commits : int
        The number of the newest version.
    """

    code = 3


class Full(_CommitRefused):
    """The table would have more rows than its limit. The transaction survives a failed write, not a failed commit.

    Attributes
    ----------
    commits : int
        After a commit, the number of the newest version.
    """

    code = 4


class Duplicate(Error):
    """A row with this key exists."""

    code = 5


class Missing(Error, KeyError):
    """No row has this key, no table has this name, or there is no such savepoint any more."""

    code = 6


class NotKept(Missing):
    """The changes of a commit aren't retained: too many came since, or a trim, or the table has no such commit.

    A follower starts again: with ``Table.pin`` for the rows, and ``Table.changes`` after the pin's number.

    Attributes
    ----------
    number : int
        The number of the commit.
    """

    #: The number of the commit.
    number: int = 0


class TypeMismatch(Error, ValueError):
    """Cells don't fit their columns: too few, a wrong type, a text of more than 4,096 bytes, a key column to be set."""

    code = 7


class BadTable(Error, ValueError):
    """The text isn't a table, or the names or keys of columns don't make one.

    Attributes
    ----------
    cause : str or None
        For a text, what is wrong. None for columns, and for the header in a folder.
    record : int or None
        For a text, the record, from 1 with the header.
    column : int or None
        For a text, the column, from 0, or 0 for the whole record.
    """

    code = 8
    cause: Optional[str] = None
    record: Optional[int] = None


class BadLimit(Error, ValueError):
    """``recent``, ``row_limit`` or another option is outside its range."""

    code = 9


class TooManyRows(Error, ValueError):
    """The table has more rows than ``row_limit``."""

    code = 10


class TooSmall(Error):
    """A buffer is too small. No call of this package should raise it."""

    code = 11


class BadCheckpoint(Error, ValueError):
    """The file of a column can't be read as one."""

    code = 12


class NoCheckpoint(Error):
    """The files in a folder contain no complete checkpoint."""

    code = 13


class Misuse(Error, RuntimeError):
    """The call isn't allowed now: the table is closed, the transaction over, or another thread is in a call of it."""

    code = 14


class Borrowed(Misuse, BufferError):
    """An array or a view is still over memory that ``Snapshot.int_spans`` returned. Delete it first."""


class ReadOnly(Misuse, AttributeError):
    """A snapshot was asked to write. ``Table.begin`` begins a transaction, which writes."""


class _OfFiles(Error, OSError):
    """An error about the files of a folder: ``errno`` has the cause, and ``filename`` is the folder."""

    def __init__(self, sentence: Optional[str] = None, errno: Optional[int] = None, filename: Any = None) -> None:
        super().__init__(sentence)
        self.filename = filename
        if errno is not None:
            self.errno, self.strerror = errno, os.strerror(errno)

    def __reduce__(self) -> Tuple[Any, ...]:
        return type(self), (*self.args, self.errno, self.filename), vars(self)


class FileFailed(_OfFiles):
    """A file can't be created, written, synced or read.

    Attributes
    ----------
    errno : int
        The cause.
    filename : str, bytes or os.PathLike
        The folder.
    """

    code = 15


class Exists(_OfFiles, FileExistsError):
    """A folder has a file of a checkpoint already, or a database has a table of this name.

    Attributes
    ----------
    filename : str, bytes or os.PathLike
        The folder.
    """

    code = 16


class Superseded(Error):
    """A fold or another checkpoint came since a checkpoint began. No call of this package begins one."""

    code = 17


class NotAscending(Error, ValueError):
    """A row's key isn't above the key of the row before it. ``open`` sorts such columns, and doesn't raise it."""

    code = 18


class DeviceFailed(Error):
    """An Arrow stream failed; the sentence has its message."""

    code = 19


class Locked(_OfFiles, BlockingIOError):
    """The database is open already, in this process or another.

    Attributes
    ----------
    filename : str, bytes or os.PathLike
        The folder.
    """

    code = 20


class _OfDatabase(_OfFiles):
    """An error about the files of a database. ``filename`` is the damaged or missing file, or the folder."""

    #: The file that it is about, by its name in the folder, or None.
    file: Optional[str] = None
    #: The number of the commit that it is about, or None. Where ``file`` is ``images.pdt`` it is the number of a mark.
    commit: Optional[int] = None


class Corrupt(_OfDatabase):
    """Durable data is corrupt. No file was changed.

    Attributes
    ----------
    file : str or None
        The file, by its name in the folder.
    commit : int or None
        The number of the commit.
    """

    code = 21


class Incomplete(_OfDatabase):
    """A file of the database, or a commit, is missing. No file was changed.

    Attributes
    ----------
    file : str or None
        The file, by its name in the folder.
    commit : int or None
        The number of the commit.
    """

    code = 22


class Mismatch(_OfDatabase):
    """The journal isn't the journal of these tables. No file was changed.

    Attributes
    ----------
    file : str or None
        The file, by its name in the folder.
    commit : int or None
        The number of the commit.
    """

    code = 23


class OutcomeUnknown(_OfFiles):
    """I/O error during a commit: whether it is durable is unknown until the database is reopened.

    The transaction is over.

    Attributes
    ----------
    commits : int
        The number that the commit has if it is durable.
    """

    code = 24
    #: The number that the commit has if it is there.
    commits: int = 0


class WritesFailed(_OfFiles):
    """An earlier write failed: the database takes no writes until it is reopened. The transaction stays open."""

    code = 25


class TooLong(Error):
    """The transaction's changes take 4 GiB or more in the journal. It stays open: commit less at a time."""

    code = 26


class NewerFormat(_OfDatabase):
    """A later version of the library wrote a file of the database. Nothing was changed: open it with that version.

    Attributes
    ----------
    file : str or None
        The file, by its name in the folder.
    """

    code = 27


class ReadOnlyDatabase(Error):
    """The database was opened read-only. A transaction stays open."""

    code = 28


_KINDS: Tuple[Type[Error], ...] = (
    NoMemory,
    Conflict,
    TooOld,
    Full,
    Duplicate,
    Missing,
    TypeMismatch,
    BadTable,
    BadLimit,
    TooManyRows,
    TooSmall,
    BadCheckpoint,
    NoCheckpoint,
    Misuse,
    FileFailed,
    Exists,
    Superseded,
    NotAscending,
    DeviceFailed,
    Locked,
    Corrupt,
    Incomplete,
    Mismatch,
    OutcomeUnknown,
    WritesFailed,
    TooLong,
    NewerFormat,
    ReadOnlyDatabase,
)
_BY_CODE: Dict[int, Type[Error]] = {kind.code: kind for kind in _KINDS}
_OF_FILES: Dict[int, Type[_OfFiles]] = {kind.code: kind for kind in (FileFailed, Exists, Locked, OutcomeUnknown, WritesFailed)}
_OF_DATABASES: Dict[int, Type[_OfDatabase]] = {kind.code: kind for kind in (Corrupt, Incomplete, Mismatch, NewerFormat)}
#: The errno of errors that have one cause, whatever errno is in C.
_REASONS = {Exists.code: errno.EEXIST, Locked.code: errno.EWOULDBLOCK}


def sentence_of(code: int) -> str:
    """The library's sentence for the code that the last call returned: no other call of this thread comes between."""
    return str(library.pdt_errmsg(code).decode(errors="replace"))


def error_of(code: int) -> Error:
    """The exception of a code that is not PDT_OK, which the last call has returned."""
    return _BY_CODE.get(code, Error)(sentence_of(code))


def check(code: int) -> None:
    """Raises the exception of a code, where it is not PDT_OK."""
    if code:
        raise error_of(code)


def check_files(code: int, folder: Path) -> None:
    """As ``check``, of a call that reads or writes the files of a folder."""
    if code not in _OF_FILES:
        check(code)
        return
    number = ctypes.get_errno() if code == FileFailed.code else _REASONS.get(code)
    sentence = library.pdt_code_text(code).decode()
    if code == FileFailed.code:
        sentence = f"{sentence}: {os.strerror(ctypes.get_errno())}"
    raise _OF_FILES[code](f"{sentence}: {os.fsdecode(folder)!r}", number, folder)


def check_made(code: int, folder: Path) -> int:
    """Raises what the files of a database are refused for where a table is made, and answers other codes."""
    if code == Exists.code:
        raise Exists(f"{sentence_of(code)}: {os.fsdecode(folder)!r}", errno.EEXIST, folder)
    if code in _OF_FILES:
        check_files(code, folder)
    return code


def check_opening(code: int, folder: Path, report: ReportOf) -> None:
    """As ``check``, of the opening of a database: the report says which file or which commit it is about."""
    file: Optional[str] = report.file.decode(errors="replace") or None
    where = folder if file is None else os.path.join(os.fsdecode(folder), file)
    if not code or code in _OF_FILES:
        check_files(code, where)
        return
    commit: Optional[int] = report.fault or None
    about = [repr(file)] if file is not None else [f"commit {commit}"] if commit is not None else []
    sentence = f"{sentence_of(code)}: {' in '.join([*about, repr(os.fsdecode(folder))])}"
    if code not in _OF_DATABASES:
        raise _BY_CODE.get(code, Error)(sentence)
    error = _OF_DATABASES[code](sentence, None, where)
    error.file, error.commit = file, commit
    raise error


def check_text(code: int, fault: FaultOf) -> None:
    """As ``check``, of an opening over a text: a fault says what is wrong with that."""
    if code == BadTable.code:
        error = BadTable(sentence_of(code))
        error.record, error.column, error.cause = fault.row, fault.column, fault.cause.decode()
        raise error
    check(code)
