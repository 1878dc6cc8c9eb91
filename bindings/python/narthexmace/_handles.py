"""The addresses of C's objects. A call gets one for as long as it goes on, and none once the object is let go."""
from __future__ import annotations

import sys
import threading
import warnings
import weakref
from ctypes import byref, c_uint64, c_void_p
from functools import partial
from itertools import chain, starmap
from operator import attrgetter
from types import FrameType
from typing import Any, Callable, Dict, List, NoReturn, Optional, Sequence, Tuple

from ._cells import Shaping, shaping_at
from ._errors import Conflict, Full, Borrowed, Misuse, TooOld, check, error_of
from ._library import NO_NUMBER, library


class Single:
    """The only handle of an object of C. Copying or pickling it is TypeError."""

    __slots__ = ()

    def __reduce_ex__(self, protocol: object) -> NoReturn:
        raise TypeError(f"a {type(self).__name__} can't be copied or pickled: it stands for memory of this process")


#: The entry in a list for a call of C that has begun, and has no code yet.
_BEGUN = -1
#: The code of a free that isn't tried, since a thread is in a call.
_IN_CALL = -2


def call_into(told: List[int], call: Callable[..., int], *given: Any) -> None:
    """Makes a call of C's, whose code goes into a list with nothing of Python's in between.

    An interrupt comes before the call, and the list is empty, or after it, and the list ends with its code.
    """
    told.extend(chain((_BEGUN,), starmap(call, (given,))))


def is_nested() -> bool:
    """Whether this thread is in a call of this package below the one that asks, as in a stream that Python makes.

    The thread's own stack shows it, whatever an interrupt left locked or counted.
    """
    return _is_in_package(_caller_of_package(sys._getframe()))


def _caller_of_package(frame: Optional[FrameType]) -> Optional[FrameType]:
    """The frame that has called into the package, where this one is of it."""
    while frame is not None and frame.f_globals.get("__package__") == __package__:
        frame = frame.f_back
    return frame


def _is_in_package(frame: Optional[FrameType]) -> bool:
    """Whether a frame, or one below it, is of the package."""
    while frame is not None:
        if frame.f_globals.get("__package__") == __package__:
            return True
        frame = frame.f_back
    return False


#: Addresses without a handle that C doesn't free while a stream of Arrow's is open over them, and C's calls that free
#: them. Python gets no notice of a stream's end.
_left: List[Tuple[Callable[[c_void_p], int], c_void_p]] = []


def free_left() -> None:
    """Frees what was left, where its streams have ended since."""
    for _ in range(len(_left)):
        try:
            frees, at = _left.pop(0)
        except IndexError:  # another thread has it
            return
        if frees(at) == Misuse.code:
            _left.append((frees, at))


class Shared(Single):
    """An address that several threads may have at once. It is freed when nothing uses it any more.

    ``with handle as at`` is a call on it. C's own locks order the calls; those that go on are counted here for each
    thread, so that nothing is freed in one. An interrupt may leave a count: so a thread counts as in a call only where
    its stack shows one, too. An interrupt may come between any two lines, and never between C's free and its note.
    """

    #: The kind of object that it is the address of, for messages.
    kind = ""

    def __init__(self) -> None:
        free_left()
        #: The function that the end of a transaction or pin calls: ``int``, which does nothing, unless this is ending.
        self.unused: Callable[[], Any] = int
        self._lock = threading.RLock()  # for the call that frees it
        self._calls: Dict[int, int] = {}  # of each thread
        # what is open over it, and some that are over, which ``note`` takes out now and then
        self._opened: List["weakref.ref[Any]"] = []
        self._most = 64
        self._ending = False
        #: The address that an opening fills. After an interrupt of the opening it is freed with this. It is made last.
        self.room = c_void_p()

    def __enter__(self) -> int:
        self.count_call()
        try:
            return self._entered()
        except BaseException:
            self.count_end()
            raise

    def _entered(self) -> int:
        at = self.room.value
        if at is None:
            with self._lock:  # another thread may try to free it just now
                at = self.room.value
        if at is None or self._ending:
            raise Misuse(f"the {self.kind} is closed")
        return at

    def __exit__(self, *_: object) -> None:
        self.count_end()
        if self._ending:
            self.free_if_ending()

    def count_call(self) -> None:
        """Counts a call of this thread."""
        thread = threading.get_ident()
        self._calls[thread] = self._calls.get(thread, 0) + 1

    def count_end(self) -> None:
        """Counts it no more."""
        thread = threading.get_ident()
        count = self._calls.get(thread, 0) - 1
        if count > 0:
            self._calls[thread] = count
        else:
            self._calls.pop(thread, None)

    def is_in_call(self) -> bool:
        """Whether a thread is in a call: one that is counted, and whose stack is in this package."""
        if not self._calls:
            return False
        stacks: Dict[int, Optional[FrameType]] = dict(sys._current_frames())
        stacks[threading.get_ident()] = _caller_of_package(sys._getframe())
        return any(_is_in_package(stacks.get(thread)) for thread in list(self._calls))

    def note(self, opened: Any) -> None:
        """Notes what is open over it: a transaction, a snapshot or a pin. It isn't kept by that."""
        self._opened.append(weakref.ref(opened))
        if len(self._opened) > self._most:
            self._take_out()

    def _take_out(self) -> None:
        """Takes out of what is noted what is over."""
        if self._lock.acquire(blocking=False):
            try:
                count = len(self._opened)
                there = [kept for kept in self._opened[:count] if _is_open(kept())]
                self._most = max(64, 2 * len(there))
                self._opened[:count] = there  # other threads may have added some behind them
            finally:
                self._lock.release()

    def _end_reads(self) -> None:
        """Ends what only reads, unless something else is open, for which this stays open. Misuse in a call of one."""
        opened: List[Any] = [it for it in (kept() for kept in list(self._opened)) if _is_open(it)]
        if all(it.reads for it in opened) and not self.is_in_call():
            for it in opened:
                it.abort()

    def close(self) -> None:
        """Frees it, and ends what only reads. Misuse while something else is open, or another thread in a call."""
        with self._lock:
            self._end_reads()
            code = self._free()
        if code == _IN_CALL:
            raise Misuse(f"another thread is in a call of the {self.kind}")
        if code == Misuse.code:
            raise Misuse(self._why_open())
        check(code)

    def end(self) -> None:
        """Takes no more calls, and frees it now, or with the end of the last thing that is open over it."""
        self.unused = self.free_if_ending
        self._ending = True
        self.free_if_ending()

    def free_if_ending(self) -> None:
        """Frees what takes no more calls, once none goes on and nothing is open over it."""
        if not self._ending:
            return
        with self._lock:
            code = self._free()
        if code not in (0, _IN_CALL, Misuse.code):
            warnings.warn(f"the {self.kind} was closed, and {error_of(code)}", RuntimeWarning, stacklevel=2)
        free_left()

    def _free(self) -> int:
        """Frees it, and answers C's code. PDT_MISUSE where something is open over it, _IN_CALL in a call: it stays."""
        at, told = self.room, [Misuse.code]
        try:
            self.room = c_void_p()  # first: no call begins then, and after an interrupt it must not be freed again
            if self.is_in_call():
                return _IN_CALL
            told.clear()
            call_into(told, self._freeing(), at)
            return told[-1]
        finally:
            if not told or told[-1] == Misuse.code:
                self.room = at
            else:
                self.unused = int
                vars(self)["dropped"] = int

    @staticmethod
    def _freeing() -> Callable[[c_void_p], int]:
        """C's call that frees it; a null pointer is no error."""
        raise NotImplementedError

    def _why_open(self) -> str:
        """Why C doesn't free it."""
        raise NotImplementedError

    def dropped(self) -> None:
        """Lets go of a handle that is dropped. Once C has freed the object, ``int`` takes the place of this method."""
        if "room" in vars(self):
            self.end()
            self.leave()

    #: No line of Python runs here once C has freed the object: Python loses an interrupt that comes in a ``__del__``.
    __del__: Any = property(attrgetter("dropped"))

    def leave(self) -> None:
        """Leaves what C didn't free to later calls. It has no address then: what the garbage collector drops after it,
        as a transaction over it that is in one cycle with it, must not free it again.
        """
        if self._ending and self.room.value is not None:
            at, self.room = self.room, c_void_p()
            self.unused = free_left
            _left.append((self._freeing(), at))


def _is_open(opened: Any) -> bool:
    """Whether what is noted is there, and open."""
    return opened is not None and bool(opened.is_open)


class LoneHandle(Shared):
    """A table's address."""

    kind = "table"
    #: The name of a table of a database; a table outside a database has none.
    name: Optional[str] = None

    @staticmethod
    def _freeing() -> Callable[[c_void_p], int]:
        return library.pdt_close

    def _why_open(self) -> str:
        return "a transaction or a stream of the table is open, or an array over what a snapshot borrowed"

    def shaping(self) -> Shaping:
        """Its columns, and how cells go there and come back."""
        with self as at:
            return shaping_at(at)

    def owner(self) -> Shared:
        """The table or database that is freed with the last object that is open over it."""
        return self

    def has_numbered(self, number: int) -> bool:
        """Whether a number above that of the newest table is that of a commit, which changed another table."""
        return False


class Use(Single):
    """A use of something shared: its end calls ``unused``."""

    __slots__ = ("shared",)

    def __init__(self, shared: Shared) -> None:
        self.shared = shared

    __del__: Any = property(attrgetter("shared.unused"))


class Address(Single):
    """An address that C frees when this is dropped; a call of C's fills its room.

    No line of Python runs then: Python loses an interrupt that comes in a ``__del__``.
    """

    __slots__ = ("room", "_free", "_use")

    def __init__(self, free: Callable[[c_void_p], Any], shared: Optional[Shared] = None) -> None:
        """``free`` takes a null pointer as well. The use of what is shared ends after it."""
        self.room = c_void_p()
        self._free = partial(free, self.room)
        self._use = None if shared is None else Use(shared)

    __del__: Any = property(attrgetter("_free"))

    def end_by(self, call: Callable[..., int], number: c_uint64) -> int:
        """Makes a call of C's that frees the address where it fills in a number. Answers its code."""
        at = self.room.value
        number.value = NO_NUMBER
        try:
            self.room.value = None  # before the call: after an interrupt it must not be freed again
            return call(at, byref(number))
        finally:
            if number.value == NO_NUMBER:
                self.room.value = at


class _OpenAddress(Address):
    """The address of an open transaction, which is aborted then."""

    __slots__ = ("table",)

    def __init__(self, table: LoneHandle, shared: Shared) -> None:
        self.table = table
        self.room = c_void_p()
        self._free = partial(library.pdt_abort, self.room)  # null where the transaction has committed
        self._use = Use(shared)


class PinHandle(Single):
    """A pin's address, at which several threads may begin at once. It is let go when none of them is in a begin."""

    #: It is ended by a close.
    reads = True

    def __init__(self, table: LoneHandle) -> None:
        """Pins the newest table."""
        pinned, number = _PinAddress(table), c_uint64()
        with table as at:
            check(library.pdt_pin(at, byref(number), byref(pinned.room)))
        self.number = number.value
        self.table = table
        self._pinned: Optional[_PinAddress] = pinned
        table.owner().note(self)

    @property
    def is_open(self) -> bool:
        return self._pinned is not None

    def begin(self, room: c_void_p) -> None:
        """Begins a transaction over the pin's table, whose address goes into room."""
        pinned = self._pinned  # which stays while this call has it, whoever lets the pin go
        if pinned is None:
            raise Misuse("the pin is closed")
        with self.table:
            check(library.pdt_begin_at(pinned.room, byref(room)))

    def arrow(self, *given: Any) -> int:
        """C's call that makes a stream over the pin's table."""
        free_left()
        pinned = self._pinned
        if pinned is None:
            raise Misuse("the pin is closed")
        with self.table:
            return int(library.pdt_arrow(pinned.room, *given))

    def abort(self) -> None:
        """Lets the pin go: at once, or once no other thread begins at it."""
        self._pinned = None


class _PinAddress(Address):
    """The address of a pin."""

    __slots__ = ("table",)

    def __init__(self, table: LoneHandle) -> None:
        self.table = table
        super().__init__(library.pdt_unpin, table.owner())  # null where the pinning failed


def take(lock: Any) -> None:
    """Takes the lock of a transaction. Misuse in a call of another thread, or in one of this thread's own."""
    if (lock._is_owned() and is_nested()) or not lock.acquire(blocking=False):
        raise Misuse("another thread is in a call of the transaction")


class TransactionHandle(Single):
    """A transaction's address, which one thread may have at a time.

    ``with handle as at`` is a call on the transaction. One that writes or commits first takes back what was borrowed,
    by ``take_back``: reads move nothing. Each array over the library's memory keeps the address, so that the memory
    stays for as long as someone can read it.
    """

    def __init__(self, table: LoneHandle, pin: Optional[PinHandle] = None, *, reads: bool = False) -> None:
        """Begins a transaction over the newest table, or over that of a pin. One that only reads is ended by a close."""
        shared = table.owner()
        address = _OpenAddress(table, shared)
        self.reads = reads
        #: The name of its table in a database; that of a table outside a database has none.
        self.name = table.name
        if pin is not None:
            pin.begin(address.room)
        else:
            with table as at:
                check(library.pdt_begin(at, byref(address.room)))
        self._address: Optional[Address] = address
        self._lock = threading.RLock()  # which an interrupt may leave to its own thread, that takes it again
        # the views that were borrowed, and the memory under each: neither is kept alive by this
        self._lent: List[Tuple["weakref.ref[memoryview]", "weakref.ref[Any]"]] = []
        shared.note(self)

    @property
    def is_open(self) -> bool:
        return self._at() is not None

    def _at(self) -> Optional[int]:
        """Where it is; None once it is over."""
        address = self._address
        return None if address is None else address.room.value

    def __enter__(self) -> int:
        lock = self._lock
        if (lock._is_owned() and is_nested()) or not lock.acquire(False):  # type: ignore[attr-defined]
            raise Misuse("another thread is in a call of the transaction")
        at = self._at()
        if at is None:
            lock.release()
            raise Misuse("the transaction is over")
        return at

    def __exit__(self, *_: object) -> None:
        self._lock.release()

    def arrow(self, *given: Any) -> int:
        """C's call that makes a stream of what the transaction sees."""
        with self as at:
            return int(library.pdt_txn_arrow(at, *given))

    def may_end_alone(self) -> None:
        """Misuse of a part of a database transaction, which ends with that."""

    def lend(self, runs: Sequence[Any]) -> List[memoryview]:
        """A view of int64 over each run of the library's memory, for reading. Made in a call."""
        self._lent = [(view, memory) for view, memory in self._lent if memory() is not None]
        views = []
        for memory in runs:
            memory.keeps = self._address
            views.append(memoryview(memory).toreadonly().cast("B").cast("q"))
            self._lent.append((weakref.ref(views[-1]), weakref.ref(memory)))
        return views

    def take_back(self) -> None:
        """Takes back what was borrowed, and raises Borrowed where it is in use. Made in a call, before it moves
        anything."""
        if self._lent and not self._release_lent():
            raise Borrowed("numbers that were borrowed are still in use: let go of the arrays over them, or copy them")

    def _release_lent(self) -> bool:
        """Releases the views that were borrowed, and says whether nothing reads the memory, as a part of a view may."""
        for view, _ in self._lent:
            _release(view())
        self._lent = [(view, memory) for view, memory in self._lent if memory() is not None]
        return not self._lent

    def end_by(self, call: Callable[..., int], number: c_uint64) -> int:
        """Makes a call of C's that ends the transaction where it fills in a number. Made in a call; answers its code."""
        self.may_end_alone()
        self.take_back()
        assert self._address is not None
        code = self._address.end_by(call, number)
        if number.value != NO_NUMBER:
            self._address = None
        return code

    def decide(self) -> int:
        """Has C decide a commit, and gives that up. Made in a call; answers C's code, which may say that it is over."""
        self.may_end_alone()
        self.take_back()
        assert self._address is not None
        room, told = self._address.room, [0]
        at = room.value
        try:
            room.value = None
            call_into(told, library.pdt_prepare, at, byref(c_uint64()))
            if not told[-1]:
                call_into(told, library.pdt_give_up, at)
        finally:
            if told[-1] not in (Conflict.code, TooOld.code, Full.code):
                room.value = at
        if room.value is None:
            self._address = None
        return told[-1]

    def abort(self) -> None:
        """Ends the transaction: at once, or once nothing reads what it borrowed."""
        take(self._lock)
        try:
            self._release_lent()
            self._address = None
        finally:
            self._lock.release()


def _release(view: Optional[memoryview]) -> None:
    """Releases a view that is still there and over which there is no array."""
    if view is not None:
        try:
            view.release()
        except BufferError:
            pass
