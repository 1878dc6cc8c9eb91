"""Calls of the owners of ranges: each has an answer, or a reason why there is none, in time."""
from __future__ import annotations

import warnings
from contextlib import suppress
from typing import Any, List, Optional, Sequence, Tuple

from distributed import Actor, CancelledError, Client, Future, wait
from distributed import TimeoutError as NotYet
from distributed.comm import CommClosedError

from ._errors import Error, WritesFailed, OutcomeUnknown
from ._ranges_errors import Closed, Gone, TimedOut
from ._ranges_owner import First, Owner, Status, Term
from ._ranges_turns import Deadline

#: For how many seconds an answer is waited for at a time: in between it is seen whether the worker is there.
_TURN = 0.05
#: For how many seconds an answer that has come is waited for, where this process is short of time.
_TO_TAKE = 1.0
#: For how many seconds an opening is waited for at a time: in between the scheduler says whether the worker is there.
_LOOK = 0.25


def workers_of(client: Client, deadline: Deadline) -> List[str]:
    """The addresses of the workers that the scheduler has. TimedOut; Gone, where the scheduler is."""
    try:
        told = client.sync(client.scheduler.identity, callback_timeout=deadline.left())
    except (NotYet, TimeoutError):
        raise TimedOut("the scheduler did not answer in time") from None
    except OSError as why:
        raise Gone("the scheduler is gone") from why
    return list(told["workers"])


class Asked:
    """A call of an owner that was made, and that may never be answered."""

    def __init__(self, range_: "Range", method: str, given: Sequence[Any]) -> None:
        self._range, self._task = range_, range_.task
        try:
            self._answer: Any = getattr(range_.owner, method)(*given)
        except (ValueError, AttributeError):  # the first of Dask, where the worker is known to be lost
            self._answer = None

    def answer(self, deadline: Deadline) -> Any:
        """Its answer, or what the owner raised. Gone, of a dead worker, and TimedOut make the range suspect."""
        while self._answer is not None and not self._answer.done():
            if self._task is None or self._task.status not in ("finished", "pending"):
                self._answer = None
            elif not deadline.left():
                raise self._range.suspected(TimedOut(f"{self._range} did not answer in time"))
            else:
                with suppress(NotYet, TimeoutError):
                    return self._told(min(_TURN, deadline.left()))
        if self._answer is None:
            raise self._range.suspected(Gone(f"the worker of {self._range} has died"))
        try:
            return self._told(max(deadline.left(), _TO_TAKE))
        except NotYet:  # it is there, and this process has no time to take it
            raise self._range.suspected(TimedOut(f"{self._range} did not answer in time")) from None

    def _told(self, seconds: float) -> Any:
        try:
            return self._answer.result(timeout=seconds)
        except (Closed, WritesFailed, OutcomeUnknown) as why:
            raise self._range.suspected(why)
        except (OSError, CancelledError) as why:
            if type(why) not in (OSError, CommClosedError, CancelledError):
                raise
            raise self._range.suspected(Gone(f"the worker of {self._range} has died")) from why


class Range:
    """A range as the coordinator has it: the worker that owns it, and whether that is still known to be there."""

    def __init__(self, client: Client, folder: str, place: int, first: Optional[First] = None) -> None:
        self._client, self._folder, self.place = client, folder, place
        #: The contents that it is made of, until all ranges of its table are made.
        self.first = first
        #: The worker's address, Dask's task and actor, and the key by which tasks of the worker find it.
        self.address, self.key = "", ""
        self.task: Optional[Future] = None
        self.owner: Any = None
        self.term: Term = (0, 0)
        self.suspect = True
        self._opening: Optional[Tuple[str, Future]] = None

    def suspected(self, why: Exception) -> Exception:
        """Notes that its owner may be gone, and hands the reason on."""
        self.suspect = True
        return why

    def ask(self, method: str, *given: Any) -> Asked:
        """Makes a call of its owner."""
        return Asked(self, method, given)

    def opens(self, address: str, term: Term, seconds: float) -> None:
        """Has a worker open the range, which waits up to ``seconds`` for a dying owner's lock."""
        with warnings.catch_warnings():  # rows that go once, into a table that is made, need no other way
            warnings.filterwarnings("ignore", "Large object of size")
            task = self._client.submit(
                Owner, f"{self._folder}/range-{self.place}", self.place, term, seconds, self.first,
                actor=True, workers=[address], allow_other_workers=False, pure=False,
            )  # fmt: skip
        self._opening = address, task

    @property
    def home(self) -> str:
        """The address of the worker that opens the range, or else of the one that has it, or had it last."""
        return self.address if self._opening is None else self._opening[0]

    def is_opening(self, addresses: Sequence[str]) -> bool:
        """Whether a worker that is there still opens it, or has."""
        if self._opening is None:
            return False
        address, task = self._opening
        return address in addresses and task.status in ("pending", "finished")

    def opened(self, term: Term, deadline: Deadline) -> Optional[Status]:
        """Waits until a worker has opened the range, and has it serve a term. None, where that worker dies meanwhile.

        TimedOut; Gone, where it can't be opened there; those of ``Owner``.
        """
        assert self._opening is not None
        address, task = self._opening
        if not self._is_made(address, task, deadline):
            self._opening = None
            return None
        self._opening, self.address, self.task = None, address, task
        with self._client.as_current():  # what the task answers would go by Dask's default client
            self.owner = Actor(Owner, address, task.key)
        try:
            status = self.serve(term, deadline)
            self.key = self.ask("here").answer(deadline)
        except Gone:
            if address in workers_of(self._client, deadline):
                raise
            return None
        return status

    def _is_made(self, address: str, task: Future, deadline: Deadline) -> bool:
        """Waits until a worker has made the owner. False where the worker is gone, which Dask's task would wait for."""
        while task.status == "pending":
            with suppress(NotYet, TimeoutError), self._client.as_current():
                wait([task], timeout=min(_LOOK, deadline.left()))
                break
            if address not in workers_of(self._client, deadline):
                return False
            if not deadline.left():
                raise TimedOut(f"{self} was not opened in time, at {address}")
        if task.status == "finished":
            return True
        self._opening = None
        why = task.exception(timeout=max(deadline.left(), _TO_TAKE)) if task.status == "error" else None
        if isinstance(why, Error):
            raise why
        if why is None or address not in workers_of(self._client, deadline):
            return False
        raise Gone(f"{self} could not be opened at {address}: {why!r}") from why

    def serve(self, term: Term, deadline: Deadline) -> Status:
        """Has the owner serve a term: it refuses earlier words of ours from then on, so that its status holds."""
        status = self.ask("status", term).answer(deadline)
        self.term, self.suspect, self._opening = term, False, None
        return Status(*status)

    def close(self, deadline: Deadline) -> None:
        """Closes the range, where its owner still answers."""
        if self.owner is not None:
            with suppress(Error, OSError):
                self.ask("close").answer(deadline)
        self.owner = self.task = self._opening = None
        self.suspect = True

    def __str__(self) -> str:
        return f"range {self.place}"
