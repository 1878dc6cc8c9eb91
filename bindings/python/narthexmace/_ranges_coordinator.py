"""The coordinator of a table in ranges: it gives all commits one order, and each an outcome that outlives a crash."""
from __future__ import annotations

import re
import time
import uuid
from contextlib import suppress
from typing import Any, Dict, List, NamedTuple, Optional, Sequence, Set, Tuple

from distributed import Client

from . import _ranges_steps as steps
from ._errors import Error, Mismatch, Misuse
from ._ranges_calls import Range, workers_of
from ._ranges_errors import COMMITTED, IN_DOUBT, NOT_COMMITTED, Gone, LogFailed, RangesError, TimedOut
from ._ranges_log import Decision, Log
from ._ranges_owner import First, Status, Term
from ._ranges_turns import Deadline, Turns

#: A version of each range, which together are the table at one moment.
Vector = Tuple[int, ...]
#: How long a range that was slow is asked whether it is there, before another worker opens it.
_A_SIGN = 1.0
#: After how many seconds the scheduler is asked again, where it has no worker.
_NEXT_LOOK = 0.25


class _Doubt(NamedTuple):
    """A commit of one range alone whose answer did not come."""

    number: int
    name: str
    place: int


class Coordinator:
    """Orders the commits. Any threads of its process may use it: one commit goes on at a time."""

    def __init__(
        self,
        client: Client,
        folder: str,
        seconds: float,
        opening: float,
        count: int,
        firsts: Sequence[Optional[First]] = (),
    ) -> None:
        """Opens the log, and each range by a worker; what is decided and was not installed is. Locked, Incomplete,
        Corrupt.

        TimedOut, Gone, and what the opening of a range raises.
        """
        self.seconds, self._opening, self._client = seconds, opening, client
        self._turns = Turns()
        self._log = Log(folder)
        self._words = 0
        self._doubt: Optional[_Doubt] = None
        self._outcomes: Dict[str, str] = {}
        # what is decided and not installed everywhere, the ranges that owe it, and the versions of the others with it
        self._decided: Optional[Decision] = None
        self._owing: Set[int] = set()
        self._installed: Dict[int, int] = {}
        self._vector: Vector = ()
        self.ranges = [Range(client, folder, place, first) for place, first in enumerate(firsts or [None] * count)]
        try:
            self._open_all(Deadline(opening))
        except BaseException:
            self.close()
            raise

    def _open_all(self, deadline: Deadline) -> None:
        addresses = self._addresses(deadline)
        for it in self.ranges:
            it.opens(addresses[it.place % len(addresses)], self._term(), deadline.left())
        there = [self._opened(it, deadline) for it in self.ranges]
        versions = [status.version for status in there]
        for decision in self._log.decisions:
            for place in decision.parts:
                versions[place] = self._done_in(self.ranges[place], decision, deadline)
        self._next = max([self._log.next, *(status.last + 1 for status in there)])
        self._vector = tuple(versions)
        self._log.next = self._next
        self._log.rewrite([])  # each range has all of it, and synced it
        for it in self.ranges:
            it.first = None

    def _opened(self, it: Range, deadline: Deadline) -> Status:
        """Has a worker open a range, and another one where that worker dies meanwhile. TimedOut, those of ``Owner``."""
        while True:
            addresses = self._addresses(deadline)
            if not it.is_opening(addresses):
                it.opens(self._free(addresses, it.address), self._term(), max(deadline.left(), self.seconds))
            status = it.opened(self._term(), deadline)
            if status is not None:
                return status

    def _done_in(self, it: Range, decision: Decision, deadline: Deadline) -> int:
        """Has a range do what was decided before this opening, and answers its version. TimedOut."""
        number, name, parts = decision
        while True:
            try:
                return int(it.ask("install", it.term, number, name, parts[it.place]).answer(deadline))
            except Gone:  # the worker that opened it has died
                self._opened(it, deadline)

    @property
    def vector(self) -> Vector:
        """The newest version of each range that is published."""
        return self._vector

    def name(self) -> str:
        """A name for a transaction that begins. Its commit gets the number in the name, or a later one."""
        return f"{self._next}-{uuid.uuid4().hex}"

    def _term(self) -> Term:
        self._words += 1
        return self._log.epoch, self._words

    # ---- commits

    def commit(self, name: str, places: Sequence[int]) -> Vector:
        """Commits what a transaction has written into some ranges, and answers the vector that has it.

        An interrupt ends the wait for it alone: ``outcome`` says later whether it is committed.
        """
        self.check_open()
        deadline = Deadline(self.seconds)
        try:
            vector: Vector = self._turns.do(lambda: self._commit(name, places, deadline), deadline)
        except BaseException:
            self.end(name, places)
            raise
        return vector

    def _commit(self, name: str, places: Sequence[int], deadline: Deadline) -> Vector:
        if self._log.failed:  # what is in doubt may be decided: nothing may come between it and its ranges
            raise LogFailed("the log of decisions has failed: open the ranges again")
        self._settle(places, deadline)
        if len(places) == 1:
            return self._commit_alone(name, places[0])
        return self._commit_over(name, places)

    def _number(self) -> int:
        self._next += 1
        return self._next - 1

    def _commit_alone(self, name: str, place: int) -> Vector:
        """Commits into one range, whose own journal is the decision."""
        it, doubt = self.ranges[place], _Doubt(self._number(), name, place)
        self._doubt = doubt
        try:
            version = it.ask("commit", it.term, doubt.number, name).answer(Deadline(self.seconds))
        except BaseException as why:
            if isinstance(why, Error) and not it.suspect:  # the range itself has refused it
                self._doubt = None
                raise
            it.suspect = True
            if not isinstance(why, Exception):  # an interrupt: what became of it is seen at the next call
                raise
            return self._after_doubt(doubt, why)
        self._doubt = None
        return self._publish({place: version})

    def _after_doubt(self, doubt: _Doubt, why: Exception) -> Vector:
        """Resolves a commit whose reply was lost: the range has the outcome in its own numbers, once it is reached."""
        self._outcomes[doubt.name] = IN_DOUBT
        try:
            self._reach(doubt.place, Deadline(self.seconds))
        except (Error, OSError) as lost:
            raise TimedOut(f"{why}, over its commit, and isn't reached: {lost}", IN_DOUBT) from lost
        if self._outcomes[doubt.name] == COMMITTED:
            return self._vector
        raise Gone(f"range {doubt.place} was lost before it committed: begin again") from why

    def _commit_over(self, name: str, places: Sequence[int]) -> Vector:
        """Commits into several ranges: all vote, the log decides, and all install it."""
        votes = self._votes(name, places, Deadline(self.seconds))
        parts = {place: effects for place, effects in votes.items() if effects}
        if not parts:
            return self._vector
        steps.reached("prepared")
        decision = Decision(self._number(), name, parts)
        self._decided, self._owing, self._installed = decision, set(parts), {}
        try:
            self._log.append(decision)
        except BaseException as why:
            self._outcomes[name] = why.outcome if isinstance(why, LogFailed) else IN_DOUBT
            self._log.failed |= self._outcomes[name] == IN_DOUBT
            self._decided, self._owing = None, set()
            raise
        steps.reached("decided")
        missed = self._install(Deadline(self.seconds))
        if missed is not None:
            try:
                self._settle((), Deadline(self.seconds))
            except (Error, OSError):
                raise TimedOut("it is decided and lasts, and readers see it once all its ranges are reached", COMMITTED)
        return self._vector

    def _votes(self, name: str, places: Sequence[int], deadline: Deadline) -> Dict[int, Any]:
        """The writes of a transaction to each range, or why one of the ranges refuses it."""
        asked = {place: self.ranges[place].ask("prepare", self.ranges[place].term, name) for place in places}
        votes, refusal = {}, None
        for place, it in asked.items():
            try:
                votes[place] = it.answer(deadline)
            except Exception as why:
                refusal = refusal or why
        if refusal is not None:
            raise refusal
        return votes

    def end(self, name: str, places: Sequence[int]) -> None:
        """Has the ranges end a transaction without a trace. No answer is waited for: an owner that dies has none."""
        for place in places:
            self.ranges[place].ask("end", name)

    def _install(self, deadline: Deadline) -> Optional[Exception]:
        """Has the ranges that owe it do what is decided, and publishes it once all have. Answers why one did not."""
        assert self._decided is not None
        number, name, parts = self._decided
        asked = {}
        for place in sorted(self._owing):
            it = self.ranges[place]
            asked[place] = it.ask("install", it.term, number, name, parts[place])
        missed = None
        for place, call in asked.items():
            try:
                self._installed[place] = call.answer(deadline)
                self._owing.discard(place)
                steps.reached("taken", place)
            except Exception as why:
                missed = self.ranges[place].suspected(why)
        if missed is None:
            self._decided = None
            self._publish(self._installed)
            if self._log.is_long:
                with suppress(OSError):
                    self._log.rewrite([])
        return missed

    def _publish(self, versions: Dict[int, int]) -> Vector:
        self._vector = tuple(versions.get(place, version) for place, version in enumerate(self._vector))
        return self._vector

    # ---- what was lost

    def heal(self, places: Sequence[int] = ()) -> None:
        """Has another worker open those of some ranges whose owner is gone, and does what is owed. TimedOut, Gone."""
        deadline = Deadline(self.seconds)
        self._turns.do(lambda: self._settle(places, deadline), deadline)

    def _settle(self, places: Sequence[int], deadline: Deadline) -> None:
        """Reaches some ranges, and those that owe something or are in doubt. Nothing is owed, or in doubt, then."""
        doubted = set() if self._doubt is None else {self._doubt.place}
        lost = [it for it in sorted({*places, *self._owing, *doubted}) if self.ranges[it].suspect or it in doubted]
        self._open_elsewhere(lost, deadline)
        for place in lost:
            self._reach(place, deadline)
        if self._decided is not None:
            missed = self._install(deadline)
            if missed is not None:
                raise TimedOut("an earlier commit is not installed everywhere yet") from missed

    def _open_elsewhere(self, places: Sequence[int], deadline: Deadline) -> None:
        """Has workers begin to open those of some ranges whose own worker is gone, all at once."""
        if places:
            addresses = self._addresses(deadline)
            for it in (self.ranges[place] for place in places):
                if it.address not in addresses and not it.is_opening(addresses):
                    it.opens(self._free(addresses, it.address), self._term(), self.seconds)

    def _reach(self, place: int, deadline: Deadline) -> None:
        """Finds the owner of a range, or has another worker open it. What was in doubt there is known then."""
        it = self.ranges[place]
        status = self._sign_of(it, deadline)
        if status is None:
            try:
                status = self._opened(it, deadline)
            except RangesError:
                raise
            except OSError as why:  # as Locked, which an owner that was stopped leaves
                raise TimedOut(f"{it} can't be opened: {why}") from why
        self._take(place, status)

    def _sign_of(self, it: Range, deadline: Deadline) -> Optional[Status]:
        """How far a range is whose owner is there after all."""
        if it.owner is None or it.address not in self._addresses(deadline):
            return None
        try:
            return it.serve(self._term(), deadline.sooner(min(_A_SIGN, deadline.left() / 2)))
        except Error:
            return None

    def _take(self, place: int, status: Status) -> None:
        """Goes by what a range says after it was suspect."""
        doubt, it = self._doubt, self.ranges[place]
        if doubt is not None and doubt.place == place:
            committed = status.last == doubt.number
            self._outcomes[doubt.name] = COMMITTED if committed else NOT_COMMITTED
            self._doubt = None
            if committed:
                self._publish({place: status.version})
        if place not in self._owing and status.version != self._installed_or_published(place):
            it.suspect = True
            raise Mismatch(f"{it} has version {status.version}, and {self._vector[place]} was published", None, str(it))

    def _installed_or_published(self, place: int) -> int:
        return self._installed.get(place, self._vector[place]) if self._decided is not None else self._vector[place]

    def _addresses(self, deadline: Deadline) -> List[str]:
        """The addresses of the workers that are there, one or more. TimedOut, Gone."""
        while True:
            told = workers_of(self._client, deadline)
            if told:
                return told
            if not deadline.left():
                raise TimedOut("there is no worker")
            time.sleep(min(_NEXT_LOOK, deadline.left()))

    def _free(self, addresses: Sequence[str], last: str) -> str:
        """The worker that owns the fewest ranges; the last owner only where there is no other."""
        owned = [it.home for it in self.ranges]
        return min(addresses, key=lambda address: (address == last, owned.count(address)))

    def outcome(self, name: str) -> str:
        """The known outcome of a transaction. Misuse if it is the name of none, or once the coordinator is closed."""
        if not re.fullmatch("[0-9]+-[0-9a-f]{32}", name):
            raise Misuse(f"{name!r} is no name of a transaction")
        known = self._outcomes.get(name, IN_DOUBT)
        if known != IN_DOUBT:
            return known
        self.check_open()
        deadline = Deadline(self.seconds)
        try:
            return str(self._turns.do(lambda: self._outcome(name, deadline), deadline))
        except (RangesError, OSError):
            return self._outcomes.get(name, IN_DOUBT)

    def _outcome(self, name: str, deadline: Deadline) -> str:
        """The outcome of a transaction by the log or by the ranges."""
        if self._decided is not None and self._decided.name == name:
            return COMMITTED
        if self._log.failed:
            return IN_DOUBT
        self._settle(range(len(self.ranges)), deadline)
        asked = [it.ask("has", name) for it in self.ranges]
        told = [it.answer(deadline) for it in asked]
        return COMMITTED if True in told else IN_DOUBT if None in told else NOT_COMMITTED

    # ---- the end

    def close(self) -> None:
        """Closes the ranges, and then lets the log's lock go. Closing again is no error."""
        deadline = Deadline(self.seconds)
        for it in self.ranges:
            it.close(deadline)
        self._log.close()
        self._turns.end()

    def check_open(self) -> None:
        """Misuse once it is closed."""
        if self._log.is_closed:
            raise Misuse("the ranges are closed")
