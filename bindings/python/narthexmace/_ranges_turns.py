"""Deadlines, and turns: what a coordinator does one after the other, in a thread where no interrupt comes."""
from __future__ import annotations

import threading
import time
from queue import Empty, SimpleQueue
from typing import Any, Callable, Optional, Tuple

from ._ranges_errors import TimedOut


class Deadline:
    """A moment up to which is waited."""

    def __init__(self, seconds: float) -> None:
        self._end = time.monotonic() + seconds

    def left(self) -> float:
        """How many seconds are left: none is 0."""
        return max(0.0, self._end - time.monotonic())

    def sooner(self, seconds: float) -> "Deadline":
        """The moment that is ``seconds`` from now, or this one."""
        return Deadline(min(seconds, self.left()))


class _Turn:
    """A call that waits for its turn. Either the thread takes it, or its caller takes it back."""

    def __init__(self, call: Callable[[], Any]) -> None:
        self.call = call
        #: Its result, or the exception that it raised.
        self.answer: "SimpleQueue[Tuple[Any, Optional[BaseException]]]" = SimpleQueue()
        self._taken = threading.Lock()

    def take(self) -> bool:
        """Takes it: True for the first that asks."""
        return self._taken.acquire(blocking=False)


class Turns:
    """Makes calls, one at a time. A Ctrl-C ends the wait of a caller, and never a call that goes on.

    A commit is a series of steps, and what is noted between two of them says what the next one is. In the main thread
    Python raises KeyboardInterrupt between any two lines, and while a lock is taken. So the steps have another thread.
    """

    def __init__(self) -> None:
        self._asked: "SimpleQueue[Optional[_Turn]]" = SimpleQueue()
        threading.Thread(target=_go_on, args=(self._asked,), name="narthexmace commits", daemon=True).start()

    def do(self, call: Callable[[], Any], deadline: Deadline) -> Any:
        """The result of a call, made in its turn. TimedOut if the turn doesn't come in time: it isn't made then."""
        turn = _Turn(call)
        try:
            self._asked.put(turn)
            answer, why = turn.answer.get(timeout=deadline.left())
        except Empty:
            if turn.take():
                raise TimedOut("another commit goes on, and did not end in time") from None
            answer, why = turn.answer.get()
        except BaseException:  # an interrupt: a call that hasn't begun isn't made
            turn.take()
            raise
        if why is not None:
            raise why
        return answer

    def end(self) -> None:
        """Ends the thread, once its calls are made. Ending again is no error."""
        self._asked.put(None)

    def __del__(self) -> None:
        self.end()


def _go_on(asked: "SimpleQueue[Optional[_Turn]]") -> None:
    """Makes the calls of a queue. It keeps none of them while it waits, nor the coordinator whose they are."""
    while True:
        turn = asked.get()
        if turn is None:
            return
        if turn.take():
            try:
                turn.answer.put((turn.call(), None))
            except BaseException as why:
                turn.answer.put((None, why))
        del turn
