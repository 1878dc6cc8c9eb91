"""The exceptions of a table in ranges, besides those of a table."""
from __future__ import annotations

from typing import Optional

from ._errors import Error

COMMITTED, NOT_COMMITTED, IN_DOUBT = "committed", "not committed", "in doubt"


class RangesError(Error):
    """A range, or the log of decisions, didn't respond as it should.

    Attributes
    ----------
    outcome : {"not committed", "committed", "in doubt"}
        What is known of the transaction. "not committed": nothing of it is there, or will be. "committed": it is
        decided and durable, and visible once its ranges are reached again. "in doubt": ``Ranges.outcome`` returns
        which, once the range or the log is reached again.
    """

    outcome = NOT_COMMITTED

    def __init__(self, sentence: Optional[str] = None, outcome: str = NOT_COMMITTED) -> None:
        super().__init__(sentence)
        self.outcome = outcome


class TimedOut(RangesError, TimeoutError):
    """A range didn't respond in time, or none could be opened again: its worker is slow, stopped or cut off."""


class Gone(RangesError):
    """A worker died with its transactions and versions, or a version isn't retained any more: begin again."""


class Closed(Gone):
    """The range's owner has closed its database: another one is to open it."""


class LogFailed(RangesError):
    """The log of decisions can't be written: no transaction over several ranges commits until the table is reopened."""
