"""The steps of a commit over ranges, by their names. A test has a process stop at one; else nothing is done there."""
from __future__ import annotations

from typing import Callable, Optional

#: The function that is called at each step, with the step's name and the range, or None at the coordinator.
hook: Optional[Callable[[str, Optional[int]], None]] = None


def reached(step: str, place: Optional[int] = None) -> None:
    """Says that a step is reached."""
    if hook is not None:
        hook(step, place)
