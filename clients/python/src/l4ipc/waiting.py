"""Waiting for what is not there yet: how long, and in which pauses."""

import logging
import time
from typing import Iterator, Optional

FIRST_PAUSE = 0.005
LONGEST_PAUSE = 0.25

TOLD_AFTER = 2.0
"""After how many seconds a wait that has no end tells who is waited for."""

_log = logging.getLogger("l4ipc")


class Wait:
    """A wait. One that has no end tells the logger ``l4ipc`` once who is waited for, and then that it is over."""

    def __init__(self, seconds: Optional[float]) -> None:
        self.tells_at = None if seconds is not None else time.monotonic() + TOLD_AFTER
        self.has_told = False

    def patience(self) -> Optional[float]:
        """After how many seconds a try that nobody answers is told; ``None`` where it is not, or something was told."""
        return None if self.has_told or self.tells_at is None else max(self.tells_at - time.monotonic(), TOLD_AFTER / 2)

    def goes_on(self, who: str, why: object) -> None:
        """Nobody is there yet."""
        if not self.has_told and left_until(self.tells_at) == 0:
            self.has_told = True
            _log.warning("l4ipc: waiting for %s: %s", who, why)

    def is_over(self, what: str) -> None:
        """It has what it waited for, and tells nothing more."""
        if self.has_told:
            _log.warning("l4ipc: %s", what)
        self.has_told, self.tells_at = False, None


def left_until(end: Optional[float]) -> Optional[float]:
    """How many seconds are left until a moment of the monotonic clock; ``None`` where there is no end."""
    return None if end is None else max(0.0, end - time.monotonic())


def end_of(seconds: Optional[float]) -> Optional[float]:
    """The moment of the monotonic clock in so many seconds; ``None`` for never."""
    return None if seconds is None else time.monotonic() + seconds


def pauses(seconds: Optional[float], longest: float = LONGEST_PAUSE) -> Iterator[float]:
    """The pauses between two tries, each twice as long as the last one, until so many seconds have passed; ``None`` is never.

    The seconds begin with the first pause.
    """
    yield from pauses_until(end_of(seconds), longest)


def pauses_until(end: Optional[float], longest: float = LONGEST_PAUSE) -> Iterator[float]:
    """The same, until a moment of the monotonic clock."""
    pause = FIRST_PAUSE
    while True:
        left = left_until(end)
        if left == 0:
            return
        yield pause if left is None else min(pause, left)
        pause = min(2 * pause, longest)
