"""Words of the manual: thread ids, tags, periods, and string items."""

import math
from typing import Optional

from . import arguments, protocol

WORD_LIMIT = 1 << 64
"""One more than the greatest word."""

MAX_MESSAGE_WORDS = protocol.MAX_MESSAGE_WORDS
"""How many message registers a message has beside its tag: u + t."""

MAX_BUFFER_WORDS = protocol.MAX_BUFFER_WORDS
"""How many buffer registers a receive has beside its acceptor."""

MAX_STRING_BYTES = protocol.MAX_STRING_BYTES
"""How many bytes the strings of a message have together at most."""

MAX_LABEL = (1 << protocol.MAX_LABEL_BITS) - 1
"""The greatest label."""

LONGEST_PERIOD = protocol.MAX_PERIOD
"""The longest period in microseconds: some 25 days."""

NEVER = 0
"""The period without an end."""

ZERO_TIME = 0x400
"""The period of zero time."""


class ThreadId(int):
    """A thread id: a word of 64 bits, the version in bits 0 to 31 and the number in bits 32 to 63."""

    __slots__ = ()

    def __new__(cls, word: int = 0) -> "ThreadId":
        """The id of a word. A text, as that of ``str(thread)``, is none: `of` makes an id of a number and a version."""
        return int.__new__(cls, word if isinstance(word, int) else arguments.thread_id("word", word))

    @classmethod
    def of(cls, number: int, version: int) -> "ThreadId":
        """The global id of a number and a version: 2.1 is ``ThreadId.of(2, 1)``."""
        number = arguments.integer("number", number, 0, (1 << 32) - 1)
        return cls(number << 32 | arguments.integer("version", version, 0, (1 << 32) - 1))

    @property
    def number(self) -> int:
        """The thread number."""
        return self >> 32

    @property
    def version(self) -> int:
        """The version: 1 for the first thread of a number, and greater for each later one."""
        return self & 0xFFFF_FFFF

    def __str__(self) -> str:
        special = {0: "nilthread", WORD_LIMIT - 1: "anythread", WORD_LIMIT - 64: "anylocalthread"}
        return special.get(int(self), f"{self.number}.{self.version}")

    def __repr__(self) -> str:
        return f"ThreadId.of({self.number}, {self.version})"


NILTHREAD = ThreadId(0)
"""No thread."""

ANYTHREAD = ThreadId(WORD_LIMIT - 1)
"""As the FromSpecifier of a receive: any thread."""

ANYLOCALTHREAD = ThreadId(WORD_LIMIT - 64)
"""As the FromSpecifier of a receive: any thread of the own space."""


def period(seconds: Optional[float], name: str = "seconds") -> int:
    """The word of a period of so many seconds.

    ``None`` is never, and 0 is zero time. Else it is the shortest period that is not shorter. From 2,196,875.771905 seconds on, which is
    more than the longest period, it is never. ``name`` is what an error calls it.
    """
    if seconds is None:
        return NEVER
    seconds = arguments.seconds(name, seconds)
    if seconds == 0:
        return ZERO_TIME
    if math.isinf(seconds):
        return NEVER
    # what is less than a nanosecond comes from the spelling of the number in bits, and is no time
    microseconds = math.ceil(round(seconds * 1_000_000, 3))
    if microseconds == 0:
        return ZERO_TIME
    if microseconds > LONGEST_PERIOD:
        return NEVER
    exponent, mantissa = 0, microseconds
    while mantissa > 1023:
        mantissa = (mantissa + 1) // 2
        exponent += 1
    return exponent << 10 | mantissa


def seconds_of(word: int) -> Optional[float]:
    """How many seconds a period is worth; ``None`` for never."""
    if not 0 <= word < 0x8000:
        raise ValueError(f"{word:#x} is no period")
    if word == NEVER:
        return None
    return ((word & 0x3FF) << (word >> 10)) / 1_000_000


def timeouts(send: Optional[float], receive: Optional[float], send_name: str = "send_timeout", receive_name: str = "receive_timeout") -> int:
    """The word of 32 bits that has the two timeouts of a call, each in seconds. The names are what an error calls them."""
    return period(send, send_name) << 16 | period(receive, receive_name)
