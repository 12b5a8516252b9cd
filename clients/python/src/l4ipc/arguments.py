"""What is said of a wrong argument: a TypeError or a ValueError that begins with the argument's name. Nothing was sent then."""

import math
import operator
from typing import Callable, Optional, Sequence, TypeVar

_Number = TypeVar("_Number", int, float)

_MOST_SHOWN = 60
_NEVER_FROM = 1e9  # seconds, which are 31 years: the system's own waits take no more than some such number


def wanted(name: str, what: str, value: object) -> TypeError:
    """A value of another type than what is wanted."""
    return TypeError(f"{name}: {what} wanted, and not {shown(value)} ({type(value).__name__})")


def shown(value: object) -> str:
    """A value as a text that is not long."""
    text = repr(value)
    return text if len(text) <= _MOST_SHOWN else f"{text[:_MOST_SHOWN]}.."


def integer(name: str, value: object, least: int, most: int, what: str = "an int is") -> int:
    """An integer within bounds."""
    try:
        number = operator.index(value)  # type: ignore[arg-type]
    except TypeError:
        raise wanted(name, what, value) from None
    if not least <= number <= most:
        raise ValueError(f"{name}: {number} is not from {least} to {most}")
    return number


def thread_id(name: str, value: object) -> int:
    """The word of a thread id."""
    return integer(name, value, 0, (1 << 64) - 1, "a thread id, as ThreadId.of(2, 1), is")


def nobody(name: str, value: object, partner: str) -> Exception:
    """What is said of a value that is false, where the partner of a phase is wanted: nilthread is none, and its message would go nowhere."""
    thread_id(name, value)
    return ValueError(f"{name}: nilthread is no {partner}")


def thread_or_nobody(name: str, value: object) -> int:
    """The word of a thread id that has a number and a version, as `ThreadId.of` makes it, or nilthread: a bare number is none."""
    word = thread_id(name, value)
    if word and not (word >> 32 and word & 0xFFFF_FFFF):
        raise wanted(name, f"a thread id, as ThreadId.of({word & 0xFFFF_FFFF or word >> 32}, 1), is", value)
    return word


def seconds(name: str, value: object) -> float:
    """A number of seconds that is not negative."""
    if isinstance(value, (str, bytes, bytearray)) or not hasattr(value, "__float__"):
        raise wanted(name, "a number of seconds, or None for never, is", value)
    try:
        number = float(value)
    except OverflowError:
        raise ValueError(f"{name}: {shown(value)} seconds are no period") from None
    if math.isnan(number) or number < 0:
        raise ValueError(f"{name}: {shown(value)} seconds are no period")
    return number


def seconds_or_none(name: str, value: object) -> Optional[float]:
    """A number of seconds, or ``None`` for never, which infinity and more than 31 years are, too."""
    number = None if value is None else seconds(name, value)
    return None if number is None or number > _NEVER_FROM else number


def sequence(name: str, value: object, of_what: str) -> Sequence[object]:
    """A list, a tuple, or another sequence that is not one of bytes or characters."""
    if isinstance(value, (str, bytes, bytearray, memoryview)) or not (hasattr(value, "__len__") and hasattr(value, "__iter__")):
        raise wanted(name, f"a sequence of {of_what} is", value)
    return value  # type: ignore[return-value]


def function(name: str, value: object) -> Callable[..., object]:
    """Something that can be called."""
    if not callable(value):
        raise wanted(name, "a function is", value)
    return value
