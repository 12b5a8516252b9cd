"""ExchangeRegisters: what is asked for, and what its answer says."""

from typing import Optional

from . import arguments, frames
from .words import ThreadId

CANCEL_RECEIVE = 0x2
"""R of the control of ExchangeRegisters."""

CANCEL_SEND = 0x4
"""S of the control of ExchangeRegisters."""


class Exchanged:
    """What ExchangeRegisters answers: the thread, and in which phase it was; and when, in version 2 of the wire."""

    __slots__ = ("thread", "was_sending", "was_receiving", "moment")

    def __init__(self, thread: ThreadId, was_sending: bool, was_receiving: bool, moment: Optional[int] = None) -> None:
        self.thread = thread
        self.was_sending = was_sending
        self.was_receiving = was_receiving
        self.moment = moment

    def __repr__(self) -> str:
        return f"Exchanged({self.thread}, was_sending={self.was_sending}, was_receiving={self.was_receiving})"


def exchange_frame(dest: int, send: bool, receive: bool) -> bytes:
    """The frame of ExchangeRegisters."""
    for name, bit in (("send", send), ("receive", receive)):
        if not isinstance(bit, bool):
            raise arguments.wanted(name, "True or False is", bit)
    control = (CANCEL_SEND if send else 0) | (CANCEL_RECEIVE if receive else 0)
    return frames.exreg(arguments.thread_id("dest", dest), control)


def exchanged(answer: frames.Exchanged) -> Optional[Exchanged]:
    """What the answer of ExchangeRegisters says."""
    if answer.code:
        return None
    return Exchanged(answer.result, bool(answer.control & CANCEL_SEND), bool(answer.control & CANCEL_RECEIVE), answer.moment)
