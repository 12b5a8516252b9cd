"""What a thread knows of itself, whether its calls block or are coroutines."""

import os
import socket
import weakref
from typing import Optional, Union

from . import arguments, calls, frames
from .connecting import Place
from .errors import Cancelled, Closed, Timeout
from .message import Message, Received
from .names import Book, Kept, is_name, name_bytes
from .protocol import NOTHING_TOLD, Told
from .steps import Ipc, Steps, until_there
from .words import NILTHREAD, ThreadId

NAMES_TIMEOUT = 2.0
"""How many seconds a thread gives the name server for each phase, where it looks a name up for a call. A call that waits looks up again after it."""

KEEPING_TIMEOUT = 0.25
"""The same where it registers its names again: a name server that is stopped keeps a server from its clients no longer."""


SENT_TO, CALLED, ANSWERED = "partner of a send", "partner of a call", "thread to answer: wait receives alone"
"""What nilthread is not."""


# The threads of this process. A child that it forks leaves them to it.
_all: "weakref.WeakSet[Caller]" = weakref.WeakSet()


class Caller:
    """The state of a thread that does not depend on how its calls wait."""

    def __init__(self, place: Place, reconnect: bool) -> None:
        self._place = place
        self.reconnects = reconnect
        self.id = NILTHREAD
        self.version = place.version
        self.lives = 0
        self.last_told = NOTHING_TOLD
        self.last_call: Optional[int] = None
        self.last_moment: Optional[int] = None
        self.kept = Kept()
        self._taken = b""
        self._is_closed = False
        self._is_lost = False
        self._is_of_parent = False
        self._closed_by = ""
        self.is_ended_here = False
        """Whether this process ended the connection, by close."""
        _all.add(self)
        # (no circle: who drops a thread ends its connection at once)
        own = weakref.proxy(self)
        self._book = Book(own, timeout=NAMES_TIMEOUT)
        self._keeper = Book(own, timeout=KEEPING_TIMEOUT)

    def __repr__(self) -> str:
        path = f" at {self._place.path}" if self._place.path else ""
        state = ("of the process that forked: connect in the child" if self._is_of_parent else "closed" if self._is_closed else "not connected" if self._is_lost
                 else "")
        return f"<Thread {self.id}{path}{state and f', {state}'}>"

    @property
    def is_closed(self) -> bool:
        """Whether the connection has ended, as far as it is known here, and is not made again."""
        return self._is_closed

    def _no_call_is_made(self) -> Closed:
        """What a call of a thread raises that is closed, or not connected."""
        return Closed(f"{self!r}: no call is made{self._closed_by and f': {self._closed_by}'}")

    def _end_of_call(self) -> Closed:
        """What a call raises that was open when the connection ended."""
        cause = "this process closed it" if self.is_ended_here else "the connection has ended, with l4d or by it"
        return Closed(f"{self!r}: {cause}")

    def _partner_is_lost(self) -> Closed:
        """What a call raises whose partner was known by the connection that has ended: the id is that of any thread of another l4d."""
        error = Closed(f"{self!r}: the connection has ended over which its partner was known; nothing was sent")
        error.partner_is_lost = True
        return error

    def _connected_as(self, own: ThreadId) -> None:
        """A connection is there, whose thread has this id."""
        if self.lives:  # who was chosen over the last one is any thread over this one
            self.kept.chosen = None
        self.id = own
        self.lives += 1
        self._taken = b""
        self._is_lost = False
        self.kept.restart()

    def _leave_to_parent(self) -> None:
        """This process is a forked child. The connection is its parent's, and goes on there: nothing is said over it here."""
        connection: Optional[socket.socket] = getattr(self, "_connection", None)
        if connection is None or self._is_closed:
            return
        self._is_of_parent = self._is_closed = self._is_lost = True
        connection.close()

    def _lose(self) -> None:
        """The connection has ended. A thread that connects again is not closed by that."""
        self._is_lost = True
        self._is_closed = self._is_closed or not self.reconnects

    def _lose_by(self, cause: str) -> None:
        """The same, by what is told later, unless the thread was closed before, or connects again."""
        was_closed = self._is_closed
        self._lose()
        if self._is_closed and not was_closed:
            self._closed_by = cause

    def _stays_closed(self) -> None:
        """A thread that was closed while it waited for l4d does not connect any more."""
        if self._is_closed:
            raise Closed(f"{self!r}: it was closed while it waited for l4d")

    def _read(self, call: calls.Call, outcome: frames.Outcome) -> Optional[Received]:
        """What a call has brought."""
        self._tells(outcome.told)
        try:
            received = call.result(outcome)
        except (Timeout, Cancelled) as error:
            if error.delivered and error.partner == call.to:
                self.kept.owing[call.to] = self.kept.owing.get(call.to, 0) + 1  # its answer may come to any receive
            raise
        if self.kept.owing and call.from_specifier == call.to:
            self._has_answered(call.to)
        return received

    def _has_answered(self, partner: int) -> None:
        """A call of this partner was answered: what it was asked before it has done with."""
        self.kept.owing.pop(partner, None)

    def _tells(self, told: Told) -> None:
        """What was told of the last call."""
        self.last_told = told
        self.last_call, self.last_moment = told.call, told.moment

    def _arrived(self) -> Optional[int]:
        """Where the next frame ends, if it has arrived whole. What its first bytes say is looked at before more is waited for."""
        taken = self._taken
        if len(taken) < 4:
            return None
        end = 4 + frames.body_length(taken)
        if len(taken) > 4:
            frames.check_kind(taken[4], end - 4, self.version)
        return end if len(taken) >= end else None

    def _frame_until(self, end: int) -> frames.Answer:
        """The frame that has arrived."""
        body, self._taken = self._taken[4:end], self._taken[end:]
        return frames.read(body, self.version)

    def _once_there(
        self, wait_for: Optional[float], to: Union[int, str], is_call: bool, message: Message, times: int, buffers: calls.Buffers = ()
    ) -> Steps[Optional[Received]]:
        """A call of a partner that may not be there yet, or that is given by its name."""
        step = Ipc(NILTHREAD, NILTHREAD, message, times, buffers)
        if isinstance(to, str):
            if not is_name(to):
                raise arguments.wanted("to", "a thread id, as ThreadId.of(2, 1), is", to)
            name_bytes(to, "to")
            return self._book.call(to, step, is_call, wait_for)
        if not to:
            raise arguments.nobody("to", to, CALLED if is_call else SENT_TO)
        return until_there(step._replace(to=to, from_specifier=to if is_call else NILTHREAD), wait_for)

    def _message(self, received: Optional[Received]) -> Received:
        if received is None:
            raise ValueError(f"to: nilthread is no {CALLED}")
        return received


def _leave_all_to_parent() -> None:
    for thread in list(_all):
        thread._leave_to_parent()


if hasattr(os, "register_at_fork"):
    os.register_at_fork(after_in_child=_leave_all_to_parent)
