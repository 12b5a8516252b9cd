"""What takes several calls, as steps: a generator yields each step, and is sent what came of it.

So what is done is written once, for threads that block and for coroutines. `run` is the one driver, `aio.run` the other one.
"""

from typing import TYPE_CHECKING, Any, Generator, NamedTuple, Optional, Sequence, TypeVar, Union

from . import arguments
from .calls import NO_MESSAGE
from .errors import SEND, NoPartner
from .message import Buffer, Message, Received
from .waiting import Wait, pauses
from .words import NILTHREAD, timeouts

if TYPE_CHECKING:
    from .serving import Answering

_Result = TypeVar("_Result")

STARTED_AGAIN = "a server that was started again has a later version: its name finds it, or up to version 63 names.live_thread"
"""What helps who waits for a thread that is not there."""


class Ipc(NamedTuple):
    """One Ipc: what came of it is its message.

    Where its partner is known by the connection that is there, as who asked, or who was found by a name, it is of the ``same_life``: it is not
    made over another connection: where a thread that connects again has lost that one it fails with `Closed`, whose ``partner_is_lost`` is true.
    """

    to: int
    from_specifier: int
    message: Message = NO_MESSAGE
    times: int = 0
    buffers: Sequence[Buffer] = ()
    same_life: bool = False


class Pause(NamedTuple):
    """So many seconds pass."""

    seconds: float


class Answer(NamedTuple):
    """What a server's function returns for a message, for a driver that awaits it."""

    function: "Answering"
    request: Received


class Ready(NamedTuple):
    """The thread connects again, where its connection has ended: as before any call."""


class ConnectAgain(NamedTuple):
    """The thread connects again; it waits for l4d without an end."""


Step = Union[Ipc, Pause, Answer, Ready, ConnectAgain]
Steps = Generator[Step, Any, _Result]


def receive(sender: int, timeout: Optional[float], buffers: Sequence[Buffer] = ()) -> Ipc:
    """A receive phase alone."""
    return Ipc(NILTHREAD, sender, NO_MESSAGE, timeouts(None, timeout), buffers)


def until_there(step: Ipc, wait_for: Optional[float]) -> Steps[Optional[Received]]:
    """A call, again and again while its partner is not there: a send phase without a partner has sent nothing."""
    seconds = arguments.seconds_or_none("wait_for", wait_for)
    waiting, wait = pauses(seconds), Wait(seconds)
    while True:
        try:
            received: Optional[Received] = yield step
            wait.is_over(f"{step.to} was there")
            return received
        except NoPartner as missing:
            if missing.phase != SEND:
                raise
            pause = next(waiting, None)
            if pause is None:
                missing.waited = wait_for or None
                raise
            wait.goes_on(f"{missing.partner}", f"no such thread: start its program; {STARTED_AGAIN}")
        yield Pause(pause)
