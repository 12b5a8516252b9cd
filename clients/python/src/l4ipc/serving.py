"""The loop of a server: it answers each message, tells what it could not answer, and goes on."""

import logging
import time
from contextlib import suppress
from inspect import iscoroutinefunction
from typing import TYPE_CHECKING, Callable, Dict, Optional, Sequence, Tuple

from . import arguments, steps
from .calls import NO_MESSAGE
from .errors import RECEIVE, SEND, Closed, IpcError, L4Error, LateAnswer, Refused, Timeout
from .message import Buffer, BufferStrings, Message, Received
from .names import AGAIN_AFTER, KEPT_FOR, NUMBER
from .steps import Answer, ConnectAgain, Pause, Steps
from .words import ANYTHREAD, MAX_LABEL, NILTHREAD, timeouts

if TYPE_CHECKING:
    from .caller import Caller

Answering = Callable[[Received], Optional[Message]]
"""What a server does with a message: it returns the answer, or ``None`` for no answer."""

Telling = Callable[[Exception, Optional[Received]], None]
"""What a server is told of: what went wrong, and the message that was not answered; ``None`` where none came."""

FUNCTION_FAILED = MAX_LABEL
"""The label of the empty answer to a message whose function raised an exception: 48 ones."""

_FAILED = Message(FUNCTION_FAILED)

ANSWERS = 4_000
"""After how many answers a server pauses before it waits again: for two servers that answer each other's answers."""

LEAST_PAUSE, LONGEST_TURN = 0.001, 0.05
"""How many seconds such a pause has at least, and how long the other one may take for an answer that the pause is to outlast."""

QUIET = 1.0
"""For how many seconds the logger is told no more of errors of one kind."""

NO_MEMORY, NO_ROOM = 4, 5
"""The refusals K4 and K5, which pass as memory comes free."""

# The timeouts of a server's calls: its answer has zero time, and it waits for the next message without an end, or while its names are good.
_ANSWER_AT_ONCE, _NEVER, _KEPT_FOR, _AGAIN_AFTER = timeouts(0, None), 0, timeouts(None, KEPT_FOR), timeouts(None, AGAIN_AFTER)

_log = logging.getLogger("l4ipc")
_step = tuple.__new__


def log(error: Exception, request: Optional[Received]) -> None:
    """Tells by the logger ``l4ipc``, which prints warnings on standard error unless the program says otherwise."""
    kept_name = getattr(error, "kept_name", None)
    if request is None and kept_name is not None:
        _log.warning("l4ipc: the name %s could not be registered again, and is tried again: %s", kept_name, error)
    elif request is None or isinstance(error, LateAnswer):
        _log.warning("l4ipc: %s", error)
    elif isinstance(error, L4Error) and error.is_of_answer:
        _log.warning("l4ipc: %s was not answered: %s", request.sender, error)
    else:
        _log.error("l4ipc: the message of %s failed the server's function", request.sender, exc_info=error)


class _Logger:
    """Tells by `log`, of errors of one kind one a second, and with the next one how many were left out: no client fills a disk."""

    def __init__(self) -> None:
        self._quiet: Dict[Tuple[type, bool, bool], Tuple[float, int]] = {}

    def __call__(self, error: Exception, request: Optional[Received]) -> None:
        if getattr(error, "kept_name", None) is not None:  # (which is told once)
            return log(error, request)
        kind, now = (type(error), request is None, isinstance(error, L4Error) and error.is_of_answer), time.monotonic()
        until, left_out = self._quiet.get(kind, (now, 0))
        if now < until:
            self._quiet[kind] = until, left_out + 1
            return None
        self._quiet[kind] = now + QUIET, 0
        log(error, request)
        return self._tell_left_out(left_out, "like it")

    def end(self) -> None:
        """Tells what was left out behind the last lines."""
        for (error, *_), (_, left_out) in self._quiet.items():
            self._tell_left_out(left_out, f"of {error.__name__}")
        self._quiet.clear()

    @staticmethod
    def _tell_left_out(left_out: int, which: str) -> None:
        if left_out:
            _log.warning("l4ipc: %d more %s were left out", left_out, which)


def check_arguments(function: object, buffers: Sequence[Buffer], tell: object) -> None:
    """Looks at the arguments of a server before the first call, so that what is wrong later is an answer."""
    arguments.function("function", function)
    arguments.function("tell", tell)
    BufferStrings(buffers)


class Loop:
    """A server's loop: the message that is to be answered, and its answer; ``None`` where there is none.

    Where the driver ``awaits`` what the function returns, finding an answer is a step of its own; else the loop calls the function.
    """

    def __init__(self, thread: "Caller", function: Answering, buffers: Sequence[Buffer], tell: Telling, awaits: bool = False) -> None:
        check_arguments(function, buffers, tell)
        if iscoroutinefunction(function) and not awaits:
            raise TypeError(f"function: {arguments.shown(function)} is a coroutine function, which serve of l4ipc.aio takes")
        self.awaits = awaits
        self.logger = _Logger()
        self.tell: Telling = self.logger if tell is log else tell
        self.thread, self.function, self.buffers = thread, function, buffers
        self.request: Optional[Received] = None
        self.answer: Optional[Message] = None
        self.names_failed = self.is_refused = False
        self.life = thread.lives
        # how many answers were sent since the last pause, when the last of them was, and how many seconds later the next message came
        self.answers, self.answered_at, self.turn = 0, 0.0, 0.0

    def run(self) -> Steps[None]:
        """Serves until the connection has ended, and is not made again."""
        try:
            yield from self.lives()
        finally:
            self.logger.end()

    def lives(self) -> Steps[None]:
        """The same, over one connection after another."""
        while True:
            try:
                yield from self.turns()
            except Closed as end:
                if not self.thread.is_ended_here:
                    self.tell(end, None)
                if not self.thread.reconnects or self.thread.is_closed:
                    return
                self.request = None
                try:
                    yield ConnectAgain()
                except Closed:  # the thread was closed meanwhile
                    return

    def turns(self) -> Steps[None]:
        """Answers a message, waits for the next one, and has the function find its answer, again and again."""
        kept, function, awaits = self.thread.kept, self.function, self.awaits
        while True:
            if kept.names and kept.is_due():
                yield from self.keep_names()
            answered, self.request = self.request, None
            try:
                if self.answers >= ANSWERS and answered is not None:
                    yield from self.answer_alone(answered)
                    answered = None
                request: Received = yield self.next_call(answered)
            except (IpcError, Refused, TypeError, ValueError) as error:
                pause = self.failed(error, answered)
                if pause:
                    yield Pause(pause)
                continue
            self.is_refused = False
            if self.answers == ANSWERS:
                self.turn = time.monotonic() - self.answered_at
            if request.label == FUNCTION_FAILED or kept.owing and request.sender in kept.owing:
                self.leave(request)
                continue
            self.request, self.life = request, self.thread.lives
            try:
                self.answer = (yield Answer(function, request)) if awaits else function(request)
            except Exception as error:  # whatever the function does, the next client is served
                self.tell(error, request)
                self.answer = _FAILED
            except GeneratorExit:
                raise
            except BaseException:  # the server is cancelled or interrupted, and who asked waits for no answer of it
                with suppress(L4Error):
                    yield steps.Ipc(request.sender, NILTHREAD, _FAILED, _ANSWER_AT_ONCE, (), True)
                raise

    def leave(self, message: Received) -> None:
        """Leaves out what is no request: what says that another server's function failed, or the answer to a call that was given up. The latter is told,
        and as it may be a request nevertheless its sender gets that label; but a name server asks nothing."""
        if message.label == FUNCTION_FAILED:
            return
        kept, sender = self.thread.kept, message.sender
        kept.owing[sender] -= 1
        if not kept.owing[sender]:
            del kept.owing[sender]
        if sender.number != NUMBER and sender != kept.chosen:
            self.tell(LateAnswer(sender), message)
            self.request, self.answer, self.life = message, _FAILED, self.thread.lives

    def answer_alone(self, answered: Received) -> Steps[None]:
        """Answers, and lets a while pass before the next message is waited for: clients wait meanwhile. Two servers that answer each other's answers,
        as after a message in the name of one, come to an end so: an answer has zero time, and finds nobody who waits for it."""
        self.answers = 0
        call = self.next_call(answered)
        if call.to:
            yield call._replace(from_specifier=NILTHREAD, buffers=())
        yield Pause(LEAST_PAUSE + 2 * self.turn if self.turn < LONGEST_TURN else LEAST_PAUSE)

    def failed(self, error: Exception, answered: Optional[Received]) -> float:
        """Tells that a call failed; how many seconds to wait before the next one. What does not pass is raised."""
        if isinstance(error, L4Error):
            error.is_of_answer = answered is not None
        if isinstance(error, IpcError):
            if not (isinstance(error, Timeout) and error.phase == RECEIVE):
                self.tell(error, answered if error.phase == SEND else None)
            return 0
        if answered is None and not isinstance(error, Refused):
            raise error
        if not isinstance(error, Refused) and not isinstance(self.answer, Message):
            error = arguments.wanted("function", "a Message or None as its answer is", self.answer)
        if not isinstance(error, Refused):  # what the function returned cannot be sent
            self.tell(error, answered)
            self.request, self.answer = answered, _FAILED
            return 0
        if error.number not in (NO_MEMORY, NO_ROOM):
            self.tell(error, answered)
            raise error
        if not self.is_refused:
            self.tell(error, None)
        # nothing of the call was done, so it is made again; for an answer that finds no memory a short one
        self.is_refused, self.request = True, answered
        if error.number == NO_MEMORY:
            self.answer = _FAILED
        return 0.1

    def next_call(self, answered: Optional[Received]) -> steps.Ipc:
        """The call that answers a message, if it gets an answer, and waits for the next one: for a while, where names are to be kept."""
        thread, answer = self.thread, self.answer
        patience = _NEVER if not thread.kept.names else _AGAIN_AFTER if self.names_failed else _KEPT_FOR
        if answered is None or answer is None or self.life != thread.lives:
            return steps.Ipc(NILTHREAD, ANYTHREAD, NO_MESSAGE, patience, self.buffers)
        self.answers += 1
        if self.answers == ANSWERS:
            self.answered_at = time.monotonic()
        return _step(steps.Ipc, (answered.sender, ANYTHREAD, answer, _ANSWER_AT_ONCE | patience, self.buffers, True))

    def keep_names(self) -> Steps[None]:
        """Registers the names of the server again. That it fails is told once."""
        try:
            yield from self.thread._keeper.keep()
            if self.names_failed and self.tell is self.logger:
                _log.warning("l4ipc: registered again: %s", ", ".join(self.thread.kept.names))
            self.names_failed = False
        except Closed:
            raise
        except L4Error as error:
            if not self.names_failed:
                self.tell(error, None)
            self.names_failed = True
