"""A thread: a connection to l4d, and the calls of the manual over it."""

import os
import socket
import threading
import time
from dataclasses import replace
from typing import NoReturn, Optional, Sequence, Type, TypeVar, Union

from . import arguments, calls, connecting, frames, serving
from .caller import ANSWERED, CALLED, SENT_TO, Caller
from .calls import NO_MESSAGE
from .errors import RECEIVE, BadFrame, Closed, L4Error, Timeout, is_foreign
from .exchanging import Exchanged, exchange_frame, exchanged
from .message import NO_BUFFERS, Buffer, Message, Received
from .names import is_name
from .serving import Answering, Telling
from .steps import Ipc, Pause, Ready, Step, Steps
from .words import ANYTHREAD, NILTHREAD, ThreadId, timeouts

LEAST_WAIT = 1.0
"""How many seconds a thread that connects again waits at least, since its number may still be that of its last connection."""

Partner = Union[int, str]
"""A thread id, or a name that the name server knows."""

_Kind = TypeVar("_Kind", frames.Welcome, frames.Outcome, frames.Exchanged)
_Result = TypeVar("_Result")
_MOST_READ = 65_536
_FIRST_READ = 4_096
_ANSWER_AT_ONCE = timeouts(0, None)
# The server has ended the thread; what it said of that is still to be read.
_ENDED_BY_THE_SERVER = (BrokenPipeError, ConnectionResetError)


class Thread(Caller):
    """A thread of l4d: one connection, which is live until it is closed.

    ``directory`` is the folder of the server, ``number`` the thread number that is asked for (1 to 1,023), ``space`` the space whose path is
    connected to. ``id`` is the thread's id. As a context manager it says BYE at the end.

    ``wait_for`` is how many seconds to wait for a server that is not there yet, or where the number is still that of another thread;
    ``None`` is never. ``connect_timeout`` is how many seconds a server that is there may take for its answer. Where it cannot connect it
    raises an ``OSError`` that names the path: ``FileNotFoundError``, ``ConnectionRefusedError``, ``PermissionError``, ``TimeoutError``.

    With ``reconnect`` it connects again where the connection has ended, as l4d was started again. The call that was open fails with
    `Closed`, and is not made again; the next one connects first, for which it waits ``wait_for`` seconds, and registers the names of the
    thread again. The thread may then have another ``id``; ``lives`` counts its connections.

    ``version`` is that of the wire, from 1 on. From version 2 on the server tells of each call its number and the moment at which it was over, in
    microseconds since the server began; in version 1 these are ``None``. A server that has version 1 alone raises `Fault` F3: connect again.
    ``last_call`` is the number of the Ipc that was over last, and ``last_moment`` the moment of the last answer to an Ipc or an
    ExchangeRegisters: also for `send` and `sleep`, which answer nothing. ``last_told`` has all that the version tells of that Ipc.

    One call is open at a time. A call that is interrupted, as by KeyboardInterrupt, closes the thread, since its answer would be taken for
    that of the next call. Timeouts are in seconds: ``None`` is never, 0 is zero time, and each other one is the shortest period that
    is not shorter. Where a call has a partner, that is a thread id, or a name that the name server knows.
    """

    def __init__(
        self,
        directory: Union[str, "os.PathLike[str]"],
        number: int,
        space: int = 1,
        version: int = 1,
        wait_for: Optional[float] = 0,
        connect_timeout: Optional[float] = 10,
        reconnect: bool = False,
    ) -> None:
        place = connecting.place_of(directory, number, space, version, wait_for, connect_timeout)
        self._begin(place, *connecting.connect(place), reconnect)

    @classmethod
    def over(cls, connection: socket.socket, number: int, version: int = 1) -> "Thread":
        """A thread over a connection that is there, and on which nothing was said yet."""
        thread = cls.__new__(cls)
        thread._begin(connecting.Place("", number, version), connection, NILTHREAD, False)
        try:
            thread.id = thread._ask(frames.hello(number, version), frames.Welcome).thread
        except BaseException:
            thread._close()
            raise
        return thread

    def _begin(self, place: connecting.Place, connection: socket.socket, own: ThreadId, reconnect: bool) -> None:
        super().__init__(place, reconnect)
        self._connection = connection
        self._begun: Optional[calls.Call] = None
        self._call = threading.Lock()
        self._connected_as(own)

    def __enter__(self) -> "Thread":
        return self

    def __exit__(self, *_: object) -> None:
        self.close()

    def close(self) -> None:
        """Says BYE, and ends the thread. A closed thread stays closed.

        It waits for the server to end the thread, so that its number is free then: at most a second.
        """
        is_there = not self._is_closed and not self._is_lost
        self._is_closed = True
        self.is_ended_here = self.is_ended_here or is_there
        if self._begun is not None:  # nobody finishes it any more
            self._begun = None
            self._call.release()
        try:
            if is_there:
                connecting.end_thread(self._connection)
        finally:
            self._connection.close()

    def _close(self) -> None:
        self._lose()
        self._connection.close()

    # The calls of the manual.

    def send(self, to: Partner, message: Message = NO_MESSAGE, timeout: Optional[float] = None, wait_for: Optional[float] = 0) -> None:
        """L4_Send: sends a message, and waits so long for the receiver to take it.

        ``wait_for`` is how many seconds to wait for a receiver that is not there yet, before that; ``None`` is never.
        """
        times = 0 if timeout is None else timeouts(timeout, None, "timeout")
        if wait_for == 0 and not isinstance(to, str):
            if not to:
                raise arguments.nobody("to", to, SENT_TO)
            self._ipc(to, NILTHREAD, message, times)
        else:
            self.run(self._once_there(wait_for, to, False, message, times))

    def receive(self, sender: int, timeout: Optional[float] = None, buffers: Sequence[Buffer] = ()) -> Received:
        """L4_Receive: receives from one thread (a closed receive), from `ANYTHREAD`, or from `ANYLOCALTHREAD`.

        The k-th string goes to the k-th buffer. Without buffers no strings are accepted: a message that has some fails with `Overflow`.
        """
        if sender.__class__ is not ThreadId and not arguments.thread_id("sender", sender) or not sender:
            raise ValueError("sender: nilthread is no thread to receive from")
        times = 0 if timeout is None else timeouts(None, timeout, receive_name="timeout")
        return self._message(self._ipc(NILTHREAD, sender, NO_MESSAGE, times, buffers))

    def wait(self, timeout: Optional[float] = None, buffers: Sequence[Buffer] = ()) -> Received:
        """L4_Wait: receives from any thread."""
        return self.receive(ANYTHREAD, timeout, buffers)

    def call(
        self,
        to: Partner,
        message: Message = NO_MESSAGE,
        send_timeout: Optional[float] = None,
        receive_timeout: Optional[float] = None,
        buffers: Sequence[Buffer] = (),
        wait_for: Optional[float] = 0,
    ) -> Received:
        """L4_Call: sends a message, and receives the answer of that thread alone.

        ``wait_for`` is how many seconds to wait for a partner that is not there yet, before that; ``None`` is never. A name is looked up
        within them; without them each phase of the look up has 2 seconds. Then `Unanswered` says which name server did not answer.
        """
        times = 0 if send_timeout is None and receive_timeout is None else timeouts(send_timeout, receive_timeout)
        if wait_for == 0 and not isinstance(to, str):
            if not to:
                raise arguments.nobody("to", to, CALLED)
            return self._ipc(to, to, message, times, buffers) or self._message(None)
        return self._message(self.run(self._once_there(wait_for, to, True, message, times, buffers)))

    def reply_wait(
        self,
        to: int,
        message: Message = NO_MESSAGE,
        timeout: Optional[float] = None,
        buffers: Sequence[Buffer] = (),
    ) -> Received:
        """L4_ReplyWait: answers a thread that waits for it, with zero time, and then receives from any thread.

        Where the answer fails, the exception has the phase ``"send"``, and nothing was received: `wait` then.
        """
        times = _ANSWER_AT_ONCE if timeout is None else timeouts(0, timeout, receive_name="timeout")
        if not to:
            raise arguments.nobody("to", to, ANSWERED)
        return self._ipc(to, ANYTHREAD, message, times, buffers, True) or self._message(None)

    def serve(self, function: Answering, buffers: Sequence[Buffer] = (), tell: Telling = serving.log) -> None:
        """The loop of a server: answers each message that comes by what the function returns for it, a `Message`, or ``None`` for no answer.

        No client ends it. What could not be received or answered is told, by ``tell(error, request)``, and the next message is waited for:
        strings that do not fit the buffers, a client that has ended, or that does not wait for its answer. Where the function raises an
        exception, that is told, and its client is answered by an empty message with the label `FUNCTION_FAILED`. Names that the thread has
        registered it registers again every five seconds, so that a name server that was started again knows them.

        It returns once the connection has ended, as l4d ends, and tells that, too; a thread with ``reconnect`` waits for l4d instead, and
        goes on. Without ``tell`` the logger ``l4ipc`` tells.
        """
        self.run(serving.Loop(self, function, buffers, tell).run())

    def sleep(self, seconds: Optional[float]) -> None:
        """L4_Sleep: a closed receive from the thread itself, which ends by its timeout."""
        times = timeouts(None, seconds, receive_name="seconds")
        self._ready()
        try:
            self._ipc(NILTHREAD, self.id, NO_MESSAGE, times, (), True)
        except Timeout as end:
            if end.phase != RECEIVE:
                raise

    def exchange_registers(self, dest: int, send: bool = False, receive: bool = False) -> Optional[Exchanged]:
        """L4_ExchangeRegisters: cancels the send phase or the receive phase of a thread of the own space.

        ``send`` is the bit S and ``receive`` the bit R of the control: which phase is cancelled. A transfer is aborted by the bit of
        the side that ``dest`` has in it. It answers in which phase the thread was, or ``None`` where it is not a live thread of the own space.
        """
        frame = exchange_frame(dest, send, receive)
        self._ready()
        answer = self._ask(frame, frames.Exchanged)
        self.last_moment = answer.moment
        return exchanged(answer)

    def ipc(
        self,
        to: int,
        from_specifier: int,
        message: Message = NO_MESSAGE,
        send_timeout: Optional[float] = None,
        receive_timeout: Optional[float] = None,
        buffers: Sequence[Buffer] = (),
    ) -> Optional[Received]:
        """L4_Ipc: a send phase unless ``to`` is nilthread, then a receive phase unless ``from_specifier`` is nilthread.

        It answers the message, or ``None`` where there is no receive phase.
        """
        return self._ipc(to, from_specifier, message, calls.times_of(send_timeout, receive_timeout), buffers)

    # A call that was begun, for programs that wait for other things, too.

    def fileno(self) -> int:
        """The descriptor of the connection, for poll and select. It is readable once an answer comes, or the connection has ended."""
        return self._connection.fileno()

    def begin_wait(self, timeout: Optional[float] = None, buffers: Sequence[Buffer] = ()) -> None:
        """Begins an L4_Wait, and comes back at once. `finish` answers what it brings; until then the thread makes no other call."""
        times = 0 if timeout is None else timeouts(None, timeout, receive_name="timeout")
        self._begin_call(NILTHREAD, ANYTHREAD, NO_MESSAGE, times, buffers)

    def begin_reply_wait(
        self, to: int, message: Message = NO_MESSAGE, timeout: Optional[float] = None, buffers: Sequence[Buffer] = ()
    ) -> None:
        """Begins an L4_ReplyWait, as `begin_wait` does."""
        if not to:
            raise arguments.nobody("to", to, ANSWERED)
        self._begin_call(to, ANYTHREAD, message, timeouts(0, timeout, receive_name="timeout"), buffers, True)

    def begin_call(
        self,
        to: int,
        message: Message = NO_MESSAGE,
        send_timeout: Optional[float] = None,
        receive_timeout: Optional[float] = None,
        buffers: Sequence[Buffer] = (),
    ) -> None:
        """Begins an L4_Call, as `begin_wait` does."""
        if isinstance(to, str) and is_name(to):
            raise TypeError(f"to: begin_call takes no name, as {arguments.shown(to)} is: Names(thread).lookup finds the thread id that it takes")
        if not to:
            raise arguments.nobody("to", to, CALLED)
        self._begin_call(to, to, message, calls.times_of(send_timeout, receive_timeout), buffers)

    def is_over(self) -> bool:
        """Whether the call that was begun is over, so that `finish` does not wait. It takes what has arrived of the answer, and does not wait.

        It is over, too, where the connection has ended: `finish` raises that.
        """
        if self._begun is None:
            raise self._no_call()
        try:
            while self._arrived() is None:
                more = self._connection.recv(_MOST_READ, socket.MSG_DONTWAIT)
                if not more:
                    return True
                self._taken += more
        except BlockingIOError:
            return False
        except (OSError, BadFrame):
            return True
        return True

    def finish(self) -> Optional[Received]:
        """What the call that was begun has brought: a message, or an exception. It waits until the call is over."""
        call, self._begun = self._begun, None
        if call is None:
            raise self._no_call()
        self._call.release()
        return self._result(call, self._ask(b"", frames.Outcome))

    def _no_call(self) -> Exception:
        """Why there is no call that was begun."""
        return self._no_call_is_made() if self._is_closed else RuntimeError("no call was begun")

    def _begin_call(
        self, to: int, from_specifier: int, message: Message, times: int, buffers: Sequence[Buffer], same_life: bool = False
    ) -> None:
        call = calls.call(self.id, to, from_specifier, message, times, buffers)
        self._ready(same_life)
        if not self._call.acquire(False):
            raise RuntimeError("another call of this thread is open")
        try:
            self._say(call.frame)
        except BaseException:
            self._close()
            self._call.release()
            raise
        self._begun = call

    # How a call is made.

    def run(self, steps: Steps[_Result]) -> _Result:
        """Does what takes several calls, step by step."""
        try:
            step = next(steps)
            while True:
                try:
                    came = self._ipc(*step) if step.__class__ is Ipc else self._do(step)
                except BaseException as error:
                    step = steps.throw(error)
                else:
                    step = steps.send(came)
        except StopIteration as done:
            result: _Result = done.value
            return result

    def _do(self, step: Step) -> object:
        """A step that is no Ipc."""
        if isinstance(step, Pause):
            time.sleep(step.seconds)
        elif isinstance(step, Ready):
            self._ready()
        else:
            self._connect_again(None)
        return None

    def _ipc(
        self, to: int, from_specifier: int, message: Message, times: int, buffers: Sequence[Buffer] = (), same_life: bool = False
    ) -> Optional[Received]:
        if self.reconnects:
            self._ready(same_life)
        frame = None
        if message.__class__ is Message and to and from_specifier and not buffers:
            frame = calls.plain_frame(to, from_specifier, message, times)
        if frame is None:
            call = calls.call(self.id, to, from_specifier, message, times, buffers)
            return self._result(call, self._ask(call.frame, frames.Outcome))
        came = self._over(frame, self.version == 1)
        if came.__class__ is Received:
            if self.kept.owing and from_specifier == to:
                self._has_answered(to)
            return came  # type: ignore[return-value]
        call = calls.Call(self.id, to, from_specifier, message, NO_BUFFERS, frame)
        return self._result(call, self._of_kind(came, frames.Outcome))

    def _result(self, call: calls.Call, outcome: frames.Outcome) -> Optional[Received]:
        try:
            return self._read(call, outcome)
        except BadFrame as error:
            self._fail(error)

    # The connection.

    def _ready(self, same_life: bool = False) -> None:
        """The thread is connected: again, where the connection has ended and that is asked for. Nothing was sent yet.

        What goes to a partner that is known by the same connection fails where that has ended.
        """
        if self._is_closed:
            raise self._no_call_is_made()
        if not self.reconnects or self.kept.is_busy or self._begun is not None:
            return
        if self._is_lost or self._has_ended():
            if same_life:
                self._close()
                raise self._partner_is_lost()
            try:
                self._connect_again(self._place.wait_for)
            except OSError as error:
                if is_foreign(error):
                    raise
                raise Closed(f"{self!r}: {error}") from error
        if self.kept.is_due():
            try:
                self.run(self._keeper.keep())
            except Closed:
                raise
            except L4Error as error:
                serving.log(error, None)

    def _has_ended(self) -> bool:
        """Whether the connection has ended since the last call."""
        try:
            return not self._connection.recv(1, socket.MSG_PEEK | socket.MSG_DONTWAIT)
        except BlockingIOError:
            return False
        except OSError:
            return True

    def _connect_again(self, wait_for: Optional[float]) -> None:
        self._close()
        seconds = None if wait_for is None else max(wait_for, LEAST_WAIT)
        self._connection, own = connecting.connect(replace(self._place, wait_for=seconds), self._stays_closed)
        self._connected_as(own)
        if self._is_closed:  # meanwhile, by another thread of this process
            connecting.end_thread(self._connection)
            self._connection.close()
        self._stays_closed()

    def _ask(self, frame: bytes, kind: Type[_Kind]) -> _Kind:
        """Sends a frame, and answers the next one, which has to be of this kind."""
        return self._of_kind(self._over(frame), kind)

    def _over(self, frame: bytes, is_plain: bool = False) -> Union[Received, frames.Answer]:
        """Sends a frame, and answers the next one. Where the call is plain and its outcome, too, that is the message itself: the fast way."""
        if not self._call.acquire(False):
            raise RuntimeError("another call of this thread is open")
        try:
            if self._is_closed:
                raise self._no_call_is_made()
            if not is_plain or self._taken:
                self._say(frame)
                return self._hear()
            connection = self._connection
            try:
                connection.sendall(frame)
            except _ENDED_BY_THE_SERVER:
                pass
            data = connection.recv(_FIRST_READ)
            received = frames.plain_received(data)
            if received is not None:
                return received
            if not data:
                raise EOFError
            self._taken = data
            return self._hear()
        except BaseException as error:
            if not isinstance(error, Exception) or is_foreign(error):
                self._lose_by("a call that was interrupted has closed it")
            elif isinstance(error, (OSError, EOFError)):
                self._close()
                raise self._end_of_call() from (None if isinstance(error, EOFError) or self.is_ended_here else error)
            self._close()
            raise
        finally:
            self._call.release()

    def _of_kind(self, answer: Union[Received, frames.Answer], kind: Type[_Kind]) -> _Kind:
        """The answer, which has to be of this kind."""
        if isinstance(answer, kind):
            return answer
        error = connecting.error_of(answer, repr(self))
        if isinstance(answer, frames.Refusal):
            raise error
        self._fail(error)

    def _fail(self, error: L4Error) -> NoReturn:
        self._close()
        raise error

    def _exchange(self, frame: bytes) -> frames.Answer:
        self._say(frame)
        return self._hear()

    def _say(self, frame: bytes) -> None:
        try:
            self._connection.sendall(frame)
        except _ENDED_BY_THE_SERVER:
            pass

    def _hear(self) -> frames.Answer:
        """The next frame, which is waited for."""
        end = self._arrived()
        while end is None:
            more = self._connection.recv(_MOST_READ)
            if not more:
                raise EOFError
            self._taken += more
            end = self._arrived()
        return self._frame_until(end)
