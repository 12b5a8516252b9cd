"""The same threads for asyncio: each call is a coroutine. One process may have many threads, each with one call open at a time.

A call that is cancelled closes its thread, since its answer would be taken for that of the next call. Where the thread has a ``canceller``,
another thread of the same space, the call is ended by ExchangeRegisters instead, and the thread goes on. A message that has come all the
same is held for the next call that it fits, by its sender and by the buffers. A call that sends gets it only if it then waits for anybody,
once its own message was sent: who waits for a partner wants the answer of that one. For the same reason nothing is held that a call has
brought which sends to a partner and waits for that one.
"""

import asyncio
import os
import socket
from contextlib import contextmanager, suppress
from dataclasses import replace
from inspect import isawaitable
from typing import Any, Awaitable, Callable, Coroutine, Iterator, List, NamedTuple, NoReturn, Optional, Sequence, Tuple, Type, TypeVar, Union

from . import arguments, calls, connecting, frames, serving
from .caller import ANSWERED, CALLED, Caller
from .calls import NO_MESSAGE
from .errors import RECEIVE, BadFrame, Closed, IpcError, L4Error, Timeout
from .exchanging import Exchanged, exchange_frame, exchanged
from .message import Buffer, Message, Received
from .names import book_of, live, live_version
from .serving import Telling
from .steps import Answer, Ipc, Pause, Ready, Step, Steps
from .thread import LEAST_WAIT, Partner
from .waiting import Wait, end_of, left_until, pauses
from .words import ANYLOCALTHREAD, ANYTHREAD, NILTHREAD, ThreadId, timeouts

Answering = Callable[[Received], Union[Optional[Message], Awaitable[Optional[Message]]]]
"""What a server does with a message: a function or a coroutine function that returns the answer, or ``None`` for no answer."""

_Kind = TypeVar("_Kind", frames.Outcome, frames.Exchanged)
_Result = TypeVar("_Result")
_MOST_READ = 65_536


class _Held(NamedTuple):
    """A message that came for a call which was cancelled, and the FromSpecifier of that call. Its strings are copies: the memory that they
    came into is that of the call."""

    received: Received
    from_specifier: int

    def lengths(self) -> List[int]:
        """The lengths of its strings."""
        return [len(string) for string in self.received.strings]

    def fits(self, call: calls.Call) -> bool:
        """Whether a call may have it. One that sends to a partner and waits for one gets the answer to what it sent, and nothing older."""
        is_open = call.from_specifier in (ANYTHREAD, ANYLOCALTHREAD)
        if call.to and not is_open:
            return False
        # whether a sender is of the own space is known of what came for a call that asked for that
        is_from = call.from_specifier in (ANYTHREAD, self.from_specifier, self.received.sender)
        return is_from and call.strings.pieces_of(self.lengths()) is not None

    def into(self, call: calls.Call) -> Received:
        """What this call gets: the strings are in its buffers."""
        return self.received._replace(strings=call.strings.fill(self.lengths(), b"".join(self.received.strings)))


class Thread(Caller):
    """A thread of l4d whose calls are coroutines: ``async with Thread(directory, number) as thread``, or `connect` and `close`.

    Its arguments are those of `l4ipc.Thread`; and ``canceller``, a thread of the same space that ends calls which are cancelled, and makes
    no call of its own meanwhile: where it does, or has ended, the thread is closed as without one.
    """

    def __init__(
        self,
        directory: Union[str, "os.PathLike[str]"],
        number: int,
        space: int = 1,
        version: int = 1,
        wait_for: Optional[float] = 0,
        connect_timeout: Optional[float] = 10,
        reconnect: bool = False,
        canceller: Optional["Thread"] = None,
    ) -> None:
        super().__init__(connecting.place_of(directory, number, space, version, wait_for, connect_timeout), reconnect)
        self._canceller = self._checked(canceller)
        self._connection: Optional[socket.socket] = None
        self._over: Optional[asyncio.Event] = None  # of the call that is open
        self._held: List[_Held] = []
        self._queue: Optional[asyncio.Lock] = None

    def _checked(self, canceller: Optional["Thread"]) -> Optional["Thread"]:
        if canceller is not None and not isinstance(canceller, Thread):
            raise arguments.wanted("canceller", "a thread of coroutines is", canceller)
        if canceller is not None and os.path.realpath(canceller._place.path) != os.path.realpath(self._place.path):
            raise ValueError(f"canceller: {canceller!r} is no thread of the same space")
        return canceller

    def _no_call_is_made(self) -> Closed:
        if self._connection is None and not self._is_closed:
            return Closed(f"{self!r}: no call is made: it was not connected, as async with does, or await thread.connect()")
        return super()._no_call_is_made()

    async def connect(self) -> "Thread":
        """Connects, where it is not connected. A closed thread stays closed."""
        if self._is_closed:
            raise Closed(f"{self!r}: it stays closed: make another one")
        if self._connection is None:
            self._queue = asyncio.Lock()
            await self._connect(self._place)
        return self

    async def __aenter__(self) -> "Thread":
        return await self.connect()

    async def __aexit__(self, *_: object) -> None:
        await self.aclose()

    def close(self) -> None:
        """Says BYE, and ends the thread, as that of `l4ipc.Thread`: all coroutines wait for the server meanwhile. A closed thread stays closed."""
        connection = self._to_be_ended()
        if connection is None:
            return
        try:
            connecting.end_thread(connection)
        finally:
            self._close()

    async def aclose(self) -> None:
        """The same, as the end of ``async with``: other coroutines go on meanwhile. A call that is open raises `Closed`."""
        connection = self._to_be_ended()
        if connection is None:
            return
        try:
            await asyncio.wait_for(self._end_thread(connection), connecting.PATIENCE)
        except (OSError, asyncio.TimeoutError):
            pass
        finally:
            self._close()

    async def _end_thread(self, connection: socket.socket) -> None:
        """Says BYE, and waits until the server has ended the thread, as `connecting.end_thread`. A call that is open reads the connection."""
        connection.send(frames.bye())
        if self._over is not None:
            await self._over.wait()
        while not self._is_lost and await asyncio.get_running_loop().sock_recv(connection, _MOST_READ):
            pass

    def _to_be_ended(self) -> Optional[socket.socket]:
        """The thread is closed from now on. The connection, where that is still to be ended: who asked first does so."""
        is_there = not self._is_closed and not self._is_lost
        self._is_closed = True
        self.is_ended_here = self.is_ended_here or is_there
        return self._connection if is_there else None

    def _close(self) -> None:
        self._lose()
        if self._connection is not None:
            self._drop(self._connection)

    def _drop(self, connection: socket.socket) -> None:
        """Ends a connection. A call that is open over it hears that, and closes it: the loop would tell it nothing of one that is closed."""
        if self._over is None:
            return connection.close()
        with suppress(OSError):
            connection.shutdown(socket.SHUT_RDWR)

    # The calls of the manual, as those of `l4ipc.Thread`.

    async def send(self, to: Partner, message: Message = NO_MESSAGE, timeout: Optional[float] = None, wait_for: Optional[float] = 0) -> None:
        """L4_Send."""
        times = timeouts(timeout, None, "timeout")
        await self.run(self._once_there(wait_for, to, False, message, times))

    async def receive(self, sender: int, timeout: Optional[float] = None, buffers: Sequence[Buffer] = ()) -> Received:
        """L4_Receive."""
        if not arguments.thread_id("sender", sender):
            raise ValueError("sender: nilthread is no thread to receive from")
        times = timeouts(None, timeout, receive_name="timeout")
        return self._message(await self._ipc(NILTHREAD, sender, NO_MESSAGE, times, buffers))

    async def wait(self, timeout: Optional[float] = None, buffers: Sequence[Buffer] = ()) -> Received:
        """L4_Wait."""
        return await self.receive(ANYTHREAD, timeout, buffers)

    async def call(
        self,
        to: Partner,
        message: Message = NO_MESSAGE,
        send_timeout: Optional[float] = None,
        receive_timeout: Optional[float] = None,
        buffers: Sequence[Buffer] = (),
        wait_for: Optional[float] = 0,
    ) -> Received:
        """L4_Call."""
        times = calls.times_of(send_timeout, receive_timeout)
        if wait_for == 0 and not isinstance(to, str):
            if not to:
                raise arguments.nobody("to", to, CALLED)
            return self._message(await self._ipc(to, to, message, times, buffers))
        return self._message(await self.run(self._once_there(wait_for, to, True, message, times, buffers)))

    async def reply_wait(
        self, to: int, message: Message = NO_MESSAGE, timeout: Optional[float] = None, buffers: Sequence[Buffer] = ()
    ) -> Received:
        """L4_ReplyWait."""
        if not to:
            raise arguments.nobody("to", to, ANSWERED)
        return self._message(await self._ipc(to, ANYTHREAD, message, timeouts(0, timeout, receive_name="timeout"), buffers, True))

    async def serve(self, function: Answering, buffers: Sequence[Buffer] = (), tell: Telling = serving.log) -> None:
        """The loop of a server. The function may be a coroutine function: the next message is waited for once it has returned."""
        await self.run(serving.Loop(self, function, buffers, tell, awaits=True).run())  # type: ignore[arg-type]

    async def sleep(self, seconds: Optional[float]) -> None:
        """L4_Sleep."""
        times = timeouts(None, seconds, receive_name="seconds")
        await self._ready()
        try:
            await self._ipc(NILTHREAD, self.id, NO_MESSAGE, times, (), True)
        except Timeout as end:
            if end.phase != RECEIVE:
                raise

    async def exchange_registers(self, dest: int, send: bool = False, receive: bool = False) -> Optional[Exchanged]:
        """L4_ExchangeRegisters."""
        frame = exchange_frame(dest, send, receive)
        await self._ready()
        return await self._exchange_registers(frame)

    async def _exchange_registers(self, frame: bytes) -> Optional[Exchanged]:
        """The same, over the connection that is there."""
        answer = await self._ask(frame, frames.Exchanged)
        self.last_moment = answer.moment
        return exchanged(answer)

    async def ipc(
        self,
        to: int,
        from_specifier: int,
        message: Message = NO_MESSAGE,
        send_timeout: Optional[float] = None,
        receive_timeout: Optional[float] = None,
        buffers: Sequence[Buffer] = (),
    ) -> Optional[Received]:
        """L4_Ipc."""
        return await self._ipc(to, from_specifier, message, calls.times_of(send_timeout, receive_timeout), buffers)

    # How a call is made.

    async def run(self, steps: Steps[_Result]) -> _Result:
        """Does what takes several calls, step by step."""
        try:
            step = next(steps)
            while True:
                try:
                    came = await self._do(step)
                except BaseException as error:
                    step = steps.throw(error)
                else:
                    step = steps.send(came)
        except StopIteration as done:
            result: _Result = done.value
            return result

    async def _do(self, step: Step) -> object:
        if isinstance(step, Ipc):
            return await self._ipc(*step)
        if isinstance(step, Answer):
            return await _answer_of(step)
        if isinstance(step, Pause):
            await asyncio.sleep(step.seconds)
        elif isinstance(step, Ready):
            await self._ready()
        else:
            await self._connect_again(None)
        return None

    async def _ipc(
        self, to: int, from_specifier: int, message: Message, times: int, buffers: Sequence[Buffer] = (), same_life: bool = False
    ) -> Optional[Received]:
        await self._ready(same_life)
        call = calls.call(self.id, to, from_specifier, message, times, buffers)
        held = next((it for it in self._held if it.fits(call)), None)
        if held is None:
            return await self._made(call)
        self._one_call_at_a_time()
        if to:  # its message first: where that is not sent, the other one stays held
            await self._made(calls.call(self.id, to, NILTHREAD, message, times, ()))
        self._held.remove(held)
        self._tells(held.received.told)
        return held.into(call)

    async def _made(self, call: calls.Call) -> Optional[Received]:
        """What the server answers to a call."""
        return self._result(call, await self._ask(call.frame, frames.Outcome, call))

    def _one_call_at_a_time(self) -> None:
        if self._over is not None:
            raise RuntimeError("another call of this thread is open")

    def _result(self, call: calls.Call, outcome: frames.Outcome) -> Optional[Received]:
        try:
            return self._read(call, outcome)
        except BadFrame as error:
            self._fail(error)

    # The connection.

    async def _ready(self, same_life: bool = False) -> None:
        """The thread is connected: again, where the connection has ended and that is asked for. Nothing was sent yet."""
        if self._is_closed or self._connection is None:
            raise self._no_call_is_made()
        if not self.reconnects or self.kept.is_busy or self._over is not None:
            return
        if self._is_lost or self._has_ended(self._connection):
            if same_life:
                self._close()
                raise self._partner_is_lost()
            try:
                await self._connect_again(self._place.wait_for)
            except OSError as error:
                raise Closed(f"{self!r}: {error}") from error
        if self.kept.is_due():
            try:
                await self.run(self._keeper.keep())
            except Closed:
                raise
            except L4Error as error:
                serving.log(error, None)

    @staticmethod
    def _has_ended(connection: socket.socket) -> bool:
        """Whether the connection has ended since the last call."""
        try:
            return not connection.recv(1, socket.MSG_PEEK)
        except BlockingIOError:
            return False
        except OSError:
            return True

    async def _connect_again(self, wait_for: Optional[float]) -> None:
        self._close()
        seconds = None if wait_for is None else max(wait_for, LEAST_WAIT)
        self._held.clear()
        await self._connect(replace(self._place, wait_for=seconds))

    async def _connect(self, place: connecting.Place) -> None:
        end, waiting, wait = end_of(place.wait_for), pauses(place.wait_for), Wait(place.wait_for)
        while True:
            self._stays_closed()
            try:
                with _telling(wait, place):
                    connection, own = await _attempt(place, place.seconds_for_an_answer(end))
                break
            except (OSError, L4Error) as error:
                pause = next(waiting, None) if connecting.passes(error) else None
                if pause is None:
                    raise connecting.explained(error, place) from None
                wait.goes_on(place.path, connecting.missing(error, place))
            await asyncio.sleep(pause)
        wait.is_over(connecting.connected(own, place))
        if self._is_closed:
            connection.close()
        self._stays_closed()
        self._connection = connection
        self._connected_as(own)

    async def _ask(self, frame: bytes, kind: Type[_Kind], call: Optional[calls.Call] = None) -> _Kind:
        """Sends a frame, and answers the next one, which has to be of this kind."""
        self._one_call_at_a_time()
        if self._is_closed or self._connection is None:
            raise self._no_call_is_made()
        connection, over = self._connection, asyncio.Event()
        self._over = over
        try:
            answer = await self._exchange(connection, frame, call)
        except (OSError, EOFError) as end:
            self._close()
            raise self._end_of_call() from (None if isinstance(end, EOFError) or self.is_ended_here else end)
        finally:
            self._over = None
            over.set()
            if self._is_lost:
                connection.close()
        if isinstance(answer, kind):
            return answer
        error = connecting.error_of(answer, repr(self))
        if isinstance(answer, frames.Refusal):
            raise error
        self._fail(error)

    def _fail(self, error: L4Error) -> NoReturn:
        self._close()
        raise error

    async def _exchange(self, connection: socket.socket, frame: bytes, call: Optional[calls.Call]) -> frames.Answer:
        """One frame and its answer. Where this is cancelled, the call is ended, or the thread is closed."""
        is_sent = False
        try:
            try:
                await asyncio.get_running_loop().sock_sendall(connection, frame)
            except (BrokenPipeError, ConnectionResetError):
                pass  # the server has ended the thread; what it said of that is still to be read
            is_sent = True
            return await self._hear(connection)
        except asyncio.CancelledError:
            if not is_sent or call is None or self._canceller is None:
                self._close_by_a_cancel()
            else:
                with suppress(L4Error, RuntimeError, OSError, EOFError):  # a canceller that cannot end the call: the thread is closed
                    await _to_its_end(self._end_call(self._canceller, connection, call))
            raise
        except BaseException:
            self._close()
            raise

    async def _hear(self, connection: socket.socket) -> frames.Answer:
        """The next frame, which is waited for."""
        end = self._what_is_there(connection)
        while end is None:
            await _readable(connection)
            end = self._what_is_there(connection)
        return self._frame_until(end)

    def _add(self, more: bytes) -> None:
        if not more:
            raise EOFError
        self._taken += more

    async def _end_call(self, canceller: "Thread", connection: socket.socket, call: calls.Call) -> None:
        """Ends the open call by ExchangeRegisters, and holds a message that has come all the same. It is tried until the call is over,
        since the server may see ExchangeRegisters before it sees the call."""
        try:
            waiting = pauses(None, 0.05)
            while self._what_is_there(connection) is None:
                await canceller.cancel(self.id, lambda: self._what_is_there(connection) is None)
                if self._what_is_there(connection) is None:
                    await asyncio.sleep(next(waiting))
            self._hold(call, self._frame_until(self._arrived() or 0))
        except BaseException:
            self._close_by_a_cancel()
            raise

    def _close_by_a_cancel(self) -> None:
        self._lose_by("a call that was cancelled has closed it, for want of a canceller= that could end the call")
        self._close()

    def _what_is_there(self, connection: socket.socket) -> Optional[int]:
        """Takes what has arrived, without waiting; where the next frame ends, if it is whole."""
        try:
            while self._arrived() is None:
                self._add(connection.recv(_MOST_READ))
        except BlockingIOError:
            pass
        return self._arrived()

    def _hold(self, call: calls.Call, answer: frames.Answer) -> None:
        """Holds the message of a call that has ended, unless it is the answer of a partner: nobody else knows what it answers."""
        if not isinstance(answer, frames.Outcome):
            self._fail(connecting.error_of(answer, repr(self)))
        try:
            received = self._result(call, answer)
        except IpcError:
            return
        if received is not None and call.to != call.from_specifier:
            copies = tuple(bytes(string) for string in received.strings)
            self._held.append(_Held(received._replace(strings=copies), call.from_specifier))

    async def cancel(self, dest: int, is_open: Callable[[], bool] = lambda: True) -> None:
        """Cancels both phases of a thread of the own space, if its call is still open once this thread is connected, where it connects again:
        else its id is that of another l4d. Those who ask for it at one time come one after another."""
        if self._queue is None:
            raise Closed(f"{self!r}: no call is made")
        async with self._queue:
            await self._ready()
            if is_open() and await self._exchange_registers(exchange_frame(dest, True, True)) is None:
                raise Closed(f"{self!r}: {ThreadId(dest)} is no live thread of its space")


class Names:
    """The name server, as `l4ipc.names.Names`."""

    def __init__(self, thread: Thread, server: Optional[int] = None, timeout: Optional[float] = None) -> None:
        self._thread = thread
        self._book = book_of(thread, server, timeout)

    async def register(self, name: str, originator: Optional[int] = None) -> ThreadId:
        """From now on the name is that of this thread; with an originator, of that thread of the own space."""
        return await self._thread.run(self._book.register(name, originator))

    async def lookup(self, name: str) -> Optional[ThreadId]:
        """The live thread that has the name, or ``None``."""
        return await self._thread.run(self._book.lookup(name))

    async def list(self) -> List[Tuple[str, ThreadId]]:
        """All names and their threads, in the order of bytes."""
        return await self._thread.run(self._book.list())

    async def wait_for(self, name: str, seconds: Optional[float] = None) -> ThreadId:
        """The live thread that has the name, once there is one."""
        return await self._thread.run(self._book.wait_for(name, seconds))

    async def wait_to_register(self, name: str, seconds: Optional[float] = None) -> ThreadId:
        """Registers the name, once there is a name server."""
        return await self._thread.run(self._book.wait_to_register(name, seconds))


async def is_live(thread: Thread, other: int) -> bool:
    """Whether a thread is live, as `l4ipc.names.is_live`."""
    return await thread.run(live(arguments.thread_id("other", other)))


async def live_thread(thread: Thread, number: int, first: int = 1) -> Optional[ThreadId]:
    """The live thread of a number, as `l4ipc.names.live_thread`."""
    return await thread.run(live_version(number, first))


async def _answer_of(step: Answer) -> object:
    """What a server's function returns. A cancel that it lets through is its failure, unless it is the server's own task that is cancelled."""
    task = asyncio.current_task()
    before = _cancels_of(task)
    try:
        answer: object = step.function(step.request)
        if not isawaitable(answer):
            return answer
        return await (_in_a_task_of_its_own(answer) if before is None else answer)
    except asyncio.CancelledError as error:
        if isinstance(error, _ServerCancelled) if before is None else (_cancels_of(task) or 0) > before:
            raise
        raise RuntimeError("the server's function let the CancelledError of another task through, and the server was not cancelled") from error


def _cancels_of(task: "Optional[asyncio.Task[object]]") -> Optional[int]:
    """How many cancels a task was asked for; ``None`` where it does not tell that, as before Python 3.11."""
    cancelling: Optional[Callable[[], int]] = getattr(task, "cancelling", None)
    return cancelling() if cancelling else None


class _ServerCancelled(asyncio.CancelledError):
    """The task of the server is cancelled, where a task does not tell that."""


async def _in_a_task_of_its_own(answer: Awaitable[_Result]) -> _Result:
    """The same result. A cancel of the waiting task is told by an error of its own, once the other task has ended by it."""
    task = asyncio.ensure_future(answer)
    try:
        await asyncio.wait([task])
    except asyncio.CancelledError:
        task.cancel()
        await asyncio.gather(task, return_exceptions=True)
        raise _ServerCancelled from None
    return task.result()


async def _to_its_end(work: Coroutine[Any, Any, _Result]) -> _Result:
    """What this answers. It is not broken off by a further cancel of the task that waits for it, which is one that was cancelled already: half
    an exchange would cost both threads their connections."""
    task = asyncio.ensure_future(work)
    while not task.done():
        with suppress(asyncio.CancelledError):
            await asyncio.wait([task])
    return task.result()


async def _readable(connection: socket.socket) -> None:
    """Until bytes have come, or the end. They stay where they are, so that a call which is cancelled now loses none."""
    loop, end = asyncio.get_running_loop(), connection.fileno()
    came = loop.create_future()
    loop.add_reader(end, lambda: came.done() or came.set_result(None))
    try:
        await came
    finally:
        loop.remove_reader(end)


@contextmanager
def _telling(wait: Wait, place: connecting.Place) -> Iterator[None]:
    """Meanwhile a wait that has no end tells that l4d does not answer, once it is time."""
    patience = wait.patience()
    if patience is None:
        yield
        return
    handle = asyncio.get_running_loop().call_later(patience + 0.01, lambda: wait.goes_on(place.path, connecting.missing(socket.timeout(), place)))
    try:
        yield
    finally:
        handle.cancel()


async def _attempt(place: connecting.Place, seconds: Optional[float]) -> Tuple[socket.socket, ThreadId]:
    """A connection whose thread is live, and that thread, within so many seconds."""
    connection = socket.socket(socket.AF_UNIX, socket.SOCK_STREAM)
    try:
        connection.setblocking(False)
        return connection, await asyncio.wait_for(_greet(connection, place, end_of(seconds)), seconds)
    except asyncio.TimeoutError:
        connection.close()
        raise socket.timeout from None
    except BaseException:
        connection.close()
        raise


async def _greet(connection: socket.socket, place: connecting.Place, end: Optional[float]) -> ThreadId:
    loop = asyncio.get_running_loop()
    for pause in pauses(left_until(end)):
        try:
            connection.connect(place.path)
            break
        except BlockingIOError:  # the server takes no connection at the moment, and such a socket has nothing to wait on
            await asyncio.sleep(pause)
    else:
        raise socket.timeout
    try:
        await loop.sock_sendall(connection, place.hello())
    except (BrokenPipeError, ConnectionResetError):
        pass  # what an l4d says that closes the connection is still to be read
    length = frames.body_length(await _exactly(connection, 4))
    kind = await _exactly(connection, 1)
    frames.check_kind(kind[0], length, place.version)
    return connecting.welcomed(frames.read(kind + await _exactly(connection, length - 1), place.version))


async def _exactly(connection: socket.socket, count: int) -> bytes:
    data = b""
    while len(data) < count:
        more = await asyncio.get_running_loop().sock_recv(connection, count - len(data))
        if not more:
            raise Closed("the connection has ended")
        data += more
    return data
