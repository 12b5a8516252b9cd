"""Connecting to l4d: waiting until it is there, and saying why it is not; and ending a thread."""

import errno
import os
import select
import socket
import time
from contextlib import suppress
from dataclasses import dataclass
from typing import Callable, Optional, Tuple

from . import arguments, frames, protocol
from .errors import BadFrame, Closed, L4Error, Refused, fault, is_foreign, seconds
from .waiting import Wait, end_of, left_until, pauses
from .words import ThreadId

NUMBER_IS_TAKEN = protocol.K_NUMBER_TAKEN
"""The refusal K2: a thread of that number is live."""

MAX_PATH_BYTES = protocol.MAX_PATH_BYTES
"""How many bytes the path of a socket has at most."""

MAX_SPACE = protocol.MAX_SPACE
"""The greatest number of a space: l4d has no path beyond it."""

PATIENCE = 1.0
"""How many seconds a thread that is closed waits at most for the server to end it."""

_MOST_READ = 65_536
_TURNED_AWAY = "it has no memory or no worker for it, as it says on its standard error, or it ends"
_OTHER_NUMBER = "end the program that has it, or take another number"
_HELP = {
    errno.ENOENT: "no such path{waited}: start l4d --dir DIR with the folder DIR{spaces}",
    errno.ECONNREFUSED: "nobody listens at that path{waited}: its l4d has ended (start it with --replace), or the path has had its --connections"
    " (--keep-open helps)",
    errno.EACCES: "no permission to connect: who may is in the mode of the path and of its folder",
    errno.ETIMEDOUT: "l4d does not answer: it is full (its --live and --keep-open, and its descriptors), or it is stopped",
}


@dataclass(frozen=True)
class Place:
    """Where a thread connects to, as which thread, and how long it waits: for l4d to be there, and then for its answer."""

    path: str
    number: int
    version: int = 1
    wait_for: Optional[float] = 0
    connect_timeout: Optional[float] = None
    space: int = 1

    def hello(self) -> bytes:
        """The frame that asks for the thread."""
        return frames.hello(self.number, self.version)

    def seconds_for_an_answer(self, end: Optional[float]) -> Optional[float]:
        """How long one try may take: until the end of the waiting, but at least the timeout for connecting."""
        left = left_until(end)
        return None if left is None or self.connect_timeout is None else max(left, self.connect_timeout)


def path_in(directory: object, name: str) -> str:
    """The path of a socket of a server's folder; a wrong argument is a TypeError or a ValueError."""
    if not isinstance(directory, (str, os.PathLike)):
        raise arguments.wanted("directory", "a path is", directory)
    path = os.path.join(os.fspath(directory), name)
    if "\0" in path or len(os.fsencode(path)) > MAX_PATH_BYTES:
        raise ValueError(f"directory: {arguments.shown(path)} is no path of at most {MAX_PATH_BYTES} bytes")
    return path


def place_of(directory: object, number: int, space: int, version: int, wait_for: Optional[float], connect_timeout: Optional[float]) -> Place:
    """The place of a thread of a server's folder; a wrong argument is a TypeError or a ValueError."""
    space = arguments.integer("space", space, 1, MAX_SPACE)
    path = path_in(directory, f"space{space}")
    number = arguments.integer("number", number, 1, protocol.MAX_THREAD_NUMBER)
    frames.hello(number, version)
    waits = arguments.seconds_or_none("wait_for", wait_for)
    return Place(path, number, version, waits, arguments.seconds_or_none("connect_timeout", connect_timeout), space)


def passes(error: Exception) -> bool:
    """Whether it helps to wait: nobody is there yet, or the number is still that of a thread that is about to end."""
    if isinstance(error, Refused):
        return error.number == NUMBER_IS_TAKEN
    return isinstance(error, (FileNotFoundError, ConnectionError, BlockingIOError, Closed))


def explained(error: Exception, place: Place) -> Exception:
    """The same error with the path, and with what helps."""
    waited = f", after waiting for {seconds(place.wait_for)}" if place.wait_for else ", and it was not waited for (wait_for=)"
    if place.wait_for is None:
        waited = ""
    if isinstance(error, Refused):
        return Refused(error.number, f"number {place.number} at {place.path}", f"{waited}; {_OTHER_NUMBER}" if passes(error) else "")
    if isinstance(error, (Closed, ConnectionResetError, BrokenPipeError)):
        return Closed(f"l4d closed the connection at {place.path} before it answered: {_TURNED_AWAY}")
    if not isinstance(error, OSError):
        return error
    number = errno.ETIMEDOUT if isinstance(error, (socket.timeout, BlockingIOError)) else error.errno
    if number is None:
        return OSError(errno.EINVAL, str(error), place.path)
    spaces = f", and --spaces {place.space} or more" if place.space > 1 else ""
    return OSError(number, _HELP.get(number, os.strerror(number)).format(waited=waited, spaces=spaces), place.path)


def missing(error: Exception, place: Place) -> object:
    """Why a thread still waits for its place, and what helps."""
    told = explained(error, place)
    return told.strerror if isinstance(told, OSError) else told


def connected(own: ThreadId, place: Place) -> str:
    """What is said of a thread that has waited for its place."""
    return f"{own} is connected at {place.path}"


def welcomed(answer: frames.Answer) -> ThreadId:
    """The thread that an answer to HELLO makes; an error for any other answer."""
    if isinstance(answer, frames.Welcome):
        return answer.thread
    raise error_of(answer)


def error_of(answer: object, about: str = "") -> L4Error:
    """What an answer of another kind than the one that was asked for is told as."""
    if isinstance(answer, frames.Refusal):
        return Refused(answer.number, about)
    told = fault(answer.letter, answer.number) if isinstance(answer, frames.FaultTold) else None
    return told or BadFrame(f"an answer of another kind: {type(answer).__name__}")


def connect(place: Place, goes_on: Callable[[], None] = lambda: None) -> Tuple[socket.socket, ThreadId]:
    """A connection whose thread is live, and that thread. It waits as long as the place says, and while ``goes_on`` raises nothing."""
    end, waiting, wait = end_of(place.wait_for), pauses(place.wait_for), Wait(place.wait_for)
    while True:
        goes_on()
        try:
            connection, own = _attempt(place, end_of(place.seconds_for_an_answer(end)), wait)
            wait.is_over(connected(own, place))
            return connection, own
        except (OSError, L4Error) as error:
            if is_foreign(error):
                raise
            pause = next(waiting, None) if passes(error) else None
            if pause is None:
                raise explained(error, place) from None
            wait.goes_on(place.path, missing(error, place))
        time.sleep(pause)


def end_thread(connection: socket.socket) -> None:
    """Says BYE, and reads until the server has ended the thread, whose number is free then. It waits `PATIENCE` seconds at most.

    It raises nothing, whatever the connection is: it may have ended, or be closed meanwhile. What comes before the end is nobody's.
    """
    until, poll = end_of(PATIENCE), select.poll()
    with suppress(OSError, ValueError):
        connection.send(frames.bye(), socket.MSG_DONTWAIT)
        poll.register(connection, select.POLLIN)
        while (left := left_until(until)) and poll.poll(1000 * left):
            with suppress(BlockingIOError):  # another thread of this process has read it
                if not connection.recv(_MOST_READ, socket.MSG_DONTWAIT):
                    return


def _attempt(place: Place, end: Optional[float], wait: Wait) -> Tuple[socket.socket, ThreadId]:
    connection = socket.socket(socket.AF_UNIX, socket.SOCK_STREAM)
    try:
        connection.settimeout(left_until(end))
        _connect(connection, place, end, wait)
        with suppress(BrokenPipeError, ConnectionResetError):  # what an l4d says that closes the connection is still to be read
            connection.sendall(place.hello())
        _answers(connection, place, wait)
        thread = welcomed(_read(connection, place.version, end))
        connection.settimeout(None)
        return connection, thread
    except BaseException:
        connection.close()
        raise


def _answers(connection: socket.socket, place: Place, wait: Wait) -> None:
    """Waits for an answer as long as a wait that has no end tells nothing, and tells then that none comes."""
    patience = wait.patience()
    if patience is None:
        return
    poll = select.poll()
    poll.register(connection, select.POLLIN)
    if not poll.poll(1000 * patience):
        wait.goes_on(place.path, missing(socket.timeout(), place))


def _connect(connection: socket.socket, place: Place, end: Optional[float], wait: Wait) -> None:
    """Connects. Where the server takes no connection at the moment it tries again, since such a socket has nothing to wait on."""
    for pause in pauses(left_until(end)):
        try:
            return connection.connect(place.path)
        except BlockingIOError as error:
            wait.goes_on(place.path, missing(error, place))
            time.sleep(pause)
    connection.connect(place.path)


def _read(connection: socket.socket, version: int, end: Optional[float]) -> frames.Answer:
    """The next frame: not a byte more is taken of the stream."""
    length = frames.body_length(_exactly(connection, 4, end))
    body = _exactly(connection, 1, end)
    frames.check_kind(body[0], length, version)
    return frames.read(body + _exactly(connection, length - 1, end), version)


def _exactly(connection: socket.socket, count: int, end: Optional[float]) -> bytes:
    data = b""
    while len(data) < count:
        left = left_until(end)
        if left == 0:
            raise socket.timeout
        connection.settimeout(left)
        more = connection.recv(count - len(data))
        if not more:
            raise Closed("the connection has ended")
        data += more
    return data
