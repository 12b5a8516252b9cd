"""Names: who has one, and which thread is live. docs/NAMES.md has the words of the name server."""

import re
import time
from typing import TYPE_CHECKING, Any, Dict, Iterator, List, Optional, Tuple

from . import arguments, protocol, steps
from .errors import SEND, Circumstances, Closed, IpcError, L4Error, NoPartner, Refused, Timeout
from .errors import seconds as in_words
from .message import Buffer, Message, Received
from .steps import Ipc, Pause, Ready, Steps
from .waiting import TOLD_AFTER, Wait, end_of, left_until, pauses_until
from .words import NILTHREAD, ThreadId, timeouts

if TYPE_CHECKING:
    from .caller import Caller
    from .thread import Thread

NUMBER = 255
"""The thread number of a name server."""

MAX_VERSION = 63
"""Up to which version a thread is looked for."""

MAX_NAMES = protocol.MAX_NAMES
"""How many names a name server has at most."""

MAX_NAME_BYTES = protocol.MAX_NAME_BYTES
"""How many bytes a name has at most."""

KEPT_FOR = 5.0
"""After how many seconds a server registers its names again, so that a name server that was started again knows them."""

AGAIN_AFTER = 1.0
"""After how many seconds it tries again where there is no name server."""

LEAST_TRY = 0.1
"""How many seconds each phase of a request has at least, however few are left of a wait."""

REGISTER, LOOK_UP, LIST = 1, 2, 3

_IS_AN_ID = re.compile(r"[0-9]+(\.[0-9]+)?")
_IS_A_NAME = re.compile(f"[!-~]{{1,{MAX_NAME_BYTES}}}")
_NAME_RULE = f"a name has 1 to {MAX_NAME_BYTES} bytes of printable ASCII without the space"


class NameFault(L4Error):
    """The name server did not do what it was asked for: its error.

    ``holder`` is the thread that has the name, for the error `TAKEN`; ``name`` is the name that it was asked about.
    """

    BAD_REQUEST, BAD_NAME, TAKEN, FULL, NO_MEMORY = 1, 2, 3, 4, 5
    MEANINGS: Dict[int, str] = protocol.NAME_ERRORS

    def __init__(self, number: int, holder: ThreadId = NILTHREAD, name: Optional[str] = None) -> None:
        self.number = number
        self.holder = holder
        self.name = name
        super().__init__(number, holder, name)

    def __str__(self) -> str:
        by = f" by {self.holder}" if self.holder else ""
        of = f": {arguments.shown(self.name)}" if self.name is not None else ""
        rules = {
            self.BAD_NAME: f"; {_NAME_RULE}",
            self.FULL: f"; it has {MAX_NAMES} names of live threads, and no more",
        }
        rule = rules.get(self.number, "")
        return f"the name server answered: {self.MEANINGS.get(self.number, f'error {self.number}')}{by}{of}{rule}"


class NoNames(L4Error):
    """No name server was found. ``waited`` is how many seconds it was waited for, where that was asked for; ``server`` which one was chosen, if any."""

    waited: Optional[float] = None

    def __init__(self, server: Optional[ThreadId] = None) -> None:
        self.server = server
        super().__init__(*(() if server is None else (server,)))

    def __str__(self) -> str:
        waited = f", after waiting for {in_words(self.waited)}" if self.waited else ""
        if self.server is not None:
            return f"the name server {self.server}, which was chosen, is not there{waited}: start l4x DIR names, and choose the id that it prints"
        return f"no name server is there (a live thread of number {NUMBER}, of a version up to {MAX_VERSION}){waited}: start l4x DIR names"


class NameTimeout(L4Error, TimeoutError):
    """`Names.wait_for` has waited as long as it was told to: nobody has registered the name, or there is no name server, or none that answers.

    `Names.wait_to_register` raises it for the last of these.
    """


class Unregistered(NoPartner):
    """The name that a message was to go to is nobody's. Nothing was sent."""

    def __init__(self, own: ThreadId, name: str) -> None:
        super().__init__(0x4, of=Circumstances(own))
        self.name = name

    def __reduce__(self) -> Tuple[Any, ...]:
        return type(self), (self.thread, self.name), self.__dict__  # (for another process)

    def _details(self) -> str:
        return f": nobody has registered {arguments.shown(self.name)}"


class Unanswered(Timeout):
    """The name server did not answer in time who has the name that a message was to go to. Nothing was sent.

    ``partner`` is the name server.
    """

    def __init__(self, own: ThreadId, server: ThreadId, name: str) -> None:
        super().__init__(0x2, of=Circumstances(own, server))
        self.name = name

    def __reduce__(self) -> Tuple[Any, ...]:
        return type(self), (self.thread, self.partner, self.name), self.__dict__

    def _details(self) -> str:
        return f": the name server did not answer who has the name {arguments.shown(self.name)}"


class Kept:
    """The names that a thread has registered for itself, to be registered again, the threads that it has found by their names, the name server that was
    chosen for it, and how many answers others owe it to calls for which it waits no longer."""

    def __init__(self) -> None:
        self.names: Dict[str, None] = {}
        self.found: Dict[str, ThreadId] = {}
        self.owing: Dict[int, int] = {}
        self.chosen: Optional[ThreadId] = None
        self.again_at = 0.0
        self.is_busy = False

    def choose(self, server: ThreadId) -> None:
        """This name server is asked from now on, and no other; nilthread is none."""
        self.chosen = server or None
        self.found.clear()

    def registered(self, name: str) -> None:
        """The name is this thread's."""
        self.names[name] = None
        self.again_at = time.monotonic() + KEPT_FOR

    def is_due(self) -> bool:
        """Whether it is time to register the names again."""
        return bool(self.names) and not self.is_busy and time.monotonic() >= self.again_at

    def restart(self) -> None:
        """The thread is a new one: it has no name yet, and nobody whom it knew is there."""
        self.found.clear()
        self.owing.clear()
        self.again_at = 0.0


class Book:
    """What is known of the name server, and what it is asked for, as steps."""

    def __init__(self, thread: "Caller", timeout: Optional[float] = None) -> None:
        if not hasattr(thread, "lives"):
            raise arguments.wanted("thread", "a Thread is", thread)
        self._thread = thread
        self._life = thread.lives or 1  # (a thread of coroutines may not be connected yet)
        self._timeout = arguments.seconds_or_none("timeout", timeout)
        self._found: Optional[ThreadId] = None

    @property
    def server(self) -> Optional[ThreadId]:
        """The name server that was chosen, or that was found over the connection that is there: over another one its id is that of any thread."""
        if self._life != self._thread.lives:
            self._life, self._found = self._thread.lives, None
        return self._thread.kept.chosen or self._found

    def _times(self, end: Optional[float], is_wait: bool) -> int:
        """The timeouts of a request. Of a wait that has an end each phase has half of what is left, so that both together keep to it.

        Of one that has none each phase has an end all the same, so that it can be told that nobody answers.
        """
        left, longest = left_until(end), self._timeout
        if is_wait and left is None and longest is None:
            longest = TOLD_AFTER
        if left is not None:
            half = max(left / 2, LEAST_TRY)
            longest = half if longest is None else min(half, longest)
        return timeouts(longest, longest)

    def ask(self, label: int, name: bytes, end: Optional[float] = None, is_wait: bool = False) -> Steps[Received]:
        """What the name server answers to a request, of a wait until this moment."""
        answer = yield from self.tell(Message(label, strings=[name]), end, is_wait, True)
        if answer is None or len(answer.words) != 1 and not answer.label:
            raise L4Error(f"{self.server} is no name server")
        if answer.label:
            raise NameFault(answer.label, ThreadId(answer.words[0] if answer.words else 0), name.decode("utf-8"))
        return answer

    def tell(self, message: Message, end: Optional[float], is_wait: bool, is_call: bool) -> Steps[Optional[Received]]:
        """Sends a request, and waits for its answer where it is a call. The name server is looked for where it is not known, and again where it has ended,
        unless it was chosen.

        It is looked for from the first version on where the connection had ended: then the request is sent over the next one.
        """
        label = message.label
        buffers: List[Buffer] = [MAX_NAME_BYTES] if label == LIST else []
        first, has_ended = 1, False
        while True:
            server = self.server or NILTHREAD
            try:
                if not server:
                    server = self._found = yield from self._live_server(first)
                answer: Optional[Received] = yield Ipc(server, server if is_call else NILTHREAD, message, self._times(end, is_wait), buffers, True)
                return answer
            except NoPartner:
                if server == self._thread.kept.chosen:
                    raise NoNames(server) from None
                first, self._found = server.version + 1, None
            except Closed as error:
                if not error.partner_is_lost:
                    raise
                if has_ended:  # and over the connection that was made anew, too
                    raise Closed(str(error)) from None
                first, has_ended = 1, True
                yield Ready()

    def _live_server(self, first: int) -> Steps[ThreadId]:
        """The name server that is there, from this version on."""
        server = yield from live_version(NUMBER, first, True)
        if server is None:
            raise NoNames from None
        return server

    def register(
        self, name: str, originator: Optional[int] = None, end: Optional[float] = None, is_wait: bool = False
    ) -> Steps[ThreadId]:
        """`Names.register`, of a wait until this moment."""
        if originator is None or arguments.thread_or_nobody("originator", originator) == self._thread.id:
            answer = yield from self.ask(REGISTER, name_bytes(name), end, is_wait)
            registered = ThreadId(answer.words[0])
        else:
            registered = yield from self._register_other(name, originator, end, is_wait)
        if registered == self._thread.id:
            self._thread.kept.registered(name)
        return registered

    def _register_other(self, name: str, originator: int, end: Optional[float], is_wait: bool) -> Steps[ThreadId]:
        """Which thread has a name once it was registered as that of another one. The name server answers whom it registers, so no answer comes here."""
        yield from self.tell(Message(REGISTER, strings=[name_bytes(name)], originator=originator), end, is_wait, False)
        found = yield from self.lookup(name, end, is_wait)
        if found is None or found not in (originator, self._thread.id):
            raise NameFault(NameFault.TAKEN, found or NILTHREAD, name)
        return found

    def lookup(self, name: str, end: Optional[float] = None, is_wait: bool = False) -> Steps[Optional[ThreadId]]:
        """`Names.lookup`, of a wait until this moment."""
        answer = yield from self.ask(LOOK_UP, name_bytes(name), end, is_wait)
        found = ThreadId(answer.words[0])
        return None if found == NILTHREAD else found

    def list(self) -> Steps[List[Tuple[str, ThreadId]]]:
        """`Names.list`."""
        names: List[Tuple[str, ThreadId]] = []
        after = b""
        while True:
            answer = yield from self.ask(LIST, after)
            if answer.words[0] == NILTHREAD or not answer.strings:
                return names
            name = bytes(answer.strings[0])
            if name <= after:
                raise L4Error("the name server went back in its list")
            names.append((name.decode("ascii", "backslashreplace"), ThreadId(answer.words[0])))
            after = name

    def wait_for(self, name: str, seconds: Optional[float]) -> Steps[ThreadId]:
        """`Names.wait_for`."""
        limit = arguments.seconds_or_none("seconds", seconds)
        end, wait = end_of(limit), Wait(limit)
        waiting = pauses_until(end, 1.0)
        while True:
            try:
                found = yield from self.lookup(name, end, True)
                missing = f"nobody has registered {arguments.shown(name)}"
            except NoNames as error:
                found, missing = None, str(error)
            except Timeout as error:
                found, missing = None, f"the name server {error.partner} does not answer"
            if found is not None:
                wait.is_over(f"{name} is {found}")
                return found
            pause = next(waiting, None)
            if pause is None:
                raise _waited(missing, name, seconds) from None
            wait.goes_on(f"the name {arguments.shown(name)}", missing)
            yield Pause(pause)

    def wait_to_register(self, name: str, seconds: Optional[float]) -> Steps[ThreadId]:
        """`Names.wait_to_register`."""
        limit = arguments.seconds_or_none("seconds", seconds)
        end, wait = end_of(limit), Wait(limit)
        waiting = pauses_until(end, 1.0)
        while True:
            try:
                registered = yield from self.register(name, end=end, is_wait=True)
                wait.is_over(f"{name} is registered: it is {registered}")
                return registered
            except NoNames as missing:
                pause = next(waiting, None)
                if pause is None:
                    missing.waited = seconds or None
                    raise
                why = str(missing)
            except Timeout as error:
                why = f"the name server {error.partner} does not answer"
                pause = next(waiting, None)
                if pause is None:
                    raise _waited(why, name, seconds) from None
            wait.goes_on(f"a name server that registers {arguments.shown(name)}", why)
            yield Pause(pause)

    def keep(self) -> Steps[None]:
        """Registers the names of the thread again. What does not do so now is tried again later, and is raised at the end."""
        kept = self._thread.kept
        kept.is_busy, kept.again_at, failure = True, time.monotonic() + KEPT_FOR, None
        try:
            for name in list(kept.names):
                try:
                    yield from self.register(name)
                except (NameFault, NoNames, IpcError, Refused) as error:
                    failure = error
                    failure.kept_name = name
        finally:
            kept.is_busy = False
        if failure is not None:
            kept.again_at = time.monotonic() + (AGAIN_AFTER if isinstance(failure, NoNames) else KEPT_FOR)
            raise failure

    def call(self, name: str, step: Ipc, is_call: bool, wait_for: Optional[float]) -> Steps[Optional[Received]]:
        """A message to who has a name. Where that one has ended the name is looked up again, and where the connection has; nothing was sent then.

        The seconds begin anew with another connection: its partner may have to connect again, too.
        """
        found, seconds = self._thread.kept.found, arguments.seconds_or_none("wait_for", wait_for)
        end, waiting = _until_there(seconds)
        wait, life = Wait(seconds), self._thread.lives
        while True:
            was_known = name in found
            try:
                partner = found[name] if was_known else (yield from self._partner(name, end, seconds is None))
                wait.is_over(f"{name} is {partner}")
                received: Optional[Received] = yield step._replace(
                    to=partner, from_specifier=partner if is_call else NILTHREAD, same_life=True
                )
                return received
            except Closed as error:
                if not error.partner_is_lost:
                    raise
                yield Ready()
                continue
            except (NoPartner, NoNames, Unanswered) as missing:
                if isinstance(missing, NoPartner) and missing.phase != SEND:
                    raise
                found.pop(name, None)
                if was_known or life != self._thread.lives:
                    (end, waiting), life = _until_there(seconds), self._thread.lives
                if was_known:
                    continue
                pause = next(waiting, None)
                if pause is None:
                    missing.waited = wait_for or None
                    raise missing from None
                wait.goes_on(f"the name {arguments.shown(name)}", missing)
            yield Pause(pause)

    def _partner(self, name: str, end: Optional[float], is_wait: bool) -> Steps[ThreadId]:
        try:
            partner = yield from self.lookup(name, end, is_wait)
        except Timeout as error:
            raise Unanswered(self._thread.id, error.partner, name) from None
        if partner is None:
            raise Unregistered(self._thread.id, name)
        self._thread.kept.found[name] = partner
        return partner


def is_name(to: str) -> bool:
    """Whether a text is a name that a message may go to; the text of a thread id is none."""
    return not _IS_AN_ID.fullmatch(to)


def live(other: int, same_life: bool = False) -> Steps[bool]:
    """`is_live`."""
    try:
        yield steps.receive(other, 0)._replace(same_life=same_life)
    except NoPartner:
        return False
    except IpcError:
        return True
    return True


def live_version(number: int, first: int, same_life: bool = False) -> Steps[Optional[ThreadId]]:
    """`live_thread`; where all versions are to be looked for over one connection, it fails where that has ended."""
    for version in range(first, MAX_VERSION + 1):
        other = ThreadId.of(number, version)
        if (yield from live(other, same_life)):
            return other
    return None


def is_live(thread: "Thread", other: int) -> bool:
    """Whether a thread is live: asked by a closed receive from it with zero time, of which it notices nothing.

    A message that it is just sending to this thread is received and lost; so ask only for threads that do not.
    """
    return thread.run(live(arguments.thread_id("other", other)))


def live_thread(thread: "Thread", number: int, first: int = 1) -> Optional[ThreadId]:
    """The live thread of a number, if its version is ``first`` to 63. Each version costs one call.

    A message that it is just sending to this thread is received and lost, as by `is_live`: so a server looks for its partners by names.
    """
    return thread.run(live_version(number, first))


class Names:
    """The name server, as a thread asks it.

    It is looked for at the first request, and again where it has ended, from the next version on. ``timeout`` is how long each phase of a
    request may take, in seconds; a wait asks again after it.

    ``server``, the id of one that is past version 63, chooses it for the thread, until that connects again: whatever asks for a name asks
    that one alone, `serve` and a call of a name, too. `NILTHREAD` chooses none.
    """

    def __init__(self, thread: "Thread", server: Optional[int] = None, timeout: Optional[float] = None) -> None:
        self._thread = thread
        self._book = book_of(thread, server, timeout)

    @property
    def server(self) -> Optional[ThreadId]:
        """The name server, where it was found."""
        return self._book.server

    def register(self, name: str, originator: Optional[int] = None) -> ThreadId:
        """From now on the name is that of this thread; with an originator, of that thread of the own space.

        It answers the thread that is registered, which is this one where the propagation was not permitted. The name server answers whom it registers:
        an originator that waits for this thread, or for anybody, gets its word. An own name is kept: `serve` registers it again every few seconds,
        and a thread that connects again does so, too.
        """
        return self._thread.run(self._book.register(name, originator))

    def lookup(self, name: str) -> Optional[ThreadId]:
        """The live thread that has the name, or ``None``."""
        return self._thread.run(self._book.lookup(name))

    def list(self) -> List[Tuple[str, ThreadId]]:
        """All names and their threads, in the order of bytes."""
        return self._thread.run(self._book.list())

    def wait_for(self, name: str, seconds: Optional[float] = None) -> ThreadId:
        """The live thread that has the name, once there is one. It asks again after pauses of 5 milliseconds up to a second.

        After so many seconds it raises `NameTimeout`, a ``TimeoutError``: nobody has registered the name, or there is no name server, or
        none that answers.
        """
        return self._thread.run(self._book.wait_for(name, seconds))

    def wait_to_register(self, name: str, seconds: Optional[float] = None) -> ThreadId:
        """Registers the name, once there is a name server. After so many seconds it raises `NoNames`; `NameTimeout` where one does not answer."""
        return self._thread.run(self._book.wait_to_register(name, seconds))


def book_of(thread: "Caller", server: Optional[int], timeout: Optional[float]) -> Book:
    """What `Names` asks, by its arguments."""
    book = Book(thread, timeout)
    if server is not None:
        thread.kept.choose(ThreadId(arguments.thread_id("server", server)))
    return book


def register(thread: "Thread", name: str) -> ThreadId:
    """Registers a name as this thread."""
    return Names(thread).register(name)


def lookup(thread: "Thread", name: str) -> Optional[ThreadId]:
    """The live thread that has the name, or ``None``."""
    return Names(thread).lookup(name)


def _until_there(seconds: Optional[float]) -> Tuple[Optional[float], Iterator[float]]:
    """The end of the look ups of a call, which has none where it does not wait, and its pauses. The seconds begin now."""
    return end_of(seconds or None), pauses_until(end_of(seconds))


def _waited(missing: str, name: str, seconds: Optional[float]) -> NameTimeout:
    """The end of a wait for a name, and what was missing."""
    return NameTimeout(f"{missing}; waited for {arguments.shown(name)}" + ("" if seconds is None else f" for {in_words(seconds)}"))


def name_bytes(name: str, argument: str = "name") -> bytes:
    """The bytes of a name, of this argument."""
    if not isinstance(name, str):
        raise arguments.wanted(argument, "a str is", name)
    if not _IS_A_NAME.fullmatch(name):
        raise ValueError(f"{argument}: {arguments.shown(name)} is no name; {_NAME_RULE}")
    return name.encode("ascii")
