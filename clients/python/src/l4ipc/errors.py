"""What a call raises."""

from dataclasses import dataclass
from itertools import accumulate
from typing import Optional, Tuple

from . import protocol
from .words import NILTHREAD, ThreadId

SEND = "send"
RECEIVE = "receive"


class L4Error(Exception):
    """Anything that a call of this package raises, but for wrong arguments, and for an ``OSError`` where it cannot connect.

    ``kept_name`` is the name that a thread could not register again by itself, where the error is of that. ``is_of_answer`` says that a server's
    loop could not send an answer.
    """

    kept_name: Optional[str] = None
    is_of_answer = False


@dataclass(frozen=True)
class Circumstances:
    """Of which call an error is: the thread, its partners, the lengths of the strings that it sent, and whether it took strings."""

    own: ThreadId = NILTHREAD
    to: ThreadId = NILTHREAD
    from_specifier: ThreadId = NILTHREAD
    lengths: Tuple[int, ...] = ()
    has_buffers: bool = True


_UNKNOWN = Circumstances()


def _bytes(count: int) -> str:
    """So many bytes, in words."""
    return f"{count} byte" if count == 1 else f"{count} bytes"


def seconds(count: float) -> str:
    """So many seconds, in words."""
    return f"{count:g} second" if count == 1 else f"{count:g} seconds"


class IpcError(L4Error):
    """A phase of a call failed, as the ErrorCode says. The thread goes on.

    ``phase`` is ``"send"`` or ``"receive"``. Where the send phase failed no receive phase took place. ``code`` is the word of the
    ErrorCode, and ``offset`` its offset: a number of bytes for `Overflow` and `Aborted`, else 0. ``call`` and ``moment`` are the number
    of the call and the moment at which it was over, in microseconds of the server; in version 1 of the wire they are ``None``. ``told``
    has all that the version tells besides.

    ``thread`` is whose call it was, ``partner`` with whom its phase was: the thread that was sent to, or the FromSpecifier. ``delivered``
    says whether the message of the call was delivered. Of a phase that failed nothing is.
    """

    text = "an error that has no name"

    def __init__(self, code: int, told: protocol.Told = protocol.NOTHING_TOLD, of: Circumstances = _UNKNOWN) -> None:
        self.code = code
        self.told = told
        self.call = told.call
        self.moment = told.moment
        self.phase = RECEIVE if code & 1 else SEND
        self.offset = code >> 4
        self.thread = of.own
        self.partner = of.from_specifier if self.phase == RECEIVE else of.to
        self.delivered = self.phase == RECEIVE and of.to != NILTHREAD
        self.waited: Optional[float] = None
        self._of = of
        super().__init__(code)

    def __str__(self) -> str:
        way = "from" if self.phase == RECEIVE else "to"
        who = f"{self.phase} phase {way} {self.partner}" if self.partner else f"{self.phase} phase"
        own = f"{self.thread}: " if self.thread else ""
        waited = "" if self.waited is None else f", after waiting for {seconds(self.waited)}"
        return f"{own}{who}: {self.text} (error {self.code:#x}){self._details()}{waited}; {self._delivery()}{self._advice()}"

    def _details(self) -> str:
        return ""

    def _advice(self) -> str:
        return ""

    def _delivery(self) -> str:
        if self.phase == SEND:
            return "nothing was delivered"
        if not self.delivered:
            return "nothing was received"
        return f"what was sent was delivered, and {'no answer came' if self.partner == self._of.to else 'nothing was received'}"


class Timeout(IpcError):
    """The timeout of the phase expired (e = 1)."""

    text = protocol.ERRORS[protocol.E_TIMEOUT]


class NoPartner(IpcError):
    """The partner does not exist, or ended while the phase waited for it (e = 2).

    ``waited`` is how many seconds the call waited for it, where it was asked to.
    """

    text = protocol.ERRORS[protocol.E_NON_EXISTING_PARTNER]

    def _details(self) -> str:
        if not self.partner:
            return ""
        if self.partner == self.thread:
            return ", since that is the thread itself"
        if self.delivered and self.partner == self._of.to:
            return ", which has ended, or the thread to which it passed the message on"
        if not self.partner.number or not self.partner.version:
            number = self.partner.number or int(self.partner) & 0x3FF
            return f", since that is no id of a thread: ThreadId.of({number}, 1) makes one of a number"
        return ""

    def _advice(self) -> str:
        # (`live_thread` looks up to version 63)
        if self.waited is None or not self.partner.number or not 0 < self.partner.version < 63:
            return ""
        later = ThreadId.of(self.partner.number, self.partner.version + 1)
        return f"; a server that was started again is {later} or later: its name finds it, or up to version 63 names.live_thread"


class Cancelled(IpcError):
    """Another thread cancelled the phase by ExchangeRegisters (e = 3)."""

    text = protocol.ERRORS[protocol.E_CANCELLED]


class Overflow(IpcError):
    """The message does not fit what the receiver accepts (e = 4). Nothing of it was delivered, and both partners are told.

    ``offset`` is how many bytes the leading strings have that fit. ``string`` is the number of the first one that does not, counted from 1,
    where that is known: for who sent them.
    """

    text = protocol.ERRORS[protocol.E_MESSAGE_OVERFLOW]

    @property
    def string(self) -> Optional[int]:
        """The number of the string that did not fit, counted from 1. Of empty strings and the one behind them it is the last."""
        if self.phase == RECEIVE:
            return None
        before = [0, *accumulate(self._of.lengths)]
        places = [place for place in range(1, len(before)) if before[place - 1] == self.offset]
        return places[-1] if places else None

    def _details(self) -> str:
        if self.string is None and not self._of.has_buffers and not self.offset:
            return ": a message with strings, and no buffers= were given"
        if self.string is None:
            return f": a string did not fit the buffers, behind {_bytes(self.offset)} that did"
        length = self._of.lengths[self.string - 1]
        return f": string {self.string}, of {_bytes(length)}, did not fit the receiver's buffers"


class Aborted(IpcError):
    """Another thread aborted the transfer, or the partner ended in midst of it (e = 7).

    ``bytes`` is how many bytes were copied.
    """

    text = protocol.ERRORS[protocol.E_ABORTED]

    @property
    def bytes(self) -> int:
        """How many bytes were copied."""
        return self.offset

    def _details(self) -> str:
        return f" after {_bytes(self.offset)}"


class Refused(L4Error):
    """The kernel refused the command, and nothing changed: the number after K. The thread goes on."""

    MEANINGS = protocol.REFUSALS

    def __init__(self, number: int, about: str = "", waited: str = "") -> None:
        self.number = number
        self.about = about
        self.waited = waited
        super().__init__(number, about, waited)

    def __str__(self) -> str:
        about = f"{self.about}: " if self.about else ""
        return f"{about}refused K{self.number}: {self.MEANINGS.get(self.number, 'unknown')}{self.waited}"


class Fault(L4Error):
    """The server found a fault, and ended the thread: the class is ``"K"``, ``"F"`` or ``"S"``, as in K7, F3 or S1."""

    MEANINGS = {"K": protocol.REFUSALS, "F": protocol.FAULTS, "S": protocol.SESSION_ENDS}

    def __init__(self, letter: str, number: int) -> None:
        self.letter = letter
        self.number = number
        super().__init__(letter, number)

    def __str__(self) -> str:
        meaning = self.MEANINGS[self.letter].get(self.number, "unknown")
        return f"fault {self.letter}{self.number}, and the thread is ended: {meaning}"


def is_foreign(error: BaseException) -> bool:
    """Whether other code than this package's raised an exception, as the handler of a signal does that comes while a call is open."""
    at = error.__traceback__
    while at is not None and at.tb_next is not None:
        at = at.tb_next
    return at is not None and at.tb_frame.f_globals.get("__name__", "").partition(".")[0] not in (__name__.partition(".")[0], "socket")


class Closed(L4Error):
    """The connection has ended: the server ended, the thread was closed, or an earlier call ended it.

    ``partner_is_lost`` says that it had ended before the call, whose partner was known by that connection alone, so that nothing was sent.
    """

    partner_is_lost = False


class LateAnswer(L4Error):
    """A server of `serve` got a message of a thread that owes it the answer to a call that was given up. It is taken for that answer, and the function
    does not get it. As it may be a request nevertheless, the ``sender`` gets the label `FUNCTION_FAILED`.
    """

    def __init__(self, sender: ThreadId) -> None:
        self.sender = sender
        super().__init__(sender)

    def __str__(self) -> str:
        return f"a message of {self.sender} was taken for its answer to a call that was given up; if it was a request, it is told to have failed"


class BadFrame(L4Error):
    """The server sent what is no frame, or no answer to this call. The thread is closed."""


_KINDS = {
    protocol.E_TIMEOUT: Timeout,
    protocol.E_NON_EXISTING_PARTNER: NoPartner,
    protocol.E_CANCELLED: Cancelled,
    protocol.E_MESSAGE_OVERFLOW: Overflow,
    protocol.E_ABORTED: Aborted,
}


def ipc_error(code: int, told: protocol.Told = protocol.NOTHING_TOLD, of: Circumstances = _UNKNOWN) -> IpcError:
    """The exception of an ErrorCode."""
    return _KINDS.get(code >> 1 & 7, IpcError)(code, told, of)


def fault(letter: int, number: int) -> Optional[Fault]:
    """The exception of a FAULT frame; ``None`` where there is no such class."""
    return Fault(chr(letter), number) if letter in protocol.CLASSES else None
