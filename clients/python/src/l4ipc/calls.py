"""One Ipc: what is written for it, and what its outcome means. No socket is touched here."""

import struct
from typing import NamedTuple, Optional, Sequence

from . import arguments, frames, protocol
from .errors import BadFrame, Circumstances, ipc_error
from .message import FAILED, NO_BUFFERS, PROPAGATED, Buffer, BufferStrings, Message, Received
from .words import ThreadId, timeouts

Buffers = Sequence[Buffer]
NO_MESSAGE = Message()
TYPED_WORDS = 0x3F << 6
_PLAIN_WORDS = (list, tuple)


class Call(NamedTuple):
    """One Ipc of a thread: its frame, and what is needed to read its outcome."""

    own: ThreadId
    to: int
    from_specifier: int
    message: Message
    strings: BufferStrings
    frame: bytes

    def result(self, outcome: frames.Outcome) -> Optional[Received]:
        """The message that came, or ``None`` where there is no receive phase; an `IpcError` where a phase failed."""
        if outcome.tag & FAILED:
            of = Circumstances(self.own, ThreadId(self.to), ThreadId(self.from_specifier), self.message.lengths(), self.strings is not NO_BUFFERS)
            raise ipc_error(outcome.error, outcome.told, of)
        if not self.from_specifier:
            return None
        if outcome.tag & (TYPED_WORDS | PROPAGATED) or outcome.pieces:
            return self._with_strings(outcome)
        return Received(outcome.sender, outcome.tag >> 16, outcome.words, (), None, outcome.told)

    def _with_strings(self, outcome: frames.Outcome) -> Received:
        """What the server says of strings has to be just what the buffers have room for."""
        lengths = frames.string_lengths(outcome)
        if lengths is None:
            raise BadFrame("typed words that are no simple string items")
        pieces = self.strings.pieces_of(lengths)
        if pieces is None:
            raise BadFrame("strings that the buffers have no room for")
        if pieces != [(pointer, len(data)) for pointer, data in outcome.pieces]:
            raise BadFrame("pieces that do not lie where the strings belong")
        untyped = outcome.tag & 0x3F
        pointers = outcome.words[untyped + 1 :: 2]
        if any(pointer != self.strings.first_pointer(place) for place, pointer in enumerate(pointers)):
            raise BadFrame("a string that does not begin where its buffer does")
        strings = self.strings.fill(lengths, b"".join(data for _, data in outcome.pieces))
        actual_sender = outcome.actual_sender if outcome.tag & PROPAGATED else None
        return Received(outcome.sender, outcome.tag >> 16, outcome.words[:untyped], strings, actual_sender, outcome.told)


def plain_frame(to: int, from_specifier: int, message: Message, times: int) -> Optional[bytes]:
    """The frame of a call that has both phases, untyped words alone, and no buffers; ``None`` where it is none, or where an argument is wrong."""
    words = message.words
    if message.strings or message.originator is not None or words.__class__ not in _PLAIN_WORDS:
        return None
    count = len(words)
    try:
        pack, body = frames.PLAIN_CALLS[count]
        return pack(body, protocol.IPC, to, from_specifier, times, 0, message.label << 16 | count, 0, 0, *words)
    except (struct.error, TypeError, IndexError):
        return None


def call(own: ThreadId, to: int, from_specifier: int, message: Message, times: int, buffers: Sequence[Buffer]) -> Call:
    """An Ipc with these two timeouts; a wrong argument is a TypeError or a ValueError."""
    if not to:
        message, times = NO_MESSAGE, times & 0xFFFF
    elif not isinstance(message, Message):
        raise arguments.wanted("message", "a Message is", message)
    if not from_specifier:
        buffers, times = (), times & ~0xFFFF
    no_buffers = isinstance(buffers, (tuple, list)) and not buffers
    strings = NO_BUFFERS if no_buffers else BufferStrings(buffers)
    encoded = message.encoded()
    try:
        frame = frames.ipc(to, from_specifier, times, encoded, strings.acceptor, strings.words)
    except struct.error:
        arguments.thread_id("to", to)
        arguments.thread_id("from_specifier", from_specifier)
        raise
    return Call(own, to, from_specifier, message, strings, frame)


def times_of(send: Optional[float], receive: Optional[float]) -> int:
    """The timeouts of a call that has both, by the names of its arguments."""
    return 0 if send is None and receive is None else timeouts(send, receive)
