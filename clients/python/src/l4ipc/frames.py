"""Frames: what goes over the socket, in each version of the wire. docs/FORMATS.md has them."""

import struct
from dataclasses import dataclass
from typing import List, NamedTuple, Optional, Sequence, Tuple, Union

from . import arguments, protocol
from .errors import BadFrame
from .message import Bytes, Encoded, Received
from .protocol import (
    BYE, BYE_BODY, EXREG, EXREG_BODY, EXREG_FIELDS, EXREGR, EXREGR_2, EXREGR_2_FIELDS, EXREGR_FIELDS, HELLO, HELLO_2_BODY, HELLO_2_FIELDS,
    HELLO_BODY, HELLO_FIELDS, IPC, IPC_BODY, IPC_FIELDS, IPCR, IPCR_FIELDS, NOTHING_TOLD, PIECE_FIELDS, REFUSED, VERSIONS, WELCOME,
    Told,
)
from .words import MAX_MESSAGE_WORDS, ThreadId

MAX_BODY = protocol.MAX_BODY_BYTES
"""How many bytes the body of a frame has at most."""

_IPC_HEAD = struct.Struct(f">IB{IPC_FIELDS}")
_OUTCOME_HEADS = {kind: struct.Struct(f">{fields}") for kind, fields in protocol.OUTCOMES.items()}
_PIECE = struct.Struct(f">{PIECE_FIELDS}")
_received = tuple.__new__
PLAIN_CALLS = [(struct.Struct(f">IB{IPC_FIELDS}{count}Q").pack, IPC_BODY + 8 * count) for count in range(MAX_MESSAGE_WORDS + 1)]
"""Of calls that have so many untyped words alone and accept no strings: what packs the whole frame, and the body length."""
# Of outcomes that have so many untyped words and no pieces, by their lengths: the form of the whole frame, and the body length and the words.
_PLAIN_FORMS = [struct.Struct(f">IB{IPCR_FIELDS}{count}QB") for count in range(MAX_MESSAGE_WORDS + 1)]
_PLAIN_OUTCOMES = {form.size: (form.unpack, form.size - 4, count) for count, form in enumerate(_PLAIN_FORMS)}


class Outcome(NamedTuple):
    """An IPCR frame: what became of a call, and what its version tells besides."""

    tag: int
    sender: ThreadId
    actual_sender: ThreadId
    error: int
    words: Tuple[int, ...]
    pieces: Tuple[Tuple[int, memoryview], ...]
    told: Told = NOTHING_TOLD


@dataclass(frozen=True)
class Welcome:
    """A WELCOME frame: the id of the thread."""

    thread: ThreadId


@dataclass(frozen=True)
class Exchanged:
    """An EXREGR frame: what ExchangeRegisters answers, from version 2 on with its moment."""

    result: ThreadId
    control: int
    code: int
    moment: Optional[int] = None


@dataclass(frozen=True)
class Refusal:
    """A REFUSED frame: the number after K."""

    number: int


@dataclass(frozen=True)
class FaultTold:
    """A FAULT frame."""

    letter: int
    number: int


Answer = Union[Welcome, Outcome, Exchanged, Refusal, FaultTold]


def hello(number: int, version: int = 1) -> bytes:
    """HELLO: asks for the thread of a number, and for answers of a version."""
    number = arguments.integer("number", number, 0, (1 << 16) - 1)
    version = arguments.integer("version", version, VERSIONS[0], VERSIONS[-1])
    if version == 1:
        return struct.pack(f">IB{HELLO_FIELDS}", HELLO_BODY, HELLO, number)
    return struct.pack(f">IB{HELLO_2_FIELDS}", HELLO_2_BODY, HELLO, number, version)


def bye() -> bytes:
    """BYE: no more frames come."""
    return struct.pack(">IB", BYE_BODY, BYE)


def exreg(dest: int, control: int) -> bytes:
    """EXREG: ExchangeRegisters."""
    return struct.pack(f">IB{EXREG_FIELDS}", EXREG_BODY, EXREG, dest, control)


def ipc(to: int, from_specifier: int, timeouts: int, message: Encoded, acceptor: int, buffer_words: Sequence[int]) -> bytes:
    """IPC: one Ipc system call."""
    tag, originator, registers, payload = message
    count = len(buffer_words)
    body = IPC_BODY + len(registers) + 8 * count + len(payload)
    head = _IPC_HEAD.pack(body, IPC, to, from_specifier, timeouts, originator, tag, acceptor, count)
    if not count:
        return head + registers + payload
    return b"".join((head, registers, struct.pack(f">{count}Q", *buffer_words), payload))


def body_length(head: bytes) -> int:
    """The body length that the first four bytes of a frame say."""
    length = int.from_bytes(head[:4], "big")
    if length == 0:
        raise BadFrame("a frame without a body")
    if length > MAX_BODY:
        raise BadFrame(f"a body of {length} bytes")
    return length


def check_kind(kind: int, length: int, version: int = 1) -> None:
    """Looks whether a body of this kind may come in this version, and have this length."""
    if kind in protocol.OF_ANOTHER_VERSION[version]:
        raise BadFrame(f"a frame of kind {kind:#x}, which version {version} does not have")
    if kind in protocol.LEAST_LENGTHS:
        fits = length >= protocol.LEAST_LENGTHS[kind]
    elif kind in protocol.LENGTHS:
        fits = length == protocol.LENGTHS[kind]
    else:
        raise BadFrame(f"a frame of kind {kind:#x}")
    if not fits:
        raise BadFrame(f"a frame of kind {kind:#x} with a body of {length} bytes")


def read(body: Bytes, version: int = 1) -> Answer:
    """The frame of a body. Its kind and its length were looked at before."""
    body = memoryview(body)
    check_kind(body[0], len(body), version)
    kind = body[0]
    head = _OUTCOME_HEADS.get(kind)
    if head is not None:
        *told, tag, sender, actual_sender, error = head.unpack_from(body, 1)
        return _outcome(body[1 + head.size :], Told(*told), tag, ThreadId(sender), ThreadId(actual_sender), error)
    if kind == WELCOME:
        return Welcome(ThreadId.from_bytes(body[1:9], "big"))
    if kind == EXREGR:
        result, control, code = struct.unpack(f">{EXREGR_FIELDS}", body[1:])
        return Exchanged(ThreadId(result), control, code)
    if kind == EXREGR_2:
        moment, result, control, code = struct.unpack(f">{EXREGR_2_FIELDS}", body[1:])
        return Exchanged(ThreadId(result), control, code, moment)
    if kind == REFUSED:
        return Refusal(body[1])
    return FaultTold(body[1], body[2])


def plain_received(data: bytes) -> Optional[Received]:
    """The message that these bytes bring, if they are one outcome of version 1 that did not fail, and has untyped words alone; else ``None``."""
    form = _PLAIN_OUTCOMES.get(len(data))
    if form is None:
        return None
    unpack, body, count = form
    fields = unpack(data)
    tag = fields[2]
    # the lower half of the tag has the number of untyped words, and behind it typed words and the flags
    if tag & 0xFFFF != count or fields[1] != IPCR or fields[0] != body or fields[-1]:
        return None
    return _received(Received, (ThreadId(fields[3]), tag >> 16, fields[6:-1], (), None, NOTHING_TOLD))


def _outcome(tail: memoryview, told: Told, tag: int, sender: ThreadId, actual_sender: ThreadId, error: int) -> Outcome:
    """The outcome of these fields, and of the words and pieces behind them."""
    count = (tag & 0x3F) + (tag >> 6 & 0x3F)
    if count > MAX_MESSAGE_WORDS:
        raise BadFrame(f"a tag of {count} words")
    place = 8 * count
    if place >= len(tail):
        raise BadFrame("an outcome that is too short for its words")
    words = struct.unpack_from(f">{count}Q", tail)
    pieces = _pieces(tail[place + 1 :], tail[place])
    return Outcome(tag, sender, actual_sender, error, words, pieces, told)


def _pieces(body: memoryview, count: int) -> Tuple[Tuple[int, memoryview], ...]:
    pieces: List[Tuple[int, memoryview]] = []
    place = 0
    for _ in range(count):
        if len(body) - place < _PIECE.size:
            raise BadFrame("a piece past the body")
        pointer, length = _PIECE.unpack_from(body, place)
        place += _PIECE.size
        if length == 0 or length > len(body) - place:
            raise BadFrame(f"a piece of {length} bytes")
        pieces.append((pointer, body[place : place + length]))
        place += length
    if place != len(body):
        raise BadFrame("bytes behind the last piece")
    return tuple(pieces)


def string_lengths(outcome: Outcome) -> Optional[List[int]]:
    """The lengths of the strings that the typed words say; ``None`` where they are no simple items."""
    items = outcome.words[outcome.tag & 0x3F :]
    if len(items) % 2 or any(item & 0x3FF for item in items[::2]):
        return None
    return [item >> 10 for item in items[::2]]
