"""Frames in bytes, both ways: the one codec of the checks and benches. Its numbers stand in protocol_tables.py, which is made from protocol/."""

import struct
from collections import namedtuple

from protocol_tables import FRAMES, MAX_BODY_BYTES, PIECE_FIELDS

NIL, ANY, LOCAL = 0, 0xFFFF_FFFF_FFFF_FFFF, 0xFFFF_FFFF_FFFF_FFC0
# Bits of a tag.
PROPAGATED, REDIRECTED, CROSSED, FAILED = 0x1000, 0x2000, 0x4000, 0x8000
# A frame before its body, and with the kind with which the body begins.
LENGTH_BYTES, HEAD_BYTES = 4, 5

# A body length that is too long.
TOO_LONG = struct.pack(">I", MAX_BODY_BYTES + 1)

_FIELDS = {name: struct.Struct(f">{it.format}") for name, it in FRAMES.items()}
_NAMED = {name: namedtuple(name, it.names) for name, it in FRAMES.items()}
# The frames of an outcome by their versions, and how many numbers stand before those that all versions tell.
_OUTCOMES = {it.version: name for name, it in FRAMES.items() if name.partition("_")[0] == "IPCR"}
_BY_TOLD = {len(FRAMES[name].names) - len(FRAMES["IPCR"].names): name for name in _OUTCOMES.values()}
_PIECE = struct.Struct(f">{PIECE_FIELDS}")
PIECE_BYTES = _PIECE.size


def thread_id(number, version=1):
    return number << 32 | version


def words_bytes(words):
    """Words as they stand in a frame."""
    return struct.pack(f">{len(words)}Q", *words)


def words_in(data):
    """The words that bytes are."""
    return struct.unpack(f">{len(data) // 8}Q", data)


def place_in(name, field):
    """At which byte of a frame a field begins."""
    it = FRAMES[name]
    return HEAD_BYTES + struct.calcsize(f">{it.format[: it.names.index(field)]}")


def frame(kind, body=b""):
    """A frame of any kind, also of one that there is not."""
    return struct.pack(">IB", len(body) + 1, kind) + body


def frame_of(name, *fields, tail=b"", length=None):
    """A frame by its name. It may say another body length than it has."""
    made = frame(FRAMES[name].kind, _FIELDS[name].pack(*fields) + tail)
    return made if length is None else head_of(length, made[LENGTH_BYTES]) + made[HEAD_BYTES:]


def head_of(length, kind):
    """What a frame begins with: its body length and its kind."""
    return struct.pack(">IB", length, kind)


def read_head(data):
    """The body length and the kind that a frame begins with."""
    return struct.unpack_from(">IB", data)


def whole_in(data):
    """The whole frames with which bytes begin, and the bytes behind them."""
    whole = []
    while len(data) >= LENGTH_BYTES and len(data) >= LENGTH_BYTES + int.from_bytes(data[:LENGTH_BYTES], "big"):
        size = LENGTH_BYTES + int.from_bytes(data[:LENGTH_BYTES], "big")
        whole.append(data[:size])
        data = data[size:]
    return whole, data


def size_of(name):
    """How many bytes the fields of a frame take."""
    return _FIELDS[name].size


def fields_in(name, data):
    """The fields of a frame by their names, from the bytes behind its kind."""
    return _NAMED[name](*_FIELDS[name].unpack_from(data))


# What a client sends.


def hello(number, version=1):
    """HELLO, of version 1 or of any other one that a frame can name."""
    return frame_of("HELLO", number) if version == 1 else frame_of("HELLO_2", number, version)


def ipc(to, source, words=(), timeouts=0, sender=0, tag=None, buffers=(), payload=b""):
    """An IPC frame. Without a tag of its own it has untyped words alone; strings are accepted where there are buffer words."""
    tag = len(words) if tag is None else tag
    tail = words_bytes((*words, *buffers)) + payload
    return frame_of("IPC", to, source, timeouts, sender, tag, 1 if buffers else 0, len(buffers), tail=tail)


def exreg(target, control):
    return frame_of("EXREG", target, control)


BYE = frame_of("BYE")


# What a server sends.


def welcome(thread):
    return frame_of("WELCOME", thread)


def ipcr(tag=None, sender=0, actual=0, error=0, words=(), pieces=(), ended=()):
    """An IPCR frame: of the version that tells of the call as much as `ended` has. Without a tag of its own it has untyped words alone, and E is set where
    there is an error. A piece is a pointer and bytes."""
    words = tuple(words)
    tag = len(words) | (FAILED if error else 0) if tag is None else tag
    tail = words_bytes(words) + bytes([len(pieces)]) + b"".join(piece(pointer, data) for pointer, data in pieces)
    return frame_of(_BY_TOLD[len(ended)], *ended, tag, sender, actual, error, tail=tail)


def piece(pointer, data):
    """The bytes of a piece."""
    return _PIECE.pack(pointer, len(data)) + data


def piece_in(data):
    """The pointer and the length with which a piece begins."""
    return _PIECE.unpack_from(data)


def exregr(result, control=0, code=0, moment=None):
    """An EXREGR frame: of version 2 where there is a moment."""
    return frame_of("EXREGR", result, control, code) if moment is None else frame_of("EXREGR_2", moment, result, control, code)


def refused(number):
    return frame_of("REFUSED", number)


def fault(letter, number):
    return frame_of("FAULT", ord(letter), number)


class Outcome:
    """What an IPCR says, from the bytes behind its kind. `told` is what its version tells besides; of it the number of the call and the moment at which that
    was over, None in version 1."""

    def __init__(self, body, version=1):
        name = _OUTCOMES[max(it for it in _OUTCOMES if it <= version)]
        fields = fields_in(name, body)
        self.told = {it: value for it, value in fields._asdict().items() if it not in FRAMES["IPCR"].names}
        self.call, self.moment = self.told.get("call"), self.told.get("moment")
        self.tag, self.sender, self.actual, self.error = fields.tag, fields.sender, fields.actual_sender, fields.error
        count = (self.tag & 63) + (self.tag >> 6 & 63)
        self.words = struct.unpack_from(f">{count}Q", body, size_of(name))
        self.pieces, rest = [], body[size_of(name) + 8 * count + 1 :]
        while rest:
            pointer, length = piece_in(rest)
            self.pieces.append((pointer, rest[PIECE_BYTES : PIECE_BYTES + length]))
            rest = rest[PIECE_BYTES + length :]
        self.has_failed = bool(self.tag & FAILED)
