"""Messages, and the buffers for their strings."""

import struct
from dataclasses import dataclass
from typing import List, NamedTuple, NoReturn, Optional, Sequence, Tuple, Union

from . import arguments
from .protocol import NOTHING_TOLD, Told
from .words import MAX_BUFFER_WORDS, MAX_LABEL, MAX_MESSAGE_WORDS, MAX_STRING_BYTES, NILTHREAD, WORD_LIMIT, ThreadId

Bytes = Union[bytes, bytearray, memoryview]
Part = Union[int, bytearray, memoryview]
Buffer = Union[Part, Sequence[Part]]
"""A buffer string: its size in bytes, memory to fill, or a sequence of such parts, its substrings."""

_NOTHING: Tuple[()] = ()
PROPAGATED = 0x1000
FAILED = 0x8000

_WORDS = [struct.Struct(f">{count}Q") for count in range(MAX_MESSAGE_WORDS + 1)]


class Encoded(NamedTuple):
    """A message as the wire has it: its tag, the VirtualSender, the bytes of the words from MR1 on, and those of all strings."""

    tag: int
    originator: int
    registers: bytes
    payload: bytes


@dataclass(frozen=True, init=False)
class Message:
    """A message to send: a label, untyped words (MR1 on), and strings.

    With an ``originator`` it is propagated: the flag p is set, and the originator is the VirtualSender. The receiver is shown it as the
    sender, where it is a live thread of the own space; else it is shown the caller.

    There are at most 63 words, each string taking two of them, and at most 1,048,576 bytes of strings. A label has 48 bits.
    """

    label: int = 0
    words: Sequence[int] = ()
    strings: Sequence[Bytes] = ()
    originator: Optional[int] = None

    def __init__(
        self, label: int = 0, words: Sequence[int] = (), strings: Sequence[Bytes] = (), originator: Optional[int] = None
    ) -> None:
        parts = self.__dict__  # (as a frozen dataclass does, in less time; what is not given is the default of the class)
        parts["label"] = label
        parts["words"] = words
        if strings is not _NOTHING:
            parts["strings"] = strings
        if originator is not None:
            parts["originator"] = originator

    def encoded(self) -> Encoded:
        """The message as the wire has it. A TypeError or a ValueError says why it cannot be sent."""
        if self.strings or self.originator is not None:
            return self._encoded_whole()
        words, label = self.words, self.label
        try:
            if label < 0 or label > MAX_LABEL or isinstance(words, (bytes, bytearray)):
                self._refuse()
            return Encoded(label << 16 | len(words), NILTHREAD, _WORDS[len(words)].pack(*words), b"")
        except (struct.error, TypeError, IndexError, AttributeError):
            self._refuse()

    def _encoded_whole(self) -> Encoded:
        """The same of a message of any kind: each part of it is looked at."""
        label = arguments.integer("label", self.label, 0, MAX_LABEL)
        words = [arguments.integer(f"words[{place}]", word, 0, WORD_LIMIT - 1, "an int of 64 bits is")
                 for place, word in enumerate(arguments.sequence("words", self.words, "ints"))]
        lengths = self.lengths()
        if len(words) + 2 * len(lengths) > MAX_MESSAGE_WORDS:
            raise ValueError(f"words, strings: {len(words)} words and {len(lengths)} strings are more than {MAX_MESSAGE_WORDS} message registers")
        place = 0
        for length in lengths:
            words += [length << 10, place]
            place += length
        if place > MAX_STRING_BYTES:
            raise ValueError(f"strings: they have {place} bytes, which is more than {MAX_STRING_BYTES}")
        flag = 0 if self.originator is None else PROPAGATED
        originator = 0 if self.originator is None else arguments.thread_or_nobody("originator", self.originator)
        tag = label << 16 | flag | 2 * len(lengths) << 6 | len(words) - 2 * len(lengths)
        return Encoded(tag, originator, _WORDS[len(words)].pack(*words), b"".join(self.strings))

    def _refuse(self) -> NoReturn:
        """Says what is wrong with a message that cannot be sent."""
        self._encoded_whole()
        raise ValueError(f"message: {self!r} cannot be sent")

    def tag(self) -> int:
        """The message tag, MR0."""
        return self.encoded().tag

    def lengths(self) -> Tuple[int, ...]:
        """The lengths of the strings."""
        return tuple(_length(place, string) for place, string in enumerate(arguments.sequence("strings", self.strings, "bytes")))


def _length(place: int, string: object) -> int:
    try:
        memory = memoryview(string)  # type: ignore[arg-type]
    except TypeError:
        raise arguments.wanted(f"strings[{place}]", "bytes are", string) from None
    if not memory.c_contiguous:
        raise ValueError(f"strings[{place}]: its bytes do not lie in one piece")
    return memory.nbytes


class Received(NamedTuple):
    """A message that was received.

    ``sender`` is the thread that is shown as its sender, to whom a reply goes. ``actual_sender`` is who sent it where it was propagated,
    else ``None``. A string is ``bytes`` where its buffer was given by a size or by parts, and a ``memoryview`` of the filled front of the
    buffer where that was memory. ``call`` and ``moment`` are the number of the call that received it and the moment at which that was
    over, in microseconds of the server; in version 1 of the wire they are ``None``. ``told`` has all that the version tells besides.
    """

    sender: ThreadId
    label: int
    words: Tuple[int, ...]
    strings: Tuple[Union[bytes, memoryview], ...] = ()
    actual_sender: Optional[ThreadId] = None
    told: Told = NOTHING_TOLD

    @property
    def call(self) -> Optional[int]:
        """The number of the call that received it."""
        return self.told.call

    @property
    def moment(self) -> Optional[int]:
        """The moment at which that was over."""
        return self.told.moment


class BufferStrings:
    """The buffer strings of a receive: where each substring lies, and the words that say so.

    The substrings lie end to end in a range of numbers that begins at 0. These are the pointers of the words, and the pieces of a
    message come back with them.
    """

    def __init__(self, buffers: Sequence[Buffer]) -> None:
        self.strings: List[List[Tuple[int, int, Optional[memoryview]]]] = []
        self._given = list(arguments.sequence("buffers", buffers, "buffers"))
        place = 0
        for number, buffer in enumerate(self._given):
            parts = []
            for part in _parts(f"buffers[{number}]", buffer):
                length, memory = _memory(f"buffers[{number}]", part)
                parts.append((place, length, memory))
                place += length
            self.strings.append(parts)
        self.words = [word for parts in self.strings for word in _item(parts)]
        if len(self.words) > MAX_BUFFER_WORDS:
            raise ValueError(f"buffers: they take {len(self.words)} words, which is more than {MAX_BUFFER_WORDS} buffer registers")

    @property
    def acceptor(self) -> int:
        """BR0: bit 0 says that strings are accepted."""
        return 1 if self.strings else 0

    def pieces_of(self, lengths: Sequence[int]) -> Optional[List[Tuple[int, int]]]:
        """Where the bytes of strings of these lengths belong, as pointers and lengths; ``None`` where they do not fit."""
        if len(lengths) > len(self.strings):
            return None
        pieces = []
        for left, parts in zip(lengths, self.strings):
            for pointer, length, _ in parts:
                taken = min(left, length)
                if taken:
                    pieces.append((pointer, taken))
                left -= taken
            if left:
                return None
        return pieces

    def first_pointer(self, place: int) -> int:
        """The first pointer of a buffer string."""
        return self.strings[place][0][0]

    def fill(self, lengths: Sequence[int], data: Bytes) -> Tuple[Union[bytes, memoryview], ...]:
        """Puts strings of these lengths, which lie end to end in the data, into the memory of the buffers, and answers them."""
        taken, strings, data = 0, [], memoryview(data)
        for place, whole in enumerate(lengths):
            string, filled = data[taken : taken + whole], 0
            taken += whole
            for _, length, memory in self.strings[place]:
                piece = string[filled : filled + length]
                if memory is not None and len(piece):
                    memory[: len(piece)] = piece
                filled += len(piece)
            only = self.strings[place][0][2]
            is_memory = not isinstance(self._given[place], (list, tuple))
            strings.append(only[:whole] if is_memory and only is not None else bytes(string))
        return tuple(strings)


NO_BUFFERS = BufferStrings(())


def _parts(name: str, buffer: object) -> Sequence[object]:
    """The parts of a buffer: a list or a tuple has some, anything else is one."""
    if not isinstance(buffer, (list, tuple)):
        return [buffer]
    if not buffer:
        raise ValueError(f"{name}: a buffer string without a part")
    return buffer


def _memory(name: str, part: object) -> Tuple[int, Optional[memoryview]]:
    """The length of a part, and its memory where it brings some."""
    if hasattr(part, "__index__"):
        return arguments.integer(name, part, 0, (1 << 54) - 1), None
    try:
        memory = memoryview(part)  # type: ignore[arg-type]
    except TypeError:
        raise arguments.wanted(name, "a size, a bytearray, a memoryview, or a list of these is", part) from None
    if memory.readonly:
        raise ValueError(f"{name}: {type(part).__name__} cannot be written; a buffer is a size or a bytearray")
    if not memory.c_contiguous:
        raise ValueError(f"{name}: its bytes do not lie in one piece")
    memory = memory.cast("B")
    return len(memory), memory


def _item(parts: List[Tuple[int, int, Optional[memoryview]]]) -> List[int]:
    """The words of a buffer string: for each run of parts of one length a descriptor and the pointers."""
    words: List[int] = []
    place = 0
    while place < len(parts):
        length = parts[place][1]
        run = place + 1
        while run < len(parts) and run - place < 32 and parts[run][1] == length:
            run += 1
        continues = 1 if run < len(parts) else 0
        words.append(length << 10 | continues << 9 | (run - place - 1) << 4)
        words += [pointer for pointer, _, _ in parts[place:run]]
        place = run
    return words
