"""The numbers of the protocol, as docs/FORMATS.md has them. Made by protocol/generate.py: not edited by hand."""

from typing import Dict, NamedTuple, Optional, Tuple

MAX_THREAD_NUMBER = 1_023
MAX_SPACE = 64
MAX_MESSAGE_WORDS = 63
MAX_STRING_BYTES = 1_048_576
MAX_BUFFER_WORDS = 32
MAX_LABEL_BITS = 48
MAX_PERIOD = 2_196_875_771_904
MAX_BODY_BYTES = 2_097_152
MAX_PATH_BYTES = 107
MAX_NAMES = 256
MAX_NAME_BYTES = 64

VERSIONS = (1, 2)

HELLO = 0x01
IPC = 0x02
EXREG = 0x03
BYE = 0x04
WELCOME = 0x81
IPCR = 0x82
EXREGR = 0x83
IPCR_2 = 0x86
EXREGR_2 = 0x87
REFUSED = 0x84
FAULT = 0x85

# The body length of a request, of IPC the least one.
HELLO_BODY = 3
HELLO_2_BODY = 5
IPC_BODY = 46
EXREG_BODY = 17
BYE_BODY = 1

# The fields behind the kind, as struct spells them; all numbers have the most significant byte first.
HELLO_FIELDS = "H"
HELLO_2_FIELDS = "HH"
IPC_FIELDS = "QQIQQQB"
EXREG_FIELDS = "QQ"
WELCOME_FIELDS = "Q"
IPCR_FIELDS = "QQQQ"
EXREGR_FIELDS = "QQQ"
IPCR_2_FIELDS = "QQQQQQ"
EXREGR_2_FIELDS = "QQQQ"
REFUSED_FIELDS = "B"
FAULT_FIELDS = "BB"
PIECE_FIELDS = "QI"

# Of each kind of an outcome its fields: what its version tells, and the tag, the sender, the ActualSender and the ErrorCode.
OUTCOMES: Dict[int, str] = {
    IPCR: IPCR_FIELDS,
    IPCR_2: IPCR_2_FIELDS,
}


class Told(NamedTuple):
    """What a later version tells of an Ipc, as docs/FORMATS.md has it; ``None`` is what was not told."""

    call: Optional[int] = None
    moment: Optional[int] = None


NOTHING_TOLD = Told()

# The body length of an answer; of one that can grow the least one.
LENGTHS: Dict[int, int] = {
    WELCOME: 9,
    EXREGR: 25,
    EXREGR_2: 33,
    REFUSED: 2,
    FAULT: 3,
}
LEAST_LENGTHS: Dict[int, int] = {
    IPCR: 34,
    IPCR_2: 50,
}

# Of each version the kinds that only another one has.
OF_ANOTHER_VERSION: Dict[int, Tuple[int, ...]] = {
    1: (IPCR_2, EXREGR_2),
    2: (IPCR, EXREGR),
}

# The classes of codes that a FAULT tells.
CLASSES = (0x4b, 0x46, 0x53)

K_BAD_NUMBER = 1
K_NUMBER_TAKEN = 2
K_NUMBER_WORN = 3
K_NO_MEMORY = 4
K_HISTORY_FULL = 5
K_NO_THREAD = 6
K_BUSY = 7
K_CALLS_SPENT = 8
F_TOO_LONG = 1
F_UNKNOWN_KIND = 2
F_WRONG_SIZE = 3
F_TOO_MANY_WORDS = 4
F_PAST_WORDS = 5
F_RESERVED_BIT = 6
F_OUTSIDE_PAYLOAD = 7
F_TOO_MANY_BYTES = 8
F_UNFINISHED = 9
F_DEVICE = 10
F_INTERRUPTED = 11
F_TIME_POINT = 12
F_SPENT = 13
F_NO_MEMORY = 14
F_UNKNOWN_VERSION = 15

# What each code means.
REFUSALS: Dict[int, str] = {
    1: "the thread number is not 1 to 1023, or the space is not 1 to 64",
    2: "a thread of that number is live",
    3: "the versions of that thread number are used up",
    4: "the server has no memory",
    5: "the history of the server is full: of open calls, or of what its trace has not written yet",
    6: "no such thread is live",
    7: "the thread has an open call, or an outcome that it has not yet taken",
    8: "the number of the call would pass the limit",
}
FAULTS: Dict[int, str] = {
    1: "a frame has a body of more than 2,097,152 bytes",
    2: "a frame is of no kind that this side is sent",
    3: "a frame has a body length that its kind doesn't have",
    4: "a frame has more than 63 words or more than 32 buffer words",
    5: "an item runs past its words, or its c is set and no item comes after it",
    6: "bit 3 of a descriptor of a string or of a buffer is 1",
    7: "a string has a range that is not in the payload",
    8: "the strings have more than 1,048,576 bytes together",
    9: "the connection ended",
    10: "the connection failed",
    11: "1,000 turns in a row were interrupted",
    12: "a timeout that is no period",
    13: "the reader was asked again after a fault",
    14: "the server has no memory",
    15: "a HELLO names a version that there is not",
}
SESSION_ENDS: Dict[int, str] = {
    1: "a frame has no place there: an IPC or EXREG before HELLO, or HELLO after WELCOME",
    2: "the device of the connection failed",
    3: "the server stops",
    4: "65,535 connections have come, so no more can",
    5: "the thread is gone, or its answers are no longer taken",
}
NAME_ERRORS: Dict[int, str] = {
    1: "bad request",
    2: "bad name",
    3: "taken",
    4: "full",
    5: "no memory",
}

# What went wrong in a phase: e of an ErrorCode.
E_TIMEOUT = 1
E_NON_EXISTING_PARTNER = 2
E_CANCELLED = 3
E_MESSAGE_OVERFLOW = 4
E_ABORTED = 7
ERRORS: Dict[int, str] = {
    1: "timeout",
    2: "non-existing partner",
    3: "cancelled by another thread",
    4: "message overflow",
    7: "aborted by another thread, or its partner ended",
}
