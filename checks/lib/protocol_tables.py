"""The numbers of the protocol, for the checks and benches. Made by protocol/generate.py: not edited by hand."""

from collections import namedtuple

# A kind of frame: its byte, who reads it, its version, its fields as struct spells them and by name, its body length, of one with a tail the least.
Frame = namedtuple("Frame", "kind to version format names body has_tail")

FRAMES = {
    "HELLO": Frame(0x01, "server", 1, "H", ("number",), 3, False),
    "HELLO_2": Frame(0x01, "server", 2, "HH", ("number", "version"), 5, False),
    "IPC": Frame(0x02, "server", 1, "QQIQQQB", ("to", "from_specifier", "timeouts", "originator", "tag", "acceptor", "buffer_words"), 46, True),
    "EXREG": Frame(0x03, "server", 1, "QQ", ("dest", "control"), 17, False),
    "BYE": Frame(0x04, "server", 1, "", (), 1, False),
    "WELCOME": Frame(0x81, "client", 1, "Q", ("thread",), 9, False),
    "IPCR": Frame(0x82, "client", 1, "QQQQ", ("tag", "sender", "actual_sender", "error"), 34, True),
    "EXREGR": Frame(0x83, "client", 1, "QQQ", ("result", "control", "code"), 25, False),
    "IPCR_2": Frame(0x86, "client", 2, "QQQQQQ", ("call", "moment", "tag", "sender", "actual_sender", "error"), 50, True),
    "EXREGR_2": Frame(0x87, "client", 2, "QQQQ", ("moment", "result", "control", "code"), 33, False),
    "REFUSED": Frame(0x84, "client", 1, "B", ("number",), 2, False),
    "FAULT": Frame(0x85, "client", 1, "BB", ("letter", "number"), 3, False),
}

HELLO = 0x01
IPC = 0x02
EXREG = 0x03
BYE = 0x04
WELCOME = 0x81
IPCR = 0x82
EXREGR = 0x83
IPCR_2 = 0x86
EXREGR_2 = 0x87
REFUSED = 0x84
FAULT = 0x85
PIECE_FIELDS = "QI"
VERSIONS = (1, 2,)

# The limits.
MAX_THREAD_NUMBER = 1_023
MAX_SPACE = 64
MAX_TABLE_SLOTS = 1_024
MAX_VERSIONS = 4_227_858_432
MAX_CONNECTIONS = 65_535
MAX_MESSAGE_WORDS = 63
MAX_STRINGS = 31
MAX_STRING_BYTES = 1_048_576
MAX_TOO_MANY_BYTES = 1_048_577
MAX_BUFFER_WORDS = 32
MAX_SUBSTRINGS = 31
MAX_SUBSTRING_LENGTH = 0x40_0000_0000_0000
MAX_LABEL_BITS = 48
MAX_MOMENT = 0x7fff_ffff_ffff_ffff
MAX_PERIOD = 2_196_875_771_904
MAX_ENTRIES = 1_048_576
MAX_TOO_MANY_ENTRIES = 1_048_577
MAX_CALLS = 4_294_967_295
MAX_BLOCK_BYTES = 65_536
MAX_OUTPUTS = 4_092
MAX_COMMAND_ENTRIES = 4_094
MAX_NEED_OF_OPEN = 4
MAX_NEED_OF_CALL = 7
MAX_NEED_OF_BLOCK = 2
MAX_NEED_OF_EXCHANGE = 2
MAX_PLEDGE_OF_THREAD = 2
MAX_PLEDGE_OF_OPEN_CALL = 5
MAX_PLEDGE_OF_BLOCK = 2
MAX_LINE_BYTES = 2_105_343
MAX_WHOLE_LINE_BYTES = 2_105_344
MAX_BODY_BYTES = 2_097_152
MAX_TOO_LONG_BODY = 2_097_153
MAX_PIECES = 255
MAX_CHART_ENTRY = 4_294_967_295
MAX_PATH_BYTES = 107
MAX_NAMES = 256
MAX_NAME_BYTES = 64
MAX_INTERRUPTED_TURNS = 1_000

# The codes by the letters of their family, and what the clients say of each.
K_BAD_NUMBER = 1
K_NUMBER_TAKEN = 2
K_NUMBER_WORN = 3
K_NO_MEMORY = 4
K_HISTORY_FULL = 5
K_NO_THREAD = 6
K_BUSY = 7
K_CALLS_SPENT = 8
F_TOO_LONG = 1
F_UNKNOWN_KIND = 2
F_WRONG_SIZE = 3
F_TOO_MANY_WORDS = 4
F_PAST_WORDS = 5
F_RESERVED_BIT = 6
F_OUTSIDE_PAYLOAD = 7
F_TOO_MANY_BYTES = 8
F_UNFINISHED = 9
F_DEVICE = 10
F_INTERRUPTED = 11
F_TIME_POINT = 12
F_SPENT = 13
F_NO_MEMORY = 14
F_UNKNOWN_VERSION = 15
S_PROTOCOL = 1
S_DEVICE = 2
S_STOPPED = 3
S_GONE = 5
C_NOT_CONNECTED = 1
C_NO_REGISTER = 2
C_LEFT_OUT_CONTROL = 3
C_NOT_AN_ANSWER = 4
C_IS_CONNECTED = 5
C_NO_PATH = 6
C_NOBODY_THERE = 7
C_NO_VERSION = 8
C_IS_FORKED = 9
C_CALL_IS_OPEN = 10
C_NO_ITEM = 11
C_NO_MEMORY_THERE = 12
C_NO_WELCOME = 13
C_NOT_BEGUN = 14
N_BAD_REQUEST = 1
N_BAD_NAME = 2
N_NAME_TAKEN = 3
N_SERVER_FULL = 4
N_NO_MEMORY = 5
N_NO_NAME_SERVER = 6
N_NOBODY_HAS_NAME = 7
CODES = {
    "K": {1: "BadNumber", 2: "NumberTaken", 3: "NumberWorn", 4: "NoMemory", 5: "HistoryFull", 6: "NoThread", 7: "Busy", 8: "CallsSpent"},
    "F": {1: "TooLong", 2: "UnknownKind", 3: "WrongSize", 4: "TooManyWords", 5: "PastWords", 6: "ReservedBit", 7: "OutsidePayload", 8: "TooManyBytes", 9: "Unfinished", 10: "Device", 11: "Interrupted", 12: "TimePoint", 13: "Spent", 14: "NoMemory", 15: "UnknownVersion"},
    "S": {1: "Protocol", 2: "Device", 3: "Stopped", 4: "", 5: "Gone"},
    "TR": {1: "DeviceFailed", 2: "Stopped", 3: "Torn", 4: "BadLine", 5: "NoMemory", 6: "UnknownVersion"},
    "C": {1: "NotConnected", 2: "NoRegister", 3: "LeftOutControl", 4: "NotAnAnswer", 5: "IsConnected", 6: "NoPath", 7: "NobodyThere", 8: "NoVersion", 9: "IsForked", 10: "CallIsOpen", 11: "NoItem", 12: "NoMemoryThere", 13: "NoWelcome", 14: "NotBegun"},
    "N": {1: "BadRequest", 2: "BadName", 3: "NameTaken", 4: "ServerFull", 5: "NoMemory", 6: "NoNameServer", 7: "NobodyHasName"},
}
MEANINGS = {
    "K1": "the thread number is not 1 to 1023, or the space is not 1 to 64",
    "K2": "a thread of that number is live",
    "K3": "the versions of that thread number are used up",
    "K4": "the server has no memory",
    "K5": "the history of the server is full: of open calls, or of what its trace has not written yet",
    "K6": "no such thread is live",
    "K7": "the thread has an open call, or an outcome that it has not yet taken",
    "K8": "the number of the call would pass the limit",
    "F1": "a frame has a body of more than 2,097,152 bytes",
    "F2": "a frame is of no kind that this side is sent",
    "F3": "a frame has a body length that its kind doesn't have",
    "F4": "a frame has more than 63 words or more than 32 buffer words",
    "F5": "an item runs past its words, or its c is set and no item comes after it",
    "F6": "bit 3 of a descriptor of a string or of a buffer is 1",
    "F7": "a string has a range that is not in the payload",
    "F8": "the strings have more than 1,048,576 bytes together",
    "F9": "the connection ended",
    "F10": "the connection failed",
    "F11": "1,000 turns in a row were interrupted",
    "F12": "a timeout that is no period",
    "F13": "the reader was asked again after a fault",
    "F14": "the server has no memory",
    "F15": "a HELLO names a version that there is not",
    "S1": "a frame has no place there: an IPC or EXREG before HELLO, or HELLO after WELCOME",
    "S2": "the device of the connection failed",
    "S3": "the server stops",
    "S4": "65,535 connections have come, so no more can",
    "S5": "the thread is gone, or its answers are no longer taken",
    "C1": "the thread is not connected",
    "C2": "a register that is not there",
    "C3": "a control of ExchangeRegisters with other bits than R and S",
    "C4": "the server sent what is no answer to the call",
    "C5": "the thread is connected already",
    "C6": "the path of the space is too long for a socket",
    "C7": "ExchangeRegisters of what is no live thread of the caller's space",
    "C8": "the wire has no such version",
    "C9": "the connection stayed with the process that forked this one",
    "C10": "a call of the thread is open: l4_ipc_begin began it, longjmp left it, or a signal handler calls within it",
    "C11": "no string item, or not such as the function takes: a size below 0, too many substrings, or another u or t of L4_MsgPut",
    "C12": "a string or a buffer lies in memory that is not there",
    "C13": "the server is full or does not answer",
    "C14": "no call was begun that could be ended",
    "N1": "no request of a name server",
    "N2": "a name has 1 to 64 bytes of printable ASCII without the space",
    "N3": "another live thread has the name",
    "N4": "the name server is full",
    "N5": "the name server has no memory",
    "N6": "there is no name server",
    "N7": "no live thread has the name",
}

# What went wrong in a phase: e of an ErrorCode.
ERRORS = {
    1: "timeout",
    2: "non-existing partner",
    3: "cancelled by another thread",
    4: "message overflow",
    7: "aborted by another thread, or its partner ended",
}

# The entries of a trace by their words, with the fields behind them.
ENTRIES = {
    "at": ("MOMENT",),
    "opened": ("ID", "SPACE",),
    "called": ("N", "CALL",),
    "exreg": ("ID", "TARGET", "CONTROL",),
    "broke": ("ID",),
    "moved": ("N", "BYTES",),
    "began": ("N", "M",),
    "turned": ("M", "ID",),
    "ended": ("N", "M",),
    "overflowed": ("N", "M", "OFFSET",),
    "aborted": ("N", "M", "BYTES",),
    "failed": ("N", "CODE",),
}
