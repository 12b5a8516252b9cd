"""L4 X.2 synchronous IPC between processes: a client of l4d.

A `Thread` is a connection to the server. Its calls are those of the manual: `send`, `receive`, `wait`, `call`, `reply_wait`, `sleep` and
`exchange_registers`. `serve` is the loop of a server.
`begin_wait` and `finish` are for programs that wait for other things, too. `names` finds other threads by their names, and `who` their processes.
"""

from . import names
from .errors import Aborted, BadFrame, Cancelled, Closed, Fault, IpcError, L4Error, LateAnswer, NoPartner, Overflow, Refused, Timeout
from .exchanging import Exchanged
from .message import Buffer, Message, Received
from .names import NameFault, NameTimeout, NoNames, Unanswered, Unregistered
from .serving import FUNCTION_FAILED
from .thread import Thread
from .words import ANYLOCALTHREAD, ANYTHREAD, NILTHREAD, ThreadId, period, seconds_of

__all__ = [
    "ANYLOCALTHREAD",
    "ANYTHREAD",
    "Aborted",
    "BadFrame",
    "Buffer",
    "Cancelled",
    "Closed",
    "Exchanged",
    "FUNCTION_FAILED",
    "Fault",
    "IpcError",
    "L4Error",
    "LateAnswer",
    "Message",
    "NILTHREAD",
    "NameFault",
    "NameTimeout",
    "NoNames",
    "NoPartner",
    "Overflow",
    "Received",
    "Refused",
    "Thread",
    "ThreadId",
    "Timeout",
    "Unanswered",
    "Unregistered",
    "names",
    "period",
    "seconds_of",
]
