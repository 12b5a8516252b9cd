"""A server whose frames a test gives, over a pair of sockets."""

import socket
from typing import List, Tuple

from l4ipc import Thread, connecting

connecting.PATIENCE = 0.02
"""The servers of these tests do not end a thread that says BYE, but for those of a test that looks at that."""

WELCOME = bytes.fromhex("00000009 81 0000000200000001")
FAILED = bytes.fromhex("00000022 82 0000000000008000 0000000000000000 0000000000000000 0000000000000004 00")
STRING = bytes.fromhex(
    "00000041 82 0000000000000080 0000000200000001 0000000000000000 0000000000000000 0000000000000c00"
    "0000000000000000 01 0000000000000000 00000003 616263"
)
WORDS = bytes.fromhex(
    "00000032 82 0000000000030002 0000000100000001 0000000000000000 0000000000000000 0000000000000007 0000000000000008 00"
)
DONE = bytes.fromhex("00000022 82 0000000000000000 0000000000000000 0000000000000000 0000000000000000 00")
EXREGR = bytes.fromhex("00000019 83 0000000200000001 0000000000000004 0000000000000000")
REFUSED = bytes.fromhex("00000002 84 02")
BYE = bytes.fromhex("00000001 04")
FAULT = bytes.fromhex("00000003 85 46 01")


def outcome(tag: int, sender: int = 0, actual: int = 0, error: int = 0, words: Tuple[int, ...] = (), pieces: bytes = b"\0") -> bytes:
    """An IPCR frame; the pieces with their count."""
    body = b"\x82" + b"".join(word.to_bytes(8, "big") for word in (tag, sender, actual, error, *words)) + pieces
    return len(body).to_bytes(4, "big") + body


def failed(error: int) -> bytes:
    """An IPCR frame of a call that failed."""
    return outcome(0x8000, error=error)


def in_version_2(frame: bytes, call: int = 5, moment: int = 1_000_000) -> bytes:
    """An IPCR or EXREGR frame of version 1, as it is in version 2."""
    kind, times = {0x82: (b"\x86", (call, moment)), 0x83: (b"\x87", (moment,))}[frame[4]]
    body = kind + b"".join(word.to_bytes(8, "big") for word in times) + frame[5:]
    return len(body).to_bytes(4, "big") + body


def scripted(answers: bytes, number: int = 2, ends: bool = True, version: int = 1) -> Tuple[Thread, socket.socket]:
    """A thread whose HELLO is answered WELCOME 2.1, and whose next calls are answered by these bytes; and the server's side."""
    client, server = socket.socketpair()
    server.sendall(WELCOME + answers)
    if ends:
        server.shutdown(socket.SHUT_WR)
    return Thread.over(client, number, version), server


def said(server: socket.socket) -> List[bytes]:
    """The frames that a thread has written, HELLO first."""
    server.setblocking(False)
    data, frames = b"", []
    try:
        while True:
            more = server.recv(65_536)
            if not more:
                break
            data += more
    except BlockingIOError:
        pass
    while data:
        length = 4 + int.from_bytes(data[:4], "big")
        frames.append(data[:length])
        data = data[length:]
    return frames
