#!/usr/bin/env python3
"""Two processes that call each other through l4d by frames made by hand: a server that adds 1 to each word, and a client of it.

    echo.py DIR serve        is thread 1: receives from anythread, replies, and waits for the next
    echo.py DIR ask WORD     is thread 2: calls thread 1.1 with a word, and prints the word that comes back

Frames are those of docs/FORMATS.md. What this needs of them stands below. A program that is to be used takes the package of clients/python.
"""

import os
import socket
import struct
import sys

NIL, ANY = 0, 0xFFFF_FFFF_FFFF_FFFF
ZERO_SEND_TIMEOUT = 0x400 << 16
FAILED = 0x8000


class Thread:
    """A connection to l4d, which is a thread of its kernel."""

    def __init__(self, directory, number):
        self.socket = socket.socket(socket.AF_UNIX)
        self.socket.connect(os.path.join(directory, "space1"))
        (self.id,) = struct.unpack(">Q", self.ask(struct.pack(">BH", 0x01, number), 0x81))

    def ask(self, body, kind):
        """Sends one frame, and answers the body of the next one, which has to be of this kind."""
        self.socket.sendall(struct.pack(">I", len(body)) + body)
        (length,) = struct.unpack(">I", self.take(4))
        answer = self.take(length)
        if answer[0] == 0x84:
            raise SystemExit(f"REFUSED K{answer[1]}")
        if answer[0] == 0x85:
            raise SystemExit(f"FAULT {answer[1]:c}{answer[2]}")
        if answer[0] != kind:
            raise SystemExit(f"another kind of frame: {answer[0]:#x}")
        return answer[1:]

    def take(self, count):
        """So many bytes of the stream."""
        taken = b""
        while len(taken) < count:
            more = self.socket.recv(count - len(taken))
            if not more:
                raise SystemExit("the server has ended")
            taken += more
        return taken

    def ipc(self, to, receive_from, timeouts, words):
        """One Ipc system call with untyped words alone: the sender and the words of what came, or the ErrorCode."""
        head = struct.pack(">BQQIQQQB", 0x02, to, receive_from, timeouts, NIL, len(words), 0, 0)
        answer = self.ask(head + b"".join(struct.pack(">Q", word) for word in words), 0x82)
        tag, sender, _, error = struct.unpack(">QQQQ", answer[:32])
        if tag & FAILED:
            return None, error
        untyped = tag & 0x3F
        return sender, list(struct.unpack(f">{untyped}Q", answer[32 : 32 + 8 * untyped]))


def serve(directory):
    thread = Thread(directory, 1)
    sender, words = thread.ipc(NIL, ANY, 0, [])
    while True:
        if sender is None:
            sender, words = thread.ipc(NIL, ANY, 0, [])
        else:
            sender, words = thread.ipc(sender, ANY, ZERO_SEND_TIMEOUT, [(word + 1) % 2**64 for word in words])


def ask(directory, word):
    thread = Thread(directory, 2)
    server = 1 << 32 | 1
    sender, words = thread.ipc(server, server, 0, [word])
    print(f"error {words:#x}" if sender is None else words[0])


def main(words):
    if len(words) == 2 and words[1] == "serve":
        serve(words[0])
    elif len(words) == 3 and words[1] == "ask" and words[2].isdecimal() and int(words[2]) < 2**64:
        ask(words[0], int(words[2]))
    else:
        print(__doc__, file=sys.stderr)
        sys.exit(2)


if __name__ == "__main__":
    try:
        main(sys.argv[1:])
    except KeyboardInterrupt:
        sys.exit(130)
    except OSError as error:
        sys.exit(f"echo: {sys.argv[1]}/space1: {error}")
